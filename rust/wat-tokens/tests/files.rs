//! The shim's functions for files and directories: their results, and their errors if an allocation fails.

#[path = "../../wat-lex/tests/refusing/mod.rs"]
mod refusing;

use refusing::granting;
use std::fs as system;
use std::io::{Error, ErrorKind, Read, Result, Write};
use std::path::{Path, PathBuf};
use wat_tokens::shim::fs::{self, File, OpenOptions};
use wat_tokens::shim::rt::HostRuntime;

/// A temporary directory of a test, which is removed when it is dropped.
struct Folder(PathBuf);

impl Folder {
    fn new(name: &str) -> Folder {
        let folder = std::env::temp_dir().join(format!("wat_tokens-{}-{name}", std::process::id()));
        system::create_dir(&folder).unwrap();
        Folder(folder)
    }

    fn path(&self, name: &str) -> String {
        self.0.join(name).to_str().unwrap().to_owned()
    }

    fn file(&self, name: &str, text: &str) -> String {
        system::write(self.0.join(name), text).unwrap();
        self.path(name)
    }
}

impl Drop for Folder {
    fn drop(&mut self) {
        let _ = system::remove_dir_all(&self.0);
    }
}

fn rt() -> HostRuntime {
    HostRuntime::of_process()
}

fn create_new(path: &str) -> Result<File> {
    OpenOptions::new()
        .write(true)
        .create_new(true)
        .open(&rt(), path)
}

fn kind<T>(answer: Result<T>) -> ErrorKind {
    answer.err().expect("the call fails").kind()
}

fn code<T>(answer: Result<T>) -> Option<i32> {
    answer.err().expect("the call fails").raw_os_error()
}

#[test]
fn a_file_is_read_in_order_up_to_its_end() {
    let folder = Folder::new("read");
    let mut file = File::open(&rt(), &folder.file("a", "abcde")).unwrap();
    let mut buffer = [0; 3];
    assert_eq!(file.read(&mut buffer).unwrap(), 3);
    assert_eq!(&buffer, b"abc");
    assert_eq!(file.read(&mut []).unwrap(), 0);
    assert_eq!(file.read(&mut buffer).unwrap(), 2);
    assert_eq!(&buffer[..2], b"de");
    assert_eq!(file.read(&mut buffer).unwrap(), 0);
    assert!(
        file.write(b"x").is_err(),
        "it is open to be read, and no more"
    );
}

/// Writes and reads two megabytes: a call returns the number of bytes that it moved, which for a regular file are all.
#[test]
fn a_call_moves_as_many_bytes_as_it_says() {
    let folder = Folder::new("long");
    let path = folder.path("new");
    let bytes: Vec<u8> = (0..=u8::MAX).cycle().take(2_000_000).collect();
    let mut file = File::create(&rt(), &path).unwrap();
    assert_eq!(file.write(&bytes).unwrap(), bytes.len());
    assert!(system::read(&path).unwrap() == bytes);
    let mut buffer = vec![0; bytes.len() + 1];
    let count = File::open(&rt(), &path).unwrap().read(&mut buffer).unwrap();
    assert_eq!(count, bytes.len());
    assert!(buffer[..count] == bytes);
    File::create(&rt(), &path).unwrap();
    assert_eq!(system::read(&path).unwrap(), b"", "the file is emptied");
}

#[test]
fn a_path_that_leads_nowhere_is_an_error_of_the_system() {
    let folder = Folder::new("nowhere");
    let (missing, beyond) = (
        folder.path("missing"),
        format!("{}/x", folder.file("a", "")),
    );
    assert_eq!(kind(File::open(&rt(), &missing)), ErrorKind::NotFound);
    assert_eq!(code(File::open(&rt(), &missing)), Some(2));
    assert_eq!(code(fs::metadata(&rt(), &missing)), Some(2));
    assert_eq!(code(fs::symlink_metadata(&rt(), &missing)), Some(2));
    assert_eq!(code(fs::canonicalize(&rt(), &missing)), Some(2));
    assert_eq!(code(fs::remove_file(&rt(), &missing)), Some(2));
    assert_eq!(code(fs::rename(&rt(), &missing, &missing)), Some(2));
    assert_eq!(code(fs::read_dir(&rt(), &missing)), Some(2));
    assert_eq!(code(create_new(&beyond)), Some(20));
    assert_eq!(
        kind(File::open(&rt(), "a\0b")),
        ErrorKind::InvalidInput,
        "no path has a NUL"
    );
}

#[test]
fn a_folder_is_no_text() {
    let folder = Folder::new("folder");
    let mut opened = File::open(&rt(), &folder.path("")).unwrap();
    assert_eq!(code(opened.read(&mut [0; 8])), Some(21));
}

#[test]
fn a_new_file_takes_no_place_of_another() {
    let folder = Folder::new("new");
    let old = folder.file("old", "kept");
    assert_eq!(kind(create_new(&old)), ErrorKind::AlreadyExists);
    assert_eq!(system::read_to_string(&old).unwrap(), "kept");

    let new = folder.path("new");
    let mut file = create_new(&new).unwrap();
    file.write_all(b"abc").unwrap();
    file.write_all(b"").unwrap();
    file.flush().unwrap();
    file.sync_all().unwrap();
    assert_eq!(system::read_to_string(&new).unwrap(), "abc");

    fs::rename(&rt(), &new, &old).unwrap();
    assert_eq!(system::read_to_string(&old).unwrap(), "abc");
    assert!(!Path::new(&new).exists());
    fs::remove_file(&rt(), &old).unwrap();
    assert!(!Path::new(&old).exists());
}

#[cfg(unix)]
mod of_unix {
    use super::*;
    use std::collections::BTreeSet;
    use std::ffi::OsStr;
    use std::os::unix::ffi::OsStrExt;
    use std::os::unix::fs::{PermissionsExt, symlink};
    use wat_tokens::shim::os::unix::fs::{MetadataExt, OpenOptionsExt, fchown};

    #[test]
    fn permissions_are_those_of_the_file_that_they_are_of() {
        let folder = Folder::new("permissions");
        let (old, new) = (folder.file("old", ""), folder.path("new"));
        system::set_permissions(&old, system::Permissions::from_mode(0o440)).unwrap();
        let permissions = fs::metadata(&rt(), &old).unwrap().permissions();
        assert!(permissions.readonly());
        let file = create_new(&new).unwrap();
        file.set_permissions(permissions).unwrap();
        assert_eq!(
            system::metadata(&new).unwrap().permissions().mode() & 0o7777,
            0o440
        );
        system::set_permissions(&old, system::Permissions::from_mode(0o424)).unwrap();
        let permissions = fs::metadata(&rt(), &old).unwrap().permissions();
        assert!(!permissions.readonly(), "some may write it");
    }

    #[test]
    fn a_new_file_has_the_permissions_of_its_options() {
        let folder = Folder::new("mode");
        let mut options = OpenOptions::new();
        options.write(true).create_new(true);
        for mode in [0o600, 0o400] {
            let path = folder.path(&format!("{mode:o}"));
            let file = options.mode(mode).open(&rt(), &path).unwrap();
            assert_eq!(file.metadata().unwrap().mode() & 0o7777, mode);
        }
    }

    #[test]
    fn metadata_tell_files_apart_and_a_file_before_and_after_a_change() {
        let folder = Folder::new("metadata");
        let numbers = |metadata: &fs::Metadata| (metadata.dev(), metadata.ino());
        let (one, other) = (folder.file("one", ""), folder.file("other", ""));
        let opened = File::open(&rt(), &one).unwrap().metadata().unwrap();
        let found = fs::symlink_metadata(&rt(), &one).unwrap();
        assert_eq!(numbers(&opened), numbers(&found));
        assert_eq!(opened.modified().unwrap(), found.modified().unwrap());
        let other = fs::symlink_metadata(&rt(), &other).unwrap();
        assert_ne!(numbers(&opened), numbers(&other));
        let changed = |metadata: &fs::Metadata| (metadata.ctime(), metadata.ctime_nsec());
        std::thread::sleep(std::time::Duration::from_millis(20));
        system::set_permissions(&one, system::Permissions::from_mode(0o600)).unwrap();
        let later = fs::symlink_metadata(&rt(), &one).unwrap();
        assert_ne!(changed(&opened), changed(&later));
    }

    #[test]
    fn the_owner_and_the_group_of_a_file_are_set_or_it_is_an_error() {
        let folder = Folder::new("owner");
        let file = create_new(&folder.path("a")).unwrap();
        let owned = || {
            let metadata = file.metadata().unwrap();
            (metadata.uid(), metadata.gid())
        };
        let (uid, gid) = owned();
        fchown(&file, Some(uid), Some(gid)).unwrap();
        assert_eq!(owned(), (uid, gid));
        match fchown(&file, Some(uid + 1), Some(gid + 1)) {
            Ok(()) => assert_eq!(owned(), (uid + 1, gid + 1)),
            Err(error) => assert_eq!(error.kind(), ErrorKind::PermissionDenied),
        }
    }

    #[test]
    fn a_link_is_followed_where_that_is_asked() {
        let folder = Folder::new("link");
        let (file, link, around) = (
            folder.file("a", ""),
            folder.path("link"),
            folder.path("around"),
        );
        symlink("a", &link).unwrap();
        symlink(".", &around).unwrap();
        assert!(fs::metadata(&rt(), &link).unwrap().is_file());
        assert!(fs::symlink_metadata(&rt(), &link).unwrap().is_symlink());
        assert!(fs::metadata(&rt(), &around).unwrap().is_dir());
        assert!(!fs::symlink_metadata(&rt(), &around).unwrap().is_dir());
        let found = fs::canonicalize(&rt(), &format!("{around}/./link")).unwrap();
        assert_eq!(
            Path::new(found.as_str()),
            system::canonicalize(&file).unwrap()
        );
    }

    /// Returns the paths of a directory's entries, and the errors of those without a path.
    fn entries(path: &str) -> (BTreeSet<String>, Vec<Error>) {
        let (mut paths, mut errors) = (BTreeSet::new(), Vec::new());
        for entry in fs::read_dir(&rt(), path).unwrap() {
            match entry {
                Ok(entry) => assert!(paths.insert(entry.path().as_str().to_owned())),
                Err(error) => errors.push(error),
            }
        }
        (paths, errors)
    }

    #[test]
    fn the_entries_of_a_folder_have_its_path_before_their_names() {
        let folder = Folder::new("entries");
        let wanted = BTreeSet::from([folder.file(".a", ""), folder.file("b.wat", "")]);
        let (paths, errors) = entries(&folder.path(""));
        assert_eq!((&paths, errors.len()), (&wanted, 0));
        let without_slash = folder.0.to_str().unwrap();
        assert_eq!(entries(without_slash).0, wanted);
        symlink(".", folder.path("around")).unwrap();
        let (paths, _) = entries(&folder.path("around"));
        assert!(paths.contains(&format!("{without_slash}/around/b.wat")));
        assert_eq!(paths.len(), 3);
        assert_eq!(code(fs::read_dir(&rt(), &folder.path(".a"))), Some(20));
        assert_eq!(code(fs::read_dir(&rt(), "")), Some(2));
    }

    #[test]
    fn a_name_that_is_no_utf_8_is_an_error_and_the_others_come() {
        let folder = Folder::new("bytes");
        let bytes = folder.0.join(OsStr::from_bytes(b"\xe9.wat"));
        if system::write(&bytes, "").is_err() {
            println!("left out, as names are UTF-8 here");
            return;
        }
        let wanted = BTreeSet::from([folder.file("a", ""), folder.file("b", "")]);
        let (paths, errors) = entries(&folder.path(""));
        assert_eq!(paths, wanted);
        assert_eq!(errors.len(), 1);
        assert_eq!(
            (errors[0].kind(), errors[0].raw_os_error()),
            (ErrorKind::InvalidFilename, None)
        );
        symlink(&bytes, folder.path("link")).unwrap();
        assert_eq!(
            kind(fs::canonicalize(&rt(), &folder.path("link"))),
            ErrorKind::InvalidFilename
        );
    }
}

/// Fails the last allocation of a call. Returns the number of allocations, and the kind of the error. Allocations before it may be those of Rust's
/// standard library, which terminates the process if one fails.
fn without_the_last<T>(call: impl Fn() -> Result<T>) -> (usize, ErrorKind) {
    let (answer, asked) = granting(usize::MAX, &call);
    assert!(answer.is_ok());
    let (answer, _) = granting(asked - 1, &call);
    (asked, kind(answer))
}

#[test]
fn a_path_that_gets_no_memory_is_an_error() {
    let folder = Folder::new("refused");
    folder.file(
        "a-name-that-is-longer-than-its-folder-and-so-does-not-fit",
        "",
    );
    let rt = rt();
    assert_eq!(
        without_the_last(|| fs::canonicalize(&rt, "/")).1,
        ErrorKind::OutOfMemory
    );
    // The first allocation is for the directory's path, which is the prefix of each entry's path.
    let path = folder.path("");
    let (answer, _) = granting(0, || fs::read_dir(&rt, &path));
    assert_eq!(kind(answer), ErrorKind::OutOfMemory);
    let next = || {
        let mut entries = fs::read_dir(&rt, &path)?;
        // The path takes two allocations: one for the directory's path, and one that grows it for the name.
        entries.next().unwrap().map(|_| ())
    };
    let (asked, failure) = without_the_last(next);
    assert_eq!(failure, ErrorKind::OutOfMemory);
    let (answer, _) = granting(asked - 2, next);
    assert_eq!(kind(answer), ErrorKind::OutOfMemory);
}
