//! Files and directories, with UTF-8 paths. A path that the system returns and that is not UTF-8 is an error of the kind `InvalidFilename`.
//! Other errors are those of `std::fs`, or of the kind `OutOfMemory` if an allocation fails.
use crate::shim::alloc::{AllocError, Global};
use crate::shim::io::{Error, ErrorKind, Read, Result, Write};
use crate::shim::path::{Path, PathBuf};
use crate::shim::prelude::{HostRuntime, String};
use std::ffi::OsStr;
use std::fs;
pub use std::fs::{Metadata, Permissions};

/// An open file, which is closed when it is dropped.
#[derive(Debug)]
pub struct File(pub(super) fs::File);

impl File {
    /// Opens an existing file for reading.
    pub fn open(_: &HostRuntime, path: &str) -> Result<File> {
        fs::File::open(path).map(File)
    }

    /// Opens a file for writing. Creates it if it does not exist, and truncates it otherwise.
    pub fn create(_: &HostRuntime, path: &str) -> Result<File> {
        fs::File::create(path).map(File)
    }

    /// Returns the metadata of the file.
    pub fn metadata(&self) -> Result<Metadata> {
        self.0.metadata()
    }

    /// Sets the permissions of the file.
    pub fn set_permissions(&self, permissions: Permissions) -> Result<()> {
        self.0.set_permissions(permissions)
    }

    /// Writes all data and metadata of the file to the disk before it returns.
    pub fn sync_all(&self) -> Result<()> {
        self.0.sync_all()
    }
}

/// How a file is opened.
#[derive(Clone, Debug)]
pub struct OpenOptions(pub(super) fs::OpenOptions);

impl OpenOptions {
    /// Returns options of which none is set.
    #[allow(clippy::new_without_default)]
    pub fn new() -> OpenOptions {
        OpenOptions(fs::OpenOptions::new())
    }

    /// Sets whether the file is opened for writing.
    pub fn write(&mut self, write: bool) -> &mut OpenOptions {
        self.0.write(write);
        self
    }

    /// Sets whether the file is created. If it exists, it is not changed, and the error is of the kind `AlreadyExists`.
    pub fn create_new(&mut self, create_new: bool) -> &mut OpenOptions {
        self.0.create_new(create_new);
        self
    }

    /// Opens a file.
    pub fn open(&self, _: &HostRuntime, path: &str) -> Result<File> {
        self.0.open(path).map(File)
    }
}

/// Each read is a single system call, which may read fewer bytes than the buffer holds and fails if it is interrupted.
impl Read for File {
    fn read(&mut self, buffer: &mut [u8]) -> Result<usize> {
        self.0.read(buffer)
    }
}

/// Each `write` is a single system call, which may write fewer bytes than specified and fails if it is interrupted. `write_all` continues after a
/// short write and retries after an interrupted one.
impl Write for File {
    fn write(&mut self, bytes: &[u8]) -> Result<usize> {
        self.0.write(bytes)
    }

    fn flush(&mut self) -> Result<()> {
        Ok(())
    }
}

/// Returns the metadata of the file or directory at a path. Symbolic links are followed.
pub fn metadata(_: &HostRuntime, path: &str) -> Result<Metadata> {
    fs::metadata(path)
}

/// Returns the metadata of the file, directory or symbolic link at a path. A link in the last component is not followed.
pub fn symlink_metadata(_: &HostRuntime, path: &str) -> Result<Metadata> {
    fs::symlink_metadata(path)
}

/// Returns the absolute path of a file or directory, with all symbolic links resolved.
pub fn canonicalize(rt: &HostRuntime, path: &str) -> Result<PathBuf> {
    let found = fs::canonicalize(path)?;
    Ok(PathBuf::from_str(rt.alloc(), text_of(found.as_os_str())?)?)
}

/// Renames a file, and replaces the file at the new path if there is one.
pub fn rename(_: &HostRuntime, from: &str, to: &str) -> Result<()> {
    fs::rename(from, to)
}

/// Removes a file, or a symbolic link without the file that it refers to.
pub fn remove_file(_: &HostRuntime, path: &str) -> Result<()> {
    fs::remove_file(path)
}

fn text_of(name: &OsStr) -> Result<&str> {
    name.to_str().ok_or(Error::from(ErrorKind::InvalidFilename))
}

/// An iterator over the entries of a directory, in the system's order, without `.` and `..`.
#[derive(Debug)]
pub struct ReadDir {
    /// The directory's path, which ends with `/` unless it is empty: the prefix of each entry's path.
    folder: String,
    entries: fs::ReadDir,
    alloc: Global,
}

/// An entry of a directory.
#[derive(Debug)]
pub struct DirEntry {
    path: String,
}

impl DirEntry {
    /// Returns the entry's path: the directory's path as passed to [`read_dir`], a `/` if it does not end with one, and the entry's name.
    pub fn path(&self) -> Path<'_> {
        Path::new(self.path.as_str())
    }
}

/// Returns an iterator over the entries of a directory. A symbolic link to a directory is followed.
pub fn read_dir(rt: &HostRuntime, path: &str) -> Result<ReadDir> {
    let mut folder = String::from_str(rt.alloc(), path)?;
    if !path.is_empty() && !path.ends_with('/') {
        folder.push('/')?;
    }
    let entries = fs::read_dir(folder.as_str())?;
    Ok(ReadDir {
        folder,
        entries,
        alloc: rt.alloc(),
    })
}

impl ReadDir {
    fn path_of(&self, name: &str) -> core::result::Result<String, AllocError> {
        let mut path = String::from_str(self.alloc, self.folder.as_str())?;
        path.push_str(name)?;
        Ok(path)
    }
}

/// An entry that is an error does not end the iteration.
impl Iterator for ReadDir {
    type Item = Result<DirEntry>;

    fn next(&mut self) -> Option<Result<DirEntry>> {
        let entry = self.entries.next()?;
        Some(entry.and_then(|entry| {
            let name = entry.file_name();
            let path = self.path_of(text_of(&name)?)?;
            Ok(DirEntry { path })
        }))
    }
}
