//! The part of `std::os::unix::fs` that the commands use.

/// Names of Unix.
pub mod unix {
    /// Permissions of a new file, owners of files, and numbers that identify them.
    #[cfg(unix)]
    pub mod fs {
        use crate::shim::fs::{File, OpenOptions};
        use std::os::fd::{AsFd, BorrowedFd};
        use std::os::unix::fs::OpenOptionsExt as _;
        pub use std::os::unix::fs::{MetadataExt, fchown};

        /// Sets the permissions of a file that is created.
        pub trait OpenOptionsExt {
            /// Sets the permissions of a file that is created, before the umask.
            fn mode(&mut self, mode: u32) -> &mut Self;
        }

        impl OpenOptionsExt for OpenOptions {
            fn mode(&mut self, mode: u32) -> &mut OpenOptions {
                self.0.mode(mode);
                self
            }
        }

        impl AsFd for File {
            fn as_fd(&self) -> BorrowedFd<'_> {
                self.0.as_fd()
            }
        }
    }

    /// Substitutes for other systems: a file has no owner and no number, and the system decides who can open a new file.
    #[cfg(not(unix))]
    pub mod fs {
        use crate::shim::fs::{File, Metadata, OpenOptions};
        use crate::shim::io::Result;

        /// Ignores the permissions of a file that is created.
        pub trait OpenOptionsExt {
            /// Does nothing.
            fn mode(&mut self, _: u32) -> &mut Self {
                self
            }
        }

        impl OpenOptionsExt for OpenOptions {}

        /// Metadata of Unix, all 0.
        #[allow(missing_docs)]
        pub trait MetadataExt {
            fn dev(&self) -> u64 {
                0
            }

            fn ino(&self) -> u64 {
                0
            }

            fn uid(&self) -> u32 {
                0
            }

            fn gid(&self) -> u32 {
                0
            }

            fn ctime(&self) -> i64 {
                0
            }

            fn ctime_nsec(&self) -> i64 {
                0
            }
        }

        impl MetadataExt for Metadata {}

        /// Does nothing.
        pub fn fchown(_: &File, _: Option<u32>, _: Option<u32>) -> Result<()> {
            Ok(())
        }
    }
}
