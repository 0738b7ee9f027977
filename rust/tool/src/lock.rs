//! A lock that runs hold on a file of its own. It goes with the process; the empty file stays.

use crate::files::{leads_to, O_NONBLOCK};
use crate::names::shown;
use crate::report::complain;
use std::fs::{self, File, TryLockError};
use std::io;
use std::os::unix::fs::OpenOptionsExt as _;
use std::path::PathBuf;

pub struct Lock {
    path: PathBuf,
    file: File,
}

impl Lock {
    /// Waits for the lock, and says so if it has to. A lock file that another user made serves too.
    pub fn take(path: PathBuf) -> io::Result<Lock> {
        loop {
            let file = open(&path)?;
            match file.try_lock() {
                Ok(()) => {}
                Err(TryLockError::WouldBlock) => {
                    complain(format!("{}: waiting for another run to end", shown(&path)));
                    file.lock()?;
                }
                Err(TryLockError::Error(error)) => return Err(error),
            }
            // It may have been removed while this run waited.
            if leads_to(&path, &file) {
                return Ok(Lock { path, file });
            }
        }
    }

    /// Whether others who want the lock still come to this file.
    pub fn is_held(&self) -> bool {
        leads_to(&self.path, &self.file)
    }
}

fn open(path: &PathBuf) -> io::Result<File> {
    if fs::metadata(path).is_ok_and(|found| !found.is_file()) {
        return Err(io::Error::other("not a regular file"));
    }
    let made = File::options().create(true).truncate(false).write(true).custom_flags(O_NONBLOCK).open(path);
    made.or_else(|error| File::options().read(true).custom_flags(O_NONBLOCK).open(path).map_err(|_| error))
}
