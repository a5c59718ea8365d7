//! Locks on names: who changes a file holds the lock of its name, as an empty file beside it, which is removed at the end.

use std::fs::{self, File};
use std::io;
use std::os::unix::fs::OpenOptionsExt;
use std::path::{Path, PathBuf};

use super::names::{self, NO_LINK};

/// The lock of one name, held until it is dropped.
struct Lock {
    file: File,
    path: PathBuf,
}

impl Lock {
    fn of(full: &Path) -> io::Result<Self> {
        let path = names::behind(full, ".keccak-lock");
        loop {
            let mut open = File::options();
            open.read(true).write(true).create(true).custom_flags(NO_LINK);
            let file = open.open(&path)?;
            match file.lock() {
                Err(error) if error.kind() != io::ErrorKind::Unsupported => return Err(error),
                _ => {}
            }
            // Whoever held it before has removed it, and then it locks nothing.
            let about = file.metadata()?;
            if fs::symlink_metadata(&path).is_ok_and(|there| names::same(&there, &about)) {
                return Ok(Self { file, path });
            }
        }
    }
}

impl Drop for Lock {
    fn drop(&mut self) {
        // What is not empty is none of ours; what can't be removed is taken by the next.
        if self.file.metadata().is_ok_and(|about| about.len() == 0) {
            let _ = fs::remove_file(&self.path);
        }
    }
}

/// The locks of some names, taken in one order by all.
pub struct Locks(#[expect(dead_code, reason = "they are held")] Vec<Lock>);

impl Locks {
    pub fn of(targets: &[PathBuf]) -> io::Result<Self> {
        let mut targets = targets.to_vec();
        targets.sort();
        targets.dedup();
        targets
            .iter()
            .map(|target| Lock::of(target))
            .collect::<Result<_, _>>()
            .map(Self)
    }
}
