//! The names that stand beside a file while it is changed, and what of them a run that ended before its time has left.

use std::collections::hash_map::RandomState;
use std::fs::{self, File, Metadata};
use std::hash::{BuildHasher, Hasher};
use std::io;
use std::os::unix::fs::{MetadataExt, OpenOptionsExt};
use std::path::{Path, PathBuf};

use crate::system;

/// `O_NOFOLLOW` of the C library: a name that is a link is not followed.
pub const NO_LINK: i32 = 0o400_000;

/// How many digits a drawn name has.
const DIGITS: usize = 16;

/// A name with something behind it.
pub fn behind(full: &Path, end: &str) -> PathBuf {
    let mut name = full.to_path_buf().into_os_string();
    name.push(end);
    PathBuf::from(name)
}

/// The name of what is written, while it is.
pub fn part_of(full: &Path, id: &str) -> PathBuf {
    behind(full, &format!(".{id}.part"))
}

/// The second name of what was there, while another takes its first.
pub fn old_of(full: &Path, id: &str) -> PathBuf {
    behind(full, &format!(".{id}.old"))
}

/// Digits that no other run has: not the number of the process, which comes again.
pub fn draw() -> String {
    format!("{:016x}", RandomState::new().build_hasher().finish())
}

pub fn is_drawn(id: &str) -> bool {
    id.len() == DIGITS && id.bytes().all(|byte| byte.is_ascii_hexdigit())
}

/// The folder that a full name stands in.
pub fn folder_of(full: &Path) -> &Path {
    full.parent().unwrap_or(Path::new("/"))
}

pub fn same(left: &Metadata, right: &Metadata) -> bool {
    (left.dev(), left.ino()) == (right.dev(), right.ino())
}

/// Removes what runs that ended before their time left beside a name. Its lock is held and no journal names it, so second names belong to
/// nobody, and parts to a run that is alive only where that has locked them.
pub fn remove_left(full: &Path) -> io::Result<()> {
    let name = full.file_name().unwrap_or_default().as_encoded_bytes();
    for entry in fs::read_dir(folder_of(full))? {
        let path = entry?.path();
        let found = path.file_name().unwrap_or_default().as_encoded_bytes();
        let end = found.strip_prefix(name).and_then(|end| str::from_utf8(end).ok());
        match end.and_then(|end| end.strip_prefix('.')?.split_once('.')) {
            Some((id, "part")) if is_drawn(id) && is_dead(&path) => remove(&path)?,
            Some((id, "old")) if is_drawn(id) && is_own(&path) => fs::remove_file(&path)?,
            _ => {}
        }
    }
    Ok(())
}

fn is_own(path: &Path) -> bool {
    fs::symlink_metadata(path).is_ok_and(|about| about.uid() == system::user())
}

/// Whether nobody holds the lock of a part.
fn is_dead(path: &Path) -> bool {
    let file = File::options().read(true).custom_flags(NO_LINK).open(path);
    is_own(path) && file.is_ok_and(|file| file.try_lock().is_ok())
}

fn remove(path: &Path) -> io::Result<()> {
    if fs::symlink_metadata(path)?.is_dir() {
        fs::remove_dir_all(path)
    } else {
        fs::remove_file(path)
    }
}

/// Puts what a folder says of its files on the disk.
pub fn sync_folder(folder: &Path) -> io::Result<()> {
    match File::open(folder)?.sync_all() {
        // Some file systems have no such thing.
        Err(error) if error.kind() == io::ErrorKind::InvalidInput => Ok(()),
        synced => synced,
    }
}
