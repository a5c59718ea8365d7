//! The journal of a change of some files: it stands beside the first of them, from before the first takes its name until the last has, and
//! says which are to. Beside each other one stands a note that leads to it. So whoever comes upon any of them finds the change.
//!
//! Both are synced before the first name is taken, and end with a digest: what is cut is of a change that had not begun.

use std::ffi::OsStr;
use std::fs::{self, File};
use std::io::{self, Read, Write};
use std::os::unix::ffi::OsStrExt;
use std::os::unix::fs::{MetadataExt, OpenOptionsExt};
use std::path::{Path, PathBuf};

use super::names::{self, NO_LINK, folder_of};
use crate::{sha256, system};

const BEGINS: &str = "keccak-tables journal 1";

/// The most bytes that a journal can have: three names.
const MOST: u64 = 1 << 16;

/// A file that is to take its name, and whether something had it before.
#[derive(Debug, Clone, PartialEq, Eq)]
pub struct Entry {
    pub target: PathBuf,
    pub id: String,
    pub had: bool,
}

impl Entry {
    pub fn part(&self) -> PathBuf {
        names::part_of(&self.target, &self.id)
    }

    pub fn old(&self) -> PathBuf {
        names::old_of(&self.target, &self.id)
    }
}

/// What stands beside a name.
#[derive(Debug, PartialEq, Eq)]
pub enum Found {
    /// A change that is to be finished, or where so marked undone.
    Change { undo: bool, entries: Vec<Entry> },
    /// The name beside which the change stands.
    With(PathBuf),
    /// The beginning of one of these.
    Cut,
}

pub fn journal_of(full: &Path) -> PathBuf {
    names::behind(full, ".keccak-journal")
}

/// The journal's name where the change is to be undone.
pub fn undo_of(full: &Path) -> PathBuf {
    names::behind(full, ".keccak-undo")
}

/// Whether something stands beside a name.
pub fn is_there(full: &Path) -> bool {
    [journal_of(full), undo_of(full)]
        .iter()
        .any(|path| fs::symlink_metadata(path).is_ok())
}

/// What stands beside a name, if anything does.
pub fn read(full: &Path) -> io::Result<Option<Found>> {
    for (path, undo) in [(undo_of(full), true), (journal_of(full), false)] {
        let file = match File::options().read(true).custom_flags(NO_LINK).open(&path) {
            Err(error) if error.kind() == io::ErrorKind::NotFound => continue,
            file => file?,
        };
        // A journal renames files: nobody else's is followed.
        if file.metadata()?.uid() != system::user() {
            return Err(io::Error::other(
                "a change of it was cut short, and another user's journal stands beside it",
            ));
        }
        let mut bytes = Vec::new();
        file.take(MOST).read_to_end(&mut bytes)?;
        return Ok(Some(found(&bytes, folder_of(full), undo).unwrap_or(Found::Cut)));
    }
    Ok(None)
}

fn found(bytes: &[u8], folder: &Path, undo: bool) -> Option<Found> {
    let (text, digest) = bytes.split_at_checked(bytes.len().checked_sub(64)?)?;
    if sha256::hex(text).as_bytes() != digest {
        return None;
    }
    let mut fields = text.strip_suffix(b"\0")?.split(|&byte| byte == 0);
    let mut next = || fields.next();
    let path = |bytes| folder.join(OsStr::from_bytes(bytes));
    if next()? != BEGINS.as_bytes() {
        return None;
    }
    if next()? == b"with" {
        return Some(Found::With(path(next()?)));
    }
    let mut entries = Vec::new();
    while let Some(id) = next() {
        let id = str::from_utf8(id).ok().filter(|id| names::is_drawn(id))?.to_string();
        let (had, target) = (next()? == b"had", path(next()?));
        entries.push(Entry { target, id, had });
    }
    Some(Found::Change { undo, entries })
}

/// Writes a journal and its notes, and puts them on the disk; the journal last, because with it the change has begun. Where that fails, it is
/// also said whether a journal is there: without one the notes say of nothing.
pub fn write(entries: &[Entry]) -> Result<(), (io::Error, bool)> {
    let first = &entries[0].target;
    let mut fields: Vec<Vec<u8>> = vec![b"change".to_vec()];
    for Entry { target, id, had } in entries {
        let had: &[u8] = if *had { b"had" } else { b"none" };
        fields.extend([
            id.as_bytes().to_vec(),
            had.to_vec(),
            name_from(folder_of(first), target),
        ]);
    }
    let notes = entries[1..].iter().try_for_each(|entry| {
        let fields = [b"with".to_vec(), name_from(folder_of(&entry.target), first)];
        put(&entry.target, &fields)?.sync_all()
    });
    let journal = notes.and_then(|()| put(first, &fields));
    let journal = journal.map_err(|error| (error, false))?;
    let synced = journal
        .sync_all()
        .and_then(|()| folders(entries).into_iter().try_for_each(names::sync_folder));
    synced.map_err(|error| (error, true))
}

/// A name as it stands in a journal: where that is in the same folder, by its last part, so that the folder may be moved.
fn name_from(folder: &Path, full: &Path) -> Vec<u8> {
    full.strip_prefix(folder)
        .unwrap_or(full)
        .as_os_str()
        .as_bytes()
        .to_vec()
}

fn put(full: &Path, fields: &[Vec<u8>]) -> io::Result<File> {
    let mut text = BEGINS.as_bytes().to_vec();
    text.push(0);
    for field in fields {
        text.extend_from_slice(field);
        text.push(0);
    }
    let digest = sha256::hex(&text);
    text.extend_from_slice(digest.as_bytes());
    let mut file = File::create_new(journal_of(full))?;
    file.write_all(&text)?;
    Ok(file)
}

/// Removes a journal, and then its notes: without it they say nothing.
pub fn remove(entries: &[Entry]) -> io::Result<()> {
    for entry in entries {
        for path in [journal_of(&entry.target), undo_of(&entry.target)] {
            match fs::remove_file(path) {
                Err(error) if error.kind() != io::ErrorKind::NotFound => return Err(error),
                _ => {}
            }
        }
    }
    Ok(())
}

/// The folders of a change, each once.
pub fn folders(entries: &[Entry]) -> Vec<&Path> {
    let mut folders: Vec<&Path> = entries.iter().map(|entry| folder_of(&entry.target)).collect();
    folders.sort();
    folders.dedup();
    folders
}
