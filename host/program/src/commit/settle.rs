//! Changes that a run left open are finished, or undone, by the next that comes upon them.

use std::fs::{self, File};
use std::io::{self, Write};
use std::path::{Path, PathBuf};

use super::journal::{self, Entry, Found};
use super::lock::Locks;
use super::names;
use crate::Failure;
use crate::files::full_name;

/// Finishes or undoes what is left open of changes of these names, and says so.
pub fn settle(targets: &[PathBuf], errors: &mut dyn Write) -> io::Result<()> {
    for target in targets {
        while let Some(found) = journal::read(target)? {
            settle_found(target, &found, errors).map_err(|error| {
                let words = format!("a change of it was cut short, and can't be ended: {error}");
                io::Error::new(error.kind(), words)
            })?;
        }
    }
    Ok(())
}

fn settle_found(target: &Path, found: &Found, errors: &mut dyn Write) -> io::Result<()> {
    let all = concerned(target, found)?;
    let _locks = Locks::of(&all)?;
    // The run may have been alive, and has ended it.
    match journal::read(target)? {
        Some(found) if concerned(target, &found)? == all => settle_locked(target, found, errors),
        _ => Ok(()),
    }
}

/// The names that a change is of.
fn concerned(target: &Path, found: &Found) -> io::Result<Vec<PathBuf>> {
    let mut all = vec![target.to_path_buf()];
    let with = match found {
        Found::Change { entries, .. } => Some(entries.clone()),
        Found::Cut => None,
        Found::With(first) => {
            all.push(first.clone());
            change_with(first, target)?.map(|(_, entries)| entries)
        }
    };
    all.extend(with.into_iter().flatten().map(|entry| entry.target));
    Ok(all)
}

/// The change that stands beside a name, where another is of it too.
fn change_with(first: &Path, target: &Path) -> io::Result<Option<(bool, Vec<Entry>)>> {
    Ok(match journal::read(first)? {
        Some(Found::Change { undo, entries }) if entries.iter().any(|entry| entry.target == target) => {
            Some((undo, entries))
        }
        _ => None,
    })
}

fn settle_locked(target: &Path, found: Found, errors: &mut dyn Write) -> io::Result<()> {
    let change = match found {
        Found::Change { undo, entries } => Some((undo, entries)),
        Found::With(first) => change_with(&first, target)?,
        Found::Cut => None,
    };
    // A note without its journal, or what is cut, is of a change that had not begun, or has ended.
    let Some((undo, entries)) = change else {
        return remove_note(target);
    };
    let finished = !undo && resumed(&entries).is_ok();
    let ended = if finished {
        journal::remove(&entries)?;
        clear(&entries);
        "finished"
    } else {
        backward(&entries)?;
        "undone"
    };
    // What can't be told is lost: there is nobody else to tell.
    let _ = writeln!(
        errors,
        "{}: a change that was cut short is {ended}",
        entries[0].target.display()
    );
    Ok(())
}

fn remove_note(target: &Path) -> io::Result<()> {
    for path in [journal::journal_of(target), journal::undo_of(target)] {
        match fs::remove_file(path) {
            Err(error) if error.kind() != io::ErrorKind::NotFound => return Err(error),
            _ => {}
        }
    }
    Ok(())
}

/// Gives the files of a change their names.
pub fn forward(entries: &[Entry]) -> io::Result<()> {
    for entry in entries {
        fs::rename(entry.part(), &entry.target)?;
    }
    journal::folders(entries).into_iter().try_for_each(names::sync_folder)
}

/// The same where some may have them already.
fn resumed(entries: &[Entry]) -> io::Result<()> {
    for entry in entries {
        if entry.part().try_exists()? {
            fs::rename(entry.part(), &entry.target)?;
        }
    }
    journal::folders(entries).into_iter().try_for_each(names::sync_folder)
}

/// Gives what was there its names back. The journal is first renamed, so that from then on nobody goes the other way; all that follows can be
/// done again.
pub fn backward(entries: &[Entry]) -> io::Result<()> {
    let first = &entries[0].target;
    if journal::journal_of(first).try_exists()? {
        fs::rename(journal::journal_of(first), journal::undo_of(first))?;
    }
    for entry in entries.iter().rev() {
        let taken = !entry.part().try_exists()?;
        if taken && entry.had {
            give_back(entry)?;
        } else if taken {
            fs::remove_file(&entry.target).or_else(gone)?;
        }
    }
    journal::folders(entries).into_iter().try_for_each(names::sync_folder)?;
    for entry in entries {
        fs::remove_file(entry.part()).or_else(gone)?;
    }
    journal::remove(entries)?;
    clear(entries);
    Ok(())
}

/// A second name goes back to the first; where that was done before, it is gone.
fn give_back(entry: &Entry) -> io::Result<()> {
    if entry.old().try_exists()? {
        fs::rename(entry.old(), &entry.target)?;
    }
    Ok(())
}

fn gone(error: io::Error) -> io::Result<()> {
    match error.kind() {
        io::ErrorKind::NotFound => Ok(()),
        _ => Err(error),
    }
}

/// Removes the journal and the second names of a change that has ended. What can't be removed, the next run removes.
pub fn clear(entries: &[Entry]) {
    if journal::remove(entries).is_ok() {
        entries.iter().for_each(|entry| drop(fs::remove_file(entry.old())));
    }
}

/// Opens files that may be of one change, so that all are from before it or all from after it. Each may be one that can't be opened.
pub fn open_together<const N: usize>(
    paths: [&Path; N],
    errors: &mut dyn Write,
) -> Result<[io::Result<File>; N], Failure> {
    let mut opened = paths.map(|_| None);
    loop {
        let targets: Vec<PathBuf> = paths.iter().filter_map(|path| full_name(path).ok()).collect();
        for target in &targets {
            settle(std::slice::from_ref(target), errors).map_err(Failure::file(target))?;
        }
        for (path, file) in paths.iter().zip(&mut opened) {
            file.get_or_insert_with(|| File::open(path));
        }
        // A change stands in its journal from before its first name to after its last.
        let open = targets.iter().any(|target| journal::is_there(target));
        let mut moved = false;
        for (path, file) in paths.iter().zip(&mut opened) {
            if file
                .as_ref()
                .is_some_and(|file| open && is_regular(file) || is_elsewhere(path, file))
            {
                (moved, *file) = (true, None);
            }
        }
        if !moved {
            return Ok(opened.map(|file| file.expect("each was opened")));
        }
    }
}

fn is_regular(file: &io::Result<File>) -> bool {
    file.as_ref()
        .is_ok_and(|file| file.metadata().is_ok_and(|about| about.is_file()))
}

/// Whether a name leads no longer to the file that was opened by it.
fn is_elsewhere(path: &Path, file: &io::Result<File>) -> bool {
    let about = file.as_ref().map(File::metadata);
    match (about, fs::metadata(path)) {
        (Ok(Ok(about)), Ok(there)) => about.is_file() && !names::same(&about, &there),
        _ => false,
    }
}
