//! Files that take their names together, or not at all.
//!
//! Each is written beside its name, on the disk before anything else happens. Then, with the names locked: what is there gets a second name;
//! a journal is written that says which files are to take which names; they take them; the journal goes. A run that ends between leaves the
//! journal, and whoever comes upon it first finishes the change, or undoes it where it can't be finished, before it does anything else. So
//! what is read by these commands is all old or all new.

mod journal;
mod lock;
mod names;
mod part;
mod settle;

pub use part::{NewFolder, WordFile};
pub use settle::{open_together, settle};

use std::io;
use std::path::PathBuf;

use super::{Failure, Outcome, Streams, system};
use journal::Entry;
use lock::Locks;

/// Gives files their names, all or none, now that what is printed has left. Status 0 says that they have them: from the first name on signals
/// are held back, and a process ends here, before its memory is given back, which takes longer than all of this.
pub fn commit(files: Vec<WordFile>, streams: &mut Streams) -> Result<Outcome, Failure> {
    streams.output.flush()?;
    let (mut files, written): (Vec<_>, Vec<_>) = files.into_iter().partition(|file| file.entry().is_some());
    drop(written);
    if !files.is_empty() {
        let targets: Vec<PathBuf> = files.iter().filter_map(WordFile::target).collect();
        let _locks = locked(&targets, streams).map_err(Failure::file(&targets[0]))?;
        together(&mut files, streams.process)?;
    }
    Ok(done(streams))
}

/// Gives a folder its name likewise.
pub fn commit_folder(folder: NewFolder, streams: &mut Streams) -> Result<Outcome, Failure> {
    streams.output.flush()?;
    folder.finish(streams.process)?;
    Ok(done(streams))
}

/// The end of a run that has done all that it was asked.
fn done(streams: &Streams) -> Outcome {
    if streams.process {
        system::leave(0);
    }
    Outcome::Fine
}

/// The locks of names of which no change is left open.
fn locked(targets: &[PathBuf], streams: &mut Streams) -> io::Result<Locks> {
    loop {
        settle(targets, streams.errors)?;
        let locks = Locks::of(targets)?;
        if !targets.iter().any(|target| journal::is_there(target)) {
            // What can't be removed is tried again by the next.
            targets.iter().for_each(|target| drop(names::remove_left(target)));
            return Ok(locks);
        }
    }
}

fn together(files: &mut [WordFile], hold: bool) -> Result<(), Failure> {
    for file in &mut *files {
        file.make_ready()?;
    }
    let entries: Vec<Entry> = files.iter().filter_map(WordFile::entry).cloned().collect();
    let path = files[0].path().to_path_buf();
    let ended = begin(&entries).and_then(|()| {
        if hold {
            system::hold_signals();
        }
        settle::forward(&entries).map_err(|error| match settle::backward(&entries) {
            Ok(()) => error,
            Err(_) => left_open(&error, &entries),
        })
    });
    // A part that a journal names is not removed: whoever settles the change needs it.
    if journal::is_there(&entries[0].target) {
        files.iter_mut().for_each(WordFile::forget);
    }
    match ended {
        Ok(()) => {
            settle::clear(&entries);
            files.iter_mut().for_each(WordFile::forget);
            Ok(())
        }
        Err(error) => Err(Failure::File(path, error)),
    }
}

/// Writes the journal, or nothing that says of anything.
fn begin(entries: &[Entry]) -> io::Result<()> {
    journal::write(entries).map_err(|(error, begun)| match journal::remove(entries) {
        Err(_) if begun => left_open(&error, entries),
        _ => error,
    })
}

/// That a change could be neither made nor undone, and what the next run makes of it.
fn left_open(error: &io::Error, entries: &[Entry]) -> io::Error {
    let next = match journal::undo_of(&entries[0].target).exists() {
        true => "undoes",
        false => "finishes",
    };
    let words = format!("{error}; the change is left open, and the next run on these files {next} it");
    io::Error::new(error.kind(), words)
}
