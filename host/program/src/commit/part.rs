//! What is being written, beside the name that it is to take.

use std::fs::{self, File, Permissions};
use std::io::{self, BufWriter, Write};
use std::os::unix::fs::OpenOptionsExt;
use std::path::{Path, PathBuf};

use super::journal::Entry;
use super::lock::Locks;
use super::names::{self, folder_of};
use crate::files::{PIECE_BYTES, Target, new_folder};
use crate::{Failure, system};

/// `O_TMPFILE` of the C library: a file in a folder, without a name, which is gone when it is closed without one.
const NO_NAME: i32 = 0o20_200_000;

/// A file that is being written: beside its name, which it takes with others when all are whole (`commit`). A device or a pipe has no such
/// name, and is written as it is.
pub struct WordFile {
    path: PathBuf,
    file: BufWriter<File>,
    entry: Option<Entry>,
    /// Whether it has a name meanwhile.
    named: bool,
}

impl WordFile {
    /// Begins the file, with the rights of what is there already. It has no name where the file system can do that, so that a run that ends
    /// before its time leaves nothing.
    pub fn beside(target: &Target) -> Result<Self, Failure> {
        let path = target.path();
        let Some(full) = target.full() else {
            let file = File::options().write(true).open(path).map_err(Failure::file(path))?;
            return Ok(Self::new(path, file, None, false));
        };
        let (target_name, id, had) = (full.to_path_buf(), names::draw(), false);
        let entry = Entry {
            target: target_name,
            id,
            had,
        };
        let file = match unnamed(folder_of(full)) {
            Ok(file) => Self::new(path, file, Some(entry), false),
            Err(_) => {
                let file = named(&entry).map_err(Failure::file(path))?;
                Self::new(path, file, Some(entry), true)
            }
        };
        if let Some(rights) = target.rights() {
            let set = file.file.get_ref().set_permissions(rights);
            set.map_err(Failure::file(path))?;
        }
        Ok(file)
    }

    fn new(path: &Path, file: File, entry: Option<Entry>, named: bool) -> Self {
        Self {
            path: path.to_path_buf(),
            file: BufWriter::with_capacity(PIECE_BYTES, file),
            entry,
            named,
        }
    }

    pub fn put(&mut self, words: &[u64]) -> Result<(), Failure> {
        let mut buffer = [0; PIECE_BYTES];
        for words in words.chunks(PIECE_BYTES / 8) {
            let bytes = &mut buffer[..8 * words.len()];
            for (bytes, word) in bytes.as_chunks_mut().0.iter_mut().zip(words) {
                *bytes = word.to_le_bytes();
            }
            self.put_bytes(bytes)?;
        }
        Ok(())
    }

    /// The same of bytes, for a file that is one of text.
    pub fn put_bytes(&mut self, bytes: &[u8]) -> Result<(), Failure> {
        self.file.write_all(bytes).map_err(Failure::file(&self.path))
    }

    /// Writes what is still held back, and waits until it is on the disk, so that a name that is taken is never that of less. What is no file
    /// has no such thing.
    pub fn sync(&mut self) -> Result<(), Failure> {
        let flushed = self.file.flush();
        let file = self.file.get_ref();
        let synced = flushed.and_then(|()| match file.metadata()?.is_file() {
            true => file.sync_all(),
            false => Ok(()),
        });
        synced.map_err(Failure::file(&self.path))
    }

    pub fn path(&self) -> &Path {
        &self.path
    }

    pub fn entry(&self) -> Option<&Entry> {
        self.entry.as_ref()
    }

    pub fn target(&self) -> Option<PathBuf> {
        self.entry.as_ref().map(|entry| entry.target.clone())
    }

    /// A name beside the one that it is to take, and a second name of what is there. The lock of the name is held.
    pub fn make_ready(&mut self) -> Result<(), Failure> {
        let Some(entry) = &mut self.entry else {
            return Ok(());
        };
        if !self.named {
            system::name(self.file.get_ref(), &entry.part()).map_err(Failure::file(&self.path))?;
            self.named = true;
        }
        entry.had = keep(&entry.target, &entry.old()).map_err(Failure::file(&self.path))?;
        Ok(())
    }

    /// Its names are no longer its own.
    pub fn forget(&mut self) {
        self.named = false;
    }
}

/// A file that did not come to its name is removed.
impl Drop for WordFile {
    fn drop(&mut self) {
        if let Some(entry) = self.entry.as_ref().filter(|_| self.named) {
            // What can't be removed, the next run removes.
            let _ = fs::remove_file(entry.part());
            let _ = fs::remove_file(entry.old());
        }
    }
}

fn unnamed(folder: &Path) -> io::Result<File> {
    // By this folder it gets its name.
    fs::metadata("/proc/self/fd")?;
    File::options().write(true).custom_flags(NO_NAME).open(folder)
}

/// A file with a name, locked, so that nobody takes it for one that is left.
fn named(entry: &Entry) -> io::Result<File> {
    let _locks = Locks::of(std::slice::from_ref(&entry.target))?;
    let file = File::create_new(entry.part())?;
    // Where there are no locks, nothing that is left is removed.
    let _ = file.try_lock();
    Ok(file)
}

/// A second name of what is there, or a copy where there are no second names; and whether something is there.
fn keep(full: &Path, old: &Path) -> io::Result<bool> {
    match fs::hard_link(full, old) {
        Ok(()) => Ok(true),
        Err(error) if error.kind() == io::ErrorKind::NotFound => Ok(false),
        Err(_) => {
            fs::copy(full, old)?;
            File::open(old)?.sync_all()?;
            Ok(true)
        }
    }
}

/// A folder of tables that is being written: beside its name, which it takes when it is whole.
pub struct NewFolder {
    path: PathBuf,
    full: PathBuf,
    /// The name that it has meanwhile.
    part: Option<PathBuf>,
    /// Of the empty folder that has the name.
    rights: Option<Permissions>,
    #[expect(dead_code, reason = "it is locked")]
    lock: File,
}

impl NewFolder {
    /// Makes the folder beside its name, which is free or that of an empty folder.
    pub fn beside(path: &Path) -> Result<Self, Failure> {
        Self::made(path).map_err(Failure::file(path))
    }

    fn made(path: &Path) -> io::Result<Self> {
        let (full, rights) = match fs::metadata(path) {
            Err(error) if error.kind() == io::ErrorKind::NotFound && fs::symlink_metadata(path).is_err() => {
                (new_folder(path)?, None)
            }
            about => {
                if fs::read_dir(path)?.next().is_some() {
                    return Err(io::ErrorKind::DirectoryNotEmpty.into());
                }
                (fs::canonicalize(path)?, Some(about?.permissions()))
            }
        };
        let _locks = Locks::of(std::slice::from_ref(&full))?;
        let _ = names::remove_left(&full);
        let part = names::part_of(&full, &names::draw());
        fs::create_dir(&part)?;
        let lock = File::open(&part).inspect_err(|_| drop(fs::remove_dir(&part)))?;
        let _ = lock.try_lock();
        if let Some(rights) = &rights {
            lock.set_permissions(rights.clone())
                .inspect_err(|_| drop(fs::remove_dir(&part)))?;
        }
        let (path, part) = (path.to_path_buf(), Some(part));
        Ok(Self {
            path,
            full,
            part,
            rights,
            lock,
        })
    }

    /// A file in it, to be written.
    pub fn file(&self, name: &str) -> Result<WordFile, Failure> {
        let path = self.part.as_ref().expect("it has not taken its name").join(name);
        let file = File::create_new(&path).map_err(Failure::file(&self.path))?;
        Ok(WordFile::new(&path, file, None, false))
    }

    /// A whole file in it.
    pub fn put(&self, name: &str, words: &[u64]) -> Result<(), Failure> {
        let mut file = self.file(name)?;
        file.put(words)?;
        file.sync()
    }

    /// Gives the folder its name; signals are held back from then on, where that is wanted.
    pub fn finish(mut self, hold: bool) -> Result<(), Failure> {
        let part = self.part.take().expect("it has not taken its name");
        let full = self.full.clone();
        let renamed = names::sync_folder(&part).and_then(|()| {
            if hold {
                system::hold_signals();
            }
            fs::rename(&part, &full)
        });
        if let Err(error) = renamed {
            self.part = Some(part);
            return Err(Failure::file(&self.path)(error));
        }
        names::sync_folder(folder_of(&full)).map_err(|error| self.given_back(part, error))
    }

    /// The name is given back where it can't be put on the disk, or it is said that it could not.
    fn given_back(&mut self, part: PathBuf, error: io::Error) -> Failure {
        let mut words = error.to_string();
        match fs::rename(&self.full, &part) {
            Ok(()) => self.part = Some(part),
            Err(_) => words += "; but the folder is in its place",
        }
        if let Some(rights) = self.rights.take().filter(|_| self.part.is_some()) {
            let made = fs::create_dir(&self.full).and_then(|()| fs::set_permissions(&self.full, rights));
            if made.is_err() {
                words += "; and the empty folder that was there is gone";
            }
        }
        Failure::file(&self.path)(io::Error::new(error.kind(), words))
    }
}

/// A folder that did not come to its name is removed, with what is in it.
impl Drop for NewFolder {
    fn drop(&mut self) {
        if let Some(part) = &self.part {
            let _ = fs::remove_dir_all(part);
        }
    }
}
