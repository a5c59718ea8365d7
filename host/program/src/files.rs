//! Files that are read, and what the names of files lead to.

use std::fs::{self, File, Metadata, Permissions};
use std::io::{self, IsTerminal, Read};
use std::os::fd::AsFd;
use std::os::unix::fs::{FileTypeExt, MetadataExt};
use std::path::{Path, PathBuf};

use super::progress::Progress;
use super::{Failure, system};

/// How many bytes are read at once.
pub const PIECE_BYTES: usize = 1 << 16;

/// The most bytes of a table, or of a message, that are read of what is no file and may have no end: 4 GiB.
pub const MOST_BYTES: u64 = 1 << 32;

/// The words of a file, 8 bytes each, lowest first.
pub fn words(path: &Path, file: io::Result<File>) -> Result<Vec<u64>, Failure> {
    let mut words = Vec::new();
    let read = file.and_then(|mut file| {
        each_piece(&mut file, &mut |piece| {
            let (whole, rest) = piece.as_chunks::<8>();
            reserve(&mut words, whole.len())?;
            words.extend(whole.iter().map(|&word| u64::from_le_bytes(word)));
            if !rest.is_empty() {
                let bytes = 8 * words.len() + rest.len();
                return Err(io::Error::other(format!("{bytes} bytes are no whole words")));
            }
            Ok(())
        })
    });
    read.map_err(Failure::file(path)).map(|()| words)
}

/// The bytes of a file.
pub fn bytes(path: &Path, file: io::Result<File>) -> Result<Vec<u8>, Failure> {
    let mut bytes = Vec::new();
    let read = file.and_then(|mut file| {
        each_piece(&mut file, &mut |piece| {
            reserve(&mut bytes, piece.len())?;
            bytes.extend_from_slice(piece);
            Ok(())
        })
    });
    read.map_err(Failure::file(path)).map(|()| bytes)
}

/// Reads a file piece by piece, all of them whole but the last.
fn each_piece(file: &mut File, take: &mut dyn FnMut(&[u8]) -> io::Result<()>) -> io::Result<()> {
    let about = file.metadata()?;
    let mut progress = Progress::new("bytes read", about.len());
    let (mut buffer, mut read) = ([0; PIECE_BYTES], 0);
    loop {
        let got = fill(file, &mut buffer)?;
        read += got as u64;
        if read > MOST_BYTES && !about.is_file() {
            return Err(no_end());
        }
        progress.add(got as u64);
        take(&buffer[..got])?;
        if got < PIECE_BYTES {
            return Ok(());
        }
    }
}

pub fn no_end() -> io::Error {
    let words = format!("it goes on after {MOST_BYTES} bytes, the most that are held of what is no file");
    io::Error::other(words)
}

/// Makes room for more, or says that there is none.
pub fn reserve<T>(list: &mut Vec<T>, more: usize) -> io::Result<()> {
    system::trying(|| list.try_reserve(more)).map_err(|_| no_memory())
}

/// So many zeros, or that there is no room for them.
pub fn zeros<T: Clone + Default>(length: usize) -> Result<Vec<T>, Failure> {
    let mut list = Vec::new();
    system::trying(|| list.try_reserve_exact(length)).map_err(|_| Failure::Memory)?;
    list.resize(length, T::default());
    Ok(list)
}

fn no_memory() -> io::Error {
    io::Error::new(io::ErrorKind::OutOfMemory, "there is not enough memory")
}

/// Reads until the buffer is full or the input at its end, and says how much came.
pub fn fill(input: &mut dyn Read, buffer: &mut [u8]) -> io::Result<usize> {
    let mut filled = 0;
    while filled < buffer.len() {
        match input.read(&mut buffer[filled..]) {
            Ok(0) => break,
            Ok(got) => filled += got,
            Err(error) if error.kind() == io::ErrorKind::Interrupted => {}
            Err(error) => return Err(error),
        }
    }
    Ok(filled)
}

/// What the name of a table file leads to, before anything is written.
pub struct Target<'a> {
    path: &'a Path,
    /// What is there already.
    about: Option<Metadata>,
    /// The name without links, of a file or of what is not there yet.
    full: Option<PathBuf>,
}

impl<'a> Target<'a> {
    /// Looks where a name leads. What is there must be open to writing.
    pub fn of(path: &'a Path) -> Result<Self, Failure> {
        Self::found(path).map_err(Failure::file(path))
    }

    pub fn path(&self) -> &Path {
        self.path
    }

    /// The name without links, where a file has it or can take it.
    pub fn full(&self) -> Option<&Path> {
        self.full.as_deref()
    }

    /// The rights of what is there already.
    pub fn rights(&self) -> Option<Permissions> {
        self.about.as_ref().map(Metadata::permissions)
    }

    fn found(path: &'a Path) -> io::Result<Self> {
        let there = match fs::metadata(path) {
            // A link to nothing is there, and leads nowhere.
            Err(error) if error.kind() == io::ErrorKind::NotFound && fs::symlink_metadata(path).is_err() => None,
            about => Some(about?),
        };
        let full = match &there {
            None => Some(new_name(path)?),
            Some(about) if about.is_file() || about.is_dir() => {
                File::options().write(true).open(path)?;
                Some(fs::canonicalize(path)?)
            }
            Some(_) => None,
        };
        Ok(Self {
            path,
            about: there,
            full,
        })
    }

    /// Whether the name is that of a file, which another can take.
    pub fn is_a_file(&self) -> bool {
        self.about.as_ref().is_some_and(Metadata::is_file)
    }

    /// Whether two names lead to one file, however they are written.
    pub fn is(&self, other: &Self) -> bool {
        match (&self.about, &other.about) {
            (Some(left), Some(right)) => same(left, right),
            _ => self.full == other.full,
        }
    }

    /// Whether the name leads to a file that is open.
    pub fn is_file(&self, file: &File) -> Result<bool, Failure> {
        let about = file.metadata().map_err(Failure::file(self.path))?;
        Ok(self.about.as_ref().is_some_and(|there| same(there, &about)))
    }

    /// Whether the name leads to where the program prints, which would mix with the table.
    pub fn is_printed_to(&self) -> Result<bool, Failure> {
        for (stream, terminal) in [
            (io::stdout().as_fd(), io::stdout().is_terminal()),
            (io::stderr().as_fd(), io::stderr().is_terminal()),
        ] {
            let stream = File::from(stream.try_clone_to_owned().map_err(Failure::file(self.path))?);
            // A device that is no terminal takes everything and mixes nothing: /dev/null.
            let device = self
                .about
                .as_ref()
                .is_some_and(|there| there.file_type().is_char_device());
            if self.is_file(&stream)? && (terminal || !device) {
                return Ok(true);
            }
        }
        Ok(false)
    }
}

/// The name of a file without links, of one that is not there yet too.
pub fn full_name(path: &Path) -> io::Result<PathBuf> {
    fs::canonicalize(path).or_else(|_| new_name(path))
}

/// The full name of a file that is not there yet.
fn new_name(path: &Path) -> io::Result<PathBuf> {
    if path.as_os_str().as_encoded_bytes().ends_with(b"/") {
        return Err(io::ErrorKind::IsADirectory.into());
    }
    new_folder(path)
}

/// The full name of a folder that is not there yet.
pub fn new_folder(path: &Path) -> io::Result<PathBuf> {
    let name = path.file_name().ok_or(io::ErrorKind::IsADirectory)?;
    let folder = path.parent().filter(|folder| !folder.as_os_str().is_empty());
    Ok(fs::canonicalize(folder.unwrap_or(Path::new(".")))?.join(name))
}

fn same(left: &Metadata, right: &Metadata) -> bool {
    (left.dev(), left.ino()) == (right.dev(), right.ino())
}

/// That two open files, by what they are called, are two.
pub fn are_two(first: (&str, &File), second: (&str, &File)) -> Result<(), Failure> {
    if same(&first.1.metadata()?, &second.1.metadata()?) {
        let message = format!("{} and {} must be two files", first.0, second.0);
        return Err(Failure::Usage(message));
    }
    Ok(())
}
