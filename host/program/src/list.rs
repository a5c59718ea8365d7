//! The operations of a file as one list in memory.

use std::fs::File;
use std::io::{self, Read, Seek};
use std::path::Path;

use super::progress::Progress;
use super::records::{Places, Reader};
use super::{Failure, files, tally, unaligned};
use keccak_tables::operation_file::{RECORD_BYTES, SEGMENT_MARK, SEGMENT_RECORD_BYTES, Sums, read_operations};
use keccak_tables::{OP_WORDS, Parameters, Refusal};

/// How many records are read at once.
pub const PIECE_RECORDS: usize = 64;

/// What a file has, but for refusals that the call which takes the list makes: of records that the sums leave out, it has them too.
pub struct Operations {
    pub sums: Sums,
    pub list: Vec<u64>,
    places: Places,
}

impl Operations {
    /// What a refusal of the list says.
    pub fn words(&self, refusal: Refusal, path: &Path) -> String {
        unaligned::words(refusal, &self.sums, &self.places, path)
    }
}

/// A file's operations, or its refusal. A file is read twice, so that what is refused takes no memory; a pipe once.
pub fn read(file: &mut File, path: &Path, parameters: Parameters) -> Result<Operations, Failure> {
    if !file.metadata().map_err(Failure::file(path))?.is_file() {
        return read_once(file, path, parameters);
    }
    let (sums, places) = tally::sums_of_file(file, path, parameters)?;
    let records = unaligned::records(&sums);
    let words = records as usize * OP_WORDS;
    let mut list = Vec::new();
    files::reserve(&mut list, words).map_err(Failure::file(path))?;
    let mut progress = Progress::new("operations read", records);
    let mut pieces = Pieces::of(file, path)?;
    while let Some(piece) = pieces.next()? {
        if list.len() + piece.len() > words {
            return Err(changed(path));
        }
        list.extend_from_slice(piece);
        progress.add((piece.len() / OP_WORDS) as u64);
    }
    if list.len() != words {
        return Err(changed(path));
    }
    Ok(Operations { sums, list, places })
}

/// The same of what can be read but once.
fn read_once(file: &mut File, path: &Path, parameters: Parameters) -> Result<Operations, Failure> {
    let mut list = Vec::new();
    let mut pieces = Pieces::new(
        Fed {
            file,
            reader: Reader::default(),
        },
        path,
    );
    let mut progress = Progress::new("operations read", 0);
    // What the reader finds wrong is the reason for whatever else fails.
    while !pieces.input.reader.has_fault() {
        match pieces.next() {
            Ok(Some(piece)) => {
                put_more(&mut list, piece).map_err(Failure::file(path))?;
                progress.add((piece.len() / OP_WORDS) as u64);
            }
            Ok(None) => break,
            Err(Failure::File(_, error)) if is_changed(&error) => break,
            Err(failure) => return Err(failure),
        }
    }
    let (sums, places) = pieces.input.reader.finish(parameters, path)?;
    Ok(Operations { sums, list, places })
}

/// Puts a piece of what may have no end behind the others.
fn put_more(list: &mut Vec<u64>, piece: &[u64]) -> io::Result<()> {
    if 8 * (list.len() + piece.len()) as u64 > files::MOST_BYTES {
        return Err(files::no_end());
    }
    files::reserve(list, piece.len())?;
    list.extend_from_slice(piece);
    Ok(())
}

/// A file whose bytes the reader sees as they are read.
struct Fed<'a> {
    file: &'a mut File,
    reader: Reader,
}

impl Read for Fed<'_> {
    fn read(&mut self, buffer: &mut [u8]) -> io::Result<usize> {
        let got = self.file.read(buffer)?;
        self.reader.feed(&buffer[..got]);
        Ok(got)
    }
}

const CHANGED: &str = "it changed while it was read";

/// The only reason for a refusal of what the first reading accepted.
pub fn changed(path: &Path) -> Failure {
    Failure::File(path.to_path_buf(), io::Error::other(CHANGED))
}

fn is_changed(error: &io::Error) -> bool {
    error.kind() == io::ErrorKind::Other && error.to_string() == CHANGED
}

/// The operations of a file, some at a time. Its records are of two lengths, so a piece ends with the last one that is whole, and what was read
/// of the next stays for the next piece.
pub struct Pieces<'a, R> {
    input: R,
    path: &'a Path,
    records: [u8; PIECE_RECORDS * SEGMENT_RECORD_BYTES],
    /// Where in `records` the next piece begins, and how many bytes were read.
    from: usize,
    got: usize,
    list: [u64; PIECE_RECORDS * OP_WORDS],
}

/// How many of the records that begin these bytes are whole, at most as many as a piece has, and where they end.
fn whole_records(bytes: &[u8]) -> (usize, usize) {
    let (mut records, mut end) = (0, 0);
    while records < PIECE_RECORDS {
        let size = match bytes.get(end + 1) {
            Some(&SEGMENT_MARK) => SEGMENT_RECORD_BYTES,
            _ => RECORD_BYTES,
        };
        if end + size > bytes.len() {
            break;
        }
        (records, end) = (records + 1, end + size);
    }
    (records, end)
}

impl<'a> Pieces<'a, &'a mut File> {
    /// Those of a file that was read before, from its beginning on.
    pub fn of(file: &'a mut File, path: &'a Path) -> Result<Self, Failure> {
        file.rewind().map_err(Failure::file(path))?;
        Ok(Self::new(file, path))
    }
}

impl<'a, R: Read> Pieces<'a, R> {
    const fn new(input: R, path: &'a Path) -> Self {
        Self {
            input,
            path,
            records: [0; PIECE_RECORDS * SEGMENT_RECORD_BYTES],
            from: 0,
            got: 0,
            list: [0; PIECE_RECORDS * OP_WORDS],
        }
    }

    /// The next operations; none at the end of the file.
    pub fn next(&mut self) -> Result<Option<&[u64]>, Failure> {
        self.records.copy_within(self.from..self.got, 0);
        let held = self.got - self.from;
        let read = files::fill(&mut self.input, &mut self.records[held..]).map_err(Failure::file(self.path))?;
        self.got = held + read;
        let (records, end) = whole_records(&self.records[..self.got]);
        self.from = end;
        let list = &mut self.list[..records * OP_WORDS];
        // Of a file that ends in no whole record these are all bytes that are left, which are then refused.
        let piece = &self.records[..if records == 0 { self.got } else { end }];
        read_operations(piece, list).map_err(|_| changed(self.path))?;
        Ok((records > 0).then_some(list))
    }
}
