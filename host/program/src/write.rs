//! `write OPS CORE ROUND`: the two tables of an operation file; `--rounds NR` makes those of NR rounds, `--floor F` those of F rows at least.
//! `write --all` is in `write_all.rs`.
//!
//! The file is read twice: once to its end, for its sums and faults, then in pieces of a few records. The rows of an
//! operation don't depend on the others, so each piece's rows are made on their own, a part of them on each core, and put behind
//! those that are already there; what is held in memory does not grow with the file. What is no file can be read but once, and is held in
//! memory. Both tables are written beside their names and take them together, when both are whole and the lines are printed.

use std::ffi::OsString;
use std::fs::File;
use std::path::Path;
use std::thread::{self, Builder};

use super::commit::{NewFolder, WordFile, commit};
use super::files::{Target, zeros};
use super::list::{self, PIECE_RECORDS, Pieces, changed};
use super::options::Options;
use super::progress::Progress;
use super::write_all::write_all;
use super::{Failure, Outcome, Streams, help, tally, unaligned};
use keccak_tables::operation_file::Sums;
use keccak_tables::{OP_WORDS, Parameters, Refusal, keccak, keccak_rnd};

/// The words of a piece's operations, whose 24 rows each, which are the most, are 18 megabytes.
const PIECE_WORDS: usize = PIECE_RECORDS * OP_WORDS;

pub fn write(arguments: &[OsString], streams: &mut Streams) -> Result<Outcome, Failure> {
    let takes = ["--all", "--rounds", "--floor", "--shipped"];
    let (options, files) = Options::read("write", &takes, arguments)?;
    match (options.has("--all"), options.has("--shipped"), files) {
        (true, _, [folder, ops]) => write_all(options.parameters()?, [folder, ops].map(Path::new), streams),
        (false, false, [_, core, round]) if Path::new(core) == Path::new(round) => Err(not_three_files()),
        (false, false, [ops, core, round]) => {
            write_two(options.parameters()?, [ops, core, round].map(Path::new), streams)
        }
        (false, true, _) => Err(Failure::Usage("write: --shipped is taken with --all alone".into())),
        _ => Err(help::wrong("write", files)),
    }
}

fn write_two(
    parameters: Parameters,
    [path, core, round]: [&Path; 3],
    streams: &mut Streams,
) -> Result<Outcome, Failure> {
    let mut ops = tally::open(path, streams)?;
    if !ops.metadata().map_err(Failure::file(path))?.is_file() {
        return write_list(parameters, [path, core, round], &mut ops, streams);
    }
    let (sums, places) = tally::sums_of_file(&mut ops, path, parameters)?;
    if sums.unaligned > 0 {
        return Err(unaligned::refusal(ops, path, &sums, &places));
    }
    let heights = Heights::of(parameters, &sums)?;
    let tables = Tables::new(parameters, path, opened(&ops, core, round)?, heights)?;
    let files = tables.write_file(&mut ops)?;
    tally::print(&heights.lines(), streams)?;
    commit(files, streams)
}

/// The same of what can be read but once, whose operations are held in memory.
fn write_list(
    parameters: Parameters,
    [path, core, round]: [&Path; 3],
    ops: &mut File,
    streams: &mut Streams,
) -> Result<Outcome, Failure> {
    let operations = list::read(ops, path, parameters)?;
    if let Err(refusal) = refused_in(&operations.list) {
        return Err(Failure::Told(refusal, operations.words(refusal, path)));
    }
    let heights = Heights::of(parameters, &operations.sums)?;
    let tables = Tables::new(parameters, path, opened(ops, core, round)?, heights)?;
    let files = tables.write_list(&operations.list)?;
    tally::print(&heights.lines(), streams)?;
    commit(files, streams)
}

/// The refusal of the first piece of a list that is refused.
fn refused_in(list: &[u64]) -> Result<(), Refusal> {
    let mut keys = [0; PIECE_RECORDS * keccak::KEY_WORDS];
    list.chunks(PIECE_WORDS)
        .try_for_each(|piece| keccak::is_wh_keys(piece, &mut keys))
}

fn not_three_files() -> Failure {
    Failure::Usage("OPS, CORE and ROUND must be three files".into())
}

/// The two table files, to be written. Nothing is made before the three names are known to lead to files of their own.
fn opened(ops: &File, core: &Path, round: &Path) -> Result<[WordFile; 2], Failure> {
    let [core, round] = [Target::of(core)?, Target::of(round)?];
    if core.is(&round) || core.is_file(ops)? || round.is_file(ops)? {
        return Err(not_three_files());
    }
    if core.is_printed_to()? || round.is_printed_to()? {
        return Err(Failure::Usage(
            "CORE and ROUND can't be standard output or standard error, where this program prints".into(),
        ));
    }
    Ok([WordFile::beside(&core)?, WordFile::beside(&round)?])
}

/// How many operations a file has, and the rows of its two tables.
#[derive(Clone, Copy)]
pub struct Heights {
    ops: u64,
    core: u64,
    round: u64,
}

impl Heights {
    /// Those of a file whose sums are these. They count 24 rounds, so the height of the round table is asked for.
    pub fn of(parameters: Parameters, sums: &Sums) -> Result<Self, Failure> {
        let round = keccak_rnd::keccak_rnd_height_with(parameters, sums.ops as usize).map_err(Failure::Refused)?;
        Ok(Self {
            ops: sums.ops,
            core: sums.core_rows,
            round: round as u64,
        })
    }

    /// The same where the tables are not written.
    pub const fn of_no_tables(self) -> Self {
        Self {
            core: 0,
            round: 0,
            ..self
        }
    }

    /// The lines that are printed of them.
    pub const fn lines(&self) -> [(&'static str, u64); 3] {
        [("ops", self.ops), ("core-rows", self.core), ("round-rows", self.round)]
    }
}

/// The two tables of the file at a path, of which some operations are written.
pub struct Tables<'a> {
    path: &'a Path,
    core: WordFile,
    round: WordFile,
    heights: Heights,
    rows: Rows,
    written: u64,
    progress: Progress,
}

impl<'a> Tables<'a> {
    fn new(
        parameters: Parameters,
        path: &'a Path,
        [core, round]: [WordFile; 2],
        heights: Heights,
    ) -> Result<Self, Failure> {
        Ok(Self {
            path,
            core,
            round,
            heights,
            rows: Rows::new(parameters)?,
            written: 0,
            progress: Progress::new("rows", heights.core + heights.round),
        })
    }

    /// The two as files of a folder.
    pub fn into_folder(
        parameters: Parameters,
        folder: &NewFolder,
        path: &'a Path,
        heights: Heights,
    ) -> Result<Self, Failure> {
        let files = [folder.file("core")?, folder.file("round")?];
        Self::new(parameters, path, files, heights)
    }

    /// Puts the rows of the whole file.
    fn write_file(mut self, ops: &mut File) -> Result<Vec<WordFile>, Failure> {
        let mut pieces = Pieces::of(ops, self.path)?;
        while let Some(piece) = pieces.next()? {
            self.put(piece)?;
        }
        self.close()
    }

    /// Puts the rows of a list, which is the file's.
    pub fn write_list(mut self, ops: &[u64]) -> Result<Vec<WordFile>, Failure> {
        ops.chunks(PIECE_WORDS).try_for_each(|piece| self.put(piece))?;
        self.close()
    }

    /// Puts the rows of some operations.
    fn put(&mut self, ops: &[u64]) -> Result<(), Failure> {
        self.rows.make(ops).map_err(|_| changed(self.path))?;
        let records = ops.len() / OP_WORDS;
        self.core.put(&self.rows.core[..records * keccak::NUM_COLUMNS])?;
        self.round.put(&self.rows.round[..records * self.rows.round_words()])?;
        self.written += records as u64;
        self.progress.add((1 + self.rows.parameters.rounds) * records as u64);
        Ok(())
    }

    /// Puts the padding, each row as in the table of no operations, and both files on the disk.
    fn close(mut self) -> Result<Vec<WordFile>, Failure> {
        let core = keccak::keccak_table(&[]).map_err(|_| changed(self.path))?;
        let round = keccak_rnd::keccak_rnd_table(&[]).map_err(|_| changed(self.path))?;
        if self.written != self.heights.ops {
            return Err(changed(self.path));
        }
        let rounds = self.written * self.rows.parameters.rounds;
        let mut pad = |table: &mut WordFile, row: &[u64], times: u64| {
            for _ in 0..times {
                table.put(row)?;
                self.progress.add(1);
            }
            table.sync()
        };
        let (core_row, round_row) = (&core[..keccak::NUM_COLUMNS], &round[..keccak_rnd::NUM_COLUMNS]);
        pad(&mut self.core, core_row, self.heights.core - self.written)?;
        pad(&mut self.round, round_row, self.heights.round - rounds)?;
        Ok(vec![self.core, self.round])
    }
}

/// Room for the rows of a piece.
struct Rows {
    parameters: Parameters,
    core: Vec<u64>,
    round: Vec<u64>,
    cores: usize,
}

impl Rows {
    fn new(parameters: Parameters) -> Result<Self, Failure> {
        let mut rows = Self {
            parameters,
            core: zeros(PIECE_RECORDS * keccak::NUM_COLUMNS)?,
            round: Vec::new(),
            cores: thread::available_parallelism().map_or(1, usize::from),
        };
        rows.round = zeros(PIECE_RECORDS * rows.round_words())?;
        Ok(rows)
    }

    /// The words of an operation's round rows.
    fn round_words(&self) -> usize {
        self.parameters.rounds as usize * keccak_rnd::NUM_COLUMNS
    }

    /// Makes the rows of some operations. What the cores don't make together, one makes alone, or says why not.
    fn make(&mut self, ops: &[u64]) -> Result<(), Refusal> {
        if self.make_in_parts(ops) {
            return Ok(());
        }
        make(self.parameters, ops, &mut self.core, &mut self.round)
    }

    /// Makes a part on each core, and says whether all were made. What is one part alone is not worth a thread.
    fn make_in_parts(&mut self, ops: &[u64]) -> bool {
        let part = PIECE_RECORDS.div_ceil(self.cores);
        if ops.len() <= part * OP_WORDS {
            return false;
        }
        let (parameters, round_words) = (self.parameters, self.round_words());
        let core = self.core.chunks_mut(part * keccak::NUM_COLUMNS);
        let round = self.round.chunks_mut(part * round_words);
        thread::scope(|scope| {
            let parts = ops.chunks(part * OP_WORDS).zip(core.zip(round));
            let begun = parts.map(|(ops, (core, round))| {
                let make = move || make(parameters, ops, core, round).is_ok();
                Builder::new().spawn_scoped(scope, make).ok()
            });
            let begun: Option<Vec<_>> = begun.collect();
            begun.is_some_and(|begun| begun.into_iter().all(|thread| thread.join().unwrap_or(false)))
        })
    }
}

/// Writes the rows of some operations.
fn make(parameters: Parameters, ops: &[u64], core: &mut [u64], round: &mut [u64]) -> Result<(), Refusal> {
    keccak::keccak_rows(ops, core)?;
    keccak_rnd::keccak_rnd_rows_with(parameters, ops, round)
}
