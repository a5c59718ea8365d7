//! The record of the charges of a file of counters: a text beside it, `COUNTERS.charged`, with a line for each charge, which begins with the
//! digest of what was charged. It is changed together with the counters. So a charge that is asked for again, because nobody knows whether
//! it was made, is made exactly once.

use std::fs::File;
use std::io;
use std::path::{Path, PathBuf};

use super::commit::WordFile;
use super::files::{self, Target};
use super::{Failure, sha256};
use keccak_tables::{OP_WORDS, Parameters};

/// What a charge is of.
pub struct Charge<'a> {
    pub parameters: Parameters,
    pub register: Option<u64>,
    pub ops: &'a [u64],
}

impl Charge<'_> {
    /// Its digest: SHA-256 of its words, and of its operations'.
    pub fn digest(&self) -> String {
        let mut digest = sha256::Sha256::new();
        digest.add(format!("keccak-tables charge 1: {}\n", self.words()).as_bytes());
        for operation in self.ops.chunks(OP_WORDS) {
            let mut bytes = [0; 8 * OP_WORDS];
            for (bytes, word) in bytes.as_chunks_mut().0.iter_mut().zip(operation) {
                *bytes = word.to_le_bytes();
            }
            digest.add(&bytes);
        }
        digest.hex()
    }

    /// What it is, but for the operations themselves.
    fn words(&self) -> String {
        let Parameters {
            rounds, floor, shipped, ..
        } = self.parameters;
        let operations = self.ops.len() / OP_WORDS;
        let shipped = if shipped { ", shipped" } else { "" };
        let register = self
            .register
            .map_or(String::new(), |register| format!(", register {register}"));
        format!("operations {operations}, rounds {rounds}, floor {floor}{shipped}{register}")
    }
}

/// The record beside a file of counters.
pub struct Record {
    path: PathBuf,
    text: Vec<u8>,
}

impl Record {
    /// The record of counters of this full name. It is begun anew where these are all 0: nothing was charged to them.
    pub fn read(counters: &Path, words: &[u64]) -> Result<Self, Failure> {
        let mut path = counters.to_path_buf().into_os_string();
        path.push(".charged");
        let path = PathBuf::from(path);
        if words.iter().all(|&word| word == 0) {
            return Ok(Self { path, text: Vec::new() });
        }
        let text = match File::open(&path) {
            Err(error) if error.kind() == io::ErrorKind::NotFound => Vec::new(),
            file => files::bytes(&path, file)?,
        };
        if let Some(at) = text
            .split_inclusive(|&byte| byte == b'\n')
            .position(|line| !is_line(line))
        {
            let error = io::Error::other(format!(
                "line {}: it does not begin with the digest of a charge",
                at + 1
            ));
            return Err(Failure::File(path, error));
        }
        Ok(Self { path, text })
    }

    /// The line that has a digest, from 1.
    pub fn line_of(&self, digest: &str) -> Option<usize> {
        let mut lines = self.text.split(|&byte| byte == b'\n');
        lines
            .position(|line| line.starts_with(digest.as_bytes()))
            .map(|at| at + 1)
    }

    pub fn path(&self) -> &Path {
        &self.path
    }

    /// The record with a line more, beside its name and on the disk.
    pub fn written(&self, charge: &Charge, digest: &str) -> Result<WordFile, Failure> {
        let mut file = WordFile::beside(&Target::of(&self.path)?)?;
        file.put_bytes(&self.text)?;
        file.put_bytes(format!("{digest} {}\n", charge.words()).as_bytes())?;
        file.sync()?;
        Ok(file)
    }
}

fn is_line(line: &[u8]) -> bool {
    line.len() > 65 && line[64] == b' ' && line.ends_with(b"\n") && line[..64].iter().all(u8::is_ascii_hexdigit)
}
