//! The file of ledgers that registers share: read before the operations, so that a register that is not in use is refused first.

use std::fs::File;
use std::path::Path;

use super::charge::to_be_changed;
use super::commit::WordFile;
use super::files::{self, Target};
use super::{Failure, Streams};
use keccak_tables::registers::{self, LEDGER_WORDS};
use keccak_tables::{Parameters, Refusal};

/// A register, and the words of all ledgers.
pub struct Ledgers {
    pub register: u64,
    pub words: Vec<u64>,
}

impl Ledgers {
    /// The ledgers of a file of these words. A register that is not in use is refused.
    pub fn read(parameters: Parameters, register: u64, words: Vec<u64>) -> Result<Self, Failure> {
        // Of no counters it is refused for the register or for want of them.
        match registers::look_with(parameters, register, &[], &[], &words, &mut [], &mut []) {
            Err(refusal @ Refusal::Register { .. }) => Err(Failure::Refused(refusal)),
            _ => Ok(Self { register, words }),
        }
    }
}

/// The same of a file that is to be changed, which is locked until this is dropped.
pub struct Locked<'a> {
    pub ledgers: Ledgers,
    pub file: File,
    target: Target<'a>,
}

impl<'a> Locked<'a> {
    /// Locks the file, and reads it then.
    pub fn read(parameters: Parameters, register: u64, path: &'a Path, streams: &mut Streams) -> Result<Self, Failure> {
        let (file, target) = to_be_changed("LEDGERS", path, &[], streams)?;
        let ledgers = Ledgers::read(parameters, register, files::words(path, file.try_clone())?)?;
        Ok(Self { ledgers, file, target })
    }

    /// All ledgers with this one in the register's place, beside the file and on the disk.
    pub fn written(&self, ledger: &[u64]) -> Result<WordFile, Failure> {
        let Ledgers { register, words } = &self.ledgers;
        let (before, behind) = words.split_at(*register as usize * LEDGER_WORDS);
        let mut file = WordFile::beside(&self.target)?;
        for words in [before, ledger, &behind[LEDGER_WORDS..]] {
            file.put(words)?;
        }
        file.sync()?;
        Ok(file)
    }
}
