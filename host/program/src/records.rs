//! An operation file as it is read: what the proved reader says of it, and where its records stand, so that a refusal can say of which it is.

use std::path::Path;

use super::Failure;
use keccak_tables::keccak::LAST_ADDRESS;
use keccak_tables::operation_file::{
    FIRST_MARK, PLAIN_MARK, RECORD_BYTES, SEGMENT_MARK, SEGMENT_RECORD_BYTES, Sums, Tally,
};
use keccak_tables::{Parameters, Refusal};

/// The bytes of a record up to the end of its address.
const HEAD: usize = 18;

/// A record by its number from 0, and the byte where it starts.
type Place = (u64, u64);

/// Where the records of a file are.
#[derive(Default, Clone)]
pub struct Places {
    /// The record that is being read, where it starts, its first bytes and how many were read of it.
    record: u64,
    start: u64,
    head: [u8; HEAD],
    got: usize,
    /// The first records with an address that is too high, and that is no multiple of 8.
    high: Option<Place>,
    off: Option<Place>,
    /// Whether the mark of this record is none: there is no way on.
    lost: bool,
}

impl Places {
    pub fn of(file: &[u8]) -> Self {
        let mut places = Self::default();
        places.feed(file);
        places
    }

    fn feed(&mut self, mut bytes: &[u8]) {
        while !bytes.is_empty() && !self.lost {
            let more = if self.got < HEAD {
                let more = bytes.len().min(HEAD - self.got);
                self.head[self.got..][..more].copy_from_slice(&bytes[..more]);
                more
            } else {
                bytes.len().min(self.size() - self.got)
            };
            let before = self.got;
            (self.got, bytes) = (self.got + more, &bytes[more..]);
            self.lost = !self.is_marked();
            if before < HEAD && self.got >= HEAD && !self.lost {
                self.look_at_address();
            }
            if self.got == self.size() {
                (self.record, self.start, self.got) = (self.record + 1, self.start + self.got as u64, 0);
            }
        }
    }

    fn size(&self) -> usize {
        match self.head[1] {
            SEGMENT_MARK => SEGMENT_RECORD_BYTES,
            _ => RECORD_BYTES,
        }
    }

    /// Whether what was read of the mark is one's.
    fn is_marked(&self) -> bool {
        let second = [PLAIN_MARK, SEGMENT_MARK];
        self.got == 0 || self.head[0] == FIRST_MARK && (self.got == 1 || second.contains(&self.head[1]))
    }

    fn look_at_address(&mut self) {
        let address = u64::from_le_bytes(*self.head.last_chunk().expect("the address ends it"));
        let place = Some((self.record, self.start));
        if address > LAST_ADDRESS {
            self.high = self.high.or(place);
        } else if address % 8 != 0 {
            self.off = self.off.or(place);
        }
    }

    /// What a refusal of a file says, and of which record.
    pub fn words(&self, refusal: Refusal, name: &str) -> String {
        let at = |place: Option<Place>| match place {
            Some((record, start)) => format!("{name}, record {record}, from byte {start}: {refusal}"),
            None => format!("{name}: {refusal}"),
        };
        match refusal {
            Refusal::BadRecord { start } => {
                format!("{name}, record {}, from byte {start}, {}", self.record, self.fault())
            }
            Refusal::HighAddress { .. } => at(self.high),
            Refusal::Unaligned { .. } => at(self.off),
            Refusal::PastEnd { limit, .. } => {
                format!(
                    "{name} goes on after record {}, which is the last that it may have",
                    limit - 1
                )
            }
            other => format!("{name}: {other}"),
        }
    }

    /// What is wrong with the last record.
    fn fault(&self) -> String {
        if self.lost {
            let mark: Vec<String> = self.head[..self.got.min(2)]
                .iter()
                .map(|byte| format!("{byte:02X}"))
                .collect();
            format!(
                "has a wrong mark: it begins with {}, and not with 4B 4F or 4B 50",
                mark.join(" ")
            )
        } else {
            let size = if self.got > 1 {
                self.size().to_string()
            } else {
                "418 or 422".into()
            };
            format!("is cut: {} of its {size} bytes are there", self.got)
        }
    }
}

/// A file that is being read.
#[derive(Default)]
pub struct Reader {
    tally: Tally,
    places: Places,
}

impl Reader {
    pub fn feed(&mut self, bytes: &[u8]) {
        self.places.feed(bytes);
        self.tally.feed(bytes);
    }

    pub fn has_fault(&self) -> bool {
        self.tally.fault().is_some()
    }

    /// The sums of the file of this name, and where its records are.
    pub fn finish(self, parameters: Parameters, name: &Path) -> Result<(Sums, Places), Failure> {
        match self.tally.finish_with(parameters) {
            Ok(sums) => Ok((sums, self.places)),
            Err(refusal) => {
                let words = self.places.words(refusal, &name.display().to_string());
                Err(Failure::Told(refusal, words))
            }
        }
    }
}
