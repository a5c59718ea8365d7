//! `write --all DIR OPS`: every table of a segment in a file of its own, multiplicities filled.
//!
//! The tables are written into a folder beside DIR, which takes that name when all of them are whole and the lines are printed; so DIR has
//! them all or is as it was. Memory is asked for before the folder is made. The list of operations is held in memory, because the IS_WH table and the counters are of all of it; the core and the round table are
//! written some operations at a time.
//!
//! Which tables there are is such that every bus between them adds up: of a list without operations the core and the round table only where they
//! are shipped, and no IS_WH table, since nothing is sent to it and what its padding rows look up is charged by nobody.

use std::path::Path;

use super::commit::{NewFolder, commit_folder};
use super::files::zeros;
use super::progress::Waiting;
use super::write::{Heights, Tables};
use super::{Failure, Outcome, Streams, list, tally};
use keccak_tables::{OP_WORDS, Parameters, Refusal, bitwise, is_wh, keccak, keccak_rc, segment};

pub fn write_all(
    parameters: Parameters,
    [folder, path]: [&Path; 2],
    streams: &mut Streams,
) -> Result<Outcome, Failure> {
    let operations = list::read(&mut tally::open(path, streams)?, path, parameters)?;
    let ops = &operations.list;
    let room = zeros(bitwise::TABLE_WORDS)?;
    let looked_up = match LookedUp::of(parameters, ops)? {
        Ok(looked_up) => looked_up,
        Err(refusal) => return Err(Failure::Told(refusal, operations.words(refusal, path))),
    };
    let folder = NewFolder::beside(folder)?;
    let mut two = Heights::of(parameters, &operations.sums)?;
    if parameters.shipped || !ops.is_empty() {
        Tables::into_folder(parameters, &folder, path, two)?.write_list(ops)?;
    } else {
        two = two.of_no_tables();
    }
    let is_wh_rows = looked_up.is_wh.len() / is_wh::NUM_COLUMNS;
    looked_up.write(&folder, room)?;
    let looked_up = [
        ("is-wh-rows", is_wh_rows as u64),
        ("constant-rows", keccak_rc::NUM_ROWS as u64),
        ("bitwise-rows", bitwise::NUM_ROWS as u64),
    ];
    tally::print(&[two.lines(), looked_up].concat(), streams)?;
    commit_folder(folder, streams)
}

/// The tables that are looked up: of IS_WH none where no pointer is sent, of the bitwise table its counters.
struct LookedUp {
    is_wh: Vec<u64>,
    constants: Vec<u64>,
    counters: Vec<u64>,
}

impl LookedUp {
    /// Those of a list: the constants are looked up by its rounds, the IS_WH table by its pointers, the bitwise table by its rows and by
    /// those of the IS_WH table.
    fn of(parameters: Parameters, ops: &[u64]) -> Result<Result<Self, Refusal>, Failure> {
        let n = ops.len() / OP_WORDS;
        let _waiting = Waiting::new(&format!("charging {n} operations"));
        let (constants, mut counters) = (zeros(keccak_rc::TABLE_WORDS)?, zeros(bitwise::NUM_COUNTERS)?);
        if let Err(refusal) = segment::charge_with(parameters, ops, &mut counters) {
            return Ok(Err(refusal));
        }
        let rows = is_wh_rows(ops)?;
        let mut looked_up = Self {
            is_wh: is_wh_table(&rows)?,
            constants,
            counters,
        };
        Ok(looked_up.fill(parameters, n, &rows).map(|()| looked_up))
    }

    fn fill(&mut self, parameters: Parameters, n: usize, rows: &[u64]) -> Result<(), Refusal> {
        keccak_rc::generate_keccak_rc_trace(&mut self.constants)?;
        keccak_rc::update_multiplicities_with(parameters, &mut self.constants, n as u64)?;
        is_wh::collect_bitwise_from_is_wh(rows, &mut self.counters)
    }

    /// Writes the tables; the room is that of the bitwise table.
    fn write(self, folder: &NewFolder, mut table: Vec<u64>) -> Result<(), Failure> {
        if !self.is_wh.is_empty() {
            folder.put("is_wh", &self.is_wh)?;
        }
        folder.put("constants", &self.constants)?;
        let _waiting = Waiting::new("writing the bitwise table");
        bitwise::generate_bitwise_trace(&mut table).expect("the table has its length");
        bitwise::fill_multiplicities(&self.counters, &mut table).expect("counters that were charged are below p");
        folder.put("bitwise", &table)
    }
}

/// The rows of the IS_WH table of a list that is accepted.
fn is_wh_rows(ops: &[u64]) -> Result<Vec<u64>, Failure> {
    let mut keys = zeros(ops.len() / OP_WORDS * keccak::KEY_WORDS)?;
    keccak::is_wh_keys(ops, &mut keys).map_err(Failure::Refused)?;
    let n = keys.len() / 2;
    let (mut codes, mut spare, mut rows) = (zeros(n)?, zeros(n)?, zeros(n * is_wh::ROW_WORDS)?);
    let count = is_wh::dedup_is_wh_rows(&keys, &mut codes, &mut spare, &mut rows).map_err(Failure::Refused)?;
    rows.truncate(count * is_wh::ROW_WORDS);
    Ok(rows)
}

/// Their table. No rows, no table: the padding rows of one would look up what nobody charged.
fn is_wh_table(rows: &[u64]) -> Result<Vec<u64>, Failure> {
    if rows.is_empty() {
        return Ok(Vec::new());
    }
    let height = is_wh::is_wh_height(rows.len() / is_wh::ROW_WORDS).map_err(Failure::Refused)?;
    let mut table = zeros(height * is_wh::NUM_COLUMNS)?;
    is_wh::generate_is_wh_trace(rows, &mut table).map_err(Failure::Refused)?;
    Ok(table)
}
