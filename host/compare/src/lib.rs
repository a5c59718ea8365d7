//! The proved tables held against the published Rust: what is compared, and how a comparison is counted and told.
//!
//! `rows` compares rows, tables, keys, counters and refusals, `values` the constraint values of core and round rows and
//! `tuples` their tuples. `looked_up` has the two tables that are looked up, whole, `charge` what a segment charges to the counters of one
//! of them (`plain_charge` is a plain charge to time it against), `registers` what several registers do. `verdicts` holds the verdict against `judge`, a judge
//! of its own, on the tables of `dishonest` and in the `orders` of their rows, in the `scratch` that it is lent, `lines` its line of text, `jobs` the report on a job's segments. `tally`
//! reads operation files, beside `plain_file`, which reads them too, `limit` the longest ones, and `refusals` has the table of what each call refuses, by which `kept` holds every lent slice against its old words. `rounds` has every number of
//! rounds, by what `by_rounds` makes of the Rust's 24, and `floors` every floor, by what `by_floor` makes of the Rust's 4; `month` has the month
//! by exact fractions, `message` what is written and judged for messages, by a SHA3-256 of its own, `plain_sha3`, and `permutation` the permutation by itself; `same` has a
//! core table against an operation file, by a matching over a hash map. A further area is a module beside them and a name in `bin/differential.rs`. `cases` has the small tables of the program `verdict_cases`.

#![deny(unsafe_code)]
#![warn(missing_docs)]

pub mod by_floor;
pub mod by_rounds;
pub mod cases;
pub mod charge;
pub mod comparison;
pub mod dishonest;
pub mod evaluated;
pub mod floors;
pub mod inputs;
pub mod jobs;
pub mod judge;
pub mod kept;
pub mod lent;
pub mod limit;
pub mod lines;
pub mod list_calls;
pub mod looked_up;
pub mod message;
pub mod month;
pub mod orders;
pub mod permutation;
pub mod plain_charge;
pub mod plain_file;
pub mod plain_sha3;
pub mod refusals;
pub mod refused;
pub mod registers;
pub mod rounds;
pub mod rows;
pub mod same;
pub mod say;
pub mod scratch;
pub mod tally;
pub mod tuple_list;
pub mod tuples;
#[allow(unsafe_code)]
pub mod untouched;
pub mod values;
pub mod verdicts;
