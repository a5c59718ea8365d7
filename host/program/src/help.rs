//! `help [COMMAND]` and `--version`.

use std::ffi::OsString;

use super::{Failure, Outcome, Streams, options};

/// A command: its name, what stands behind it, and what it does, in short and at length.
pub struct Command {
    pub name: &'static str,
    arguments: &'static str,
    short: &'static str,
    long: &'static str,
}

/// The commands, in the order in which they are told.
pub const COMMANDS: [Command; 14] = [
    Command {
        name: "demo",
        arguments: "",
        short: "writes tables of a few drawn calls, judges them, tampers with them, judges again",
        long: "\
Writes the core and the round table of three calls, one of the zero state, and judges them; then changes a word, a row
or a timestamp and judges again, eight times in all, and says what each verdict shows; then asks for tables at two addresses
that are refused. It ends with a page of text: its digest, its tables, their verdict, and what a changed byte does. Nothing is
written to files.
Exit status: 0 where every answer is the expected one, else 1.
",
    },
    Command {
        name: "write",
        arguments: "[--rounds NR] [--floor F] OPS CORE ROUND, or --all [--rounds NR] [--floor F] [--shipped] DIR OPS",
        short: "writes the core and the round table of an operation file, or with --all every table of its segment",
        long: "\
Reads the operation file OPS to its end and, where nothing in it is refused, writes its two tables, padding rows included,
and prints the count of operations and the two heights. A file OPS is read twice; of a pipe the operations are held in memory.
The tables are written beside their names and take them together, when both are on the disk and the lines are printed: a run
that fails leaves what was there before. What a kill leaves open between the two names, the next command that comes upon
either finishes or undoes, and says so. The three names must lead to three files, and none to where the program prints.
With --rounds NR the round table has NR rows to an operation, those of the last NR of the 24 rounds: NR is 1 to 24, and 24
where it is not given. Another number is refused by 8, before any file is read.
With --floor F neither table has fewer than F rows: F is a power of two from 4 to 65536, and 4 where it is not given. Another
floor is refused by 9, after 8 and before any file is read. The tables that are looked up have no part in it.
With --all it makes the folder DIR with the files core, round, is_wh, constants and bitwise, and prints their heights too: the
constants' multiplicities are the count of operations, those of the bitwise table what the rows of the core, the round and the
IS_WH table look up, padding rows included. Of an empty file there is no is_wh, and without --shipped no core and no round, so
that every lookup of a file is counted in another; what is not there has height 0. DIR must be new or empty; it is written
beside its name, and has all its tables or is as it was. The list of operations is held in memory.
Exit status: 0 the tables are there; 1 refused; 2 a file can't be read or written.
",
    },
    Command {
        name: "judge",
        arguments: "[--rounds NR] [--all [--most N]] CORE ROUND",
        short: "says whether two tables hold together, or names the first failure, or with --all every one",
        long: "\
Prints one line: `holds N`, N the active core rows; or `core` or `round`, `row R`, and `value I`, `lookup I`, `timestamp 0`
or `balance I`, all from 0; behind a lookup or a balance the bus's name and the tuple's values. `keccak-tables explain TABLE
value I` says what a value is, `explain TABLE tuple I` what the tuple of a lookup or a balance is. Both files are held in
memory, and 32 bytes beside them for each of their rows, which may stand in any order; of what is no file at most 4 GiB. With --all every failing value, lookup,
timestamp and tuple has a line, without values, the first being the verdict's; with --most N the first N of them. A failure
can bring others with it.
With --rounds NR the tables are judged as those of NR rounds, 1 to 24: a core row hands its INPUT to round 24 - NR, and what
holds has an OUTPUT that is Keccak-p[1600, NR] of its INPUT. Without it NR is 24, Keccak-f[1600]. Another number is refused
by 8, before any file is read.
Exit status: 0 the tables hold; 1 they don't, or refused; 2 a file can't be read.
",
    },
    Command {
        name: "job",
        arguments: "[--rounds NR] [--binary] CORE ROUND COUNTS",
        short: "says of each segment of a job, and then of the job, whether its tables hold together",
        long: "\
CORE and ROUND have all rows of a job's segments, one segment after the other; COUNTS is a text, on each line two decimals, a
segment's core rows and its round rows; with --binary it is a file of words, two a segment. Prints for each segment, from 0, `segment I: VERDICT`, and then `job: VERDICT`, a verdict as
`judge` prints it, without the tuple; rows count from the first of what was judged. Where every segment holds and no timestamp
is active in two of them, the job holds. It can hold where a segment does not: a round row stands with another segment. Counts
that are not pairs, or whose sums are not the rows of the tables, are refused by 2 with detail 2. The files are held in memory,
and 32 bytes beside them for each row of both tables.
With --rounds NR the tables are judged as those of NR rounds, as by `judge`.
Exit status: 0 every segment holds, and the job; 1 one does not, or refused; 2 a file can't be read.
",
    },
    Command {
        name: "balance",
        arguments: "[--rounds NR] [--challenge SEED] DIR",
        short: "says whether every bus between a segment's tables adds up, or with --challenge adds up a prover's one sum",
        long: "\
DIR has the files that `write --all` makes: core, round, is_wh, constants and bitwise; the first three may be missing, and then
have no rows. Of each bus a line: `BUS tuples T sent S received R`, the tuples that have a multiplicity, equal ones counted once,
and the sums of multiplicities, then `agree` where each tuple is as often sent as received mod p, and `differ N` where N are not.
Memw and Ecall end in tables outside: these read `outside`, and nothing is asked of them. The last line is `balance agrees`, or of
the tuple that stands first in these tables of those that differ `balance TABLE row R tuple I BUS VALUES sent S received R`, S and
R mod p. Whether the rows hold by themselves is not looked at (`judge`).
With --challenge SEED it adds up, as a prover does, a fraction for each tuple of each row: its multiplicity over z less its
fingerprint, which is BUS + v0 alpha + v1 alpha^2 + .., BUS the number of the bus; what is received counts negatively. Each tuple
of Memw and Ecall is added a second time, as the outside tables'. The field has p^3 elements, a + b w + c w^2 with w^3 = 2, which
are shown as `a b c`. alpha and z are drawn from SEED, a decimal below 2^64, by SHA3-256; a prover draws them when the tables
are fixed, so take a SEED that was not known then. The last line is `sum A B C`. It is 0 0 0 where the sums of all tuples agree;
where they don't, it is so for one pair of challenges in 2^157 at most, of tables of up to 131072 round rows.
With --rounds NR the tables are those of NR rounds, 1 to 24, and 24 without it; another number is refused by 8. Some rows are held
in memory at a time, and every tuple once.
Exit status: 0 all agree, or the sum is 0; 1 not, or refused; 2 a file can't be read or is no such table: rows that are not
whole, a word that is not below p, fixed columns of constants and bitwise that are others.
",
    },
    Command {
        name: "same",
        arguments: "CORE OPS",
        short: "says whether a core table and an operation file record the same calls, or names what has no partner",
        long: "\
Prints `same` where the active rows of CORE, as timestamp, address, INPUT and OUTPUT, are the operations of OPS in some order,
repeats counted. Else `record I`, the first record of OPS that has no row of its own, or failing that `row R`, the first active
row of CORE left, both from 0; equal copies are partnered earliest first. Segment numbers and pointers are not compared, and
records at addresses that are no multiples of 8 are compared like any other. A row with a byte of 256 or more, or a timestamp
word of 2^32 or more, has no record. CORE is refused first, by 2 or 5, then OPS as `tally` refuses it. Both files are held in
memory. Where rows and records are not in one order, the time grows with the square of what is left behind the first that differ.
Exit status: 0 same; 1 not, or refused; 2 a file can't be read.
",
    },
    Command {
        name: "tally",
        arguments: "[--shipped] [--floor F] [OPS]",
        short: "counts the lookups of an operation file, or of standard input",
        long: "\
Prints ten lines: the operations, the heights of the two tables, and per bus the sum of multiplicities that both tables send
(Ecall: receive). The tables of an empty file count as not shipped, and send nothing; with --shipped they are, and their zero
round rows send 220 each on AreBytes, 880 in all where there are four. Of a file with a record that is counted both give the
same. With --floor F neither table has fewer than F rows: F is a power of two from 4 to 65536, and 4 where it is not given.
Another floor is refused by 9, before anything is read. Where a record is marked 4B 50, a line `segments A B` gives the least
and the greatest segment number. Records at addresses that are no multiples of 8 are left out of all these; where there are N
of them, a last line reads `unaligned N`.
Exit status: 0; 1 refused; 2 the file can't be read.
",
    },
    Command {
        name: "look",
        arguments: "[--rounds NR] [--floor F] [--shipped] [--register R --ledgers LEDGERS] OPS COUNTERS",
        short: "says what charging the lookups of an operation file to the bitwise table's counters would do",
        long: "\
COUNTERS is a file of 10,485,760 words or more: the bitwise table's counters, row by row, ten kinds to a row. Prints a line
for each kind, `KIND SUM LARGEST`: how many lookups the core and the round table of OPS make, padding rows included, and the
kind's largest counter after them. No file is changed. Of an empty OPS they make none; with --shipped they make those of
their zero rows, 220 times the floor of ARE_BYTES. The round table is that of NR rounds, 1 to 24 and 24 without --rounds;
neither table has fewer rows than the floor F, a power of two from 4 to 65536 and 4 without --floor. Another number of rounds
is refused by 8 and another floor by 9, before any file is read. Both files are held in memory.
With --register R the charge is one of register R, which has ten words of LEDGERS from word 10 R on, the sums that it has
charged of each kind, mod p. In use are as many registers as whole ledgers stand in LEDGERS, 16 at most; another is refused by
10, after 9 and before OPS is read. Ten more lines, `ledger KIND SUM`, are the register's ledger as the charge would leave it.
Exit status: 0; 1 refused; 2 a file can't be read.
",
    },
    Command {
        name: "charge",
        arguments: "[--again] [--rounds NR] [--floor F] [--shipped] [--register R --ledgers LEDGERS] OPS COUNTERS",
        short: "charges the lookups of an operation file to a file of the bitwise table's counters",
        long: "\
Adds to the counters what the core and the round table of OPS look up, mod p, and prints `KIND SUM` for each kind: it is the
look, whose counters then take the place of the file. They are written beside it, and take its name when they are on the disk
and the lines are printed; words past the counters stay. Two runs at once are made one after the other. What the IS_WH table
looks up is not among it (`write --all`).
With --register R --ledgers LEDGERS the sums are added to the register's ledger too, mod p, and every other word of LEDGERS
stays.
The last line, `digest D`, is the SHA-256 of what was charged: operations, rounds, floor, mode and register. It is recorded in
COUNTERS.charged, a text with a line for each charge. All these files take their names together, or none does. What stands in
the record is not charged again: the line is `charged D`, the status 1; with --again it is charged once more. Of counters that
are all 0 the record is begun anew.
So a charge that was cut short can be asked for again until its status is 0, or 1 with `charged D`, and is then made exactly
once. Signals are held back from the first name on; a kill, or a machine that stops, may leave the charge open there: then the
next command that comes upon these files finishes or undoes it, and says so.
Exit status: 0 exactly where the files are charged; 1 refused, or charged before; 2 a file can't be read or written.
",
    },
    Command {
        name: "month",
        arguments: "[--rounds NR] [--floor F] [--svg FILE] [COUNTS]",
        short: "says how full the round tables of a month's files are, from a text of operation counts",
        long: "\
COUNTS, or standard input, is a text: on each line a decimal, the operations of a file; 4096 files at most. Prints `files N`,
`operations N`, `used-rows N` and `padding-rows N` of all round tables; `fullest USED TOTAL file I` and `emptiest USED TOTAL
file I`, the rows of the fullest and of the emptiest round table and its line in COUNTS, the first of those that are equally
full, where there is a file; and `height H N`, how many files have a round table of H rows, for each of the 30 heights from 4 to 2147483648. On a terminal the
heights are drawn as bars instead. A file without operations counts as one whose table is shipped, padding alone. An operation
has NR rows, 1 to 24 and 24 without --rounds; no table has fewer rows than the floor F, a power of two from 4 to 65536 and 4
without --floor. Another number of rounds is refused by 8 and another floor by 9, before COUNTS is read; more files by 14,
then a count above 89478485 by 1. A text has at most 16 MiB. With --svg FILE a picture is drawn to FILE: how full each file's
round table is, file by file. It is written beside its name, and takes it when all is printed.
Exit status: 0; 1 refused; 2 COUNTS can't be read or is no such text, or FILE can't be written.
",
    },
    Command {
        name: "message",
        arguments: "MESSAGE ADDRESS TIMESTAMP OPS",
        short: "writes the operations that hash a file with SHA3-256, and says its digest",
        long: "\
Writes the operation file OPS: the calls of the permutation that hash the bytes of the file MESSAGE, a block of 136 bytes
each, all with their state at ADDRESS, the first at TIMESTAMP and each other one later. Prints their number, `ops N`, and the
digest in hexadecimal, `sha3-256 D`. A message has at most 65,536 bytes, else 12 refuses it; timestamps that would pass
2^64 - 1 are refused by 13, an address by 4 or 7. OPS is written beside its name, and takes it when all is printed.
Exit status: 0 the file is there; 1 refused; 2 a file can't be read or written.
",
    },
    Command {
        name: "is-message",
        arguments: "MESSAGE OPS",
        short: "says whether an operation file has the operations that hash a file with SHA3-256",
        long: "\
Prints `yes` where the records of OPS are what `message` writes for the file MESSAGE, at the address and from the timestamp of
the first record on, and else `no`; an empty OPS gets `no`. OPS is refused as `tally` refuses it, then MESSAGE by 12 where it
has more than 65,536 bytes, then a record at an address that is no multiple of 8 by 7.
Exit status: 0 yes; 1 no, or refused; 2 a file can't be read.
",
    },
    Command {
        name: "explain",
        arguments: "core|round column|value|tuple INDEX, or LINE",
        short: "says what a column, a constraint value or a tuple of a row is, or what a line says that was printed",
        long: "\
Says what stands at an index: group, x, y, byte or halfword; a value's formula; a tuple's bus, side and operands by the
columns' names. A column's name, as in THETA[1][2][3] (x, y, byte), may stand for its index. Of a line that `judge`, `job` or
`same` printed, or of `refused N D`, as one argument or as many, it says what that means: which rule failed, what the columns
are and what was found there.
Exit status: 0; 2 there is no such index, or the line is none of these.
",
    },
    Command {
        name: "attack",
        arguments: "core|round value|tuple INDEX DIR",
        short: "writes two tables in which one rule alone fails and something false is claimed, or says why there are none",
        long: "\
Makes the folder DIR with the files core and round: the tables of a segment of one call, 24 rounds, in which the value or the
tuple INDEX fails in one row and nothing else does, and a core row claims something false: an OUTPUT that is not Keccak-f[1600]
of its INPUT, or a lane that sits elsewhere. Prints the rule, what was done, what is false, and the lines that `judge --all`
prints of the tables: one, or two where a tuple of the Keccak bus is asked for, since what is sent and not received leaves
another that is received and not sent. So it is shown what the rule is for. Where a rule follows from the others, or is asked
by other tables alone, it says so, names the theorem and writes nothing. DIR must be new or empty; it is written beside its name,
as DIR.X.part, X drawn, and has both tables or is as it was.
Exit status: 0 the tables are there; 1 there are none; 2 there is no such rule, or DIR can't be written.
",
    },
];

const FORMATS: &str = "\
An operation file has records of 418 bytes: 4B 4F (hexadecimal), then timestamp, address, 25 input and 25 output lanes; or of 422:
4B 50, the same, then the segment number in 4 bytes. A record under 4B 4F is of segment 0. Both may stand in one file.
A table is a file of words, row after row: 486 to a core row, 1,480 to a round row, 4 to one of IS_WH, 10 to one of constants,
21 to a bitwise row. Counters and ledgers are files of words. A word is 8 bytes, lowest first.

What is refused gives the line `refused N D`, and what that means on standard error. An address is to be a multiple of 8: `tally`
counts records at others apart, and what makes tables of the operations refuses the first of them, by 7.
Files that are written take their names when they are whole, on the disk, and the lines are printed; several together, or none.
While they do, NAME.keccak-lock, NAME.keccak-journal and NAME.X.part or NAME.X.old stand beside them, X being drawn; what a run
that was killed leaves of these, the next command on the name ends and removes. Of what is no file at most 4 GiB are held.
Exit status: 0 fine; 1 the tables do not hold, or refused; 2 wrong usage, or a file that can't be read or written.
";

/// That a command was given something else than it takes. An option behind a file is named.
pub fn wrong(name: &str, files: &[OsString]) -> Failure {
    if let Some(late) = files.iter().find(|word| options::is_option(word)) {
        let words = format!(
            "{name}: {} stands behind a file, and options stand before the files",
            late.display()
        );
        return Failure::Usage(words);
    }
    let takes = COMMANDS.iter().find(|command| command.name == name);
    let arguments = takes.map_or("", |command| command.arguments);
    Failure::Usage(format!("{name} takes {arguments}"))
}

pub fn help(arguments: &[OsString], streams: &mut Streams) -> Result<Outcome, Failure> {
    let text = match arguments {
        [] => all(),
        [name] if ["help", "--help", "-h"].iter().any(|word| name == word) => all(),
        [name] => match COMMANDS.iter().find(|command| name == command.name) {
            Some(Command {
                name, arguments, long, ..
            }) => format!(
                "usage: {}\n\n{long}",
                format!("keccak-tables {name} {arguments}").trim_end()
            ),
            None => return Err(Failure::Usage(format!("there is no command {}", name.display()))),
        },
        _ => return Err(Failure::Usage("help takes a command or nothing".into())),
    };
    streams.output.write_all(text.as_bytes())?;
    Ok(Outcome::Fine)
}

pub fn version(arguments: &[OsString], streams: &mut Streams) -> Result<Outcome, Failure> {
    if !arguments.is_empty() {
        return Err(Failure::Usage("--version takes nothing".into()));
    }
    writeln!(streams.output, "keccak-tables {}", env!("CARGO_PKG_VERSION"))?;
    Ok(Outcome::Fine)
}

fn all() -> String {
    let mut text = "The Keccak tables of a STARK prover, written and judged by proved code.\n\n".to_string();
    let line = |usage: &str, short: &str| format!("  keccak-tables {usage}\n      {short}\n");
    for command in COMMANDS {
        let usage = format!("{} {}", command.name, command.arguments);
        text += &line(usage.trim_end(), command.short);
    }
    text += &line("help [COMMAND]", "prints this, or what a command takes and does");
    text += &line("--version", "prints the version");
    text + "\n" + FORMATS
}
