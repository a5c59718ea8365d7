//! What the commands print, write and answer.

use std::collections::{HashMap, HashSet};
use std::ffi::OsString;
use std::fs;
use std::io::{self, ErrorKind, Read, Write};
use std::os::fd::AsRawFd;
use std::path::{Path, PathBuf};

use super::commit::{WordFile, commit};
use super::files::Target;
use super::{Streams, run, run_judge};
use keccak_tables::bitwise::{self, NUM_COUNTERS};
use keccak_tables::is_wh::{self, IsWhRows};
use keccak_tables::operation_file::{RECORD_BYTES, file_bytes, write_operations};
use keccak_tables::registers::{self, RegisterLook};
use keccak_tables::verdict::verdict_text;
use keccak_tables::{
    Bus, BusInteraction, OP_WORDS, Operation, P, Parameters, Refusal, SEGMENT_WORD, Side, keccak, keccak_rc,
    keccak_rnd, message, segment, tuples,
};

/// A call that gives a tuple of a row by its index.
type ByIndex = fn(&[u64], usize, &mut [u64]) -> Result<BusInteraction, Refusal>;

type Run = fn(&[OsString], &mut Streams) -> u8;

/// Exit status, standard output and standard error of a run.
fn ran(run: Run, arguments: &[&str], input: &[u8]) -> (u8, String, String) {
    let arguments: Vec<OsString> = arguments.iter().map(OsString::from).collect();
    let (mut input, mut output, mut errors) = (input, Vec::new(), Vec::new());
    let mut streams = Streams {
        input: &mut input,
        output: &mut output,
        errors: &mut errors,
        terminal: false,
        process: false,
    };
    let status = run(&arguments, &mut streams);
    (
        status,
        String::from_utf8(output).unwrap(),
        String::from_utf8(errors).unwrap(),
    )
}

/// A folder for one test.
struct Folder(PathBuf);

impl Folder {
    fn new(name: &str) -> Self {
        let path = std::env::temp_dir().join(format!("keccak-tables-{name}-{}", std::process::id()));
        fs::create_dir_all(&path).unwrap();
        Self(path)
    }

    fn path(&self, name: &str) -> String {
        self.0.join(name).to_str().unwrap().to_string()
    }

    fn put(&self, name: &str, bytes: &[u8]) -> String {
        fs::write(self.0.join(name), bytes).unwrap();
        self.path(name)
    }

    /// The names of what is in it, in order.
    fn names(&self) -> Vec<String> {
        names(&self.0)
    }
}

fn names(folder: &Path) -> Vec<String> {
    let entries = fs::read_dir(folder).unwrap().map(|entry| entry.unwrap().file_name());
    let mut names: Vec<String> = entries.map(|name| name.into_string().unwrap()).collect();
    names.sort();
    names
}

impl Drop for Folder {
    fn drop(&mut self) {
        let _ = fs::remove_dir_all(&self.0);
    }
}

/// Operations with zero OUTPUT.
fn operations(count: u64) -> Vec<u64> {
    let operation = |at: u64| Operation {
        timestamp: at << 20 | 3,
        address: 4096 + 8 * at,
        input: std::array::from_fn(|lane| at.wrapping_mul(0x9E37_79B9_7F4A_7C15) ^ lane as u64),
        output: [0; 25],
        segment: 0,
    };
    (0..count).flat_map(|at| operation(at).words()).collect()
}

fn records(ops: &[u64]) -> Vec<u8> {
    let mut file = vec![0; file_bytes(ops)];
    write_operations(ops, &mut file).unwrap();
    file
}

fn bytes(words: &[u64]) -> Vec<u8> {
    words.iter().flat_map(|word| word.to_le_bytes()).collect()
}

#[test]
fn demo_ends_well() {
    let (status, output, errors) = ran(run, &["demo"], &[]);
    assert_eq!((status, errors.as_str()), (0, ""), "{output}");
    assert!(output.ends_with("\nAll as expected.\n"));
    for line in [
        "holds 3",
        "round row 30 value 86",
        "round row 50 lookup 654",
        "core row 1 balance 3",
        "refused 4 18446744073709551424",
        "refused 7 4100",
        "holds 2",
        "yes, no",
        "core row 1 balance 3",
    ] {
        assert!(output.contains(&format!("\n    {line}")), "{line}");
    }
}

/// A message's operations are written and recognized, and its digest printed; a changed byte, a cut file and others are not; and each
/// refusal leaves no file.
#[test]
fn a_message_and_its_operations() {
    let folder = Folder::new("message");
    let page = folder.put("page", &[0xA3; 200]);
    let ops = folder.path("ops");
    let digest = "79f38adec5c20307a98ef76e8324afbfd46cfd81b22e3973c65fa1bd9de31787";
    let told = ran(run, &["message", &page, "4096", "5", &ops], &[]);
    assert_eq!(told, (0, format!("ops 2\nsha3-256 {digest}\n"), String::new()));
    let list = message::Digest::new(&[0xA3; 200], 4096, 5).unwrap();
    assert!(fs::read(&ops).unwrap() == records(list.list()));

    let (yes, no) = ((0, "yes\n".into(), String::new()), (1, "no\n".into(), String::new()));
    let is_message = |page: &str, ops: &str| ran(run, &["is-message", page, ops], &[]);
    assert_eq!(is_message(&page, &ops), yes);
    assert_eq!(is_message(&folder.put("other", &[0xA3; 199]), &ops), no);
    let one = folder.put("one", &records(&list.list()[..OP_WORDS]));
    assert_eq!(is_message(&page, &one), no);
    let none = folder.put("none", b"");
    assert_eq!(is_message(&page, &none), no);
    assert_eq!(is_message(&page, &folder.put("cut", b"KO")).1, "refused 6 0\n");

    let long = folder.put("long", &[0; 65_537]);
    for (arguments, line) in [
        (
            ["message", &long, "4", "18446744073709551615", &folder.path("a")],
            "refused 12 65537\n",
        ),
        (
            ["message", &page, "4", "18446744073709551615", &folder.path("a")],
            "refused 13 18446744073709551615\n",
        ),
        (
            ["message", &none, "4", "18446744073709551615", &folder.path("a")],
            "refused 7 4\n",
        ),
        (
            ["message", &none, "18446744073709551424", "0", &folder.path("a")],
            "refused 4 18446744073709551424\n",
        ),
    ] {
        let (status, output, errors) = ran(run, &arguments, &[]);
        assert_eq!((status, output.as_str()), (1, line));
        assert!(errors.ends_with('\n'));
    }
    assert_eq!(is_message(&long, &ops).1, "refused 12 65537\n");
    for arguments in [
        ["message", &page, "8", "0", &page],
        ["message", "absent", "8", "0", &ops],
    ] {
        assert_eq!(ran(run, &arguments, &[]).0, 2, "{arguments:?}");
    }
    assert_eq!(folder.names(), ["cut", "long", "none", "one", "ops", "other", "page"]);
}

#[test]
fn written_tables_are_those_of_the_calls() {
    // None, fewer than fill the least table, and more than are read at once.
    for count in [0, 1, 5, 64, 65, 130] {
        let folder = Folder::new(&format!("written-{count}"));
        let ops = operations(count);
        let file = folder.put("ops", &records(&ops));
        let (core, round) = (folder.path("core"), folder.path("round"));
        let (status, output, errors) = ran(run, &["write", &file, &core, &round], &[]);
        assert_eq!((status, errors.as_str()), (0, ""));
        assert!(output.starts_with(&format!("ops {count}\ncore-rows ")));
        assert!(
            fs::read(core).unwrap() == bytes(&keccak::keccak_table(&ops).unwrap()),
            "core, {count}"
        );
        assert!(
            fs::read(round).unwrap() == bytes(&keccak_rnd::keccak_rnd_table(&ops).unwrap()),
            "round, {count}"
        );
    }
}

#[test]
fn written_honest_tables_hold() {
    let folder = Folder::new("honest");
    let (ops, _) = super::demo::honest(Parameters::default()).unwrap();
    let file = folder.put("ops", &records(&ops));
    let (core, round) = (folder.path("core"), folder.path("round"));
    assert_eq!(ran(run, &["write", &file, &core, &round], &[]).0, 0);
    assert_eq!(
        ran(run, &["judge", &core, &round], &[]),
        (0, "holds 3\n".into(), String::new())
    );
}

/// Tables of each number of rounds: written as the calls write them, more than are read at once too, and judged by their own number and by
/// others.
#[test]
fn tables_of_every_number_of_rounds_hold_by_it_alone() {
    let folder = Folder::new("rounds");
    let (file, core, round) = (folder.path("ops"), folder.path("core"), folder.path("round"));
    for rounds in 1..=24 {
        let parameters = Parameters::default().rounds(rounds);
        let number = &rounds.to_string();
        for ops in [operations(if rounds % 8 == 0 { 130 } else { 0 }), honest(rounds)] {
            folder.put("ops", &records(&ops));
            let written = ran(run, &["write", "--rounds", number, &file, &core, &round], &[]);
            let n = ops.len() / OP_WORDS;
            let height = (n * rounds as usize).next_power_of_two().max(4);
            let lines = format!(
                "ops {n}\ncore-rows {}\nround-rows {height}\n",
                n.next_power_of_two().max(4)
            );
            assert_eq!(written, (0, lines, String::new()));
            assert!(fs::read(&core).unwrap() == bytes(&keccak::keccak_table(&ops).unwrap()));
            let table = keccak_rnd::keccak_rnd_table_with(parameters, &ops).unwrap();
            assert!(
                fs::read(&round).unwrap() == bytes(&table),
                "{n} operations, {rounds} rounds"
            );
        }
        let judge = |options: &[&str]| ran(run_judge, &[options, &[&core, &round]].concat(), &[]);
        for options in [
            &["--rounds", number][..],
            &["--all", "--rounds", number],
            &["--rounds", number, "--all"],
        ] {
            assert_eq!(judge(options), (0, "holds 3\n".into(), String::new()), "{options:?}");
        }
        for other in (1..=24).filter(|&other| other != rounds && (other == 24 || other.abs_diff(rounds) == 1)) {
            let number = &other.to_string();
            let (status, line, _) = judge(&["--rounds", number]);
            let begins = format!("core row 0 balance 2 Keccak 1 0 {} ", 24 - other);
            assert!(status == 1 && line.starts_with(&begins), "{rounds} by {other}: {line}");
            // Each call's INPUT is not received, and its first round row receives what nobody sends.
            let lines = (0..3).map(|call| format!("core row {call} balance 2\n"));
            let firsts = (0..3).map(|call| format!("round row {} balance 0\n", call * rounds));
            let all = judge(&["--all", "--rounds", number]);
            assert_eq!(all, (1, lines.chain(firsts).collect(), String::new()));
        }
    }
    // Without an option the rounds are 24.
    assert_eq!(ran(run, &["judge", &core, &round], &[]).1, "holds 3\n");
}

/// Tables of each floor: written as the calls write them, of lists that fill less than the floor and more; they hold as those of floor 4 do.
#[test]
fn tables_of_every_floor_hold() {
    let folder = Folder::new("floors");
    let (file, core, round) = (folder.path("ops"), folder.path("core"), folder.path("round"));
    for power in 2..=9 {
        let floor = 1usize << power;
        let parameters = Parameters::default().rounds(5).floor(floor as u64);
        let number = &floor.to_string();
        for ops in [operations(0), operations(70), honest(5)] {
            folder.put("ops", &records(&ops));
            let arguments = ["write", "--floor", number, "--rounds", "5", &file, &core, &round];
            let written = ran(run, &arguments, &[]);
            let n = ops.len() / OP_WORDS;
            let height = |rows: usize| rows.next_power_of_two().max(floor);
            let lines = format!("ops {n}\ncore-rows {}\nround-rows {}\n", height(n), height(5 * n));
            assert_eq!(written, (0, lines, String::new()));
            let tables = [
                keccak::keccak_table_with(parameters, &ops).unwrap(),
                keccak_rnd::keccak_rnd_table_with(parameters, &ops).unwrap(),
            ];
            for (path, table) in [&core, &round].into_iter().zip(tables) {
                assert!(fs::read(path).unwrap() == bytes(&table), "{path} of {n}, floor {floor}");
            }
        }
        let judged = ran(run_judge, &["--rounds", "5", &core, &round], &[]);
        assert_eq!(judged, (0, "holds 3\n".into(), String::new()));
    }
}

/// As the rounds, which are told before the floor; and nothing is read of standard input.
#[test]
fn another_floor_is_refused_before_any_file_is_read() {
    let folder = Folder::new("no-floor");
    let [a, b, c] = ["a", "b", "c"].map(|name| folder.path(name));
    let floors = [
        "0",
        "1",
        "2",
        "3",
        "5",
        "006",
        "65537",
        "131072",
        "9223372036854775808",
        "18446744073709551615",
    ];
    for floor in floors {
        let number: u64 = floor.parse().unwrap();
        for arguments in [
            &["write", "--floor", floor, &a, &b, &c][..],
            &["write", "--all", "--floor", floor, &a, &b],
            &["write", "--floor", floor, "--rounds", "1", "--shipped", "--all", &a, &b],
            &["tally", "--floor", floor],
            &["tally", "--floor", floor, "--shipped", &a],
            &["look", "--shipped", "--floor", floor, &a, &b],
            &["charge", "--floor", floor, "--rounds", "24", &a, &b],
        ] {
            let line = format!("refused 9 {number}\n");
            let words = format!("a floor of the tables' heights is a power of two from 4 to 65536, and not {number}\n");
            assert_eq!(ran(run, arguments, b"KN"), (1, line, words), "{arguments:?}");
        }
        for arguments in [
            ["write", "--floor", floor, "--rounds", "25", &a, &b, &c].as_slice(),
            &["write", "--all", "--rounds", "25", "--floor", floor, &a, &b],
            &["look", "--rounds", "25", "--floor", floor, &a, &b],
            &["charge", "--floor", floor, "--rounds", "25", &a, &b],
        ] {
            let (status, line, _) = ran(run, arguments, &[]);
            assert_eq!((status, line.as_str()), (1, "refused 8 25\n"), "{arguments:?}");
        }
    }
    assert!(folder.names().is_empty());
    let mut input = Broken(ErrorKind::TimedOut);
    let (mut output, mut errors) = (Vec::new(), Vec::new());
    let mut streams = Streams {
        input: &mut input,
        output: &mut output,
        errors: &mut errors,
        terminal: false,
        process: false,
    };
    assert_eq!(run(&["tally", "--floor", "5"].map(OsString::from), &mut streams), 1);
    assert_eq!(output, b"refused 9 5\n");
}

/// The operations of three calls, by so many rounds.
fn honest(rounds: u64) -> Vec<u64> {
    super::demo::honest(Parameters::default().rounds(rounds)).unwrap().0
}

/// Whatever else is wrong with the files, of which there is none; and no file is made.
#[test]
fn another_number_of_rounds_is_refused_before_any_file_is_read() {
    let folder = Folder::new("no-rounds");
    let [a, b, c] = ["a", "b", "c"].map(|name| folder.path(name));
    for rounds in ["0", "25", "000", "18446744073709551615"] {
        let number: u64 = rounds.parse().unwrap();
        for arguments in [
            &["write", "--rounds", rounds, &a, &b, &c][..],
            &["write", "--all", "--rounds", rounds, &a, &b],
            &["write", "--rounds", rounds, "--shipped", "--all", &a, &b],
            &["judge", "--rounds", rounds, &a, &b],
            &["judge", "--all", "--rounds", rounds, "--most", "3", &a, &b],
            &["job", "--rounds", rounds, &a, &b, &c],
            &["look", "--rounds", rounds, &a, &b],
            &["charge", "--shipped", "--rounds", rounds, &a, &b],
        ] {
            let line = format!("refused 8 {number}\n");
            let words = format!("an operation has 1 to 24 rounds, and not {number}\n");
            assert_eq!(ran(run, arguments, &[]), (1, line, words), "{arguments:?}");
        }
    }
    assert!(folder.names().is_empty());
    let mut streams = Streams {
        input: &mut &[][..],
        output: &mut Broken(ErrorKind::StorageFull),
        errors: &mut Vec::new(),
        terminal: false,
        process: false,
    };
    let arguments = ["judge", "--rounds", "0", &a, &b].map(OsString::from);
    assert_eq!(run(&arguments, &mut streams), 2);
}

#[test]
fn refused_files_leave_the_tables_alone() {
    let folder = Folder::new("refused");
    let mut file = records(&operations(2));
    file[RECORD_BYTES + 10..RECORD_BYTES + 18].copy_from_slice(&u64::MAX.to_le_bytes());
    let high = folder.put("high", &file);
    let cut = folder.put("cut", &records(&operations(2))[..RECORD_BYTES + 5]);
    let (core, round) = (folder.put("core", b"before"), folder.path("round"));
    for (path, line) in [(&high, "refused 4 18446744073709551615\n"), (&cut, "refused 6 418\n")] {
        let (status, output, errors) = ran(run, &["write", path, &core, &round], &[]);
        assert_eq!((status, output.as_str()), (1, line));
        assert!(!errors.is_empty());
        assert_eq!(ran(run, &["tally", path], &[]).1, line);
    }
    assert_eq!(fs::read(&core).unwrap(), b"before");
    assert!(!fs::exists(&round).unwrap());
}

#[test]
fn records_of_both_marks_make_the_tables_of_their_operations() {
    let folder = Folder::new("marks");
    // More than are read at once, so that pieces end within records.
    let mut ops = operations(200);
    let plain = folder.put("plain", &records(&ops));
    for (at, operation) in ops.chunks_exact_mut(OP_WORDS).enumerate() {
        operation[SEGMENT_WORD] = [0, 7, 1 << 31, 3][at % 4];
    }
    let file = records(&ops);
    assert_eq!(file.len(), 50 * RECORD_BYTES + 150 * 422);
    let marked = folder.put("marked", &file);
    let tables = |ops: &str, name: &str| {
        let [core, round] = ["core", "round"].map(|table| folder.path(&format!("{name}-{table}")));
        let (status, output, errors) = ran(run, &["write", ops, &core, &round], &[]);
        assert_eq!((status, errors.as_str()), (0, ""));
        (output, fs::read(core).unwrap(), fs::read(round).unwrap())
    };
    assert!(
        tables(&plain, "plain") == tables(&marked, "marked"),
        "segment numbers stand in no column"
    );
    let lines = ran(run, &["tally", &plain], &[]).1;
    let with_segments = lines.clone() + "segments 0 2147483648\n";
    assert_eq!(ran(run, &["tally", &marked], &[]), (0, with_segments, String::new()));
    let cut = folder.put("cut", &file[..RECORD_BYTES + 421]);
    let refused = ran(run, &["write", &cut, &folder.path("a"), &folder.path("b")], &[]);
    assert_eq!((refused.0, refused.1.as_str()), (1, "refused 6 418\n"));
    let later = folder.put("later", &file[..RECORD_BYTES + 422 + 1]);
    assert_eq!(ran(run, &["tally", &later], &[]).1, "refused 6 840\n");
}

/// Puts an address into a record of a file.
fn set_address(file: &mut [u8], record: usize, address: u64) {
    file[record * RECORD_BYTES + 10..][..8].copy_from_slice(&address.to_le_bytes());
}

/// A file of 130 records, two of them at addresses that are no multiples of 8.
fn records_off_the_eight() -> Vec<u8> {
    let mut file = records(&operations(130));
    set_address(&mut file, 100, 4100);
    set_address(&mut file, 120, 18_446_744_073_709_551_423);
    file
}

/// What is said of it.
const OFF_THE_EIGHT: &str = "record 100, from byte 41800: address 4100 is not a multiple of 8, and the row of an operation there can't be proved; 2 of the 130 records are \
                             at such addresses, which `tally` leaves out\n";

/// What can't be proved is not written: the first such address of the whole file is told, and how many there are; but what `tally` refuses
/// comes first, and `tally` counts what is left.
#[test]
fn records_off_the_eight_are_counted_and_not_written() {
    let folder = Folder::new("off-the-eight");
    let mut file = records_off_the_eight();
    let off = folder.put("off", &file);
    set_address(&mut file, 129, 18_446_744_073_709_551_424);
    let high = folder.put("high", &file);
    let cut = folder.put("cut", &file[..129 * RECORD_BYTES + 1]);
    let (core, round) = (folder.put("core", b"before"), folder.path("round"));
    let written = ran(run, &["write", &off, &core, &round], &[]);
    let words = format!("{off}, {OFF_THE_EIGHT}");
    assert_eq!(written, (1, "refused 7 4100\n".into(), words));
    for (path, line) in [
        (&high, "refused 4 18446744073709551424\n".to_string()),
        (&cut, format!("refused 6 {}\n", 129 * RECORD_BYTES)),
    ] {
        assert_eq!(ran(run, &["write", path, &core, &round], &[]).1, line);
        assert_eq!(ran(run, &["tally", path], &[]).1, line);
    }
    assert_eq!(fs::read(&core).unwrap(), b"before");
    assert!(!fs::exists(&round).unwrap());

    let lines = ran(run, &["tally"], &records(&operations(128))).1 + "unaligned 2\n";
    for arguments in [&["tally", &off][..], &["tally", "--shipped", &off]] {
        assert_eq!(ran(run, arguments, &[]), (0, lines.clone(), String::new()));
    }
    // A file of such records alone is one without operations.
    let alone = &fs::read(&off).unwrap()[100 * RECORD_BYTES..][..RECORD_BYTES];
    for options in [&["tally"][..], &["tally", "--shipped"]] {
        let lines = ran(run, options, &[]).1 + "unaligned 1\n";
        assert_eq!(ran(run, options, alone), (0, lines, String::new()));
    }
}

/// The same file by another name: a hard link, a longer path to a file that there is not yet; nothing that was there is lost,
/// and nothing is left behind.
#[test]
fn the_three_files_are_three() {
    let folder = Folder::new("three");
    let records = records(&operations(1));
    let ops = folder.put("ops", &records);
    let (core, linked) = (folder.put("core", b"before"), folder.path("linked"));
    fs::hard_link(&ops, &linked).unwrap();
    let (new, longer) = (
        folder.path("new"),
        folder.path("../") + folder.0.file_name().unwrap().to_str().unwrap(),
    );
    let longer = longer + "/new";
    for (core, round) in [
        (&linked, &new),
        (&core, &linked),
        (&core, &core),
        (&ops, &new),
        (&new, &longer),
    ] {
        let (status, output, errors) = ran(run, &["write", &ops, core, round], &[]);
        assert_eq!((status, output.as_str()), (2, ""), "{core}, {round}");
        assert!(errors.starts_with("OPS, CORE and ROUND must be three files\n"));
        assert!(!fs::exists(&new).unwrap(), "{core}, {round}");
    }
    assert_eq!(fs::read(&ops).unwrap(), records);
    assert_eq!(fs::read(&core).unwrap(), b"before");
}

#[test]
fn what_cannot_be_written_leaves_the_tables_alone() {
    let folder = Folder::new("unwritten");
    let records = records(&operations(1));
    let ops = folder.put("ops", &records);
    let core = folder.put("core", b"before");
    let new = folder.path("new");
    let dangling = folder.path("dangling");
    std::os::unix::fs::symlink(folder.path("nowhere"), &dangling).unwrap();
    for (round, said) in [(folder.path(""), "directory"), (dangling, "No such file")] {
        for core in [&core, &new] {
            let (status, output, errors) = ran(run, &["write", &ops, core, &round], &[]);
            assert_eq!((status, output.as_str()), (2, ""));
            assert!(errors.contains(said), "{errors}");
        }
    }
    assert!(!fs::exists(&new).unwrap() && !fs::exists(folder.path("nowhere")).unwrap());
    let (status, output, errors) = ran(run, &["write", &ops, &new, "/dev/full"], &[]);
    assert_eq!((status, output.as_str()), (2, ""));
    assert!(errors.starts_with("/dev/full: No space left"), "{errors}");
    assert!(!fs::exists(&new).unwrap());

    assert_eq!(fs::read(&core).unwrap(), b"before");
}

/// Operations that come through a pipe are those of a file, for every command that takes them; what is wrong with them is told.
#[test]
fn operations_from_a_pipe_are_read() {
    let folder = Folder::new("pipe");
    let list = operations(70);
    let through = |records: &[u8], arguments: &dyn Fn(&str) -> Vec<String>| {
        let (reader, mut writer) = std::io::pipe().unwrap();
        writer.write_all(records).unwrap();
        drop(writer);
        let pipe = format!("/dev/fd/{}", reader.as_raw_fd());
        let arguments = arguments(&pipe);
        let (status, output, errors) = ran(run, &arguments.iter().map(String::as_str).collect::<Vec<_>>(), &[]);
        (status, output, errors.replace(&pipe, "PIPE"))
    };
    let (core, round) = (folder.path("core"), folder.path("round"));
    let write = |pipe: &str| ["write", pipe, &core, &round].map(String::from).to_vec();
    let lines = "ops 70\ncore-rows 128\nround-rows 2048\n";
    assert_eq!(through(&records(&list), &write), (0, lines.into(), String::new()));
    assert!(fs::read(&core).unwrap() == bytes(&keccak::keccak_table(&list).unwrap()));
    assert!(fs::read(&round).unwrap() == bytes(&keccak_rnd::keccak_rnd_table(&list).unwrap()));
    let counters = folder.put("counters", &bytes(&vec![0; NUM_COUNTERS]));
    let ops = folder.put("ops", &records(&list));
    let look = |ops: &str| ["look", ops, &counters].map(String::from).to_vec();
    assert_eq!(through(&records(&list), &look), through(&[], &|_| look(&ops)));
    let same = |ops: &str| ["same", &core, ops].map(String::from).to_vec();
    assert_eq!(through(&records(&list), &same).1, "same\n");

    let mut off = records(&list);
    set_address(&mut off, 3, 12);
    let words = "PIPE, record 3, from byte 1254: address 12 is not a multiple of 8, and the row of an operation there can't be proved; \
                 1 of the 70 records are at such addresses, which `tally` leaves out\n";
    assert_eq!(through(&off, &write), (1, "refused 7 12\n".into(), words.into()));
    set_address(&mut off, 5, u64::MAX);
    assert_eq!(through(&off, &write).1, "refused 4 18446744073709551615\n");
    let cut = "PIPE, record 1, from byte 418, is cut: 1 of its 418 or 422 bytes are there\n";
    assert_eq!(
        through(&records(&list)[..419], &write),
        (1, "refused 6 418\n".into(), cut.into())
    );
}

/// Counters that are small, some about p, and words past them that are no elements.
fn some_counters() -> Vec<u64> {
    let mut counters: Vec<u64> = (0..NUM_COUNTERS as u64).map(|place| place % 1000).collect();
    counters[3] = P - 1;
    counters[NUM_COUNTERS - 6] = P - 2;
    counters.extend([P, u64::MAX]);
    counters
}

#[test]
fn a_look_changes_no_file_and_a_charge_is_what_it_said() {
    let folder = Folder::new("charged");
    let before = some_counters();
    let today = Parameters::default();
    for (count, options, parameters) in [
        (0, &[][..], today),
        (0, &["--shipped"], today.shipped()),
        (0, &["--shipped", "--rounds", "1"], today.shipped().rounds(1)),
        (1, &["--shipped"], today),
        (5, &[], today),
        (5, &["--rounds", "12"], today.rounds(12)),
        (130, &["--rounds", "1", "--shipped"], today.rounds(1)),
        (130, &[], today),
        (0, &["--floor", "64"], today.floor(64)),
        (0, &["--floor", "00064", "--shipped"], today.floor(64).shipped()),
        (5, &["--floor", "256", "--rounds", "3"], today.rounds(3).floor(256)),
    ] {
        let ops = operations(count);
        let look = segment::Look::with(parameters, &ops, &before).unwrap();
        let (file, counters) = (
            folder.put("ops", &records(&ops)),
            folder.put("counters", &bytes(&before)),
        );
        let lines = |largest: bool| -> String {
            let line = |kind: segment::KindLook| match largest {
                true => format!("{} {} {}\n", kind.kind.name(), kind.sum, kind.largest),
                false => format!("{} {}\n", kind.kind.name(), kind.sum),
            };
            look.kinds().map(line).concat()
        };
        let run_on = |name| ran(run, &[&[name], options, &[&file, &counters]].concat(), &[]);
        assert_eq!(run_on("look"), (0, lines(true), String::new()));
        assert!(fs::read(&counters).unwrap() == bytes(&before), "a look changes nothing");
        let (status, output, errors) = run_on("charge");
        let (told, digest) = output.split_at(lines(false).len());
        assert_eq!((status, told, errors.as_str()), (0, lines(false).as_str(), ""));
        let record = fs::read_to_string(folder.path("counters.charged")).unwrap();
        assert_eq!(
            format!(
                "digest {}\n",
                &record[record.trim_end().rfind('\n').map_or(0, |at| at + 1)..][..64]
            ),
            digest
        );
        let after = [look.counters(), &before[NUM_COUNTERS..]].concat();
        assert!(
            fs::read(&counters).unwrap() == bytes(&after),
            "{count} operations, {options:?}"
        );
        assert_eq!(folder.names(), ["counters", "counters.charged", "ops"]);
    }
    let shipped = ran(run, &["look", "--shipped", "/dev/null", &folder.path("counters")], &[]).1;
    assert!(shipped.starts_with("MSB8 0 "), "{shipped}");
    assert!(shipped.contains("\nARE_BYTES 880 "), "{shipped}");
    let arguments = [
        "look",
        "--floor",
        "65536",
        "--shipped",
        "/dev/null",
        &folder.path("counters"),
    ];
    let tall = ran(run, &arguments, &[]).1;
    assert!(tall.contains("\nARE_BYTES 14417920 "), "{tall}");
    let names = shipped.lines().map(|line| line.split(' ').next().unwrap());
    let kinds = "MSB8 MSB16 ZERO ARE_BYTES IS_HALF IS_B20 HWSL AND OR XOR";
    assert!(names.eq(kinds.split(' ')), "{shipped}");
}

/// The file of operations is told first, then the counters; no file is changed. Addresses off the eight are no fault of the file: the call
/// tells them, after counters that are too few and before one that is no element.
#[test]
fn a_refused_charge_leaves_the_counters_alone() {
    let folder = Folder::new("charge-refused");
    let ops = records(&operations(2));
    let mut high = ops.clone();
    set_address(&mut high, 1, u64::MAX);
    let mut alone = ops[..RECORD_BYTES].to_vec();
    set_address(&mut alone, 0, 12);
    let mut large = some_counters();
    large[1_000_007] = P;
    let (ops, high, cut) = (
        folder.put("ops", &ops),
        folder.put("high", &high),
        folder.put("cut", &ops[..RECORD_BYTES + 5]),
    );
    let (off, alone) = (folder.put("off", &records_off_the_eight()), folder.put("alone", &alone));
    let (short, large) = (
        folder.put("short", &bytes(&large[..NUM_COUNTERS - 1])),
        folder.put("large", &bytes(&large)),
    );
    let names = folder.names();
    let cases = [
        (&cut, &short, "refused 6 418\n", ""),
        (&high, &large, "refused 4 18446744073709551615\n", ""),
        (
            &ops,
            &short,
            "refused 3 10485760\n",
            "COUNTERS has 10485759 words, and 10485760 are needed\n",
        ),
        (&off, &short, "refused 3 10485760\n", ""),
        (&off, &large, "refused 7 4100\n", OFF_THE_EIGHT),
        (&alone, &large, "refused 7 12\n", ""),
        (
            &ops,
            &large,
            "refused 5 1000007\n",
            "COUNTERS, word 1000007 (row 100000, AND): 18446744069414584321 is not below p\n",
        ),
    ];
    for (ops, counters, line, said) in cases {
        let before = fs::read(counters).unwrap();
        for name in ["look", "charge"] {
            let (status, output, errors) = ran(run, &[name, ops, counters], &[]);
            assert_eq!((status, output.as_str()), (1, line), "{name}");
            assert!(!errors.is_empty() && errors.ends_with(said), "{errors}");
            assert!(fs::read(counters).unwrap() == before, "{name}: {line}");
        }
    }
    assert_eq!(folder.names(), names);
}

/// Whatever goes wrong, the counters are as they were and nothing is left beside them.
#[test]
fn a_charge_that_fails_leaves_the_counters_alone() {
    let folder = Folder::new("charge-fails");
    let ops = folder.put("ops", &records(&operations(1)));
    let before = bytes(&vec![7; NUM_COUNTERS]);
    let counters = folder.put("counters", &before);
    let odd = folder.put("odd", &[0; 9]);
    let linked = folder.path("linked");
    fs::hard_link(&ops, &linked).unwrap();
    let names = folder.names();
    for (arguments, said) in [
        (["charge", &ops, &linked], "OPS and COUNTERS must be two files\n"),
        (["charge", &ops, &odd], "9 bytes are no whole words\n"),
        (["look", &ops, &odd], "9 bytes are no whole words\n"),
        (["charge", &ops, "/dev/zero"], "it is no file"),
        (["charge", &ops, &folder.path("none")], "No such file"),
        (["look", &folder.path("none"), &counters], "No such file"),
        (["charge", &ops, &folder.path("")], "directory"),
    ] {
        let (status, output, errors) = ran(run, &arguments, &[]);
        assert_eq!((status, output.as_str()), (2, ""), "{arguments:?}");
        assert!(errors.contains(said), "{arguments:?}: {errors}");
    }
    // The lines could not be printed, so a caller who sees the status would charge again.
    for kind in [ErrorKind::StorageFull, ErrorKind::BrokenPipe] {
        let mut streams = Streams {
            input: &mut &[][..],
            output: &mut Broken(kind),
            errors: &mut Vec::new(),
            terminal: false,
            process: false,
        };
        let arguments: [OsString; 3] = ["charge".into(), ops.clone().into(), counters.clone().into()];
        assert_eq!(run(&arguments, &mut streams), 2);
    }
    assert!(fs::read(&counters).unwrap() == before);
    assert_eq!(folder.names(), names);
}

/// The look and the charge of a register: ten more lines of the look, both files changed by the charge, and all else in them as it was.
#[test]
fn a_register_is_shown_its_ledger_and_charges_both_files() {
    let folder = Folder::new("registers");
    let before = some_counters();
    let mut ledgers: Vec<u64> = (0..175).collect();
    ledgers[9] = P - 1;
    ledgers[47] = P;
    let today = Parameters::default();
    for (count, options, parameters, register) in [
        (0, &["--shipped"][..], today.shipped(), 15),
        (2, &[], today, 0),
        (5, &["--floor", "256", "--rounds", "3"], today.rounds(3).floor(256), 9),
    ] {
        let ops = operations(count);
        let look = RegisterLook::with(parameters, register, &ops, &before, &ledgers).unwrap();
        let files = [
            folder.put("ops", &records(&ops)),
            folder.put("counters", &bytes(&before)),
            folder.put("ledgers", &bytes(&ledgers)),
        ];
        let [file, counters, kept] = &files;
        let number = register.to_string();
        let run_on = |name| {
            let register = ["--ledgers", kept, "--register", &number];
            ran(run, &[&[name], options, &register, &[file, counters]].concat(), &[])
        };
        let kinds = look.look().kinds();
        let shown = kinds.map(|kind| format!("{} {} {}\n", kind.kind.name(), kind.sum, kind.largest));
        let own = kinds.map(|kind| format!("ledger {} {}\n", kind.kind.name(), look.ledger()[kind.kind.number()]));
        assert_eq!(run_on("look"), (0, shown.concat() + &own.concat(), String::new()));
        assert!(fs::read(counters).unwrap() == bytes(&before) && fs::read(kept).unwrap() == bytes(&ledgers));
        let charged = kinds.map(|kind| format!("{} {}\n", kind.kind.name(), kind.sum));
        let (status, output, errors) = run_on("charge");
        assert_eq!((status, errors.as_str()), (0, ""));
        assert!(output.starts_with(&(charged.concat() + "digest ")), "{output}");
        let (mut after, mut sums) = (before.clone(), ledgers.clone());
        registers::charge_with(parameters, register, &ops, &mut after, &mut sums).unwrap();
        assert!(fs::read(counters).unwrap() == bytes(&after), "register {register}");
        assert_eq!(fs::read(kept).unwrap(), bytes(&sums), "register {register}");
        assert_eq!(folder.names(), ["counters", "counters.charged", "ledgers", "ops"]);
    }
}

/// 10 comes before OPS and COUNTERS are read, of which there are none; the rest as without a register, and then a word of its own ledger.
#[test]
fn a_refused_register_leaves_both_files_alone() {
    let folder = Folder::new("register-refused");
    let none = folder.path("none");
    for (words, register) in [
        (0, "0"),
        (9, "0"),
        (25, "2"),
        (160, "16"),
        (500, "16"),
        (500, "18446744073709551615"),
    ] {
        let ledgers = folder.put("ledgers", &bytes(&vec![P; words]));
        for name in ["look", "charge"] {
            let arguments = [name, "--register", register, "--ledgers", &ledgers, &none, &none];
            let line = format!("refused 10 {register}\n");
            let words = format!("register {register} is not in use: its ledger is not a whole one of the first 16\n");
            assert_eq!(ran(run, &arguments, &[]), (1, line, words), "{arguments:?}");
            let eight = [&[name, "--rounds", "0"][..], &arguments[1..]].concat();
            assert_eq!(ran(run, &eight, &[]).1, "refused 8 0\n");
            let nine = [&[name, "--floor", "5"][..], &arguments[1..]].concat();
            assert_eq!(ran(run, &nine, &[]).1, "refused 9 5\n");
        }
    }
    let mut ledgers = vec![0; 30];
    ledgers[14] = u64::MAX;
    let [few, many] = [NUM_COUNTERS - 1, NUM_COUNTERS].map(|length| bytes(&vec![0; length]));
    let files = [
        folder.put("ops", &records(&operations(1))),
        folder.put("few", &few),
        folder.put("many", &many),
        folder.put("ledgers", &bytes(&ledgers)),
    ];
    let [ops, few, many, ledgers] = &files;
    let before = files.clone().map(|file| fs::read(file).unwrap());
    let names = folder.names();
    for name in ["look", "charge"] {
        let run_on = |counters: &str| {
            ran(
                run,
                &[name, "--register", "1", "--ledgers", ledgers, ops, counters],
                &[],
            )
        };
        let words = "COUNTERS has 10485759 words, and 10485760 are needed\n";
        assert_eq!(run_on(few), (1, "refused 3 10485760\n".into(), words.into()));
        let words = "LEDGERS, word 14 (register 1, IS_HALF): 18446744073709551615 is not below p\n";
        assert_eq!(run_on(many), (1, "refused 5 14\n".into(), words.into()));
    }
    assert!(files.clone().map(|file| fs::read(file).unwrap()) == before);
    assert_eq!(folder.names(), names);
}

/// Whatever goes wrong, both files are as they were and nothing is left beside them.
#[test]
fn a_register_whose_charge_fails_leaves_both_files_alone() {
    let folder = Folder::new("register-fails");
    let ops = folder.put("ops", &records(&operations(1)));
    let (counters, ledgers) = (bytes(&vec![7; NUM_COUNTERS]), bytes(&[7; 20]));
    let (first, second) = (folder.put("counters", &counters), folder.put("ledgers", &ledgers));
    let (odd, linked) = (folder.put("odd", &[0; 81]), folder.path("linked"));
    fs::hard_link(&second, &linked).unwrap();
    let names = folder.names();
    let through = |ledgers: &str, ops: &str, counters: &str| {
        ["charge", "--register", "1", "--ledgers", ledgers, ops, counters].map(OsString::from)
    };
    for ([ledgers, ops, counters], said) in [
        ([&second, &second, &first], "OPS and LEDGERS must be two files\n"),
        ([&second, &ops, &linked], "LEDGERS and COUNTERS must be two files\n"),
        ([&second, &first, &first], "refused 6 0"),
        ([&second, &ops, &ops], "OPS and COUNTERS must be two files\n"),
        ([&odd, &ops, &first], "81 bytes are no whole words\n"),
        ([&"/dev/zero".to_string(), &ops, &first], "it is no file"),
        ([&folder.path("none"), &ops, &first], "No such file"),
        ([&second, &ops, &folder.path("none")], "No such file"),
    ] {
        let arguments = ["charge", "--register", "1", "--ledgers", ledgers, ops, counters];
        let (status, output, errors) = ran(run, &arguments, &[]);
        assert!(
            status > 0 && (output + &errors).contains(said),
            "{arguments:?}: {errors}"
        );
    }
    for kind in [ErrorKind::StorageFull, ErrorKind::BrokenPipe] {
        let mut streams = Streams {
            input: &mut &[][..],
            output: &mut Broken(kind),
            errors: &mut Vec::new(),
            terminal: false,
            process: false,
        };
        assert_eq!(run(&through(&second, &ops, &first), &mut streams), 2);
    }
    assert!(fs::read(&first).unwrap() == counters && fs::read(&second).unwrap() == ledgers);
    assert_eq!(folder.names(), names);
}

/// Two files take their names, or neither does: a folder has the second one's.
#[test]
fn two_files_take_their_names_together() {
    let folder = Folder::new("together");
    let written = |name: &str, words: &[u64]| {
        let path = folder.0.join(name);
        let target = Target::of(&path).unwrap();
        let mut file = WordFile::beside(&target).unwrap();
        file.put(words).unwrap();
        file.sync().unwrap();
        file
    };
    let commit = |files| {
        let mut streams = Streams {
            input: &mut &[][..],
            output: &mut Vec::new(),
            errors: &mut Vec::new(),
            terminal: false,
            process: false,
        };
        commit(files, &mut streams).is_ok()
    };
    let (first, second) = (folder.put("first", b"old"), folder.put("second", b"old"));
    assert!(commit(vec![written("first", &[1]), written("second", &[2])]));
    assert_eq!(fs::read(&first).unwrap(), bytes(&[1]));
    assert_eq!(fs::read(&second).unwrap(), bytes(&[2]));
    let files = vec![written("first", &[3]), written("second", &[4])];
    fs::remove_file(&second).unwrap();
    fs::create_dir(&second).unwrap();
    folder.put("second/in it", b"");
    assert!(!commit(files));
    assert_eq!(fs::read(&first).unwrap(), bytes(&[1]));
    assert_eq!(folder.names(), ["first", "second"]);
}

/// The lines of a month of 0, 1, 2 and 4 operations.
const MONTH: &str =
    "files 4\noperations 7\nused-rows 168\npadding-rows 60\nfullest 24 32 file 2\nemptiest 0 4 file 1\n";

/// A line for each height, with a file at these.
fn height_lines(heights: &[u64]) -> String {
    let line = |power: u32| {
        format!(
            "height {} {}\n",
            1u64 << power,
            u8::from(heights.contains(&(1 << power)))
        )
    };
    (2..32).map(line).collect()
}

#[test]
fn a_month_has_a_line_for_each_number() {
    let folder = Folder::new("month");
    let lines = MONTH.to_string() + &height_lines(&[4, 32, 64, 128]);
    for text in ["0\n1\n2\n4\n", "0\n1\n2\n4", "000\r\n01\r\n 2\n4 \n"] {
        let counts = folder.put("counts", text.as_bytes());
        let told = (0, lines.clone(), String::new());
        assert_eq!(ran(run, &["month", &counts], &[]), told, "{text:?}");
        assert_eq!(ran(run, &["month"], text.as_bytes()), told, "{text:?}");
    }
    let counts = folder.path("counts");
    let other = ran(run, &["month", "--floor", "64", "--rounds", "12", &counts], &[]).1;
    let words = "used-rows 84\npadding-rows 172\nfullest 48 64 file 4\nemptiest 0 64 file 1\nheight 4 0\n";
    assert!(other.contains(words) && other.contains("\nheight 64 4\n"), "{other}");
    // Without a file there is nothing that is fullest.
    let none = "files 0\noperations 0\nused-rows 0\npadding-rows 0\n".to_string() + &height_lines(&[]);
    assert_eq!(ran(run, &["month"], &[]), (0, none, String::new()));
}

/// On a terminal the heights are bars: one character a file, or at most fifty.
#[test]
fn a_month_is_drawn_on_a_terminal() {
    let drawn = |counts: &[u8]| {
        let (mut input, mut output) = (counts, Vec::new());
        let mut streams = Streams {
            input: &mut input,
            output: &mut output,
            errors: &mut Vec::new(),
            terminal: true,
            process: false,
        };
        assert_eq!(run(&["month".into()], &mut streams), 0);
        String::from_utf8(output).unwrap()
    };
    let bars = "
round height   files
           4       1 #
           8       0
          16       0
          32       1 #
          64       1 #
         128       1 #
";
    assert_eq!(drawn(b"0\n1\n2\n4\n"), MONTH.to_string() + bars);
    let many = drawn([&b"1\n".repeat(1000)[..], b"2\n"].concat().as_slice());
    let bars = format!("\n          32    1000 {}\n          64       1 #\n", "#".repeat(50));
    assert!(many.ends_with(&bars), "{many}");
    assert!(drawn(&[]).ends_with("padding-rows 0\n"));
}

#[test]
fn a_month_that_is_refused_says_why() {
    let most = "0\n".repeat(4096);
    assert_eq!(ran(run, &["month"], most.as_bytes()).0, 0);
    let many = ran(run, &["month"], (most.clone() + "89478486\n").as_bytes());
    let words = "a month has at most 4096 files, and not 4097\n";
    assert_eq!(many, (1, "refused 14 4097\n".into(), words.into()));
    for count in ["89478486", "18446744073709551616", &"9".repeat(50)] {
        let told = ran(run, &["month"], format!("0\n89478485\n{count}\n0\n").as_bytes());
        let words = "COUNTS, line 3: a file has at most 89478485 operations\n";
        assert_eq!(told, (1, "refused 1 89478486\n".into(), words.into()));
    }
    // 8 and then 9, before the text is read.
    for (options, line) in [
        (["--rounds", "25", "--floor", "5"], "refused 8 25\n"),
        (["--rounds", "24", "--floor", "5"], "refused 9 5\n"),
    ] {
        let told = ran(run, &[&["month"][..], &options, &["no such file"]].concat(), &[]);
        assert_eq!((told.0, told.1.as_str()), (1, line));
    }
}

#[test]
fn a_text_that_is_no_month_has_status_2() {
    for (text, line) in [
        (&b"1\n\n2\n"[..], "line 2: `` is no decimal number\n"),
        (b"1\n2\n\n", "line 3: `` is no decimal number\n"),
        (b"-1\n", "line 1: `-1` is no decimal number\n"),
        (b"1 2\n", "line 1: `1 2` is no decimal number\n"),
        (b"1\n0x10\n", "line 2: `0x10` is no decimal number\n"),
        (b"1\n2,5\n", "line 2: `2,5` is no decimal number\n"),
        (b"\xFF\n", "line 1: `\u{FFFD}` is no decimal number\n"),
    ] {
        let (status, output, errors) = ran(run, &["month"], text);
        assert_eq!((status, output.as_str()), (2, ""), "{line}");
        assert!(errors.ends_with(line), "{errors}");
    }
}

/// The picture has a bar for each file, and takes its name where the month is told.
#[test]
fn a_month_has_a_picture() {
    let folder = Folder::new("picture");
    let (counts, svg) = (folder.put("counts", b"0\n1\n2\n4\n"), folder.put("svg", b"old"));
    let told = ran(run, &["month", "--svg", &svg, &counts], &[]);
    assert_eq!(told, ran(run, &["month", &counts], &[]));
    let picture = fs::read_to_string(&svg).unwrap();
    assert!(picture.starts_with("<svg xmlns=") && picture.ends_with("</svg>\n"));
    for title in [
        "file 1: 0 operations, 0 of 4 rows used, 0.0 %",
        "file 2: 1 operation, 24 of 32 rows used, 75.0 %",
        "file 3: 2 operations, 48 of 64 rows used, 75.0 %",
        "file 4: 4 operations, 96 of 128 rows used, 75.0 %",
    ] {
        assert_eq!(
            picture.matches(&format!("<title>{title}</title>")).count(),
            1,
            "{title}"
        );
    }
    assert_eq!(picture.matches("<title>").count(), 4);
    for words in [
        "4 files, 7 operations: 168 of 228 rows used, 73.6 %; 24 rounds, floor 4",
        "fullest: file 2, 24 of 32 rows used, 75.0 %",
        "emptiest: file 1, 0 of 4 rows used, 0.0 %",
        "73.6 %",
    ] {
        assert_eq!(picture.matches(&format!(">{words}<")).count(), 1, "{words}");
    }
    assert_eq!(ran(run, &["month", "--svg", &svg], b"89478485\n").0, 0);
    let most = "1 file, 89,478,485 operations: 2,147,483,640 of 2,147,483,648 rows used, 99.9 %; 24 rounds, floor 4";
    assert!(fs::read_to_string(&svg).unwrap().contains(most));
    assert_eq!(ran(run, &["month", "--svg", &svg], b"").0, 0);
    assert!(fs::read_to_string(&svg).unwrap().contains(">no files<"));

    // What is refused, no text or can't be printed leaves what was there.
    fs::write(&svg, "old").unwrap();
    let past = folder.put("past", b"89478486\n");
    assert_eq!(ran(run, &["month", "--svg", &svg, &past], &[]).0, 1);
    assert_eq!(ran(run, &["month", "--svg", &svg], b"one\n").0, 2);
    let mut streams = Streams {
        input: &mut &b"1\n"[..],
        output: &mut Broken(ErrorKind::StorageFull),
        errors: &mut Vec::new(),
        terminal: false,
        process: false,
    };
    assert_eq!(run(&["month", "--svg", &svg].map(OsString::from), &mut streams), 2);
    assert_eq!(fs::read(&svg).unwrap(), b"old");
    // The text is not overwritten.
    let told = ran(run, &["month", "--svg", &counts, &counts], &[]);
    assert_eq!((told.0, told.1.as_str()), (2, ""));
    assert!(told.2.starts_with("FILE and COUNTS must be two files\n"));
    let nowhere = folder.path("no/folder");
    assert_eq!(ran(run, &["month", "--svg", &nowhere, &counts], &[]).0, 2);
    assert_eq!(folder.names(), ["counts", "past", "svg"]);
}

#[test]
fn every_table_is_written_with_its_multiplicities() {
    let today = Parameters::default();
    for (count, options, parameters) in [
        (0, &[][..], today),
        (0, &["--shipped"], today.shipped()),
        (0, &["--rounds", "3", "--shipped"], today.shipped().rounds(3)),
        (5, &[], today),
        (5, &["--rounds", "3"], today.rounds(3)),
        (70, &["--shipped"], today),
        (0, &["--floor", "32", "--shipped"], today.shipped().floor(32)),
        (5, &["--floor", "32", "--rounds", "3"], today.rounds(3).floor(32)),
    ] {
        let shipped = count > 0 || options.contains(&"--shipped");
        let folder = Folder::new(&format!("all-{count}-{}", options.concat()));
        let ops = operations(count);
        let (file, all) = (folder.put("ops", &records(&ops)), folder.path("all/"));
        let (status, output, errors) = ran(run, &[&["write", "--all"], options, &[&all, &file]].concat(), &[]);
        assert_eq!((status, errors.as_str()), (0, ""));
        let rows = IsWhRows::of_operations(&ops).unwrap();
        let mut constants = vec![0; keccak_rc::TABLE_WORDS];
        keccak_rc::generate_keccak_rc_trace(&mut constants).unwrap();
        keccak_rc::update_multiplicities_with(parameters, &mut constants, count).unwrap();
        let mut counters = vec![0; NUM_COUNTERS];
        segment::charge_with(parameters, &ops, &mut counters).unwrap();
        is_charged(&counters, count, parameters, shipped);
        rows.charge(&mut counters).unwrap();
        let mut table = vec![0; bitwise::TABLE_WORDS];
        bitwise::generate_bitwise_trace(&mut table).unwrap();
        bitwise::fill_multiplicities(&counters, &mut table).unwrap();
        // A table that is not shipped, or of no rows, is not written, and has no rows in the lines.
        let there = |is_there, table| if is_there { table } else { Vec::new() };
        let files = [
            ("bitwise", table),
            ("constants", constants),
            (
                "core",
                there(shipped, keccak::keccak_table_with(parameters, &ops).unwrap()),
            ),
            ("is_wh", there(count > 0, rows.table().unwrap())),
            (
                "round",
                there(shipped, keccak_rnd::keccak_rnd_table_with(parameters, &ops).unwrap()),
            ),
        ];
        let lines = format!(
            "ops {count}\ncore-rows {}\nround-rows {}\nis-wh-rows {}\nconstant-rows 32\nbitwise-rows 1048576\n",
            files[2].1.len() / 486,
            files[4].1.len() / 1480,
            files[3].1.len() / 4
        );
        assert_eq!(output, lines);
        let written: Vec<_> = files.into_iter().filter(|(_, words)| !words.is_empty()).collect();
        for (name, words) in &written {
            let found = fs::read(folder.path("all/") + name).unwrap();
            assert!(found == bytes(words), "{name}, {count}");
        }
        let names = names(all.as_ref());
        assert!(written.iter().map(|(name, _)| *name).eq(names), "{count}, {options:?}");
        assert_eq!(folder.names(), ["all", "ops"]);
    }
}

/// What a segment sends on AreBytes, as `tally` has it of 24 rounds: 220 pairs in each row of the round table, four in a core row of a call.
fn is_charged(counters: &[u64], count: u64, parameters: Parameters, shipped: bool) {
    let are_bytes: u64 = counters.iter().skip(3).step_by(10).sum();
    let height = (parameters.rounds * count).next_power_of_two().max(parameters.floor);
    let sent = if shipped { 4 * count + 220 * height } else { 0 };
    assert_eq!(are_bytes, sent, "{count} operations, {shipped}");
}

/// Between the files that are written every bus adds up, tuple by tuple: what is sent is received, also by and from padding rows. Memory and
/// system calls are other tables' matter.
#[test]
fn every_bus_adds_up_over_the_tables_that_are_written() {
    let (honest, fewer) = (honest(24), honest(5));
    let five = ["bitwise", "constants", "core", "is_wh", "round"];
    // Three calls send 3 * 19,393 on ByteAlu alone, those of five rounds 3 * (5 * 808 + 1); a padding row of the round table sends 220.
    for (ops, options, files, least) in [
        (&[][..], &[][..], &["bitwise", "constants"][..], 0),
        (&[], &["--shipped"], &["bitwise", "constants", "core", "round"], 880),
        (&honest, &[], &five, 3 * 19_393),
        (&honest, &["--shipped"], &five, 3 * 19_393),
        (&fewer, &["--rounds", "5"], &five, 3 * 4041),
        (
            &[],
            &["--shipped", "--floor", "64"],
            &["bitwise", "constants", "core", "round"],
            64 * 220,
        ),
        (&fewer, &["--floor", "64", "--rounds", "5"], &five, 3 * 4041 + 49 * 220),
    ] {
        let rounds = if ops == fewer { 5 } else { 24 };
        let folder = Folder::new(&format!("adds-up-{}-{}", ops.len(), options.len()));
        let (file, path) = (folder.put("ops", &records(ops)), folder.path("all"));
        let arguments = [&["write", "--all"], options, &[&path, &file]].concat();
        assert_eq!(ran(run, &arguments, &[]).0, 0);
        assert_eq!(names(path.as_ref()), files, "{arguments:?}");
        let (sent, balance) = balance(Parameters::default().rounds(rounds), path.as_ref());
        assert!(
            sent >= least && (least > 0 || sent == 0),
            "{arguments:?}: {sent} are sent"
        );
        let open: HashSet<Bus> = balance
            .into_iter()
            .filter(|(_, sum)| *sum != 0)
            .map(|((bus, _), _)| bus)
            .collect();
        let others = match ops {
            [] => HashSet::new(),
            _ => HashSet::from([Bus::Memw, Bus::Ecall]),
        };
        assert_eq!(open, others, "{arguments:?}");
    }
}

/// How many tuples the tables of a folder send, and by bus and values how often one is sent more than received.
fn balance(parameters: Parameters, folder: &Path) -> (u64, HashMap<(Bus, Vec<u64>), i128>) {
    let (mut sent, mut sums) = (0, HashMap::new());
    let mut add = |tuple: BusInteraction, values: &[u64]| {
        if tuple.multiplicity == 0 {
            return;
        }
        let sum = sums.entry((tuple.bus, values[..tuple.length].to_vec())).or_insert(0);
        match tuple.side {
            Side::Sender => {
                sent += tuple.multiplicity;
                *sum += i128::from(tuple.multiplicity);
            }
            Side::Receiver => *sum -= i128::from(tuple.multiplicity),
        }
    };
    let mut words = [0; keccak_rnd::TUPLE_WORDS];
    for name in names(folder) {
        let bytes = fs::read(folder.join(&name)).unwrap();
        let table: Vec<u64> = bytes
            .as_chunks()
            .0
            .iter()
            .map(|&word| u64::from_le_bytes(word))
            .collect();
        let mut by_index = |columns: usize, tuples: usize, bus_interaction: ByIndex| {
            // A row that nobody looks up, and that looks up nothing, would only take time.
            for row in table
                .chunks_exact(columns)
                .filter(|row| name != "bitwise" || row[11..] != [0; 10])
            {
                for index in 0..tuples {
                    let mut values = [0; keccak_rnd::MAX_TUPLE_LENGTH];
                    let tuple = bus_interaction(row, index, &mut values).unwrap();
                    add(tuple, &values);
                }
            }
        };
        match name.as_str() {
            "bitwise" => by_index(
                bitwise::NUM_COLUMNS,
                bitwise::NUM_LOOKUP_TYPES,
                bitwise::bus_interaction,
            ),
            "constants" => by_index(keccak_rc::NUM_COLUMNS, 1, keccak_rc::bus_interaction),
            "is_wh" => by_index(is_wh::NUM_COLUMNS, is_wh::NUM_TUPLES, is_wh::bus_interaction),
            "core" => {
                for row in table.chunks_exact(keccak::NUM_COLUMNS) {
                    keccak::bus_interactions_with(parameters, row, 0, &mut words).unwrap();
                    tuples(&words[..keccak::TUPLE_WORDS]).for_each(|(tuple, values)| add(tuple, values));
                }
            }
            _ => {
                for row in table.chunks_exact(keccak_rnd::NUM_COLUMNS) {
                    keccak_rnd::bus_interactions(row, &mut words).unwrap();
                    tuples(&words).for_each(|(tuple, values)| add(tuple, values));
                }
            }
        }
    }
    (sent, sums)
}

/// A folder that holds something, or what is none, is left alone; an empty one is filled and keeps its rights.
#[test]
fn every_table_is_there_or_none() {
    use std::os::unix::fs::PermissionsExt;
    let folder = Folder::new("all-or-none");
    let ops = folder.put("ops", &records(&operations(1)));
    let cut = folder.put("cut", &records(&operations(1))[1..]);
    let mut file = records(&operations(1));
    set_address(&mut file, 0, 12);
    let (off, alone) = (folder.put("off", &records_off_the_eight()), folder.put("alone", &file));
    let (full, empty) = (folder.path("full"), folder.path("empty"));
    fs::create_dir(&full).unwrap();
    fs::write(folder.path("full/core"), b"before").unwrap();
    fs::create_dir(&empty).unwrap();
    fs::set_permissions(&empty, fs::Permissions::from_mode(0o750)).unwrap();
    let names = folder.names();
    for (all, ops, status, line) in [
        (&full, &ops, 2, ""),
        (&ops, &ops, 2, ""),
        (&folder.path("none/all"), &ops, 2, ""),
        (&empty, &cut, 1, "refused 6 0\n"),
        (&empty, &off, 1, "refused 7 4100\n"),
        (&folder.path("none"), &alone, 1, "refused 7 12\n"),
        (&empty, &folder.path("none"), 2, ""),
    ] {
        let answer = ran(run, &["write", "--all", all, ops], &[]);
        assert_eq!((answer.0, answer.1.as_str()), (status, line), "{all}");
        assert!(!answer.2.is_empty());
    }
    assert_eq!(folder.names(), names);
    assert_eq!(fs::read(folder.path("full/core")).unwrap(), b"before");
    assert_eq!(fs::read_dir(&empty).unwrap().count(), 0);
    assert_eq!(ran(run, &["write", "--all", &empty, &ops], &[]).0, 0);
    assert_eq!(fs::read_dir(&empty).unwrap().count(), 5);
    assert_eq!(fs::metadata(&empty).unwrap().permissions().mode() & 0o777, 0o750);
    assert_eq!(folder.names(), names);
}

#[test]
fn judged_files() {
    let folder = Folder::new("judged");
    let row = &keccak::keccak_table(&[]).unwrap()[..keccak::NUM_COLUMNS];
    let honest = folder.put("core", &bytes(row));
    let none = folder.put("none", &[]);
    let called = keccak::keccak_table(&operations(1)).unwrap();
    let active = folder.put("active", &bytes(&called));
    let unbalanced = verdict_text(&called, &[]).unwrap() + "\n";
    assert!(unbalanced.starts_with("core row 0 balance 2 Keccak "), "{unbalanced}");
    let cut = folder.put("cut", &bytes(&row[1..]));
    let large = folder.put("large", &bytes(&[vec![0; 485], vec![P]].concat()));
    let odd = folder.put("odd", &[0; 9]);
    let missing = folder.path("missing");
    let cases = [
        (&honest, &none, 0, "holds 0\n"),
        (&none, &none, 0, "holds 0\n"),
        (&active, &none, 1, &unbalanced),
        (&cut, &none, 1, "refused 2 0\n"),
        (&none, &cut, 1, "refused 2 1\n"),
        (&large, &none, 1, "refused 5 485\n"),
        (&odd, &none, 2, ""),
        (&honest, &missing, 2, ""),
    ];
    for (core, round, status, line) in cases {
        let answer = ran(run, &["judge", core, round], &[]);
        assert_eq!((answer.0, answer.1.as_str()), (status, line));
        assert_eq!(ran(run_judge, &[core, round], &[]), answer);
        assert_eq!(answer.2.is_empty(), !line.starts_with("refused") && status < 2);
    }
    let words = |core: &str, round: &str| ran(run, &["judge", core, round], &[]).2;
    assert_eq!(
        words(&none, &cut),
        "ROUND has 485 words, which are not whole rows of 1480\n"
    );
    assert_eq!(
        words(&cut, &none),
        "CORE has 485 words, which are not whole rows of 486\n"
    );
    assert_eq!(
        words(&large, &none),
        format!("CORE, row 0, column 485 (MU): {P} is not below p\n")
    );
    let round = folder.put(
        "round",
        &bytes(&[vec![0; 1480 + 3], vec![P + 5], vec![0; 1476]].concat()),
    );
    let place = "ROUND, row 1, column 3 (START[0][0][0])";
    assert_eq!(words(&honest, &round), format!("{place}: {} is not below p\n", P + 5));
}

/// The rows of both tables in the other order: `judge` and `job` say the same.
#[test]
fn rows_in_the_other_order_are_judged_alike() {
    let (folder, list) = (Folder::new("other-order"), honest(24));
    let turned =
        |table: Vec<u64>, width: usize| -> Vec<u64> { table.rchunks_exact(width).flatten().copied().collect() };
    let core = turned(keccak::keccak_table(&list).unwrap(), keccak::NUM_COLUMNS);
    let round = turned(keccak_rnd::keccak_rnd_table(&list).unwrap(), keccak_rnd::NUM_COLUMNS);
    let [core_rows, round_rows] = [core.len() / keccak::NUM_COLUMNS, round.len() / keccak_rnd::NUM_COLUMNS];
    let counts = folder.put("counts", format!("{core_rows} {round_rows}\n").as_bytes());
    let (core, round) = (folder.put("core", &bytes(&core)), folder.put("round", &bytes(&round)));
    let fine = |line: &str| (0, line.to_string(), String::new());
    assert_eq!(ran(run, &["judge", &core, &round], &[]), fine("holds 3\n"));
    let answer = ran(run, &["job", &core, &round, &counts], &[]);
    assert_eq!(answer, fine("segment 0: holds 3\njob: holds 3\n"));
}

/// Two segments of twelve rounds, of two calls and of one: as they are, with a round row filed with the wrong one, and refused.
#[test]
fn segments_and_then_the_job() {
    let (folder, with) = (Folder::new("job"), Parameters::default().rounds(12));
    let list = honest(12);
    let segments = list.split_at(2 * OP_WORDS);
    let table = |make: fn(Parameters, &[u64]) -> Result<Vec<u64>, Refusal>| {
        [segments.0, segments.1].map(|ops| make(with, ops).unwrap()).concat()
    };
    let core = folder.put("core", &bytes(&table(keccak::keccak_table_with)));
    let round = folder.put("round", &bytes(&table(keccak_rnd::keccak_rnd_table_with)));
    let told = |counts: &[u64]| {
        let binary = folder.put("binary", &bytes(counts));
        let told = ran(run, &["job", "--binary", "--rounds", "12", &core, &round, &binary], &[]);
        if counts.len().is_multiple_of(2) {
            let lines = counts.chunks(2).map(|pair| format!("{}  {} \n", pair[0], pair[1]));
            let text = folder.put("counts", lines.collect::<String>().as_bytes());
            assert_eq!(ran(run, &["job", "--rounds", "12", &core, &round, &text], &[]), told);
        }
        told
    };
    let lines = |first: &str, second: &str| format!("segment 0: {first}\nsegment 1: {second}\njob: holds 3\n");
    let fine = String::new();
    assert_eq!(told(&[4, 32, 4, 16]), (0, lines("holds 2", "holds 1"), fine.clone()));
    let misfiled = lines("round row 32 balance 0", "core row 0 balance 2");
    assert_eq!(told(&[4, 33, 4, 15]), (1, misfiled, fine.clone()));
    let one = "segment 0: holds 3\njob: holds 3\n".to_string();
    assert_eq!(told(&[8, 48]), (0, one, fine.clone()));

    let refused = |words: &str| (1, "refused 2 2\n".to_string(), format!("COUNTS has {words}\n"));
    assert_eq!(told(&[4, 32, 4]), refused("3 words, which are not pairs"));
    let rows = "core rows and 48 round rows, and the tables have 8 and 48";
    assert_eq!(told(&[4, 48]), refused(&format!("4 {rows}")));
    assert_eq!(
        told(&[8, 48, u64::MAX, 0, 1, 0]),
        refused(&format!("18446744073709551624 {rows}"))
    );
    assert_eq!(
        told(&[]),
        refused("0 core rows and 0 round rows, and the tables have 8 and 48")
    );
    let none = folder.put("none", &[]);
    let empty = ran(run, &["job", &none, &none, &none], &[]);
    assert_eq!(empty, (0, "job: holds 0\n".into(), fine));
    let (odd, missing) = (folder.put("odd", &[0; 9]), folder.path("missing"));
    for [core, round, counts] in [
        [&core, &round, &odd],
        [&none, &none, &missing],
        [&missing, &none, &none],
    ] {
        let (status, output, errors) = ran(run, &["job", core, round, counts], &[]);
        assert_eq!((status, output.as_str(), errors.is_empty()), (2, "", false));
    }
    let large = folder.put("large", &bytes(&[vec![0; 485], vec![P]].concat()));
    let counts = folder.put("counts", b"1 0");
    for wrong in ["1", "1 2 3", "1\n2", "1 x", "1 2\n\n"] {
        let (status, _, errors) = ran(run, &["job", &none, &none, &folder.put("wrong", wrong.as_bytes())], &[]);
        assert!(
            status == 2 && errors.ends_with("is not two decimal numbers\n"),
            "{errors}"
        );
    }
    let words = format!("CORE, row 0, column 485 (MU): {P} is not below p\n");
    assert_eq!(
        ran(run, &["job", &large, &none, &counts], &[]),
        (1, "refused 5 485\n".into(), words)
    );
    assert_eq!(
        ran(run, &["job", &odd_words(&folder), &none, &none], &[]).1,
        "refused 2 0\n"
    );
}

/// Records in the rows' order and in another, one too many, one too few; then what is refused, the table first, and what can't be read.
#[test]
fn a_table_and_a_file_of_the_same_calls() {
    let folder = Folder::new("same");
    let list = operations(3);
    let (table, file) = (keccak::keccak_table(&list).unwrap(), records(&list));
    let core = folder.put("core", &bytes(&table));
    let ops = folder.put("ops", &file);
    let same = |core: &str, ops: &str| ran(run, &["same", core, ops], &[]);
    let told = |status, line: &str| (status, format!("{line}\n"), String::new());
    assert_eq!(same(&core, &ops), told(0, "same"));
    let turned: Vec<u8> = file.rchunks(RECORD_BYTES).flatten().copied().collect();
    assert_eq!(same(&core, &folder.put("turned", &turned)), told(0, "same"));
    let longer = folder.put("longer", &[&file[..], &file[..RECORD_BYTES]].concat());
    assert_eq!(same(&core, &longer), told(1, "record 3"));
    let shorter = folder.put("shorter", &file[RECORD_BYTES..]);
    assert_eq!(same(&core, &shorter), told(1, "row 0"));
    let none = folder.put("none", b"");
    assert_eq!(same(&none, &none), told(0, "same"));
    assert_eq!(same(&none, &ops), told(1, "record 0"));
    assert_eq!(same(&core, &none), told(1, "row 0"));

    let mut old = file.clone();
    set_address(&mut old, 2, 4100);
    assert_eq!(same(&core, &folder.put("old", &old)), told(1, "record 2"));
    set_address(&mut old, 1, u64::MAX);
    let cut = folder.put("cut", &old[..1253]);
    let high = "record 1, from byte 418: the last of the 25 lanes from address 18446744073709551615 would start past 2^64 - 1\n";
    let words = format!("{cut}, {high}");
    assert_eq!(same(&core, &cut), (1, "refused 4 18446744073709551615\n".into(), words));
    let cut = folder.put("cut", &file[..1253]);
    let words = format!("{cut}, record 2, from byte 836, is cut: 417 of its 418 bytes are there\n");
    assert_eq!(same(&core, &cut), (1, "refused 6 836\n".into(), words));
    let large = folder.put("large", &bytes(&[vec![0; 485], vec![P]].concat()));
    let words = format!("CORE, row 0, column 485 (MU): {P} is not below p\n");
    assert_eq!(same(&large, &cut), (1, "refused 5 485\n".into(), words));
    let words = "CORE has 3 words, which are not whole rows of 486\n".to_string();
    assert_eq!(same(&odd_words(&folder), &cut), (1, "refused 2 0\n".into(), words));
    let (odd, missing) = (folder.put("odd", &[0; 9]), folder.path("missing"));
    for [core, ops] in [[&odd, &ops], [&missing, &ops], [&odd_words(&folder), &missing]] {
        let (status, output, errors) = same(core, ops);
        assert_eq!((status, output.as_str(), errors.is_empty()), (2, "", false));
    }
}

/// A file of three words, which are no row.
fn odd_words(folder: &Folder) -> String {
    folder.put("three", &bytes(&[0; 3]))
}

#[test]
fn every_failure_has_a_line() {
    let folder = Folder::new("failures");
    let ops = operations(2);
    let core = folder.put("core", &bytes(&keccak::keccak_table(&ops).unwrap()));
    let round = folder.put("round", &bytes(&keccak_rnd::keccak_rnd_table(&ops).unwrap()));
    let none = folder.put("none", &[]);
    let lines = "core row 0 balance 3\ncore row 1 balance 3\nround row 23 balance 1\nround row 47 balance 1\n";
    let all = ran(run, &["judge", "--all", &core, &round], &[]);
    assert_eq!(all, (1, lines.into(), String::new()));
    let first = "core row 0 balance 3\n";
    assert!(
        ran(run, &["judge", &core, &round], &[])
            .1
            .starts_with("core row 0 balance 3 Keccak ")
    );
    for options in [["--all", "--most", "1"], ["--most", "1", "--all"]] {
        let most = ran(run, &[&["judge"], &options[..], &[&core, &round]].concat(), &[]);
        assert_eq!(most, (1, first.into(), "3 more are not shown\n".into()));
    }
    assert_eq!(ran(run_judge, &["--all", "--most", "4", &core, &round], &[]), all);
    assert_eq!(
        ran(run, &["judge", "--all", &none, &none], &[]),
        (0, "holds 0\n".into(), String::new())
    );
    let cut = folder.put("cut", &[0; 8]);
    assert_eq!(ran(run, &["judge", "--all", &cut, &none], &[]).1, "refused 2 0\n");
    for options in [
        &["--most", "1"][..],
        &["--all", "--most", "0"],
        &["--all", "--most"],
        &["--every"],
    ] {
        let arguments = [&["judge"], options, &[&core, &round]].concat();
        assert_eq!(ran(run, &arguments, &[]).0, 2, "{options:?}");
    }
}

#[test]
fn tallied_files() {
    let lines = "ops 1\ncore-rows 4\nround-rows 32\nByteAlu 19393\nAreBytes 7044\nKeccakRc 24\nIsHalfword 25\nIsWh 25\n\
                 Memw 26\nEcall 1\n";
    let record = records(&operations(1));
    assert_eq!(ran(run, &["tally"], &record), (0, lines.into(), String::new()));
    let folder = Folder::new("tallied");
    let path = folder.put("ops", &record);
    assert_eq!(ran(run, &["tally", &path], &[]).1, lines);
    assert_eq!(
        ran(run, &["tally", "--shipped", &path], &[]),
        (0, lines.into(), String::new())
    );
    let none = folder.put("none", &[]);
    for (options, bytes) in [(&["tally"][..], 0), (&["tally", "--shipped"], 880)] {
        let empty = format!(
            "ops 0\ncore-rows 4\nround-rows 4\nByteAlu 0\nAreBytes {bytes}\nKeccakRc 0\nIsHalfword 0\nIsWh 0\nMemw 0\nEcall 0\n"
        );
        assert_eq!(ran(run, options, &[]), (0, empty.clone(), String::new()));
        assert_eq!(ran(run, &[options, &[&none]].concat(), &[]).1, empty);
        let (status, output, _) = ran(run, options, &[0x4B, 0x4E]);
        assert_eq!((status, output.as_str()), (1, "refused 6 0\n"));
    }
    // A floor as high as the round table's rows changes the core table alone; a higher one both, and what padding rows send.
    for (floor, core, round, bytes) in [
        ("004", 4, 32, 7044),
        ("32", 32, 32, 7044),
        ("65536", 65_536, 65_536, 14_417_924),
    ] {
        let told = lines
            .replace("core-rows 4", &format!("core-rows {core}"))
            .replace("round-rows 32", &format!("round-rows {round}"))
            .replace("AreBytes 7044", &format!("AreBytes {bytes}"));
        for options in [&["--floor", floor][..], &["--shipped", "--floor", floor]] {
            let arguments = [&["tally"], options, &[&path]].concat();
            assert_eq!(
                ran(run, &arguments, &[]),
                (0, told.clone(), String::new()),
                "{arguments:?}"
            );
        }
    }
    let empty = ran(run, &["tally", "--floor", "8", "--shipped"], &[]).1;
    assert!(
        empty.starts_with("ops 0\ncore-rows 8\nround-rows 8\nByteAlu 0\nAreBytes 1760\n"),
        "{empty}"
    );
}

/// Bytes one at a time, each after an interruption.
struct Halting<'a> {
    bytes: &'a [u8],
    halts: bool,
}

impl Read for Halting<'_> {
    fn read(&mut self, buffer: &mut [u8]) -> io::Result<usize> {
        self.halts = !self.halts;
        if self.halts {
            return Err(ErrorKind::Interrupted.into());
        }
        self.bytes.read(&mut buffer[..1])
    }
}

/// A stream of which nothing works.
struct Broken(ErrorKind);

impl Read for Broken {
    fn read(&mut self, _: &mut [u8]) -> io::Result<usize> {
        Err(self.0.into())
    }
}

impl Write for Broken {
    fn write(&mut self, _: &[u8]) -> io::Result<usize> {
        Err(self.0.into())
    }

    fn flush(&mut self) -> io::Result<()> {
        Err(self.0.into())
    }
}

/// Status and standard error of `tally` on streams.
fn tallied(input: &mut dyn Read, output: &mut dyn Write) -> (u8, String) {
    let mut errors = Vec::new();
    let mut streams = Streams {
        input,
        output,
        errors: &mut errors,
        terminal: false,
        process: false,
    };
    let status = run(&["tally".into()], &mut streams);
    (status, String::from_utf8(errors).unwrap())
}

#[test]
fn an_interrupted_read_goes_on() {
    let bytes = records(&operations(2));
    let mut output = Vec::new();
    let mut input = Halting {
        bytes: &bytes,
        halts: false,
    };
    assert_eq!(tallied(&mut input, &mut output), (0, String::new()));
    assert_eq!(String::from_utf8(output).unwrap(), ran(run, &["tally"], &bytes).1);
}

#[test]
fn broken_streams_have_status_2() {
    let (status, errors) = tallied(&mut Broken(ErrorKind::TimedOut), &mut Vec::new());
    assert_eq!(status, 2);
    assert!(errors.starts_with("standard input or output: "), "{errors}");
    let (status, errors) = tallied(&mut &[][..], &mut Broken(ErrorKind::StorageFull));
    assert_eq!(status, 2);
    assert!(errors.starts_with("standard input or output: "), "{errors}");
    // Whoever reads a pipe may end before it does.
    let ended = tallied(&mut &[][..], &mut Broken(ErrorKind::BrokenPipe));
    assert_eq!(ended, (2, String::new()));
}

#[test]
fn every_index_is_explained() {
    let counts = [
        ("core", "column", keccak::NUM_COLUMNS),
        ("core", "value", keccak::NUM_VALUES),
        ("core", "tuple", keccak::NUM_TUPLES),
        ("round", "column", keccak_rnd::NUM_COLUMNS),
        ("round", "value", keccak_rnd::NUM_VALUES),
        ("round", "tuple", keccak_rnd::NUM_TUPLES),
    ];
    for (table, kind, count) in counts {
        for index in 0..count {
            let (status, output, _) = ran(run, &["explain", table, kind, &index.to_string()], &[]);
            assert_eq!(status, 0);
            assert!(output.starts_with(&format!("{table} {kind} {index}: ")));
        }
        let (status, output, errors) = ran(run, &["explain", table, kind, &count.to_string()], &[]);
        assert_eq!((status, output.as_str()), (2, ""));
        assert!(errors.starts_with(&format!(
            "a {table} row has {kind}s 0 to {}, and no {count}\n",
            count - 1
        )));
    }
}

#[test]
fn explanations_say_operands() {
    let text = |arguments: [&str; 3]| ran(run, &[&["explain"], &arguments[..]].concat(), &[]).1;
    let column = "round column 254: CXZ[1][2][3] (x 1, stage 2, byte 3)\n";
    assert!(text(["round", "column", "254"]).starts_with(column));
    assert!(text(["round", "column", "CXZ[1][2][3]"]).starts_with(column));
    assert!(text(["core", "column", "485"]).starts_with("core column 485: MU\n"));
    let chi = text(["round", "tuple", "654"]);
    assert!(chi.starts_with("round tuple 654: AND of chi, x 0, y 3, byte 7\n"));
    assert!(chi.contains("sent on ByteAlu, MU times; its values (4):\n           0  0 (AND)\n"));
    assert!(chi.contains("255 - ROT_LEFT[0][1][3] - ROT_RIGHT[0][1][1]\n"));
    assert!(chi.ends_with("           3  CHI_ANDS[0][3][7], column 1190\n"));
    let before = text(["core", "tuple", "2"]);
    assert!(before.contains("  INPUT is given to the first round\n"));
    assert!(before.contains("\n           2  the first round, 24 - NR where there are NR rounds: 0 of all 24\n"));
    assert!(text(["core", "tuple", "3"]).contains("\n           2  24\n"));
    let register = text(["core", "tuple", "1"]);
    assert!(register.contains("      2 to 7  0\n"));
    assert!(register.contains("    19 to 20  TIMESTAMP[0] to TIMESTAMP[1], columns 0 to 1\n"));
    assert!(text(["core", "value", "51"]).ends_with("must be 0 mod p: MU * (1 - MU)\n"));
}

#[test]
fn lines_of_verdicts_are_explained() {
    let text = |line: &str| ran(run, &["explain", line], &[]);
    let theta = text("round row 7 lookup 223 ByteAlu 2 17 5 21");
    assert_eq!(theta.0, 0);
    let begins =
        "round row 7: a lookup fails, the table that is looked up has no such tuple.\n  17 XOR 5 is 20, and not 21\n";
    assert!(theta.1.starts_with(begins), "{}", theta.1);
    assert!(
        theta
            .1
            .contains("THETA[0][0][0], column 463\n              found: 21\n"),
        "{}",
        theta.1
    );
    let parts = [
        "explain", "round", "row", "7", "lookup", "223", "ByteAlu", "2", "17", "5", "21",
    ];
    assert_eq!(ran(run, &parts, &[]), theta);
    let holds = text("holds 3").1;
    assert!(
        holds.starts_with("Both tables hold.") && holds.contains("Keccak-p[1600, NR]"),
        "{holds}"
    );
    assert!(
        text("core row 0 value 51")
            .1
            .ends_with("must be 0 mod p: MU * (1 - MU)\n")
    );
    assert!(
        text("core row 4 timestamp 0")
            .1
            .contains("TIMESTAMP[0] and TIMESTAMP[1], columns 0 and 1\n")
    );
    let row = keccak::keccak_table(&operations(1)).unwrap();
    let line = verdict_text(&row, &[]).unwrap();
    let (status, output, _) = text(&line);
    assert_eq!(status, 0);
    assert!(output.starts_with("core row 0: the Keccak bus is out of balance"));
    assert!(output.contains("found: 0\n"), "{output}");
    for wrong in [
        "core row 0 value 52",
        "core row x value 1",
        "core row 0 timestamp 1",
        "round row 0 timestamp 0",
        "core row 0 lookup 54 ByteAlu 0 1 7",
        "core row 0 lookup 54 AreBytes 0 1",
        "core row 0 value 1 ByteAlu",
        "core row 0",
        "core row 0 column 1",
    ] {
        let (status, output, _) = text(wrong);
        assert_eq!((status, output.as_str()), (2, ""), "{wrong}");
    }
}

#[test]
fn wrong_usage_has_status_2() {
    let cases: [&[&str]; 63] = [
        &[],
        &["undo"],
        &["demo", "1"],
        &["write", "ops", "core"],
        &["write", "a", "b", "b"],
        &["judge", "core"],
        &["job", "core", "round"],
        &["job", "core", "round", "counts", "more"],
        &["job", "--all", "core", "round", "counts"],
        &["job", "--rounds", "core", "round", "counts"],
        &["same", "core"],
        &["same", "core", "ops", "more"],
        &["same", "--rounds", "12", "core", "ops"],
        &["tally", "a", "b"],
        &["tally", "a", "--shipped"],
        &["tally", "--shipped", "a", "b"],
        &["look", "ops"],
        &["look", "ops", "counters", "--shipped"],
        &["charge", "--all", "ops", "counters"],
        &["charge", "--shipped", "--shipped", "ops", "counters"],
        &["write", "--all", "folder"],
        &["write", "--all", "folder", "ops", "--shipped"],
        &["write", "--shipped", "ops", "core", "round"],
        &["write", "--rounds", "ops", "core", "round"],
        &["write", "--rounds", "12", "--rounds", "12", "ops", "core", "round"],
        &["write", "--rounds", "25", "a", "b", "b"],
        &["write", "--all", "--rounds", "12", "folder"],
        &["judge", "--rounds", "12", "core"],
        &["judge", "--rounds", "", "core", "round"],
        &["judge", "--rounds", "-1", "core", "round"],
        &["judge", "core", "round", "--rounds", "12"],
        &["tally", "--rounds", "12", "ops"],
        &["look", "--rounds", "18446744073709551616", "ops", "counters"],
        &["charge", "--rounds", "twelve", "ops", "counters"],
        &["write", "--floor", "ops", "core", "round"],
        &["write", "--floor", "8", "--floor", "8", "ops", "core", "round"],
        &["write", "--floor", "5", "ops", "core"],
        &["write", "--all", "--floor", "", "folder", "ops"],
        &["judge", "--floor", "4", "core", "round"],
        &["tally", "--floor"],
        &["tally", "--floor", "5", "a", "b"],
        &["look", "--floor", "18446744073709551616", "ops", "counters"],
        &["charge", "--floor", "0x8", "ops", "counters"],
        &["message", "page", "8", "0"],
        &["message", "page", "8", "0", "ops", "more"],
        &["message", "page", "0x8", "0", "ops"],
        &["message", "page", "8", "-1", "ops"],
        &["message", "page", "8", "18446744073709551616", "ops"],
        &["is-message", "page"],
        &["is-message", "page", "ops", "more"],
        &["look", "--register", "1", "ops", "counters"],
        &["charge", "--ledgers", "ledgers", "ops", "counters"],
        &["charge", "--register", "one", "--ledgers", "ledgers", "ops", "counters"],
        &[
            "charge",
            "--register",
            "18446744073709551616",
            "--ledgers",
            "ledgers",
            "ops",
            "counters",
        ],
        &[
            "look",
            "--ledgers",
            "ledgers",
            "--register",
            "1",
            "--register",
            "1",
            "ops",
            "counters",
        ],
        &["look", "--register", "1", "--ledgers", "ledgers", "counters"],
        &["month", "a", "b"],
        &["month", "--svg"],
        &["month", "--svg", "a", "--svg", "b", "c"],
        &["month", "--shipped", "a"],
        &["month", "--rounds", "25", "a", "b"],
        &["explain", "core", "row", "1"],
        &["explain", "middle", "column", "1"],
    ];
    for arguments in cases {
        let (status, output, errors) = ran(run, arguments, &[]);
        assert_eq!((status, output.as_str()), (2, ""), "{arguments:?}");
        assert!(errors.ends_with("`keccak-tables help` tells the commands\n"));
    }
}

#[test]
fn every_command_has_its_help() {
    let (status, help, _) = ran(run, &["help"], &[]);
    assert_eq!(status, 0);
    for name in [
        "demo",
        "write",
        "judge",
        "job",
        "balance",
        "same",
        "tally",
        "look",
        "charge",
        "message",
        "is-message",
        "month",
        "explain",
    ] {
        assert!(help.contains(&format!("\n  keccak-tables {name}")));
        let told = ran(run, &["help", name], &[]);
        assert!(told.0 == 0 && told.1.starts_with(&format!("usage: keccak-tables {name}")) && told.2.is_empty());
        assert!(told.1.contains("\nExit status: 0"));
        assert_eq!(ran(run, &[name, "--help"], &[]), told);
    }
    assert_eq!(ran(run_judge, &["--help"], &[]), ran(run, &["help", "judge"], &[]));
    assert_eq!(ran(run, &["--help"], &[]).1, help);
    let version = ran(run, &["--version"], &[]);
    assert_eq!(
        version,
        (
            0,
            format!("keccak-tables {}\n", env!("CARGO_PKG_VERSION")),
            String::new()
        )
    );
    for arguments in [["help", "undo"], ["--version", "1"]] {
        assert_eq!(ran(run, &arguments, &[]).0, 2);
    }
}

/// What is wrong is named: an option that is none, stands twice, lacks its value or stands behind a file; and the help of help.
#[test]
fn a_wrong_word_is_named() {
    for (arguments, words) in [
        (
            &["judge", "--every", "core", "round"][..],
            "judge: there is no option --every\n",
        ),
        (
            &["judge", "--rounds", "x", "a", "b"],
            "judge: behind --rounds stands `x`, which is no decimal below 2^64\n",
        ),
        (
            &["judge", "--most", "3", "a", "b"],
            "judge: --most is taken with --all alone\n",
        ),
        (
            &["judge", "--all", "--most", "0", "a", "b"],
            "judge: behind --most stands 0, and 1 is the least\n",
        ),
        (
            &["judge", "a", "b", "--rounds", "12"],
            "judge: --rounds stands behind a file, and options stand before the files\n",
        ),
        (
            &["write", "--shipped", "a", "b", "c"],
            "write: --shipped is taken with --all alone\n",
        ),
        (
            &["charge", "--register", "1", "a", "b"],
            "charge: --register and --ledgers are taken together\n",
        ),
        (&["look", "--again", "a", "b"], "look: there is no option --again\n"),
        (&["tally", "--floor"], "tally: behind --floor a number is missing\n"),
        (&["month", "--svg"], "month: behind --svg a file is missing\n"),
        (
            &["write", "--floor", "8", "--floor", "8", "a", "b", "c"],
            "write: --floor stands twice\n",
        ),
        (
            &["message", "page", "0x8", "0", "ops"],
            "message: ADDRESS is `0x8`, which is no decimal below 2^64\n",
        ),
    ] {
        let (status, output, errors) = ran(run, arguments, &[]);
        assert_eq!((status, output.as_str()), (2, ""), "{arguments:?}");
        assert!(errors.starts_with(words), "{arguments:?}: {errors}");
    }
    let help = ran(run, &["help"], &[]);
    assert_eq!(ran(run, &["help", "--help"], &[]), help);
    assert_eq!(ran(run, &["help", "help"], &[]), help);
}

/// A refused operation file is named, and the record: its mark, how much of it is there, or its address.
#[test]
fn a_refused_record_is_named() {
    let folder = Folder::new("named");
    let file = records(&operations(3));
    let words = |bytes: &[u8]| {
        let path = folder.put("ops", bytes);
        let (status, _, errors) = ran(run, &["tally", &path], &[]);
        assert_eq!(status, 1);
        errors.strip_prefix(&path).unwrap().to_string()
    };
    assert_eq!(
        words(&file[..500]),
        ", record 1, from byte 418, is cut: 82 of its 418 bytes are there\n"
    );
    assert_eq!(
        words(&file[..419]),
        ", record 1, from byte 418, is cut: 1 of its 418 or 422 bytes are there\n"
    );
    let mut wrong = file.clone();
    wrong[837] = 0x4E;
    let mark = "has a wrong mark: it begins with 4B 4E, and not with 4B 4F or 4B 50\n";
    assert_eq!(words(&wrong), format!(", record 2, from byte 836, {mark}"));
    let mut marked = operations(3);
    marked[SEGMENT_WORD] = 9;
    let marked = records(&marked);
    assert_eq!(
        words(&marked[..421]),
        ", record 0, from byte 0, is cut: 421 of its 422 bytes are there\n"
    );
    let mut high = marked.clone();
    high[422 + 418 + 10..][..8].copy_from_slice(&u64::MAX.to_le_bytes());
    assert!(
        words(&high)
            .starts_with(", record 2, from byte 840: the last of the 25 lanes from address 18446744073709551615 ")
    );
    let (_, _, errors) = ran(run, &["tally"], &file[..5]);
    assert!(
        errors.starts_with("standard input, record 0, from byte 0, is cut: 5 of"),
        "{errors}"
    );
}

/// The lines of `job` and `same`, every refusal, and a tuple that is fine.
#[test]
fn other_lines_are_explained() {
    let text = |line: &str| ran(run, &["explain", line], &[]);
    for (line, begins) in [
        (
            "segment 3: core row 0 value 51",
            "Segment 3 of the job, rows counted from its first. core row 0: a constraint",
        ),
        (
            "job: holds 3",
            "The whole job, rows counted over all its segments. Both tables hold.",
        ),
        ("same", "The active rows of CORE are the records of OPS"),
        ("record 7", "Record 7 of OPS, from 0, has no row"),
        ("row 7", "Row 7 of CORE, from 0, is active"),
        (
            "refused 6 418",
            "Refused by 6: the record of the operation file that starts at byte 418",
        ),
        ("refused 2 1", "Refused by 2: the round table"),
    ] {
        let (status, output, _) = text(line);
        assert!(status == 0 && output.starts_with(begins), "{line}: {output}");
        let parts = [&["explain"], &line.split(' ').collect::<Vec<_>>()[..]].concat();
        assert_eq!(ran(run, &parts, &[]).1, output);
    }
    for number in 1..=14 {
        assert_eq!(text(&format!("refused {number} 0")).0, 0, "{number}");
    }
    for wrong in [
        "refused 15 0",
        "refused 2 3",
        "refused 1",
        "segment 3 holds 1",
        "job: holds",
        "record x",
    ] {
        assert_eq!(text(wrong).0, 2, "{wrong}");
    }
    let fine = text("round row 7 lookup 654 ByteAlu 0 132 69 4").1;
    let begins = "round row 7: the table that is looked up has this tuple, so no verdict names it.\n";
    assert!(fine.starts_with(begins) && !fine.contains("and not"), "{fine}");
}
