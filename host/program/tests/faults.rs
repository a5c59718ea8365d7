//! Faults on purpose: every command that writes is run with each call that it makes of the system failing, or the process killed there. Then
//! what it writes is all old or all new, if not at once then after the next run that comes upon it; the status says which; the next run
//! works and leaves nothing beside.
//!
//! The calls are failed by a small C library (`faults.c`), which is compiled here; without a C compiler that is told, and nothing is tried.

use std::collections::BTreeSet;
use std::fs;
use std::path::{Path, PathBuf};
use std::process::{Command, Output};

use keccak_tables::Operation;
use keccak_tables::operation_file::{RECORD_BYTES, write_operations};

/// Errors of the C library: input/output, no space, not supported, and none: killed.
const EIO: i32 = 5;
const ENOSPC: i32 = 28;
const EOPNOTSUPP: i32 = 95;
const KILLED: i32 = 0;

/// A fault: at which call, by which error, and whether all later ones fail too.
#[derive(Clone, Copy, Debug)]
struct Fault {
    at: usize,
    error: i32,
    lasting: bool,
}

/// A command that writes: its arguments, what it writes, and what reads that and thereby settles it.
struct Writer {
    name: &'static str,
    arguments: &'static [&'static str],
    writes: &'static [&'static str],
    reader: &'static [&'static str],
    errors: &'static [(i32, bool)],
}

const ALL: &[(i32, bool)] = &[
    (EIO, false),
    (ENOSPC, false),
    (EOPNOTSUPP, false),
    (KILLED, false),
    (EIO, true),
    (EOPNOTSUPP, true),
];
const FEW: &[(i32, bool)] = &[(EIO, false), (KILLED, false)];

const WRITERS: [Writer; 7] = [
    Writer {
        name: "write",
        arguments: &["write", "ops", "core", "round"],
        writes: &["core", "round"],
        reader: &["judge", "core", "round"],
        errors: ALL,
    },
    Writer {
        name: "message",
        arguments: &["message", "page", "8", "0", "hashed"],
        writes: &["hashed"],
        reader: &["tally", "hashed"],
        errors: ALL,
    },
    Writer {
        name: "month",
        arguments: &["month", "--svg", "svg", "counts"],
        writes: &["svg"],
        reader: &[],
        errors: ALL,
    },
    Writer {
        name: "register",
        arguments: &["charge", "--register", "1", "--ledgers", "ledgers", "ops", "counters"],
        writes: &["counters", "counters.charged", "ledgers"],
        reader: &["look", "--register", "1", "--ledgers", "ledgers", "ops", "counters"],
        errors: FEW,
    },
    Writer {
        name: "charge",
        arguments: &["charge", "ops", "counters"],
        writes: &["counters", "counters.charged"],
        reader: &["look", "ops", "counters"],
        errors: FEW,
    },
    Writer {
        name: "attack",
        arguments: &["attack", "round", "tuple", "623", "false"],
        writes: &["false"],
        reader: &["judge", "false/core", "false/round"],
        errors: FEW,
    },
    Writer {
        name: "all",
        arguments: &["write", "--all", "all", "ops"],
        writes: &["all"],
        reader: &["judge", "all/core", "all/round"],
        errors: FEW,
    },
];

/// A place for one writer: what is there before it runs, and what it leaves.
struct Place {
    folder: PathBuf,
    library: PathBuf,
    old: Vec<Option<u64>>,
    new: Vec<Option<u64>>,
}

impl Place {
    fn path(&self, name: &str) -> PathBuf {
        self.folder.join("in").join(name)
    }

    fn run(&self, arguments: &[&str], fault: Option<Fault>) -> Output {
        let mut command = Command::new(env!("CARGO_BIN_EXE_keccak-tables"));
        command.args(arguments).current_dir(self.folder.join("in"));
        if let Some(Fault { at, error, lasting }) = fault {
            command
                .env("LD_PRELOAD", &self.library)
                .env("FAULT_AT", at.to_string())
                .env("FAULT_ERROR", error.to_string())
                .env("FAULT_HIT", self.folder.join("hit"));
            if lasting {
                command.env("FAULT_LASTING", "1");
            }
        }
        command.output().unwrap()
    }

    /// Everything as before the first run.
    fn reset(&self) {
        let (before, inside) = (self.folder.join("before"), self.folder.join("in"));
        let _ = fs::remove_dir_all(&inside);
        fs::create_dir_all(&inside).unwrap();
        // No file is written in place, so second names are as good as copies.
        for entry in fs::read_dir(before).unwrap().map(Result::unwrap) {
            fs::hard_link(entry.path(), inside.join(entry.file_name())).unwrap();
        }
        let _ = fs::remove_file(self.folder.join("hit"));
    }

    /// A number for what each file has that is written, none where it is not there.
    fn state(&self, writes: &[&str]) -> Vec<Option<u64>> {
        writes.iter().map(|name| content(&self.path(name))).collect()
    }

    fn names(&self) -> BTreeSet<String> {
        let entries = fs::read_dir(self.folder.join("in")).unwrap();
        entries
            .map(|entry| entry.unwrap().file_name().into_string().unwrap())
            .collect()
    }
}

/// A number that two contents of these tests share only where they are one.
fn content(path: &Path) -> Option<u64> {
    let mix = |sum: u64, word: u64| (sum.rotate_left(5) ^ word).wrapping_mul(0x9E37_79B9_7F4A_7C15);
    if path.is_dir() {
        let mut names: Vec<PathBuf> = fs::read_dir(path).unwrap().map(|entry| entry.unwrap().path()).collect();
        names.sort();
        return Some(
            names
                .iter()
                .filter_map(|name| content(name))
                .fold(names.len() as u64, mix),
        );
    }
    let bytes = fs::read(path).ok()?;
    let (words, rest) = bytes.as_chunks();
    let words = words.iter().map(|&word| u64::from_le_bytes(word));
    Some(
        words
            .chain(rest.iter().map(|&byte| byte.into()))
            .fold(bytes.len() as u64, mix),
    )
}

fn records(count: u64, first: u64) -> Vec<u8> {
    let operation = |at| Operation {
        timestamp: first + at,
        address: 4096,
        input: [at; 25],
        output: [0; 25],
        segment: 0,
    };
    let ops: Vec<u64> = (0..count).flat_map(|at| operation(at).words()).collect();
    let mut file = vec![0; count as usize * RECORD_BYTES];
    write_operations(&ops, &mut file).unwrap();
    file
}

/// What no other test has, of this process or another.
fn unique() -> String {
    use std::sync::atomic::{AtomicUsize, Ordering};
    static GIVEN: AtomicUsize = AtomicUsize::new(0);
    format!("{}-{}", std::process::id(), GIVEN.fetch_add(1, Ordering::Relaxed))
}

/// A folder in memory where there is one: what is tried is the order of calls, and no disk.
fn place(writer: &Writer, library: &Path, has_old: bool) -> Place {
    let memory = Path::new("/dev/shm");
    let root = if memory.is_dir() {
        memory.to_path_buf()
    } else {
        std::env::temp_dir()
    };
    let name = format!("keccak-tables-faults-{}", unique());
    let folder = root.join(name);
    let before = folder.join("before");
    fs::create_dir_all(&before).unwrap();
    let put = |name: &str, bytes: &[u8]| fs::write(before.join(name), bytes).unwrap();
    put("ops", &records(1, 7));
    put("page", b"a page");
    put("counts", b"1\n2\n");
    if writer.arguments[0] == "charge" {
        put("counters", &1u64.to_le_bytes().repeat(10_485_760));
        put("ledgers", &[0; 240]);
    }
    if has_old && writer.arguments[0] == "write" {
        put("core", &[0; 486 * 8]);
        put("round", &[0; 1480 * 8]);
    } else if has_old {
        put("hashed", &records(1, 1));
        put("svg", b"old");
    }
    let mut place = Place {
        folder,
        library: library.to_path_buf(),
        old: Vec::new(),
        new: Vec::new(),
    };
    place.reset();
    place.old = place.state(writer.writes);
    let output = place.run(writer.arguments, None);
    assert!(output.status.success(), "{}", String::from_utf8_lossy(&output.stderr));
    place.new = place.state(writer.writes);
    assert_ne!(place.old, place.new);
    place
}

/// What was tried: calls at which a fault was, by name, runs, and the states that a fault left before anybody settled them.
#[derive(Default)]
struct Tried {
    points: usize,
    runs: usize,
    states: [usize; 3],
}

/// One fault: whether there was such a call.
fn try_fault(place: &Place, writer: &Writer, fault: Fault, tried: &mut Tried) -> bool {
    place.reset();
    let output = place.run(writer.arguments, Some(fault));
    let said = String::from_utf8_lossy(&output.stderr).into_owned();
    if !place.folder.join("hit").exists() {
        assert!(output.status.success(), "no fault, and {said}");
        return false;
    }
    let what = format!("{} {fault:?}, {:?}: {said}", writer.name, output.status.code());
    let raw = place.state(writer.writes);
    let at = if raw == place.old {
        0
    } else if raw == place.new {
        1
    } else {
        2
    };
    tried.states[at] += 1;
    tried.runs += 1;
    // The next run that comes upon it settles it. Nobody reads a picture: it has one name, and is old or new at once.
    let is_open = place.names().iter().any(|name| name.contains(".keccak-"));
    let settled = if is_open && !writer.reader.is_empty() {
        place.run(writer.reader, None);
        place.state(writer.writes)
    } else {
        raw.clone()
    };
    match output.status.code() {
        Some(0) => assert!(raw == place.new && settled == place.new, "{what}"),
        Some(2) if said.contains("run on these files finishes it") => {
            assert!(settled == place.new || writer.reader.is_empty(), "{what}");
        }
        Some(2) if said.contains("in its place") => assert_eq!(settled, place.new, "{what}"),
        Some(2) => assert_eq!(settled, place.old, "{what}"),
        None => assert!(settled == place.old || settled == place.new, "{what}"),
        _ => panic!("{what}"),
    }
    next_run(place, writer, &settled, &what);
    true
}

/// The next run works, is made once in all, and leaves nothing beside.
fn next_run(place: &Place, writer: &Writer, settled: &[Option<u64>], what: &str) {
    let output = place.run(writer.arguments, None);
    let said = String::from_utf8_lossy(&output.stderr);
    let status = match writer.arguments {
        ["charge", ..] if settled == place.new => 1,
        ["write", "--all", ..] | ["attack", ..] if settled == place.new => 2,
        _ => 0,
    };
    assert_eq!(output.status.code(), Some(status), "{what}; then {said}");
    assert_eq!(place.state(writer.writes), place.new, "{what}; then {said}");
    let mut names: BTreeSet<String> = fs::read_dir(place.folder.join("before"))
        .unwrap()
        .map(|entry| entry.unwrap().file_name().into_string().unwrap())
        .collect();
    names.extend(writer.writes.iter().map(ToString::to_string));
    // A charge that is not made again, and a folder that is there, change nothing, and so remove nothing.
    if status == 0 {
        assert_eq!(place.names(), names, "{what}");
    }
}

fn library() -> Option<PathBuf> {
    let source = Path::new(env!("CARGO_MANIFEST_DIR")).join("tests/faults.c");
    let library = Path::new(env!("CARGO_TARGET_TMPDIR")).join(format!("faults-{}.so", unique()));
    let mut cc = Command::new("cc");
    cc.args(["-shared", "-fPIC", "-O1", "-Wall", "-Werror", "-o"])
        .args([&library, &source])
        .arg("-ldl");
    match cc.status() {
        Ok(status) => assert!(status.success()),
        Err(error) => {
            eprintln!("there is no program cc on the PATH ({error}): no fault is tried");
            return None;
        }
    }
    Some(library)
}

fn tries(names: &[&str]) {
    let Some(library) = library() else {
        return;
    };
    for writer in WRITERS.iter().filter(|writer| names.contains(&writer.name)) {
        for has_old in [true, false] {
            if !has_old && !["write", "message", "month"].contains(&writer.name) {
                continue;
            }
            let place = place(writer, &library, has_old);
            let mut tried = Tried::default();
            for &(error, lasting) in writer.errors {
                let found = (1..).take_while(|&at| try_fault(&place, writer, Fault { at, error, lasting }, &mut tried));
                let found = found.count();
                tried.points = tried.points.max(found);
            }
            let Tried { points, runs, states } = tried;
            let [old, new, between] = states;
            println!(
                "{}{}: {points} points, {runs} runs; left {old} old, {new} new, {between} between, which the next run settled",
                writer.name,
                if has_old { "" } else { " of new names" }
            );
            let _ = fs::remove_dir_all(&place.folder);
        }
    }
    let _ = fs::remove_file(library);
}

#[test]
fn a_fault_leaves_tables_and_messages_old_or_new() {
    tries(&["write", "message", "month"]);
}

#[test]
fn a_fault_leaves_charges_made_or_not() {
    tries(&["register", "charge"]);
}

#[test]
fn a_fault_leaves_a_folder_whole_or_none() {
    tries(&["all", "attack"]);
}

/// While a run waits at any of its calls, another writes the same names and a third reads them: the tables that are left are of one run, and
/// those that are read too.
#[test]
fn tables_of_two_runs_at_once_are_those_of_one() {
    let Some(library) = library() else {
        return;
    };
    let writer = &WRITERS[0];
    let place = place(writer, &library, true);
    let second = ["write", "second", "core", "round"];
    fs::write(place.folder.join("before/second"), records(2, 9)).unwrap();
    let verdict = |place: &Place| place.run(writer.reader, None).stdout;
    let run_alone = |arguments: &[&str]| {
        place.reset();
        place.run(arguments, None);
        (place.state(writer.writes), verdict(&place))
    };
    let (one, other) = (run_alone(writer.arguments), run_alone(&second));
    place.reset();
    let old = verdict(&place);
    for at in 1.. {
        place.reset();
        let fault = Fault {
            at,
            error: -150,
            lasting: false,
        };
        let (waits, read) = std::thread::scope(|scope| {
            let first = scope.spawn(|| place.run(writer.arguments, Some(fault)).status.success());
            std::thread::sleep(std::time::Duration::from_millis(60));
            let read = scope.spawn(|| verdict(&place));
            assert!(place.run(&second, None).status.success(), "{at}");
            assert!(first.join().unwrap(), "{at}");
            (place.folder.join("hit").exists(), read.join().unwrap())
        });
        let left = place.state(writer.writes);
        assert!(left == one.0 || left == other.0, "{at}: {left:?}");
        assert!([&old, &one.1, &other.1].contains(&&read), "{at}: {read:?}");
        if !waits {
            break;
        }
    }
    let _ = fs::remove_dir_all(&place.folder);
}

/// A change that a kill left open, and faults while it is ended: whoever comes then finds all old or all new, and the next run works.
#[test]
fn a_fault_while_a_change_is_ended_leaves_it_open() {
    let Some(library) = library() else {
        return;
    };
    let writer = &WRITERS[0];
    let place = place(writer, &library, true);
    let (mut open, mut runs) = (0, 0);
    let is_open = |place: &Place| place.names().iter().any(|name| name.contains(".keccak-journal"));
    let killed = |at| Fault {
        at,
        error: KILLED,
        lasting: false,
    };
    for at in 1.. {
        place.reset();
        place.run(writer.arguments, Some(killed(at)));
        if !place.folder.join("hit").exists() {
            break;
        }
        if !is_open(&place) {
            continue;
        }
        open += 1;
        for (error, lasting) in [(EIO, false), (KILLED, false)] {
            for within in 1.. {
                place.reset();
                place.run(writer.arguments, Some(killed(at)));
                fs::remove_file(place.folder.join("hit")).unwrap();
                let fault = Fault {
                    at: within,
                    error,
                    lasting,
                };
                place.run(writer.reader, Some(fault));
                place.run(writer.reader, None);
                let settled = place.state(writer.writes);
                let what = format!("{at}, then {fault:?}");
                assert!(settled == place.old || settled == place.new, "{what}");
                next_run(&place, writer, &settled, &what);
                runs += 1;
                if !place.folder.join("hit").exists() {
                    break;
                }
            }
        }
    }
    println!("write, killed: {open} open changes, {runs} runs that end them with a fault");
    assert!(open > 2 && runs > 50);
    let _ = fs::remove_dir_all(&place.folder);
}
