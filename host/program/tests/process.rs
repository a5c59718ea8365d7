//! The program as a process: what its standard streams are, and what it leaves where it is cut short.

use std::fs::{self, File};
use std::io::Read;
use std::path::PathBuf;
use std::process::{Command, Output, Stdio};

use keccak_tables::Operation;
use keccak_tables::operation_file::{RECORD_BYTES, write_operations};

/// A folder for one test, with an operation file `ops` of some records.
struct Folder(PathBuf);

impl Folder {
    fn new(name: &str, records: u64) -> Self {
        let path = std::env::temp_dir().join(format!("keccak-tables-process-{name}-{}", std::process::id()));
        fs::create_dir_all(&path).unwrap();
        let operation = |at| Operation {
            timestamp: at,
            address: 4096,
            input: [at; 25],
            output: [0; 25],
            segment: 0,
        };
        let ops: Vec<u64> = (0..records).flat_map(|at| operation(at).words()).collect();
        let mut file = vec![0; records as usize * RECORD_BYTES];
        write_operations(&ops, &mut file).unwrap();
        fs::write(path.join("ops"), file).unwrap();
        Self(path)
    }

    /// The names of its files, in order.
    fn names(&self) -> Vec<String> {
        let entries = fs::read_dir(&self.0).unwrap().map(|entry| entry.unwrap().file_name());
        let mut names: Vec<String> = entries.map(|name| name.into_string().unwrap()).collect();
        names.sort();
        names
    }

    /// The program, in this folder.
    fn program(&self, arguments: &[&str]) -> Command {
        let mut command = Command::new(env!("CARGO_BIN_EXE_keccak-tables"));
        command.args(arguments).current_dir(&self.0);
        command
    }

    /// The program behind words of the shell, as `exec "$@" >&-`.
    fn shell(&self, words: &str, arguments: &[&str]) -> Output {
        let program = env!("CARGO_BIN_EXE_keccak-tables");
        let mut command = Command::new("sh");
        command
            .args(["-c", words, "sh", program])
            .args(arguments)
            .current_dir(&self.0);
        command.output().unwrap()
    }

    /// The program on a terminal, which `script` makes; where there is no such program, that is told.
    fn terminal(&self, arguments: &str) -> Option<Output> {
        let command = format!("{} {arguments}", env!("CARGO_BIN_EXE_keccak-tables"));
        let mut script = Command::new("script");
        script.args(["-qec", &command, "/dev/null"]).current_dir(&self.0);
        let output = script.stdin(Stdio::null()).output().ok();
        if output.is_none() {
            eprintln!("there is no program script on the PATH: no terminal is tried");
        }
        output
    }
}

impl Drop for Folder {
    fn drop(&mut self) {
        let _ = fs::remove_dir_all(&self.0);
    }
}

fn text(bytes: &[u8]) -> &str {
    std::str::from_utf8(bytes).unwrap()
}

#[test]
fn a_table_is_not_written_where_the_program_prints() {
    let folder = Folder::new("mixed", 1);
    let out = || File::create(folder.0.join("out")).unwrap();
    for stream in ["/dev/stdout", "/dev/stderr"] {
        for arguments in [["write", "ops", stream, "table"], ["write", "ops", "table", stream]] {
            // To a pipe, and to a file.
            let piped = folder.program(&arguments).output().unwrap();
            let filed = folder.program(&arguments).stdout(out()).stderr(out()).status().unwrap();
            assert_eq!((piped.status.code(), filed.code()), (Some(2), Some(2)), "{arguments:?}");
            assert!(piped.stdout.is_empty());
            assert!(
                text(&piped.stderr).starts_with("CORE and ROUND can't be standard output"),
                "{arguments:?}"
            );
            assert_eq!(folder.names(), ["ops", "out"]);
        }
    }
    // What takes everything mixes nothing.
    let mut to_null = folder.program(&["write", "ops", "/dev/null", "table"]);
    assert_eq!(to_null.stdout(Stdio::null()).status().unwrap().code(), Some(0));
}

#[test]
fn a_run_that_is_cut_short_leaves_what_was_there() {
    let folder = Folder::new("cut", 2000);
    fs::write(folder.0.join("core"), b"before").unwrap();
    // ROUND is a pipe that nobody reads, so the run stands still in the middle of its tables.
    assert!(
        Command::new("mkfifo")
            .arg(folder.0.join("round"))
            .status()
            .unwrap()
            .success()
    );
    let mut held = File::options()
        .read(true)
        .write(true)
        .open(folder.0.join("round"))
        .unwrap();
    let mut run = folder
        .program(&["write", "ops", "core", "round"])
        .stdout(Stdio::null())
        .spawn()
        .unwrap();
    // Some of the table was written where something of it stands in the pipe, after the core rows of the same operations.
    let mut piece = [0; 1480 * 8];
    held.read_exact(&mut piece).unwrap();
    assert_eq!(run.try_wait().unwrap(), None);
    run.kill().unwrap();
    run.wait().unwrap();
    drop(held);
    assert_eq!(fs::read(folder.0.join("core")).unwrap(), b"before");
    // What has no name is gone with its run; where there is no such thing, the next run removes it.
    fs::remove_file(folder.0.join("round")).unwrap();
    assert!(
        folder
            .program(&["write", "ops", "core", "round"])
            .output()
            .unwrap()
            .status
            .success()
    );
    assert_eq!(folder.names(), ["core", "ops", "round"]);
}

#[test]
fn a_table_keeps_its_links_and_rights() {
    use std::os::unix::fs::{PermissionsExt, symlink};
    let folder = Folder::new("links", 1);
    fs::write(folder.0.join("table"), b"before").unwrap();
    fs::set_permissions(folder.0.join("table"), fs::Permissions::from_mode(0o640)).unwrap();
    symlink("table", folder.0.join("link")).unwrap();
    assert_eq!(
        folder
            .program(&["write", "ops", "link", "round"])
            .output()
            .unwrap()
            .status
            .code(),
        Some(0)
    );
    assert_eq!(fs::read_link(folder.0.join("link")).unwrap(), PathBuf::from("table"));
    let about = fs::metadata(folder.0.join("table")).unwrap();
    assert_eq!((about.len(), about.permissions().mode() & 0o777), (4 * 486 * 8, 0o640));
    assert_eq!(folder.names(), ["link", "ops", "round", "table"]);
}

#[test]
fn a_closed_standard_output_is_an_error_in_every_command() {
    let folder = Folder::new("closed-output", 1);
    fs::write(folder.0.join("none"), b"").unwrap();
    let commands: [&[&str]; 14] = [
        &["demo"],
        &["write", "ops", "core", "round"],
        &["judge", "none", "none"],
        &["job", "none", "none", "none"],
        &["same", "none", "ops"],
        &["tally", "ops"],
        &["look", "ops", "none"],
        &["charge", "ops", "none"],
        &["message", "none", "8", "0", "new"],
        &["is-message", "none", "ops"],
        &["write", "--all", "all", "ops"],
        &["explain", "core", "column", "0"],
        &["help"],
        &["--version"],
    ];
    for arguments in commands {
        let Output { status, stderr, .. } = folder.shell("exec \"$@\" >&-", arguments);
        assert_eq!(
            (status.code(), text(&stderr)),
            (Some(2), "standard output is closed\n"),
            "{arguments:?}"
        );
        assert_eq!(folder.names(), ["none", "ops"]);
    }
}

#[test]
fn a_closed_standard_input_is_an_error_where_it_is_read() {
    let folder = Folder::new("closed-input", 1);
    let Output { status, stdout, stderr } = folder.shell("exec \"$@\" <&-", &["tally"]);
    assert_eq!((status.code(), text(&stdout)), (Some(2), ""));
    assert_eq!(text(&stderr), "standard input or output: standard input is closed\n");
    assert_eq!(
        folder.shell("exec \"$@\" <&-", &["tally", "ops"]).status.code(),
        Some(0)
    );
}

#[test]
fn a_pipe_that_is_not_read_to_its_end_is_no_panic() {
    let folder = Folder::new("broken", 1);
    for arguments in [&["demo"][..], &["help"], &["tally", "ops"]] {
        let Output { stdout, stderr, .. } = folder.shell("(\"$@\"; echo $? >status) | true; cat status", arguments);
        assert!(
            ["0\n", "2\n"].contains(&text(&stdout)) && stderr.is_empty(),
            "{arguments:?}: {}",
            text(&stderr)
        );
    }
}

/// A file of counters that hold this number, and words past them.
fn put_counters(folder: &Folder, number: u64) -> Vec<u8> {
    let mut counters = number.to_le_bytes().repeat(10_485_760);
    counters.extend([0xFF; 16]);
    fs::write(folder.0.join("counters"), &counters).unwrap();
    counters
}

/// A limit on a file's length is met as a full disk is: by a write that fails, in the middle of the file.
#[test]
fn a_disk_that_is_full_leaves_what_was_there() {
    let folder = Folder::new("full", 1);
    let before = put_counters(&folder, 7);
    let limited = "trap '' XFSZ; ulimit -f 20000; exec \"$@\"";
    for arguments in [&["charge", "ops", "counters"][..], &["write", "--all", "all", "ops"]] {
        let Output { status, stdout, stderr } = folder.shell(limited, arguments);
        assert_eq!((status.code(), text(&stdout)), (Some(2), ""), "{arguments:?}");
        assert!(text(&stderr).contains("File too large"), "{}", text(&stderr));
        assert_eq!(folder.names(), ["counters", "ops"]);
    }
    assert!(fs::read(folder.0.join("counters")).unwrap() == before);
}

#[test]
fn charges_at_once_are_all_made() {
    let folder = Folder::new("at-once", 1);
    let mut after = put_counters(&folder, 0);
    let mut runs = [(); 3].map(|()| {
        let mut run = folder.program(&["charge", "--again", "ops", "counters"]);
        run.stdout(Stdio::null()).spawn().unwrap()
    });
    assert!(runs.iter_mut().all(|run| run.wait().unwrap().success()));
    assert_eq!(folder.names(), ["counters", "counters.charged", "ops"]);
    let found = fs::read(folder.0.join("counters")).unwrap();
    // IsHalfword of a pointer whose low half is 4096 + 8 i is made once an operation.
    for i in 0..25 {
        let place = 8 * ((4096 + 8 * i) * 10 + 4);
        assert_eq!(found[place..place + 8], 3u64.to_le_bytes(), "pointer {i}");
    }
    let past = 8 * 10_485_760;
    assert_eq!((found.len(), &found[past..]), (after.len(), &after.split_off(past)[..]));
}

/// On a terminal a month's heights are drawn, and in a pipe they are lines.
#[test]
fn a_month_is_drawn_on_a_terminal_alone() {
    let folder = Folder::new("month", 0);
    fs::write(folder.0.join("counts"), "1\n1\n").unwrap();
    let piped = folder.program(&["month", "counts"]).output().unwrap();
    assert!(text(&piped.stdout).contains("\nheight 32 2\n") && !text(&piped.stdout).contains('#'));
    let Some(output) = folder.terminal("month counts") else {
        return;
    };
    assert_eq!(output.status.code(), Some(0));
    let drawn = text(&output.stdout);
    assert!(drawn.contains("          32       2 ##") && !drawn.contains("\nheight"));
    // A picture does not go to the terminal that is printed to.
    let Some(output) = folder.terminal("month --svg /dev/stdout counts") else {
        return;
    };
    assert_eq!(output.status.code(), Some(2));
}

/// On a terminal whoever waits for a charge is told so.
#[test]
fn a_charge_says_that_it_goes_on() {
    let folder = Folder::new("charging", 1);
    put_counters(&folder, 0);
    let Some(output) = folder.terminal("look ops counters") else {
        return;
    };
    assert_eq!(output.status.code(), Some(0));
    assert!(text(&output.stdout).contains("charging 1 operations"));
}

/// On a terminal whoever waits is told, and that rows and records are not in one order.
#[test]
fn a_long_comparison_says_what_it_is_about() {
    let folder = Folder::new("comparing", 20);
    let written = folder.program(&["write", "ops", "core", "round"]).output().unwrap();
    assert_eq!(written.status.code(), Some(0));
    let mut records = fs::read(folder.0.join("ops")).unwrap();
    records.rotate_right(RECORD_BYTES);
    fs::write(folder.0.join("turned"), records).unwrap();
    let what = "comparing 32 rows and 8360 bytes of records";
    for (ops, in_order) in [("ops", true), ("turned", false)] {
        let Some(output) = folder.terminal(&format!("same core {ops}")) else {
            return;
        };
        let said = text(&output.stdout);
        assert!(output.status.success() && said.contains(what), "{said}");
        let long = format!("{what}, which are not in one order: that can take long");
        assert_eq!(!said.contains(&long), in_order, "{said}");
    }
}

/// On a terminal whoever waits is told how much is judged, in whatever order the rows stand.
#[test]
fn a_long_judgement_says_what_it_is_about() {
    let folder = Folder::new("waiting", 20);
    let written = folder.program(&["write", "ops", "core", "round"]).output().unwrap();
    assert_eq!(written.status.code(), Some(0));
    let mut rows = fs::read(folder.0.join("round")).unwrap();
    rows.rotate_right(1480 * 8);
    fs::write(folder.0.join("turned"), rows).unwrap();
    for round in ["round", "turned"] {
        let Some(output) = folder.terminal(&format!("judge --all core {round}")) else {
            return;
        };
        assert_eq!(output.status.code(), Some(1));
        assert!(text(&output.stdout).contains("judging 544 rows"), "{round}");
    }
    let [core, rows] = ["core", "round"].map(|name| fs::read(folder.0.join(name)).unwrap().repeat(2));
    fs::write(folder.0.join("cores"), core).unwrap();
    fs::write(folder.0.join("rounds"), rows).unwrap();
    fs::write(folder.0.join("counts"), "32 513\n32 511\n").unwrap();
    let output = folder
        .terminal("job cores rounds counts")
        .expect("there was one before");
    assert_eq!(output.status.code(), Some(1));
    let said = text(&output.stdout);
    assert!(
        said.contains("judging 1088 rows in 2 segments, and then as one job"),
        "{said}"
    );
}

/// A charge that is interrupted was made where its status is 0, and nowhere else; and it can be asked for again until it is.
#[test]
fn an_interrupted_charge_is_made_exactly_once() {
    let folder = Folder::new("interrupted", 1);
    put_counters(&folder, 1);
    let mut digests = std::collections::BTreeSet::new();
    for trial in 0..24 {
        let mut records = fs::read(folder.0.join("ops")).unwrap();
        records[2..10].copy_from_slice(&u64::to_le_bytes(trial));
        fs::write(folder.0.join("ops"), records).unwrap();
        let before = fs::metadata(folder.0.join("counters")).unwrap();
        let mut run = folder.program(&["charge", "ops", "counters"]);
        let mut run = run.stdout(Stdio::null()).stderr(Stdio::null()).spawn().unwrap();
        std::thread::sleep(std::time::Duration::from_millis(15 * trial));
        let signal = ["-INT", "-TERM", "-KILL"][trial as usize % 3];
        let _ = Command::new("kill")
            .args([signal, &run.id().to_string()])
            .stderr(Stdio::null())
            .status();
        let status = run.wait().unwrap().code();
        if signal != "-KILL" {
            use std::os::unix::fs::MetadataExt;
            let after = fs::metadata(folder.0.join("counters")).unwrap();
            assert_eq!(
                before.ino() != after.ino(),
                status == Some(0),
                "trial {trial}, {status:?}"
            );
        }
        // Asked for again it is made, or was made before.
        let again = folder.program(&["charge", "ops", "counters"]).output().unwrap();
        let line = text(&again.stdout).lines().last().unwrap().to_string();
        let (word, digest) = line.split_once(' ').unwrap();
        assert_eq!(again.status.code(), Some(i32::from(word == "charged")), "{line}");
        assert!(digests.insert(digest.to_string()));
        let record = fs::read_to_string(folder.0.join("counters.charged")).unwrap();
        assert_eq!(record.lines().count(), digests.len(), "trial {trial}");
    }
    assert_eq!(folder.names(), ["counters", "counters.charged", "ops"]);
}

#[test]
fn what_was_charged_is_not_charged_again_unasked() {
    let folder = Folder::new("again", 1);
    put_counters(&folder, 1);
    let charge = |options: &[&str]| {
        let arguments = [&["charge"], options, &["ops", "counters"]].concat();
        let output = folder.program(&arguments).output().unwrap();
        let last = text(&output.stdout).lines().last().unwrap_or_default().to_string();
        (output.status.code().unwrap(), last, text(&output.stderr).to_string())
    };
    let (status, line, _) = charge(&[]);
    let digest = line.strip_prefix("digest ").unwrap().to_string();
    assert_eq!(status, 0);
    let counters = fs::read(folder.0.join("counters")).unwrap();
    let (status, line, words) = charge(&[]);
    assert_eq!((status, line), (1, format!("charged {digest}")));
    assert!(words.contains("line 1 says") && words.lines().count() == 1, "{words}");
    assert!(fs::read(folder.0.join("counters")).unwrap() == counters);
    // Another number of rounds, floor or mode is another charge; and the same is charged once more where that is asked for.
    for options in [
        &["--rounds", "12"][..],
        &["--floor", "64"],
        &["--shipped"],
        &["--again"],
    ] {
        assert_eq!(charge(options).0, 0, "{options:?}");
    }
    assert_eq!(charge(&["--rounds", "12"]).0, 1);
    let record = fs::read_to_string(folder.0.join("counters.charged")).unwrap();
    assert_eq!(record.lines().filter(|line| line.starts_with(&digest)).count(), 2);
    // Counters that are all 0 are new ones.
    put_counters(&folder, 0);
    assert_eq!(charge(&[]).0, 0);
    fs::write(folder.0.join("counters.charged"), "something else\n").unwrap();
    let (status, _, words) = charge(&["--again"]);
    assert!(
        status == 2 && words.contains("line 1: it does not begin with the digest of a charge"),
        "{words}"
    );
}

/// Where memory is short every command says so in a line, with status 2, and leaves nothing.
#[test]
fn a_want_of_memory_is_told() {
    let folder = Folder::new("memory", 200);
    put_counters(&folder, 1);
    fs::write(folder.0.join("none"), b"").unwrap();
    fs::write(folder.0.join("counts"), "1\n".repeat(4096)).unwrap();
    fs::write(folder.0.join("page"), [7; 65536]).unwrap();
    assert!(
        folder
            .program(&["write", "ops", "core", "round"])
            .output()
            .unwrap()
            .status
            .success()
    );
    let names = folder.names();
    let commands: [&[&str]; 10] = [
        &["look", "ops", "counters"],
        &["charge", "ops", "counters"],
        &["write", "--all", "all", "ops"],
        &["write", "ops", "a", "b"],
        &["judge", "core", "round"],
        &["judge", "--all", "core", "round"],
        &["same", "core", "ops"],
        &["job", "core", "round", "counts"],
        &["message", "page", "8", "0", "hashed"],
        &["month", "--svg", "svg", "counts"],
    ];
    let mut short = 0;
    for arguments in commands {
        for pages in [4, 8, 16, 32, 64, 100, 150, 200, 300].map(|megabytes| megabytes * 1024) {
            let limited = format!("ulimit -v {pages}; exec \"$@\"");
            let Output { status, stderr, .. } = folder.shell(&limited, arguments);
            // The least that a process needs is not the program's to tell.
            let said = text(&stderr).to_string();
            if status.code() == Some(127) || said.contains("error while loading") {
                continue;
            }
            assert!(
                status.code().is_some_and(|status| status <= 2),
                "{arguments:?}, {pages} KiB: {status:?} {said}"
            );
            if said.contains("memory") {
                short += 1;
                assert_eq!(
                    (status.code(), said.lines().count()),
                    (Some(2), 1),
                    "{arguments:?}: {said}"
                );
                assert_eq!(folder.names(), names, "{arguments:?}, {pages} KiB");
            }
            for name in ["all", "a", "b", "hashed", "svg", "counters.charged"] {
                let _ = fs::remove_file(folder.0.join(name)).or_else(|_| fs::remove_dir_all(folder.0.join(name)));
            }
        }
    }
    assert!(short > 20, "{short} were short of memory");
}

/// What has no end is read up to a bound, or to the first fault.
#[test]
fn what_has_no_end_is_not_read_for_ever() {
    let folder = Folder::new("endless", 1);
    let limited = "ulimit -v 6000000; exec \"$@\"";
    for (arguments, words) in [
        (
            &["judge", "/dev/zero", "ops"][..],
            "/dev/zero: it goes on after 4294967296 bytes",
        ),
        (&["month", "/dev/zero"], "/dev/zero: it goes on after 16777216 bytes"),
        (
            &["tally", "/dev/zero"],
            "/dev/zero, record 0, from byte 0, has a wrong mark: it begins with 00",
        ),
    ] {
        let Output { status, stderr, .. } = folder.shell(limited, arguments);
        assert!(matches!(status.code(), Some(1 | 2)), "{arguments:?}");
        assert!(text(&stderr).starts_with(words), "{}", text(&stderr));
    }
}

/// What is written to a pipe or a device is not synced; a report that can't be printed leaves no files.
#[test]
fn pipes_and_reports() {
    let folder = Folder::new("pipes", 1);
    fs::write(folder.0.join("page"), b"abc").unwrap();
    let piped = folder.shell(
        "mkfifo pipe; cat pipe >got & \"$@\"; s=$?; wait; exit $s",
        &["message", "page", "8", "0", "pipe"],
    );
    assert_eq!((piped.status.code(), text(&piped.stderr)), (Some(0), ""));
    assert_eq!(fs::metadata(folder.0.join("got")).unwrap().len(), 418);
    for name in ["pipe", "got"] {
        fs::remove_file(folder.0.join(name)).unwrap();
    }
    for arguments in [
        &["write", "ops", "core", "round"][..],
        &["write", "--all", "all", "ops"],
        &["message", "page", "8", "0", "hashed"],
    ] {
        let output = folder.shell("exec \"$@\" >/dev/full", arguments);
        assert_eq!(output.status.code(), Some(2), "{arguments:?}");
        assert_eq!(folder.names(), ["ops", "page"], "{arguments:?}");
    }
}

/// What a run that was killed left under a name of old is no hindrance, whatever the number of the process.
#[test]
fn names_of_parts_do_not_come_again() {
    let folder = Folder::new("parts", 1);
    let left = [
        "core.0123456789abcdef.part",
        "core.0123456789abcdef.old",
        "round.fedcba9876543210.part",
    ];
    for name in left {
        fs::write(folder.0.join(name), b"left").unwrap();
    }
    fs::create_dir(folder.0.join("all.0123456789abcdef.part")).unwrap();
    fs::write(folder.0.join("core.mine.part"), b"mine").unwrap();
    for arguments in [
        &["write", "ops", "core", "round"][..],
        &["write", "--all", "all", "ops"],
    ] {
        assert!(folder.program(arguments).output().unwrap().status.success());
    }
    assert_eq!(folder.names(), ["all", "core", "core.mine.part", "ops", "round"]);
}
