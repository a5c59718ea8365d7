//! The two programs as processes: a standard output that ends early or is closed, and numbers at their end.

use std::process::{Command, Output};

/// A program behind words of the shell.
fn shell(words: &str, program: &str, arguments: &[&str]) -> Output {
    let program = match program {
        "bench" => env!("CARGO_BIN_EXE_bench"),
        _ => env!("CARGO_BIN_EXE_differential"),
    };
    let mut command = Command::new("sh");
    command
        .args(["-c", words, "sh", program])
        .args(arguments)
        .output()
        .unwrap()
}

const RUNS: [(&str, &[&str]); 2] = [("bench", &["shuffled", "1"]), ("differential", &["tally", "1", "0"])];

#[test]
fn a_pipe_that_is_not_read_to_its_end_is_no_panic() {
    for (program, arguments) in RUNS {
        // The reader is gone before the first line.
        let words = "exec 3>&1; { sleep 0.2; \"$@\"; echo $? >&3; } | true";
        let Output { stdout, stderr, .. } = shell(words, program, arguments);
        assert_eq!(
            [stdout, stderr].map(|bytes| String::from_utf8(bytes).unwrap()),
            ["2\n", ""],
            "{program}"
        );
    }
}

#[test]
fn a_closed_standard_output_is_an_error() {
    for (program, arguments) in RUNS {
        let Output { status, stderr, .. } = shell("exec \"$@\" >&-", program, arguments);
        assert_eq!(status.code(), Some(2));
        assert_eq!(String::from_utf8(stderr).unwrap(), "standard output: it is closed\n");
    }
}

#[test]
fn nothing_drawn_is_fine_and_nothing_timed_is_wrong_usage() {
    assert_eq!(
        shell("exec \"$@\"", "differential", &["tally", "1", "0"]).status.code(),
        Some(0)
    );
    for area in ["tally", "shuffled", "descending"] {
        assert_eq!(shell("exec \"$@\"", "bench", &[area, "0"]).status.code(), Some(2));
    }
}
