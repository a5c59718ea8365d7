//! `make install`: a program in C is compiled from what it leaves, as pkg-config says.

use std::path::{Path, PathBuf};
use std::process::Command;

/// Runs a command to its end, and gives what it prints; nothing where there is no such program.
fn printed(command: &mut Command) -> Option<String> {
    let output = match command.output() {
        Err(error) if error.kind() == std::io::ErrorKind::NotFound => {
            eprintln!("{command:?}: there is no such program on the PATH");
            return None;
        }
        output => output.expect("a program can be run"),
    };
    let text = |bytes| String::from_utf8(bytes).expect("text");
    assert!(output.status.success(), "{command:?}\n{}", text(output.stderr));
    Some(text(output.stdout))
}

#[test]
fn what_is_installed_is_enough_for_a_program_in_c() {
    let root = Path::new(env!("CARGO_MANIFEST_DIR")).parent().expect("the repository");
    let prefix = PathBuf::from(env!("CARGO_TARGET_TMPDIR")).join("installed");
    let archive = Path::new(env!("OUT_DIR")).join("libkeccak_tables.a");
    let mut make = Command::new("make");
    make.current_dir(root).args(["--silent", "install"]);
    make.arg(format!("PREFIX={}", prefix.display()));
    make.arg(format!("KECCAK_TABLES_ARCHIVE={}", archive.display()));
    let Some(_) = printed(&mut make) else { return };

    let about = |words: &[&str]| {
        let mut about = Command::new("pkg-config");
        about.env("PKG_CONFIG_PATH", prefix.join("lib/pkgconfig"));
        printed(about.args(words).arg("keccak_tables"))
    };
    let Some(version) = about(&["--modversion"]) else {
        return;
    };
    assert_eq!(version.trim(), env!("CARGO_PKG_VERSION"));
    let words = about(&["--cflags", "--libs"]).expect("the same program");

    let program = prefix.join("every_call");
    let mut compiler = Command::new("cc");
    compiler
        .arg(root.join("host/tests/every_call.c"))
        .args(words.split_whitespace())
        .arg("-o")
        .arg(&program);
    let Some(_) = printed(&mut compiler) else { return };
    assert!(
        printed(&mut Command::new(program))
            .expect("the program")
            .contains("keccak_tables_verdict")
    );
}
