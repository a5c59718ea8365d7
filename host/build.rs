//! Links the archive of the crate `keccak_tables_c`: the one that KECCAK_TABLES_ARCHIVE names, or else one that is proved and compiled
//! here (`rt lib`).

#[path = "build/sha256.rs"]
mod sha256;

use std::fs::{self, File};
use std::io::{self, BufRead, BufReader, Write};
use std::path::{Path, PathBuf};
use std::process::{self, Command, Stdio};
use std::time::{Duration, Instant};
use std::{env, thread};

/// The variable that names an archive which was built elsewhere.
const ARCHIVE: &str = "KECCAK_TABLES_ARCHIVE";

/// The file with the digest of the archive that belongs to these sources, in the form of the program sha256sum.
const DIGEST: &str = "archive.sha256";

/// The crate that the archive is made of, and where the kit puts the archive.
const CRATE: &str = "crates/keccak_tables_c";
const MADE: &str = "out/libkeccak_tables_c.a";

/// What takes longer than this is told.
const LONG: Duration = Duration::from_secs(30);

fn main() {
    let here = PathBuf::from(env::var_os("CARGO_MANIFEST_DIR").expect("cargo sets CARGO_MANIFEST_DIR"));
    let root = here.parent().expect("the host stands in a repository");
    println!("cargo:rerun-if-changed=build.rs");
    println!("cargo:rerun-if-changed=build");
    println!("cargo:rerun-if-env-changed={ARCHIVE}");
    let target = ["CARGO_CFG_TARGET_ARCH", "CARGO_CFG_TARGET_OS"].map(|name| env::var(name).unwrap_or_default());
    if target != ["x86_64", "linux"] {
        give_up("the archive is for Linux on x86-64, and can't be linked for another target");
    }
    let archive = match env::var_os(ARCHIVE) {
        Some(path) => given(&here, &from_caller(Path::new(&path))),
        None => proved(root),
    };
    // A copy, under the archive's name, because the gate removes what a crate's folder keeps.
    let out = PathBuf::from(env::var_os("OUT_DIR").expect("cargo sets OUT_DIR"));
    if let Err(error) = fs::write(out.join("libkeccak_tables.a"), archive) {
        give_up(&format!("the archive could not be copied: {error}"));
    }
    println!("cargo:rustc-link-search=native={}", out.display());
    println!("cargo:rustc-link-lib=static=keccak_tables");
}

/// A path that cargo's caller wrote, from the caller's folder on: that is cargo's own, while a build script runs in its package's.
fn from_caller(path: &Path) -> PathBuf {
    if path.is_absolute() {
        return path.to_path_buf();
    }
    let cargo = format!("/proc/{}/cwd", std::os::unix::process::parent_id());
    match fs::read_link(&cargo) {
        Ok(folder) => folder.join(path),
        Err(error) => give_up(&format!(
            "{ARCHIVE} names {}, and the folder of cargo's caller is not known: {cargo}: {error}",
            path.display()
        )),
    }
}

/// An archive that was built elsewhere. It has to be the one of these sources.
fn given(here: &Path, path: &Path) -> Vec<u8> {
    let digest_file = here.join(DIGEST);
    println!("cargo:rerun-if-changed={}", path.display());
    println!("cargo:rerun-if-changed={}", digest_file.display());
    let archive = read(path);
    let found = sha256::hex(&archive);
    match fs::read_to_string(&digest_file) {
        Ok(text) if text.split_whitespace().next() == Some(&found) => {}
        Ok(text) => give_up(&format!(
            "{ARCHIVE} names {}, whose SHA-256 is {found}; these sources make one with {}",
            path.display(),
            text.split_whitespace().next().unwrap_or("none")
        )),
        Err(_) => println!(
            "cargo:warning=linked {}, SHA-256 {found}; there is no {} to hold it against",
            path.display(),
            digest_file.display()
        ),
    }
    archive
}

/// The archive, proved and compiled here. One build at a time: they share what the crate's folder keeps.
fn proved(root: &Path) -> Vec<u8> {
    rerun_if_sources_changed(root);
    let path = root.join("target/host.lock");
    let locked = fs::create_dir_all(root.join("target"))
        .and_then(|()| File::create(&path))
        .and_then(|lock| lock.lock().map(|()| lock));
    let _lock = locked.unwrap_or_else(|error| give_up(&format!("{} could not be locked: {error}", path.display())));
    let start = Instant::now();
    prove(root);
    if start.elapsed() > LONG {
        let seconds = start.elapsed().as_secs();
        println!(
            "cargo:warning=proving and compiling the archive took {seconds} s; {ARCHIVE}=PATH links one that was built elsewhere"
        );
    }
    read(&root.join(CRATE).join(MADE))
}

/// What the archive is made of; a crate's must-fail edits and recorded outputs have no part in it.
fn rerun_if_sources_changed(root: &Path) {
    println!("cargo:rerun-if-changed={}", root.join("crates.txt").display());
    for entry in fs::read_dir(root.join("crates")).into_iter().flatten().flatten() {
        let folders = ["src", "specs", "proofs"].map(|name| entry.path().join(name));
        for folder in folders.iter().filter(|folder| folder.is_dir()) {
            println!("cargo:rerun-if-changed={}", folder.display());
        }
    }
}

fn prove(root: &Path) {
    let mut command = Command::new("rt");
    command.arg("lib").current_dir(root.join(CRATE));
    let mut run = match command.stdout(Stdio::piped()).stderr(Stdio::piped()).spawn() {
        Ok(run) => run,
        Err(error) if error.kind() == io::ErrorKind::NotFound => give_up(&format!(
            "there is no program rt on the PATH: the archive is proved and compiled by the Rattle kit. {ARCHIVE}=PATH links one that was \
             built elsewhere"
        )),
        Err(error) => give_up(&format!("rt could not be run: {error}")),
    };
    // cargo shows what a build script says only when it ends, or with -vv.
    on_terminal(
        "keccak-tables: proving the archive, some ten minutes where nothing is proved yet (cargo -vv shows the lines)",
    );
    let errors = run.stderr.take().expect("it is piped");
    let told = thread::spawn(move || pass_on(errors));
    pass_on(run.stdout.take().expect("it is piped"));
    let _ = told.join();
    match run.wait() {
        Ok(status) if status.success() => {}
        Ok(_) => give_up(&format!("rt lib failed in {CRATE}; its lines stand above")),
        Err(error) => give_up(&format!("rt could not be run to its end: {error}")),
    }
}

/// Passes lines on as they come.
fn pass_on(lines: impl io::Read) {
    for line in BufReader::new(lines).split(b'\n').map_while(Result::ok) {
        eprintln!("{}", String::from_utf8_lossy(&line));
    }
}

/// Says a line where somebody may be waiting, and nothing where there is no terminal.
fn on_terminal(line: &str) {
    if let Ok(mut terminal) = File::options().write(true).open("/dev/tty") {
        let _ = writeln!(terminal, "{line}");
    }
}

fn read(path: &Path) -> Vec<u8> {
    fs::read(path).unwrap_or_else(|error| give_up(&format!("{} could not be read: {error}", path.display())))
}

fn give_up(message: &str) -> ! {
    eprintln!("{message}");
    process::exit(1)
}
