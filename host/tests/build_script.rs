//! The build script: an archive that was built elsewhere is linked without the Rattle kit, if it is the one of these sources.

#[path = "../build/sha256.rs"]
mod sha256;

use std::fs;
use std::path::{Path, PathBuf};
use std::process::{Command, Output, Stdio};

#[test]
fn digests_are_those_of_the_standard() {
    let cases = [
        ("", "e3b0c44298fc1c149afbf4c8996fb92427ae41e4649b934ca495991b7852b855"),
        (
            "abc",
            "ba7816bf8f01cfea414140de5dae2223b00361a396177a9cb410ff61f20015ad",
        ),
        (
            "abcdbcdecdefdefgefghfghighijhijkijkljklmklmnlmnomnopnopq",
            "248d6a61d20638b8e5c026930c3e6039a33ce45964ff2167f6ecedd419db06c1",
        ),
    ];
    for (message, digest) in cases {
        assert_eq!(sha256::hex(message.as_bytes()), digest);
    }
    let long = vec![b'a'; 1_000_000];
    assert_eq!(
        sha256::hex(&long),
        "cdc76e5c9914fb9281a1c7e284d73e67f1809a48a497200e046d39ccc7112cd0"
    );
}

/// A copy of this package beside nothing, and a package that depends on it.
struct Dependant(PathBuf);

impl Dependant {
    fn new(name: &str) -> Self {
        let root = Path::new(env!("CARGO_TARGET_TMPDIR")).join(name);
        let _ = fs::remove_dir_all(&root);
        let here = Path::new(env!("CARGO_MANIFEST_DIR"));
        for folder in ["host/src", "host/build", "src", "crates/keccak_tables_c"] {
            fs::create_dir_all(root.join(folder)).unwrap();
        }
        let manifest = fs::read_to_string(here.join("Cargo.toml")).unwrap();
        let manifest = manifest.split("# The library has no dependency").next().unwrap();
        fs::write(root.join("host/Cargo.toml"), manifest).unwrap();
        fs::copy(here.join("build.rs"), root.join("host/build.rs")).unwrap();
        fs::copy(here.join("build/sha256.rs"), root.join("host/build/sha256.rs")).unwrap();
        copy(&here.join("src"), &root.join("host/src"));
        let manifest = "[package]\nname = \"dependant\"\nversion = \"0.1.0\"\nedition = \"2024\"\n\n[dependencies]\n\
                        keccak-tables = { path = \"host\" }\n\n[workspace]\n";
        fs::write(root.join("Cargo.toml"), manifest).unwrap();
        let main = "fn main() {\n    assert_eq!(keccak_tables::keccak::keccak_height(5), Ok(8));\n}\n";
        fs::write(root.join("src/main.rs"), main).unwrap();
        Self(root)
    }

    /// cargo with a command and an archive, and with no rt on the PATH.
    fn cargo(&self, command: &str, archive: Option<&Path>) -> Output {
        let mut cargo = Command::new(env!("CARGO"));
        cargo.args([command, "--offline"]).current_dir(&self.0);
        let tools = Path::new(env!("CARGO")).parent().unwrap().display().to_string();
        cargo
            .env("PATH", without_rt(&tools))
            .env_remove("KECCAK_TABLES_ARCHIVE")
            .env_remove("CARGO_TARGET_DIR");
        archive.map(|path| cargo.env("KECCAK_TABLES_ARCHIVE", path));
        cargo.output().unwrap()
    }
}

/// The folders of the PATH in which there is no rt.
fn without_rt(tools: &str) -> String {
    let path = std::env::var("PATH").unwrap();
    let folders = path.split(':').filter(|folder| !Path::new(folder).join("rt").exists());
    [tools].into_iter().chain(folders).collect::<Vec<_>>().join(":")
}

fn copy(from: &Path, to: &Path) {
    for entry in fs::read_dir(from).unwrap().flatten() {
        let (from, to) = (entry.path(), to.join(entry.file_name()));
        if from.is_dir() {
            fs::create_dir_all(&to).unwrap();
            copy(&from, &to);
        } else {
            fs::copy(from, to).unwrap();
        }
    }
}

#[test]
fn a_given_archive_is_linked_without_the_kit() {
    let archive = Path::new(env!("OUT_DIR")).join("libkeccak_tables.a");
    let digest = sha256::hex(&fs::read(&archive).unwrap());
    let dependant = Dependant::new("dependant");
    let said = |output: &Output| String::from_utf8_lossy(&output.stderr).to_string();

    let none = dependant.cargo("check", None);
    assert!(
        !none.status.success() && said(&none).contains("there is no program rt on the PATH"),
        "{}",
        said(&none)
    );

    // With no digest to hold it against, its own is told.
    let unheld = dependant.cargo("run", Some(&archive));
    assert!(
        unheld.status.success() && said(&unheld).contains(&digest),
        "{}",
        said(&unheld)
    );

    let digest_file = dependant.0.join("host/archive.sha256");
    fs::write(&digest_file, format!("{digest}  libkeccak_tables.a\n")).unwrap();
    let held = dependant.cargo("check", Some(&archive));
    assert!(
        held.status.success() && !said(&held).contains("warning"),
        "{}",
        said(&held)
    );

    // A relative path is the caller's, who stands beside the package.
    fs::copy(&archive, dependant.0.join("beside.a")).unwrap();
    let beside = dependant.cargo("check", Some(Path::new("beside.a")));
    assert!(beside.status.success(), "{}", said(&beside));
    let missing = dependant.cargo("check", Some(Path::new("host/../missing.a")));
    let named = dependant.0.join("host/../missing.a").display().to_string();
    assert!(
        !missing.status.success() && said(&missing).contains(&named),
        "{}",
        said(&missing)
    );

    let other = dependant.0.join("other.a");
    fs::write(&other, [fs::read(&archive).unwrap(), vec![0]].concat()).unwrap();
    let refused = dependant.cargo("check", Some(&other));
    assert!(!refused.status.success() && said(&refused).contains(&format!("these sources make one with {digest}")));
}

/// In the place of rt, a script that fails where another of it is at work.
#[test]
fn two_builds_at_once_take_turns() {
    use std::os::unix::fs::PermissionsExt;
    let dependant = Dependant::new("at-once");
    let tools = dependant.0.join("tools");
    fs::create_dir_all(&tools).unwrap();
    let archive = Path::new(env!("OUT_DIR")).join("libkeccak_tables.a");
    let script = format!(
        "#!/bin/sh\nmkdir busy || exit 1\nsleep 0.5\nmkdir -p out\ncp {} out/libkeccak_tables_c.a\nrmdir busy\n",
        archive.display()
    );
    fs::write(tools.join("rt"), script).unwrap();
    fs::set_permissions(tools.join("rt"), fs::Permissions::from_mode(0o755)).unwrap();
    let path = format!("{}:{}", tools.display(), std::env::var("PATH").unwrap());
    let runs = ["one", "two"].map(|name| {
        let mut cargo = Command::new(env!("CARGO"));
        cargo
            .args(["check", "--offline", "--target-dir", name])
            .current_dir(&dependant.0);
        cargo
            .env("PATH", &path)
            .env_remove("KECCAK_TABLES_ARCHIVE")
            .stderr(Stdio::piped());
        cargo.spawn().unwrap()
    });
    for run in runs {
        let output = run.wait_with_output().unwrap();
        assert!(output.status.success(), "{}", String::from_utf8_lossy(&output.stderr));
    }
}
