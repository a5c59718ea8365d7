//! Finds the published Rust files and writes the module file that compiles them from where they stand.

use std::path::{Path, PathBuf};
use std::{env, fs, process};

/// The variable that names the folder in which `prover/src/...` stands.
const VARIABLE: &str = "KECCAK_RUST_SRC";

/// The folder when the variable is not set, from this crate: a folder `shared` beside the repository.
const DEFAULT: &str = "../../shared/docs/src";

/// The modules of `crate::tables`, except `types`.
const TABLES: [&str; 5] = ["bitwise", "is_wh", "keccak", "keccak_rc", "keccak_rnd"];

fn main() {
    println!("cargo:rerun-if-env-changed={VARIABLE}");
    println!("cargo:rerun-if-changed=build.rs");
    // Features of the published crate that stay off here.
    println!("cargo:rustc-check-cfg=cfg(feature, values(\"cuda\", \"parallel\"))");

    let source = source_folder();
    // For the test that the files are as published.
    println!("cargo:rustc-env=KECCAK_RUST_FOUND={}", source.display());
    let out = PathBuf::from(env::var_os("OUT_DIR").expect("cargo sets OUT_DIR"));
    fs::write(out.join("published.rs"), modules(&source)).expect("OUT_DIR can be written");
}

/// The module file. `types` is the published file and the names that it lacks as published.
fn modules(source: &Path) -> String {
    let tables: String = TABLES
        .iter()
        .map(|name| {
            let path = path_attribute(source, &format!("tables/{name}.rs"));
            format!("    {path}pub mod {name};\n")
        })
        .collect();
    let types = path_attribute(source, "tables/types.rs");
    let templates = path_attribute(source, "constraints/templates.rs");
    format!(
        "#[allow(dead_code, missing_docs)]\n\
         pub mod tables {{\n\
         {tables}\
         \x20   pub mod types {{\n\
         \x20       #[allow(unused_imports)]\n\
         \x20       {types}mod published;\n\
         \x20       pub use crate::missing_types::{{BusId, VmTable, alu_op}};\n\
         \x20       pub use published::*;\n\
         \x20   }}\n\
         }}\n\
         #[allow(dead_code, missing_docs)]\n\
         pub mod constraints {{\n\
         \x20   {templates}pub mod templates;\n\
         }}\n"
    )
}

/// The folder in which `prover/src/...` stands.
fn source_folder() -> PathBuf {
    let here = PathBuf::from(env::var_os("CARGO_MANIFEST_DIR").expect("cargo sets CARGO_MANIFEST_DIR"));
    let folder = match env::var_os(VARIABLE) {
        Some(folder) => here.join(folder),
        None => here.join(DEFAULT),
    };
    fs::canonicalize(&folder).unwrap_or_else(|_| give_up(&folder))
}

/// `#[path = "..."] ` of a published file, which must be there.
fn path_attribute(source: &Path, name: &str) -> String {
    let file = source.join("prover/src").join(name);
    if !file.is_file() {
        give_up(&file);
    }
    println!("cargo:rerun-if-changed={}", file.display());
    format!("#[path = {:?}] ", file.display().to_string())
}

/// Ends the build with what is missing and what to set.
fn give_up(missing: &Path) -> ! {
    eprintln!(
        "the published Rust is not at {}\n\
         set {VARIABLE} to the folder that holds prover/src/tables and prover/src/constraints\n\
         (an absolute path, or one from this crate's folder; without it, {DEFAULT} is read)",
        missing.display()
    );
    process::exit(1)
}
