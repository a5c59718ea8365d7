//! Readers of the four places where the archive's functions are declared, each into the same form.

use std::collections::BTreeMap;
use std::fs;
use std::path::{Path, PathBuf};

/// What is passed: by C linkage, a slice counts as two.
#[derive(Debug, Clone, PartialEq, Eq)]
pub enum Passed {
    Flag,
    Byte,
    Half,
    Word,
    Size,
    ReadBytes,
    WriteBytes,
    ReadWords,
    WriteWords,
    Struct(String),
}

/// A function: what it takes, and the struct that it answers, by the name that the archive's source gives it.
#[derive(Debug, Clone, PartialEq, Eq)]
pub struct Signature {
    pub takes: Vec<Passed>,
    pub answers: String,
}

/// Functions by their names.
pub type Functions = BTreeMap<String, Signature>;

/// Structs by the names that the archive's source gives them: each field's name and what it is.
pub type Structs = BTreeMap<String, Vec<(String, Passed)>>;

/// The names of the structs in the header and in the archive's source.
const STRUCTS: [(&str, &str); 10] = [
    ("keccak_tables_answer", "FlatAnswer"),
    ("keccak_tables_number", "FlatNumber"),
    ("keccak_tables_tuple", "FlatTuple"),
    ("keccak_tables_key", "FlatKey"),
    ("keccak_tables_lookup", "FlatLookup"),
    ("keccak_tables_judgement", "FlatVerdict"),
    ("keccak_tables_agreement", "FlatAgreement"),
    ("keccak_tables_reply", "FlatReply"),
    ("keccak_tables_cursor", "FlatCursor"),
    ("keccak_tables_sums", "FlatTally"),
];

pub fn root() -> PathBuf {
    Path::new(env!("CARGO_MANIFEST_DIR"))
        .parent()
        .expect("the host stands in a repository")
        .to_path_buf()
}

fn text(path: &Path) -> String {
    fs::read_to_string(path).unwrap_or_else(|error| panic!("{}: {error}", path.display()))
}

/// The header without its comments.
pub fn header() -> String {
    let mut text = text(&root().join("include/keccak_tables.h"));
    while let Some(start) = text.find("/*") {
        let length = text[start..].find("*/").expect("a comment ends") + 2;
        text.replace_range(start..start + length, " ");
    }
    text
}

/// A file of this package, without the comments that begin with two strokes.
pub fn host_source(name: &str) -> String {
    without_strokes(&text(&root().join("host/src").join(name)))
}

/// The sources of the exports and of the structs that they pass.
fn export_sources() -> String {
    let mut files: Vec<PathBuf> = ["keccak_tables_c", "flat"]
        .iter()
        .flat_map(|name| fs::read_dir(root().join("crates").join(name).join("src")).expect("a crate's folder"))
        .flatten()
        .map(|f| f.path())
        .collect();
    files.retain(|file| file.extension().is_some_and(|extension| extension == "rt"));
    let sources: String = files.iter().map(|file| without_strokes(&text(file))).collect();
    // How long a slice is lent is nothing that C linkage tells.
    sources.replace("<'a>", "").replace("&'a ", "&")
}

fn without_strokes(text: &str) -> String {
    text.lines()
        .map(|line| line.split("//").next().unwrap_or("").to_string() + "\n")
        .collect()
}

/// What stands between `(` and its `)`, and what follows; the text begins after the `(`.
fn parenthesis(text: &str) -> (&str, &str) {
    text.split_once(')').expect("a parenthesis ends")
}

/// The parts between commas that are not empty.
fn parts(list: &str) -> impl Iterator<Item = &str> {
    list.split(',').map(str::trim).filter(|part| !part.is_empty())
}

fn word(text: &str) -> &str {
    let text = text.trim_start();
    let end = text
        .find(|c: char| !c.is_alphanumeric() && c != '_')
        .unwrap_or(text.len());
    &text[..end]
}

/// A type of the archive's source or of Rust, by C linkage.
fn of_rust_type(name: &str) -> Vec<Passed> {
    match name {
        "bool" => vec![Passed::Flag],
        "u8" => vec![Passed::Byte],
        "u32" => vec![Passed::Half],
        "u64" => vec![Passed::Word],
        "usize" => vec![Passed::Size],
        "&[u8]" => vec![Passed::ReadBytes, Passed::Size],
        "&mut [u8]" => vec![Passed::WriteBytes, Passed::Size],
        "&[u64]" => vec![Passed::ReadWords, Passed::Size],
        "&mut [u64]" => vec![Passed::WriteWords, Passed::Size],
        _ => vec![Passed::Struct(name.to_string())],
    }
}

/// `name: type` of the archive's source or of Rust.
fn rust_parameter(parameter: &str) -> Vec<Passed> {
    let (_, name) = parameter.split_once(':').expect("a parameter has a type");
    of_rust_type(name.trim())
}

/// A function `name(parameters) -> answer`, as the archive's source and Rust write it.
fn rust_function(text: &str) -> (String, Signature) {
    let (name, rest) = text.split_once('(').expect("a function has parameters");
    let (parameters, rest) = parenthesis(rest);
    let takes = parts(parameters).flat_map(rust_parameter).collect();
    let answers = word(rest.split_once("->").expect("a function answers").1).to_string();
    (name.trim().to_string(), Signature { takes, answers })
}

/// The functions that the archive's source exports.
pub fn exports() -> Functions {
    let functions = export_sources();
    functions
        .split("#[unsafe(no_mangle)]")
        .skip(1)
        .map(|text| rust_function(after(text, "fn ")))
        .collect()
}

fn after<'a>(text: &'a str, mark: &str) -> &'a str {
    text.split_once(mark)
        .unwrap_or_else(|| panic!("there is no '{mark}'"))
        .1
}

/// The functions that `ffi.rs` binds: `name = symbol(arguments) -> answer`.
pub fn bound() -> Functions {
    let source = host_source("ffi.rs");
    let (bound, _) = after(&source, "\nbind! {").split_once('}').expect("a block ends");
    let bindings = bound.split(';').filter(|binding| !binding.trim().is_empty());
    bindings.map(|binding| rust_function(after(binding, "="))).collect()
}

/// The header's declarations: what the preprocessor leaves of it.
fn declarations() -> String {
    header()
        .lines()
        .filter(|line| !line.starts_with('#'))
        .map(|line| line.to_string() + "\n")
        .collect()
}

/// The header's prototypes, each of which warns where its answer is not used.
pub fn prototypes() -> Functions {
    let header = declarations();
    let mut functions = Functions::new();
    for statement in header.split(';').filter(|statement| statement.contains('(')) {
        let (before, rest) = statement.split_once('(').expect("a prototype has parameters");
        let mut names = before.split_whitespace().rev();
        let (name, answers) = (names.next().expect("a name"), names.next().expect("an answer"));
        assert_eq!(names.next(), Some("KECCAK_TABLES_MUST_USE"), "{name}");
        let (parameters, _) = parenthesis(rest);
        let takes = parts(parameters)
            .filter(|&parameter| parameter != "void")
            .map(c_declaration);
        let signature = Signature {
            takes: takes.map(|(_, passed)| passed).collect(),
            answers: of_c_type(answers),
        };
        assert!(functions.insert(name.to_string(), signature).is_none(), "{name} twice");
    }
    functions
}

/// `type name` of C.
fn c_declaration(declaration: &str) -> (String, Passed) {
    let at = declaration
        .rfind(|c: char| !c.is_alphanumeric() && c != '_')
        .expect("a name after a type")
        + 1;
    let (kind, name) = declaration.split_at(at);
    let passed = match kind.trim() {
        "bool" => Passed::Flag,
        "uint8_t" => Passed::Byte,
        "uint32_t" => Passed::Half,
        "uint64_t" => Passed::Word,
        "size_t" => Passed::Size,
        "const uint8_t *" => Passed::ReadBytes,
        "uint8_t *" => Passed::WriteBytes,
        "const uint64_t *" => Passed::ReadWords,
        "uint64_t *" => Passed::WriteWords,
        other => Passed::Struct(of_c_type(other)),
    };
    (name.to_string(), passed)
}

fn of_c_type(name: &str) -> String {
    let found = STRUCTS.iter().find(|(ours, _)| *ours == name);
    found
        .unwrap_or_else(|| panic!("the header's '{name}' is not known"))
        .1
        .to_string()
}

/// The header's structs, by the archive's names.
pub fn header_structs() -> Structs {
    let header = declarations();
    let structs = header.split("typedef struct ").skip(1).map(|text| {
        let (name, rest) = text.split_once('{').expect("a struct has fields");
        let (fields, rest) = rest.split_once('}').expect("a struct ends");
        assert_eq!(name.trim(), word(rest), "a struct and its type have one name");
        let fields = fields.split(';').map(str::trim).filter(|field| !field.is_empty());
        (of_c_type(name.trim()), fields.map(c_declaration).collect())
    });
    structs.collect()
}

/// The structs of a text of the archive's source or of Rust that C linkage may pass.
fn rust_structs(text: &str) -> Structs {
    let structs = text.split("#[repr(C)]").skip(1).map(|text| {
        let (name, rest) = after(text, "struct ").split_once('{').expect("a struct has fields");
        let (fields, _) = rest.split_once('}').expect("a struct ends");
        let fields = parts(fields).map(|field| {
            let name = word(field.trim_start_matches("pub ")).to_string();
            (name, rust_parameter(field).remove(0))
        });
        (name.trim().to_string(), fields.collect())
    });
    structs.collect()
}

pub fn export_structs() -> Structs {
    rust_structs(&export_sources())
}

/// The bindings' structs; the sums within the answer of a file are spread out.
pub fn bound_structs() -> Structs {
    let mut structs = rust_structs(&host_source("ffi.rs"));
    let sums = rust_structs(&host_source("operation_file.rs"))
        .remove("Sums")
        .expect("the sums");
    let tally = structs.get_mut("FlatTally").expect("the answer of a file");
    assert_eq!(
        tally.pop(),
        Some(("sums".to_string(), Passed::Struct("Sums".to_string())))
    );
    tally.extend(sums);
    structs
}

/// The numbers that the header names, without their common prefix.
pub fn header_numbers() -> BTreeMap<String, u64> {
    let header = header();
    let lines = header
        .lines()
        .filter_map(|line| line.strip_prefix("#define KECCAK_TABLES_"))
        .filter(|line| !line.starts_with("MUST_USE"));
    let numbers = lines.filter_map(|line| line.split_once(' ')).map(|(name, number)| {
        let value = match number.trim().strip_prefix("0x") {
            Some(digits) => u64::from_str_radix(digits, 16),
            None => number.trim().parse(),
        };
        (
            name.to_string(),
            value.unwrap_or_else(|_| panic!("{name} is no number: {number}")),
        )
    });
    numbers.collect()
}

/// The archive that this package links.
pub fn archive() -> PathBuf {
    Path::new(env!("OUT_DIR")).join("libkeccak_tables.a")
}

/// The symbols that the archive's index lists: those that another program may call.
pub fn archive_symbols() -> Vec<String> {
    let bytes = fs::read(archive()).expect("the archive");
    assert!(bytes.starts_with(b"!<arch>\n/ "), "the archive begins with its index");
    let number = |at: usize| u32::from_be_bytes(bytes[at..at + 4].try_into().expect("four bytes")) as usize;
    let start = 8 + 60;
    let count = number(start);
    let names = &bytes[start + 4 + 4 * count..];
    let names = names.split(|&byte| byte == 0).take(count);
    names
        .map(|name| String::from_utf8(name.to_vec()).expect("a name"))
        .collect()
}
