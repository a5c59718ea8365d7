//! The C header against the archive, its source and the bindings; and a program in C that calls every function.

mod interface;

use std::collections::BTreeMap;
use std::io::ErrorKind;
use std::path::Path;
use std::process::Command;

use keccak_tables::{
    Bus, FLOOR, Lent, MAX_FLOOR, MAX_OPS, OP_WORDS, P, Refusal, SEGMENT_WORD, Side, bitwise, is_wh, job, keccak,
    keccak_rc, keccak_rnd, message, month, operation_file, permutation, registers, segment, verdict,
};

#[test]
fn the_header_and_the_bindings_have_the_functions_of_the_archive() {
    let exports = interface::exports();
    let names: Vec<&String> = exports.keys().collect();
    let mut symbols = interface::archive_symbols();
    symbols.sort();
    assert_eq!(names, symbols.iter().collect::<Vec<_>>(), "the exports and the archive");
    for (place, functions) in [
        ("the header", interface::prototypes()),
        ("the bindings", interface::bound()),
    ] {
        assert_eq!(functions.keys().collect::<Vec<_>>(), names, "names in {place}");
        for (name, signature) in &exports {
            assert_eq!(functions[name], *signature, "{name} in {place}");
        }
    }
}

/// What a prover without a C library must bring: the two functions that the compiler's own copies call, and no third.
#[test]
fn the_archive_asks_for_memcpy_and_memset_alone() {
    let listed = match Command::new("nm").arg("-u").arg(interface::archive()).output() {
        Err(error) if error.kind() == ErrorKind::NotFound => return,
        listed => listed.expect("nm runs"),
    };
    assert!(listed.status.success(), "nm reads the archive");
    let text = String::from_utf8(listed.stdout).expect("names");
    let mut names: Vec<&str> = text.lines().filter_map(|line| line.trim().strip_prefix("U ")).collect();
    names.sort_unstable();
    assert_eq!(names, ["memcpy", "memset"]);
}

#[test]
fn the_header_and_the_bindings_have_the_structs_of_the_archive() {
    let exports = interface::export_structs();
    assert_eq!(interface::header_structs(), exports, "the header");
    assert_eq!(interface::bound_structs(), exports, "the bindings");
}

/// Counts and limits by name.
fn sizes() -> BTreeMap<String, u64> {
    let sizes = [
        ("P", P),
        ("OP_WORDS", OP_WORDS as u64),
        ("SEGMENT_WORD", SEGMENT_WORD as u64),
        ("MAX_OPS", MAX_OPS as u64),
        ("LAST_ADDRESS", keccak::LAST_ADDRESS),
        ("RECORD_BYTES", operation_file::RECORD_BYTES as u64),
        ("SEGMENT_RECORD_BYTES", operation_file::SEGMENT_RECORD_BYTES as u64),
        ("FIRST_MARK", operation_file::FIRST_MARK.into()),
        ("PLAIN_MARK", operation_file::PLAIN_MARK.into()),
        ("SEGMENT_MARK", operation_file::SEGMENT_MARK.into()),
        ("BITWISE_ROWS", bitwise::NUM_ROWS as u64),
        ("BITWISE_FIXED_COLUMNS", bitwise::NUM_PRECOMPUTED_COLS as u64),
        ("BITWISE_COLUMNS", bitwise::NUM_COLUMNS as u64),
        ("BITWISE_WORDS", bitwise::TABLE_WORDS as u64),
        ("BITWISE_KINDS", bitwise::NUM_LOOKUP_TYPES as u64),
        ("BITWISE_COUNTERS", bitwise::NUM_COUNTERS as u64),
        ("LOOKUP_WORDS", bitwise::LOOKUP_WORDS as u64),
        ("LOOK_WORDS", segment::LOOK_WORDS as u64),
        ("MAX_REGISTERS", registers::MAX_REGISTERS as u64),
        ("LEDGER_WORDS", registers::LEDGER_WORDS as u64),
        ("REGISTER_LOOK_WORDS", registers::REGISTER_LOOK_WORDS as u64),
        ("LANES", permutation::LANES as u64),
        ("RATE", message::RATE as u64),
        ("MAX_MESSAGE", message::MAX_MESSAGE as u64),
        ("DIGEST_BYTES", message::DIGEST_BYTES as u64),
        ("RC_ROWS", keccak_rc::NUM_ROWS as u64),
        ("RC_FIXED_COLUMNS", keccak_rc::NUM_PRECOMPUTED_COLS as u64),
        ("RC_COLUMNS", keccak_rc::NUM_COLUMNS as u64),
        ("RC_WORDS", keccak_rc::TABLE_WORDS as u64),
        ("IS_WH_COLUMNS", is_wh::NUM_COLUMNS as u64),
        ("IS_WH_TUPLES", is_wh::NUM_TUPLES as u64),
        ("IS_WH_ROW_WORDS", is_wh::ROW_WORDS as u64),
        ("MAX_KEYS", is_wh::MAX_KEYS as u64),
        ("IS_WH_MU_MAX", is_wh::IS_WH_MU_MAX),
        ("CORE_COLUMNS", keccak::NUM_COLUMNS as u64),
        ("CORE_VALUES", keccak::NUM_VALUES as u64),
        ("CORE_TUPLES", keccak::NUM_TUPLES as u64),
        ("CORE_TUPLE_WORDS", keccak::TUPLE_WORDS as u64),
        ("KEY_WORDS", keccak::KEY_WORDS as u64),
        ("ROUNDS", keccak_rnd::ROUNDS as u64),
        ("FLOOR", FLOOR),
        ("MAX_FLOOR", MAX_FLOOR),
        ("MAX_FILES", month::MAX_FILES as u64),
        ("MONTH_WORDS", month::MONTH_WORDS as u64),
        ("ROUND_COLUMNS", keccak_rnd::NUM_COLUMNS as u64),
        ("ROUND_VALUES", keccak_rnd::NUM_VALUES as u64),
        ("ROUND_TUPLES", keccak_rnd::NUM_TUPLES as u64),
        ("ROUND_TUPLE_WORDS", keccak_rnd::TUPLE_WORDS as u64),
        ("MAX_TUPLE_LENGTH", keccak_rnd::MAX_TUPLE_LENGTH as u64),
        ("LINE_MOST", verdict::LINE_MOST as u64),
        ("COUNT_WORDS", job::COUNT_WORDS as u64),
        ("VERDICT_WORDS", job::VERDICT_WORDS as u64),
        // By C linkage a scratch is two slices.
        ("SCRATCH_WORDS", verdict::SCRATCH_WORDS as u64 / 2),
    ];
    sizes.map(|(name, number)| (name.to_string(), number)).into()
}

#[test]
fn the_header_and_the_bindings_have_the_same_numbers() {
    let mut all = sizes();
    for (prefix, names) in [
        ("REFUSAL_", refusals()),
        (
            "LENT_",
            [("CORE", Lent::Core), ("ROUND", Lent::Round), ("LIST", Lent::List)]
                .map(lent)
                .to_vec(),
        ),
        (
            "BUS_",
            Bus::ALL
                .map(|bus| (capitals(&format!("{bus:?}")), bus.number()))
                .to_vec(),
        ),
        (
            "SIDE_",
            [Side::Sender, Side::Receiver]
                .map(|side| (capitals(&format!("{side:?}")), side.number()))
                .to_vec(),
        ),
        ("ALU_", numbered(&["AND", "OR", "XOR"])),
        ("KIND_", kinds()),
        ("VERDICT_", from_one(&VERDICTS)),
        ("REPORT_", numbered(&["HOLDS"])),
        ("TABLE_", numbered(&["CORE", "ROUND"])),
        ("AGREEMENT_", from_one(&["RECORD", "ROW", "SAME"])),
        ("CORE_", core_columns()),
        ("ROUND_", round_columns()),
        ("MONTH_", month_words()),
    ] {
        all.extend(
            names
                .into_iter()
                .map(|(name, number)| (prefix.to_string() + &name, number)),
        );
    }
    assert_eq!(interface::header_numbers(), all);
    assert_eq!(keccak::MAX_TUPLE_LENGTH, keccak_rnd::MAX_TUPLE_LENGTH);
}

/// The kinds of verdict in the order of their numbers, which begin at 1; `verdict.rs` reads them by these.
const VERDICTS: [&str; 7] = [
    "CORE_VALUE",
    "CORE_LOOKUP",
    "TIMESTAMP",
    "ROUND_VALUE",
    "ROUND_LOOKUP",
    "BALANCE",
    "HOLDS",
];

/// Kinds of which 0 is none.
fn from_one(names: &[&str]) -> Vec<(String, u64)> {
    names.iter().map(|name| name.to_string()).zip(1..).collect()
}

fn numbered(names: &[&str]) -> Vec<(String, u64)> {
    names.iter().map(|name| name.to_string()).zip(0..).collect()
}

/// `IsB20` as `IS_B20`.
fn capitals(name: &str) -> String {
    let mut capitals = String::new();
    for letter in name.chars() {
        if letter.is_uppercase() && !capitals.is_empty() {
            capitals.push('_');
        }
        capitals.push(letter.to_ascii_uppercase());
    }
    capitals
}

fn refusals() -> Vec<(String, u64)> {
    let argument = "any";
    let refusals = [
        ("PAST_END", Refusal::PastEnd { argument, limit: 0 }),
        (
            "NOT_WHOLE",
            Refusal::NotWhole {
                argument,
                which: Lent::Core,
            },
        ),
        ("TOO_SHORT", Refusal::TooShort { argument, needed: 0 }),
        ("HIGH_ADDRESS", Refusal::HighAddress { address: 0 }),
        ("NOT_ELEMENT", Refusal::NotElement { argument, place: 0 }),
        ("BAD_RECORD", Refusal::BadRecord { start: 0 }),
        ("UNALIGNED", Refusal::Unaligned { address: 0 }),
        ("ROUNDS", Refusal::Rounds { rounds: 0 }),
        ("FLOOR", Refusal::Floor { floor: 0 }),
        ("REGISTER", Refusal::Register { register: 0 }),
        ("SEGMENT", Refusal::Segment { word: 0 }),
        ("LONG_MESSAGE", Refusal::LongMessage { length: 0 }),
        ("LATE_TIMESTAMP", Refusal::LateTimestamp { timestamp: 0 }),
        ("FILES", Refusal::Files { files: 0 }),
    ];
    let none = [("NONE".to_string(), 0)];
    none.into_iter()
        .chain(refusals.map(|(name, refusal)| (name.to_string(), refusal.number())))
        .collect()
}

fn lent((name, which): (&str, Lent)) -> (String, u64) {
    let argument = "any";
    (name.to_string(), Refusal::NotWhole { argument, which }.detail())
}

fn kinds() -> Vec<(String, u64)> {
    let kinds = bitwise::BitwiseOperationType::ALL.map(|kind| {
        let name = capitals(&format!("{kind:?}"));
        assert_eq!(kind.name(), name.trim_start_matches("BYTE_ALU_"));
        (kind.name().to_string(), kind.number() as u64)
    });
    kinds.to_vec()
}

/// Columns by name.
macro_rules! columns {
    ($cols:path, $($name:ident)*) => {{
        use $cols as cols;
        vec![$((stringify!($name).to_string(), cols::$name as u64)),*]
    }};
}

fn month_words() -> Vec<(String, u64)> {
    columns!(month::words, FILES OPERATIONS USED_ROWS PADDING_ROWS FULLEST_USED FULLEST_TOTAL EMPTIEST_USED EMPTIEST_TOTAL HEIGHTS SHOWN)
}

fn core_columns() -> Vec<(String, u64)> {
    columns!(keccak::cols, TIMESTAMP_0 TIMESTAMP_1 ADDR INPUT_STATE OUTPUT_STATE STATE_PTR MU)
}

fn round_columns() -> Vec<(String, u64)> {
    columns!(keccak_rnd::cols, TIMESTAMP_0 TIMESTAMP_1 ROUND START CXZ CXZ_LEFT CXZ_RIGHT DXZ THETA ROT_LEFT ROT_RIGHT CHI_ANDS CHI RC
        IOTA MU)
}

/// A C compiler with the header's folder and a source; none where there is no such compiler.
fn compiler(name: &str, standard: &str) -> Option<Command> {
    let mut command = Command::new(name);
    match command.arg("--version").output() {
        Err(error) if error.kind() == ErrorKind::NotFound => {
            eprintln!("there is no program {name} on the PATH: the header is not tried with it");
            return None;
        }
        answer => assert!(answer.expect("a compiler can be run").status.success()),
    }
    let mut command = Command::new(name);
    command.args([
        standard,
        "-O1",
        "-pedantic",
        "-Wall",
        "-Wextra",
        "-Wconversion",
        "-Werror",
        "-I",
    ]);
    command.arg(interface::root().join("include"));
    Some(command)
}

/// An answer that is dropped is an error where warnings are; and C++ takes the header too.
#[test]
fn a_dropped_answer_is_told() {
    let folder = Path::new(env!("CARGO_TARGET_TMPDIR"));
    for (name, standard, language) in [("cc", "-std=c11", "c"), ("c++", "-std=c++17", "c++")] {
        for (call, fine) in [
            ("return keccak_tables_keccak_height(4, 1).value != 4", true),
            ("keccak_tables_keccak_height(4, 1)", false),
        ] {
            let Some(mut compiler) = compiler(name, standard) else {
                return;
            };
            let source = folder.join(format!("dropped-{name}-{fine}.c"));
            std::fs::write(
                &source,
                format!("#include \"keccak_tables.h\"\nint main(void) {{ {call}; }}\n"),
            )
            .expect("a file");
            let compiled = compiler
                .args(["-x", language, "-c", "-o", "/dev/null"])
                .arg(&source)
                .output()
                .expect("it can be run");
            let said = String::from_utf8_lossy(&compiled.stderr);
            assert_eq!(compiled.status.success(), fine, "{name}: {said}");
            assert!(fine || said.contains("unused"), "{name}: {said}");
        }
    }
}

/// Compiles and runs a program beside this file, which prints the name of each function that it calls, and fails where an answer is
/// wrong: it calls them all. Without a C compiler there is nothing to run.
fn calls_every_function(name: &str, standard: &str) {
    let program = Path::new(env!("CARGO_TARGET_TMPDIR")).join(name);
    let Some(mut compiler) = compiler("cc", standard) else {
        return;
    };
    let compiled = compiler
        .arg(interface::root().join("host/tests").join(format!("{name}.c")))
        .arg(interface::archive())
        .arg("-o")
        .arg(&program)
        .output()
        .expect("cc can be run");
    assert!(
        compiled.status.success(),
        "{}",
        String::from_utf8_lossy(&compiled.stderr)
    );

    let run = Command::new(&program).output().expect("the program can be run");
    assert!(run.status.success(), "{}", String::from_utf8_lossy(&run.stderr));
    let mut called: Vec<String> = String::from_utf8_lossy(&run.stdout).lines().map(String::from).collect();
    called.sort();
    called.dedup();
    let prototypes: Vec<String> = interface::prototypes().into_keys().collect();
    assert_eq!(called, prototypes);
}

#[test]
fn a_program_in_c_calls_every_function() {
    calls_every_function("every_call", "-std=c11");
}

/// Of words of zeros, of a refusal and of a failure nothing reads as good, and of a good answer its third word does.
#[test]
fn a_program_in_c_reads_every_answer_by_its_third_word() {
    calls_every_function("answers", "-std=c99");
}
