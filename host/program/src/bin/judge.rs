//! `judge CORE ROUND`, which is `keccak-tables judge CORE ROUND`.

use std::process::ExitCode;

#[global_allocator]
static MEMORY: program::Memory = program::Memory;

fn main() -> ExitCode {
    program::main(program::run_judge)
}
