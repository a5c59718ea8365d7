//! The command-line program: `keccak-tables help` tells its commands.

use std::process::ExitCode;

#[global_allocator]
static MEMORY: program::Memory = program::Memory;

fn main() -> ExitCode {
    program::main(program::run)
}
