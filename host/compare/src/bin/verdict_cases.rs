//! The lines of `crates/verdict_cases/stdout`, from the judge of `compare` over the published Rust's tables.

fn main() {
    for line in compare::cases::lines() {
        println!("{line}");
    }
}
