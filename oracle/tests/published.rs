//! The compiled files are those of yetanotherco/lambda_vm 6337e5d56e, byte for byte.

use std::fs;
use std::path::Path;

/// The files and the FNV-1a checksums (64 bits) of their bytes.
const FILES: [(&str, u64); 7] = [
    ("constraints/templates.rs", 0xDF2C00B95B9AA484),
    ("tables/bitwise.rs", 0x58D6AC65495C08C5),
    ("tables/is_wh.rs", 0x454465A4931E4230),
    ("tables/keccak.rs", 0xD49A174A786F727B),
    ("tables/keccak_rc.rs", 0xA5EA923672A4B81C),
    ("tables/keccak_rnd.rs", 0x150B66C6F9294DB7),
    ("tables/types.rs", 0x431975E12F0EFB4F),
];

fn fnv_1a(bytes: &[u8]) -> u64 {
    bytes.iter().fold(0xCBF2_9CE4_8422_2325, |sum, &byte| {
        (sum ^ u64::from(byte)).wrapping_mul(0x100_0000_01B3)
    })
}

#[test]
fn the_files_are_as_published() {
    for (name, checksum) in FILES {
        let file = Path::new(env!("KECCAK_RUST_FOUND")).join("prover/src").join(name);
        let bytes = fs::read(&file).unwrap_or_else(|error| panic!("{}: {error}", file.display()));
        assert_eq!(fnv_1a(&bytes), checksum, "{name} is not the published file");
    }
}
