//! Texts of numbers: on each line as many decimals as are asked for.

use std::fs::File;
use std::io::{self, Read};
use std::path::Path;

use super::{Failure, files};

/// The most bytes of such a text: 16 MiB.
const MOST: u64 = 1 << 24;

/// The numbers of a text, so many on each line.
pub fn numbers(path: &Path, file: io::Result<File>, each: usize) -> Result<Vec<u64>, Failure> {
    file.and_then(|mut file| numbers_of(&mut file, each))
        .map_err(Failure::file(path))
}

/// The same of what is open.
pub fn numbers_of(input: &mut dyn Read, each: usize) -> io::Result<Vec<u64>> {
    let (text, mut numbers) = (text(input)?, Vec::new());
    let lines = text.strip_suffix(b"\n").unwrap_or(&text);
    for (at, line) in lines.split(|&byte| byte == b'\n').enumerate() {
        if text.is_empty() {
            break;
        }
        files::reserve(&mut numbers, each)?;
        let words = line.split(u8::is_ascii_whitespace).filter(|word| !word.is_empty());
        let mut count = 0;
        let fits = words.map(number).all(|found| {
            count += 1;
            found
                .filter(|_| count <= each)
                .map(|found| numbers.push(found))
                .is_some()
        });
        if !fits || count != each {
            let line = String::from_utf8_lossy(line.trim_ascii());
            let what = if each == 1 {
                "no decimal number"
            } else {
                "not two decimal numbers"
            };
            return Err(io::Error::other(format!("line {}: `{line}` is {what}", at + 1)));
        }
    }
    Ok(numbers)
}

fn text(input: &mut dyn Read) -> io::Result<Vec<u8>> {
    let (mut text, mut buffer) = (Vec::new(), [0; files::PIECE_BYTES]);
    loop {
        let got = files::fill(input, &mut buffer)?;
        files::reserve(&mut text, got)?;
        text.extend_from_slice(&buffer[..got]);
        if text.len() as u64 > MOST {
            return Err(io::Error::other(format!(
                "it goes on after {MOST} bytes, the most that such a text has"
            )));
        }
        if got < buffer.len() {
            return Ok(text);
        }
    }
}

/// A decimal; one that is no word is past every limit, as the largest word is.
fn number(word: &[u8]) -> Option<u64> {
    let digits = !word.is_empty() && word.iter().all(u8::is_ascii_digit);
    let number = str::from_utf8(word).ok().filter(|_| digits)?;
    Some(number.parse().unwrap_or(u64::MAX))
}
