//! The options before a command's files.

use std::ffi::{OsStr, OsString};

use super::Failure;
use keccak_tables::{Parameters, keccak_rnd};

/// Options that have a number behind them, and those that have a file's name.
const NUMBERED: [&str; 5] = ["--rounds", "--floor", "--most", "--register", "--challenge"];
const NAMED: [&str; 2] = ["--ledgers", "--svg"];

/// What an option says: that it is there, a number or a file's name.
#[derive(Debug, Clone, Copy, PartialEq, Eq)]
enum Value<'a> {
    Flag,
    Number(u64),
    Name(&'a OsStr),
}

/// The options of a run, each once at most.
pub struct Options<'a>(Vec<(&'static str, Value<'a>)>);

impl<'a> Options<'a> {
    /// Those of the options that a command takes, in any order, and what stands behind them. A word that is wrong is named.
    pub fn read(
        command: &str,
        takes: &[&'static str],
        arguments: &'a [OsString],
    ) -> Result<(Self, &'a [OsString]), Failure> {
        let (mut options, mut files) = (Self(Vec::new()), arguments);
        while let [option, behind @ ..] = files {
            let Some(&name) = takes.iter().find(|&name| option == name) else {
                break;
            };
            let (value, behind) = value_of(name, behind).map_err(|words| wrong(command, &words))?;
            if options.has(name) {
                return Err(wrong(command, &format!("{name} stands twice")));
            }
            options.0.push((name, value));
            files = behind;
        }
        match files.first().filter(|word| is_option(word)) {
            Some(word) => Err(wrong(command, &format!("there is no option {}", word.display()))),
            None => Ok((options, files)),
        }
    }

    fn value(&self, name: &str) -> Option<Value<'a>> {
        let found = self.0.iter().find(|(other, _)| *other == name);
        found.map(|&(_, value)| value)
    }

    pub fn has(&self, name: &str) -> bool {
        self.value(name).is_some()
    }

    pub fn number(&self, name: &str) -> Option<u64> {
        match self.value(name) {
            Some(Value::Number(number)) => Some(number),
            _ => None,
        }
    }

    pub fn word(&self, name: &str) -> Option<&'a OsStr> {
        match self.value(name) {
            Some(Value::Name(word)) => Some(word),
            _ => None,
        }
    }

    /// What is wanted of the tables. Rounds that are refused are so before any file is read, and then a floor.
    pub fn parameters(&self) -> Result<Parameters, Failure> {
        let mut parameters = Parameters::default();
        if self.has("--shipped") {
            parameters = parameters.shipped();
        }
        if let Some(rounds) = self.number("--rounds") {
            parameters = parameters.rounds(rounds);
        }
        if let Some(floor) = self.number("--floor") {
            parameters = parameters.floor(floor);
        }
        // The height of a table without operations is refused for no other reason.
        keccak_rnd::keccak_rnd_height_with(parameters, 0).map_err(Failure::Refused)?;
        Ok(parameters)
    }
}

/// Whether a word is written as an option. A file of such a name is told as ./NAME.
pub fn is_option(word: &OsStr) -> bool {
    word.as_encoded_bytes().starts_with(b"--")
}

fn wrong(command: &str, words: &str) -> Failure {
    Failure::Usage(format!("{command}: {words}"))
}

/// What the words behind an option make of it, and what is behind them.
fn value_of<'a>(name: &str, behind: &'a [OsString]) -> Result<(Value<'a>, &'a [OsString]), String> {
    let (numbered, named) = (NUMBERED.contains(&name), NAMED.contains(&name));
    match behind {
        [value, behind @ ..] if numbered => match value.to_str().and_then(number) {
            Some(number) => Ok((Value::Number(number), behind)),
            None => Err(format!(
                "behind {name} stands `{}`, which is no decimal below 2^64",
                value.display()
            )),
        },
        [value, behind @ ..] if named => Ok((Value::Name(value), behind)),
        [] if numbered => Err(format!("behind {name} a number is missing")),
        [] if named => Err(format!("behind {name} a file is missing")),
        _ => Ok((Value::Flag, behind)),
    }
}

/// A decimal below 2^64.
pub fn number(word: &str) -> Option<u64> {
    let digits = word.bytes().all(|byte| byte.is_ascii_digit());
    word.parse().ok().filter(|_| digits)
}

#[cfg(test)]
mod tests {
    use super::*;

    /// The names and numbers that are read, 0 where there is none, and how many arguments are left.
    fn read(arguments: &[&str]) -> Option<(Vec<(&'static str, u64)>, usize)> {
        let arguments: Vec<OsString> = arguments.iter().map(OsString::from).collect();
        let (options, files) = Options::read("any", &["--rounds", "--floor", "--shipped"], &arguments).ok()?;
        let numbers = options.0.iter().map(|&(name, value)| match value {
            Value::Number(number) => (name, number),
            _ => (name, 0),
        });
        Some((numbers.collect(), files.len()))
    }

    #[test]
    fn a_name_stands_behind_its_option() {
        let arguments = ["--ledgers", "--register", "--register", "007", "a"].map(OsString::from);
        let (options, files) = Options::read("any", &["--register", "--ledgers"], &arguments).expect("options");
        assert_eq!(options.word("--ledgers"), Some(OsStr::new("--register")));
        assert_eq!(
            (options.number("--register"), options.number("--ledgers")),
            (Some(7), None)
        );
        assert_eq!((options.word("--register"), files.len()), (None, 1));
        for wrong in [
            &["--ledgers"][..],
            &["--ledgers", "a", "--ledgers", "b"],
            &["--register", "a"],
        ] {
            let arguments: Vec<OsString> = wrong.iter().map(OsString::from).collect();
            assert!(
                Options::read("any", &["--register", "--ledgers"], &arguments).is_err(),
                "{wrong:?}"
            );
        }
    }

    #[test]
    fn options_stand_before_the_files_each_once() {
        assert_eq!(read(&["a", "--shipped"]), Some((vec![], 2)));
        assert_eq!(read(&["--shipped", "a"]), Some((vec![("--shipped", 0)], 1)));
        let both = |rounds| Some((vec![("--rounds", rounds), ("--shipped", 0)], 1));
        assert_eq!(read(&["--rounds", "012", "--shipped", "a"]), both(12));
        let most = u64::MAX.to_string();
        assert_eq!(read(&["--rounds", &most, "--shipped", "a"]), both(u64::MAX));
        let numbers = |floor, rounds| Some((vec![("--floor", floor), ("--rounds", rounds)], 2));
        assert_eq!(read(&["--floor", "0008", "--rounds", "4", "a", "b"]), numbers(8, 4));
        assert_eq!(read(&["--floor", "0", "--rounds", "99", "-", "a"]), numbers(0, 99));
        // A file may be called so all the same.
        assert_eq!(read(&["./--all", "a"]), Some((vec![], 2)));
        for wrong in [
            &["--rounds"][..],
            &["--all", "a"],
            &["--floor", "0", "--rounds", "99", "--all", "a"],
            &["--rounds", "--shipped", "a"],
            &["--rounds", "", "a"],
            &["--rounds", "+1", "a"],
            &["--rounds", "-1", "a"],
            &["--rounds", "1.0", "a"],
            &["--rounds", "0x1", "a"],
            &["--rounds", "18446744073709551616", "a"],
            &["--rounds", "1", "--rounds", "1", "a"],
            &["--floor"],
            &["--floor", "a"],
            &["--floor", "", "a"],
            &["--floor", "4 ", "a"],
            &["--floor", "--rounds", "1", "a"],
            &["--floor", "18446744073709551616", "a"],
            &["--floor", "4", "--shipped", "--floor", "8", "a"],
            &["--shipped", "--shipped", "a"],
        ] {
            assert_eq!(read(wrong), None, "{wrong:?}");
        }
    }
}
