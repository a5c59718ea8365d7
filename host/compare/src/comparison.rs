//! A run: counts the calls that were tried and the words compared, tells each difference, and says per group what was compared.

use std::collections::{BTreeMap, BTreeSet};
use std::process::ExitCode;

use crate::say;
use keccak_tables::Refusal;

/// A differential run.
#[derive(Default)]
pub struct Comparison {
    /// Whether the first difference ends the program.
    ends: bool,
    group: Option<Group>,
    calls: u64,
    words: u64,
    differences: u64,
    tried: BTreeMap<&'static str, BTreeSet<u64>>,
}

struct Group {
    name: String,
    calls: u64,
    items: u64,
    words: u64,
}

impl Comparison {
    /// A run that ends the program, with exit status 1, at the first difference.
    pub fn to_the_first_difference() -> Self {
        Self {
            ends: true,
            ..Self::default()
        }
    }

    /// Begins a group of comparisons.
    pub fn group(&mut self, name: impl Into<String>) {
        self.end_group();
        self.group = Some(Group {
            name: name.into(),
            calls: 0,
            items: 0,
            words: 0,
        });
    }

    /// Notes that one of our calls was tried on an input.
    pub fn called(&mut self) {
        self.group.as_mut().expect("a call belongs to a group").calls += 1;
    }

    /// Ours and theirs are to be equal. `input` names the input, given the place of the first word that differs.
    pub fn equal(&mut self, input: impl FnOnce(usize) -> String, ours: &[u64], theirs: &[u64]) {
        let group = self.group.as_mut().expect("a comparison belongs to a group");
        group.items += 1;
        group.words += theirs.len() as u64;
        if ours == theirs {
            return;
        }
        let place = (0..ours.len().max(theirs.len()))
            .find(|&place| ours.get(place) != theirs.get(place))
            .expect("the two differ");
        say!(
            "DIFFERENCE in '{}': word {place} is {}, expected {}; {}",
            group.name,
            shown(ours.get(place)),
            shown(theirs.get(place)),
            input(place)
        );
        self.differences += 1;
        if self.ends {
            self.end_group();
            self.say_what_was_compared();
            std::process::exit(1);
        }
    }

    /// A call is to do its work.
    pub fn done<T>(&mut self, input: impl FnOnce() -> String, answer: Result<T, Refusal>) -> Option<T> {
        let (number, detail) = numbers(&answer);
        self.called();
        self.equal(|_| input(), &[number, detail], &[0, 0]);
        answer.ok()
    }

    /// A call is to be refused with this number and detail.
    pub fn refused<T>(&mut self, input: impl FnOnce() -> String, answer: Result<T, Refusal>, number: u64, detail: u64) {
        let (ours, our_detail) = numbers(&answer);
        self.called();
        self.equal(|_| input(), &[ours, our_detail], &[number, detail]);
    }

    /// A call is to be refused with the number and detail of `expected`, or else to do its work. The number is noted.
    pub fn answered<T>(
        &mut self,
        call: &'static str,
        input: impl FnOnce() -> String,
        answer: Result<T, Refusal>,
        expected: Option<(u64, u64)>,
    ) {
        let (number, detail) = expected.unwrap_or((0, 0));
        self.tried.entry(call).or_default().insert(number);
        self.refused(input, answer, number, detail);
    }

    /// The numbers with which a call was to be refused so far, 0 where it was to do its work.
    pub fn numbers_tried(&self, call: &str) -> Vec<u64> {
        self.tried.get(call).into_iter().flatten().copied().collect()
    }

    /// How many comparisons found a difference.
    pub fn differences(&self) -> u64 {
        self.differences
    }

    /// Ends the run: the last lines say how many calls were tried, and how much was compared.
    pub fn finish(mut self) -> ExitCode {
        self.end_group();
        self.say_what_was_compared();
        if self.differences == 0 {
            ExitCode::SUCCESS
        } else {
            ExitCode::FAILURE
        }
    }

    fn say_what_was_compared(&self) {
        say!("tried {} calls", self.calls);
        say!("compared {} words, {} differences", self.words, self.differences);
    }

    fn end_group(&mut self) {
        if let Some(group) = self.group.take() {
            self.calls += group.calls;
            self.words += group.words;
            say!(
                "{}: {} calls, {} comparisons, {} words",
                group.name,
                group.calls,
                group.items,
                group.words
            );
        }
    }
}

/// Number and detail of an answer, 0 and 0 where the call did its work.
fn numbers<T>(answer: &Result<T, Refusal>) -> (u64, u64) {
    match answer {
        Ok(_) => (0, 0),
        Err(refusal) => (refusal.number(), refusal.detail()),
    }
}

fn shown(word: Option<&u64>) -> String {
    word.map_or_else(|| "missing".into(), u64::to_string)
}

#[cfg(test)]
mod tests {
    use super::*;

    fn run(check: impl FnOnce(&mut Comparison)) -> (u64, u64) {
        let mut comparison = Comparison::default();
        comparison.group("test");
        check(&mut comparison);
        comparison.end_group();
        (comparison.words, comparison.differences)
    }

    #[test]
    fn unequal_words_and_lengths_are_differences() {
        let input = |_| "test".to_string();
        assert_eq!(run(|c| c.equal(input, &[1, 2], &[1, 2])), (2, 0));
        assert_eq!(run(|c| c.equal(input, &[1, 2], &[1, 3])), (2, 1));
        assert_eq!(run(|c| c.equal(input, &[1], &[1, 3])), (2, 1));
        assert_eq!(run(|c| c.equal(input, &[1, 3], &[1])), (1, 1));
    }

    #[test]
    fn a_refusal_is_its_number_and_its_detail() {
        let input = || "test".to_string();
        let refusal = Refusal::PastEnd {
            argument: "kind",
            limit: 10,
        };
        assert_eq!(run(|c| c.refused(input, Err::<(), _>(refusal), 1, 10)), (2, 0));
        assert_eq!(run(|c| c.refused(input, Err::<(), _>(refusal), 1, 16)), (2, 1));
        assert_eq!(run(|c| c.refused(input, Ok(()), 1, 10)), (2, 1));
        assert_eq!(
            run(|c| c.done(input, Err::<(), _>(refusal)).map_or((), |()| ())),
            (2, 1)
        );
    }
}
