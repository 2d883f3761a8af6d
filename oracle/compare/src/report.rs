//! What a comparison ran, and where the two sides differed.

use crate::room::Handed;
use std::collections::BTreeMap;
use std::fmt;

/// How many differences are told in full.
const TOLD: usize = 10;

/// How many calls ended in each number.
type Ends = BTreeMap<u64, usize>;

#[derive(Default)]
pub struct Report {
    ends: BTreeMap<&'static str, Ends>,
    seen: BTreeMap<&'static str, usize>,
    differing: usize,
    told: Vec<String>,
}

impl Report {
    /// One call, by what it handed over and what it was to hand over.
    pub fn add(
        &mut self,
        call: &'static str,
        handed: &Handed,
        expected: &Handed,
        about: impl FnOnce() -> String,
    ) {
        *self
            .ends
            .entry(call)
            .or_default()
            .entry(expected.number)
            .or_default() += 1;
        self.hold(handed == expected, || {
            format!("{}: handed {handed:x?}, expected {expected:x?}", about())
        });
    }

    /// A difference unless `same`.
    pub fn hold(&mut self, same: bool, about: impl FnOnce() -> String) {
        if same {
            return;
        }
        self.differing += 1;
        if self.told.len() < TOLD {
            self.told.push(about());
        }
    }

    /// Counts one answer of a sort that a run should have often.
    pub fn see(&mut self, sort: &'static str) {
        self.see_if(sort, true);
    }

    /// The same where it is of that sort; one that never came is told too.
    pub fn see_if(&mut self, sort: &'static str, is: bool) {
        *self.seen.entry(sort).or_default() += usize::from(is);
    }

    pub fn differing(&self) -> usize {
        self.differing
    }

    fn in_all(&self) -> Ends {
        let mut all = Ends::new();
        for (number, count) in self.ends.values().flatten() {
            *all.entry(*number).or_default() += count;
        }
        all
    }
}

fn tell(f: &mut fmt::Formatter<'_>, call: &str, ends: &Ends) -> fmt::Result {
    let calls: usize = ends.values().sum();
    write!(f, "  {call}: {calls} calls")?;
    for (number, count) in ends {
        match number {
            0 => write!(f, ", answered {count}")?,
            n => write!(f, ", refused {n} {count}")?,
        }
    }
    writeln!(f)
}

impl fmt::Display for Report {
    fn fmt(&self, f: &mut fmt::Formatter<'_>) -> fmt::Result {
        for (call, ends) in &self.ends {
            tell(f, call, ends)?;
        }
        if self.ends.len() > 1 {
            tell(f, "in all", &self.in_all())?;
        }
        for (sort, count) in &self.seen {
            writeln!(f, "  seen: {sort} {count}")?;
        }
        self.told
            .iter()
            .try_for_each(|told| writeln!(f, "  DIFFERS {told}"))
    }
}

#[cfg(test)]
mod tests {
    use super::Report;
    use crate::room::{lend, Expected, Handed};

    /// What is reported of a call that is to answer the words 1 and 2 in a buffer of three.
    fn reported(call: impl FnOnce(&mut [u64]) -> u64) -> Report {
        let mut report = Report::default();
        let handed = lend(3, call);
        let expected = Expected::Words(vec![1, 2]).in_room(3);
        report.add("a call", &handed, &expected, || "it".to_string());
        report
    }

    fn answer(out: &mut [u64], words: [u64; 3]) -> u64 {
        out.copy_from_slice(&words);
        0
    }

    #[test]
    fn the_right_answer_does_not_differ() {
        assert_eq!(reported(|out| answer(out, [1, 2, 0])).differing(), 0);
    }

    #[test]
    fn one_other_bit_differs() {
        assert_eq!(reported(|out| answer(out, [1, 3, 0])).differing(), 1);
    }

    #[test]
    fn a_word_left_behind_the_answer_differs() {
        assert_eq!(reported(|out| answer(out, [1, 2, 9])).differing(), 1);
    }

    #[test]
    fn an_untouched_buffer_differs() {
        assert_eq!(reported(|_| 0).differing(), 1);
    }

    #[test]
    fn another_number_differs_and_is_told() {
        let report = reported(|out| answer(out, [1, 2, 0]) + 7);
        assert_eq!(report.differing(), 1);
        assert!(report.to_string().contains("DIFFERS it: handed"));
    }

    #[test]
    fn a_refusal_with_words_left_differs() {
        let mut report = Report::default();
        let handed = Handed {
            number: 2,
            room: vec![5, 0],
        };
        report.add("a call", &handed, &Expected::Refused(2).in_room(2), || {
            String::new()
        });
        assert_eq!(report.differing(), 1);
    }
}
