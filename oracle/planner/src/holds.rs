//! A year's holding time by the rules (RULES, section 21), from a whole text: it is split at its
//! newlines, and the sums are exact. Written apart from the definitions and from what is proved.

pub mod fed;
pub mod years;

use std::fmt::Write;

/// The most lines that a year has.
pub const LINES: usize = 100_000;

pub const CREWS: usize = 64;

/// The refusals by their names (RULES 4.16, 4.17).
pub const LINE: u8 = 14;
pub const OVERFLOW: u8 = 15;

/// What a line says. The round's number is read, and no report speaks of it.
#[derive(Clone, Copy, Debug, PartialEq)]
pub struct Held {
    pub crew: usize,
    pub round: u32,
    pub hold: i64,
}

/// What a line says; none where it is malformed (RULES 21.1 to 21.4).
pub fn held(line: &[u8]) -> Option<Held> {
    let text = std::str::from_utf8(line).ok()?;
    let fields: Vec<&str> = text.split(' ').collect();
    let [crew, round, hold] = fields[..] else {
        return None;
    };
    let crew: usize = number(crew)?;
    Some(Held {
        crew: Some(crew).filter(|crew| *crew < CREWS)?,
        round: number(round)?,
        hold: signed(hold)?,
    })
}

/// The number of a decimal, where its type has it (RULES 21.2).
fn number<T: std::str::FromStr>(digits: &str) -> Option<T> {
    let form = match digits.as_bytes() {
        [only] => only.is_ascii_digit(),
        [first, ..] => *first != b'0' && digits.bytes().all(|b| b.is_ascii_digit()),
        [] => false,
    };
    digits.parse().ok().filter(|_| form)
}

/// A decimal, or one above zero behind a minus sign (RULES 21.3).
fn signed(digits: &str) -> Option<i64> {
    match digits.strip_prefix('-') {
        Some(size) => {
            let size: u64 = number(size)?;
            i64::try_from(-i128::from(size)).ok().filter(|n| *n < 0)
        }
        None => number(digits),
    }
}

/// What a crew's rounds lost.
#[derive(Clone, Copy, Debug, Default, PartialEq)]
pub struct Crew {
    pub rounds: usize,
    pub total: i128,
    /// Of one with rounds.
    pub largest: i64,
}

/// The lines that were taken.
#[derive(Clone, Debug, PartialEq)]
pub struct Year {
    pub lines: usize,
    pub crews: [Crew; CREWS],
}

impl Default for Year {
    fn default() -> Self {
        Year {
            lines: 0,
            crews: [Crew::default(); CREWS],
        }
    }
}

impl Year {
    /// Takes one line more, or says by which number it is refused (RULES 21.5, 21.6).
    pub fn take(&mut self, line: &[u8]) -> Result<(), u8> {
        if self.lines == LINES {
            return Err(LINE);
        }
        let Held { crew, hold, .. } = held(line).ok_or(LINE)?;
        let before = &mut self.crews[crew];
        let total = before.total + i128::from(hold);
        i64::try_from(total).map_err(|_| OVERFLOW)?;
        *before = Crew {
            rounds: before.rounds + 1,
            total,
            largest: match before.rounds {
                0 => hold,
                _ => hold.max(before.largest),
            },
        };
        self.lines += 1;
        Ok(())
    }

    /// The lines of the report (RULES 21.8 to 21.10).
    pub fn report(&self) -> String {
        let mut text = format!("ok {}\n", self.lines);
        for (number, crew) in self.crews.iter().enumerate() {
            // writing to a String cannot fail
            let _ = match crew.rounds as i128 {
                0 => writeln!(text, "crew {number} 0 0"),
                rounds => writeln!(
                    text,
                    "crew {number} {rounds} {} {} {} {}",
                    crew.total,
                    crew.largest,
                    crew.total.div_euclid(rounds),
                    crew.total.rem_euclid(rounds)
                ),
            };
        }
        text
    }
}

/// The lines of a text; the last may lack its newline (RULES 21.1).
pub fn lines(text: &[u8]) -> Vec<&[u8]> {
    let mut lines: Vec<&[u8]> = text.split(|b| *b == b'\n').collect();
    if lines.last().is_some_and(|last| last.is_empty()) {
        lines.pop();
    }
    lines
}

/// A whole text, taken line by line: the first line that is refused decides (RULES 21.6).
pub fn year(text: &[u8]) -> Result<Year, u8> {
    let mut year = Year::default();
    for line in lines(text) {
        year.take(line)?;
    }
    Ok(year)
}

/// What is printed for a text.
pub fn reply(text: &[u8]) -> String {
    match year(text) {
        Ok(year) => year.report(),
        Err(number) => format!("refused {number}\n"),
    }
}
