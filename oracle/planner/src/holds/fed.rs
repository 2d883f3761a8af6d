//! A year of which some parts have come, and the words that the lent memory has then (RULES 21.11,
//! 21.12).

use super::{number, Crew, Year, CREWS, LINE};

/// How many words a year has: five, and three for each crew.
pub const WORDS: usize = 5 + 3 * CREWS;

/// The first word of a year that was begun.
const BEGUN: u64 = 1;

/// The lines that ended, the crews' words for them, and the bytes of the line that did not end yet.
#[derive(Clone, Debug)]
pub struct Fed {
    year: Year,
    crews: Vec<u64>,
    open: Vec<u8>,
}

impl Default for Fed {
    fn default() -> Self {
        Fed {
            year: Year::default(),
            crews: vec![0; 3 * CREWS],
            open: Vec::new(),
        }
    }
}

impl Fed {
    /// Takes a part, or says by which number the text is refused: at the line that decides, or as
    /// soon as an open line can no longer become one.
    pub fn feed(&mut self, part: &[u8]) -> Result<(), u8> {
        let mut pieces = part.split(|b| *b == b'\n');
        self.open.extend(pieces.next().unwrap_or_default());
        let mut ended = false;
        for piece in pieces {
            self.year.take(&self.open)?;
            self.open = piece.to_vec();
            ended = true;
        }
        if ended {
            self.crews = self.year.crews.iter().flat_map(figures).collect();
        }
        place(&self.open).map(|_| ()).ok_or(LINE)
    }

    /// The year where the text ends here.
    pub fn finish(&self) -> Result<Year, u8> {
        let mut year = self.year.clone();
        if !self.open.is_empty() {
            year.take(&self.open)?;
        }
        Ok(year)
    }

    /// The words of the memory; none where the year was refused.
    pub fn words(&self) -> Option<Vec<u64>> {
        let mut words = vec![BEGUN, self.year.lines as u64];
        words.extend(place(&self.open)?);
        words.extend(&self.crews);
        Some(words)
    }
}

/// The place in an open line: its kind, the crew where that is known, and the number so far. None
/// where no line begins so.
fn place(open: &[u8]) -> Option<[u64; 3]> {
    let text = std::str::from_utf8(open).ok()?;
    let fields: Vec<&str> = text.split(' ').collect();
    let crew = || up_to(63, fields[0]);
    let round = |digits| up_to(u64::from(u32::MAX), digits);
    match fields[..] {
        [""] => Some([0, 0, 0]),
        [digits] => Some([1, 0, up_to(63, digits)?]),
        [_, ""] => Some([2, crew()?, 0]),
        [_, digits] => Some([3, crew()?, round(digits)?]),
        [_, before, ""] => round(before).and(Some([4, crew()?, 0])),
        [_, before, "-"] => round(before).and(Some([5, crew()?, 0])),
        [_, before, hold] => {
            let (kind, number) = match hold.strip_prefix('-') {
                Some(size) => (7, up_to(1 << 63, size).filter(|n| *n > 0)?),
                None => (6, up_to(i64::MAX as u64, hold)?),
            };
            round(before).and(Some([kind, crew()?, number]))
        }
        _ => None,
    }
}

fn up_to(most: u64, digits: &str) -> Option<u64> {
    number(digits).filter(|n| *n <= most)
}

/// The rounds, and the total and the largest raised by 2^63; of a crew without rounds zeros.
fn figures(crew: &Crew) -> [u64; 3] {
    let raised = |n: i128| (n + (1 << 63)) as u64;
    match crew.rounds {
        0 => [0; 3],
        rounds => [
            rounds as u64,
            raised(crew.total),
            raised(crew.largest.into()),
        ],
    }
}
