//! A lent room and what must stand in it: the number handed back and every word are compared.

use planner::generate::dice::Dice;
use terms::Fault;

/// What a call is to hand over: an answer's words, or the number of a refusal.
#[derive(Clone, Debug, PartialEq)]
pub enum Expected<L = Vec<u64>> {
    Words(L),
    Refused(u64),
}

/// The words for two rooms.
pub type Lists = [Vec<u64>; 2];

/// What a call handed over; of two rooms the second stands behind the first.
#[derive(Clone, Debug, PartialEq)]
pub struct Handed {
    pub number: u64,
    pub room: Vec<u64>,
}

const NO_ROOM: u64 = 12;

/// A call that is refused after some work may have put its first results into so many words.
const CLEARED: usize = 20;

impl<L> Expected<L> {
    /// The refusal in the place of a fault of the Rust's; a number that none has, where the rules
    /// name none.
    pub fn fault(fault: &Fault) -> Self {
        Expected::Refused(fault.number().map_or(u64::MAX, u64::from))
    }
}

impl Expected {
    /// A room that suits it: for an answer its own words, for a refusal some that it must clear.
    pub fn room(&self) -> usize {
        match self {
            Expected::Words(words) => words.len(),
            Expected::Refused(_) => CLEARED,
        }
    }

    /// The number and the room that a call lent so many words must leave (RULES 4.12, 4.14, 4.15).
    pub fn in_room(&self, len: usize) -> Handed {
        let (number, words): (u64, &[u64]) = match self {
            Expected::Words(words) if words.len() <= len => (0, words),
            Expected::Words(_) => (NO_ROOM, &[]),
            Expected::Refused(n) => (*n, &[]),
        };
        let room = filled_up(words, len);
        Handed { number, room }
    }
}

impl Expected<Lists> {
    /// Rooms that suit it.
    pub fn rooms(&self) -> [usize; 2] {
        match self {
            Expected::Words(lists) => [lists[0].len(), lists[1].len()],
            Expected::Refused(_) => [CLEARED; 2],
        }
    }

    /// The same of two rooms: where either is too small both are zero.
    pub fn in_rooms(&self, lens: [usize; 2]) -> Handed {
        let fits = |lists: &Lists| lists[0].len() <= lens[0] && lists[1].len() <= lens[1];
        let (number, words): (u64, [&[u64]; 2]) = match self {
            Expected::Words(lists) if fits(lists) => (0, [&lists[0], &lists[1]]),
            Expected::Words(_) => (NO_ROOM, [&[]; 2]),
            Expected::Refused(n) => (*n, [&[]; 2]),
        };
        let rooms = [0, 1].map(|k| filled_up(words[k], lens[k]));
        Handed {
            number,
            room: rooms.concat(),
        }
    }
}

/// Words, and zeros behind them.
fn filled_up(words: &[u64], len: usize) -> Vec<u64> {
    let mut room = words.to_vec();
    room.resize(len, 0);
    room
}

/// Lends a room of so many words, none of them zero, to a call.
pub fn lend(len: usize, call: impl FnOnce(&mut [u64]) -> u64) -> Handed {
    let mut room = vec![0xdead_beef_dead_beef; len];
    let number = call(&mut room);
    Handed { number, room }
}

/// Lends two rooms.
pub fn lend_two(lens: [usize; 2], call: impl FnOnce(&mut [u64], &mut [u64]) -> u64) -> Handed {
    lend(lens[0] + lens[1], |room| {
        let (first, second) = room.split_at_mut(lens[0]);
        call(first, second)
    })
}

/// Lends a room of so many bytes, none of them zero; each counts as a word.
pub fn lend_bytes(len: usize, call: impl FnOnce(&mut [u8]) -> u64) -> Handed {
    let mut room = vec![0xa5; len];
    let number = call(&mut room);
    Handed {
        number,
        room: room.into_iter().map(u64::from).collect(),
    }
}

/// A room of bytes that suits or some more; in some cases one byte too few, none, or the program's
/// own whole room.
pub fn byte_room(dice: &mut Dice, suits: usize, whole: usize) -> usize {
    match dice.whole(0, 63) {
        0..=3 => suits - 1,
        4 => 0,
        5 => whole,
        6..=20 => suits,
        _ => suits + 100,
    }
}
