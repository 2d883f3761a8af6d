//! The reply to a stream in a lent room: the text of a plan byte for byte, or the number of a refusal
//! and a room of zeros (RULES, sections 4, 14 and 15).

use crate::crossings;
use crate::draw::{beside, Drawn};
use crate::proved;
use crate::report::Report;
use crate::room::{byte_room, lend_bytes, Expected};
use planner::generate::dice::Dice;
use planner::generate::{case, Case};
use planner::plan::{self, Stop};
use planner::{lines, stream};

/// The room that the program has.
const WHOLE: usize = 164_517;

/// What a reply is, by the refusal's number.
const REFUSED: [&str; 13] = [
    "reply: a plan",
    "reply: refused 1",
    "reply: refused 2",
    "reply: refused 3",
    "reply: refused 4",
    "reply: refused 5",
    "reply: refused 6",
    "reply: refused 7",
    "reply: refused 8",
    "reply: refused 9",
    "reply: refused 10",
    "reply: refused 11",
    "reply: refused 12",
];

pub fn compare(seed: u64, count: u64) -> Report {
    let mut report = Report::default();
    for number in 0..count {
        let made = case(seed, number, None);
        let kind = made.kind;
        let (bytes, mut dice) = asked(made, beside(seed, number));
        let expected = expected(&mut report, &bytes);
        let len = byte_room(&mut dice, expected.room(), WHOLE);
        let handed = lend_bytes(len, |out| proved::plan(&bytes, out));
        report.add(kind.name(), &handed, &expected.in_room(len), || {
            format!("the stream {bytes:02x?} in {len} bytes")
        });
    }
    report
}

/// The case's own stream; in one case of two, where it is a request, that of carts on the agent's way.
fn asked(made: Case, mut dice: Dice) -> (Vec<u8>, Dice) {
    match stream::read(&made.bytes) {
        Some(request) if dice.one_in(2) => {
            let mut drawn = Drawn {
                kind: made.kind,
                request,
                dice,
            };
            let crowded = crossings::asked(&mut drawn);
            (stream::written(&crowded), drawn.dice)
        }
        _ => (made.bytes, dice),
    }
}

/// A plan is expected as the bytes of its lines. Where the Rust fails and the rules name no refusal,
/// it is a number that none has.
fn expected(report: &mut Report, bytes: &[u8]) -> Expected {
    let planned = plan::of_stream(bytes);
    match planned {
        Ok(_) => {
            report.see(REFUSED[0]);
            Expected::Words(lines::of(&planned).bytes().map(u64::from).collect())
        }
        Err(Stop::Refused(n)) => {
            report.see(REFUSED[usize::from(n)]);
            Expected::Refused(u64::from(n))
        }
        Err(Stop::Odd(fault)) => {
            report.see("reply: none by the rules");
            Expected::fault(&fault)
        }
    }
}
