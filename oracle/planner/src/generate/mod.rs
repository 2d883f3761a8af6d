//! A seeded generator of requests, of many kinds. A case depends on its seed and number alone, so
//! any one can be made again.

pub mod calls;
pub mod dice;
mod edges;
mod floors;

use crate::request::Request;
use crate::stream;
use dice::Dice;

macro_rules! kinds {
    ($($name:ident: $make:path, $words:literal;)*) => {
        /// What a case is about.
        #[allow(non_camel_case_types)]
        #[derive(Clone, Copy, Debug, PartialEq, Eq, PartialOrd, Ord)]
        pub enum Kind { $($name,)* }

        impl Kind {
            pub const ALL: &'static [Kind] = &[$(Kind::$name,)*];

            pub fn name(self) -> &'static str {
                match self { $(Kind::$name => stringify!($name),)* }
            }

            /// What its cases have in common.
            pub fn words(self) -> &'static str {
                match self { $(Kind::$name => $words,)* }
            }

            fn make(self, dice: &mut Dice) -> Vec<u8> {
                match self { $(Kind::$name => Made::bytes($make(dice)),)* }
            }
        }
    };
}

kinds! {
    empty: floors::empty, "no obstacle, or none with a trajectory";
    sparse: floors::sparse, "one to three carts anywhere";
    crowded: floors::crowded, "eight to thirty-two carts in a small hall";
    crossing: floors::crossing, "carts across the agent's way at about its time";
    following: floors::following, "carts ahead on the agent's line";
    following_closely: floors::following_closely, "a cart ahead at nearly the agent's speed";
    long_following: floors::long_following, "the same, over hours and kilometres";
    head_on: floors::head_on, "carts against the agent on its line";
    standing: floors::standing, "carts that stand or drift on the agent's way";
    parked: floors::parked, "carts that end their way at or near the goal";
    touches: floors::touches, "small whole coordinates and seconds: exact touches";
    turn_back: floors::turn_back, "carts that touch the goal's clearance and turn back";
    creeping: floors::creeping, "carts that creep near the goal";
    short_legs: floors::short_legs, "legs of a few nanoseconds, or of about 100,000";
    no_direction: floors::no_direction, "legs too short to have a direction";
    short_agent: floors::short_agent, "an agent under way for 0 to 20 ns";
    no_line: floors::no_line, "an agent of length about 1e-8";
    slow_agent: floors::slow_agent, "an agent that moves hardly at all, for long";
    many_hints: floors::many_hints, "about 64 hints";
    long_search: floors::long_search, "many hints, and few ways through";
    many_paths: floors::many_paths, "many arrival times, each with waits";
    tiny_budget: floors::tiny_budget, "a budget of 0 to 5 pops";
    far: floors::far, "the ends of the floor, and great speeds";
    far_hint: floors::far_hint, "a leg that was over, and led far ahead of a slow agent";
    limits: edges::limits, "one value exactly at its limit";
    beyond: edges::beyond, "one value one step beyond its limit";
    backward: edges::backward, "an agent that arrives before it starts";
    signed_zeros: edges::signed_zeros, "zeros of both signs";
    subnormals: edges::subnormals, "the smallest numbers";
    patterns: edges::patterns, "arbitrary bit patterns";
    damaged: edges::damaged, "a good stream, cut, grown or with bits turned";
    noise: edges::noise, "bytes that were never a stream";
}

/// A case: its kind and the stream of its request.
pub struct Case {
    pub kind: Kind,
    pub bytes: Vec<u8>,
}

/// The case of a number, the kinds taking turns, or one kind alone.
pub fn case(seed: u64, number: u64, only: Option<Kind>) -> Case {
    let turn = (number % Kind::ALL.len() as u64) as usize;
    let kind = only.unwrap_or(Kind::ALL[turn]);
    let mut dice = Dice::new(seed, number);
    let bytes = kind.make(&mut dice);
    Case { kind, bytes }
}

/// What a kind makes: a request, or bytes that may be none.
trait Made {
    fn bytes(self) -> Vec<u8>;
}

impl Made for Request {
    fn bytes(self) -> Vec<u8> {
        stream::written(&self)
    }
}

impl Made for Vec<u8> {
    fn bytes(self) -> Vec<u8> {
        self
    }
}
