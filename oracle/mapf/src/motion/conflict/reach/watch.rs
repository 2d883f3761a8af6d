//! Stops the Rust where the rules refuse: a hint out of reach (RULES 4.7), a 65th hint (RULES
//! 4.10), a pop past the budget (RULES 4.11). And it tells from the search's own stack what the
//! search did (RULES 13.9 to 13.18), and from which place a hint is stored.

use super::super::{ArrivalPathSearchElement, WaitHint};
use super::trail;
use smallvec::Event;
use std::any::type_name;
use std::cell::{Cell, RefCell};
use std::panic::panic_any;
use terms::Search;
use time_point::TimePoint;

/// The payload of a 65th hint.
pub struct Full;

/// The payload of a pop past the budget.
pub struct Spent;

const HINTS: usize = 64;
const FAR: f64 = 1e6;

/// A range of less than so many nanoseconds is short (RULES 8.6).
const SHORT_RANGE: i64 = 100_000;

thread_local! {
    static POPS: Cell<usize> = const { Cell::new(0) };
    static BUDGET: Cell<usize> = const { Cell::new(usize::MAX) };
    static TRAIL: RefCell<Trail> = RefCell::default();
}

/// Starts a search afresh.
pub fn start(budget: usize) {
    POPS.with(|pops| pops.set(0));
    BUDGET.with(|b| b.set(budget));
    follow(|trail| trail.last = Last::Nothing);
    trail::start();
    smallvec::watch(told);
}

/// The elements removed since the start.
pub fn pops() -> usize {
    POPS.with(Cell::get)
}

/// A search came to its end without a refusal.
pub fn ended() {
    follow(Trail::end);
}

/// What all searches did since this was last asked.
pub fn search() -> Search {
    follow(|trail| std::mem::take(&mut trail.search))
}

/// The obstacles are read for one more way.
pub fn way_begins() {
    follow(|trail| {
        trail.ways += 1;
        trail.backward = false;
        trail.short = false;
    });
}

/// An obstacle is read over the times of a way; `spanned` where it has legs there.
pub fn way_is_read(begin: TimePoint, end: TimePoint, spanned: bool) {
    let back = begin.nanos_since_zero - end.nanos_since_zero;
    if back > 0 {
        follow(|trail| trail.backward(spanned && back < SHORT_RANGE));
    }
}

/// The last thing that happened to the stack.
#[derive(Clone, Copy, Default)]
enum Last {
    #[default]
    Nothing,
    /// A hint went back, its next child taken up.
    Back,
    /// A hint that still had its way to test or not, and a child left to take up or not.
    Popped { tested: bool, child: bool },
}

#[derive(Default)]
struct Trail {
    search: Search,
    last: Last,
    /// The ways tested since the last pop.
    ways: usize,
    /// Whether the way under test is counted already.
    backward: bool,
    short: bool,
}

impl Trail {
    fn push(&mut self, element: &ArrivalPathSearchElement, len: usize) {
        if element.tested_arrival_to_parent {
            self.last = Last::Back;
            return;
        }
        if len > 0 {
            self.search.children_tried += 1;
        } else if matches!(self.last, Last::Popped { .. }) {
            self.search.roots_moved_up += 1;
        }
        self.last = Last::Nothing;
    }

    fn pop(&mut self, element: &ArrivalPathSearchElement) {
        match self.last {
            Last::Nothing => (),
            Last::Back => self.search.children_passed_over += 1,
            Last::Popped { .. } => self.search.children_failed += 1,
        }
        self.end();
        self.search.pops += 1;
        self.ways = 0;
        self.last = Last::Popped {
            tested: element.tested_arrival_to_parent,
            child: element.child.is_some(),
        };
    }

    /// A hint without a child left that was popped and did not go back: its own start failed, where
    /// it came to be tested. The way to the parent is tested by two ways before it.
    fn end(&mut self) {
        if let Last::Popped {
            tested,
            child: false,
        } = self.last
        {
            let before = if tested { 0 } else { 2 };
            self.search.own_starts_failed += usize::from(self.ways > before);
        }
        self.last = Last::Nothing;
    }

    fn backward(&mut self, short: bool) {
        self.search.backward_ways += usize::from(!self.backward);
        self.backward = true;
        self.search.short_backward_ways += usize::from(short && !self.short);
        self.short |= short;
    }
}

fn follow<T>(step: impl FnOnce(&mut Trail) -> T) -> T {
    TRAIL.with(|trail| step(&mut trail.borrow_mut()))
}

fn told(element: &'static str, event: Event) {
    if element == type_name::<WaitHint>() {
        if let Event::Push {
            element,
            len,
            place,
        } = event
        {
            trail::store(place);
            // SAFETY: the list's element type has the name of `WaitHint`, which no other type of
            // this crate has, and the pointer is to an element alive during the call.
            store(unsafe { &*element.cast() }, len);
        }
    } else if element == type_name::<ArrivalPathSearchElement>() {
        // SAFETY: as above, of `ArrivalPathSearchElement`.
        match event {
            Event::Push { element, len, .. } => {
                let element = unsafe { &*element.cast() };
                follow(|trail| trail.push(element, len));
            }
            Event::Pop { element } => remove(unsafe { &*element.cast() }),
        }
    }
}

fn store(hint: &WaitHint, len: usize) {
    let strays = |c: f64| c.is_nan() || c.abs() > FAR;
    if strays(hint.at_point.x) || strays(hint.at_point.y) {
        panic_any(time_point::Strayed);
    }
    if len == HINTS {
        panic_any(Full);
    }
}

fn remove(element: &ArrivalPathSearchElement) {
    if pops() == BUDGET.with(Cell::get) {
        panic_any(Spent);
    }
    POPS.with(|pops| pops.set(pops.get() + 1));
    follow(|trail| trail.pop(element));
}
