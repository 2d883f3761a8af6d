//! Catches the Rust's panics and tells them apart: by what the stand-ins throw, and else by the
//! line that panicked. The lines are those of the pinned files.

use crate::motion::carried::Endless;
use std::any::Any;
use std::cell::{Cell, RefCell};
use std::panic::{catch_unwind, set_hook, take_hook, AssertUnwindSafe};
use std::sync::Once;
use terms::Fault;

/// The lines of `conflict.rs` that can panic, and what each is about.
pub const PLACES: [(u32, &str, Fault); 8] = [
    (194, "assert!(delta_t >= 0.0)", Fault::Backward),
    (244, "assert!(dist >= 1e-8)", Fault::NoLine),
    (382, "assert!(dist >= 1e-8)", Fault::NoLine),
    (604, "compute_position(&t_range.0).unwrap()", Fault::Apart),
    (682, "assert!(b.abs() < 1e-4)", Fault::Creep),
    (711, "assert!(t_m <= t_p)", Fault::RootOrder),
    (
        780,
        "assert!(exit + time_point::Duration::new(10000) >= candidate_time)",
        Fault::Late,
    ),
    (1045, "try_normalize(1e-8).unwrap()", Fault::NoDirection),
];

struct Panic {
    file: String,
    line: u32,
    words: String,
}

thread_local! {
    static CALLING: Cell<bool> = const { Cell::new(false) };
    static LAST: RefCell<Option<Panic>> = const { RefCell::new(None) };
}

static HOOK: Once = Once::new();

/// Runs a call of the Rust, and says how it ended.
pub fn caught<T>(call: impl FnOnce() -> T) -> Result<T, Fault> {
    HOOK.call_once(|| {
        let _alone = terms::HOOKS.lock();
        let usual = take_hook();
        set_hook(Box::new(move |info| {
            if !CALLING.with(Cell::get) {
                return usual(info);
            }
            let place = info.location();
            let panic = Panic {
                file: place.map_or(String::new(), |p| p.file().to_owned()),
                line: place.map_or(0, |p| p.line()),
                words: info.to_string(),
            };
            LAST.with(|last| *last.borrow_mut() = Some(panic));
        }));
    });
    CALLING.with(|calling| calling.set(true));
    let ended = catch_unwind(AssertUnwindSafe(call));
    CALLING.with(|calling| calling.set(false));
    ended.map_err(|payload| told(&*payload))
}

fn told(payload: &(dyn Any + Send)) -> Fault {
    if payload.is::<time_point::Strayed>() {
        return Fault::Strayed;
    }
    if payload.is::<Endless>() || payload.is::<time_point::Runaway>() {
        return Fault::Endless;
    }
    #[cfg(feature = "watched")]
    {
        use crate::motion::conflict::reach::watch::{Full, Spent};
        if payload.is::<Full>() {
            return Fault::Full;
        }
        if payload.is::<Spent>() {
            return Fault::Spent;
        }
    }
    let last = LAST.with(|last| last.borrow_mut().take());
    match last {
        Some(panic) => by_place(panic),
        None => Fault::Other(String::from("a panic with no place")),
    }
}

fn by_place(panic: Panic) -> Fault {
    if panic.file.contains("/slice/sort/") {
        return Fault::Unordered;
    }
    let known = PLACES
        .iter()
        .find(|(line, _, _)| panic.file.ends_with("/conflict.rs") && *line == panic.line);
    match known {
        Some((_, _, fault)) => fault.clone(),
        None => Fault::Other(panic.words),
    }
}

#[cfg(test)]
mod tests {
    use super::*;

    #[test]
    fn the_lines_are_those_of_the_pinned_file() {
        let file = concat!(env!("MAPF_MOTION"), "/conflict.rs");
        let text = std::fs::read_to_string(file).expect("the build found it");
        for (line, words, _) in &PLACES {
            let there = text
                .lines()
                .nth(*line as usize - 1)
                .expect("the line is there");
            assert!(there.contains(words), "{line}: {there}");
        }
    }

    #[test]
    fn another_panic_keeps_its_words() {
        let fault = caught(|| panic!("odd")).unwrap_err();
        assert!(matches!(fault, Fault::Other(words) if words.contains("odd")));
    }
}
