//! Tells a watcher from which place a dot product or a direction is asked for.

use std::cell::Cell;
use std::panic::Location;

/// Called with the place.
pub type Watcher = fn(&'static Location<'static>);

thread_local! {
    static WATCHER: Cell<Option<Watcher>> = const { Cell::new(None) };
}

/// Watches what this thread asks for from here on.
pub fn watch(watcher: Watcher) {
    WATCHER.with(|w| w.set(Some(watcher)));
}

#[track_caller]
pub(crate) fn tell() {
    if let Some(watcher) = WATCHER.with(Cell::get) {
        watcher(Location::caller());
    }
}
