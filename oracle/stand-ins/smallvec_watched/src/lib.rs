//! Debian's `SmallVec` with a watcher: each push and pop is told before it happens, so that the
//! unchanged Rust can be stopped where the rules refuse (RULES 4.7, 4.10, 4.11), and counted.
//!
//! One thing more is settled here: `sort_unstable_by` keeps the order of finding among elements
//! that the comparison does not tell apart, which the Rust leaves open (RULES 11.7).

use smallvec::Array;
use std::any::type_name;
use std::cell::Cell;
use std::cmp::Ordering;
use std::ops::{Deref, DerefMut};
use std::panic::Location;

/// What is about to happen to a list.
pub enum Event {
    /// An element, behind this pointer, is about to join a list of so many, by this place.
    Push {
        element: *const (),
        len: usize,
        place: &'static Location<'static>,
    },
    /// The element behind this pointer is about to be removed.
    Pop { element: *const () },
}

/// Called with the element type's name and the event.
pub type Watcher = fn(&'static str, Event);

thread_local! {
    static WATCHER: Cell<Option<Watcher>> = const { Cell::new(None) };
}

/// Watches this thread's lists from here on.
pub fn watch(watcher: Watcher) {
    WATCHER.with(|w| w.set(Some(watcher)));
}

fn tell(element: &'static str, event: Event) {
    if let Some(watcher) = WATCHER.with(Cell::get) {
        watcher(element, event);
    }
}

pub struct SmallVec<A: Array>(smallvec::SmallVec<A>);

impl<A: Array> SmallVec<A> {
    #[allow(clippy::new_without_default)]
    pub fn new() -> Self {
        SmallVec(smallvec::SmallVec::new())
    }

    #[track_caller]
    pub fn push(&mut self, value: A::Item) {
        let pushed = Event::Push {
            element: (&value as *const A::Item).cast(),
            len: self.0.len(),
            place: Location::caller(),
        };
        tell(type_name::<A::Item>(), pushed);
        self.0.push(value);
    }

    pub fn pop(&mut self) -> Option<A::Item> {
        if let Some(last) = self.0.last() {
            let element = (last as *const A::Item).cast();
            tell(type_name::<A::Item>(), Event::Pop { element });
        }
        self.0.pop()
    }

    /// Insertion: an element passes those before it only where the comparison puts it below them
    /// and them not below it.
    pub fn sort_unstable_by<F>(&mut self, mut compare: F)
    where
        F: FnMut(&A::Item, &A::Item) -> Ordering,
    {
        for end in 1..self.0.len() {
            let mut at = end;
            while at > 0
                && compare(&self.0[at], &self.0[at - 1]) == Ordering::Less
                && compare(&self.0[at - 1], &self.0[at]) == Ordering::Greater
            {
                self.0.swap(at, at - 1);
                at -= 1;
            }
        }
    }
}

impl<A: Array> Deref for SmallVec<A> {
    type Target = smallvec::SmallVec<A>;

    fn deref(&self) -> &Self::Target {
        &self.0
    }
}

impl<A: Array> DerefMut for SmallVec<A> {
    fn deref_mut(&mut self) -> &mut Self::Target {
        &mut self.0
    }
}

impl<A: Array> FromIterator<A::Item> for SmallVec<A> {
    fn from_iter<I: IntoIterator<Item = A::Item>>(items: I) -> Self {
        SmallVec(items.into_iter().collect())
    }
}

impl<A: Array> IntoIterator for SmallVec<A> {
    type Item = A::Item;
    type IntoIter = smallvec::IntoIter<A>;

    fn into_iter(self) -> Self::IntoIter {
        self.0.into_iter()
    }
}

impl<'a, A: Array> IntoIterator for &'a SmallVec<A> {
    type Item = &'a A::Item;
    type IntoIter = std::slice::Iter<'a, A::Item>;

    fn into_iter(self) -> Self::IntoIter {
        self.0.iter()
    }
}

#[cfg(test)]
mod tests {
    use super::*;

    fn stop_at_two(element: &'static str, event: Event) {
        if let Event::Push {
            element: at,
            len,
            place,
        } = event
        {
            assert_eq!(element, "u8");
            assert_eq!(place.file(), file!());
            // SAFETY: the name says that the pointer is to a u8, alive during the call.
            assert_ne!(unsafe { *at.cast::<u8>() }, 9);
            assert!(len < 2);
        }
    }

    #[test]
    fn a_push_is_told_before_it_happens() {
        watch(stop_at_two);
        let mut list: SmallVec<[u8; 1]> = SmallVec::new();
        list.push(1);
        list.push(2);
        let full = std::panic::catch_unwind(std::panic::AssertUnwindSafe(|| list.push(3)));
        assert!(full.is_err());
        assert_eq!(list.len(), 2);
        assert_eq!(list.pop(), Some(2));
    }

    #[test]
    fn elements_that_compare_alike_keep_their_order() {
        // alike elements are called less both ways round, as the Rust's comparison does
        let mut list: SmallVec<[(u8, u8); 2]> = [(2, 0), (1, 1), (2, 2), (1, 3), (2, 4)]
            .into_iter()
            .collect();
        list.sort_unstable_by(|a, b| match a.0.cmp(&b.0) {
            Ordering::Equal => Ordering::Less,
            other => other,
        });
        assert_eq!(list.to_vec(), [(1, 1), (1, 3), (2, 0), (2, 2), (2, 4)]);
    }
}
