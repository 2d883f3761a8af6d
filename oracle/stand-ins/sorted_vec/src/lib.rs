//! Stands in for the crate `sorted_vec`, which Debian does not have: as much of `SortedSet` as the
//! repository's `trajectory.rs` names. Only the build with that file uses it.

use std::ops::Deref;

pub enum FindOrInsert {
    Found(usize),
    Inserted(usize),
}

/// Elements in rising order, no two alike.
#[derive(Clone, Debug, PartialEq, Eq)]
pub struct SortedSet<T: Ord>(Vec<T>);

impl<T: Ord> SortedSet<T> {
    #[allow(clippy::new_without_default)]
    pub fn new() -> Self {
        SortedSet(Vec::new())
    }

    pub fn find_or_push(&mut self, element: T) -> FindOrInsert {
        match self.0.binary_search(&element) {
            Ok(at) => FindOrInsert::Found(at),
            Err(at) => {
                self.0.insert(at, element);
                FindOrInsert::Inserted(at)
            }
        }
    }

    /// Puts an element in its place, instead of one that is alike.
    pub fn push(&mut self, element: T) -> usize {
        self.replace(element).0
    }

    pub fn replace(&mut self, element: T) -> (usize, Option<T>) {
        match self.0.binary_search(&element) {
            Ok(at) => (at, Some(std::mem::replace(&mut self.0[at], element))),
            Err(at) => {
                self.0.insert(at, element);
                (at, None)
            }
        }
    }

    pub fn remove_index(&mut self, at: usize) -> T {
        self.0.remove(at)
    }

    pub fn reserve(&mut self, additional: usize) {
        self.0.reserve(additional);
    }

    pub fn capacity(&self) -> usize {
        self.0.capacity()
    }

    /// # Safety
    /// The caller keeps the elements in rising order, no two alike.
    pub unsafe fn get_unchecked_mut_vec(&mut self) -> &mut Vec<T> {
        &mut self.0
    }
}

impl<T: Ord> Deref for SortedSet<T> {
    type Target = [T];

    fn deref(&self) -> &[T] {
        &self.0
    }
}
