//! Stands in for the crate `cached`, which Debian does not have: as much of it as the repository's
//! `trajectory.rs` names. Only the build with that file uses it.

use std::collections::HashMap;
use std::hash::Hash;

pub trait Cached<K, V> {
    fn cache_get_or_set_with<F: FnOnce() -> V>(&mut self, key: K, make: F) -> &mut V;
}

pub struct UnboundCache<K, V>(HashMap<K, V>);

impl<K: Hash + Eq, V> UnboundCache<K, V> {
    #[allow(clippy::new_without_default)]
    pub fn new() -> Self {
        UnboundCache(HashMap::new())
    }
}

impl<K: Hash + Eq, V> Cached<K, V> for UnboundCache<K, V> {
    fn cache_get_or_set_with<F: FnOnce() -> V>(&mut self, key: K, make: F) -> &mut V {
        self.0.entry(key).or_insert_with(make)
    }
}
