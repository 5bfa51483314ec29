//! What many servers have alike, kept once.

use std::collections::HashMap;
use std::hash::Hash;

/// Different values, each under the number by which servers have it.
pub struct Once<T>(HashMap<T, u32>);

impl<T> Default for Once<T> {
    fn default() -> Once<T> {
        Once(HashMap::new())
    }
}

impl<T: Hash + Eq> Once<T> {
    /// The number of a value, which is kept where none is equal to it.
    pub fn number(&mut self, value: T) -> u32 {
        let next = u32::try_from(self.0.len()).expect("there is no memory for so many");
        *self.0.entry(value).or_insert(next)
    }

    /// The values in the order of their numbers.
    pub fn all(self) -> Vec<T> {
        let mut all: Vec<(T, u32)> = self.0.into_iter().collect();
        all.sort_by_key(|(_, number)| *number);
        all.into_iter().map(|(value, _)| value).collect()
    }
}
