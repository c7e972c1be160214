//! Source file 003, patched, and what reaches its private parts.

#![allow(dead_code, clippy::all)]

use crate::standins::{cgmath, num_traits};

include!(concat!(env!("OUT_DIR"), "/derivatives.rs"));

/// Lists of parts, of which nothing is public in the source.
pub mod open {
    use super::CompositionIter;

    /// The source's walk. `None` where it has none.
    pub fn walk(order: usize, len: usize) -> Option<impl Iterator<Item = Vec<usize>>> {
        Some(CompositionIter::<32>::try_new(order, len)?.map(move |list| list[..len].to_vec()))
    }

    /// The step to the next list: whether there is one, and what the step leaves.
    pub fn next(list: &[usize]) -> (bool, Vec<usize>) {
        let mut list = list.to_vec();
        let more = super::next(&mut list);
        (more, list)
    }

    pub fn multiplicity(list: &[usize]) -> u128 { super::multiplicity(list) }
}
