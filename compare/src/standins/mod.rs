//! What the source needs and its files do not hold, in our own words. The arithmetic is that of document 01, "Vectors".

pub mod cgmath;
pub mod cgmath64;
pub mod decorators;
pub mod events;
pub mod monstertruck_traits;
pub mod num_traits;
pub mod pair;

#[cfg(test)]
pub mod monstertruck_core;
