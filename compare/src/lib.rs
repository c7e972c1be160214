//! The Rust source as an oracle, and the library beside it. README.md says how they are built and compared.

pub mod cases;
pub mod cgmath_extend_traits;
pub mod derivatives;
#[cfg(ours)]
#[path = "../../rust/src/ffi.rs"]
#[allow(dead_code)]
mod ffi;
pub mod inputs;
#[cfg(ours)]
pub mod measure;
pub mod oracle;
#[cfg(ours)]
pub mod ours;
pub mod runs;
pub mod standins;

#[cfg(test)]
mod differences;
#[cfg(test)]
mod tests;
