//! The source's homogeneous vectors, patched.

#![allow(dead_code, clippy::all)]

use crate::standins::{cgmath, num_traits};

include!(concat!(env!("OUT_DIR"), "/cgmath_extend_traits.rs"));
