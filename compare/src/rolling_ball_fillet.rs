//! Source files 000, 001 and 002, patched.

#![allow(dead_code, unused_imports, clippy::all)]

include!(concat!(env!("OUT_DIR"), "/rolling_ball_fillet.rs"));
