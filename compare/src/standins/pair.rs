//! Sine, cosine, arc cosine and powers. The caller of a comparison gives the sine and cosine of the angle and the angle of the arc; document 01
//! says how the pair turns and how powers are formed.

use std::cell::Cell;

thread_local! {
    static PAIR: Cell<(f64, f64)> = const { Cell::new((0.0, 1.0)) };
    static ARC: Cell<f64> = const { Cell::new(0.0) };
    static COSINE: Cell<f64> = const { Cell::new(f64::NAN) };
}

/// The sine and cosine that the next calls work with.
pub fn give(s: f64, c: f64) { PAIR.with(|p| p.set((s, c))) }

/// The angle that the next arc cosine gives.
pub fn give_arc(angle: f64) { ARC.with(|a| a.set(angle)) }

/// The number whose arc cosine was asked last.
pub fn cosine() -> f64 { COSINE.with(|c| c.get()) }

/// The given pair, turned by `k` quarter turns. The angle that the source worked out is not used.
pub fn turned(_angle: f64, k: usize) -> (f64, f64) {
    let (s, c) = PAIR.with(|p| p.get());
    match k % 4 {
        0 => (s, c),
        1 => (c, -s),
        2 => (-s, -c),
        _ => (-c, s),
    }
}

/// The given angle in place of an arc cosine; `cosine` is kept.
pub fn arc_cosine(cosine: f64) -> f64 {
    COSINE.with(|c| c.set(cosine));
    ARC.with(|a| a.get())
}

/// `x` to the power of `n`: a repeated product from 1.0.
pub fn power(x: f64, n: usize) -> f64 { (0..n).fold(1.0, |p, _| p * x) }
