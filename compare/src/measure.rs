//! The time that the source and the library take for the same call.

use crate::inputs::{Flavour, Random};
use crate::oracle::{composite_derivatives, surface_count, timed_carry, Kind};
use crate::ffi;
use std::hint::black_box;
use std::time::Instant;

/// Nanoseconds for a call: the least mean of `repeats` runs of `calls` calls.
fn nanoseconds(repeats: usize, calls: usize, mut call: impl FnMut()) -> f64 {
    let run = |_| {
        let start = Instant::now();
        (0..calls).for_each(|_| call());
        start.elapsed().as_nanos() as f64 / calls as f64
    };
    (0..repeats).map(run).fold(f64::INFINITY, f64::min)
}

/// A surface of vectors carried along a curve: the source's method on its jets, the library's C function on lists.
pub fn measure() {
    println!("vector_composite_derivatives, nanoseconds a call, the least of 15 runs");
    println!("{:>5} {:>14} {:>14} {:>7}", "order", "the source", "the library", "ratio");
    let mut random = Random::new(1);
    for order in [2, 4, 8, 12] {
        let a = random.list(Flavour::Unit, 3 * surface_count(order));
        let c = random.list(Flavour::Unit, 2 * (order + 1));
        let rust = timed_carry(&a, &c);
        let mut out = vec![0.0; 3 * (order + 1)];
        assert_eq!(ffi::vector_composite_derivatives(order, &a, order, &c, order, &mut out), 0);
        let bits = |list: &[f64]| list.iter().map(|x| x.to_bits()).collect::<Vec<_>>();
        assert_eq!(bits(&out), bits(&composite_derivatives(Kind::Vectors, &a, &c).unwrap()), "both give the same");
        // About a fiftieth of a second a run.
        let once = nanoseconds(3, 1, &rust);
        let calls = (2.0e7 / once).ceil() as usize;
        let mut times = [f64::INFINITY; 2];
        for _ in 0..15 {
            times[0] = times[0].min(nanoseconds(1, calls, &rust));
            times[1] = times[1].min(nanoseconds(1, calls, || {
                ffi::vector_composite_derivatives(order, black_box(&a), order, black_box(&c), order, black_box(&mut out));
            }));
        }
        println!("{order:>5} {:>14.0} {:>14.0} {:>7.2}", times[0], times[1], times[1] / times[0]);
    }
}
