//! Signed 64-bit arithmetic that answers or refuses.

use crate::refusal::answered;
use crate::{ffi, Refusal};

fn of_two(call: fn(i64, i64, &mut [i64]) -> u8, a: i64, b: i64) -> Result<i64, Refusal> {
    let mut out = [0];
    answered(call(a, b, &mut out))?;
    Ok(out[0])
}

/// a + b
pub fn sum(a: i64, b: i64) -> Result<i64, Refusal> { of_two(ffi::whole_sum, a, b) }

/// a - b
pub fn difference(a: i64, b: i64) -> Result<i64, Refusal> { of_two(ffi::whole_difference, a, b) }

/// a · b
///
/// ```
/// use sugamdely::{whole, Refusal};
///
/// assert_eq!(whole::product(1 << 62, 1), Ok(1 << 62));
/// assert_eq!(whole::product(1 << 62, 2), Err(Refusal::OutOfRange));
/// ```
pub fn product(a: i64, b: i64) -> Result<i64, Refusal> { of_two(ffi::whole_product, a, b) }

/// a / b, where that is exact.
///
/// ```
/// use sugamdely::{whole, Refusal};
///
/// assert_eq!(whole::quotient(6, -2), Ok(-3));
/// assert_eq!(whole::quotient(5, 2), Err(Refusal::Remainder));
/// assert_eq!(whole::quotient(4, 0), Err(Refusal::DivisionByZero));
/// assert_eq!(whole::quotient(i64::MIN, -1), Err(Refusal::OutOfRange));
/// ```
pub fn quotient(a: i64, b: i64) -> Result<i64, Refusal> { of_two(ffi::whole_quotient, a, b) }
