//! Vectors, matrices and the square root. Every float that is handed in or returned is finite, or the call is refused.

use crate::refusal::answered;
use crate::{ffi, Refusal};

pub type Vector2 = [f64; 2];
pub type Vector3 = [f64; 3];
/// Row by row: `[[a, b], [c, d]]`.
pub type Matrix2 = [[f64; 2]; 2];
/// Its columns.
pub type Matrix3 = [[f64; 3]; 3];

/// What a call writes.
fn written<const N: usize>(call: impl FnOnce(&mut [f64]) -> u8) -> Result<[f64; N], Refusal> {
    let mut out = [0.0; N];
    answered(call(&mut out))?;
    Ok(out)
}

fn float(call: impl FnOnce(&mut [f64]) -> u8) -> Result<f64, Refusal> { written(call).map(|[x]| x) }

/// Nine floats as columns.
pub(crate) fn matrix3(call: impl FnOnce(&mut [f64]) -> u8) -> Result<Matrix3, Refusal> {
    let mut out = [[0.0; 3]; 3];
    answered(call(out.as_flattened_mut()))?;
    Ok(out)
}

pub(crate) fn vector(call: impl FnOnce(&mut [f64]) -> u8) -> Result<Vector3, Refusal> { written(call) }

/// The root of IEEE 754, rounded to nearest. A number below zero has none.
///
/// ```
/// use sugamdely::vectors::square_root;
///
/// assert_eq!(square_root(2.0)?.to_bits(), 0x3FF6A09E667F3BCD);
/// # Ok::<(), sugamdely::Refusal>(())
/// ```
pub fn square_root(x: f64) -> Result<f64, Refusal> { float(|out| ffi::square_root(x, out)) }

/// a + b
pub fn vector_sum(a: Vector3, b: Vector3) -> Result<Vector3, Refusal> { vector(|out| ffi::vector_sum(&a, &b, out)) }

/// a - b
pub fn vector_difference(a: Vector3, b: Vector3) -> Result<Vector3, Refusal> { vector(|out| ffi::vector_difference(&a, &b, out)) }

/// a · s
pub fn vector_multiple(a: Vector3, s: f64) -> Result<Vector3, Refusal> { vector(|out| ffi::vector_multiple(&a, s, out)) }

/// a / s
pub fn vector_quotient(a: Vector3, s: f64) -> Result<Vector3, Refusal> { vector(|out| ffi::vector_quotient(&a, s, out)) }

/// a × b
///
/// ```
/// use sugamdely::vectors::vector_cross;
///
/// assert_eq!(vector_cross([1.0, 0.0, 0.0], [0.0, 1.0, 0.0]), Ok([0.0, 0.0, 1.0]));
/// ```
pub fn vector_cross(a: Vector3, b: Vector3) -> Result<Vector3, Refusal> { vector(|out| ffi::vector_cross(&a, &b, out)) }

/// x, y and z added in turn.
pub fn vector_dot(a: Vector3, b: Vector3) -> Result<f64, Refusal> { float(|out| ffi::vector_dot(&a, &b, out)) }

/// The root of the dot product with itself.
///
/// ```
/// assert_eq!(sugamdely::vectors::vector_magnitude([3.0, 4.0, 0.0]), Ok(5.0));
/// ```
pub fn vector_magnitude(a: Vector3) -> Result<f64, Refusal> { float(|out| ffi::vector_magnitude(&a, out)) }

/// ad - bc
pub fn matrix2_determinant(m: Matrix2) -> Result<f64, Refusal> { float(|out| ffi::matrix2_determinant(m.as_flattened(), out)) }

/// (d -b; -c a), each over the determinant.
///
/// ```
/// use sugamdely::{vectors::matrix2_inverse, Refusal};
///
/// assert_eq!(matrix2_inverse([[2.0, 1.0], [0.0, 4.0]]), Ok([[0.5, -0.125], [0.0, 0.25]]));
/// assert_eq!(matrix2_inverse([[1.0, 1.0], [1.0, 1.0]]), Err(Refusal::ZeroDeterminant));
/// ```
pub fn matrix2_inverse(m: Matrix2) -> Result<Matrix2, Refusal> {
    written(|out| ffi::matrix2_inverse(m.as_flattened(), out)).map(|[a, b, c, d]| [[a, b], [c, d]])
}

/// The matrix times a vector: (ax + by, cx + dy).
///
/// ```
/// use sugamdely::{vectors::matrix2_image, Refusal};
///
/// assert_eq!(matrix2_image([[1.0, 2.0], [3.0, 4.0]], [5.0, 6.0]), Ok([17.0, 39.0]));
/// assert_eq!(matrix2_image([[1.0, 2.0], [3.0, 4.0]], [5.0, f64::NAN]), Err(Refusal::InputNotFinite));
/// ```
pub fn matrix2_image(m: Matrix2, v: Vector2) -> Result<Vector2, Refusal> { written(|out| ffi::matrix2_image(m.as_flattened(), &v, out)) }

/// c0 · (c1 × c2)
pub fn matrix3_determinant(m: Matrix3) -> Result<f64, Refusal> { float(|out| ffi::matrix3_determinant(m.as_flattened(), out)) }

/// The rows c1 × c2, c2 × c0, c0 × c1, each over the determinant.
pub fn matrix3_inverse(m: Matrix3) -> Result<Matrix3, Refusal> { matrix3(|out| ffi::matrix3_inverse(m.as_flattened(), out)) }

/// The matrix times a vector.
pub fn matrix3_image(m: Matrix3, v: Vector3) -> Result<Vector3, Refusal> { vector(|out| ffi::matrix3_image(m.as_flattened(), &v, out)) }
