//! Jets of signed 64-bit whole numbers. Each number that is formed lies within 64 bits, or the call is refused.

use crate::derivatives::{self, derivative, entry, entry_uv, jets, of_two, to_order};
use crate::{ffi, Refusal};

pub type CurveDerivatives = derivatives::CurveDerivatives<i64>;
pub type SurfaceDerivatives = derivatives::SurfaceDerivatives<i64>;
/// A curve in the parameters u and v of a surface.
pub type ParameterCurve = derivatives::CurveDerivatives<[i64; 2]>;

jets!(i64, [i64; 2]: exact_curve_sum, exact_curve_difference, exact_curve_derivative, exact_surface_sum, exact_surface_difference,
    exact_surface_derivative_u, exact_surface_derivative_v, exact_composite_derivative, exact_composite_derivatives);

impl derivatives::CurveDerivatives<i64> {
    /// One entry of the product, by Leibniz's formula. Refused where `order` exceeds either jet's.
    pub fn combinatorial_derivative(&self, other: &Self, order: usize) -> Result<i64, Refusal> {
        entry(ffi::exact_curve_combinatorial_derivative, self, other, order)
    }

    /// The product, at the smaller order.
    ///
    /// ```
    /// use sugamdely::{exact::CurveDerivatives, Refusal};
    ///
    /// let (a, b) = (CurveDerivatives::new(&[1, 2, 3])?, CurveDerivatives::new(&[4, 5, 6])?);
    /// assert_eq!(a.combinatorial_derivatives(&b)?.entries(), [4, 13, 38]);
    ///
    /// let big = CurveDerivatives::new(&[1 << 62])?;
    /// assert_eq!(big.combinatorial_derivatives(&CurveDerivatives::new(&[1])?)?, big);
    /// assert_eq!(big.combinatorial_derivatives(&CurveDerivatives::new(&[2])?), Err(Refusal::OutOfRange));
    /// # Ok::<(), Refusal>(())
    /// ```
    pub fn combinatorial_derivatives(&self, other: &Self) -> Result<Self, Refusal> {
        of_two(ffi::exact_curve_combinatorial_derivatives, self, other)
    }

    /// The quotient, at the smaller order. Each division must leave no remainder.
    ///
    /// ```
    /// use sugamdely::{exact::CurveDerivatives, Refusal};
    ///
    /// let (product, a) = (CurveDerivatives::new(&[4, 13, 38])?, CurveDerivatives::new(&[1, 2, 3])?);
    /// assert_eq!(product.quotient(&a)?.entries(), [4, 5, 6]);
    /// assert_eq!(CurveDerivatives::new(&[5])?.quotient(&CurveDerivatives::new(&[2])?), Err(Refusal::Remainder));
    /// # Ok::<(), Refusal>(())
    /// ```
    pub fn quotient(&self, other: &Self) -> Result<Self, Refusal> { of_two(ffi::exact_curve_quotient, self, other) }
}

impl derivatives::SurfaceDerivatives<i64> {
    /// One entry of the product. Refused where m + n exceeds either jet's order.
    pub fn combinatorial_derivative(&self, other: &Self, m: usize, n: usize) -> Result<i64, Refusal> {
        entry_uv(ffi::exact_surface_combinatorial_derivative, self, other, (m, n))
    }

    /// The product, at the smaller order.
    pub fn combinatorial_derivatives(&self, other: &Self) -> Result<Self, Refusal> {
        of_two(ffi::exact_surface_combinatorial_derivatives, self, other)
    }

    /// The quotient, at the smaller order. Each division must leave no remainder.
    pub fn quotient(&self, other: &Self) -> Result<Self, Refusal> { of_two(ffi::exact_surface_quotient, self, other) }
}
