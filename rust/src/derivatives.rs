//! Jets of floats and of vectors, `[f64; 3]`. [`crate::exact`] has those of whole numbers.

use crate::refusal::answered;
use crate::{ffi, Refusal};
use std::ops::Index;

/// What a jet holds: a number, or 2 or 3 of them side by side.
pub trait Entry: Copy + Default + sealed::Entry {}

mod sealed {
    pub trait Entry: Sized {
        type Number: Copy;
        fn numbers(list: &[Self]) -> &[Self::Number];
        fn numbers_mut(list: &mut [Self]) -> &mut [Self::Number];
    }
}

macro_rules! entries {
    ($($number:ty),*) => { $(
        impl sealed::Entry for $number {
            type Number = $number;
            fn numbers(list: &[Self]) -> &[$number] { list }
            fn numbers_mut(list: &mut [Self]) -> &mut [$number] { list }
        }
        impl Entry for $number {}
        entries!(2 $number);
        entries!(3 $number);
    )* };
    ($width:literal $number:ty) => {
        impl sealed::Entry for [$number; $width] {
            type Number = $number;
            fn numbers(list: &[Self]) -> &[$number] { list.as_flattened() }
            fn numbers_mut(list: &mut [Self]) -> &mut [$number] { list.as_flattened_mut() }
        }
        impl Entry for [$number; $width] {}
    };
}
entries!(f64, i64);

/// The derivatives of a curve, 0 to its order.
///
/// ```
/// use sugamdely::derivatives::CurveDerivatives;
///
/// let a = CurveDerivatives::new(&[1.0, 2.0, 3.0])?;
/// let b = CurveDerivatives::new(&[4.0, 5.0, 6.0])?;
/// let product = a.combinatorial_derivatives(&b)?;
/// assert_eq!(product.entries(), [4.0, 13.0, 38.0]);
/// assert_eq!(product.rational_derivatives(&a)?, b);
/// assert_eq!((product.order(), product[1]), (2, 13.0));
/// # Ok::<(), sugamdely::Refusal>(())
/// ```
#[derive(Clone, Debug, PartialEq)]
pub struct CurveDerivatives<T> {
    entries: Vec<T>,
}

/// The derivatives of a surface: `s[i][j]` is that i times by u and j times by v, i + j up to its order.
///
/// ```
/// use sugamdely::derivatives::SurfaceDerivatives;
///
/// let s = SurfaceDerivatives::new(2, &[5.0, 3.0, 6.0, 2.0, 4.0, 1.0])?;
/// assert_eq!((s[0][2], s[1][1], s[2][0]), (6.0, 4.0, 1.0));
/// assert_eq!(s.derivative_u()?.entries(), [2.0, 4.0, 1.0]);
/// # Ok::<(), sugamdely::Refusal>(())
/// ```
#[derive(Clone, Debug, PartialEq)]
pub struct SurfaceDerivatives<T> {
    order: usize,
    entries: Vec<T>,
}

/// A curve in the parameters u and v of a surface.
pub type ParameterCurve = CurveDerivatives<[f64; 2]>;

impl<T: Entry> CurveDerivatives<T> {
    /// From the entries of the orders 0, 1, .., N. Refused where N is above 20, and where there is no entry.
    pub fn new(entries: &[T]) -> Result<Self, Refusal> {
        match entries.len() {
            0 => Err(Refusal::Shape),
            1..=21 => Ok(CurveDerivatives { entries: entries.to_vec() }),
            _ => Err(Refusal::OrderAbove20),
        }
    }

    pub fn order(&self) -> usize { self.entries.len() - 1 }

    /// By rising order.
    pub fn entries(&self) -> &[T] { &self.entries }
}

impl<T: Entry> Index<usize> for CurveDerivatives<T> {
    type Output = T;
    fn index(&self, order: usize) -> &T { &self.entries[order] }
}

/// How many entries a surface has.
fn count(order: usize) -> usize { (order + 1) * (order + 2) / 2 }

impl<T: Entry> SurfaceDerivatives<T> {
    /// From the entries by i, then j: `[0][0]`, `[0][1]`, .., `[0][N]`, `[1][0]`, .., `[N][0]`. Refused where N is above 20, and where there are not
    /// (N + 1)(N + 2)/2 entries.
    pub fn new(order: usize, entries: &[T]) -> Result<Self, Refusal> {
        if order > 20 {
            return Err(Refusal::OrderAbove20);
        }
        if entries.len() != count(order) {
            return Err(Refusal::Shape);
        }
        Ok(SurfaceDerivatives { order, entries: entries.to_vec() })
    }

    pub fn order(&self) -> usize { self.order }

    /// By i, then j.
    pub fn entries(&self) -> &[T] { &self.entries }
}

impl<T: Entry> Index<usize> for SurfaceDerivatives<T> {
    type Output = [T];

    /// The entries `[i][0]`, `[i][1]`, .. .
    fn index(&self, i: usize) -> &[T] {
        assert!(i <= self.order, "there is no row {i} at order {}", self.order);
        let start = i * (2 * self.order + 3 - i) / 2;
        &self.entries[start..start + self.order + 1 - i]
    }
}

// Calls on lists.

/// A jet as the C interface takes it.
pub(crate) trait Jet: Sized {
    type Number;
    fn order(&self) -> usize;
    fn list(&self) -> &[Self::Number];
    fn list_mut(&mut self) -> &mut [Self::Number];
    /// A jet to be written. No answer has an order above 20.
    fn blank(order: usize) -> Self;
}

impl<T: Entry> Jet for CurveDerivatives<T> {
    type Number = T::Number;
    fn order(&self) -> usize { self.order() }
    fn list(&self) -> &[T::Number] { T::numbers(&self.entries) }
    fn list_mut(&mut self) -> &mut [T::Number] { T::numbers_mut(&mut self.entries) }
    fn blank(order: usize) -> Self { CurveDerivatives { entries: vec![T::default(); order.min(20) + 1] } }
}

impl<T: Entry> Jet for SurfaceDerivatives<T> {
    type Number = T::Number;
    fn order(&self) -> usize { self.order }
    fn list(&self) -> &[T::Number] { T::numbers(&self.entries) }
    fn list_mut(&mut self) -> &mut [T::Number] { T::numbers_mut(&mut self.entries) }
    fn blank(order: usize) -> Self { SurfaceDerivatives { order: order.min(20), entries: vec![T::default(); count(order.min(20))] } }
}

pub(crate) type OfOne<N> = fn(usize, &[N], &mut [N]) -> u8;
pub(crate) type OfTwo<N> = fn(usize, &[N], usize, &[N], &mut [N]) -> u8;
pub(crate) type Asked<N> = fn(usize, &[N], usize, &[N], usize, &mut [N]) -> u8;
pub(crate) type AskedTwice<N> = fn(usize, &[N], usize, &[N], usize, usize, &mut [N]) -> u8;

/// An answer of the order given.
pub(crate) fn of_one<A: Jet, R: Jet<Number = A::Number>>(call: OfOne<A::Number>, a: &A, order: usize) -> Result<R, Refusal> {
    let mut out = R::blank(order);
    answered(call(a.order(), a.list(), out.list_mut()))?;
    Ok(out)
}

/// A jet one order lower. Of order 0 there is none, and the call says so.
pub(crate) fn derivative<A: Jet>(call: OfOne<A::Number>, a: &A) -> Result<A, Refusal> { of_one(call, a, a.order().saturating_sub(1)) }

/// An answer at the smaller order.
pub(crate) fn of_two<A: Jet, B: Jet<Number = A::Number>, R: Jet<Number = A::Number>>(call: OfTwo<A::Number>, a: &A, b: &B) -> Result<R, Refusal> {
    let mut out = R::blank(a.order().min(b.order()));
    answered(call(a.order(), a.list(), b.order(), b.list(), out.list_mut()))?;
    Ok(out)
}

/// A jet of the order asked.
pub(crate) fn to_order<A: Jet, B: Jet<Number = A::Number>, R: Jet<Number = A::Number>>(
    call: Asked<A::Number>,
    a: &A,
    b: &B,
    order: usize,
) -> Result<R, Refusal> {
    let mut out = R::blank(order);
    answered(call(a.order(), a.list(), b.order(), b.list(), order, out.list_mut()))?;
    Ok(out)
}

/// The entry of the order asked.
pub(crate) fn entry<A: Jet, B: Jet<Number = A::Number>, T: Entry<Number = A::Number>>(
    call: Asked<A::Number>,
    a: &A,
    b: &B,
    order: usize,
) -> Result<T, Refusal> {
    let mut out = [T::default()];
    answered(call(a.order(), a.list(), b.order(), b.list(), order, T::numbers_mut(&mut out)))?;
    Ok(out[0])
}

/// The entry m times by u and n times by v.
pub(crate) fn entry_uv<A: Jet, B: Jet<Number = A::Number>, T: Entry<Number = A::Number>>(
    call: AskedTwice<A::Number>,
    a: &A,
    b: &B,
    (m, n): (usize, usize),
) -> Result<T, Refusal> {
    let mut out = [T::default()];
    answered(call(a.order(), a.list(), b.order(), b.list(), m, n, T::numbers_mut(&mut out)))?;
    Ok(out[0])
}

// What every kind of entry has.

macro_rules! jets {
    ($entry:ty, $pair:ty: $curve_sum:ident, $curve_difference:ident, $curve_derivative:ident, $surface_sum:ident, $surface_difference:ident,
     $surface_derivative_u:ident, $surface_derivative_v:ident, $composite_derivative:ident, $composite_derivatives:ident) => {
        impl $crate::derivatives::CurveDerivatives<$entry> {
            /// Entry by entry, at the smaller order.
            pub fn sum(&self, other: &Self) -> Result<Self, Refusal> { of_two(ffi::$curve_sum, self, other) }

            /// Entry by entry, at the smaller order.
            pub fn difference(&self, other: &Self) -> Result<Self, Refusal> { of_two(ffi::$curve_difference, self, other) }

            /// One order lower. Refused for a jet of order 0.
            pub fn derivative(&self) -> Result<Self, Refusal> { derivative(ffi::$curve_derivative, self) }
        }

        impl $crate::derivatives::SurfaceDerivatives<$entry> {
            /// Entry by entry, at the smaller order.
            pub fn sum(&self, other: &Self) -> Result<Self, Refusal> { of_two(ffi::$surface_sum, self, other) }

            /// Entry by entry, at the smaller order.
            pub fn difference(&self, other: &Self) -> Result<Self, Refusal> { of_two(ffi::$surface_difference, self, other) }

            /// One order lower. Refused for a jet of order 0.
            pub fn derivative_u(&self) -> Result<Self, Refusal> { derivative(ffi::$surface_derivative_u, self) }

            /// One order lower. Refused for a jet of order 0.
            pub fn derivative_v(&self) -> Result<Self, Refusal> { derivative(ffi::$surface_derivative_v, self) }

            /// One derivative along a curve in the parameters, by Faà di Bruno's formula; zero at order 0. Refused where `order` exceeds either
            /// jet's.
            pub fn composite_derivative(
                &self,
                curve: &$crate::derivatives::CurveDerivatives<$pair>,
                order: usize,
            ) -> Result<$entry, Refusal> {
                entry(ffi::$composite_derivative, self, curve, order)
            }

            /// The derivatives 0 to `order` along a curve in the parameters. Entry 0 is `[0][0]`.
            pub fn composite_derivatives(
                &self,
                curve: &$crate::derivatives::CurveDerivatives<$pair>,
                order: usize,
            ) -> Result<$crate::derivatives::CurveDerivatives<$entry>, Refusal> {
                to_order(ffi::$composite_derivatives, self, curve, order)
            }
        }
    };
}
pub(crate) use jets;

jets!(f64, [f64; 2]: curve_sum, curve_difference, curve_derivative, surface_sum, surface_difference, surface_derivative_u, surface_derivative_v,
    composite_derivative, composite_derivatives);
jets!([f64; 3], [f64; 2]: vector_curve_sum, vector_curve_difference, vector_curve_derivative, vector_surface_sum, vector_surface_difference,
    vector_surface_derivative_u, vector_surface_derivative_v, vector_composite_derivative, vector_composite_derivatives);

// Floats.

impl CurveDerivatives<f64> {
    /// One entry of the product, by Leibniz's formula. Refused where `order` exceeds either jet's.
    pub fn combinatorial_derivative(&self, other: &Self, order: usize) -> Result<f64, Refusal> {
        entry(ffi::curve_combinatorial_derivative, self, other, order)
    }

    /// The product, at the smaller order.
    ///
    /// ```
    /// use sugamdely::{derivatives::CurveDerivatives, Refusal};
    ///
    /// let a = CurveDerivatives::new(&[1e308])?;
    /// assert_eq!(a.combinatorial_derivatives(&a), Err(Refusal::AnswerNotFinite));
    /// # Ok::<(), Refusal>(())
    /// ```
    pub fn combinatorial_derivatives(&self, other: &Self) -> Result<Self, Refusal> { of_two(ffi::curve_combinatorial_derivatives, self, other) }

    /// This over the weights, at the smaller order.
    ///
    /// ```
    /// use sugamdely::{derivatives::CurveDerivatives, Refusal};
    ///
    /// let (four, zero) = (CurveDerivatives::new(&[4.0])?, CurveDerivatives::new(&[0.0])?);
    /// assert_eq!(four.rational_derivatives(&zero), Err(Refusal::DivisionByZero));
    /// # Ok::<(), Refusal>(())
    /// ```
    pub fn rational_derivatives(&self, weights: &Self) -> Result<Self, Refusal> { of_two(ffi::curve_rational_derivatives, self, weights) }
}

impl SurfaceDerivatives<f64> {
    /// One entry of the product. Refused where m + n exceeds either jet's order.
    pub fn combinatorial_derivative(&self, other: &Self, m: usize, n: usize) -> Result<f64, Refusal> {
        entry_uv(ffi::surface_combinatorial_derivative, self, other, (m, n))
    }

    /// The product, at the smaller order.
    ///
    /// ```
    /// use sugamdely::derivatives::{ParameterCurve, SurfaceDerivatives};
    ///
    /// let surface = SurfaceDerivatives::new(2, &[5.0, 3.0, 6.0, 2.0, 4.0, 1.0])?;
    /// let curve = ParameterCurve::new(&[[0.0, 0.0], [1.0, 2.0], [2.0, 1.0]])?;
    /// assert_eq!(surface.composite_derivatives(&curve, 2)?.entries(), [5.0, 8.0, 48.0]);
    /// let square = surface.combinatorial_derivatives(&surface)?;
    /// assert_eq!(square.composite_derivatives(&curve, 2)?.entries(), [25.0, 80.0, 608.0]);
    /// assert_eq!(square.rational_derivatives(&surface)?, surface);
    /// # Ok::<(), sugamdely::Refusal>(())
    /// ```
    pub fn combinatorial_derivatives(&self, other: &Self) -> Result<Self, Refusal> { of_two(ffi::surface_combinatorial_derivatives, self, other) }

    /// This over the weights, at the smaller order.
    pub fn rational_derivatives(&self, weights: &Self) -> Result<Self, Refusal> { of_two(ffi::surface_rational_derivatives, self, weights) }
}

// Vectors. `_scaled` is the product with a jet of floats, `_dot` and `_cross` are those of two jets of vectors.

impl CurveDerivatives<[f64; 3]> {
    /// One entry of the product with floats. Refused where `order` exceeds either jet's.
    pub fn combinatorial_derivative_scaled(&self, other: &CurveDerivatives<f64>, order: usize) -> Result<[f64; 3], Refusal> {
        entry(ffi::curve_combinatorial_derivative_scaled, self, other, order)
    }

    /// One entry of the product by dot.
    pub fn combinatorial_derivative_dot(&self, other: &Self, order: usize) -> Result<f64, Refusal> {
        entry(ffi::curve_combinatorial_derivative_dot, self, other, order)
    }

    /// One entry of the product by cross.
    pub fn combinatorial_derivative_cross(&self, other: &Self, order: usize) -> Result<[f64; 3], Refusal> {
        entry(ffi::curve_combinatorial_derivative_cross, self, other, order)
    }

    /// The product with floats, at the smaller order.
    pub fn combinatorial_derivatives_scaled(&self, other: &CurveDerivatives<f64>) -> Result<Self, Refusal> {
        of_two(ffi::curve_combinatorial_derivatives_scaled, self, other)
    }

    /// The product by dot.
    pub fn combinatorial_derivatives_dot(&self, other: &Self) -> Result<CurveDerivatives<f64>, Refusal> {
        of_two(ffi::curve_combinatorial_derivatives_dot, self, other)
    }

    /// The product by cross.
    ///
    /// ```
    /// use sugamdely::derivatives::CurveDerivatives;
    ///
    /// let a = CurveDerivatives::new(&[[1.0, 0.0, 0.0], [0.0, 2.0, 0.0]])?;
    /// let b = CurveDerivatives::new(&[[0.0, 1.0, 0.0], [0.0, 0.0, 3.0]])?;
    /// assert_eq!(a.combinatorial_derivatives_cross(&b)?.entries(), [[0.0, 0.0, 1.0], [0.0, -3.0, 0.0]]);
    /// assert_eq!(a.combinatorial_derivatives_dot(&b)?.entries(), [0.0, 2.0]);
    /// # Ok::<(), sugamdely::Refusal>(())
    /// ```
    pub fn combinatorial_derivatives_cross(&self, other: &Self) -> Result<Self, Refusal> {
        of_two(ffi::curve_combinatorial_derivatives_cross, self, other)
    }

    /// This over the weights, at the smaller order.
    pub fn rational_derivatives(&self, weights: &CurveDerivatives<f64>) -> Result<Self, Refusal> {
        of_two(ffi::vector_curve_rational_derivatives, self, weights)
    }

    /// The norm.
    ///
    /// ```
    /// use sugamdely::derivatives::CurveDerivatives;
    ///
    /// let a = CurveDerivatives::new(&[[3.0, 4.0, 0.0], [5.0, 5.0, 0.0]])?;
    /// assert_eq!(a.absolute_derivatives()?.entries(), [5.0, 7.0]);
    /// # Ok::<(), sugamdely::Refusal>(())
    /// ```
    pub fn absolute_derivatives(&self) -> Result<CurveDerivatives<f64>, Refusal> { of_one(ffi::curve_absolute_derivatives, self, self.order()) }
}

impl SurfaceDerivatives<[f64; 3]> {
    /// One entry of the product with floats. Refused where m + n exceeds either jet's order.
    pub fn combinatorial_derivative_scaled(&self, other: &SurfaceDerivatives<f64>, m: usize, n: usize) -> Result<[f64; 3], Refusal> {
        entry_uv(ffi::surface_combinatorial_derivative_scaled, self, other, (m, n))
    }

    /// One entry of the product by dot.
    pub fn combinatorial_derivative_dot(&self, other: &Self, m: usize, n: usize) -> Result<f64, Refusal> {
        entry_uv(ffi::surface_combinatorial_derivative_dot, self, other, (m, n))
    }

    /// One entry of the product by cross.
    pub fn combinatorial_derivative_cross(&self, other: &Self, m: usize, n: usize) -> Result<[f64; 3], Refusal> {
        entry_uv(ffi::surface_combinatorial_derivative_cross, self, other, (m, n))
    }

    /// The product with floats, at the smaller order.
    pub fn combinatorial_derivatives_scaled(&self, other: &SurfaceDerivatives<f64>) -> Result<Self, Refusal> {
        of_two(ffi::surface_combinatorial_derivatives_scaled, self, other)
    }

    /// The product by dot.
    pub fn combinatorial_derivatives_dot(&self, other: &Self) -> Result<SurfaceDerivatives<f64>, Refusal> {
        of_two(ffi::surface_combinatorial_derivatives_dot, self, other)
    }

    /// The product by cross.
    pub fn combinatorial_derivatives_cross(&self, other: &Self) -> Result<Self, Refusal> {
        of_two(ffi::surface_combinatorial_derivatives_cross, self, other)
    }

    /// This over the weights, at the smaller order.
    pub fn rational_derivatives(&self, weights: &SurfaceDerivatives<f64>) -> Result<Self, Refusal> {
        of_two(ffi::vector_surface_rational_derivatives, self, weights)
    }

    /// The norm.
    ///
    /// ```
    /// use sugamdely::derivatives::SurfaceDerivatives;
    ///
    /// let a = SurfaceDerivatives::new(1, &[[3.0, 4.0, 0.0], [5.0, 5.0, 0.0], [5.0, 5.0, 0.0]])?;
    /// assert_eq!(a.absolute_derivatives()?.entries(), [5.0, 7.0, 7.0]);
    /// # Ok::<(), sugamdely::Refusal>(())
    /// ```
    pub fn absolute_derivatives(&self) -> Result<SurfaceDerivatives<f64>, Refusal> { of_one(ffi::surface_absolute_derivatives, self, self.order()) }
}
