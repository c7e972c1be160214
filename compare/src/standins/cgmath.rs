//! Vectors, points and matrices. Document 01, "Vectors", fixes each order of operations.

use super::{events, pair};
pub use super::num_traits::{NumCast, One, Zero};
use std::fmt::Debug;
use std::ops::*;

pub trait BaseFloat:
    Copy
    + Debug
    + PartialEq
    + PartialOrd
    + Zero
    + One
    + NumCast
    + Add<Output = Self>
    + Sub<Output = Self>
    + Mul<Output = Self>
    + Div<Output = Self>
    + Neg<Output = Self>
    + AddAssign
    + SubAssign
    + MulAssign
    + DivAssign {
    fn sqrt(self) -> Self;
}

impl BaseFloat for f64 {
    fn sqrt(self) -> Self { f64::sqrt(self) }
}

pub trait VectorSpace:
    Copy
    + Zero
    + Add<Self, Output = Self>
    + Sub<Self, Output = Self>
    + Mul<Self::Scalar, Output = Self>
    + Div<Self::Scalar, Output = Self> {
    type Scalar: BaseFloat;
}

pub trait InnerSpace: VectorSpace {
    /// The products of the components, added in turn; no leading zero.
    fn dot(self, other: Self) -> Self::Scalar;
    fn magnitude2(self) -> Self::Scalar { self.dot(self) }
    fn magnitude(self) -> Self::Scalar { self.magnitude2().sqrt() }
}

pub trait EuclideanSpace: Copy {
    type Scalar: BaseFloat;
    type Diff: VectorSpace<Scalar = Self::Scalar>;
    fn from_vec(v: Self::Diff) -> Self;
    fn to_vec(self) -> Self::Diff;
}

/// Equality up to a number.
pub trait AbsDiffEq {
    type Epsilon;
    fn default_epsilon() -> Self::Epsilon;
    fn abs_diff_eq(&self, other: &Self, epsilon: Self::Epsilon) -> bool;
}

impl AbsDiffEq for f64 {
    type Epsilon = f64;
    fn default_epsilon() -> f64 { f64::EPSILON }
    fn abs_diff_eq(&self, other: &f64, epsilon: f64) -> bool { (self - other).abs() <= epsilon }
}

macro_rules! components {
    ($name:ident, $($field:ident $index:tt),*) => {
        #[derive(Clone, Copy, Debug, PartialEq)]
        pub struct $name<S> { $(pub $field: S),* }

        impl<S> $name<S> {
            pub const fn new($($field: S),*) -> Self { Self { $($field),* } }
        }
        impl<S> Index<usize> for $name<S> {
            type Output = S;
            fn index(&self, index: usize) -> &S {
                match index {
                    $($index => &self.$field,)*
                    _ => panic!("no component {index}"),
                }
            }
        }
    };
}

macro_rules! vector {
    ($name:ident, $($field:ident $index:tt $scalar:ident),*) => {
        components!($name, $($field $index),*);

        impl<S: BaseFloat> Add for $name<S> {
            type Output = Self;
            fn add(self, o: Self) -> Self { Self { $($field: self.$field + o.$field),* } }
        }
        impl<S: BaseFloat> Sub for $name<S> {
            type Output = Self;
            fn sub(self, o: Self) -> Self { Self { $($field: self.$field - o.$field),* } }
        }
        impl<S: BaseFloat> Neg for $name<S> {
            type Output = Self;
            fn neg(self) -> Self { Self { $($field: -self.$field),* } }
        }
        impl<S: BaseFloat> Mul<S> for $name<S> {
            type Output = Self;
            fn mul(self, k: S) -> Self { Self { $($field: self.$field * k),* } }
        }
        impl<S: BaseFloat> Div<S> for $name<S> {
            type Output = Self;
            fn div(self, k: S) -> Self {
                if k == S::zero() {
                    events::note(7);
                }
                Self { $($field: self.$field / k),* }
            }
        }
        impl Mul<$name<f64>> for f64 {
            type Output = $name<f64>;
            fn mul(self, v: $name<f64>) -> $name<f64> { $name { $($field: self * v.$field),* } }
        }
        impl<S: BaseFloat> Zero for $name<S> {
            fn zero() -> Self { Self { $($field: S::zero()),* } }
        }
        impl<S: BaseFloat> VectorSpace for $name<S> {
            type Scalar = S;
        }
        impl<S: BaseFloat> InnerSpace for $name<S> {
            fn dot(self, o: Self) -> S { sum!($(self.$field * o.$field),*) }
        }
        impl<S> From<($($scalar,)*)> for $name<S> {
            fn from(($($field,)*): ($($scalar,)*)) -> Self { Self { $($field),* } }
        }
        impl AbsDiffEq for $name<f64> {
            type Epsilon = f64;
            fn default_epsilon() -> f64 { f64::EPSILON }
            fn abs_diff_eq(&self, o: &Self, epsilon: f64) -> bool { true $(&& self.$field.abs_diff_eq(&o.$field, epsilon))* }
        }
    };
}

/// a + b + c ..., from the left.
macro_rules! sum {
    ($first:expr $(, $next:expr)*) => { $first $(+ $next)* };
}

vector!(Vector1, x 0 S);
vector!(Vector2, x 0 S, y 1 S);
vector!(Vector3, x 0 S, y 1 S, z 2 S);
vector!(Vector4, x 0 S, y 1 S, z 2 S, w 3 S);

impl<S: BaseFloat> Vector1<S> {
    pub fn extend(self, y: S) -> Vector2<S> { Vector2::new(self.x, y) }
}

impl<S: BaseFloat> Vector3<S> {
    pub fn truncate(self) -> Vector2<S> { Vector2::new(self.x, self.y) }
    pub fn extend(self, w: S) -> Vector4<S> { Vector4::new(self.x, self.y, self.z, w) }
    pub fn cross(self, o: Self) -> Self {
        Self::new(
            self.y * o.z - self.z * o.y,
            self.z * o.x - self.x * o.z,
            self.x * o.y - self.y * o.x,
        )
    }
}

impl<S: BaseFloat> Vector4<S> {
    pub fn truncate(self) -> Vector3<S> { Vector3::new(self.x, self.y, self.z) }
}

macro_rules! point {
    ($name:ident, $vector:ident, $($field:ident $index:tt),*) => {
        components!($name, $($field $index),*);

        impl<S: BaseFloat> Sub for $name<S> {
            type Output = $vector<S>;
            fn sub(self, o: Self) -> $vector<S> { $vector::new($(self.$field - o.$field),*) }
        }
        impl<S: BaseFloat> EuclideanSpace for $name<S> {
            type Scalar = S;
            type Diff = $vector<S>;
            fn from_vec(v: $vector<S>) -> Self { Self { $($field: v.$field),* } }
            fn to_vec(self) -> $vector<S> { $vector::new($(self.$field),*) }
        }
    };
}

point!(Point1, Vector1, x 0);
point!(Point2, Vector2, x 0, y 1);
point!(Point3, Vector3, x 0, y 1, z 2);

impl<S: BaseFloat> Point3<S> {
    pub fn to_homogeneous(self) -> Vector4<S> { self.to_vec().extend(S::one()) }
}

#[derive(Clone, Copy, Debug, PartialEq)]
pub struct Rad<S>(pub S);

impl<S: BaseFloat> Mul<S> for Rad<S> {
    type Output = Self;
    fn mul(self, k: S) -> Self { Rad(self.0 * k) }
}

/// Columns x and y.
#[derive(Clone, Copy, Debug, PartialEq)]
pub struct Matrix2<S> {
    pub x: Vector2<S>,
    pub y: Vector2<S>,
}

impl<S: BaseFloat> Matrix2<S> {
    /// Column by column.
    pub const fn new(a: S, c: S, b: S, d: S) -> Self { Self { x: Vector2::new(a, c), y: Vector2::new(b, d) } }
    /// (a b; c d): ad - bc.
    pub fn determinant(self) -> S { self.x.x * self.y.y - self.y.x * self.x.y }
    /// (d -b; -c a), each over the determinant.
    pub fn invert(self) -> Option<Self> {
        let det = self.determinant();
        if det == S::zero() {
            events::note(6);
            return None;
        }
        let (a, b, c, d) = (self.x.x, self.y.x, self.x.y, self.y.y);
        Some(Self::new(d / det, -c / det, -b / det, a / det))
    }
}

impl<S: BaseFloat> Neg for Matrix2<S> {
    type Output = Self;
    fn neg(self) -> Self { Self { x: -self.x, y: -self.y } }
}

impl<S: BaseFloat> Mul<Vector2<S>> for Matrix2<S> {
    type Output = Vector2<S>;
    /// Row dots.
    fn mul(self, v: Vector2<S>) -> Vector2<S> {
        Vector2::new(Vector2::new(self.x.x, self.y.x).dot(v), Vector2::new(self.x.y, self.y.y).dot(v))
    }
}

/// Columns x, y and z.
#[derive(Clone, Copy, Debug, PartialEq)]
pub struct Matrix3<S> {
    pub x: Vector3<S>,
    pub y: Vector3<S>,
    pub z: Vector3<S>,
}

impl<S: BaseFloat> Matrix3<S> {
    /// Column by column.
    #[allow(clippy::too_many_arguments)]
    pub const fn new(xx: S, xy: S, xz: S, yx: S, yy: S, yz: S, zx: S, zy: S, zz: S) -> Self {
        Self::from_cols(Vector3::new(xx, xy, xz), Vector3::new(yx, yy, yz), Vector3::new(zx, zy, zz))
    }
    pub const fn from_cols(x: Vector3<S>, y: Vector3<S>, z: Vector3<S>) -> Self { Self { x, y, z } }
    pub fn transpose(self) -> Self {
        Self::from_cols(
            Vector3::new(self.x.x, self.y.x, self.z.x),
            Vector3::new(self.x.y, self.y.y, self.z.y),
            Vector3::new(self.x.z, self.y.z, self.z.z),
        )
    }
    /// c0 . (c1 x c2) over the columns.
    pub fn determinant(self) -> S { self.x.dot(self.y.cross(self.z)) }
    /// Rows c1 x c2, c2 x c0, c0 x c1, each over the determinant.
    pub fn invert(self) -> Option<Self> {
        let det = self.determinant();
        if det == S::zero() {
            events::note(6);
            return None;
        }
        let rows = Self::from_cols(self.y.cross(self.z) / det, self.z.cross(self.x) / det, self.x.cross(self.y) / det);
        Some(rows.transpose())
    }
}

impl Matrix3<f64> {
    /// The turn about `axis` by the angle whose sine and cosine are given (`pair`).
    pub fn from_axis_angle(axis: Vector3<f64>, angle: Rad<f64>) -> Self { Self::from_axis_pair(axis, pair::turned(angle.0, 0)) }

    /// Rodrigues' formula: `rot_der_n` with all orders zero (document 01).
    pub fn from_axis_pair(axis: Vector3<f64>, (s, c): (f64, f64)) -> Self {
        let Vector3 { x, y, z } = axis;
        let k = 1.0 - c;
        Self::new(
            k * x * x + c,
            k * x * y + s * z,
            k * x * z - s * y,
            k * x * y - s * z,
            k * y * y + c,
            k * y * z + s * x,
            k * x * z + s * y,
            k * y * z - s * x,
            k * z * z + c,
        )
    }
}

impl<S: BaseFloat> Add for Matrix3<S> {
    type Output = Self;
    fn add(self, o: Self) -> Self { Self::from_cols(self.x + o.x, self.y + o.y, self.z + o.z) }
}

impl<S: BaseFloat> Zero for Matrix3<S> {
    fn zero() -> Self { Self::from_cols(Vector3::zero(), Vector3::zero(), Vector3::zero()) }
}

impl Mul<Matrix3<f64>> for f64 {
    type Output = Matrix3<f64>;
    fn mul(self, m: Matrix3<f64>) -> Matrix3<f64> { Matrix3::from_cols(self * m.x, self * m.y, self * m.z) }
}

impl<S: BaseFloat> Mul<Vector3<S>> for Matrix3<S> {
    type Output = Vector3<S>;
    /// Row dots.
    fn mul(self, v: Vector3<S>) -> Vector3<S> {
        let rows = self.transpose();
        Vector3::new(rows.x.dot(v), rows.y.dot(v), rows.z.dot(v))
    }
}
