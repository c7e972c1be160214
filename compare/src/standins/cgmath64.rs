//! The names over f64.

pub use super::cgmath::{AbsDiffEq, BaseFloat, EuclideanSpace, InnerSpace, VectorSpace, Zero};
use super::cgmath;

pub type Vector1 = cgmath::Vector1<f64>;
pub type Vector2 = cgmath::Vector2<f64>;
pub type Vector3 = cgmath::Vector3<f64>;
pub type Vector4 = cgmath::Vector4<f64>;
pub type Point2 = cgmath::Point2<f64>;
pub type Point3 = cgmath::Point3<f64>;
pub type Matrix2 = cgmath::Matrix2<f64>;
pub type Matrix3 = cgmath::Matrix3<f64>;
pub use super::cgmath::Rad;

pub use crate::cgmath_extend_traits::*;
pub use crate::derivatives::{CurveDerivatives, SurfaceDerivatives, MAX_DER_ORDER};
