//! Curves and surfaces, as far as the source asks them for jets.

use super::cgmath64::*;
use std::ops::Bound;

pub type ParameterRange = (Bound<f64>, Bound<f64>);

pub trait ParametricCurve: Clone {
    type Point;
    type Vector;
    fn derivative_n(&self, n: usize, t: f64) -> Self::Vector;
    fn evaluate(&self, t: f64) -> Self::Point;
    fn derivative(&self, t: f64) -> Self::Vector;
    fn derivative_2(&self, t: f64) -> Self::Vector;
    fn parameter_range(&self) -> ParameterRange;
}

pub trait ParametricCurve3D {
    fn derivatives(&self, n: usize, t: f64) -> CurveDerivatives<Vector3>;
}

pub trait ParametricSurface3D {
    fn derivatives(&self, n: usize, u: f64, v: f64) -> SurfaceDerivatives<Vector3>;
    fn normal(&self, u: f64, v: f64) -> Vector3;
}

/// Searches are not compared: the circle and the foot parameters are handed in.
pub trait SearchParameter<D> {
    type Point;
}

pub struct SurfaceParameter;
