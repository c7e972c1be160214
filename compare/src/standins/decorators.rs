//! The place in which the source's rolling_ball_fillet stands.

pub use super::cgmath64::*;
pub use super::monstertruck_traits::{self, ParameterRange, ParametricCurve3D, ParametricSurface3D, SearchParameter, SurfaceParameter};
pub use std::ops::Mul;

#[derive(Clone, Copy, Debug)]
pub struct RollingBallFilletSurface<C, S0, S1, R> {
    pub edge_curve: C,
    pub surface0: S0,
    pub surface1: S1,
    pub radius: R,
}

#[path = "../rolling_ball_fillet.rs"]
pub mod rolling_ball_fillet;
