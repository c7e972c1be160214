//! Derivative jets of curves and surfaces, exact and of floats, and the arithmetic of a rolling-ball fillet.
//!
//! These are safe functions over a library in Rattle whose every function is proved to meet its contract, never traps and always returns. The
//! names are those of the Rust source that it replaces. What is answered is a value; what is not is a [`Refusal`].
//!
//! A jet of a curve holds its derivatives 0 to N; a jet of a surface holds `s[i][j]`, i times by u and j times by v, for i + j ≤ N. N is 0 to 20.
//!
//! A surface carried along a curve in its parameters, by Faà di Bruno's formula:
//!
//! ```
//! use sugamdely::exact::{ParameterCurve, SurfaceDerivatives};
//!
//! // [0][0] = 5, [0][1] = 3, [0][2] = 6, [1][0] = 2, [1][1] = 4, [2][0] = 1
//! let surface = SurfaceDerivatives::new(2, &[5, 3, 6, 2, 4, 1])?;
//! // u' = 1, u'' = 2, v' = 2, v'' = 1
//! let curve = ParameterCurve::new(&[[0, 0], [1, 2], [2, 1]])?;
//! assert_eq!(surface.composite_derivatives(&curve, 2)?.entries(), [5, 8, 48]);
//!
//! let square = surface.combinatorial_derivatives(&surface)?;
//! assert_eq!(square.composite_derivatives(&curve, 2)?.entries(), [25, 80, 608]);
//! # Ok::<(), sugamdely::Refusal>(())
//! ```

pub mod derivatives;
pub mod exact;
mod ffi;
pub mod partitions;
mod refusal;
pub mod roads;
pub mod rolling_ball_fillet;
pub mod vectors;
pub mod whole;

pub use refusal::Refusal;
