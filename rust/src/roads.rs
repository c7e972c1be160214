//! Recipes: jets built from given ones step by step, and the two ways to bring a recipe of surfaces and a curve in their parameters together.
//!
//! It is proved that both ways give the same jet: where [`SurfaceRecipe::build_then_carry`] is answered, [`SurfaceRecipe::carry_then_build`] has
//! the same answer, or forms a number outside 64 bits and is refused [`Refusal::OutOfRange`].
//!
//! A road is the sequence of its calls, and the first refusal ends it: the first road tests the recipe ([`Refusal::NoRecipe`]) and works its steps
//! before it carries, the second carries the surfaces before it tests the recipe. An order above 20, or above that of a jet, is met where the road
//! comes to its carry.

use crate::derivatives::Jet;
use crate::exact::{CurveDerivatives, ParameterCurve, SurfaceDerivatives};
use crate::refusal::answered;
use crate::{ffi, Refusal};

/// What a step does with its two jets.
#[derive(Clone, Copy, Debug, PartialEq, Eq)]
pub enum Operation {
    Sum = 0,
    Difference = 1,
    Product = 2,
    Quotient = 3,
}

/// A step names two earlier jets by their numbers.
#[derive(Clone, Copy, Debug, PartialEq, Eq)]
pub struct Step {
    pub operation: Operation,
    pub left: usize,
    pub right: usize,
}

/// 1 to 4 surfaces, numbered from 0, then 1 to 12 steps, numbered on from them. The last step is the result. Every step works at the smallest
/// order among the surfaces.
///
/// ```
/// use sugamdely::exact::{ParameterCurve, SurfaceDerivatives};
/// use sugamdely::roads::{Operation, Step, SurfaceRecipe};
/// use sugamdely::Refusal;
///
/// let surface = SurfaceDerivatives::new(2, &[5, 3, 6, 2, 4, 1])?;
/// let curve = ParameterCurve::new(&[[0, 0], [1, 2], [2, 1]])?;
/// let square = Step { operation: Operation::Product, left: 0, right: 0 };
/// let recipe = SurfaceRecipe { surfaces: vec![surface], steps: vec![square] };
/// let first = recipe.build_then_carry(&curve, 2)?;
/// assert_eq!(first.entries(), [25, 80, 608]);
/// assert_eq!(recipe.carry_then_build(&curve, 2)?, first);
///
/// // the first road has no recipe to build, and the second no jet of order 21 to carry
/// let empty = SurfaceRecipe { steps: vec![], ..recipe };
/// assert_eq!(empty.build_then_carry(&curve, 21), Err(Refusal::NoRecipe));
/// assert_eq!(empty.carry_then_build(&curve, 21), Err(Refusal::OrderAbove20));
/// # Ok::<(), Refusal>(())
/// ```
#[derive(Clone, Debug, PartialEq)]
pub struct SurfaceRecipe {
    pub surfaces: Vec<SurfaceDerivatives>,
    pub steps: Vec<Step>,
}

/// The same over curves.
///
/// ```
/// use sugamdely::roads::{CurveRecipe, Operation, Step};
/// use sugamdely::{exact::CurveDerivatives, Refusal};
///
/// let curves = vec![CurveDerivatives::new(&[1, 2, 3])?, CurveDerivatives::new(&[4, 5, 6])?];
/// let steps = vec![
///     Step { operation: Operation::Product, left: 0, right: 1 },
///     Step { operation: Operation::Quotient, left: 2, right: 0 },
/// ];
/// assert_eq!(CurveRecipe { curves: curves.clone(), steps }.build()?, curves[1]);
///
/// let later = vec![Step { operation: Operation::Sum, left: 5, right: 0 }];
/// assert_eq!(CurveRecipe { curves, steps: later }.build(), Err(Refusal::NoRecipe));
/// # Ok::<(), Refusal>(())
/// ```
#[derive(Clone, Debug, PartialEq)]
pub struct CurveRecipe {
    pub curves: Vec<CurveDerivatives>,
    pub steps: Vec<Step>,
}

/// A recipe as the C interface takes it.
struct Lists {
    orders: Vec<usize>,
    entries: Vec<i64>,
    steps: Vec<usize>,
}

impl Lists {
    fn new<J: Jet<Number = i64>>(jets: &[J], steps: &[Step]) -> Lists {
        Lists {
            orders: jets.iter().map(J::order).collect(),
            entries: jets.iter().flat_map(J::list).copied().collect(),
            steps: steps.iter().flat_map(|s| [s.operation as usize, s.left, s.right]).collect(),
        }
    }

    /// The result has the smallest order.
    fn build<J: Jet<Number = i64>>(&self, call: Build) -> Result<J, Refusal> {
        let mut out = J::blank(self.orders.iter().copied().min().unwrap_or(0));
        answered(call(&self.orders, &self.entries, &self.steps, out.list_mut()))?;
        Ok(out)
    }

    fn carry(&self, call: Carry, curve: &ParameterCurve, order: usize) -> Result<CurveDerivatives, Refusal> {
        let mut out = CurveDerivatives::blank(order);
        answered(call(&self.orders, &self.entries, &self.steps, curve.order(), curve.list(), order, out.list_mut()))?;
        Ok(out)
    }
}

type Build = fn(&[usize], &[i64], &[usize], &mut [i64]) -> u8;
type Carry = fn(&[usize], &[i64], &[usize], usize, &[i64], usize, &mut [i64]) -> u8;

impl CurveRecipe {
    /// The result of the last step.
    pub fn build(&self) -> Result<CurveDerivatives, Refusal> { Lists::new(&self.curves, &self.steps).build(ffi::recipe_curves) }
}

impl SurfaceRecipe {
    fn lists(&self) -> Lists { Lists::new(&self.surfaces, &self.steps) }

    /// The result of the last step.
    pub fn build(&self) -> Result<SurfaceDerivatives, Refusal> { self.lists().build(ffi::recipe_surfaces) }

    /// The first road: builds the surface, then carries it along the curve to an order. What the recipe refuses comes before what the carry does.
    pub fn build_then_carry(&self, curve: &ParameterCurve, order: usize) -> Result<CurveDerivatives, Refusal> {
        self.lists().carry(ffi::build_then_carry, curve, order)
    }

    /// The second road: carries every surface along the curve, used or not, then builds with the curves. What a carry refuses comes before what the
    /// recipe does; of more than 4 surfaces, which make no recipe, the first 4 are carried.
    pub fn carry_then_build(&self, curve: &ParameterCurve, order: usize) -> Result<CurveDerivatives, Refusal> {
        self.lists().carry(ffi::carry_then_build, curve, order)
    }
}
