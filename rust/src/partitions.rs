//! Part lists: the combinatorics of Faà di Bruno's formula.

use crate::refusal::answered;
use crate::{ffi, Refusal};

/// The walk over the nonincreasing lists of `len` positive parts with sum `order`, the greatest first.
///
/// ```
/// use sugamdely::partitions::CompositionIter;
///
/// let lists: Vec<_> = CompositionIter::try_new(5, 2)?.collect();
/// assert_eq!(lists, [[4, 1], [3, 2]]);
/// # Ok::<(), sugamdely::Refusal>(())
/// ```
#[derive(Clone, Debug)]
pub struct CompositionIter {
    /// order, len, whether it has ended, then 20 parts
    walk: [usize; 23],
}

impl CompositionIter {
    /// Refused where `order` is above 20, and where `len` is 0 or above `order`.
    ///
    /// ```
    /// use sugamdely::{partitions::CompositionIter, Refusal};
    ///
    /// assert_eq!(CompositionIter::try_new(20, 20)?.count(), 1);
    /// assert_eq!(CompositionIter::try_new(20, 21).err(), Some(Refusal::NoPartList));
    /// # Ok::<(), Refusal>(())
    /// ```
    pub fn try_new(order: usize, len: usize) -> Result<Self, Refusal> {
        let mut walk = [0; 23];
        answered(ffi::walk_start(order, len, &mut walk))?;
        Ok(CompositionIter { walk })
    }
}

impl Iterator for CompositionIter {
    type Item = Vec<usize>;

    fn next(&mut self) -> Option<Vec<usize>> {
        let mut parts = [0; 20];
        answered(ffi::walk_next(&mut self.walk, &mut parts)).expect("a walk that was started holds a list of its own, or has ended");
        let list: Vec<usize> = parts.into_iter().take_while(|part| *part != 0).collect();
        // Every list has a part.
        (!list.is_empty()).then_some(list)
    }
}

fn count(number: u8, out: [u64; 1]) -> Result<u64, Refusal> { answered(number).map(|()| out[0]) }

/// How often a part list counts in Faà di Bruno's formula. Refused where it is no part list, and where its sum is above 20.
///
/// ```
/// use sugamdely::{partitions::multiplicity, Refusal};
///
/// assert_eq!(multiplicity(&[3, 2]), Ok(10));
/// assert_eq!(multiplicity(&[2, 1, 1]), Ok(6));
/// assert_eq!(multiplicity(&[1, 2]), Err(Refusal::NoPartList));
/// ```
pub fn multiplicity(list: &[usize]) -> Result<u64, Refusal> {
    let mut out = [0];
    count(ffi::multiplicity(list, &mut out), out)
}

/// `n!`, `n` up to 20.
///
/// ```
/// use sugamdely::{partitions::factorial, Refusal};
///
/// assert_eq!(factorial(0), Ok(1));
/// assert_eq!(factorial(20), Ok(2_432_902_008_176_640_000));
/// assert_eq!(factorial(21), Err(Refusal::OrderAbove20));
/// ```
pub fn factorial(n: usize) -> Result<u64, Refusal> {
    let mut out = [0];
    count(ffi::factorial(n, &mut out), out)
}

/// The Stirling number of the second kind, `len` 0 included. Refused where `order` is above 20, and where `len` is above it.
///
/// ```
/// assert_eq!(sugamdely::partitions::stirling_number(20, 2), Ok(524_287));
/// ```
pub fn stirling_number(order: usize, len: usize) -> Result<u64, Refusal> {
    let mut out = [0];
    count(ffi::stirling_number(order, len, &mut out), out)
}

/// The multiplicities of all lists of an order and a `len`, added. It is read from a table: nothing is walked. Refused where the walk is: where `order` is
/// above 20, and where `len` is 0 or above `order`.
///
/// ```
/// use sugamdely::partitions::{multiplicity, total_multiplicity, CompositionIter};
/// use sugamdely::Refusal;
///
/// let walked = CompositionIter::try_new(4, 2)?.map(|list| multiplicity(&list)).sum::<Result<u64, _>>()?;
/// assert_eq!(walked, 7);
/// assert_eq!(total_multiplicity(4, 2)?, walked);
/// assert_eq!(total_multiplicity(4, 0), Err(Refusal::NoPartList));
/// assert_eq!(total_multiplicity(21, 0), Err(Refusal::OrderAbove20));
/// # Ok::<(), Refusal>(())
/// ```
pub fn total_multiplicity(order: usize, len: usize) -> Result<u64, Refusal> {
    let mut out = [0];
    count(ffi::total_multiplicity(order, len, &mut out), out)
}
