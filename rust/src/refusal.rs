use std::fmt;

/// Why a call has no answer.
///
/// They are tested in the order 1, 2, 3, 4, 11, 5; then 6 to 9 at the first operation that meets one; 10 last. A road ([`crate::roads`]) refuses
/// as its calls do, in their order.
///
/// ```
/// use sugamdely::{whole, Refusal};
///
/// let refusal = whole::product(1 << 62, 2).unwrap_err();
/// assert_eq!((refusal, refusal.number()), (Refusal::OutOfRange, 9));
/// assert_eq!(refusal.to_string(), "refused 9: a number is formed that lies outside -2^63 to 2^63 - 1");
/// ```
#[derive(Clone, Copy, Debug, PartialEq, Eq, Hash)]
#[repr(u8)]
pub enum Refusal {
    /// An order is above 20, or the centre's n above 19.
    OrderAbove20 = 1,
    /// An order asked or needed exceeds a jet's, a list has the wrong length, or a jet of order 0 has no derivative.
    Shape = 2,
    /// There are no such part lists, or the parts are not positive and nonincreasing.
    NoPartList = 3,
    /// A recipe has no jet or more than 4, no step or more than 12, or a step that names itself or a later number.
    NoRecipe = 4,
    /// A float handed in is not finite.
    InputNotFinite = 5,
    /// A determinant is zero.
    ZeroDeterminant = 6,
    /// A division by zero is due.
    DivisionByZero = 7,
    /// An exact quotient leaves a remainder.
    Remainder = 8,
    /// A number is formed that lies outside -2^63 to 2^63 - 1.
    OutOfRange = 9,
    /// A float that would be returned is not finite.
    AnswerNotFinite = 10,
    /// This pair of orders is not served.
    PairNotServed = 11,
}

use Refusal::*;

impl Refusal {
    pub const ALL: [Refusal; 11] = [
        OrderAbove20,
        Shape,
        NoPartList,
        NoRecipe,
        InputNotFinite,
        ZeroDeterminant,
        DivisionByZero,
        Remainder,
        OutOfRange,
        AnswerNotFinite,
        PairNotServed,
    ];

    /// The refusal of a number of the C interface, 1 to 11.
    pub fn from_number(number: u8) -> Option<Refusal> { Refusal::ALL.into_iter().find(|refusal| refusal.number() == number) }

    /// Its number in the C interface.
    pub fn number(self) -> u8 { self as u8 }

    fn reason(self) -> &'static str {
        match self {
            OrderAbove20 => "an order is above 20, or the centre's n above 19",
            Shape => "an order asked or needed exceeds a jet's, a list has the wrong length, or a jet of order 0 has no derivative",
            NoPartList => "there are no such part lists, or the parts are not positive and nonincreasing",
            NoRecipe => "a recipe has no jet or more than 4, no step or more than 12, or a step that names itself or a later number",
            InputNotFinite => "a float handed in is not finite",
            ZeroDeterminant => "a determinant is zero",
            DivisionByZero => "a division by zero is due",
            Remainder => "an exact quotient leaves a remainder",
            OutOfRange => "a number is formed that lies outside -2^63 to 2^63 - 1",
            AnswerNotFinite => "a float that would be returned is not finite",
            PairNotServed => "this pair of orders is not served",
        }
    }
}

impl fmt::Display for Refusal {
    fn fmt(&self, f: &mut fmt::Formatter) -> fmt::Result { write!(f, "refused {}: {}", self.number(), self.reason()) }
}

impl std::error::Error for Refusal {}

/// What the C interface returned: 0, or the number of a refusal.
pub(crate) fn answered(number: u8) -> Result<(), Refusal> {
    match number {
        0 => Ok(()),
        _ => Err(Refusal::from_number(number).expect("the library refuses by 1 to 11")),
    }
}
