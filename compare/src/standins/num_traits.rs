//! Zero, one and numbers made from whole numbers.

pub trait Zero: Sized + std::ops::Add<Self, Output = Self> {
    fn zero() -> Self;
}

pub trait One: Sized {
    fn one() -> Self;
}

impl Zero for f64 {
    fn zero() -> Self { 0.0 }
}

impl One for f64 {
    fn one() -> Self { 1.0 }
}

pub trait ToPrimitive {
    fn to_f64(&self) -> f64;
}

macro_rules! to_primitive {
    ($($whole:ty),*) => { $(
        impl ToPrimitive for $whole {
            fn to_f64(&self) -> f64 { *self as f64 }
        }
    )* };
}
to_primitive!(i32, usize, u128);

pub trait NumCast: Sized {
    fn from<T: ToPrimitive>(n: T) -> Option<Self>;
}

impl NumCast for f64 {
    fn from<T: ToPrimitive>(n: T) -> Option<Self> { Some(n.to_f64()) }
}
