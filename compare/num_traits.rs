//! Stand-in for the traits of num_traits that the reference names.
use std::ops::{Add, Div, Mul, Neg, Rem, Sub};

pub trait AsPrimitive<T: 'static + Copy>: 'static + Copy {
    fn as_(self) -> T;
}

pub trait Signed:
    Sized + Neg<Output = Self> + Add<Output = Self> + Sub<Output = Self> + Mul<Output = Self> + Div<Output = Self> + Rem<Output = Self>
{
    fn abs(&self) -> Self;
}

pub trait Float: Copy + PartialOrd {}

pub trait MulAdd<A = Self, B = Self> {
    type Output;
    fn mul_add(self, a: A, b: B) -> Self::Output;
}

macro_rules! casts {
    ($($from:ident: $($to:ident)*;)*) => {$($(
        impl AsPrimitive<$to> for $from {
            fn as_(self) -> $to { self as $to }
        }
    )*)*};
}

casts! {
    f32: f32 f64 usize;
    f64: f32 f64 usize;
    usize: f32 f64 usize;
}

macro_rules! floats {
    ($($t:ident)*) => {$(
        impl Signed for $t {
            fn abs(&self) -> $t { <$t>::abs(*self) }
        }
        impl Float for $t {}
        impl MulAdd for $t {
            type Output = $t;
            fn mul_add(self, a: $t, b: $t) -> $t { <$t>::mul_add(self, a, b) }
        }
    )*};
}

floats! { f32 f64 }
