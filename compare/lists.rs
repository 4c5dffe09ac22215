//! What is compared: lists of calls on one sheet.
use crate::families::Line;
use crate::math::WeightsGenerator;
use japotuhe::{Family, Numbers, Part, Request};

#[derive(Clone, Debug)]
pub(crate) struct Call<T> {
    pub(crate) request: Request,
    // none: a resample into the whole sheet
    pub(crate) window: Option<Part>,
    pub(crate) source: Numbers,
    pub(crate) pixels: Vec<T>,
    // a crop that is made first, and resampled from
    pub(crate) crop: Option<Part>,
    // of work buffer, first half and second half, which hold `fill` before the call
    pub(crate) lengths: [usize; 3],
    pub(crate) fill: T,
}

#[derive(Clone, Debug)]
pub(crate) struct List<T> {
    pub(crate) sheet: Numbers,
    pub(crate) before: Vec<T>,
    pub(crate) calls: Vec<Call<T>>,
}

// An element type, read from and shown as 32 bits. All NaNs count as one.
pub(crate) trait Bits: Line + WeightsGenerator<f32> {
    fn of_bits(bits: u32) -> Self;
    fn bits(self) -> u32;
}

macro_rules! whole_numbers {
    ($($t:ident)*) => {$(
        impl Bits for $t {
            fn of_bits(bits: u32) -> $t { bits as $t }
            fn bits(self) -> u32 { self as u32 }
        }
    )*};
}

whole_numbers! { u8 u16 }

pub(crate) const NAN: u32 = 0x7fc0_0000;

impl Bits for f32 {
    fn of_bits(bits: u32) -> f32 {
        f32::from_bits(bits)
    }
    fn bits(self) -> u32 {
        if self.is_nan() { NAN } else { self.to_bits() }
    }
}

pub(crate) fn same<T: Bits>(a: &[T], b: &[T]) -> bool {
    a.len() == b.len() && a.iter().zip(b).all(|(x, y)| x.bits() == y.bits())
}

// Each element after a space.
pub(crate) fn shown<T: Bits>(elements: &[T]) -> String {
    elements.iter().map(|v| format!(" {}", v.bits())).collect()
}

// The families that the port's library exports, with the reference's names for them.
pub(crate) trait Kind {
    type T: crate::origin::Element;
    type Port: Family<Element = Self::T>;
    const NAME: &'static str;
    const LIMIT: bool;
}

macro_rules! kinds {
    ($($kind:ident $t:ident $name:literal $limit:literal;)*) => {$(
        pub(crate) struct $kind;
        impl Kind for $kind {
            type T = $t;
            type Port = japotuhe::$kind;
            const NAME: &'static str = $name;
            const LIMIT: bool = $limit;
        }
    )*};
}

kinds! {
    U8 u8 "u8" false;
    U16 u16 "u16" false;
    U16Limited u16 "limit" true;
    F32 f32 "f32" false;
}
