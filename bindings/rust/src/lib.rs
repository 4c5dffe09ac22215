//! Safe Rust over the C calls of the resizer (bindings/c/japotuhe.h, which says what each does).

/// The values of a refusal; those that it does not carry are 0.
#[repr(C)]
#[derive(Clone, Copy, Debug, Default, PartialEq, Eq)]
pub struct Values {
    pub first: usize,
    pub second: usize,
    pub third: usize,
    pub fourth: usize,
    pub fifth: usize,
    pub sixth: usize,
}

impl Values {
    pub fn to_array(self) -> [usize; 6] {
        [self.first, self.second, self.third, self.fourth, self.fifth, self.sixth]
    }
}

/// A refusal, by its number and the values that it carries (docs/REFUSALS.md).
#[derive(Clone, Copy, Debug, PartialEq, Eq)]
pub struct Refusal {
    pub number: usize,
    pub values: Values,
}

impl std::fmt::Display for Refusal {
    fn fmt(&self, f: &mut std::fmt::Formatter<'_>) -> std::fmt::Result {
        write!(f, "refused {}, {:?}", self.number, self.values.to_array())
    }
}

impl std::error::Error for Refusal {}

/// What is planned: the function by its place (docs/FUNCTIONS.md), flags, where 0 means off, and the sizes.
#[repr(C)]
#[derive(Clone, Copy, Debug, Default, PartialEq, Eq)]
pub struct Request {
    pub function: u8,
    pub multi_step: u8,
    pub supersampling: u8,
    pub whole: u8,
    pub channels: usize,
    pub source_width: usize,
    pub source_height: usize,
    pub target_width: usize,
    pub target_height: usize,
}

/// The numbers of a store, in elements; a stride of 0 means rows without gaps.
#[repr(C)]
#[derive(Clone, Copy, Debug, Default, PartialEq, Eq)]
pub struct Numbers {
    pub channels: usize,
    pub width: usize,
    pub height: usize,
    pub stride: usize,
    pub bit_depth: usize,
}

/// A window of a sheet, or a crop of a source.
#[repr(C)]
#[derive(Clone, Copy, Debug, Default, PartialEq, Eq)]
pub struct Part {
    pub x: usize,
    pub y: usize,
    pub width: usize,
    pub height: usize,
}

/// What a plan has: its stages, and the elements that its work buffer and each of its halves need.
#[repr(C)]
#[derive(Clone, Copy, Debug, Default, PartialEq, Eq)]
pub struct Plan {
    pub stages: usize,
    pub work: usize,
    pub half: usize,
}

/// One stage: its letter (B, V, H, N or C), function and sizes.
#[repr(C)]
#[derive(Clone, Copy, Debug, Default, PartialEq, Eq)]
pub struct Stage {
    pub letter: u32,
    pub function: u8,
    pub source_width: usize,
    pub source_height: usize,
    pub target_width: usize,
    pub target_height: usize,
}

// The archive is of a machine whose numbers have 64 bits.
const _: () = assert!(size_of::<Values>() == 48 && size_of::<Request>() == 48 && size_of::<Numbers>() == 40);
const _: () = assert!(size_of::<Part>() == 32 && size_of::<Plan>() == 24 && size_of::<Stage>() == 40);

/// The buffers that a call works in; what they hold before it changes nothing of what it makes.
pub struct Buffers<'a, T> {
    pub work: &'a mut [T],
    pub first: &'a mut [T],
    pub second: &'a mut [T],
}

type PlanCall = unsafe extern "C" fn(&Request, usize, &mut Plan, &mut Stage, &mut Values) -> usize;
#[rustfmt::skip]
type ResampleCall<T> = unsafe extern "C" fn(
    &Request, *const T, usize, &Numbers, *mut T, usize, &Numbers, *mut T, usize, *mut T, usize, *mut T, usize,
    &mut Values,
) -> usize;
#[rustfmt::skip]
type WindowCall<T> = unsafe extern "C" fn(
    &Request, *const T, usize, &Numbers, *mut T, usize, &Numbers, &Part, *mut T, usize, *mut T, usize, *mut T, usize,
    &mut Values,
) -> usize;
type CropCall<T> =
    unsafe extern "C" fn(*const T, usize, &Numbers, &Part, &mut Numbers, &mut usize, &mut Values) -> usize;

mod sealed {
    // The calls of a family are trusted, so that no other may be made.
    pub trait Sealed {}
}

/// A kernel family with its element type, and its calls.
pub trait Family: sealed::Sealed {
    type Element: Copy;
    const PLAN: PlanCall;
    const RESAMPLE: ResampleCall<Self::Element>;
    const WINDOW: WindowCall<Self::Element>;
    const CROP: CropCall<Self::Element>;
}

macro_rules! families {
    ($($(#[$doc:meta])* $name:ident of $t:ident: $plan:ident $resample:ident $window:ident $crop:ident;)*) => {
        #[link(name = "boundary", kind = "static")]
        #[link(name = "libc_c", kind = "static")]
        unsafe extern "C" {$(
            fn $plan(request: &Request, number: usize, plan: &mut Plan, stage: &mut Stage, told: &mut Values) -> usize;
            fn $resample(
                request: &Request, from: *const $t, from_length: usize, source: &Numbers,
                into: *mut $t, into_length: usize, sheet: &Numbers, work: *mut $t, work_length: usize,
                first: *mut $t, first_length: usize, second: *mut $t, second_length: usize, told: &mut Values,
            ) -> usize;
            fn $window(
                request: &Request, from: *const $t, from_length: usize, source: &Numbers,
                into: *mut $t, into_length: usize, sheet: &Numbers, window: &Part, work: *mut $t, work_length: usize,
                first: *mut $t, first_length: usize, second: *mut $t, second_length: usize, told: &mut Values,
            ) -> usize;
        )*}
        $(
            $(#[$doc])*
            pub struct $name;

            impl sealed::Sealed for $name {}

            impl Family for $name {
                type Element = $t;
                const PLAN: PlanCall = $plan;
                const RESAMPLE: ResampleCall<$t> = $resample;
                const WINDOW: WindowCall<$t> = $window;
                const CROP: CropCall<$t> = $crop;
            }
        )*
    };
}

macro_rules! crops {
    ($($crop:ident of $t:ident;)*) => {
        unsafe extern "C" {$(
            fn $crop(
                from: *const $t, from_length: usize, source: &Numbers, part: &Part,
                cropped: &mut Numbers, length: &mut usize, told: &mut Values,
            ) -> usize;
        )*}
    };
}

families! {
    /// Pair of Tent and Span on u8.
    U8 of u8: japotuhe_plan_u8 japotuhe_resample_u8 japotuhe_window_u8 japotuhe_crop_u8;
    /// Pair of Tent and Span on u16.
    U16 of u16: japotuhe_plan_u16 japotuhe_resample_u16 japotuhe_window_u16 japotuhe_crop_u16;
    /// The same, held to the sheet's depth.
    U16Limited of u16:
        japotuhe_plan_u16_limited japotuhe_resample_u16_limited japotuhe_window_u16_limited japotuhe_crop_u16;
    /// FloatTent on f32.
    F32 of f32: japotuhe_plan_f32 japotuhe_resample_f32 japotuhe_window_f32 japotuhe_crop_f32;
}

crops! {
    japotuhe_crop_u8 of u8;
    japotuhe_crop_u16 of u16;
    japotuhe_crop_f32 of f32;
}

fn answer(number: usize, values: Values) -> Result<(), Refusal> {
    if number == 0 { Ok(()) } else { Err(Refusal { number, values }) }
}

/// The plan for a request, and its stages, first to last.
pub fn plan<F: Family>(request: &Request) -> Result<(Plan, Vec<Stage>), Refusal> {
    let (mut plan, mut stages, mut told) = (Plan::default(), vec![], Values::default());
    loop {
        let mut stage = Stage::default();
        // SAFETY: the call reads and writes what it is lent, and nothing else.
        let number = unsafe { F::PLAN(request, stages.len(), &mut plan, &mut stage, &mut told) };
        answer(number, told)?;
        if stages.len() == plan.stages {
            return Ok((plan, stages));
        }
        stages.push(stage);
    }
}

/// Plans, and resamples a source into the whole of a sheet. Gaps, and after a refusal all buffers, stay as they are.
pub fn resample<F: Family>(
    request: &Request,
    from: &[F::Element],
    source: &Numbers,
    into: &mut [F::Element],
    sheet: &Numbers,
    buffers: Buffers<'_, F::Element>,
) -> Result<(), Refusal> {
    let Buffers { work, first, second } = buffers;
    let mut told = Values::default();
    // SAFETY: each pointer and length is a slice's, and the slices that are written to are borrowed for the call alone.
    let number = unsafe {
        F::RESAMPLE(
            request,
            from.as_ptr(),
            from.len(),
            source,
            into.as_mut_ptr(),
            into.len(),
            sheet,
            work.as_mut_ptr(),
            work.len(),
            first.as_mut_ptr(),
            first.len(),
            second.as_mut_ptr(),
            second.len(),
            &mut told,
        )
    };
    answer(number, told)
}

/// The same into a window of a sheet; the rest of the sheet stays as it is.
pub fn resample_window<F: Family>(
    request: &Request,
    from: &[F::Element],
    source: &Numbers,
    into: &mut [F::Element],
    sheet: &Numbers,
    window: &Part,
    buffers: Buffers<'_, F::Element>,
) -> Result<(), Refusal> {
    let Buffers { work, first, second } = buffers;
    let mut told = Values::default();
    // SAFETY: as of `resample`.
    let number = unsafe {
        F::WINDOW(
            request,
            from.as_ptr(),
            from.len(),
            source,
            into.as_mut_ptr(),
            into.len(),
            sheet,
            window,
            work.as_mut_ptr(),
            work.len(),
            first.as_mut_ptr(),
            first.len(),
            second.as_mut_ptr(),
            second.len(),
            &mut told,
        )
    };
    answer(number, told)
}

/// The part of a source: its numbers, and its elements within the same buffer.
pub fn crop<'a, F: Family>(
    from: &'a [F::Element],
    source: &Numbers,
    part: &Part,
) -> Result<(Numbers, &'a [F::Element]), Refusal> {
    let (mut cropped, mut length, mut told) = (Numbers::default(), 0, Values::default());
    // SAFETY: pointer and length are a slice's.
    let number = unsafe { F::CROP(from.as_ptr(), from.len(), source, part, &mut cropped, &mut length, &mut told) };
    answer(number, told)?;
    Ok((cropped, &from[from.len() - length..]))
}
