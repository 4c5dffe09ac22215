//! The reference's side: its plans, checks and calls.
use crate::answers::{Answer, caught};
use crate::families::Line;
use crate::image_store::{BufferStore, CheckStoreDensity};
use crate::lists::{Bits, Call};
use crate::math::WeightsGenerator;
use crate::plan::{DefaultPlanner, MultiStepResamplePlan};
use crate::steps::{self, Step, at_place, ends};
use crate::{ImageSize, ImageStore, ImageStoreMut, PicScaleError, Resampling, Scaler, ThreadingPolicy};
use japotuhe::{Numbers, Part, Plan, Request, Stage};
use std::borrow::Cow;
use std::sync::Arc;

pub(crate) fn source<'a, T: Line, const N: usize>(buffer: &'a [T], n: &Numbers) -> ImageStore<'a, T, N> {
    ImageStore { buffer: Cow::Borrowed(buffer), channels: N, width: n.width, height: n.height, stride: n.stride, bit_depth: n.bit_depth }
}

pub(crate) fn target<'a, T, const N: usize>(buffer: &'a mut [T], n: &Numbers) -> ImageStoreMut<'a, T, N> {
    ImageStoreMut { buffer: BufferStore::Borrowed(buffer), channels: N, width: n.width, height: n.height, stride: n.stride, bit_depth: n.bit_depth }
}

// All policies but Single go by the route Whole; which of them does not matter without threads.
pub(crate) fn scaler_of(request: &Request) -> Scaler {
    let mut scaler = Scaler::new(at_place(request.function));
    scaler.multi_step_upscaling = request.multi_step > 0;
    scaler.supersampling = request.supersampling > 0;
    if request.whole > 0 {
        let others = [ThreadingPolicy::Fixed(1), ThreadingPolicy::Fixed(2), ThreadingPolicy::Adaptive];
        scaler.threading_policy = others[request.source_width % 3];
    }
    scaler
}

// What the reference says of a plan for the port's steps; `same` if they are its own.
#[derive(Default)]
pub(crate) struct Chain {
    pub(crate) stages: Vec<Stage>,
    pub(crate) plan: Plan,
    pub(crate) same: bool,
}

type Plans<T, const N: usize> = Vec<Arc<Resampling<T, N>>>;

fn step_plans<T: Line + WeightsGenerator<f32>, const N: usize>(scaler: &Scaler, s: ImageSize, steps: &[Step]) -> Result<Plans<T, N>, PicScaleError>
where
    for<'b> ImageStoreMut<'b, T, N>: CheckStoreDensity,
{
    let mut from = s;
    let mut plans = vec![];
    for &(function, size) in steps {
        let mut by = *scaler;
        by.function = function;
        plans.push(by.build_single_step_plan::<T, f32, N>(from, size, 8)?);
        from = size;
    }
    Ok(plans)
}

fn buffers<T: Copy, const N: usize>(plans: &Plans<T, N>) -> Plan {
    let size = |v: ImageSize| v.width * v.height * N;
    let halves = plans[..plans.len() - 1].iter().map(|p| size(p.target_size()));
    Plan { stages: plans.len(), work: plans.iter().map(|p| p.scratch_size()).max().unwrap_or(0), half: halves.max().unwrap_or(0) }
}

fn chain<T: Line + WeightsGenerator<f32>, const N: usize>(request: &Request) -> Result<Chain, PicScaleError>
where
    for<'b> ImageStoreMut<'b, T, N>: CheckStoreDensity,
{
    let (scaler, (s, t)) = (scaler_of(request), ends(request));
    let plan = DefaultPlanner::plan_generic_resize::<T, f32, N>(&scaler, s, t, 8)?;
    if [s.width, s.height, t.width, t.height].iter().any(|v| !(1..65_536).contains(v)) {
        return Ok(Chain::default());
    }
    let (own, port) = (steps::own(&scaler, s, t), steps::port(&scaler, s, t));
    let needs = buffers(&step_plans::<T, N>(&scaler, s, &own)?);
    // These are the reference's own steps only if it asks for the scratch that they need.
    assert_eq!(plan.scratch_size(), needs.work + 2 * needs.half, "{request:?}");
    let plan = buffers(&step_plans::<T, N>(&scaler, s, &port)?);
    Ok(Chain { stages: steps::stages(s, &port), plan, same: own == port })
}

// Whose steps a call is run by.
#[derive(Clone, Copy, PartialEq)]
pub(crate) enum By {
    Own,
    Port,
}

fn plan_by<T: Line + WeightsGenerator<f32>, const N: usize>(request: &Request, by: By) -> Result<Arc<Resampling<T, N>>, PicScaleError>
where
    for<'b> ImageStoreMut<'b, T, N>: CheckStoreDensity,
{
    let (scaler, (s, t)) = (scaler_of(request), ends(request));
    if by == By::Own {
        return DefaultPlanner::plan_generic_resize::<T, f32, N>(&scaler, s, t, 8);
    }
    let mut plans = step_plans::<T, N>(&scaler, s, &steps::port(&scaler, s, t))?;
    if plans.len() == 1 {
        return Ok(plans.remove(0));
    }
    Ok(Arc::new(MultiStepResamplePlan::new(plans, s, t)))
}

// One call, with a scratch that lacks `short` elements or has some to spare. Also whether the scratch is as it was.
fn call<T: Bits, const N: usize>(call: &Call<T>, by: By, short: usize, pixels: &[T], from: &Numbers, buffer: &mut [T], sheet: &Numbers) -> (Answer, bool)
where
    for<'b> ImageStoreMut<'b, T, N>: CheckStoreDensity,
{
    let mut kept = true;
    let (answer, _) = caught(|| {
        let plan = plan_by::<T, N>(&call.request, by)?;
        let spare = if short == 0 { call.lengths[0] % 3 } else { 0 };
        let mut scratch = vec![call.fill; plan.scratch_size().saturating_sub(short) + spare];
        let (from, mut into) = (source::<T, N>(pixels, from), target::<T, N>(buffer, sheet));
        let result = match call.window {
            None => plan.resample_with_scratch(&from, &mut into, &mut scratch),
            Some(w) => into.crop(w.x, w.y, w.width, w.height).and_then(|mut part| plan.resample_with_scratch(&from, &mut part, &mut scratch)),
        };
        kept = scratch.iter().all(|v| v.bits() == call.fill.bits());
        result
    });
    (answer, kept)
}

// Each stage by a plan of its own, into an image of its own; the last into the sheet.
fn staged<T: Bits, const N: usize>(call: &Call<T>, pixels: &[T], from: &Numbers, buffer: &mut [T], sheet: &Numbers) -> Result<(), PicScaleError>
where
    for<'b> ImageStoreMut<'b, T, N>: CheckStoreDensity,
{
    let (scaler, (s, t)) = (scaler_of(&call.request), ends(&call.request));
    let plans = step_plans::<T, N>(&scaler, s, &steps::port(&scaler, s, t))?;
    let (last, firsts) = plans.split_last().unwrap();
    let (mut image, mut numbers) = (pixels.to_vec(), *from);
    for plan in firsts {
        let size = plan.target_size();
        let next = Numbers { channels: N, width: size.width, height: size.height, stride: 0, bit_depth: sheet.bit_depth };
        let mut made = vec![T::default(); size.width * size.height * N];
        plan.resample(&source::<T, N>(&image, &numbers), &mut target::<T, N>(&mut made, &next))?;
        (image, numbers) = (made, next);
    }
    let (from, mut into) = (source::<T, N>(&image, &numbers), target::<T, N>(buffer, sheet));
    match call.window {
        None => last.resample(&from, &mut into),
        Some(w) => into.crop(w.x, w.y, w.width, w.height).and_then(|mut part| last.resample(&from, &mut part)),
    }
}

fn checked<T: Line, const N: usize>(pixels: &[T], n: &Numbers) -> Result<(), PicScaleError> {
    source::<T, N>(pixels, n).validate()
}

// The sheet's check, and the window's.
fn into_checked<T: Line, const N: usize>(buffer: &mut [T], n: &Numbers, window: Option<Part>) -> Result<(), PicScaleError> {
    let mut into = target::<T, N>(buffer, n);
    match window {
        None => into.validate(),
        Some(w) => into.crop(w.x, w.y, w.width, w.height).and_then(|part| part.validate()),
    }
}

// The numbers of a crop, and how many elements it has.
fn cropped<T: Line, const N: usize>(pixels: &[T], n: &Numbers, part: &Part) -> Result<(Numbers, usize), PicScaleError> {
    let store = source::<T, N>(pixels, n);
    let crop = store.crop(part.x, part.y, part.width, part.height)?;
    let numbers = Numbers { channels: crop.channels, width: crop.width, height: crop.height, stride: crop.stride, bit_depth: crop.bit_depth };
    Ok((numbers, crop.buffer.len()))
}

// The reference's calls on an element type, for a number of channels that it can have.
pub(crate) trait Element: Bits {
    fn chain(request: &Request) -> Result<Chain, PicScaleError>;
    fn call(call: &Call<Self>, by: By, short: usize, pixels: &[Self], from: &Numbers, buffer: &mut [Self], sheet: &Numbers) -> (Answer, bool);
    fn staged(call: &Call<Self>, pixels: &[Self], from: &Numbers, buffer: &mut [Self], sheet: &Numbers) -> Result<(), PicScaleError>;
    fn checked(pixels: &[Self], n: &Numbers) -> Result<(), PicScaleError>;
    fn into_checked(buffer: &mut [Self], n: &Numbers, window: Option<Part>) -> Result<(), PicScaleError>;
    fn cropped(pixels: &[Self], n: &Numbers, part: &Part) -> Result<(Numbers, usize), PicScaleError>;
}

macro_rules! by_channels {
    ($n:expr, $f:ident, $t:ident, $($a:expr),*) => {
        match $n {
            1 => $f::<$t, 1>($($a),*),
            2 => $f::<$t, 2>($($a),*),
            3 => $f::<$t, 3>($($a),*),
            4 => $f::<$t, 4>($($a),*),
            n => panic!("the reference has no {n} channels"),
        }
    };
}

macro_rules! elements {
    ($($t:ident)*) => {$(
        impl Element for $t {
            fn chain(request: &Request) -> Result<Chain, PicScaleError> {
                by_channels!(request.channels, chain, $t, request)
            }
            fn call(c: &Call<$t>, by: By, short: usize, pixels: &[$t], from: &Numbers, buffer: &mut [$t], sheet: &Numbers) -> (Answer, bool) {
                by_channels!(c.request.channels, call, $t, c, by, short, pixels, from, buffer, sheet)
            }
            fn staged(c: &Call<$t>, pixels: &[$t], from: &Numbers, buffer: &mut [$t], sheet: &Numbers) -> Result<(), PicScaleError> {
                by_channels!(c.request.channels, staged, $t, c, pixels, from, buffer, sheet)
            }
            fn checked(pixels: &[$t], n: &Numbers) -> Result<(), PicScaleError> {
                by_channels!(n.channels, checked, $t, pixels, n)
            }
            fn into_checked(buffer: &mut [$t], n: &Numbers, window: Option<Part>) -> Result<(), PicScaleError> {
                by_channels!(n.channels, into_checked, $t, buffer, n, window)
            }
            fn cropped(pixels: &[$t], n: &Numbers, part: &Part) -> Result<(Numbers, usize), PicScaleError> {
                by_channels!(n.channels, cropped, $t, pixels, n, part)
            }
        }
    )*};
}

elements! { u8 u16 f32 }
