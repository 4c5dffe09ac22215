//! Plans of the reference behind an interface without its types. A plan is made once, and so is its scratch buffer.
use crate::convolution::{HorizontalFilterPass, VerticalConvolutionPass};
use crate::families::Family;
use crate::image_store::{BufferStore, CheckStoreDensity};
use crate::math::WeightsGenerator;
use crate::plan::DefaultPlanner;
use crate::{ImageSize, ImageStore, ImageStoreMut, Resampling, ResamplingFunction, Scaler, ThreadingPolicy};
use std::sync::Arc;

/// What is planned; the function is by its place (docs/FUNCTIONS.md), `depth` the destination's.
#[derive(Clone, Copy)]
pub struct Asked {
    pub function: u8,
    pub multi_step: bool,
    pub supersampling: bool,
    pub whole: bool,
    pub channels: usize,
    pub source: (usize, usize),
    pub target: (usize, usize),
    pub depth: usize,
}

pub trait Plan<T> {
    /// The target begins at the first element of `into`, whose rows are `stride` apart.
    fn resample(&mut self, from: &[T], into: &mut [T], stride: usize);
}

struct Planned<T, const N: usize> {
    plan: Arc<Resampling<T, N>>,
    scratch: Vec<T>,
    asked: Asked,
}

impl<T: Family, const N: usize> Plan<T> for Planned<T, N> {
    fn resample(&mut self, from: &[T], into: &mut [T], stride: usize) {
        let ((sw, sh), (width, height)) = (self.asked.source, self.asked.target);
        let source = ImageStore::<T, N>::from_slice(from, sw, sh).expect("a source");
        let (buffer, bit_depth) = (BufferStore::Borrowed(into), self.asked.depth);
        let mut into = ImageStoreMut::<T, N> { buffer, channels: N, width, height, stride, bit_depth };
        self.plan.resample_with_scratch(&source, &mut into, &mut self.scratch).expect("granted");
    }
}

fn planned<T: Family + WeightsGenerator<f32>, const N: usize>(asked: Asked) -> Box<dyn Plan<T>>
where
    for<'a> ImageStore<'a, T, N>: VerticalConvolutionPass<T, f32, N> + HorizontalFilterPass<T, f32, N>,
    for<'a> ImageStoreMut<'a, T, N>: CheckStoreDensity,
{
    let mut scaler = Scaler::new(match asked.function {
        0 => ResamplingFunction::Bilinear,
        1 => ResamplingFunction::Nearest,
        _ => ResamplingFunction::Box,
    });
    scaler.multi_step_upscaling = asked.multi_step;
    scaler.supersampling = asked.supersampling;
    scaler.threading_policy = if asked.whole { ThreadingPolicy::Fixed(1) } else { ThreadingPolicy::Single };
    let (from, to) = (ImageSize::new(asked.source.0, asked.source.1), ImageSize::new(asked.target.0, asked.target.1));
    let plan = DefaultPlanner::plan_generic_resize::<T, f32, N>(&scaler, from, to, asked.depth).expect("a plan");
    let scratch = plan.alloc_scratch();
    Box::new(Planned { plan, scratch, asked })
}

macro_rules! plans {
    ($($name:ident $t:ident;)*) => {$(
        pub fn $name(asked: Asked) -> Box<dyn Plan<$t>> {
            match asked.channels {
                1 => planned::<$t, 1>(asked),
                2 => planned::<$t, 2>(asked),
                3 => planned::<$t, 3>(asked),
                _ => planned::<$t, 4>(asked),
            }
        }
    )*};
}

plans! { plan_u8 u8; plan_u16 u16; plan_f32 f32; }
