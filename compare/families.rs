//! The families of docs/FAMILIES.md, as the reference's filters: Pair of Tent and Span on u8 and u16, FloatTent on f32.
use crate::convolution::{ColumnFilter, ConvolutionOptions, HorizontalFilterPass, RowFilter, VerticalConvolutionPass};
use crate::filter_weights::FilterWeights;
use crate::math::WeightsGenerator;
use crate::{ImageStore, ImageStoreMut, PicScaleError, ResamplingFunction, ThreadingPolicy};
use std::fmt::Debug;
use std::marker::PhantomData;
use std::sync::Arc;
use std::sync::atomic::{AtomicBool, Ordering};

pub(crate) trait Line: Copy + Clone + Debug + Default + Send + Sync + 'static {
    fn knows(function: ResamplingFunction) -> bool;
    // output x of m, of the line of n elements that `at` gives
    fn output(function: ResamplingFunction, at: impl Fn(usize) -> Self, n: usize, m: usize, x: usize) -> Self;
    // held to a depth, by Limit
    fn held(self, _depth: u32) -> Self {
        self
    }
}

// Whether plans made from now on are of Limit over the family.
pub(crate) static LIMIT: AtomicBool = AtomicBool::new(false);

fn place(n: usize, m: usize, x: usize) -> (usize, usize) {
    let c = ((2 * x + 1) * n).saturating_sub(m);
    (c / (2 * m), c % (2 * m))
}

macro_rules! levels {
    ($($t:ident)*) => {$(
        impl Line for $t {
            fn knows(function: ResamplingFunction) -> bool {
                matches!(function, ResamplingFunction::Bilinear | ResamplingFunction::Box | ResamplingFunction::Area)
            }
            fn held(self, depth: u32) -> $t {
                self.min(((1u32 << depth) - 1) as $t)
            }
            fn output(function: ResamplingFunction, at: impl Fn(usize) -> $t, n: usize, m: usize, x: usize) -> $t {
                if function == ResamplingFunction::Bilinear {
                    let (i, r) = place(n, m, x);
                    let (a, b) = (at(i.min(n - 1)) as u64, at((i + 1).min(n - 1)) as u64);
                    return ((a * (2 * m - r) as u64 + b * r as u64 + m as u64) / (2 * m) as u64) as $t;
                }
                let first = x * n / m;
                let end = ((x + 1) * n).div_ceil(m);
                let count = (end - first) as u64;
                let sum: u64 = (first..end).map(|i| at(i) as u64).sum();
                ((2 * sum + count) / (2 * count)) as $t
            }
        }
    )*};
}

levels! { u8 u16 i16 }

impl Line for f32 {
    fn knows(function: ResamplingFunction) -> bool {
        function == ResamplingFunction::Bilinear
    }
    fn output(_: ResamplingFunction, at: impl Fn(usize) -> f32, n: usize, m: usize, x: usize) -> f32 {
        let (i, r) = place(n, m, x);
        let (a, b) = (at(i.min(n - 1)), at((i + 1).min(n - 1)));
        a * ((2 * m - r) as f32 / (2 * m) as f32) + b * (r as f32 / (2 * m) as f32)
    }
}

macro_rules! weights {
    ($($t:ident $w:ident;)*) => {$(
        impl WeightsGenerator<$w> for $t {
            fn make_weights(function: ResamplingFunction, from: usize, to: usize) -> Result<FilterWeights<$w>, PicScaleError> {
                if !<$t as Line>::knows(function) {
                    return Err(PicScaleError::UnknownResizingFilter);
                }
                Ok(FilterWeights { function, from, to, weights: PhantomData })
            }
        }
    )*};
}

weights! { u8 f32; u16 f32; i16 f32; f32 f32; f32 f64; }

struct Axis {
    function: ResamplingFunction,
    from: usize,
    to: usize,
    limit: bool,
}

impl Axis {
    fn new<W>(w: FilterWeights<W>) -> Arc<Axis> {
        Arc::new(Axis { function: w.function, from: w.from, to: w.to, limit: LIMIT.load(Ordering::Relaxed) })
    }

    fn element<T: Line>(&self, at: impl Fn(usize) -> T, x: usize, depth: u32) -> T {
        let v = T::output(self.function, at, self.from, self.to, x);
        if self.limit { v.held(depth) } else { v }
    }
}

impl<T: Line, W, const N: usize> VerticalConvolutionPass<T, W, N> for ImageStore<'_, T, N> {
    fn vertical_plan(w: FilterWeights<W>, _: ThreadingPolicy, _: ConvolutionOptions) -> Arc<dyn ColumnFilter<T, N> + Send + Sync> {
        Axis::new(w)
    }
}

impl<T: Line, W, const N: usize> HorizontalFilterPass<T, W, N> for ImageStore<'_, T, N> {
    fn horizontal_plan(w: FilterWeights<W>, _: ThreadingPolicy, _: ConvolutionOptions) -> Arc<dyn RowFilter<T, N> + Send + Sync> {
        Axis::new(w)
    }
}

impl<T: Line, const N: usize> ColumnFilter<T, N> for Axis {
    fn filter(&self, source: &ImageStore<'_, T, N>, destination: &mut ImageStoreMut<T, N>) {
        let (width, stride, depth) = (source.width, destination.stride(), destination.bit_depth as u32);
        for (row, dst) in destination.projected().chunks_mut(stride).enumerate() {
            ColumnFilter::<T, N>::run_on_row(self, source.projected(), &mut dst[..width * N], width, source.stride(), row, depth);
        }
    }
    fn run_on_row(&self, src: &[T], dst: &mut [T], width: usize, src_stride: usize, row: usize, depth: u32) {
        for (i, d) in dst[..width * N].iter_mut().enumerate() {
            *d = self.element(|y| src[y * src_stride + i], row, depth);
        }
    }
}

impl<T: Line, const N: usize> RowFilter<T, N> for Axis {
    fn filter(&self, source: &ImageStore<'_, T, N>, destination: &mut ImageStoreMut<T, N>) {
        let (width, stride, depth) = (destination.width, destination.stride(), destination.bit_depth as u32);
        let rows = source.projected().chunks(source.stride());
        for (src, dst) in rows.zip(destination.projected().chunks_mut(stride)) {
            RowFilter::<T, N>::run_on_row(self, src, &mut dst[..width * N], depth);
        }
    }
    fn can_do_4_rows(&self) -> bool {
        true
    }
    fn run_on_4_rows(&self, src: &[T], src_stride: usize, dst: &mut [T], dst_stride: usize, depth: u32) {
        let n = self.to * N;
        for y in 0..4 {
            RowFilter::<T, N>::run_on_row(self, &src[y * src_stride..], &mut dst[y * dst_stride..][..n], depth);
        }
    }
    fn run_on_row(&self, src: &[T], dst: &mut [T], depth: u32) {
        for x in 0..self.to {
            for k in 0..N {
                dst[x * N + k] = self.element(|i| src[i * N + k], x, depth);
            }
        }
    }
}
