//! The families of docs/FAMILIES.md as the reference's filters, plainly: channels known to the compiler, a place for
//! each output, the formulas as they stand.
use crate::convolution::{ColumnFilter, ConvolutionOptions, HorizontalFilterPass, RowFilter, VerticalConvolutionPass};
use crate::filter_weights::FilterWeights;
use crate::math::WeightsGenerator;
use crate::{ImageStore, ImageStoreMut, PicScaleError, ResamplingFunction, ThreadingPolicy};
use std::fmt::Debug;
use std::marker::PhantomData;
use std::sync::Arc;

type Columns<T, const N: usize> = Arc<dyn ColumnFilter<T, N> + Send + Sync>;
type Rows<T, const N: usize> = Arc<dyn RowFilter<T, N> + Send + Sync>;

pub(crate) trait Family: Copy + Debug + Default + Send + Sync + 'static {
    fn columns<const N: usize>(function: ResamplingFunction, n: usize, m: usize) -> Columns<Self, N>;
    fn rows<const N: usize>(function: ResamplingFunction, n: usize, m: usize) -> Rows<Self, N>;
}

trait Blend: Family {
    fn blend(a: Self, b: Self, m: usize, f: usize) -> Self;
}

trait Level: Family {
    fn mean(line: impl Iterator<Item = Self>, count: usize) -> Self;
}

struct Tent {
    n: usize,
    m: usize,
}

impl Tent {
    fn place(&self, x: usize) -> (usize, usize, usize) {
        let p = ((2 * x + 1) * self.n).saturating_sub(self.m);
        let i = p / (2 * self.m);
        (i, (i + 1).min(self.n - 1), p % (2 * self.m))
    }
}

impl<T: Blend, const N: usize> ColumnFilter<T, N> for Tent {
    fn filter(&self, source: &ImageStore<'_, T, N>, destination: &mut ImageStoreMut<T, N>) {
        filter_columns(self, source, destination);
    }

    fn run_on_row(&self, src: &[T], dst: &mut [T], width: usize, stride: usize, row: usize, _: u32) {
        let (i, j, f) = self.place(row);
        let (a, b) = (&src[i * stride..][..width * N], &src[j * stride..][..width * N]);
        for ((out, &a), &b) in dst.iter_mut().zip(a).zip(b) {
            *out = T::blend(a, b, self.m, f);
        }
    }
}

impl<T: Blend, const N: usize> RowFilter<T, N> for Tent {
    fn filter(&self, source: &ImageStore<'_, T, N>, destination: &mut ImageStoreMut<T, N>) {
        filter_rows(self, source, destination);
    }

    fn can_do_4_rows(&self) -> bool {
        true
    }

    fn run_on_4_rows(&self, src: &[T], src_stride: usize, dst: &mut [T], dst_stride: usize, _: u32) {
        let src: [&[[T; N]]; 4] = std::array::from_fn(|y| src[y * src_stride..][..self.n * N].as_chunks().0);
        for x in 0..self.m {
            let (i, j, f) = self.place(x);
            for (y, row) in src.iter().enumerate() {
                let out = &mut dst[y * dst_stride + x * N..][..N];
                for ((out, &a), &b) in out.iter_mut().zip(&row[i]).zip(&row[j]) {
                    *out = T::blend(a, b, self.m, f);
                }
            }
        }
    }

    fn run_on_row(&self, src: &[T], dst: &mut [T], _: u32) {
        let src: &[[T; N]] = src.as_chunks().0;
        for (x, out) in dst.as_chunks_mut::<N>().0.iter_mut().enumerate() {
            let (i, j, f) = self.place(x);
            for ((out, &a), &b) in out.iter_mut().zip(&src[i]).zip(&src[j]) {
                *out = T::blend(a, b, self.m, f);
            }
        }
    }
}

struct Span {
    n: usize,
    m: usize,
}

impl Span {
    fn place(&self, x: usize) -> (usize, usize) {
        (x * self.n / self.m, ((x + 1) * self.n).div_ceil(self.m))
    }
}

impl<T: Level, const N: usize> ColumnFilter<T, N> for Span {
    fn filter(&self, source: &ImageStore<'_, T, N>, destination: &mut ImageStoreMut<T, N>) {
        filter_columns(self, source, destination);
    }

    fn run_on_row(&self, src: &[T], dst: &mut [T], _: usize, stride: usize, row: usize, _: u32) {
        let (low, high) = self.place(row);
        for (k, out) in dst.iter_mut().enumerate() {
            *out = T::mean((low..high).map(|y| src[y * stride + k]), high - low);
        }
    }
}

impl<T: Level, const N: usize> RowFilter<T, N> for Span {
    fn filter(&self, source: &ImageStore<'_, T, N>, destination: &mut ImageStoreMut<T, N>) {
        filter_rows(self, source, destination);
    }

    // as Pair of Tent and Span does
    fn can_do_4_rows(&self) -> bool {
        true
    }

    fn run_on_4_rows(&self, src: &[T], src_stride: usize, dst: &mut [T], dst_stride: usize, _: u32) {
        let src: [&[[T; N]]; 4] = std::array::from_fn(|y| src[y * src_stride..][..self.n * N].as_chunks().0);
        for x in 0..self.m {
            let (low, high) = self.place(x);
            for (y, row) in src.iter().enumerate() {
                let out = &mut dst[y * dst_stride + x * N..][..N];
                for (k, out) in out.iter_mut().enumerate() {
                    *out = T::mean(row[low..high].iter().map(|px| px[k]), high - low);
                }
            }
        }
    }

    fn run_on_row(&self, src: &[T], dst: &mut [T], _: u32) {
        let src: &[[T; N]] = src.as_chunks().0;
        for (x, out) in dst.as_chunks_mut::<N>().0.iter_mut().enumerate() {
            let (low, high) = self.place(x);
            for (k, out) in out.iter_mut().enumerate() {
                *out = T::mean(src[low..high].iter().map(|px| px[k]), high - low);
            }
        }
    }
}

fn filter_columns<T: Family, const N: usize>(
    filter: &impl ColumnFilter<T, N>,
    source: &ImageStore<'_, T, N>,
    into: &mut ImageStoreMut<T, N>,
) {
    let (width, stride) = (source.width, into.stride());
    for (y, dst) in into.projected().chunks_mut(stride).enumerate() {
        filter.run_on_row(source.projected(), &mut dst[..width * N], width, source.stride(), y, 0);
    }
}

fn filter_rows<T: Family, const N: usize>(
    filter: &impl RowFilter<T, N>,
    source: &ImageStore<'_, T, N>,
    into: &mut ImageStoreMut<T, N>,
) {
    let (n, m, from, to) = (source.width * N, into.width * N, source.stride(), into.stride());
    let fours = source.projected().chunks(4 * from).zip(into.projected().chunks_mut(4 * to));
    for (src, dst) in fours {
        if dst.len() >= 3 * to + m {
            filter.run_on_4_rows(src, from, dst, to, 0);
            continue;
        }
        for (src, dst) in src.chunks(from).zip(dst.chunks_mut(to)) {
            filter.run_on_row(&src[..n], &mut dst[..m], 0);
        }
    }
}

// Whole numbers with the narrowest one that holds their sums.
macro_rules! levels {
    ($($t:ident $wide:ident;)*) => {$(
        impl Blend for $t {
            fn blend(a: $t, b: $t, m: usize, f: usize) -> $t {
                let (a, b, m, f) = (a as $wide, b as $wide, m as $wide, f as $wide);
                ((a * (2 * m - f) + b * f + m) / (2 * m)) as $t
            }
        }

        impl Level for $t {
            fn mean(line: impl Iterator<Item = $t>, count: usize) -> $t {
                let (sum, count) = (line.map(|v| v as $wide).sum::<$wide>(), count as $wide);
                ((2 * sum + count) / (2 * count)) as $t
            }
        }

        impl Family for $t {
            fn columns<const N: usize>(function: ResamplingFunction, n: usize, m: usize) -> Columns<$t, N> {
                if function == ResamplingFunction::Bilinear { Arc::new(Tent { n, m }) } else { Arc::new(Span { n, m }) }
            }

            fn rows<const N: usize>(function: ResamplingFunction, n: usize, m: usize) -> Rows<$t, N> {
                if function == ResamplingFunction::Bilinear { Arc::new(Tent { n, m }) } else { Arc::new(Span { n, m }) }
            }
        }
    )*};
}

levels! { u8 u32; u16 u64; i16 i64; }

impl Blend for f32 {
    fn blend(a: f32, b: f32, m: usize, f: usize) -> f32 {
        let whole = (2 * m) as f32;
        a * ((2 * m - f) as f32 / whole) + b * (f as f32 / whole)
    }
}

impl Family for f32 {
    fn columns<const N: usize>(_: ResamplingFunction, n: usize, m: usize) -> Columns<f32, N> {
        Arc::new(Tent { n, m })
    }

    fn rows<const N: usize>(_: ResamplingFunction, n: usize, m: usize) -> Rows<f32, N> {
        Arc::new(Tent { n, m })
    }
}

macro_rules! weights {
    ($($t:ident $w:ident;)*) => {$(
        impl WeightsGenerator<$w> for $t {
            fn make_weights(
                function: ResamplingFunction,
                from: usize,
                to: usize,
            ) -> Result<FilterWeights<$w>, PicScaleError> {
                Ok(FilterWeights { function, from, to, weights: PhantomData })
            }
        }
    )*};
}

weights! { u8 f32; u16 f32; i16 f32; f32 f32; f32 f64; }

impl<T: Family, W, const N: usize> VerticalConvolutionPass<T, W, N> for ImageStore<'_, T, N> {
    fn vertical_plan(w: FilterWeights<W>, _: ThreadingPolicy, _: ConvolutionOptions) -> Columns<T, N> {
        T::columns(w.function, w.from, w.to)
    }
}

impl<T: Family, W, const N: usize> HorizontalFilterPass<T, W, N> for ImageStore<'_, T, N> {
    fn horizontal_plan(w: FilterWeights<W>, _: ThreadingPolicy, _: ConvolutionOptions) -> Rows<T, N> {
        T::rows(w.function, w.from, w.to)
    }
}
