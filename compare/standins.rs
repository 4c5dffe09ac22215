//! What the reference names and is not at hand.
use crate::math::WeightsGenerator;
use crate::{ImageSize, PicScaleError, Resampling, ResamplingPlan, Scaler};
use std::sync::Arc;

pub(crate) mod math {
    use num_traits::MulAdd;

    // What a function's kernel is to the planner: a name with a kernel size. No kernel is evaluated.
    macro_rules! kernels {
        ($($module:ident: $($name:ident)*;)*) => {$(
            pub(crate) mod $module {
                pub(crate) use super::extras::$module::*;
                $(pub(crate) fn $name<V: Copy>(x: V) -> V { x })*
            }
        )*};
    }

    macro_rules! traits {
        ($($module:ident: $($name:ident)*;)*) => {$(
            pub(crate) mod $module {
                $(pub(crate) trait $name {}
                impl $name for f32 {}
                impl $name for f64 {})*
            }
        )*};
    }

    pub(crate) mod extras {
        traits! {
            bartlett: NoneOfBartlett;
            blackman: NoneOfBlackman;
            bohman: NoneOfBohman;
            gaussian: Exponential;
            hann: NoneOfHann;
            kaiser: BesselI0;
            lagrange: NoneOfLagrange;
            lanczos: NoneOfLanczos;
            quadric: NoneOfQuadric;
            sinc: Sinc Trigonometry;
            sphinx: NoneOfSphinx;
            spline_n: NoneOfSpline;
            welch: NoneOfWelch;
        }
    }

    kernels! {
        bartlett: bartlett bartlett_hann;
        blackman: blackman;
        bohman: bohman;
        gaussian: gaussian;
        hann: hamming hann hanning;
        kaiser: kaiser;
        lagrange: lagrange2 lagrange3;
        lanczos: lanczos2 lanczos2_jinc lanczos3 lanczos3_jinc lanczos4 lanczos4_jinc lanczos5 lanczos5_jinc lanczos6 lanczos6_jinc;
        quadric: quadric;
        sinc: sinc;
        sphinx: sphinx;
        spline_n: spline16 spline36 spline64;
        welch: welch;
    }

    pub(crate) mod consts {
        pub(crate) trait ConstPI {}
        impl ConstPI for f32 {}
        impl ConstPI for f64 {}

        pub(crate) trait ConstSqrt2 {
            fn const_sqrt2() -> Self;
            const SQRT2: Self;
        }
        impl ConstSqrt2 for f32 {
            fn const_sqrt2() -> f32 { std::f32::consts::SQRT_2 }
            const SQRT2: f32 = std::f32::consts::SQRT_2;
        }
        impl ConstSqrt2 for f64 {
            fn const_sqrt2() -> f64 { std::f64::consts::SQRT_2 }
            const SQRT2: f64 = std::f64::consts::SQRT_2;
        }
    }

    pub(crate) mod jinc {
        pub(crate) trait Jinc<T> {
            fn jinc(x: T) -> T;
        }
        impl Jinc<f32> for f32 {
            fn jinc(x: f32) -> f32 { x }
        }
        impl Jinc<f64> for f64 {
            fn jinc(x: f64) -> f64 { x }
        }
    }

    pub(crate) fn mla<V: MulAdd<Output = V>>(acc: V, a: V, b: V) -> V {
        a.mul_add(b, acc)
    }

    // A family is asked here whether it knows a function.
    pub(crate) trait WeightsGenerator<W> {
        fn make_weights(
            function: crate::ResamplingFunction,
            in_size: usize,
            out_size: usize,
        ) -> Result<crate::filter_weights::FilterWeights<W>, crate::PicScaleError>;
    }
}

pub(crate) mod filter_weights {
    use std::marker::PhantomData;

    // In place of weights: what a family has to be told.
    pub(crate) struct FilterWeights<W> {
        pub(crate) function: crate::ResamplingFunction,
        pub(crate) from: usize,
        pub(crate) to: usize,
        pub(crate) weights: PhantomData<W>,
    }

    #[derive(Clone, Copy)]
    pub(crate) struct FilterBounds {}
}

macro_rules! absent {
    ($($module:ident: $($name:ident($($a:ident)*) -> $r:ty),*;)*) => {$(
        pub(crate) mod $module {
            $(pub(crate) fn $name<$($a),*>($(_: $a),*) -> $r { unimplemented!() })*
        }
    )*};
}

absent! {
    alpha_check: has_non_constant_cap_alpha_rgba_f32(A B C) -> bool, has_non_constant_cap_alpha_gray_alpha8(A B C) -> bool,
        has_non_constant_cap_alpha_gray_alpha16(A B C) -> bool, has_non_constant_cap_alpha_gray_alpha_f32(A B C) -> bool,
        has_non_constant_cap_alpha_rgba8(A B C) -> bool, has_non_constant_cap_alpha_rgba16(A B C) -> bool;
    alpha_handle_u8: premultiply_alpha_rgba(A B C D E F G) -> (), premultiply_alpha_gray_alpha(A B C D E F G) -> (),
        unpremultiply_alpha_rgba(A B C D E F) -> (), unpremultiply_alpha_gray_alpha(A B C D E F) -> ();
    alpha_handle_u16: premultiply_alpha_rgba_u16(A B C D E F G H) -> (), premultiply_alpha_gray_alpha_u16(A B C D E F G H) -> (),
        unpremultiply_alpha_rgba_u16(A B C D E F) -> (), unpremultiply_alpha_gray_alpha_u16(A B C D E F) -> ();
    alpha_handle_f32: premultiply_alpha_rgba_f32(A B C D E F G) -> (), premultiply_alpha_gray_alpha_f32(A B C D E F G) -> (),
        unpremultiply_alpha_rgba_f32(A B C D E) -> (), unpremultiply_alpha_gray_alpha_f32(A B C D E) -> ();
}

pub(crate) mod factory {
    #[derive(Clone, Copy)]
    pub enum Rgb30 {
        Ar30,
        Ra30,
    }

    #[derive(Clone, Copy)]
    pub enum Ar30ByteOrder {
        Host,
        Network,
    }
}

pub(crate) struct AlphaPlanner {}

impl AlphaPlanner {
    pub(crate) fn plan_generic_resize_with_alpha<T: WeightsGenerator<W> + Copy, W, const N: usize>(
        _: &Scaler,
        _: ImageSize,
        _: ImageSize,
        _: usize,
        _: bool,
    ) -> Result<Arc<Resampling<T, N>>, PicScaleError> {
        unimplemented!()
    }
}

pub(crate) trait Ar30Destructuring {}

pub(crate) struct Ar30DestructuringImpl<const ORDER: usize> {
    pub(crate) rgb30: factory::Rgb30,
}

impl<const ORDER: usize> Ar30Destructuring for Ar30DestructuringImpl<ORDER> {}

pub(crate) struct Ar30Plan<F> {
    pub(crate) source_size: ImageSize,
    pub(crate) target_size: ImageSize,
    pub(crate) inner_filter: F,
    pub(crate) decomposer: Arc<dyn Ar30Destructuring + Send + Sync>,
}

impl<F, T: Copy, const N: usize> ResamplingPlan<T, N> for Ar30Plan<F> {
    fn resample(
        &self,
        _: &crate::ImageStore<'_, T, N>,
        _: &mut crate::ImageStoreMut<'_, T, N>,
    ) -> Result<(), PicScaleError> {
        unimplemented!()
    }
    fn resample_with_scratch(
        &self,
        _: &crate::ImageStore<'_, T, N>,
        _: &mut crate::ImageStoreMut<'_, T, N>,
        _: &mut [T],
    ) -> Result<(), PicScaleError> {
        unimplemented!()
    }
    fn alloc_scratch(&self) -> Vec<T> {
        unimplemented!()
    }
    fn scratch_size(&self) -> usize {
        unimplemented!()
    }
    fn target_size(&self) -> ImageSize {
        self.target_size
    }
    fn source_size(&self) -> ImageSize {
        self.source_size
    }
}
