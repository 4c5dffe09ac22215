//! The steps of a plan, each a function and the size that it goes to: the reference's own, read off by the functions
//! that its planner calls, and the port's by the rules of docs/PLANS.md.
use crate::plan::superresolution::plan_intermediate_sizes;
use crate::plan::supersampling::{supersampling_intermediate_size, supersampling_prefilter};
use crate::{ImageSize, ResamplingFunction, Scaler};
use japotuhe::{Request, Stage};

pub(crate) type Step = (ResamplingFunction, ImageSize);

// The enumeration's case at a place.
pub(crate) fn at_place(place: u8) -> ResamplingFunction {
    assert!(place < 53);
    // The enumeration has 53 cases without values, numbered from 0.
    let function = unsafe { std::mem::transmute::<u8, ResamplingFunction>(place) };
    assert_eq!(function as u8, place);
    function
}

fn grows(scaler: &Scaler, s: ImageSize, t: ImageSize) -> bool {
    scaler.multi_step_upscaling && t.width >= s.width && t.height >= s.height
}

// The reference's prefilter, with the size that it goes to.
fn prefiltered(scaler: &Scaler, s: ImageSize, t: ImageSize) -> Option<Step> {
    if !scaler.supersampling || t.width > s.width || t.height > s.height {
        return None;
    }
    let prefilter = supersampling_prefilter(s.width as f64 / t.width as f64, s.height as f64 / t.height as f64)?;
    let between = supersampling_intermediate_size(s, t);
    (between.width < s.width || between.height < s.height).then_some((prefilter, between))
}

pub(crate) fn own(scaler: &Scaler, s: ImageSize, t: ImageSize) -> Vec<Step> {
    let last = (scaler.function, t);
    if scaler.function == ResamplingFunction::Nearest {
        return vec![last];
    }
    let between = if grows(scaler, s, t) { plan_intermediate_sizes(s, t, scaler.function) } else { vec![] };
    if !between.is_empty() {
        return between.into_iter().chain([t]).map(|size| (scaler.function, size)).collect();
    }
    prefiltered(scaler, s, t).into_iter().chain([last]).collect()
}

pub(crate) fn port(scaler: &Scaler, s: ImageSize, t: ImageSize) -> Vec<Step> {
    if scaler.function == ResamplingFunction::Nearest || s == t || !grows(scaler, s, t) {
        return own(scaler, s, t);
    }
    let twice = (2.0 * scaler.function.get_resampling_filter::<f32>().min_kernel_size).clamp(3.0, 8.0) as usize;
    let (mut steps, mut size) = (vec![], s);
    while size != t {
        let grown = |v: usize, limit: usize| limit.min((v * twice).div_ceil(2));
        size = ImageSize::new(grown(size.width, t.width), grown(size.height, t.height));
        steps.push((scaler.function, size));
    }
    steps
}

fn letter(function: ResamplingFunction, s: ImageSize, t: ImageSize) -> char {
    match (s.width != t.width, s.height != t.height) {
        _ if function == ResamplingFunction::Nearest => 'N',
        (true, true) => 'B',
        (true, false) => 'H',
        (false, true) => 'V',
        (false, false) => 'C',
    }
}

pub(crate) fn stages(s: ImageSize, steps: &[Step]) -> Vec<Stage> {
    let sizes: Vec<ImageSize> = [s].into_iter().chain(steps.iter().map(|step| step.1)).collect();
    let stage = |(i, &(function, t)): (usize, &Step)| Stage {
        letter: letter(function, sizes[i], t) as u32,
        function: function as u8,
        source_width: sizes[i].width,
        source_height: sizes[i].height,
        target_width: t.width,
        target_height: t.height,
    };
    steps.iter().enumerate().map(stage).collect()
}

pub(crate) fn ends(request: &Request) -> (ImageSize, ImageSize) {
    (ImageSize::new(request.source_width, request.source_height), ImageSize::new(request.target_width, request.target_height))
}
