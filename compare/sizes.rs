//! Lists and plans by size: small ones, long thin ones up to the dimension limit, and sizes around the ratios that
//! plans turn on.
use crate::generate::{self, FUNCTIONS};
use crate::lists::{Call, Kind, List, U8};
use crate::random::Random;
use japotuhe::{Numbers, Part, Request};

// One resample between two of the sizes up to `most`, chosen by i; the rest by j.
pub(crate) fn small<K: Kind>(random: &mut Random, most: usize, i: usize, j: usize, channels: usize) -> List<K::T> {
    let size = |k: u32| i / most.pow(k) % most + 1;
    let flag = |k: u32| (j >> k & 1) as u8;
    let request = Request {
        function: FUNCTIONS[j / 8 % 4],
        multi_step: flag(0),
        supersampling: flag(1),
        whole: flag(2),
        channels,
        source_width: size(0),
        source_height: size(1),
        target_width: size(2),
        target_height: size(3),
    };
    let plain = Numbers { channels, width: size(0), height: size(1), stride: 0, bit_depth: random.to(16) };
    let (source, length) = generate::placed(random, plain);
    let (sheet, behind) = generate::placed(random, Numbers { width: size(2), height: size(3), ..plain });
    let lengths = generate::lengths::<K>(random, &request);
    let pixels = generate::elements::<K>(random, length);
    let before = generate::elements::<K>(random, behind);
    List { sheet, before, calls: vec![Call { request, window: None, source, pixels, crop: None, lengths, fill: generate::element::<K>(random) }] }
}

const LONG: [usize; 8] = [65_535, 65_534, 65_535, 65_533, 61_446, 43_691, 32_768, 21_845];

fn thin(random: &mut Random, wide: bool) -> (usize, usize) {
    let (long, short) = (random.of(&LONG), random.of(&[1, 1, 1, 2, 4, 5]));
    if wide { (long, short) } else { (short, long) }
}

// Source and target have few enough elements to be run. Where the vertical image of a B stage had not, Nearest is taken.
fn one_long<K: Kind>(random: &mut Random, sheet: &Numbers, window: Option<Part>, size: (usize, usize)) -> Option<Call<K::T>> {
    let (width, height) = window.map_or((sheet.width, sheet.height), |w| (w.width, w.height));
    let most = 300_000 / sheet.channels;
    if size.0 * size.1 > most || width * height > most {
        return None;
    }
    let mut call = generate::call_of::<K>(random, sheet, window, size);
    if size.0 * height > most {
        call.request.function = 1;
        call.lengths = generate::lengths::<K>(random, &call.request);
    }
    Some(call)
}

pub(crate) fn long<K: Kind>(random: &mut Random) -> List<K::T> {
    let wide = random.one_in(2);
    let channels = random.to(4);
    let (width, height) = if random.one_in(4) { (random.to(4), random.to(4)) } else { thin(random, wide) };
    let plain = Numbers { channels, width, height, stride: 0, bit_depth: random.to(16) };
    let (sheet, length) = generate::placed(random, plain);
    let mut calls = vec![];
    for _ in 0..2 {
        let window = (random.one_in(2)).then(|| Part { x: random.below(width.min(3)), y: random.below(height.min(3)), width: width - width.min(3) + 1, height: height - height.min(3) + 1 });
        let turned = random.one_in(4);
        let size = if random.one_in(4) { (random.to(5), random.to(5)) } else { thin(random, wide != turned) };
        calls.extend(one_long::<K>(random, &sheet, window, size));
    }
    List { sheet, before: generate::elements::<K>(random, length), calls }
}

// A dimension around the ratios that plans turn on, from another.
fn about(random: &mut Random, v: usize) -> usize {
    let near = random.of(&[v / 4, v.div_ceil(4), v / 3, v.div_ceil(3), v, v * 3 / 2, v * 2, v * 4, v * 16, v * 64]);
    (near + random.of(&[0, 0, 1]) - random.below(2).min(near)).min(65_536)
}

// Of a plan that is not run, so that all sizes cost the same.
pub(crate) fn request(random: &mut Random) -> Request {
    let mut size = || {
        let most = random.of(&[4, 17, 300, 5000, 65_535]);
        random.to(most)
    };
    let (sw, sh) = (size(), size());
    let (tw, th) = (about(random, sw), about(random, sh));
    let (s, t) = random.of(&[((sw, sh), (tw, th)), ((tw, th), (sw, sh)), ((sw, sh), (sw, th)), ((sw, sh), (tw, sh))]);
    let channels = random.to(4);
    generate::request::<U8>(random, channels, s, t)
}
