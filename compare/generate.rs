//! Lists of calls that fit, at random: strides, gaps, crops, windows, depths, flags, routes, and sizes around batches
//! of four rows and the ratios of chains and prefilters. damage.rs spoils some of them.
use crate::damage;
use crate::listed::pitch;
use crate::lists::{Bits, Call, Kind, List};
use crate::random::Random;
use japotuhe::{Numbers, Part, Request};

// Places of Bilinear, Nearest, Box and Area.
pub(crate) const FUNCTIONS: [u8; 4] = [0, 1, 29, 52];
const FLOATS: [u32; 11] = [0, 1 << 31, 1, 0x8000_0001, 0x007f_ffff, 0x0080_0000, 0x7f7f_ffff, 0xff7f_ffff, 0x7f80_0000, 0xff80_0000, 0xffc0_1234];
const SIZES: [usize; 14] = [1, 2, 3, 4, 5, 6, 7, 8, 9, 11, 12, 13, 16, 17];

pub(crate) fn element<K: Kind>(random: &mut Random) -> K::T {
    let float = K::NAME == "f32";
    let bits = match random.below(8) {
        0 if float => random.of(&FLOATS),
        1 if float => random.next() as u32,
        _ if float => 0x3f00_0000 + random.below(0x0400_0000) as u32 + random.of(&[0, 1 << 31]),
        0 => random.of(&[0, 1, 65_535, 65_534]),
        _ => random.next() as u32,
    };
    K::T::of_bits(bits)
}

pub(crate) fn elements<K: Kind>(random: &mut Random, n: usize) -> Vec<K::T> {
    (0..n).map(|_| element::<K>(random)).collect()
}

pub(crate) fn depth<K: Kind>(random: &mut Random) -> usize {
    match K::NAME {
        "u8" | "f32" => random.of(&[0, 8, 17, 64, usize::MAX]),
        _ if random.one_in(12) => random.of(&[0, 17, 18, 64, (1 << 32) + 8, usize::MAX]),
        _ => random.to(16),
    }
}

// A stride and a length that fit.
pub(crate) fn placed(random: &mut Random, mut n: Numbers) -> (Numbers, usize) {
    let row = n.width * n.channels;
    n.stride = match random.below(8) {
        0..4 => 0,
        4 => row,
        5 => row + 1,
        6 => row + random.to(5),
        _ => row + n.channels * random.to(3),
    };
    let s = pitch(&n);
    (n, s * (n.height - 1) + row + random.of(&[0, 0, 1, 3, s - row]))
}

pub(crate) fn function<K: Kind>(random: &mut Random) -> u8 {
    match random.below(12) {
        0 => random.below(53) as u8,
        1..8 if K::NAME == "f32" => 0,
        _ => random.of(&FUNCTIONS),
    }
}

pub(crate) fn lengths<K: Kind>(random: &mut Random, request: &Request) -> [usize; 3] {
    let needs = match japotuhe::plan::<K::Port>(request) {
        Ok((plan, _)) => [plan.work, plan.half, plan.half],
        Err(_) => [4; 3],
    };
    needs.map(|n| n + random.of(&[0, 0, 0, 1, 7]))
}

// A source's size for a target's: equal, a few times smaller or larger, or any.
fn source_size(random: &mut Random, (w, h): (usize, usize)) -> (usize, usize) {
    let any = (random.of(&SIZES), random.to(13));
    match random.below(9) {
        0 => (w, h),
        1 => (w, any.1),
        2 => (any.0, h),
        3 => (w.div_ceil(random.of(&[4, 8])), h.div_ceil(random.of(&[1, 2, 4, 8]))),
        4 => (w.div_ceil(random.of(&[2, 3, 9])), h.div_ceil(random.of(&[2, 3, 9]))),
        5 => (w * random.of(&[3, 4]) - random.below(2), h * random.to(2)),
        6 => (w * random.to(2), h * random.of(&[3, 4]) - random.below(2)),
        _ => any,
    }
}

fn window(random: &mut Random, sheet: &Numbers) -> Part {
    let (width, height) = (random.to(sheet.width), random.to(sheet.height));
    Part { x: random.below(sheet.width - width + 1), y: random.below(sheet.height - height + 1), width, height }
}

// The flags and the function; channels and sizes as given.
pub(crate) fn request<K: Kind>(random: &mut Random, channels: usize, (sw, sh): (usize, usize), (tw, th): (usize, usize)) -> Request {
    let mut flag = || random.of(&[0, 1, 0, 1, 0, 255]);
    let (multi_step, supersampling, whole) = (flag(), flag(), flag());
    Request { function: function::<K>(random), multi_step, supersampling, whole, channels, source_width: sw, source_height: sh, target_width: tw, target_height: th }
}

// The image that a source of this size is, or is cropped from.
fn image(random: &mut Random, channels: usize, (w, h): (usize, usize), bit_depth: usize) -> (Numbers, usize, Option<Part>) {
    let plain = Numbers { channels, width: w, height: h, stride: 0, bit_depth };
    if !random.one_in(4) {
        let (n, length) = placed(random, plain);
        return (n, length, None);
    }
    let (x, y) = (random.below(4), random.below(4));
    let larger = Numbers { width: w + x + random.below(4), height: h + y + random.below(4), ..plain };
    let (n, length) = placed(random, larger);
    (n, length, Some(Part { x, y, width: w, height: h }))
}

pub(crate) fn call<K: Kind>(random: &mut Random, sheet: &Numbers) -> Call<K::T> {
    let window = (!random.one_in(3)).then(|| window(random, sheet));
    let to = window.map_or((sheet.width, sheet.height), |w| (w.width, w.height));
    let size = source_size(random, to);
    call_of::<K>(random, sheet, window, size)
}

pub(crate) fn call_of<K: Kind>(random: &mut Random, sheet: &Numbers, window: Option<Part>, size: (usize, usize)) -> Call<K::T> {
    let to = window.map_or((sheet.width, sheet.height), |w| (w.width, w.height));
    let (source, length, crop) = image(random, sheet.channels, size, sheet.bit_depth);
    let request = request::<K>(random, sheet.channels, size, to);
    let lengths = lengths::<K>(random, &request);
    Call { request, window, source, pixels: elements::<K>(random, length), crop, lengths, fill: element::<K>(random) }
}

pub(crate) fn sheet<K: Kind>(random: &mut Random) -> (Numbers, usize) {
    let plain = Numbers { channels: random.to(4), width: random.of(&SIZES), height: random.to(13), stride: 0, bit_depth: depth::<K>(random) };
    placed(random, plain)
}

// Two lists of three have one call, the others up to ten. One call of five is spoilt, and one sheet of twenty.
pub(crate) fn list<K: Kind>(random: &mut Random) -> List<K::T> {
    let (mut sheet, length) = sheet::<K>(random);
    let mut before = elements::<K>(random, length);
    let count = if random.one_in(3) { 1 + random.to(9) } else { 1 };
    let mut calls: Vec<_> = (0..count).map(|_| call::<K>(random, &sheet)).collect();
    for call in &mut calls {
        if random.one_in(5) {
            damage::call(random, &sheet, call);
        }
    }
    if random.one_in(20) {
        damage::store(random, &mut sheet, &mut before);
    }
    List { sheet, before, calls }
}
