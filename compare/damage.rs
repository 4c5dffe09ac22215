//! Numbers and buffers that do not fit, one or several at a time.
use crate::lists::{Bits, Call};
use crate::random::Random;
use japotuhe::{Numbers, Part, Request};

const HUGE: [usize; 12] = [1 << 63, (1 << 63) - 1, (1 << 63) + 1, usize::MAX, usize::MAX - 1, 1 << 62, 1 << 61, 1 << 32, (1 << 32) - 1, 65_536, usize::MAX / 3, usize::MAX / 3 + 1];
const CHANNELS: [usize; 8] = [0, 1, 2, 3, 4, 5, 1 << 63, usize::MAX];
// Starts and extents whose sums pass 64 bits.
const WRAPPING: [(usize, usize); 5] = [(usize::MAX, 1), (1 << 63, 1 << 63), (usize::MAX, usize::MAX), (usize::MAX - 1, 2), (1 << 62, 3 << 62)];

// One more, one less, or the same.
fn about(random: &mut Random, v: usize) -> usize {
    random.of(&[v.wrapping_sub(1), v, v.wrapping_add(1)])
}

// Sizes whose bytes come near to 2^63, by the size itself or by the stride.
fn nearly_too_large<T>(random: &mut Random, n: &mut Numbers) {
    let unit = n.channels.clamp(1, 4) * size_of::<T>();
    if random.one_in(2) {
        n.height = random.of(&[1, 2, 3, 1 << 20]);
        n.width = about(random, (1usize << 63) / (unit * n.height));
        n.stride = 0;
    } else {
        n.height = random.of(&[1, 2, 3, 7]);
        let row = n.width.min(70_000) * n.channels.clamp(1, 4);
        n.stride = about(random, ((1usize << 63) / size_of::<T>() - row) / (n.height - 1).max(1));
    }
}

pub(crate) fn store<T: Bits>(random: &mut Random, n: &mut Numbers, buffer: &mut Vec<T>) {
    match random.below(11) {
        0 => n.width = 0,
        1 => n.height = 0,
        2 | 3 => buffer.truncate(buffer.len() - random.to(buffer.len().max(1)).min(random.of(&[1, 2, 1000])).min(buffer.len())),
        4 => n.stride = random.to(n.width.wrapping_mul(n.channels).clamp(1, 100)),
        5 => n.stride = (n.width.wrapping_mul(n.channels)).wrapping_sub(1),
        6 => n.stride = random.of(&HUGE),
        7 => n.width = random.of(&HUGE),
        8 => n.height = random.of(&HUGE),
        9 => nearly_too_large::<T>(random, n),
        _ => n.channels = random.of(&CHANNELS),
    }
}

fn dimension<'a>(random: &mut Random, r: &'a mut Request) -> &'a mut usize {
    match random.below(4) {
        0 => &mut r.source_width,
        1 => &mut r.source_height,
        2 => &mut r.target_width,
        _ => &mut r.target_height,
    }
}

fn part(random: &mut Random, part: &mut Part, width: usize, height: usize) {
    let k = random.to(3);
    match random.below(10) {
        0 => part.x = width - part.width.min(width) + k,
        1 => part.y = height - part.height.min(height) + k,
        2 => part.width = 0,
        3 => part.height = 0,
        4 => *part = Part { x: width, y: height, width: 0, height: 0 },
        5 => (part.x, part.width) = random.of(&WRAPPING),
        6 => (part.y, part.height) = random.of(&WRAPPING),
        7 => part.width = random.of(&HUGE),
        8 => part.y = random.of(&HUGE),
        _ => part.width += 1,
    }
}

fn once<T: Bits>(random: &mut Random, sheet: &Numbers, call: &mut Call<T>) {
    let whole = Part { x: 0, y: 0, width: sheet.width, height: sheet.height };
    match random.below(16) {
        0..4 => store(random, &mut call.source, &mut call.pixels),
        4 => call.request.channels = random.of(&CHANNELS),
        5 | 6 => {
            let v = dimension(random, &mut call.request);
            *v = about(random, *v);
        }
        7 => *dimension(random, &mut call.request) = 0,
        8 => *dimension(random, &mut call.request) = random.of(&HUGE),
        9..12 => {
            let i = random.below(3);
            call.lengths[i] = random.of(&[0, call.lengths[i] / 2, call.lengths[i].saturating_sub(1), call.lengths[i].saturating_sub(8)]);
        }
        12 | 13 => part(random, call.window.get_or_insert(whole), sheet.width, sheet.height),
        14 => {
            let (width, height) = (call.source.width, call.source.height);
            part(random, call.crop.get_or_insert(Part { x: 0, y: 0, width, height }), width, height);
        }
        _ => call.request.function = random.below(256) as u8,
    }
}

pub(crate) fn call<T: Bits>(random: &mut Random, sheet: &Numbers, call: &mut Call<T>) {
    for _ in 0..random.of(&[1, 1, 1, 2, 3]) {
        once(random, sheet, call);
    }
}
