//! What the command runs through: all small sizes, plans of any size, and lists of random calls.
use crate::check;
use crate::counts::Counts;
use crate::generate;
use crate::lists::{F32, Kind, U8, U16, U16Limited};
use crate::random::Random;
use crate::sizes;

fn one_small<K: Kind>(counts: &mut Counts, random: &mut Random, most: usize, i: usize, j: usize, channels: usize) {
    check::list::<K>(counts, &sizes::small::<K>(random, most, i, j, channels));
}

fn small_of(counts: &mut Counts, random: &mut Random, kind: usize, most: usize, i: usize, j: usize, channels: usize) {
    match kind % 4 {
        0 => one_small::<U8>(counts, random, most, i, j, channels),
        1 => one_small::<U16>(counts, random, most, i, j, channels),
        2 => one_small::<U16Limited>(counts, random, most, i, j, channels),
        _ => one_small::<F32>(counts, random, most, i, j, channels),
    }
}

// Up to 4x4 every family and every number of channels, up to 5x5 these in turn; always all four functions, both flags
// and both routes.
pub(crate) fn small(counts: &mut Counts) {
    let random = &mut Random::new(3);
    for i in 0..4usize.pow(4) {
        for j in 0..32 * 16 {
            small_of(counts, random, j / 32, 4, i, j % 32, j / 128 + 1);
        }
    }
    for i in 0..5usize.pow(4) {
        for j in 0..32 {
            small_of(counts, random, i + j, 5, i, j, (i / 4 + j) % 4 + 1);
        }
    }
}

pub(crate) fn plans(counts: &mut Counts, count: usize) {
    let random = &mut Random::new(6);
    for _ in 0..count {
        let request = sizes::request(random);
        if random.one_in(3) {
            check::only_plan::<F32>(counts, &request);
        } else {
            check::only_plan::<U8>(counts, &request);
        }
    }
}

// One list in a hundred is long and thin.
fn lists_of<K: Kind>(counts: &mut Counts, random: &mut Random, count: usize) {
    for i in 0..count {
        let list = if i % 100 == 0 { sizes::long::<K>(random) } else { generate::list::<K>(random) };
        check::list::<K>(counts, &list);
    }
}

pub(crate) fn lists(counts: &mut Counts, count: usize) {
    let random = &mut Random::new(4);
    lists_of::<U8>(counts, random, count / 4);
    lists_of::<U16>(counts, random, count / 4);
    lists_of::<U16Limited>(counts, random, count / 4);
    lists_of::<F32>(counts, random, count / 4);
}
