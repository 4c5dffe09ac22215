//! The differences of docs/DIFFERENCES.md: which of them explains that two answers or two sheets are not equal.
use crate::answers::Answer;
use crate::lists::{Bits, Call};
use japotuhe::{Numbers, Part, Plan, Request};

pub(crate) const EXCHANGED: &str = "too large, the two sides exchanged";
pub(crate) const SUMS: &str = "sums of a crop or window that pass 64 bits";
pub(crate) const EMPTY: &str = "empty crops and windows";
pub(crate) const SOURCE_ZERO: &str = "a source dimension of 0 at planning";
pub(crate) const DIMENSIONS: &str = "dimension limit";
pub(crate) const CHANNELS: &str = "channels are a number";
pub(crate) const PLACE: &str = "a function's place above 52, which the Rust cannot be given";
pub(crate) const SCRATCH: &str = "three buffers for one scratch";
pub(crate) const SIZES: &str = "sizes of a multi-step chain";
pub(crate) const GAPS: &str = "equal sizes: gaps";
pub(crate) const BESIDE: &str = "equal sizes through a window: what lies beside it";

pub(crate) fn known_channels(n: usize) -> bool {
    (1..=4).contains(&n)
}

// Planning refusals that the reference has no input for.
pub(crate) fn before_planning(request: &Request) -> Option<(Answer, &'static str)> {
    if request.function > 52 {
        return Some((Answer::refused(7, &[]), PLACE));
    }
    (!known_channels(request.channels)).then(|| (Answer::refused(12, &[request.channels]), CHANNELS))
}

// Why planning answers as the port does, and not as the reference.
pub(crate) fn planning(request: &Request, port: &Answer) -> Option<&'static str> {
    let sizes = [request.source_width, request.source_height, request.target_width, request.target_height];
    if sizes[2] > 0 && sizes[3] > 0 && (sizes[0] == 0 || sizes[1] == 0) {
        return (*port == Answer::refused(1, &[])).then_some(SOURCE_ZERO);
    }
    if sizes.contains(&0) {
        return None;
    }
    let large = *sizes.iter().find(|&&v| v > 65_535)?;
    (*port == Answer::refused(14, &[large])).then_some(DIMENSIONS)
}

// Why a crop or window is refused by the port: in exact sums it leaves the image, or it is empty. The image itself must
// have passed its check, which comes first.
pub(crate) fn part(part: &Part, width: usize, height: usize, passed: bool, port: &Answer, rust: &Answer) -> Option<&'static str> {
    if !passed {
        return None;
    }
    let wide = part.x as u128 + part.width as u128;
    let high = part.y as u128 + part.height as u128;
    let wraps = wide.max(high) > usize::MAX as u128;
    let outside = wide > width as u128 || high > height as u128;
    let values = [part.x, part.y, part.width, part.height, width, height];
    if outside {
        return (wraps && *port == Answer::refused(11, &values)).then_some(SUMS);
    }
    let empty = part.width == 0 || part.height == 0;
    (empty && *port == Answer::refused(1, &[]) && (rust.granted() || rust.panicked())).then_some(EMPTY)
}

// The first of the three buffers that is too short, for a sum of all that is.
pub(crate) fn scratch(plan: &Plan, lengths: [usize; 3], port: &Answer, rust: &Answer) -> Option<&'static str> {
    let needs = [plan.work, plan.half, plan.half];
    let (need, given) = needs.into_iter().zip(lengths).find(|(need, given)| given < need)?;
    let total = plan.work + 2 * plan.half;
    let told = Answer::refused(8, &[total, total - short(plan, lengths)]);
    (*port == Answer::refused(8, &[need, given]) && *rust == told).then_some(SCRATCH)
}

// By how many elements the buffers are too short, together.
pub(crate) fn short(plan: &Plan, lengths: [usize; 3]) -> usize {
    let needs = [plan.work, plan.half, plan.half];
    needs.into_iter().zip(lengths).map(|(need, given)| need.saturating_sub(given)).sum()
}

pub(crate) fn pitch(n: &Numbers) -> usize {
    if n.stride == 0 { n.width * n.channels } else { n.stride }
}

// What a copy makes of the sheet: the port copies the source's pixels, the reference whole strides of all rows but the
// last.
pub(crate) fn copied<T: Bits>(call: &Call<T>, pixels: &[T], source: &Numbers, sheet: &Numbers, before: &[T], strides: bool) -> Vec<T> {
    let (from, into, row) = (pitch(source), pitch(sheet), source.width * source.channels);
    let start = call.window.map_or(0, |w| w.y * into + w.x * sheet.channels);
    let mut made = before.to_vec();
    for y in 0..source.height {
        let n = if strides && y + 1 < source.height { from.min(into) } else { row };
        made[start + y * into..][..n].copy_from_slice(&pixels[y * from..][..n]);
    }
    made
}
