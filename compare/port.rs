//! The port's side: calls of its static library.
use crate::answers::Answer;
use crate::lists::{Bits, Call, Kind, same};
use japotuhe::{Buffers, Numbers};

// Elements before and behind a buffer, which no call may write.
const MARGIN: usize = 5;

struct Guarded<T> {
    all: Vec<T>,
    fill: T,
}

impl<T: Bits> Guarded<T> {
    fn new(elements: &[T], fill: T) -> Guarded<T> {
        let margin = [fill; MARGIN];
        Guarded { all: [&margin, elements, &margin].concat(), fill }
    }

    fn elements(&mut self) -> &mut [T] {
        let end = self.all.len() - MARGIN;
        &mut self.all[MARGIN..end]
    }

    fn holds(&self, elements: &[T]) -> bool {
        same(&self.all[MARGIN..self.all.len() - MARGIN], elements)
    }

    fn intact(&self) -> bool {
        let end = self.all.len() - MARGIN;
        self.all[..MARGIN].iter().chain(&self.all[end..]).all(|v| v.bits() == self.fill.bits())
    }
}

// What a call came to; whether work buffer and halves are as they were; whether the source is, and all around the
// buffers.
pub(crate) fn call<K: Kind>(call: &Call<K::T>, pixels: &[K::T], source: &Numbers, into: &mut [K::T], sheet: &Numbers) -> (Answer, bool, bool) {
    let before = call.lengths.map(|n| vec![call.fill; n]);
    let [mut work, mut first, mut second] = [0, 1, 2].map(|i| Guarded::new(&before[i], call.fill));
    let (mut from, mut laid) = (Guarded::new(pixels, call.fill), Guarded::new(into, call.fill));
    let buffers = Buffers { work: work.elements(), first: first.elements(), second: second.elements() };
    let result = match &call.window {
        None => japotuhe::resample::<K::Port>(&call.request, from.elements(), source, laid.elements(), sheet, buffers),
        Some(part) => japotuhe::resample_window::<K::Port>(&call.request, from.elements(), source, laid.elements(), sheet, part, buffers),
    };
    let kept = work.holds(&before[0]) && first.holds(&before[1]) && second.holds(&before[2]);
    let within = from.holds(pixels) && [&work, &first, &second, &from, &laid].iter().all(|g| g.intact());
    into.copy_from_slice(laid.elements());
    (Answer::of_port(&result), kept, within)
}
