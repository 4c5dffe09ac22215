//! Compares both sides: plans, crops, and each call of a list, with the whole buffer of the sheet after it.
use crate::answers::{Answer, caught};
use crate::counts::{Counts, Verdict};
use crate::families::LIMIT;
use crate::listed;
use crate::lists::{Call, Kind, List, same, shown};
use crate::origin::{By, Chain, Element};
use crate::port;
use japotuhe::{Numbers, Part, Request};
use std::sync::atomic::Ordering;

// The sheet's buffer on both sides.
struct Sides<T> {
    port: Vec<T>,
    rust: Vec<T>,
}

// The source of one call, cropped if the call says so.
struct Source<'a, T> {
    pixels: &'a [T],
    numbers: Numbers,
}

fn passed<R>((answer, _): (Answer, Option<R>)) -> bool {
    answer.granted()
}

fn alike(answer: &Answer) -> Verdict {
    if answer.exchanged() { Verdict::Listed(listed::EXCHANGED) } else { Verdict::Equal }
}

// A plan by itself.
pub(crate) fn only_plan<K: Kind>(counts: &mut Counts, request: &Request) {
    let (answer, verdict, _) = plan::<K>(counts, request);
    counts.settle("plans", verdict, &answer);
}

fn plan<K: Kind>(counts: &Counts, request: &Request) -> (Answer, Verdict, Chain) {
    let made = japotuhe::plan::<K::Port>(request);
    let port = Answer::of_port(&made);
    if let Some((said, class)) = listed::before_planning(request) {
        let verdict = if port == said { Verdict::Listed(class) } else { counts.print("a plan", request, port, said) };
        return (port, verdict, Chain::default());
    }
    LIMIT.store(K::LIMIT, Ordering::Relaxed);
    let (rust, chain) = caught(|| K::T::chain(request));
    let verdict = match (&made, &chain) {
        (Ok((plan, stages)), Some(chain)) if *plan == chain.plan && *stages == chain.stages => {
            if chain.same { Verdict::Equal } else { Verdict::Listed(listed::SIZES) }
        }
        (Ok(made), Some(chain)) => counts.print("a plan", request, made, (&chain.plan, &chain.stages)),
        _ if port == rust => Verdict::Equal,
        _ => listed::planning(request, &port).map_or_else(|| counts.print("a plan", request, port, rust), Verdict::Listed),
    };
    (port, verdict, chain.unwrap_or_default())
}

fn crop<'a, K: Kind>(counts: &Counts, pixels: &'a [K::T], n: &Numbers, part: &Part) -> (Answer, Verdict, Option<Source<'a, K::T>>) {
    let made = japotuhe::crop::<K::Port>(pixels, n, part);
    let port = Answer::of_port(&made);
    if !listed::known_channels(n.channels) {
        let said = Answer::refused(12, &[n.channels]);
        let verdict = if port == said { Verdict::Listed(listed::CHANNELS) } else { counts.print("a crop", (n, part), port, said) };
        return (port, verdict, None);
    }
    let (rust, theirs) = caught(|| K::T::cropped(pixels, n, part));
    let verdict = match (&made, &theirs) {
        (Ok((numbers, elements)), Some(theirs)) if (*numbers, elements.len()) == *theirs => Verdict::Equal,
        (Err(_), _) if port == rust => alike(&port),
        _ => listed::part(part, n.width, n.height, passed(caught(|| K::T::checked(pixels, n))), &port, &rust).map_or_else(|| counts.print("a crop", (n, part), port, (rust, theirs)), Verdict::Listed),
    };
    (port, verdict, made.ok().map(|(numbers, pixels)| Source { pixels, numbers }))
}

// The port's list of checks on stores, where their channels differ from the plan's: each store is checked by the
// reference for its own channels.
fn by_checks<T: Element>(call: &Call<T>, from: &Source<T>, buffer: &mut [T], sheet: &Numbers) -> Answer {
    let planned = call.request.channels;
    let counted = |n: &Numbers| if listed::known_channels(n.channels) { Answer::GRANTED } else { Answer::refused(12, &[n.channels]) };
    let matched = |n: &Numbers| if n.channels == planned { Answer::GRANTED } else { Answer::refused(13, &[planned, n.channels]) };
    let mut checks: [Box<dyn FnMut() -> Answer>; 6] = [
        Box::new(|| counted(sheet)),
        Box::new(|| caught(|| T::into_checked(buffer, sheet, call.window)).0),
        Box::new(|| counted(&from.numbers)),
        Box::new(|| caught(|| T::checked(from.pixels, &from.numbers)).0),
        Box::new(|| matched(sheet)),
        Box::new(|| matched(&from.numbers)),
    ];
    checks.iter_mut().map(|check| check()).find(|answer| !answer.granted()).unwrap_or(Answer::GRANTED)
}

// The reference's call, or what of it there is; and whether its scratch is as it was.
fn rust_call<T: Element>(call: &Call<T>, chain: &Chain, from: &Source<T>, buffer: &mut [T], sheet: &Numbers) -> (Answer, bool) {
    if sheet.channels != call.request.channels || from.numbers.channels != call.request.channels {
        return (by_checks(call, from, buffer, sheet), true);
    }
    let short = listed::short(&chain.plan, call.lengths);
    let by = if chain.same { By::Own } else { By::Port };
    let (answer, kept) = T::call(call, by, short, from.pixels, &from.numbers, buffer, sheet);
    if !chain.same {
        // Its own chain must answer alike, but for the sizes of buffers.
        let mut other = buffer.to_vec();
        let (own, _) = T::call(call, By::Own, short, from.pixels, &from.numbers, &mut other, sheet);
        if own != answer && (own.number, answer.number) != (8, 8) {
            return (own, kept);
        }
    }
    (answer, kept)
}

fn answers<T: Element>(call: &Call<T>, chain: &Chain, before: &[T], sheet: &Numbers, port: &Answer, rust: &Answer) -> Option<Verdict> {
    if port == rust {
        let only_ours = matches!(port.number, 12 | 13);
        return Some(if only_ours { Verdict::Listed(listed::CHANNELS) } else { alike(port) });
    }
    let checked = || passed(caught(|| T::into_checked(&mut before.to_vec(), sheet, None)));
    let part = call.window.and_then(|w| listed::part(&w, sheet.width, sheet.height, checked(), port, rust));
    part.or_else(|| listed::scratch(&chain.plan, call.lengths, port, rust)).map(Verdict::Listed)
}

// A granted call's sheets. After a copy that wrote gaps the reference's sheet goes on from the port's.
fn sheets<T: Element>(call: &Call<T>, chain: &Chain, from: &Source<T>, before: &[T], sides: &mut Sides<T>, sheet: &Numbers) -> Option<Verdict> {
    let r = &call.request;
    if (r.source_width, r.source_height) == (r.target_width, r.target_height) {
        let due = |strides| listed::copied(call, from.pixels, &from.numbers, sheet, before, strides);
        let wider = due(true);
        if !same(&due(false), &sides.port) || !same(&wider, &sides.rust) {
            return None;
        }
        sides.rust.clone_from(&sides.port);
        let class = if call.window.is_some() { listed::BESIDE } else { listed::GAPS };
        return Some(if same(&wider, &sides.port) { Verdict::Equal } else { Verdict::Listed(class) });
    }
    if !same(&sides.port, &sides.rust) {
        return None;
    }
    if chain.same {
        return Some(Verdict::Equal);
    }
    let mut staged = before.to_vec();
    let (answer, _) = caught(|| T::staged(call, from.pixels, &from.numbers, &mut staged, sheet));
    (answer.granted() && same(&staged, &sides.port)).then_some(Verdict::Listed(listed::SIZES))
}

fn one_call<K: Kind>(counts: &mut Counts, sheet: &Numbers, sides: &mut Sides<K::T>, call: &Call<K::T>, from: &Source<K::T>) -> (Answer, Verdict) {
    let (planned, as_planned, chain) = plan::<K>(counts, &call.request);
    counts.settle("plans", as_planned, &planned);
    let before = sides.port.clone();
    let (port, kept, within) = port::call::<K>(call, from.pixels, &from.numbers, &mut sides.port, sheet);
    if !within {
        return (port, counts.print("what a call of the port writes outside its buffers", call, port, sheet));
    }
    if !port.granted() && !(kept && same(&before, &sides.port)) {
        return (port, counts.print("what a refused call of the port leaves", call, port, sheet));
    }
    if !planned.granted() {
        return (port, if port == planned { as_planned } else { counts.print("a call", (sheet, call), port, planned) });
    }
    let (rust, rust_kept) = rust_call(call, &chain, from, &mut sides.rust, sheet);
    let Some(verdict) = answers(call, &chain, &before, sheet, &port, &rust) else {
        return (rust, counts.print("a call", (sheet, before.len(), call), port, rust));
    };
    if verdict == Verdict::Listed(listed::SUMS) {
        // The Rust may have granted it, and written elsewhere.
        sides.rust.clone_from(&sides.port);
        return (rust, verdict);
    }
    if !port.granted() {
        let as_before = rust_kept && same(&before, &sides.rust);
        return (rust, if as_before { verdict } else { counts.print("what a refused call of the Rust leaves", (sheet, call), port, rust) });
    }
    count_features(counts, call, &chain, from, sheet);
    let verdict = sheets(call, &chain, from, &before, sides, sheet);
    (rust, verdict.unwrap_or_else(|| counts.print("a sheet", (sheet, call), shown(&sides.port), shown(&sides.rust))))
}

fn count_features<T>(counts: &mut Counts, call: &Call<T>, chain: &Chain, from: &Source<T>, sheet: &Numbers) {
    let r = &call.request;
    let long = [r.source_width, r.source_height, r.target_width, r.target_height].into_iter().max() > Some(60_000);
    let gaps = |n: &Numbers| listed::pitch(n) > n.width * n.channels;
    let features = [
        (chain.stages.len() > 1 && chain.same && grown(r), "multi-step chains at sizes that agree"),
        (chain.stages.len() > 1 && !chain.same, "multi-step chains at the port's sizes"),
        (chain.stages.len() > 1 && !grown(r), "supersampling in two stages"),
        (call.crop.is_some(), "resampled from a crop"),
        (gaps(&from.numbers) || gaps(sheet), "with gaps"),
        (r.whole > 0, "by the route Whole"),
        (long, "with a dimension above 60,000"),
    ];
    features.into_iter().filter(|f| f.0).for_each(|f| counts.among(f.1));
}

fn grown(r: &Request) -> bool {
    r.target_width > r.source_width || r.target_height > r.source_height
}

// What came of a list: the answers, and the sheet, which is the same on both sides but for what is listed. `plain` if
// no listed difference shows but a refusal's number; then answers and sheet are the reference's.
pub(crate) struct Outcome<T> {
    pub(crate) told: Vec<Answer>,
    pub(crate) sheet: Vec<T>,
    pub(crate) plain: bool,
}

// Runs a list on both sides. A call whose crop is refused is not made.
pub(crate) fn list<K: Kind>(counts: &mut Counts, list: &List<K::T>) -> Outcome<K::T> {
    let mut sides = Sides { port: list.before.clone(), rust: list.before.clone() };
    let (mut told, mut plain) = (vec![], true);
    for one in &list.calls {
        let mut from = Some(Source { pixels: &one.pixels, numbers: one.source });
        if let Some(part) = &one.crop {
            let (answer, verdict, made) = crop::<K>(counts, &one.pixels, &one.source, part);
            counts.settle("crops", verdict, &answer);
            from = made;
        }
        let Some(from) = from else { continue };
        let (answer, verdict) = one_call::<K>(counts, &list.sheet, &mut sides, one, &from);
        counts.settle(if one.window.is_some() { "window calls" } else { "resamples" }, verdict, &answer);
        if verdict == Verdict::Unlisted {
            sides.rust.clone_from(&sides.port);
        }
        plain &= matches!(verdict, Verdict::Equal | Verdict::Listed(listed::EXCHANGED));
        told.push(answer);
    }
    if !same(&sides.port, &sides.rust) {
        counts.unlisted += 1;
        counts.print("a sheet after its list", (list.sheet, list.calls.len()), shown(&sides.port), shown(&sides.rust));
    }
    Outcome { told, sheet: sides.rust, plain }
}
