//! Writes lists of calls with the reference's answers and sheets, for a program of the gate to replay without Rust.
//! Taken are lists in which no listed difference shows but a refusal's number, which is the port's.
//!
//! A line of stdin is a sheet and its calls, in words: `KIND channels width height stride depth length mark`, and per
//! call `call function steps super whole planned sw sh tw th x y channels width height stride work first second n`
//! and the n elements of the source. `call` is 1 for a window of the planned size at x, y. All elements of the sheet
//! are `mark` before, those of the buffers 0. A line of stdout has the answers, and the sheet's elements after the list.
use crate::answers::{Answer, caught};
use crate::check::{self, Outcome};
use crate::counts::Counts;
use crate::damage;
use crate::generate;
use crate::lists::{Bits, Call, F32, Kind, List, U8, U16, U16Limited, shown};
use crate::origin::Element;
use crate::port;
use crate::random::Random;
use japotuhe::{Numbers, Part, Request};
use std::collections::BTreeMap;

const OF_EACH_KIND: usize = 80;
// So many lists of each kind show one thing, before such a list is left to chance.
const ENOUGH: usize = 2;

// A call as a line can say it: flags of 0 or 1, a window of the planned size, no crop that is refused.
fn plainly<T: Element>(mut call: Call<T>) -> Call<T> {
    let r = &mut call.request;
    (r.multi_step, r.supersampling, r.whole) = (r.multi_step.min(1), r.supersampling.min(1), r.whole.min(1));
    if let Some(w) = &call.window {
        (r.target_width, r.target_height) = (w.width, w.height);
    }
    if let Some(part) = call.crop.take()
        && let (_, Some((numbers, length))) = caught(|| T::cropped(&call.pixels, &call.source, &part))
    {
        call.source = numbers;
        call.pixels.drain(..call.pixels.len() - length);
    }
    call.fill = T::default();
    call
}

fn candidate<K: Kind>(random: &mut Random) -> List<K::T> {
    let (mut sheet, length) = generate::sheet::<K>(random);
    sheet.width = sheet.width.min(8);
    if matches!(K::NAME, "u8" | "f32") {
        sheet.bit_depth = sheet.bit_depth.min(64);
    }
    let mark = generate::element::<K>(random);
    let count = random.to(4);
    let mut calls: Vec<_> = (0..count).map(|_| generate::call::<K>(random, &sheet)).collect();
    for call in &mut calls {
        if random.one_in(3) {
            damage::call(random, &sheet, call);
        }
    }
    let mut before = vec![mark; length];
    if random.one_in(12) {
        damage::store(random, &mut sheet, &mut before);
    }
    List { sheet, before, calls: calls.into_iter().map(plainly).collect() }
}

fn words(values: &[usize]) -> String {
    values.iter().map(|v| format!(" {v}")).collect()
}

fn line_of<K: Kind>(list: &List<K::T>) -> String {
    let n = &list.sheet;
    let mark = list.before.first().map_or(0, |v| v.bits());
    let mut line = format!("{}{}", K::NAME, words(&[n.channels, n.width, n.height, n.stride, n.bit_depth, list.before.len(), mark as usize]));
    for call in &list.calls {
        let (r, s, at) = (&call.request, &call.source, call.window.map_or((0, 0), |w| (w.x, w.y)));
        let flags = [call.window.is_some() as u8, r.function, r.multi_step, r.supersampling, r.whole].map(usize::from);
        line += &words(&flags);
        line += &words(&[r.channels, r.source_width, r.source_height, r.target_width, r.target_height, at.0, at.1]);
        line += &words(&[s.channels, s.width, s.height, s.stride]);
        line += &words(&call.lengths);
        line += &words(&[call.pixels.len()]);
        line += &shown(&call.pixels);
    }
    line
}

fn told<T: Bits>(answers: &[Answer], sheet: &[T]) -> String {
    let answers: String = answers.iter().map(|answer| format!("{answer}; ")).collect();
    format!("{answers}sheet{}", shown(sheet))
}

// What a list shows, so that the sample has some of each.
fn shows<K: Kind>(list: &List<K::T>, answers: &[Answer]) -> Vec<String> {
    let mut seen = vec![format!("{} channels", list.sheet.channels), format!("{} calls", list.calls.len())];
    for (call, answer) in list.calls.iter().zip(answers) {
        let what = if call.window.is_some() { "window call" } else { "resample" };
        seen.push(format!("{what} answer {}", answer.number));
        let Ok((_, stages)) = japotuhe::plan::<K::Port>(&call.request) else { continue };
        if answer.granted() {
            let letters: String = stages.iter().filter_map(|s| char::from_u32(s.letter)).collect();
            if letters == "B" {
                seen.push(format!("B to height {}, whole {}", call.request.target_height.min(9), call.request.whole));
            }
            seen.push(letters);
        }
    }
    seen
}

// Runs a line on the port, read back from its words.
fn replayed<K: Kind>(line: &str) -> String {
    let mut words = line.split(' ').skip(1).map(|w| w.parse::<usize>().unwrap());
    let mut next = || words.next();
    let mut take = || next().unwrap();
    let sheet = Numbers { channels: take(), width: take(), height: take(), stride: take(), bit_depth: take() };
    let length = take();
    let mut into = vec![K::T::of_bits(take() as u32); length];
    let mut answers = vec![];
    while let Some(kind) = next() {
        let mut take = || next().unwrap();
        let mut byte = || take() as u8;
        let (function, multi_step, supersampling, whole) = (byte(), byte(), byte(), byte());
        let (channels, source_width, source_height, target_width, target_height) = (take(), take(), take(), take(), take());
        let request = Request { function, multi_step, supersampling, whole, channels, source_width, source_height, target_width, target_height };
        let part = Part { x: take(), y: take(), width: target_width, height: target_height };
        let source = Numbers { channels: take(), width: take(), height: take(), stride: take(), bit_depth: 0 };
        let lengths = [take(), take(), take()];
        let n = take();
        let pixels: Vec<K::T> = (0..n).map(|_| K::T::of_bits(take() as u32)).collect();
        let call = Call { request, window: (kind == 1).then_some(part), source, pixels: vec![], crop: None, lengths, fill: K::T::default() };
        answers.push(port::call::<K>(&call, &pixels, &source, &mut into, &sheet).0);
    }
    told(&answers, &into)
}

fn sample<K: Kind>(random: &mut Random, asked: &mut String, answered: &mut String) {
    let mut counts = Counts::default();
    let mut seen: BTreeMap<String, usize> = BTreeMap::new();
    let mut taken = 0;
    while taken < OF_EACH_KIND {
        let list = candidate::<K>(random);
        let line = line_of::<K>(&list);
        let Outcome { told: answers, sheet, plain } = check::list::<K>(&mut counts, &list);
        let shows = shows::<K>(&list, &answers);
        let new = shows.iter().any(|what| seen.get(what).copied().unwrap_or(0) < ENOUGH);
        if !plain || line.len() > 1500 || !(new || random.one_in(300)) {
            continue;
        }
        let after = told(&answers, &sheet);
        assert_eq!(after, replayed::<K>(&line), "{line}");
        *asked += &(line + "\n");
        *answered += &(after + "\n");
        shows.into_iter().for_each(|what| *seen.entry(what).or_default() += 1);
        taken += 1;
    }
    assert_eq!(counts.unlisted, 0);
    println!("{taken} lists of {}: {seen:?}", K::NAME);
}

pub(crate) fn write(root: &str) {
    let random = &mut Random::new(5);
    let (mut asked, mut answered) = (String::new(), String::new());
    sample::<U8>(random, &mut asked, &mut answered);
    sample::<U16>(random, &mut asked, &mut answered);
    sample::<U16Limited>(random, &mut asked, &mut answered);
    sample::<F32>(random, &mut asked, &mut answered);
    let folder = format!("{root}/crates/replay_reference");
    std::fs::create_dir_all(&folder).unwrap();
    std::fs::write(format!("{folder}/stdin"), &asked).unwrap();
    std::fs::write(format!("{folder}/stdout"), &answered).unwrap();
    println!("wrote {} and {} bytes to {folder}", asked.len(), answered.len());
}
