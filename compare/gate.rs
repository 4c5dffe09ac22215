//! The cases that the gate replays: the lines that it holds the port's programs to, against a run of both sides.
use crate::check;
use crate::counts::Counts;
use crate::lists::{Call, F32, Kind, List, U8, U16, U16Limited, shown};
use japotuhe::{Numbers, Request};

// One resample; buffers as the plan needs them.
fn resample<K: Kind>(request: Request, source: Numbers, pixels: Vec<K::T>, sheet: Numbers, before: Vec<K::T>) -> List<K::T> {
    let lengths = japotuhe::plan::<K::Port>(&request).map_or([0; 3], |(plan, _)| [plan.work, plan.half, plan.half]);
    List { sheet, before, calls: vec![Call { request, window: None, source, pixels, crop: None, lengths, fill: K::T::default() }] }
}

// The line of an order: its stages, and each row.
fn order_line(counts: &mut Counts, b: &[u8], planned_only: bool) -> String {
    let word = |i: usize| b[i] as usize * 256 + b[i + 1] as usize;
    let channels = b[0] as usize / 4 % 4 + 1;
    let request = Request { function: b[1], multi_step: b[0] >> 1 & 1, supersampling: b[0] & 1, whole: 0, channels, source_width: word(2), source_height: word(4), target_width: word(6), target_height: word(8) };
    let source = Numbers { channels, width: word(2), height: word(4), stride: 0, bit_depth: 8 };
    let sheet = Numbers { width: word(6), height: word(8), ..source };
    let row = sheet.width * channels;
    let before = vec![0; if planned_only { 0 } else { row * sheet.height }];
    let outcome = check::list::<U8>(counts, &resample::<U8>(request, source, b[10..].to_vec(), sheet, before));
    if !outcome.told[0].granted() {
        return format!("refused {}", outcome.told[0].number);
    }
    let stages = japotuhe::plan::<japotuhe::U8>(&request).map_or(vec![], |plan| plan.1);
    let lines = stages.iter().map(|s| format!("; {} {} {} {} {}", s.letter as u8 as char, s.source_width, s.source_height, s.target_width, s.target_height));
    let rows = outcome.sheet.chunks(row).map(|r| format!(";{}", shown(r)));
    format!("stages {}{}", stages.len(), lines.chain(rows).collect::<String>())
}

fn element_line<K: Kind>(counts: &mut Counts, kind: &str, n: &[usize]) -> String {
    use crate::lists::Bits;
    let request = Request { function: n[3] as u8, multi_step: n[2] as u8, supersampling: 0, whole: n[1] as u8, channels: n[5], source_width: n[6], source_height: n[7], target_width: n[9], target_height: n[10] };
    let source = Numbers { channels: n[5], width: n[6], height: n[7], stride: n[8], bit_depth: n[4] };
    let sheet = Numbers { width: n[9], height: n[10], stride: n[11], ..source };
    let pixels = n[14..].iter().map(|&v| K::T::of_bits(v as u32)).collect();
    let list = resample::<K>(request, source, pixels, sheet, vec![K::T::of_bits(n[13] as u32); n[12]]);
    let lengths = list.calls[0].lengths;
    let outcome = check::list::<K>(counts, &list);
    match outcome.told[0].number {
        0 => format!("{kind} {} {}:{}", lengths[0], lengths[1], shown(&outcome.sheet)),
        number => format!("refused {number}"),
    }
}

fn pairs(folder: &str) -> Vec<(String, String)> {
    let read = |f: &str| std::fs::read_to_string(format!("{folder}/{f}")).unwrap_or_else(|e| panic!("{folder}/{f}: {e}"));
    let (asked, said) = (read("stdin"), read("stdout"));
    assert_eq!(asked.lines().count(), said.lines().count());
    asked.lines().zip(said.lines()).map(|(a, b)| (a.to_string(), b.to_string())).collect()
}

// Orders that are refused before planning, or for their length, are not of the reference.
fn orders(counts: &mut Counts, root: &str) -> Vec<(String, String)> {
    let only_port = ["refused 15", "refused 16", "refused 17"];
    let cases = pairs(&format!("{root}/crates/replay_orders")).into_iter().filter(|(_, said)| !only_port.contains(&said.as_str()));
    let made = |(hex, said): (String, String)| {
        let bytes: Vec<u8> = (0..hex.len() / 2).map(|i| u8::from_str_radix(&hex[2 * i..2 * i + 2], 16).unwrap()).collect();
        (order_line(counts, &bytes, said.starts_with("refused")), said)
    };
    cases.map(made).collect()
}

fn elements(counts: &mut Counts, root: &str) -> Vec<(String, String)> {
    let made = |(line, said): (String, String)| {
        let (kind, rest) = line.split_once(' ').unwrap();
        let n: Vec<usize> = rest.split(' ').map(|w| w.parse().unwrap()).collect();
        let line = match (kind, n[0]) {
            ("f32", _) => element_line::<F32>(counts, kind, &n),
            (_, 0) => element_line::<U16>(counts, kind, &n),
            _ => element_line::<U16Limited>(counts, kind, &n),
        };
        (line, said)
    };
    pairs(&format!("{root}/crates/replay_elements")).into_iter().map(made).collect()
}

// The count of lines that are not what the gate expects.
pub(crate) fn compare(counts: &mut Counts, root: &str) -> usize {
    let lines = [orders(counts, root), elements(counts, root)].concat();
    let others: Vec<_> = lines.iter().filter(|(made, said)| made != said).collect();
    others.iter().for_each(|(made, said)| println!("NOT AS THE GATE EXPECTS: {said}\n  both sides {made}"));
    println!("{} lines of the gate's replays, {} of them otherwise here", lines.len(), others.len());
    others.len()
}
