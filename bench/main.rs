//! Times the port beside the reference, and prints the tables of docs/SPEED.md.
mod cases;
mod measure;

use cases::{CASES, Case, PIXEL, growing};
use measure::{Bench, Element, Side, lay_buffers_alike};
use std::time::Duration;

/// What is missed: a case and by how much.
#[derive(Default)]
struct Missed {
    slower: Vec<String>,
    copies: Vec<String>,
    unequal: Vec<String>,
}

fn measured<T: Element>(case: &Case, channels: usize, budget: Duration, missed: &mut Missed) -> (Bench<T>, Vec<f64>) {
    let mut bench = Bench::<T>::new(case, channels);
    if !bench.agree() {
        missed.unequal.push(format!("{}, {}, {channels}", case.name, T::NAME));
    }
    let sides: &[Side] = if case.copies { &[Side::Ours, Side::Rust, Side::Memory] } else { &[Side::Ours, Side::Rust] };
    let best = bench.best(sides, budget);
    (bench, best)
}

fn row<T: Element>(case: &Case, channels: usize, budget: Duration, missed: &mut Missed) {
    let (bench, best) = measured::<T>(case, channels, budget, missed);
    let (ours, rust) = (best[0], best[1]);
    let what = format!("{} ({}, {channels})", case.name, T::NAME);
    if ours > 1.03 * rust {
        missed.slower.push(format!("{what} {:.2}", ours / rust));
    }
    let memory = best.get(2).map_or(String::new(), |memory| format!("{:.2}", ours / memory));
    if best.get(2).is_some_and(|memory| ours > 2.0 * memory) {
        missed.copies.push(format!("{what} {memory}"));
    }
    println!(
        "| {} | {} | {channels} | {:.3} | {:.3} | {:.2} | {:.2} | {memory} |",
        case.name,
        T::NAME,
        ours / 1e6,
        rust / 1e6,
        ours / rust,
        ours / bench.pixels(),
    );
}

fn rows(case: &Case, budget: Duration, missed: &mut Missed) {
    let channels: &[usize] = if case.threes { &[1, 3, 4] } else { &[1, 4] };
    for &channels in channels {
        row::<u8>(case, channels, budget, missed);
        row::<u16>(case, channels, budget, missed);
        if !case.levels_only {
            row::<f32>(case, channels, budget, missed);
        }
    }
}

// The cost of a pixel at each size, for four channels of u8.
fn growth(sides: &[usize], only: &str, budget: Duration, missed: &mut Missed) {
    let sizes: Vec<Vec<Case>> = sides.iter().map(|side| growing(*side)).collect();
    for (i, case) in sizes[0].iter().enumerate().filter(|(_, case)| case.name.contains(only)) {
        print!("| {} |", case.name);
        for size in &sizes {
            let (bench, best) = measured::<u8>(&size[i], 4, budget, missed);
            print!(" {:.2} | {:.2} |", best[0] / bench.pixels(), best[1] / bench.pixels());
        }
        println!();
    }
}

fn listed(what: &str, cases: &[String]) {
    println!("- {what}: {}.", if cases.is_empty() { "none" } else { "these" });
    cases.iter().for_each(|case| println!("  - {case}"));
}

fn main() {
    let words: Vec<String> = std::env::args().collect();
    let budget = Duration::from_millis(words[1].parse().expect("milliseconds"));
    let only = words.get(2).map_or("", |name| name.as_str());
    let mut missed = Missed::default();
    lay_buffers_alike();
    println!("| case | elements | channels | ours, ms | Rust, ms | ours / Rust | ours, ns per pixel | ours / copy |");
    println!("|------|----------|----------|----------|----------|-------------|--------------------|-------------|");
    CASES.iter().filter(|case| case.name.contains(only)).for_each(|case| rows(case, budget, &mut missed));
    println!("\nNanoseconds per target pixel as the work grows, u8 with four channels:\n");
    println!("| case | 81×81, ours | Rust | 567×567, ours | Rust | 2025×2025, ours | Rust |");
    println!("|------|-------------|------|---------------|------|-----------------|------|");
    growth(&[81, 567, 2025], only, budget, &mut missed);
    let (_, call) = measured::<u8>(&PIXEL, 1, budget, &mut missed);
    println!(
        "\n- A call that copies one pixel: ours {:.0} ns, with planning; the Rust's {:.0} ns, without.",
        call[0], call[1]
    );
    listed("Slower than the Rust by more than 3 %", &missed.slower);
    listed("Slower than two plain memory copies", &missed.copies);
    listed("Unequal to the Rust in some element", &missed.unequal);
    std::process::exit(!(missed.unequal.is_empty() && missed.copies.is_empty()) as i32);
}
