//! One case on both sides, over the same source.
use crate::cases::Case;
use japotuhe::{Buffers, Family, Numbers, Part, Request};
use reference::{Asked, Plan};
use std::hint::black_box;
use std::time::{Duration, Instant};

pub trait Element: Copy + Default + PartialEq + 'static {
    type Family: Family<Element = Self>;
    const NAME: &'static str;
    const DEPTH: usize;
    fn plan(asked: Asked) -> Box<dyn Plan<Self>>;
    fn of(bits: u32) -> Self;
}

macro_rules! elements {
    ($($t:ident $family:ident $plan:ident $depth:literal $bits:ident $of:expr;)*) => {$(
        impl Element for $t {
            type Family = japotuhe::$family;
            const NAME: &'static str = stringify!($t);
            const DEPTH: usize = $depth;
            fn plan(asked: Asked) -> Box<dyn Plan<$t>> {
                reference::$plan(asked)
            }
            fn of($bits: u32) -> $t {
                $of
            }
        }
    )*};
}

elements! {
    u8 U8 plan_u8 8 bits (bits >> 24) as u8;
    u16 U16 plan_u16 16 bits (bits >> 16) as u16;
    f32 F32 plan_f32 32 bits (bits >> 8) as f32 / 16777216.0;
}

#[repr(C)]
struct Time {
    seconds: i64,
    nanoseconds: i64,
}

unsafe extern "C" {
    fn clock_gettime(clock: i32, time: &mut Time) -> i32;
    fn mallopt(parameter: i32, value: i32) -> i32;
}

/// Lets each large buffer begin alike on a page of its own: how fast a copy is depends on how its two ends lie.
pub fn lay_buffers_alike() {
    const MMAP_THRESHOLD: i32 = -3;
    // SAFETY: the parameter is one of the C library's, and no other thread is there.
    let done = unsafe { mallopt(MMAP_THRESHOLD, 1 << 14) };
    assert_eq!(done, 1);
}

// What this thread has run, in nanoseconds: the time of others on the same core is not counted.
fn run_time() -> f64 {
    const THREAD: i32 = 3;
    let mut time = Time { seconds: 0, nanoseconds: 0 };
    // SAFETY: the clock is one of Linux's, and the call writes the time alone.
    let failed = unsafe { clock_gettime(THREAD, &mut time) };
    assert_eq!(failed, 0);
    time.seconds as f64 * 1e9 + time.nanoseconds as f64
}

// A run that is timed takes so many nanoseconds of ours, or more.
const SHORTEST: f64 = 200e3;

#[derive(Clone, Copy)]
pub enum Side {
    Ours,
    Rust,
    Memory,
}

pub struct Bench<T: Element> {
    request: Request,
    source: Numbers,
    sheet: Numbers,
    windows: Vec<Part>,
    from: Vec<T>,
    // All sides write here, so that none has the better place in memory.
    into: Vec<T>,
    work: Vec<T>,
    first: Vec<T>,
    second: Vec<T>,
    plan: Box<dyn Plan<T>>,
}

// A source of pixels without a pattern.
fn noise<T: Element>(length: usize) -> Vec<T> {
    let mut state = 1u32;
    let mut next = || {
        state = state.wrapping_mul(1664525).wrapping_add(1013904223);
        T::of(state)
    };
    (0..length).map(|_| next()).collect()
}

fn windows(case: &Case) -> Vec<Part> {
    let (width, height) = case.target;
    let at = |i: usize| Part { x: i % case.columns * (width + 3), y: i / case.columns * (height + 2), width, height };
    (0..case.columns * case.rows).map(at).collect()
}

fn request_of(case: &Case, channels: usize) -> Request {
    Request {
        function: case.function,
        multi_step: case.multi_step as u8,
        supersampling: case.supersampling as u8,
        whole: case.whole as u8,
        channels,
        source_width: case.source.0,
        source_height: case.source.1,
        target_width: case.target.0,
        target_height: case.target.1,
    }
}

impl<T: Element> Bench<T> {
    pub fn new(case: &Case, channels: usize) -> Bench<T> {
        // nothing about the sizes is known to the compiler
        let (case, channels) = black_box((*case, channels));
        let request = request_of(&case, channels);
        let windows = windows(&case);
        let (width, height) = windows.last().map(|w| (w.x + w.width, w.y + w.height)).expect("a window");
        let stride = width * channels + if windows.len() > 1 { 7 } else { 0 };
        let (needs, _) = japotuhe::plan::<T::Family>(&request).expect("a plan");
        let (sw, sh) = case.source;
        Bench {
            request,
            source: Numbers { channels, width: sw, height: sh, stride: 0, bit_depth: T::DEPTH },
            sheet: Numbers { channels, width, height, stride, bit_depth: T::DEPTH },
            windows,
            from: noise(sw * sh * channels),
            into: vec![T::default(); stride * height],
            work: vec![T::default(); needs.work],
            first: vec![T::default(); needs.half],
            second: vec![T::default(); needs.half],
            plan: T::plan(asked(&request, T::DEPTH)),
        }
    }

    fn run_ours(&mut self) {
        let one = self.windows.len() == 1;
        for window in &self.windows {
            let buffers = Buffers { work: &mut self.work, first: &mut self.first, second: &mut self.second };
            let (request, from, into) = (&self.request, &self.from, &mut self.into);
            let done = if one {
                japotuhe::resample::<T::Family>(request, from, &self.source, into, &self.sheet, buffers)
            } else {
                japotuhe::resample_window::<T::Family>(request, from, &self.source, into, &self.sheet, window, buffers)
            };
            done.expect("granted");
        }
    }

    fn run_rust(&mut self) {
        let Numbers { channels, stride, .. } = self.sheet;
        for window in &self.windows {
            let at = window.y * stride + window.x * channels;
            self.plan.resample(&self.from, &mut self.into[at..], stride);
        }
    }

    fn run_memory(&mut self) {
        black_box(&mut self.into[..]).copy_from_slice(black_box(&self.from));
    }

    fn run(&mut self, side: Side) {
        match side {
            Side::Ours => self.run_ours(),
            Side::Rust => self.run_rust(),
            Side::Memory => self.run_memory(),
        }
    }

    fn made(&mut self, side: Side) -> Vec<T> {
        self.into.fill(T::default());
        self.run(side);
        self.into.clone()
    }

    /// Whether both sides make the same.
    pub fn agree(&mut self) -> bool {
        self.made(Side::Ours) == self.made(Side::Rust)
    }

    pub fn pixels(&self) -> f64 {
        self.windows.iter().map(|w| (w.width * w.height) as f64).sum()
    }

    // A run before the clock starts brings the side's own memory near.
    fn time(&mut self, side: Side, repeats: u32) -> f64 {
        self.run(side);
        let begin = run_time();
        (0..repeats).for_each(|_| self.run(side));
        run_time() - begin
    }

    /// The least time that each side took, in nanoseconds. The sides take turns, so that a busy machine hits all alike.
    pub fn best(&mut self, sides: &[Side], budget: Duration) -> Vec<f64> {
        let start = Instant::now();
        let mut repeats = 1;
        while self.time(Side::Ours, repeats) < SHORTEST {
            repeats *= 2;
        }
        let mut best = vec![f64::INFINITY; sides.len()];
        let mut rounds = 0;
        while rounds < 7 || start.elapsed() < budget {
            for (side, best) in sides.iter().zip(&mut best) {
                *best = best.min(self.time(*side, repeats) / repeats as f64);
            }
            rounds += 1;
        }
        best
    }
}

fn asked(request: &Request, depth: usize) -> Asked {
    Asked {
        function: request.function,
        multi_step: request.multi_step != 0,
        supersampling: request.supersampling != 0,
        whole: request.whole != 0,
        channels: request.channels,
        source: (request.source_width, request.source_height),
        target: (request.target_width, request.target_height),
        depth,
    }
}
