//! The inputs of docs/DIFFERENCES.md, run on both sides: each side must do what is said of it there.
use crate::answers::{Answer, guarded};
use crate::origin::{source, target};
use crate::plan::DefaultPlanner;
use crate::plan::superresolution::plan_intermediate_sizes;
use crate::steps::{at_place, ends};
use crate::{ImageSize, ImageStore, PicScaleError, ResamplingFunction, origin};
use japotuhe::{Buffers, Numbers, Part, Request};

const WIDE: usize = 1 << 63;
const MOST: usize = usize::MAX;
// Where the library of the port has no such call.
const NONE: &str = "no such call";

// An input, and what each side does with it and should do by the list.
struct Row {
    input: &'static str,
    rust: (String, &'static str),
    port: (String, &'static str),
}

fn row(input: &'static str, rust: (String, &'static str), port: (String, &'static str)) -> Row {
    Row { input, rust, port }
}

fn numbers(channels: usize, width: usize, height: usize, stride: usize) -> Numbers {
    Numbers { channels, width, height, stride, bit_depth: 0 }
}

// By function `place`, from s to t, one channel.
fn asked(place: u8, s: (usize, usize), t: (usize, usize)) -> Request {
    Request { function: place, channels: 1, source_width: s.0, source_height: s.1, target_width: t.0, target_height: t.1, ..Default::default() }
}

const BILINEAR: u8 = 0;
const NEAREST: u8 = 1;
const BOX: u8 = 29;

// What the Rust comes to, in a word: granted, its own number of a refusal, or a panic.
fn word<R>(f: impl FnOnce() -> Result<R, PicScaleError>) -> String {
    match guarded(|| f().map(|_| ())) {
        Some(Ok(())) => "granted".into(),
        Some(Err(fault)) => fault.code().to_string(),
        None => "panics".into(),
    }
}

// The port's answer, with what it carries.
fn told<R>(result: Result<R, japotuhe::Refusal>) -> String {
    Answer::of_port(&result).to_string().replace("refused ", "")
}

fn rust_plan(request: &Request) -> String {
    let (s, t) = ends(request);
    word(|| DefaultPlanner::plan_generic_resize::<u8, f32, 1>(&origin::scaler_of(request), s, t, 8))
}

fn port_plan(request: &Request) -> String {
    told(japotuhe::plan::<japotuhe::U8>(request))
}

// A crop of an image one pixel wide, on both sides.
fn crop<const N: usize>(input: &'static str, high: usize, part: Part, rust: &'static str, port: &'static str) -> Row {
    let (pixels, n) = (vec![7; N * high], numbers(N, 1, high, 0));
    let theirs = word(|| source::<u8, N>(&pixels, &n).crop(part.x, part.y, part.width, part.height).map(|_| ()));
    row(input, (theirs, rust), (told(japotuhe::crop::<japotuhe::U8>(&pixels, &n, &part)), port))
}

// One call on both sides, of one channel, without buffers to work in: the answers, and the sheet where it is granted.
struct Try<'a> {
    request: Request,
    pixels: &'a [u8],
    source: Numbers,
    sheet: Numbers,
    window: Option<Part>,
    length: usize,
}

impl Try<'_> {
    fn rust(&self) -> String {
        let mut into = vec![0; self.length];
        let answer = word(|| {
            let (s, t) = ends(&self.request);
            let plan = DefaultPlanner::plan_generic_resize::<u8, f32, 1>(&origin::scaler_of(&self.request), s, t, 8)?;
            let (from, mut sheet) = (source::<u8, 1>(self.pixels, &self.source), target::<u8, 1>(&mut into, &self.sheet));
            match self.window {
                None => plan.resample_with_scratch(&from, &mut sheet, &mut []),
                Some(w) => sheet.crop(w.x, w.y, w.width, w.height).and_then(|mut part| plan.resample_with_scratch(&from, &mut part, &mut [])),
            }
        });
        if answer == "granted" { format!("{into:?}") } else { answer }
    }

    fn port(&self) -> String {
        let mut into = vec![0; self.length];
        let buffers = Buffers { work: &mut [], first: &mut [], second: &mut [] };
        let result = match &self.window {
            None => japotuhe::resample::<japotuhe::U8>(&self.request, self.pixels, &self.source, &mut into, &self.sheet, buffers),
            Some(w) => japotuhe::resample_window::<japotuhe::U8>(&self.request, self.pixels, &self.source, &mut into, &self.sheet, w, buffers),
        };
        let answer = told(result);
        if answer == "granted" { format!("{into:?}") } else { answer }
    }

    fn row(&self, input: &'static str, rust: &'static str, port: &'static str) -> Row {
        row(input, (self.rust(), rust), (self.port(), port))
    }
}

fn one_pixel<'a>() -> Try<'a> {
    let one = numbers(1, 1, 1, 0);
    Try { request: asked(NEAREST, (1, 1), (1, 1)), pixels: &[7], source: one, sheet: one, window: None, length: 1 }
}

fn stores() -> Vec<Row> {
    let one = numbers(1, 1, 1, 0);
    let wide = numbers(1, WIDE, 1, 0);
    let mut field = source::<u8, 1>(&[7], &one);
    field.channels = 0;
    let made = |side: usize| word(|| ImageStore::<u8, 1>::borrow(&[], side, side));
    vec![
        Try { source: wide, ..one_pixel() }.row("a source of width 2^63, height 1", "3", "2"),
        Try { sheet: wide, ..one_pixel() }.row("a destination of width 2^63, height 1", "2", "3"),
        row("N = 1, field 0, 1x1", (word(|| field.validate()), "granted"), (Try { source: numbers(0, 1, 1, 0), ..one_pixel() }.port(), "12 0")),
        row("making 1x1 over an empty buffer; in the port, using it", (made(1), "4"), (Try { pixels: &[], ..one_pixel() }.port(), "4 1 1 1 1 0")),
        row("making 2^32 x 2^32 over an empty buffer; in the port, using it", (made(1 << 32), "granted"), (Try { pixels: &[], source: numbers(1, 1 << 32, 1 << 32, 0), ..one_pixel() }.port(), "2")),
    ]
}

fn parts() -> Vec<Row> {
    let part = |x, y, width, height| Part { x, y, width, height };
    let through = |w: Part| Try { window: Some(w), ..one_pixel() };
    vec![
        crop::<1>("crop 1x1 at 2^64 - 1, 0 of 1x1", 1, part(MOST, 0, 1, 1), "panics", "11 18446744073709551615 0 1 1 1 1"),
        crop::<1>("crop 1x1 at 2^64 - 1, 1 of 1x2", 2, part(MOST, 1, 1, 1), "granted", "11 18446744073709551615 1 1 1 1 2"),
        crop::<2>("2 channels, crop 2^63 wide at 2^63, 0 of 1x1", 1, part(WIDE, 0, WIDE, 1), "granted", "11 9223372036854775808 0 9223372036854775808 1 1 1"),
        crop::<1>("crop 0x1 at 0, 0 of 1x1", 1, part(0, 0, 0, 1), "granted", "1"),
        crop::<1>("crop 0x0 at 1, 1 of 1x1", 1, part(1, 1, 0, 0), "panics", "1"),
        through(part(MOST, 0, 1, 1)).row("window 1x1 at 2^64 - 1, 0 of 1x1", "panics", "11 18446744073709551615 0 1 1 1 1"),
        Try { sheet: numbers(1, 1, 2, 0), length: 2, ..through(part(MOST, 1, 1, 1)) }.row("window 1x1 at 2^64 - 1, 1 of the 1x2 sheet 0 0, from 7", "[7, 0]", "11 18446744073709551615 1 1 1 1 2"),
        through(part(0, 0, 0, 1)).row("window 0x1 at 0, 0 of 1x1, refused alike", "1", "1"),
        through(part(1, 1, 0, 0)).row("window 0x0 at 1, 1 of 1x1", "panics", "1"),
    ]
}

fn plans() -> Vec<Row> {
    let both = |input, request: Request, rust, port| row(input, (rust_plan(&request), rust), (port_plan(&request), port));
    let name = |n: u32| format!("{:?}, place {}", ResamplingFunction::from(n), ResamplingFunction::from(n) as u8);
    let place = |n: u8| japotuhe::plan::<japotuhe::U8>(&asked(n, (1, 1), (1, 1))).map_or_else(|fault| fault.number.to_string(), |(_, stages)| format!("place {}", stages[0].function));
    vec![
        both("plan by Nearest, 0x1 to 1x1", asked(NEAREST, (0, 1), (1, 1)), "granted", "1"),
        both("plan by Bilinear, multi-step, 0x1 to 1x1", Request { multi_step: 1, ..asked(BILINEAR, (0, 1), (1, 1)) }, "panics", "1"),
        both("plan by Nearest, 1x1 to 65,536x1", asked(NEAREST, (1, 1), (65_536, 1)), "granted", "14 65536"),
        both("plan by Nearest, 65,536x1 to 1x1", asked(NEAREST, (65_536, 1), (1, 1)), "granted", "14 65536"),
        both("plan by Nearest, 1x1 to 2^63 x 1", asked(NEAREST, (1, 1), (WIDE, 1)), "13", "14 9223372036854775808"),
        row("function 11 of From<u32>; in the port, by place", (name(11), "Blackman, place 12"), (place(11), "place 11")),
        row("function 53 of From<u32>; in the port, by place", (name(53), "Bilinear, place 0"), (place(53), "7")),
    ]
}

// The sizes between, of a multi-step plan. The port plans only for functions that its families know.
fn chain(input: &'static str, request: Request, rust: &'static str, port: &'static str) -> Row {
    let (s, t) = ends(&request);
    let shown = |sizes: Vec<ImageSize>| sizes.iter().map(|v| format!("{}x{}", v.width, v.height)).collect::<Vec<_>>().join(" ");
    let ours = japotuhe::plan::<japotuhe::U8>(&Request { multi_step: 1, ..request }).map(|(_, stages)| {
        let last = stages.len() - 1;
        shown(stages[..last].iter().map(|v| ImageSize::new(v.target_width, v.target_height)).collect())
    });
    row(input, (shown(plan_intermediate_sizes(s, t, at_place(request.function))), rust), (ours.unwrap_or_else(|fault| fault.number.to_string()), port))
}

fn chains() -> Vec<Row> {
    let longest = asked(BILINEAR, (1, 1), (65_535, 1));
    let ours = japotuhe::plan::<japotuhe::U8>(&Request { multi_step: 1, ..longest }).map_or(0, |(_, stages)| stages.len());
    let theirs = plan_intermediate_sizes(ImageSize::new(1, 1), ImageSize::new(65_535, 1), ResamplingFunction::Bilinear).len() + 1;
    let (cubic, lanczos3) = (2, 32);
    vec![
        chain("Bilinear, 1x1 to 2x1, between", asked(BILINEAR, (1, 1), (2, 1)), "1x1", ""),
        chain("Box, 1x1 to 5x1, between", asked(BOX, (1, 1), (5, 1)), "2x1 3x1", "2x1 4x1"),
        chain("Bilinear, 1x1 to 2x3, between", asked(BILINEAR, (1, 1), (2, 3)), "1x1 2x2", "2x2"),
        chain("Box, 10x10 to 100x100, between", asked(BOX, (10, 10), (100, 100)), "18x18 32x32 56x56", "20x20 40x40 80x80"),
        chain("Cubic, 10x10 to 100x100, between; unknown to the port's families", asked(cubic, (10, 10), (100, 100)), "18x18 32x32 56x56", "7"),
        chain("Lanczos3, 1x1 to 243x1, between; unknown to the port's families", asked(lanczos3, (1, 1), (243, 1)), "2x1 6x1 16x1 39x1 97x1", "7"),
        row("Bilinear, 1x1 to 65,535x1, stages", (theirs.to_string(), "28"), (ours.to_string(), "27")),
    ]
}

fn pixels() -> Vec<Row> {
    let cut = |x, y| source::<u8, 1>(&[5, 7], &numbers(1, 2, 1, 0)).crop_with_copy(x, y, 1, 1).map(|c| c.buffer.to_vec());
    let column = numbers(1, 1, 2, 2);
    let copy = Try { request: asked(BILINEAR, (1, 2), (1, 2)), pixels: &[1, 9, 2], source: column, sheet: column, window: None, length: 3 };
    let beside = Try { sheet: numbers(1, 2, 2, 0), window: Some(Part { x: 0, y: 0, width: 1, height: 2 }), length: 4, ..copy };
    let onto = |from: &[u8], to: usize| {
        let mut into = vec![0; to];
        let ran = guarded(|| source::<u8, 1>(from, &numbers(1, 1, 1, 0)).copied_to_mut(&mut target(&mut into, &numbers(1, to, 1, 0))));
        ran.map_or("panics".to_string(), |()| format!("{into:?}"))
    };
    vec![
        copy.row("1x2 to 1x2, stride 2 on both sides, 1 9 2 into 0 0 0", "[1, 9, 2]", "[1, 0, 2]"),
        beside.row("the same through a window 1x2 at 0, 0 of the 2x2 sheet 0 0 0 0", "[1, 9, 2, 0]", "[1, 0, 2, 0]"),
        row("copied_to_mut 1x1, 7 into the 2x1 image 0 0", (onto(&[7], 2), "[7, 0]"), (NONE.into(), NONE)),
        row("copied_to_mut 1x1 over an empty buffer", (onto(&[], 1), "panics"), (NONE.into(), NONE)),
        row("crop_with_copy 1x1 at 1, 0 of 5 7", (format!("{:?}", cut(1, 0).ok()), "Some([0])"), (NONE.into(), NONE)),
    ]
}

fn scratch() -> Vec<Row> {
    let request = Request { supersampling: 1, ..asked(BILINEAR, (4, 1), (1, 1)) };
    let refused = Try { request, pixels: &[1, 2, 3, 4], source: numbers(1, 4, 1, 0), ..one_pixel() };
    let (s, t) = ends(&request);
    let plan = DefaultPlanner::plan_generic_resize::<u8, f32, 1>(&origin::scaler_of(&request), s, t, 8);
    let needed = plan.map_or(0, |plan| plan.scratch_size());
    vec![
        refused.row("Bilinear, supersampling, 4x1 to 1x1, no scratch", "9", "8 2 0"),
        row("the same: elements of scratch needed; in the port, each half", (needed.to_string(), "4"), (japotuhe::plan::<japotuhe::U8>(&request).map_or(0, |p| p.0.half).to_string(), "2")),
    ]
}

// The count of inputs with which a side does something else than is said.
pub(crate) fn show() -> usize {
    let mut others = 0;
    println!("the inputs of docs/DIFFERENCES.md on both sides");
    for row in [stores(), parts(), plans(), chains(), pixels(), scratch()].into_iter().flatten() {
        let as_said = row.rust.0 == row.rust.1 && row.port.0 == row.port.1;
        others += !as_said as usize;
        println!("{} {}: Rust {}, port {}", if as_said { "as listed " } else { "NOT LISTED" }, row.input, row.rust.0, row.port.0);
    }
    others
}
