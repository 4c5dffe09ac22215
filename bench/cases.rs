//! What is measured.

const BILINEAR: u8 = 0;
const NEAREST: u8 = 1;
const BOX: u8 = 29;

/// A resize, or as many of them as there are windows, all of one size and side by side on a sheet with gaps.
#[derive(Clone, Copy)]
pub struct Case {
    pub name: &'static str,
    pub function: u8,
    pub multi_step: bool,
    pub supersampling: bool,
    pub whole: bool,
    pub source: (usize, usize),
    pub target: (usize, usize),
    pub columns: usize,
    pub rows: usize,
    /// Does nothing but copy, so that it is held beside a plain memory copy too.
    pub copies: bool,
    /// No f32: the families have Box on whole numbers only.
    pub levels_only: bool,
    /// Three channels too.
    pub threes: bool,
}

const fn case(name: &'static str, function: u8, source: (usize, usize), target: (usize, usize)) -> Case {
    let copies = source.0 == target.0 && source.1 == target.1;
    Case {
        name,
        function,
        multi_step: false,
        supersampling: false,
        whole: false,
        source,
        target,
        columns: 1,
        rows: 1,
        copies,
        levels_only: function == BOX,
        threes: function == NEAREST,
    }
}

// The kernels take long: on a small image, a run is over before others are given the core.
const SMALL: (usize, usize) = (400, 300);
const FULL: (usize, usize) = (640, 480);
const LARGE: (usize, usize) = (1000, 800);
const KERNEL: (usize, usize) = (320, 240);
const KERNEL_FROM: (usize, usize) = (500, 400);

pub const CASES: &[Case] = &[
    case("nearest, down", NEAREST, LARGE, FULL),
    case("nearest, up", NEAREST, SMALL, FULL),
    case("nearest, without scaling", NEAREST, FULL, FULL),
    case("copy", BILINEAR, FULL, FULL),
    case("V, Tent", BILINEAR, (320, 400), KERNEL),
    case("H, Tent", BILINEAR, (500, 240), KERNEL),
    case("B Single, Tent", BILINEAR, KERNEL_FROM, KERNEL),
    Case { whole: true, ..case("B Whole, Tent", BILINEAR, KERNEL_FROM, KERNEL) },
    case("V, Span", BOX, (320, 400), KERNEL),
    case("H, Span", BOX, (500, 240), KERNEL),
    case("B Single, Span", BOX, KERNEL_FROM, KERNEL),
    Case { whole: true, ..case("B Whole, Span", BOX, KERNEL_FROM, KERNEL) },
    // 3/2 to the fourth: both sides plan the same four stages.
    Case { multi_step: true, ..case("chain of four, Tent", BILINEAR, (64, 48), (324, 243)) },
    Case { supersampling: true, ..case("supersampling, nearest first", BILINEAR, (800, 600), (160, 120)) },
    Case {
        supersampling: true,
        levels_only: true,
        ..case("supersampling, Box first", BILINEAR, (560, 420), (160, 120))
    },
    Case { columns: 6, rows: 5, ..case("sheet of 30 windows, Tent", BILINEAR, (75, 60), (50, 45)) },
    Case { columns: 6, rows: 5, ..case("sheet of 30 windows, nearest", NEAREST, (75, 60), (50, 45)) },
];

/// Next to no work: what is left is the cost of a call.
pub const PIXEL: Case = case("one pixel", BILINEAR, (1, 1), (1, 1));

/// The same kinds of work at any size: an image of `side` by `side` pixels is made. A `side` that 81 divides lets both
/// sides plan the same chain.
pub fn growing(side: usize) -> Vec<Case> {
    let (square, larger, smaller) = ((side, side), (side * 3 / 2, side * 3 / 2), (side * 2 / 3, side * 2 / 3));
    vec![
        case("copy", BILINEAR, square, square),
        case("nearest, down", NEAREST, larger, square),
        case("nearest, up", NEAREST, smaller, square),
        case("B Single, Tent", BILINEAR, larger, square),
        Case { whole: true, ..case("B Whole, Tent", BILINEAR, larger, square) },
        case("B Single, Span", BOX, larger, square),
        Case { multi_step: true, ..case("chain of four, Tent", BILINEAR, (side * 16 / 81, side * 16 / 81), square) },
    ]
}
