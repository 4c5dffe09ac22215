//! Answers of both sides, in the port's numbers.
use crate::PicScaleError;
use japotuhe::Refusal;
use std::fmt::{Display, Formatter};
use std::panic::{AssertUnwindSafe, catch_unwind};
use std::sync::atomic::{AtomicBool, Ordering};

// Values that a refusal does not carry are 0.
#[derive(Clone, Copy, Debug, PartialEq, Eq)]
pub(crate) struct Answer {
    pub(crate) number: usize,
    pub(crate) values: [usize; 6],
}

// None of the port's numbers: what only the reference can come to.
const PANICKED: usize = 1000;
const EMPTY_PLAN: usize = 1012;
const GENERIC: usize = 1013;

impl Answer {
    pub(crate) const GRANTED: Answer = Answer { number: 0, values: [0; 6] };

    pub(crate) fn refused(number: usize, carried: &[usize]) -> Answer {
        let mut values = [0; 6];
        values[..carried.len()].copy_from_slice(carried);
        Answer { number, values }
    }

    pub(crate) fn granted(&self) -> bool {
        self.number == 0
    }

    pub(crate) fn panicked(&self) -> bool {
        self.number == PANICKED
    }

    // Too large, of a source or of a destination: the two names that the reference exchanges.
    pub(crate) fn exchanged(&self) -> bool {
        matches!(self.number, 2 | 3)
    }

    fn carried(&self) -> &[usize] {
        let n = match self.number {
            4 => 5,
            5 | 8 | 13 => 2,
            6 | 12 | 14 => 1,
            9 | 10 => 4,
            11 => 6,
            _ => 0,
        };
        &self.values[..n]
    }

    pub(crate) fn of_port<R>(result: &Result<R, Refusal>) -> Answer {
        match result {
            Ok(_) => Answer::GRANTED,
            Err(refusal) => Answer { number: refusal.number, values: refusal.values.to_array() },
        }
    }

    pub(crate) fn of_rust<R>(result: &Result<R, PicScaleError>) -> Answer {
        match result {
            Ok(_) => Answer::GRANTED,
            Err(fault) => translated(fault),
        }
    }
}

// The reference is running, whose panics are answers and are not printed.
pub(crate) static RUNNING: AtomicBool = AtomicBool::new(false);

// None if it panics.
pub(crate) fn guarded<R>(f: impl FnOnce() -> R) -> Option<R> {
    RUNNING.store(true, Ordering::Relaxed);
    let result = catch_unwind(AssertUnwindSafe(f)).ok();
    RUNNING.store(false, Ordering::Relaxed);
    result
}

// What the reference comes to, which may be a panic.
pub(crate) fn caught<R>(f: impl FnOnce() -> Result<R, PicScaleError>) -> (Answer, Option<R>) {
    match guarded(f) {
        Some(result) => (Answer::of_rust(&result), result.ok()),
        None => (Answer::refused(PANICKED, &[]), None),
    }
}

fn translated(fault: &PicScaleError) -> Answer {
    use PicScaleError::*;
    match fault {
        ZeroImageDimensions => Answer::refused(1, &[]),
        SourceImageIsTooLarge => Answer::refused(3, &[]),
        DestinationImageIsTooLarge => Answer::refused(2, &[]),
        BufferMismatch(m) => Answer::refused(4, &[m.expected, m.width, m.height, m.channels, m.slice_len]),
        InvalidStride(row, stride) => Answer::refused(5, &[*row, *stride]),
        UnsupportedBitDepth(depth) => Answer::refused(6, &[*depth]),
        UnknownResizingFilter => Answer::refused(7, &[]),
        InvalidScratchSize { expected, size } => Answer::refused(8, &[*expected, *size]),
        InvalidSourceSize { expected, size } => Answer::refused(9, &[expected.width, expected.height, size.width, size.height]),
        InvalidDestinationSize { expected, size } => Answer::refused(10, &[expected.width, expected.height, size.width, size.height]),
        CropOutOfBounds { x, y, width, height, image_width, image_height } => Answer::refused(11, &[*x, *y, *width, *height, *image_width, *image_height]),
        OutOfMemory(_) => Answer::refused(100, &[]),
        EmptyPlan => Answer::refused(EMPTY_PLAN, &[]),
        Generic(_) => Answer::refused(GENERIC, &[]),
    }
}

impl Display for Answer {
    fn fmt(&self, f: &mut Formatter<'_>) -> std::fmt::Result {
        match self.number {
            0 => return write!(f, "granted"),
            PANICKED => return write!(f, "panics"),
            GENERIC => return write!(f, "Generic"),
            EMPTY_PLAN => return write!(f, "EmptyPlan"),
            n => write!(f, "refused {n}")?,
        }
        self.carried().iter().try_for_each(|v| write!(f, " {v}"))
    }
}
