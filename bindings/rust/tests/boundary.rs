//! Every refusal that the calls give, with its values, and granted calls worked out by hand from docs/FAMILIES.md,
//! docs/STAGES.md and docs/PLANS.md.
use japotuhe::*;
use std::fmt::Debug;

const NEAREST: u8 = 1;
const CUBIC: u8 = 2;
const BOX: u8 = 29;
const HUGE: usize = 1 << 63;

/// The numbers of a call; a table states how a case differs from one that is granted.
#[derive(Clone, Copy)]
struct Call {
    request: Request,
    source: Numbers,
    sheet: Numbers,
    window: Option<Part>,
    from: usize,
    into: usize,
    work: usize,
    first: usize,
    second: usize,
}

fn granted() -> Call {
    let mut call = sized(3, 2, 2, 3);
    call.work = 3;
    call
}

/// A resize by Tent with one channel, planned, read and written alike.
fn sized(sw: usize, sh: usize, tw: usize, th: usize) -> Call {
    let (channels, bit_depth) = (1, 16);
    Call {
        request: Request {
            channels,
            source_width: sw,
            source_height: sh,
            target_width: tw,
            target_height: th,
            ..Default::default()
        },
        source: Numbers { channels, width: sw, height: sh, stride: 0, bit_depth },
        sheet: Numbers { channels, width: tw, height: th, stride: 0, bit_depth },
        window: None,
        from: sw * sh,
        into: tw * th,
        work: 32,
        first: 4,
        second: 4,
    }
}

/// Elements are 7 in a sheet before a call.
fn made<F: Family>(call: &Call, from: &[u16]) -> (Result<(), Refusal>, Vec<F::Element>)
where
    F::Element: PartialEq + Debug + Number,
{
    let of = |count: usize, value: u16| vec![F::Element::of(value); count];
    let source: Vec<F::Element> = (0..call.from).map(|i| F::Element::of(from.get(i).copied().unwrap_or(1))).collect();
    let (mut into, mut work) = (of(call.into, 7), of(call.work, 8));
    let (mut first, mut second) = (of(call.first, 8), of(call.second, 8));
    let buffers = Buffers { work: &mut work, first: &mut first, second: &mut second };
    let answer = match &call.window {
        Some(w) => resample_window::<F>(&call.request, &source, &call.source, &mut into, &call.sheet, w, buffers),
        None => resample::<F>(&call.request, &source, &call.source, &mut into, &call.sheet, buffers),
    };
    if answer.is_err() {
        assert_eq!(into, of(call.into, 7));
        assert_eq!([work, first, second], [of(call.work, 8), of(call.first, 8), of(call.second, 8)]);
    }
    (answer, into)
}

trait Number: Copy {
    fn of(value: u16) -> Self;
}

impl Number for u8 {
    fn of(value: u16) -> u8 {
        value as u8
    }
}

impl Number for u16 {
    fn of(value: u16) -> u16 {
        value
    }
}

impl Number for f32 {
    fn of(value: u16) -> f32 {
        value as f32
    }
}

type Change = fn(&mut Call);

fn refused(number: usize, values: &[usize]) -> Refusal {
    let at = |i: usize| values.get(i).copied().unwrap_or(0);
    let values = Values { first: at(0), second: at(1), third: at(2), fourth: at(3), fifth: at(4), sixth: at(5) };
    Refusal { number, values }
}

fn chain(call: &mut Call) {
    *call = sized(1, 1, 2, 3);
    call.request.multi_step = 1;
}

fn on_sheet(call: &mut Call, x: usize, width: usize) {
    (call.sheet.width, call.sheet.height, call.into) = (4, 4, 16);
    call.window = Some(Part { x, y: 1, width, height: 3 });
}

/// For every element type.
const REFUSALS: &[(Change, usize, &[usize])] = &[
    (|c| c.request.source_height = 0, 1, &[]),
    (|c| c.sheet.width = 0, 1, &[]),
    (|c| c.source.height = 0, 1, &[]),
    (|c| on_sheet(c, 1, 0), 1, &[]),
    (|c| c.source.width = HUGE, 2, &[]),
    (|c| c.source.stride = HUGE, 2, &[]),
    (|c| c.sheet.width = HUGE, 3, &[]),
    (|c| c.sheet.stride = usize::MAX, 3, &[]),
    (|c| c.into = 5, 4, &[6, 2, 3, 1, 5]),
    (|c| (c.source.stride, c.from) = (4, 6), 4, &[7, 3, 2, 1, 6]),
    (|c| c.sheet.stride = 1, 5, &[2, 1]),
    (|c| c.source.stride = 2, 5, &[3, 2]),
    (|c| c.request.function = CUBIC, 7, &[]),
    (|c| c.request.function = 53, 7, &[]),
    (|c| c.work = 2, 8, &[3, 2]),
    (|c| (c.request.whole, c.work) = (1, 8), 8, &[9, 8]),
    (|c| (chain(c), c.first = 3).0, 8, &[4, 3]),
    (|c| (chain(c), c.second = 0).0, 8, &[4, 0]),
    (|c| c.source.width = 2, 9, &[3, 2, 2, 2]),
    (|c| c.sheet.height = 2, 10, &[2, 3, 2, 2]),
    (|c| on_sheet(c, 1, 3), 10, &[2, 3, 3, 3]),
    (|c| on_sheet(c, 3, 2), 11, &[3, 1, 2, 3, 4, 4]),
    (|c| on_sheet(c, usize::MAX, 2), 11, &[usize::MAX, 1, 2, 3, 4, 4]),
    (|c| c.request.channels = 0, 12, &[0]),
    (|c| c.sheet.channels = 5, 12, &[5]),
    (|c| c.source.channels = usize::MAX, 12, &[usize::MAX]),
    (|c| (c.sheet.channels, c.into) = (2, 12), 13, &[1, 2]),
    (|c| (c.source.channels, c.from) = (3, 18), 13, &[1, 3]),
    (|c| c.request.target_width = 65536, 14, &[65536]),
];

const DEPTHS: &[(Change, usize, &[usize])] =
    &[(|c| c.sheet.bit_depth = 0, 6, &[0]), (|c| c.sheet.bit_depth = 17, 6, &[17])];

fn refuses<F: Family>(table: &[(Change, usize, &[usize])])
where
    F::Element: PartialEq + Debug + Number,
{
    assert_eq!(made::<F>(&granted(), &[]).0, Ok(()));
    for (i, (change, number, values)) in table.iter().enumerate() {
        let mut call = granted();
        change(&mut call);
        assert_eq!(made::<F>(&call, &[]).0, Err(refused(*number, values)), "row {i}");
    }
}

#[test]
fn refusals_of_u8() {
    refuses::<U8>(REFUSALS);
}

#[test]
fn refusals_of_u16() {
    refuses::<U16>(REFUSALS);
    refuses::<U16>(DEPTHS);
}

#[test]
fn refusals_of_u16_limited() {
    refuses::<U16Limited>(REFUSALS);
    refuses::<U16Limited>(DEPTHS);
}

#[test]
fn refusals_of_f32() {
    refuses::<F32>(REFUSALS);
    refuses::<F32>(&[(|c| c.request.function = BOX, 7, &[])]);
}

/// What a change of a resize makes of its source.
type Made<'a> = (Call, Change, &'a [u16], &'a [u16]);

fn makes<F: Family>(table: &[Made<'_>])
where
    F::Element: PartialEq + Debug + Number,
{
    for (i, (call, change, from, expected)) in table.iter().enumerate() {
        let mut call = *call;
        change(&mut call);
        let (answer, into) = made::<F>(&call, from);
        assert_eq!(answer, Ok(()), "row {i}");
        assert_eq!(into, expected.iter().map(|v| F::Element::of(*v)).collect::<Vec<_>>(), "row {i}");
    }
}

fn window_with_gaps(call: &mut Call) {
    (call.sheet.width, call.sheet.height, call.sheet.stride, call.into) = (5, 2, 6, 11);
    call.window = Some(Part { x: 1, y: 1, width: 4, height: 1 });
}

fn two_channels(call: &mut Call) {
    (call.request.channels, call.source.channels, call.sheet.channels) = (2, 2, 2);
    (call.from, call.into) = (2 * call.from, 2 * call.into);
}

/// Of every family.
fn common() -> Vec<Made<'static>> {
    vec![
        (sized(2, 1, 4, 1), |_| (), &[0, 100], &[0, 25, 75, 100]),
        (sized(1, 2, 1, 4), |_| (), &[0, 100], &[0, 25, 75, 100]),
        (sized(2, 1, 4, 1), two_channels, &[0, 10, 100, 50], &[0, 10, 25, 20, 75, 40, 100, 50]),
        (sized(2, 1, 3, 1), |c| c.request.function = NEAREST, &[5, 6], &[5, 5, 6]),
        (sized(3, 1, 2, 1), |c| c.request.function = NEAREST, &[4, 5, 6], &[4, 6]),
        (sized(2, 1, 2, 1), |c| (c.work, c.sheet.bit_depth) = (0, 0), &[8, 9], &[8, 9]),
        (sized(1, 1, 2, 3), |c| c.request.multi_step = 1, &[9], &[9; 6]),
        (sized(2, 1, 4, 1), window_with_gaps, &[0, 100], &[7, 7, 7, 7, 7, 7, 7, 0, 25, 75, 100]),
    ]
}

/// Of the families of whole numbers.
fn spans() -> Vec<Made<'static>> {
    vec![
        (sized(3, 1, 2, 1), |c| c.request.function = BOX, &[10, 20, 31], &[15, 26]),
        (sized(2, 2, 1, 1), |c| c.request.function = BOX, &[0, 0, 1, 3], &[2]),
        (sized(2, 2, 1, 1), |c| (c.request.function, c.request.whole) = (BOX, 1), &[0, 0, 1, 3], &[2]),
    ]
}

fn mean_at_depth(depth: usize) -> Call {
    let mut call = sized(2, 1, 1, 1);
    (call.request.function, call.sheet.bit_depth) = (BOX, depth);
    call
}

#[test]
fn values() {
    makes::<U8>(&[common(), spans()].concat());
    makes::<U16>(&[common(), spans()].concat());
    makes::<U16Limited>(&[common(), spans()].concat());
    makes::<F32>(&common());
}

#[test]
fn limit() {
    let from: &[u16] = &[1000, 2000];
    makes::<U16>(&[(mean_at_depth(10), |_| (), from, &[1500])]);
    makes::<U16Limited>(&[(mean_at_depth(10), |_| (), from, &[1023]), (mean_at_depth(11), |_| (), from, &[1500])]);
}

#[test]
fn an_infinite_or_nan_neighbour_makes_nan() {
    let call = sized(2, 1, 4, 1);
    for b in [f32::INFINITY, f32::NAN, -f32::NAN, f32::from_bits(0x7f80_0001)] {
        let mut into = [7.0; 4];
        let buffers = Buffers { work: &mut [], first: &mut [], second: &mut [] };
        resample::<F32>(&call.request, &[0.0, b], &call.source, &mut into, &call.sheet, buffers).unwrap();
        assert!(into[0].is_nan());
    }
}

#[test]
fn plans() {
    let mut call = Call { work: 0, ..granted() };
    chain(&mut call);
    let stage = |letter: char, source_width, source_height, target_width, target_height| Stage {
        letter: letter as u32,
        function: 0,
        source_width,
        source_height,
        target_width,
        target_height,
    };
    let stages = vec![stage('B', 1, 1, 2, 2), stage('V', 2, 2, 2, 3)];
    assert_eq!(plan::<U8>(&call.request), Ok((Plan { stages: 2, work: 1, half: 4 }, stages)));
    let request = Request { function: CUBIC, ..sized(5, 5, 5, 5).request };
    let copied = Stage { function: CUBIC, ..stage('C', 5, 5, 5, 5) };
    assert_eq!(plan::<F32>(&request), Ok((Plan { stages: 1, work: 0, half: 0 }, vec![copied])));
    let prefiltered = Request { supersampling: 1, ..sized(399, 100, 100, 100).request };
    assert_eq!(plan::<U16>(&prefiltered).unwrap().1[0], Stage { function: BOX, ..stage('H', 399, 100, 200, 100) });
    assert_eq!(plan::<F32>(&prefiltered), Err(refused(7, &[])));
}

#[test]
fn crops() {
    let from: Vec<u8> = (0..14).collect();
    let source = Numbers { channels: 2, width: 3, height: 2, stride: 8, bit_depth: 5 };
    let part = |x, y, width, height| crop::<U8>(&from, &source, &Part { x, y, width, height });
    assert_eq!(part(2, 1, 1, 1), Ok((Numbers { width: 1, height: 1, ..source }, &from[12..])));
    assert_eq!(part(1, 0, 2, 2), Ok((Numbers { width: 2, height: 2, ..source }, &from[2..])));
    assert_eq!(part(1, 0, 3, 1), Err(refused(11, &[1, 0, 3, 1, 3, 2])));
    assert_eq!(part(0, 2, 1, 0), Err(refused(1, &[])));
    let of = |source| crop::<F32>(&[0.0; 14], &source, &Part { x: 0, y: 0, width: 1, height: 1 }).map(|_| ());
    assert_eq!(of(Numbers { channels: 5, ..source }), Err(refused(12, &[5])));
    assert_eq!(of(Numbers { width: HUGE, ..source }), Err(refused(2, &[])));
    assert_eq!(of(Numbers { stride: 5, ..source }), Err(refused(5, &[6, 5])));
    assert_eq!(of(Numbers { stride: 9, ..source }), Err(refused(4, &[15, 3, 2, 2, 14])));
}

#[test]
fn a_crop_is_a_source() {
    let image = Numbers { channels: 1, width: 3, height: 2, stride: 4, bit_depth: 0 };
    let (source, from) =
        crop::<U8>(&[1, 2, 3, 99, 4, 5, 6], &image, &Part { x: 1, y: 0, width: 2, height: 2 }).unwrap();
    let call = sized(2, 2, 4, 2);
    let mut into = [7; 8];
    let buffers = Buffers { work: &mut [], first: &mut [], second: &mut [] };
    resample::<U8>(&call.request, from, &source, &mut into, &call.sheet, buffers).unwrap();
    assert_eq!(into, [2, 2, 3, 3, 5, 5, 6, 6]);
}
