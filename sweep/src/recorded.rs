//! The library's jobs as the sweep calls them: with a record of the numbers that each job answered, and with a look at
//! what no job may change.
//!
//! A job gets copies of its buffers, each between two borders. After the call the inputs and all borders must hold what
//! they held; what the job did with the lengths that it was given is for the caller to compare.
use std::collections::BTreeSet;
use std::hint::black_box;
use std::sync::Mutex;

use crate::library::{self, Outcome, PenaltyOutcome, Plan, WordOutcome};
use crate::tally::Tally;

const HEADER: &str = include_str!(concat!(
    env!("CARGO_MANIFEST_DIR"),
    "/../include/nospridda.h"
));

/// A job: its name, its name in C, and the numbers that it can answer. The payload part has none; its calls are
/// recorded as 0.
struct Job {
    name: &'static str,
    function: &'static str,
    numbers: &'static [u32],
}

const fn job(name: &'static str, function: &'static str, numbers: &'static [u32]) -> Job {
    Job {
        name,
        function,
        numbers,
    }
}

/// Sixteen kernels side by side are for tests alone, and no job of the header. They answer whether the request was accepted, which
/// is recorded as 0, and as 1 where it was not.
const SIDE: &str = "side_follow";

const JOBS: [Job; 13] = [
    job("kernel encode", "kernel_encode", &[0, 1]),
    job("kernel undo", "kernel_undo", &[0, 1]),
    job("kernel follow", "kernel_follow", &[0, 1, 2, 5, 6]),
    job(
        "kernel follow by Hadamard",
        "kernel_follow_hadamard",
        &[0, 1, 2, 5, 6],
    ),
    job("frame encode", "frame_encode", &[0, 1, 2, 3, 4, 5, 14]),
    job("frame undo", "frame_undo", &[0, 1, 2, 3, 5, 9, 14]),
    job("frame follow", "frame_follow", &[0, 1, 2, 5, 6, 14]),
    job("frame decode", "frame_decode", &[0, 1, 2, 3, 5, 6, 14]),
    job(
        "list decode",
        "list_decode",
        &[0, 1, 2, 3, 5, 6, 11, 12, 13, 14],
    ),
    job("payload part", "part_length", &[]),
    job("information mask", "information_mask", &[0, 5, 8]),
    job("values from marks", "values_from_marks", &[0, 2, 5, 7, 10]),
    job("side by side", SIDE, &[0, 1]),
];

/// The highest number that a job can answer.
const HIGHEST: usize = 14;

/// The calls of one job.
#[derive(Clone, Copy)]
struct Calls {
    /// By the number answered, 0 to the highest.
    by_number: [u64; HIGHEST + 1],
    /// With a number above it.
    above: u64,
    /// After which an input or a border was changed.
    strayed: u64,
}

static RECORD: Mutex<[Calls; JOBS.len()]> = Mutex::new(
    [Calls {
        by_number: [0; HIGHEST + 1],
        above: 0,
        strayed: 0,
    }; JOBS.len()],
);

/// One call of the job with this name in C: the number answered, and whether inputs and borders were kept.
fn record(function: &str, number: u32, kept: bool) {
    let i = JOBS.iter().position(|job| job.function == function);
    let calls = &mut RECORD.lock().unwrap()[i.unwrap()];
    match calls.by_number.get_mut(number as usize) {
        Some(count) => *count += 1,
        None => calls.above += 1,
    }
    calls.strayed += u64::from(!kept);
}

/// The calls of each job by number. A number that a job can answer and did not, or that it cannot and did, is wrong.
pub fn report(tally: &mut Tally) {
    tally.line(format_args!("calls by the number answered:"), 0);
    for (job, calls) in JOBS.iter().zip(RECORD.lock().unwrap().iter()) {
        let met: Vec<u32> = (0..=HIGHEST as u32)
            .filter(|&n| calls.by_number[n as usize] > 0)
            .collect();
        let counts: Vec<String> = met
            .iter()
            .map(|&n| format!("{n}: {}", calls.by_number[n as usize]))
            .collect();
        let (text, can) = match job.numbers {
            [] => (format!("{}, with no number", calls.by_number[0]), &[0][..]),
            numbers => (counts.join(", "), numbers),
        };
        let cases = job.numbers.len() as u64;
        tally.line(format_args!("  {:17}  {text}", job.name), cases);
        tally.expect(
            met == can && calls.above == 0,
            format_args!(
                "{} can answer {can:?}; it answered {met:?}, and {} calls a number above {HIGHEST}",
                job.name, calls.above
            ),
        );
        tally.expect(
            calls.strayed == 0,
            format_args!(
                "{}: {} calls changed an input or what lies next to a buffer",
                job.name, calls.strayed
            ),
        );
    }
    let called: BTreeSet<&str> = JOBS
        .iter()
        .map(|job| job.function)
        .filter(|&function| function != SIDE)
        .collect();
    let declared = declared();
    tally.expect(
        called == declared,
        format_args!("the header declares {declared:?}, the sweep calls {called:?}"),
    );
}

/// The functions of the header.
fn declared() -> BTreeSet<&'static str> {
    HEADER
        .split("nospridda_")
        .filter_map(|text| text.split_once('('))
        .map(|(name, _)| name)
        .filter(|name| name.chars().all(|c| c.is_ascii_lowercase() || c == '_'))
        .collect()
}

/// What a buffer holds.
trait Element: Copy {
    const BORDER: Self;

    /// To compare by: a NaN is the same as itself.
    fn pattern(self) -> u32;
}

impl Element for u8 {
    const BORDER: u8 = 0xb5;

    fn pattern(self) -> u32 {
        u32::from(self)
    }
}

impl Element for i8 {
    const BORDER: i8 = -0x4b;

    fn pattern(self) -> u32 {
        self as u32
    }
}

impl Element for i16 {
    const BORDER: i16 = -0x4a4b;

    fn pattern(self) -> u32 {
        self as u32
    }
}

impl Element for i32 {
    const BORDER: i32 = -0x4a4a_4a4b;

    fn pattern(self) -> u32 {
        self as u32
    }
}

impl Element for u16 {
    const BORDER: u16 = 0xb5b5;

    fn pattern(self) -> u32 {
        u32::from(self)
    }
}

impl Element for u32 {
    const BORDER: u32 = 0xb5b5_b5b5;

    fn pattern(self) -> u32 {
        self
    }
}

impl Element for f32 {
    const BORDER: f32 = 181.0;

    fn pattern(self) -> u32 {
        self.to_bits()
    }
}

/// How many elements a border has.
const WIDTH: usize = 8;

/// A buffer between two borders.
struct Bordered<T>(Vec<T>);

impl<T: Element> Bordered<T> {
    fn new(buffer: &[T]) -> Bordered<T> {
        let border = [T::BORDER; WIDTH];
        Bordered([&border, buffer, &border].concat())
    }

    fn buffer(&mut self) -> &mut [T] {
        let end = self.0.len() - WIDTH;
        &mut self.0[WIDTH..end]
    }

    /// Whether all is as it was made from this buffer. It is read from memory anew, whatever a job was lent it for.
    fn holds(&self, buffer: &[T]) -> bool {
        let patterns = |all: &[T]| -> Vec<u32> { all.iter().map(|&x| x.pattern()).collect() };
        patterns(black_box(&self.0)) == patterns(&Bordered::new(buffer).0)
    }

    /// Hands an output to the caller; whether the borders are kept.
    fn hand_over(mut self, to: &mut [T]) -> bool {
        to.copy_from_slice(self.buffer());
        self.holds(to)
    }
}

pub fn kernel_encode(kernel: u8, symbols: u16) -> WordOutcome {
    let outcome = library::kernel_encode(kernel, symbols);
    record("kernel_encode", outcome.number, true);
    outcome
}

pub fn kernel_undo(kernel: u8, word: u16) -> WordOutcome {
    let outcome = library::kernel_undo(kernel, word);
    record("kernel_undo", outcome.number, true);
    outcome
}

pub fn kernel_follow(kernel: u8, values: &[i32], symbols: u16, scores: &mut [i32]) -> Outcome {
    let (mut y, mut out) = (Bordered::new(values), Bordered::new(scores));
    let outcome = library::kernel_follow(kernel, y.buffer(), symbols, out.buffer());
    let kept = [y.holds(values), out.hand_over(scores)];
    record("kernel_follow", outcome.number, kept == [true; 2]);
    outcome
}

pub fn kernel_follow_hadamard(
    kernel: u8,
    values: &[i32],
    symbols: u16,
    scores: &mut [i32],
) -> Outcome {
    let (mut y, mut out) = (Bordered::new(values), Bordered::new(scores));
    let outcome = library::kernel_follow_hadamard(kernel, y.buffer(), symbols, out.buffer());
    let kept = [y.holds(values), out.hand_over(scores)];
    record("kernel_follow_hadamard", outcome.number, kept == [true; 2]);
    outcome
}

pub fn frame_encode(plan: Plan, mask: &[u8], payload: &[u8], word: &mut [u8]) -> Outcome {
    let (mut m, mut p) = (Bordered::new(mask), Bordered::new(payload));
    let mut out = Bordered::new(word);
    let outcome = library::frame_encode(plan, m.buffer(), p.buffer(), out.buffer());
    let kept = [m.holds(mask), p.holds(payload), out.hand_over(word)];
    record("frame_encode", outcome.number, kept == [true; 3]);
    outcome
}

pub fn frame_undo(plan: Plan, mask: &[u8], word: &[u8], payload: &mut [u8]) -> Outcome {
    let (mut m, mut w) = (Bordered::new(mask), Bordered::new(word));
    let mut out = Bordered::new(payload);
    let outcome = library::frame_undo(plan, m.buffer(), w.buffer(), out.buffer());
    let kept = [m.holds(mask), w.holds(word), out.hand_over(payload)];
    record("frame_undo", outcome.number, kept == [true; 3]);
    outcome
}

pub fn frame_follow(
    plan: Plan,
    values: &[i8],
    symbols: &[u8],
    scores: &mut [i32],
    penalties: &mut [u32],
) -> Outcome {
    let (mut y, mut u) = (Bordered::new(values), Bordered::new(symbols));
    let (mut first, mut second) = (Bordered::new(scores), Bordered::new(penalties));
    let outcome = library::frame_follow(
        plan,
        y.buffer(),
        u.buffer(),
        first.buffer(),
        second.buffer(),
    );
    let kept = [
        y.holds(values),
        u.holds(symbols),
        first.hand_over(scores),
        second.hand_over(penalties),
    ];
    record("frame_follow", outcome.number, kept == [true; 4]);
    outcome
}

pub fn frame_decode(
    plan: Plan,
    values: &[i8],
    mask: &[u8],
    scores: &mut [i32],
    penalties: &mut [u32],
    payload: &mut [u8],
) -> Outcome {
    let (mut y, mut m) = (Bordered::new(values), Bordered::new(mask));
    let (mut first, mut second) = (Bordered::new(scores), Bordered::new(penalties));
    let mut third = Bordered::new(payload);
    let outcome = library::frame_decode(
        plan,
        y.buffer(),
        m.buffer(),
        first.buffer(),
        second.buffer(),
        third.buffer(),
    );
    let kept = [
        y.holds(values),
        m.holds(mask),
        first.hand_over(scores),
        second.hand_over(penalties),
        third.hand_over(payload),
    ];
    record("frame_decode", outcome.number, kept == [true; 5]);
    outcome
}

pub fn list_decode(
    plan: Plan,
    list: usize,
    values: &[i8],
    mask: &[u8],
    scratch: &mut [u8],
    payload: &mut [u8],
) -> PenaltyOutcome {
    let (mut y, mut m) = (Bordered::new(values), Bordered::new(mask));
    let (mut first, mut second) = (Bordered::new(scratch), Bordered::new(payload));
    let outcome = library::list_decode(
        plan,
        list,
        y.buffer(),
        m.buffer(),
        first.buffer(),
        second.buffer(),
    );
    let kept = [
        y.holds(values),
        m.holds(mask),
        first.hand_over(scratch),
        second.hand_over(payload),
    ];
    record("list_decode", outcome.number, kept == [true; 4]);
    outcome
}

pub fn part_length(plan: Plan, mask: &[u8], length: usize) -> usize {
    let mut m = Bordered::new(mask);
    let part = library::part_length(plan, m.buffer(), length);
    record("part_length", 0, m.holds(mask));
    part
}

pub fn information_mask(p: usize, mask: &mut [u8]) -> Outcome {
    let mut out = Bordered::new(mask);
    let outcome = library::information_mask(p, out.buffer());
    record("information_mask", outcome.number, out.hand_over(mask));
    outcome
}

pub fn values_from_marks(
    scale: f32,
    amplitudes: &[f32],
    blanked: &[u8],
    values: &mut [i8],
) -> Outcome {
    let (mut x, mut b) = (Bordered::new(amplitudes), Bordered::new(blanked));
    let mut out = Bordered::new(values);
    let outcome = library::values_from_marks(scale, x.buffer(), b.buffer(), out.buffer());
    let kept = [x.holds(amplitudes), b.holds(blanked), out.hand_over(values)];
    record("values_from_marks", outcome.number, kept == [true; 3]);
    outcome
}

pub fn side_follow(kernel: u8, values: &[i16], planes: &[u16], scores: &mut [i32]) -> bool {
    let (mut y, mut u) = (Bordered::new(values), Bordered::new(planes));
    let mut out = Bordered::new(scores);
    let accepted = library::side_follow(kernel, y.buffer(), u.buffer(), out.buffer());
    let kept = [y.holds(values), u.holds(planes), out.hand_over(scores)];
    record(SIDE, u32::from(!accepted), kept == [true; 3]);
    accepted
}
