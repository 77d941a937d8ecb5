//! Values from marks: the paper's cases and many more under the scale 32, and whole requests under all scales.
use std::fs;

use crate::frame::packed;
use crate::library::Outcome;
use crate::product::{
    is_finite, is_scale, is_subnormal, near, value, EXACT, LARGEST, ONE, SIGN, SMALLEST, THIRTY_TWO,
};
use crate::random::Random;
use crate::request::{
    amplitude, both_signs, compare_all, halves, in_range, not_finite, pattern, refused_scale,
    scale, Done, Request, NOT_FINITE, SPARE,
};
use crate::tally::Tally;
use crate::traps::Told;

/// What the program `mark_cases` must print.
const MARK_CASES: &str = concat!(env!("CARGO_MANIFEST_DIR"), "/../crates/mark_cases/stdout");

pub fn sweep(tally: &mut Tally) {
    let mut random = Random::new(5);
    bench_cases(tally);
    mark_cases(tally);
    patterns(tally, "amplitudes next to a half step", steps(THIRTY_TWO));
    patterns(tally, "amplitudes of every exponent", exponents());
    patterns(tally, "subnormal amplitudes", subnormals());
    patterns(
        tally,
        "amplitudes by a stride",
        (0..=u32::MAX).step_by(4093),
    );
    let near: Vec<u32> = (0..400_000)
        .map(|_| in_range(&mut random, THIRTY_TWO))
        .collect();
    patterns(tally, "random amplitudes in range", near);
    let any: Vec<u32> = (0..200_000).map(|_| pattern(&mut random)).collect();
    patterns(tally, "random amplitudes", any);
    offenders(tally);
    marks(tally);
    conditions(tally);
    requests(tally, &mut random);
}

/// All finite ones of some patterns under the scale 32, where the rounding in f32 must change no value.
fn patterns(tally: &mut Tally, name: &str, all: impl IntoIterator<Item = u32>) {
    let finite: Vec<u32> = all.into_iter().filter(|&p| is_finite(p)).collect();
    for &pattern in &finite {
        let (rounded, exact) = (value(THIRTY_TWO, pattern), EXACT.value(THIRTY_TWO, pattern));
        tally.expect(
            i16::from(rounded) == exact,
            format_args!("32 times {pattern:08x}: {rounded} rounded in f32, {exact} exact"),
        );
    }
    let cases = compare_all(tally, name, THIRTY_TWO, &finite);
    tally.group(name, cases);
}

/// The amplitudes whose products are next to a half step from -130 to 130, eight patterns on both sides of each, as far
/// as there are any.
pub fn steps(scale: u32) -> Vec<u32> {
    let mut sizes: Vec<u32> = (0..=260).flat_map(|h| near(scale, halves(h), 8)).collect();
    sizes.sort_unstable();
    sizes.dedup();
    sizes.into_iter().flat_map(both_signs).collect()
}

/// Every exponent with mantissas of one bit, of all bits but one, and a few more.
fn exponents() -> Vec<u32> {
    let bits = (0..23).map(|i| 1 << i);
    let mantissas: Vec<u32> = bits
        .flat_map(|one| [one, 0x7f_ffff ^ one])
        .chain([0, 3, 0x2a_aaaa, 0x55_5555, 0x40_0001, 0x7f_ffff])
        .collect();
    (0..=254)
        .flat_map(|field: u32| mantissas.iter().map(move |low| (field << 23) | low))
        .flat_map(both_signs)
        .collect()
}

/// Some of the amplitudes below 2^-126.
fn subnormals() -> Vec<u32> {
    (1..0x80_0000)
        .step_by(997)
        .chain([2, 3, 0x7f_fffe, 0x7f_ffff])
        .flat_map(both_signs)
        .collect()
}

/// The paper's bench cases of amplitudes, under the scale 32.
fn bench_cases(tally: &mut Tally) {
    let cases = [
        (ONE, 32),
        (0x3c80_0000, 1),
        (0x3d40_0000, 2),
        (0x407e_0000, 127),
        (0x4080_0000, 127),
        (0xc080_0000, -127),
        (SIGN, 0),
    ];
    for (pattern, want) in cases {
        let request = Request::heard(THIRTY_TWO, &[pattern]);
        let (outcome, buffer) = request.compare(tally, "a bench case");
        tally.expect(
            outcome.number == 0 && buffer[0] == want && value(THIRTY_TWO, pattern) == want,
            format_args!("amplitude {pattern:08x}: wanted {want}, got {}", buffer[0]),
        );
    }
    tally.group("bench cases of amplitudes", cases.len() as u64);
}

/// The values that the program `mark_cases` prints for an amplitude as Q of mark 0 and I of mark 127, all others 1.0.
/// Its lines begin with "amplitude X:" for the scale 32, and with "scale S, amplitude X:" for others; then come the request, with
/// patterns for numbers, and its answer.
fn mark_cases(tally: &mut Tally) {
    let text = match fs::read_to_string(MARK_CASES) {
        Ok(text) => text,
        Err(error) => {
            tally.wrong(format_args!("{MARK_CASES}: {error}"));
            return;
        }
    };
    let (mut old, mut scaled) = (0, 0);
    for line in text.lines() {
        let head = line.split(':').next().unwrap_or("");
        let named = head.strip_prefix("scale ");
        if let Some(name) = head.strip_prefix("amplitude ") {
            mark_line(tally, line, head, ("32.0", name));
            old += 1;
        } else if let Some(names) = named.and_then(|names| names.split_once(", amplitude ")) {
            mark_line(tally, line, head, names);
            scaled += 1;
        }
    }
    tally.expect(
        old == 21 && scaled == 35,
        format_args!("mark_cases prints {old} amplitudes, and {scaled} with a scale"),
    );
    tally.group("lines of mark_cases", old);
    tally.group("lines of mark_cases with a scale", scaled);
}

/// A line of a scale above zero and an amplitude, both finite.
fn mark_line(tally: &mut Tally, line: &str, head: &str, (scale, amplitude): (&str, &str)) {
    let (scale, amplitude) = (named(scale), named(amplitude));
    if !is_scale(scale) || !is_finite(amplitude) {
        tally.wrong(format_args!(
            "mark_cases prints no scale or amplitude: {line}"
        ));
        return;
    }
    let (it, others) = (value(scale, amplitude), value(scale, ONE));
    let request =
        format!("x{scale:x} 256 x{ONE:x} x{amplitude:x} 1 x{amplitude:x} 254 16 x0 x0 x0 300");
    let values = format!("{others} {it} {others} {others} {it} {others}");
    let want = format!("{head}: {request}: 0 0, values {values}, kept");
    tally.expect(
        line == want,
        format_args!("mark_cases prints {line}, not {want}"),
    );
}

/// The pattern of a number by the name that `mark_cases` gives it; one that is not finite where it is no number.
fn named(name: &str) -> u32 {
    match name {
        "largest" => LARGEST,
        "-largest" => LARGEST | SIGN,
        "smallest" => SMALLEST,
        "-smallest" => SMALLEST | SIGN,
        _ => name.parse().map_or(NOT_FINITE[0], f32::to_bits),
    }
}

/// A pattern that is not finite at every place, heard and blanked, and with a second one above it.
fn offenders(tally: &mut Tally) {
    let mut cases = 0;
    for pattern in NOT_FINITE {
        for place in 0..256 {
            let mut request = Request::heard(THIRTY_TWO, &[ONE; 256]);
            request.amplitudes[place] = pattern;
            let (outcome, _) = request.compare(tally, "one offender");
            let want = Outcome { number: 7, place };
            tally.expect(
                outcome == want,
                format_args!("{pattern:08x} at {place}: wanted {want:?}, got {outcome:?}"),
            );
            let above = place + (255 - place) / 2;
            request.amplitudes[above] = NOT_FINITE[place % NOT_FINITE.len()];
            request.compare(tally, "two offenders");
            request.blank(place / 2);
            request.compare(tally, "a blanked offender and another");
            request.amplitudes[above] = ONE;
            request.amplitudes[place] = pattern;
            request.compare(tally, "a blanked offender");
            cases += 4;
        }
    }
    tally.group("amplitudes that are not finite", cases);
}

/// Every mark blanked alone, and heard alone among marks that are not finite.
fn marks(tally: &mut Tally) {
    for mark in 0..128 {
        let mut request = Request::heard(THIRTY_TWO, &[ONE; 256]);
        request.blank(mark);
        request.compare(tally, "one mark blanked");
        let offender = NOT_FINITE[mark % NOT_FINITE.len()];
        let mut request = Request::heard(THIRTY_TWO, &[offender; 256]);
        for other in (0..128).filter(|&other| other != mark) {
            request.blank(other);
        }
        request.amplitudes[2 * mark] = ONE;
        request.amplitudes[2 * mark + 1] = ONE | SIGN;
        let (outcome, buffer) = request.compare(tally, "one mark heard");
        tally.expect(
            outcome.number == 0 && buffer[2 * mark..2 * mark + 2] == [32, -32],
            format_args!("only mark {mark} heard: {outcome:?}"),
        );
    }
    tally.group("single marks", 256);
}

/// Every combination of lengths with scales and with offenders: none, in a blanked mark, in a heard one, in two.
fn conditions(tally: &mut Tally) {
    let minus_one = ONE | SIGN;
    let [infinity, _, nan, ..] = NOT_FINITE;
    let scales = [THIRTY_TWO, SMALLEST, 0, minus_one, infinity, nan];
    let mut cases = 0;
    for count in [0, 1, 255, 256, 257, 512] {
        for length in [0, 1, 15, 16, 17, 32] {
            for room in [0, 1, 255, 256, 257, 300] {
                for scale in scales {
                    for offenders in [&[][..], &[0], &[100], &[255, 31]] {
                        let mut request = Request {
                            scale,
                            amplitudes: vec![ONE; count],
                            blanked: vec![0; length],
                            room,
                        };
                        put_offenders(&mut request, offenders, cases);
                        request.compare(tally, "lengths, scales and offenders");
                        cases += 1;
                    }
                }
            }
        }
    }
    tally.group("lengths, scales and offenders", cases as u64);
}

/// Blanks mark 0, and puts one of the patterns at some places; as far as the request has them.
fn put_offenders(request: &mut Request, places: &[usize], which: usize) {
    if !request.blanked.is_empty() {
        request.blank(0);
    }
    for &place in places {
        if let Some(at) = request.amplitudes.get_mut(place) {
            *at = NOT_FINITE[which % NOT_FINITE.len()];
        }
    }
}

/// A request with any scale and any mask; blanked marks hold anything, heard ones up to two offenders.
fn request(random: &mut Random) -> Request {
    let one_in = random.between(1, 9);
    let blanked: [bool; 128] = std::array::from_fn(|_| random.once_in(one_in));
    let scale = scale(random);
    let mut request = Request {
        scale,
        amplitudes: (0..256).map(|_| amplitude(random, scale)).collect(),
        blanked: packed(&blanked),
        room: 256 + SPARE,
    };
    match random.between(0, 5) {
        0 => request.blanked.fill(0),
        1 => (0..16).for_each(|i| request.blanked[i] = random.word() as u8),
        _ => {}
    }
    for i in 0..256 {
        if !request.is_heard(i) && random.once_in(2) {
            request.amplitudes[i] = not_finite(random);
        }
    }
    for _ in 0..random.between(-2, 2) {
        request.amplitudes[random.between(0, 255) as usize] = not_finite(random);
    }
    request
}

/// Each length and the scale are spoiled now and then.
fn spoil(random: &mut Random, request: &mut Request) {
    if random.once_in(8) {
        let count = [0, 255, 257][random.between(0, 2) as usize];
        request.amplitudes.resize(count, NOT_FINITE[0]);
    }
    if random.once_in(8) {
        let length = [0, 15, 17][random.between(0, 2) as usize];
        request.blanked.resize(length, 0xff);
    }
    if random.once_in(3) {
        request.room = [0, 255, 256, 300][random.between(0, 3) as usize];
    }
    if random.once_in(5) {
        request.scale = refused_scale(random);
    }
}

/// Mistaken ways to read a request.
#[derive(Default)]
struct Misread {
    bits_turned: Told,
    exchanged: Told,
    looked_at: Told,
    subnormal: Told,
    seven_first: Told,
    all_blanked: Told,
}

impl Misread {
    /// A request and what the job left.
    fn watch(&mut self, request: &Request, done: &Done) {
        match request.conditions() {
            [false, false, false, false] => self.watch_accepted(request, done),
            [false, false, true, seven] => {
                self.seven_first.case(seven);
                self.all_blanked
                    .case((0..256).all(|i| !request.is_heard(i)));
            }
            _ => {}
        }
    }

    fn watch_accepted(&mut self, request: &Request, done: &Done) {
        let mut turned = request.clone();
        turned
            .blanked
            .iter_mut()
            .for_each(|byte| *byte = byte.reverse_bits());
        let (_, buffer) = done;
        self.bits_turned.case(turned.settled() != *done);
        self.exchanged
            .case((0..256).any(|i| buffer[i] != buffer[i ^ 1]));
        self.looked_at
            .case(!request.amplitudes.iter().all(|&p| is_finite(p)));
        self.subnormal.case(is_subnormal(request.scale));
    }

    fn report(&self, tally: &mut Tally) {
        self.bits_turned
            .report(tally, "mark 0 in the least significant bit");
        self.exchanged.report(tally, "I and Q exchanged");
        self.looked_at
            .report(tally, "a blanked amplitude looked at");
        self.subnormal.report(tally, "a subnormal scale refused");
        self.seven_first.report(tally, "7 checked before 10");
        self.all_blanked
            .report(tally, "no look at the scale where all is blanked");
    }
}

/// Whole requests, and mistaken ways to read them.
fn requests(tally: &mut Tally, random: &mut Random) {
    let turns = 20_000;
    let mut met = [0u64; 11];
    let mut at_once = [0u64; 16];
    let mut misread = Misread::default();
    for _ in 0..turns {
        let mut request = request(random);
        spoil(random, &mut request);
        let done = request.compare(tally, "a request");
        // A number above 10 is wrong, and `compare` has said so.
        if let Some(count) = met.get_mut(done.0.number as usize) {
            *count += 1;
        }
        let [two, five, ten, seven] = request.conditions().map(usize::from);
        at_once[8 * two + 4 * five + 2 * ten + seven] += 1;
        misread.watch(&request, &done);
    }
    tally.group("requests of values from marks", turns);
    tally.line(format_args!("of them, by the number answered: {met:?}"), 0);
    tally.line(
        format_args!("of them, by conditions 2, 5, 10 and 7 as four bits: {at_once:?}"),
        0,
    );
    tally.expect(
        at_once.iter().all(|&n| n > 0) && [0, 2, 5, 7, 10].iter().all(|&n| met[n] > 0),
        format_args!("not every condition was met: {met:?}, {at_once:?}"),
    );
    misread.report(tally);
}
