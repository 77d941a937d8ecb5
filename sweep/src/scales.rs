//! Values from marks under all scales: products in range, at half steps and at the ends of f32, mistaken ways to find
//! them, and scales that are refused.
use crate::library::Outcome;
use crate::marks::steps;
use crate::product::{
    distance, half_outward, half_to_even, is_bounded, is_scale, is_subnormal, near, value, Rule,
    Size, Way, EXACT, LARGEST, ONE, OVERFLOW, SMALLEST, THIRTY_TWO, TRUE,
};
use crate::random::Random;
use crate::request::{
    amplitude, any_scale, both_signs, compare_all, halves, in_range, near_step, pattern,
    report_bound, scale, Request, NOT_ABOVE_ZERO, NOT_FINITE,
};
use crate::tally::Tally;
use crate::traps::Told;

/// The greatest number below 2^-126, and 2^-126.
const SUBNORMAL: u32 = 0x7f_ffff;
const NORMAL: u32 = 0x80_0000;

/// Scales that every half step is tried under, as far as a product reaches it.
const SCALES: [u32; 12] = [
    ONE,
    0x3eaa_aaab, // 1/3
    0x41ff_ffff, // 31.999998
    THIRTY_TWO,
    0x42fe_0000, // 127
    0x7180_0000, // 2^100
    0x0d80_0000, // 2^-100
    0x3f80_0001,
    SMALLEST,
    SUBNORMAL,
    NORMAL,
    LARGEST,
];

/// Scales of every exponent: with few bits set, with all set, and random ones.
fn of_every_exponent(random: &mut Random, randoms: usize) -> Vec<u32> {
    (0..=254)
        .flat_map(|field: u32| {
            let edges = [0, 1, 0x40_0000, 0x7f_ffff];
            let others: Vec<u32> = (0..randoms).map(|_| pattern(random) & 0x7f_ffff).collect();
            edges
                .into_iter()
                .chain(others)
                .map(move |low| ((field << 23) | low).max(SMALLEST))
        })
        .collect()
}

pub fn sweep(tally: &mut Tally) {
    let mut random = Random::new(6);
    let mut mistaken = Mistaken::default();
    half_steps(tally, &mut random);
    onto_halves(tally, &mut random);
    every_exponent(tally, &mut random);
    in_range_of_all(tally, &mut random);
    overflows(tally, &mut random);
    underflows(tally, &mut random);
    farthest(tally, &mut mistaken);
    mixed(tally, &mut random, &mut mistaken);
    mistaken.report(tally);
    at_the_ends(tally);
    by_stride(tally, &mut random);
    report_bound(tally);
}

/// Products next to every half step from -130 to 130, as far as there are any.
fn half_steps(tally: &mut Tally, random: &mut Random) {
    let name = "products next to a half step";
    let others: Vec<u32> = (0..100).map(|_| any_scale(random)).collect();
    let mut cases = 0;
    for scale in SCALES.into_iter().chain(others) {
        cases += compare_all(tally, name, scale, &steps(scale));
    }
    tally.group(name, cases);
}

/// Amplitudes above zero whose exact products are no half, and are one when rounded in f32; with the outer neighbour of
/// that half, in range.
fn rounded_onto_halves(scale: u32) -> Vec<(u32, i8)> {
    let mut found = Vec::new();
    for whole in 0..130u8 {
        let half = halves(2 * u64::from(whole) + 1);
        let outer = (whole + 1).min(127) as i8;
        found.extend(
            near(scale, half, 2)
                .into_iter()
                .filter(|&x| {
                    let exact = Size::product(scale, x);
                    let rounded = exact.in_f32(half_to_even);
                    exact.cmp(half).is_ne() && rounded.is_some_and(|r| r.cmp(half).is_eq())
                })
                .map(|x| (x, outer)),
        );
    }
    found
}

/// Products that the rounding in f32 puts onto a half go to its outer neighbour, whichever neighbour is nearer.
fn onto_halves(tally: &mut Tally, random: &mut Random) {
    let name = "products rounded onto a half";
    let (mut cases, mut elsewhere) = (0, 0u64);
    for _ in 0..1000 {
        let scale = any_scale(random);
        for some in rounded_onto_halves(scale).chunks(128) {
            let patterns: Vec<u32> = some.iter().flat_map(|&(x, _)| both_signs(x)).collect();
            let (_, buffer) = Request::heard(scale, &patterns).compare(tally, name);
            for (i, &(x, outer)) in some.iter().enumerate() {
                tally.expect(
                    buffer[2 * i..2 * i + 2] == [outer, -outer],
                    format_args!(
                        "{scale:08x} times {x:08x}: wanted {outer}, got {}",
                        buffer[2 * i]
                    ),
                );
                elsewhere += 2 * u64::from(EXACT.value(scale, x) != i16::from(outer));
            }
            cases += patterns.len() as u64;
        }
    }
    tally.group(name, cases);
    tally.line(
        format_args!(
            "of them, with another whole number nearest to the exact product: {elsewhere}"
        ),
        0,
    );
    tally.expect(elsewhere > 0, format_args!("{name}: no value differs"));
}

/// Scales and amplitudes whose products are as far from their values as can be, with these values: the products are
/// 2^-18 below a half, and rounded in f32 they are that half, which goes outward. Times 2^18 they are odd numbers, found
/// here as products of two.
fn farthest_pairs() -> Vec<(u32, u32, i8)> {
    let mut found = Vec::new();
    for whole in 64..=126u32 {
        let odd = ((2 * whole + 1) << 17) - 1;
        let divisors = (3..).step_by(2).take_while(|d| d * d <= odd);
        for d in divisors.filter(|d| odd % d == 0) {
            // Whole numbers below 2^24 are in f32 as they are; 18 less in the exponent is 2^-18 times.
            let (scale, times) = ((d as f32).to_bits(), ((odd / d) as f32).to_bits());
            found.push((scale, times - (18 << 23), whole as i8 + 1));
        }
    }
    found
}

/// Their values are beyond 1/2 by half of what the bound allows.
fn farthest(tally: &mut Tally, mistaken: &mut Mistaken) {
    let pairs = farthest_pairs();
    for &(scale, x, outer) in &pairs {
        let request = Request::heard(scale, &both_signs(x));
        let (_, buffer) = request.compare(tally, "the farthest products");
        let (far, c) = distance(outer, scale, x);
        tally.expect(
            buffer[..2] == [outer, -outer] && far * 262_144 == 131_073 * c,
            format_args!(
                "{scale:08x} times {x:08x}: wanted {outer}, got {}",
                buffer[0]
            ),
        );
        for x in both_signs(x) {
            mistaken.watch(scale, x);
        }
    }
    tally.expect(
        !pairs.is_empty(),
        format_args!("no product is the farthest"),
    );
    tally.group(
        "products 1/2 + 1/262144 from their values",
        2 * pairs.len() as u64,
    );
}

/// How many products are 0, subnormal, normal and overflowed when rounded in f32.
type Kinds = [u64; 4];

fn kind(scale: u32, amplitude: u32) -> usize {
    match Size::product(scale, amplitude).in_f32(half_to_even) {
        None => 3,
        Some(product) if product.cmp(Size::of(NORMAL)).is_ge() => 2,
        Some(product) => usize::from(product.cmp(Size::of(SMALLEST)).is_ge()),
    }
}

fn report_kinds(tally: &mut Tally, kinds: &Kinds) {
    tally.line(
        format_args!("of them, in f32 zero, subnormal, normal and overflowed: {kinds:?}"),
        0,
    );
}

/// Every exponent of the scale with every exponent of the amplitude, which has either sign.
fn every_exponent(tally: &mut Tally, random: &mut Random) {
    let name = "scales and amplitudes of every exponent";
    let (mut cases, mut kinds) = (0, Kinds::default());
    for scale in of_every_exponent(random, 12) {
        let amplitudes: Vec<u32> = (0..=254)
            .map(|field: u32| {
                let low = [0, 1, 0x7f_ffff, pattern(random)][random.between(0, 3) as usize];
                both_signs((field << 23) | (low & 0x7f_ffff))[random.between(0, 1) as usize]
            })
            .collect();
        amplitudes.iter().for_each(|&x| kinds[kind(scale, x)] += 1);
        cases += compare_all(tally, name, scale, &amplitudes);
    }
    tally.group(name, cases);
    report_kinds(tally, &kinds);
    tally.expect(
        kinds.iter().all(|&n| n > 0),
        format_args!("{name}: not every kind of product was met"),
    );
}

/// Random products in range, under scales of every exponent.
fn in_range_of_all(tally: &mut Tally, random: &mut Random) {
    let name = "random products in range";
    let mut cases = 0;
    for scale in of_every_exponent(random, 8) {
        let amplitudes: Vec<u32> = (0..256).map(|_| in_range(random, scale)).collect();
        cases += compare_all(tally, name, scale, &amplitudes);
    }
    tally.group(name, cases);
}

/// Products just below and above the end of f32 are 127 or -127 by their sign.
fn overflows(tally: &mut Tally, random: &mut Random) {
    let (mut cases, mut kinds) = (0, Kinds::default());
    let scales = of_every_exponent(random, 4);
    for scale in scales.into_iter().filter(|&scale| scale >= ONE) {
        let sizes = near(scale, OVERFLOW, 8);
        sizes.iter().for_each(|&x| kinds[kind(scale, x)] += 2);
        let patterns: Vec<u32> = sizes.into_iter().flat_map(both_signs).collect();
        let (_, buffer) = Request::heard(scale, &patterns).compare(tally, "the end of f32");
        tally.expect(
            buffer[..patterns.len()]
                .chunks(2)
                .all(|two| two == [127, -127]),
            format_args!("the end of f32 under {scale:08x}: {buffer:?}"),
        );
        cases += patterns.len() as u64;
    }
    let [_, _, below, above] = kinds;
    tally.expect(below > 0 && above > 0, format_args!("no product overflows"));
    tally.line(
        format_args!(
            "products at the end of f32: {cases} cases, {below} below it and {above} above"
        ),
        cases,
    );
}

/// Products next to half the least number, to the least one and to the least normal one are 0.
fn underflows(tally: &mut Tally, random: &mut Random) {
    let (mut cases, mut kinds) = (0, Kinds::default());
    for scale in of_every_exponent(random, 1) {
        let mut sizes: Vec<u32> = [-150, -149, -126]
            .into_iter()
            .flat_map(|power| near(scale, Size { digits: 1, power }, 4))
            .collect();
        sizes.sort_unstable();
        sizes.dedup();
        sizes.iter().for_each(|&x| kinds[kind(scale, x)] += 2);
        let patterns: Vec<u32> = sizes.into_iter().flat_map(both_signs).collect();
        let (_, buffer) = Request::heard(scale, &patterns).compare(tally, "the start of f32");
        tally.expect(
            buffer[..256].iter().all(|&v| v == 0),
            format_args!("the start of f32 under {scale:08x}: {buffer:?}"),
        );
        cases += patterns.len() as u64;
    }
    tally.expect(
        kinds[0] > 0 && kinds[1] > 0,
        format_args!("no product underflows"),
    );
    tally.group("products at the start of f32", cases);
    report_kinds(tally, &kinds);
}

/// Mistake: the next whole number towards zero.
const DROPPED: Way = Way {
    whole: [|_, _| false; 2],
    ..TRUE
};

/// To the nearest, a half to the neighbour nearer to zero.
const HALF_INWARD: Rule = |_, rest| rest.is_gt();

/// Mistaken ways to find a value.
#[rustfmt::skip]
const MISTAKES: [(&str, Way); 10] = [
    ("32 whatever the scale", Way { factors: |_, x| (THIRTY_TWO, x), ..TRUE }),
    ("subnormal numbers as 0", Way { factors: without_subnormals, ..TRUE }),
    ("no rounding in f32", EXACT),
    ("ties of the product towards zero", Way { product: Some(HALF_INWARD), ..TRUE }),
    ("an overflowed product as 0", Way { overflowed: 0, ..TRUE }),
    ("a half to the even neighbour", Way { whole: [half_to_even; 2], ..TRUE }),
    ("a half towards zero", Way { whole: [HALF_INWARD; 2], ..TRUE }),
    ("a half upwards", Way { whole: [half_outward, HALF_INWARD], ..TRUE }),
    ("a rest dropped", DROPPED),
    ("the range from -128", Way { lowest: -128, ..TRUE }),
];

fn without_subnormals(scale: u32, amplitude: u32) -> (u32, u32) {
    let read = |pattern| if is_subnormal(pattern) { 0 } else { pattern };
    (read(scale), read(amplitude))
}

/// The mistakes over some pairs.
#[derive(Default)]
struct Mistaken {
    values: [Told; MISTAKES.len()],
    /// A rest dropped, told by the bound alone.
    unbounded: Told,
    /// The bound that would do for the exact product.
    narrow: Told,
}

impl Mistaken {
    fn watch(&mut self, scale: u32, amplitude: u32) {
        let truth = value(scale, amplitude);
        for ((_, way), told) in MISTAKES.iter().zip(&mut self.values) {
            told.case(way.value(scale, amplitude) != i16::from(truth));
        }
        let dropped = DROPPED.value(scale, amplitude) as i8;
        self.unbounded.case(!is_bounded(dropped, scale, amplitude));
        let (far, c) = distance(truth, scale, amplitude);
        self.narrow.case(2 * far > c);
    }

    fn report(&self, tally: &mut Tally) {
        for ((name, _), told) in MISTAKES.iter().zip(&self.values) {
            told.report(tally, name);
        }
        self.unbounded
            .report(tally, "a rest dropped, by the bound alone");
        self.narrow.report(tally, "a bound of 1/2 and no more");
    }
}

/// Requests that the mistakes are told by: many products next to a half step, and amplitudes of all kinds.
fn mixed(tally: &mut Tally, random: &mut Random, mistaken: &mut Mistaken) {
    let name = "products that tell mistakes";
    let mut cases = 0;
    for _ in 0..400 {
        let scale = scale(random);
        let amplitudes: Vec<u32> = (0..256)
            .map(|i| match i % 2 {
                0 => near_step(random, scale),
                _ => amplitude(random, scale),
            })
            .collect();
        for &x in &amplitudes {
            mistaken.watch(scale, x);
        }
        cases += compare_all(tally, name, scale, &amplitudes);
    }
    tally.group(name, cases);
}

/// Requests with conditions 2, 5 and 7 in all combinations, also with all marks blanked, and the answers to them under
/// a scale that is accepted.
fn shapes() -> Vec<(Request, Outcome)> {
    let mut all = Vec::new();
    for (count, length) in [(256, 16), (255, 16), (257, 16), (256, 15), (256, 17)] {
        for room in [0, 255, 256, 300] {
            for (byte, offender) in [(0, None), (0, Some(9)), (0xff, None), (0xff, Some(9))] {
                let mut request = Request::heard(ONE, &[]);
                request.amplitudes = vec![ONE; count];
                request.blanked = vec![byte; length];
                request.room = room;
                if let Some(place) = offender {
                    request.amplitudes[place] = NOT_FINITE[all.len() % NOT_FINITE.len()];
                }
                let (number, place) = match (count, length, offender) {
                    (256, 16, _) if room < 256 => (5, 0),
                    (256, 16, Some(place)) if byte == 0 => (7, place),
                    (256, 16, _) => (0, 0),
                    _ => (2, 0),
                };
                all.push((request, Outcome { number, place }));
            }
        }
    }
    all
}

/// All these under scales that are refused, and under accepted ones at the ends.
fn at_the_ends(tally: &mut Tally) {
    let accepted = [
        SMALLEST,
        2,
        SUBNORMAL,
        NORMAL,
        ONE,
        THIRTY_TWO,
        LARGEST - 1,
        LARGEST,
    ];
    let refused = [NOT_FINITE, NOT_ABOVE_ZERO].concat();
    let shapes = shapes();
    for &scale in refused.iter().chain(&accepted) {
        for (shape, otherwise) in &shapes {
            let mut request = shape.clone();
            request.scale = scale;
            let want = match otherwise.number {
                0 | 7 if refused.contains(&scale) => Outcome {
                    number: 10,
                    place: 0,
                },
                _ => *otherwise,
            };
            let (got, _) = request.compare(tally, "a scale at the ends");
            tally.expect(
                got == want,
                format_args!("scale {scale:08x}: wanted {want:?}, got {got:?}"),
            );
        }
    }
    for (name, scales) in [("refused", &refused[..]), ("at the ends", &accepted)] {
        let cases = scales.len() * shapes.len();
        tally.group(
            &format!("scales {name}, with conditions 2, 5 and 7"),
            cases as u64,
        );
    }
}

/// Scales of all patterns by a stride.
fn by_stride(tally: &mut Tally, random: &mut Random) {
    let (mut refused, mut accepted) = (0, 0);
    for scale in (0..=u32::MAX).step_by(1_048_573) {
        let amplitudes: Vec<u32> = (0..256).map(|_| amplitude(random, scale)).collect();
        Request::heard(scale, &amplitudes).compare(tally, "a stride of scales");
        match is_scale(scale) {
            true => accepted += 1,
            false => refused += 1,
        }
    }
    tally.line(
        format_args!(
            "scales by a stride: {} cases, {refused} of them refused",
            accepted + refused
        ),
        accepted + refused,
    );
}
