//! Kernel follow by both engines: every phase of every case against the best over all words, and the engines against each other.
use crate::library::Outcome;
use crate::paper::{bit, Kernel, PROFILES};
use crate::random::Random;
use crate::recorded::{kernel_follow, kernel_follow_hadamard};
use crate::scores::{best_symbols, pay, scores, totals, Values, LIMIT};
use crate::tally::Tally;
use crate::traps::{self, Traps};

/// How many cases of each kind of values with each kind of symbols.
const CASES: u64 = 1000;

/// Of how many of them it is seen what a mistaken decoder would make.
const WATCHED: u64 = 300;

/// How many cases the engines are compared on with each other.
const BOTH: u64 = 1_000_000;

/// A job that follows a kernel.
type Engine = fn(u8, &[i32], u16, &mut [i32]) -> Outcome;

/// Both of them.
const ENGINES: [(&str, Engine); 2] = [
    ("windows", kernel_follow),
    ("Hadamard", kernel_follow_hadamard),
];

/// Cases of one engine, for both.
const fn of_both(cases: u64) -> u64 {
    cases * ENGINES.len() as u64
}

/// What an output buffer holds before a call: no score is as low.
const UNTOUCHED: i32 = i32::MIN;

/// How much longer than needed it is.
const SPARE: usize = 4;

const ACCEPTED: Outcome = Outcome {
    number: 0,
    place: 0,
};

fn refusal(number: u32, place: usize) -> Outcome {
    Outcome { number, place }
}

pub fn sweep(tally: &mut Tally, kernels: &[Kernel]) {
    let mut random = Random::new(1);
    let mut mistakes = Traps::default();
    for kernel in kernels {
        random_cases(tally, kernel, &mut random, &mut mistakes);
    }
    mistakes.report(tally);
    engines_agree(tally, kernels, &mut random);
    traps::named(tally, kernels);
    bench_cases(tally, kernels);
    limits(tally, kernels, &mut random);
    out_of_range(tally, &mut random);
    two_offenders(tally, &mut random);
    lengths(tally, &mut random);
    no_kernel(tally, &mut random);
    conditions_at_once(tally, &mut random);
}

/// How values of a kind are made.
type Make = fn(&mut Random, &Kernel) -> Values;

/// The kinds of values.
const KINDS: [(&str, Make); 7] = [
    ("full range", |random, _| full_range(random)),
    ("small", |random, _| each(|| random.wide(-3, 3))),
    ("up to 2032", |random, _| each(|| random.wide(-2032, 2032))),
    ("many zeros", |random, _| {
        each(|| match random.between(0, 7) {
            0 => random.wide(-LIMIT, LIMIT),
            1 => random.wide(-3, 3),
            _ => 0,
        })
    }),
    ("many ties", |random, _| {
        let magnitudes = [random.wide(1, 3), random.wide(1, LIMIT), LIMIT];
        each(|| {
            let y = magnitudes[random.between(0, 2) as usize];
            if random.once_in(2) {
                y
            } else {
                -y
            }
        })
    }),
    ("a single large value", |random, _| {
        let mut values = each(|| random.wide(-3, 3));
        values[random.between(0, 15) as usize] = if random.once_in(2) { LIMIT } else { -LIMIT };
        values
    }),
    ("a word with noise", |random, kernel| {
        let word = kernel.words[usize::from(random.word())];
        std::array::from_fn(|i| {
            let y = random.wide(-9000, 27000);
            if bit(word, i) {
                -y
            } else {
                y
            }
        })
    }),
];

/// Sixteen values, one after another.
fn each(mut value: impl FnMut() -> i32) -> Values {
    std::array::from_fn(|_| value())
}

fn full_range(random: &mut Random) -> Values {
    each(|| random.wide(-LIMIT, LIMIT))
}

/// One accepted case of both engines: the outcome, all sixteen scores, and that what lies past them stays.
fn compare(tally: &mut Tally, kernel: u8, values: &Values, symbols: u16, want: &[i64; 16]) {
    for (engine, follow) in ENGINES {
        let mut got = [UNTOUCHED; 16 + SPARE];
        let outcome = follow(kernel, values, symbols, &mut got);
        let case =
            format_args!("{engine}, kernel {kernel}, values {values:?}, symbols {symbols:016b}");
        if outcome != ACCEPTED {
            tally.wrong(format_args!("{case}: wanted {ACCEPTED:?}, got {outcome:?}"));
        } else if let Some(phase) = (0..16).find(|&phase| i64::from(got[phase]) != want[phase]) {
            let (want, got) = (want[phase], got[phase]);
            tally.wrong(format_args!(
                "{case}, phase {phase}: wanted {want}, got {got}"
            ));
        } else if got[16..] != [UNTOUCHED; SPARE] {
            tally.wrong(format_args!("{case}: written past the scores, {got:?}"));
        }
    }
}

/// The signs of the scores that some symbols have, as a decoder that went astray would choose.
fn signs(kernel: &Kernel, values: &Values, symbols: u16) -> u16 {
    let mut scores = [UNTOUCHED; 16];
    kernel_follow(kernel.number, values, symbols, &mut scores);
    (0..16).fold(0, |word, i| word | u16::from(scores[i] < 0) << (15 - i))
}

/// Both engines on the same requests, and nothing else to compare with.
fn engines_agree(tally: &mut Tally, kernels: &[Kernel], random: &mut Random) {
    for turn in 0..BOTH {
        let kernel = &kernels[(turn % 3) as usize];
        let (_, make) = KINDS[(turn % KINDS.len() as u64) as usize];
        let values = make(random, kernel);
        let any = random.word();
        let symbols = if turn % 2 == 0 {
            any
        } else {
            signs(kernel, &values, any)
        };
        let [first, second] = ENGINES.map(|(_, follow)| {
            let mut scores = [UNTOUCHED; 16];
            (follow(kernel.number, &values, symbols, &mut scores), scores)
        });
        tally.expect(
            first == second && first.0 == ACCEPTED,
            format_args!(
                "kernel {}, values {values:?}, symbols {symbols:016b}: by windows {first:?}, by Hadamard {second:?}",
                kernel.number
            ),
        );
    }
    tally.group("follow, both engines against each other", BOTH);
}

fn random_cases(tally: &mut Tally, kernel: &Kernel, random: &mut Random, mistakes: &mut Traps) {
    let mut paid = Vec::new();
    for (name, make) in KINDS {
        for turn in 0..3 * CASES {
            let values = make(random, kernel);
            totals(kernel, &values, pay, &mut paid);
            // Any symbols; those of the best word; those with up to two of them changed.
            let symbols = match turn % 3 {
                0 => random.word(),
                1 => best_symbols(&paid),
                _ => {
                    best_symbols(&paid)
                        ^ (1 << random.between(0, 15))
                        ^ (1 << random.between(0, 15))
                }
            };
            let want = scores(&paid, symbols);
            compare(tally, kernel.number, &values, symbols, &want);
            if turn < 3 * WATCHED {
                mistakes.watch(kernel, &values, symbols, &paid, &want);
            }
        }
        let name = format!("kernel {}, follow, {name}", kernel.number);
        tally.group(&name, of_both(3 * CASES));
    }
}

/// The paper's bench cases of kernel follow.
fn bench_cases(tally: &mut Tally, kernels: &[Kernel]) {
    let mut cases = 0;
    for kernel in kernels {
        let profile = PROFILES[usize::from(kernel.number)];
        for y in [1, 2047, 2048, LIMIT] {
            let want = profile.map(|d| i64::from(y) * i64::from(d));
            compare(tally, kernel.number, &[y; 16], 0, &want);
            cases += 1;
        }
        for symbols in (0..=u16::MAX).step_by(257) {
            compare(tally, kernel.number, &[0; 16], symbols, &[0; 16]);
            cases += 1;
        }
    }
    tally.group("bench cases of follow", of_both(cases));
}

/// The ends of the range, at each place, at all places and by the bits of a word: all accepted.
fn limits(tally: &mut Tally, kernels: &[Kernel], random: &mut Random) {
    let mut paid = Vec::new();
    let mut cases = 0;
    for kernel in kernels {
        let mut tried = vec![[LIMIT; 16], [-LIMIT; 16]];
        for place in 0..16 {
            for y in [LIMIT, -LIMIT] {
                let mut values = full_range(random);
                values[place] = y;
                tried.push(values);
            }
            let word = kernel.words[usize::from(random.word())];
            tried.push(std::array::from_fn(|i| {
                if bit(word, i) {
                    -LIMIT
                } else {
                    LIMIT
                }
            }));
        }
        for values in &tried {
            totals(kernel, values, pay, &mut paid);
            for symbols in [0, u16::MAX, random.word(), best_symbols(&paid)] {
                let want = scores(&paid, symbols);
                compare(tally, kernel.number, values, symbols, &want);
                cases += 1;
            }
        }
    }
    tally.group("follow, ends of the range", of_both(cases));
}

/// One refused request to both engines: the outcome, and that the output stays as it was.
fn refused(
    tally: &mut Tally,
    kernel: u8,
    values: &[i32],
    symbols: u16,
    output: usize,
    want: Outcome,
) {
    let before: Vec<i32> = (0..output).map(|i| 123_456_789 - i as i32).collect();
    for (engine, follow) in ENGINES {
        let mut after = before.clone();
        let got = follow(kernel, values, symbols, &mut after);
        tally.expect(
            got == want && after == before,
            format_args!(
                "{engine}, kernel {kernel}, values {values:?}, symbols {symbols:016b}: wanted {want:?}, got {got:?}; \
                 the output was {before:?} before, {after:?} after"
            ),
        );
    }
}

/// Values outside the range: the nearest, the ends of the type, and some that are in range by their low sixteen bits.
const OUTSIDE: [i32; 8] = [
    LIMIT + 1,
    -LIMIT - 1,
    LIMIT + 2,
    i32::MAX,
    i32::MIN,
    65536,
    65537,
    -65535,
];

fn out_of_range(tally: &mut Tally, random: &mut Random) {
    let mut cases = 0;
    for kernel in 0..3 {
        for y in OUTSIDE {
            for place in 0..16 {
                let mut values = full_range(random);
                values[place] = y;
                refused(tally, kernel, &values, random.word(), 16, refusal(6, place));
                cases += 1;
            }
        }
    }
    tally.group("follow, a value out of range", of_both(cases));
}

fn two_offenders(tally: &mut Tally, random: &mut Random) {
    let mut cases = 0;
    for kernel in 0..3 {
        for low in 0..16 {
            for high in low + 1..16 {
                for (first, second) in [
                    (LIMIT + 1, -LIMIT - 1),
                    (-LIMIT - 1, LIMIT + 1),
                    (LIMIT + 1, i32::MIN),
                    (i32::MIN, i32::MAX),
                ] {
                    let mut values = full_range(random);
                    values[low] = first;
                    values[high] = second;
                    refused(tally, kernel, &values, random.word(), 20, refusal(6, low));
                    cases += 1;
                }
            }
        }
    }
    tally.group("follow, two values out of range", of_both(cases));
}

fn lengths(tally: &mut Tally, random: &mut Random) {
    let mut cases = 0;
    for kernel in 0..3 {
        for length in [0, 1, 15, 17, 32] {
            let values: Vec<i32> = (0..length).map(|_| random.wide(-LIMIT, LIMIT)).collect();
            refused(tally, kernel, &values, random.word(), 16, refusal(2, 0));
            cases += 1;
        }
        for output in 0..16 {
            let values = full_range(random);
            refused(tally, kernel, &values, random.word(), output, refusal(5, 0));
            cases += 1;
        }
        // Longer than needed: the scores come first, and the rest stays.
        for output in [17, 20, 64] {
            let (values, symbols) = (full_range(random), random.word());
            for (engine, follow) in ENGINES {
                let mut exact = [UNTOUCHED; 16];
                let mut longer = vec![UNTOUCHED; output];
                let outcomes = [
                    follow(kernel, &values, symbols, &mut exact),
                    follow(kernel, &values, symbols, &mut longer),
                ];
                tally.expect(
                    outcomes == [ACCEPTED; 2]
                        && longer[..16] == exact
                        && longer[16..].iter().all(|&score| score == UNTOUCHED),
                    format_args!(
                        "{engine}, kernel {kernel}, values {values:?}, symbols {symbols:016b}, output of {output}: \
                         {outcomes:?}, wanted {exact:?} and {UNTOUCHED} after it, got {longer:?}"
                    ),
                );
            }
            cases += 1;
        }
    }
    tally.group("follow, lengths of values and output", of_both(cases));
}

/// Numbers that no kernel has, alone and with every other fault.
fn no_kernel(tally: &mut Tally, random: &mut Random) {
    let mut cases = 0;
    for kernel in 3..=u8::MAX {
        let (values, symbols) = (full_range(random), random.word());
        refused(tally, kernel, &values, symbols, 16, refusal(1, 0));
        refused(tally, kernel, &[LIMIT + 1; 17], symbols, 15, refusal(1, 0));
        cases += 2;
    }
    tally.group("follow, kernels 3 to 255 refused", of_both(cases));
}

/// Every choice of the four conditions, the neighbouring pairs among them: the first in checking order is named.
fn conditions_at_once(tally: &mut Tally, random: &mut Random) {
    let conditions = [1, 2, 5, 6];
    let mut cases = 0;
    for choice in 1..16u32 {
        let holds = |condition: u32| {
            conditions
                .iter()
                .position(|&c| c == condition)
                .is_some_and(|i| (choice >> i) & 1 == 1)
        };
        let number = *conditions.iter().find(|&&c| holds(c)).unwrap();
        for place in 0..15 {
            let kernel = if holds(1) {
                3
            } else {
                random.between(0, 2) as u8
            };
            let mut values = full_range(random).to_vec();
            if holds(6) {
                values[place] = LIMIT + 1;
            }
            if holds(2) {
                values.truncate(15);
            }
            let output = if holds(5) { 15 } else { 16 };
            let want = refusal(number, if number == 6 { place } else { 0 });
            refused(tally, kernel, &values, random.word(), output, want);
            cases += 1;
        }
    }
    tally.group("follow, conditions 1, 2, 5 and 6 at once", of_both(cases));
}
