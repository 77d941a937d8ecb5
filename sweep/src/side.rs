//! Sixteen kernels side by side, one in each lane, from `libside_follow.a`, which is for tests alone: every phase of every lane
//! against a kernel that is followed by itself, and of some lanes against the best over all words.
use std::array;

use crate::paper::{bit, pack, Kernel};
use crate::random::Random;
use crate::recorded::{kernel_follow, side_follow};
use crate::scores::{best_symbols, pay, scores, totals, Values};
use crate::tally::Tally;
use crate::traps::Told;

/// The limit of the values: they go from minus this to this.
const LIMIT: i32 = 2047;

/// The largest size of a score.
const MOST: i32 = 16 * LIMIT;

/// How many calls of each kind of values.
const CALLS: usize = 480;

/// In how many of them one lane, each in turn, goes against all words.
const WATCHED: usize = 96;

/// What an output buffer holds before a call: no score is as low.
const UNTOUCHED: i32 = i32::MIN;

/// How much longer than needed it is.
const SPARE: usize = 4;

/// One kernel's values and symbols.
#[derive(Clone, Copy, Debug)]
struct Lane {
    values: Values,
    symbols: u16,
}

type Lanes = [Lane; 16];

/// The scores of one kernel's phases.
type Scores = [i32; 16];

pub fn sweep(tally: &mut Tally, kernels: &[Kernel]) {
    let mut random = Random::new(9);
    let mut met = Met::default();
    for kernel in kernels {
        random_cases(tally, kernel, &mut random, &mut met);
    }
    one_value_apart(tally, kernels, &mut random, &mut met);
    one_symbol_apart(tally, kernels, &mut random, &mut met);
    ends(tally, kernels, &mut random, &mut met);
    met.report(tally);
    longer_output(tally, &mut random);
    no_kernel(tally, &mut random);
    lengths(tally, &mut random);
    out_of_range(tally, &mut random);
    conditions_at_once(tally, &mut random);
}

/// The values in the order of a call: those of place 0 by lane, then those of place 1, and so on.
fn values_of(lanes: &Lanes) -> Vec<i16> {
    let at = |i: usize| i16::try_from(lanes[i % 16].values[i / 16]);
    (0..256).map(|i| at(i).unwrap()).collect()
}

/// The planes: each has one symbol of all lanes, lane 0 first.
fn planes_of(lanes: &Lanes) -> Vec<u16> {
    (0..16)
        .map(|s| pack(|l| bit(lanes[l].symbols, s)))
        .collect()
}

/// The scores of a kernel that is followed by itself.
fn alone(kernel: u8, lane: Lane) -> Scores {
    let mut scores = [UNTOUCHED; 16];
    kernel_follow(kernel, &lane.values, lane.symbols, &mut scores);
    scores
}

/// One accepted call: all scores of all lanes, and that what lies past them stays. The scores that it wrote, by lane.
fn compare(tally: &mut Tally, kernel: u8, lanes: &Lanes) -> [Scores; 16] {
    let mut out = [UNTOUCHED; 256 + SPARE];
    let accepted = side_follow(kernel, &values_of(lanes), &planes_of(lanes), &mut out);
    tally.expect(
        accepted && out[256..] == [UNTOUCHED; SPARE],
        format_args!(
            "side by side, kernel {kernel}, {lanes:?}: accepted {accepted}, wrote {out:?}"
        ),
    );
    let found = array::from_fn(|l| array::from_fn(|s| out[16 * s + l]));
    for (l, lane) in lanes.iter().enumerate() {
        let (want, got): (Scores, Scores) = (alone(kernel, *lane), found[l]);
        tally.expect(
            got == want,
            format_args!(
                "side by side, kernel {kernel}, lane {l} of {lanes:?}: alone {want:?}, got {got:?}"
            ),
        );
    }
    found
}

/// What the cases must have met.
#[derive(Default)]
struct Met {
    next_values: Told,
    next_symbols: Told,
    mirrored: Told,
    narrow: Told,
    one_value: Told,
    one_symbol: Told,
    /// Scores of 0 over values that are not all 0.
    ties: u64,
    greatest: i32,
    least: i32,
}

impl Met {
    /// One lane of a call, and what a mistaken engine would have made of it.
    fn watch(&mut self, kernel: u8, lanes: &Lanes, l: usize, found: &[Scores; 16]) {
        let (lane, next, got) = (lanes[l], lanes[(l + 1) % 16], found[l]);
        let with = |values, symbols| alone(kernel, Lane { values, symbols });
        self.next_values
            .case(with(next.values, lane.symbols) != got);
        self.next_symbols
            .case(with(lane.values, next.symbols) != got);
        self.mirrored
            .case(with(lane.values, lanes[15 - l].symbols) != got);
        self.narrow
            .case(got.map(|x| i32::from(((x << 1) as i16) >> 1)) != got);
        if lane.values != [0; 16] {
            self.ties += got.iter().filter(|&&x| x == 0).count() as u64;
        }
        self.greatest = self.greatest.max(*got.iter().max().unwrap());
        self.least = self.least.min(*got.iter().min().unwrap());
    }

    fn report(&self, tally: &mut Tally) {
        for (told, name) in [
            (&self.next_values, "the values of the next lane"),
            (&self.next_symbols, "the symbols of the next lane"),
            (&self.mirrored, "lane 0 in the last bit of a plane"),
            (&self.narrow, "scores side by side in fifteen bits"),
            (&self.one_value, "one value taken from another lane"),
            (&self.one_symbol, "one symbol taken from another lane"),
        ] {
            told.report(tally, name);
        }
        let Met {
            ties,
            greatest,
            least,
            ..
        } = self;
        tally.expect(
            *ties > 0 && *greatest == MOST && *least == -MOST,
            format_args!("side by side: {ties} ties, scores from {least} to {greatest}"),
        );
        tally.line(
            format_args!("side by side, {ties} ties and scores from {least} to {greatest} met"),
            3,
        );
    }
}

/// How values of a kind are made.
type Make = fn(&mut Random, &Kernel) -> Values;

/// The kinds of values.
const KINDS: [(&str, Make); 7] = [
    ("full range", |random, _| full_range(random)),
    ("all 0", |_, _| [0; 16]),
    ("small", |random, _| array::from_fn(|_| random.wide(-3, 3))),
    ("many zeros", |random, _| {
        array::from_fn(|_| match random.between(0, 7) {
            0 => random.wide(-LIMIT, LIMIT),
            1 => random.wide(-3, 3),
            _ => 0,
        })
    }),
    ("many ties", |random, _| {
        let sizes = [random.wide(1, 3), random.wide(1, LIMIT), LIMIT];
        array::from_fn(|_| {
            let y = sizes[random.between(0, 2) as usize];
            either(random, y)
        })
    }),
    ("2047 and -2047", |random, _| {
        array::from_fn(|_| either(random, LIMIT))
    }),
    ("a word with noise", |random, kernel| {
        let word = kernel.words[usize::from(random.word())];
        array::from_fn(|i| {
            let y = random.wide(-1300, LIMIT);
            if bit(word, i) {
                -y
            } else {
                y
            }
        })
    }),
];

fn full_range(random: &mut Random) -> Values {
    array::from_fn(|_| random.wide(-LIMIT, LIMIT))
}

/// A number with either sign.
fn either(random: &mut Random, y: i32) -> i32 {
    if random.once_in(2) {
        y
    } else {
        -y
    }
}

/// The signs of the scores, as a decoder would choose.
fn signs(scores: &Scores) -> u16 {
    pack(|s| scores[s] < 0)
}

/// Sixteen different lanes in each call, with any symbols or, in every third turn of sixteen calls, those of a decoder that went
/// astray.
fn random_cases(tally: &mut Tally, kernel: &Kernel, random: &mut Random, met: &mut Met) {
    let number = kernel.number;
    let mut paid = Vec::new();
    for (name, make) in KINDS {
        for turn in 0..CALLS {
            let mut lanes: Lanes = array::from_fn(|_| Lane {
                values: make(random, kernel),
                symbols: random.word(),
            });
            // By turns of sixteen, so that every lane meets both kinds.
            if turn / 16 % 3 == 1 {
                for lane in &mut lanes {
                    lane.symbols = signs(&alone(number, *lane));
                }
            }
            let l = turn % 16;
            if turn < WATCHED {
                totals(kernel, &lanes[l].values, pay, &mut paid);
                // Each lane also with the symbols of the best word.
                if turn / 16 % 3 == 2 {
                    lanes[l].symbols = best_symbols(&paid);
                }
            }
            let found = compare(tally, number, &lanes);
            if turn < WATCHED {
                let (want, got) = (scores(&paid, lanes[l].symbols), found[l].map(i64::from));
                tally.expect(
                    got == want,
                    format_args!(
                        "side by side, kernel {number}, lane {l} of {lanes:?}: wanted {want:?}, got {got:?}"
                    ),
                );
            }
            met.watch(number, &lanes, l, &found);
        }
        let name = format!("kernel {number}, side by side, {name}");
        tally.group(&name, (16 * CALLS + WATCHED) as u64);
    }
}

/// Lanes that are all the same but for one value of one lane: each place of each lane.
fn one_value_apart(tally: &mut Tally, kernels: &[Kernel], random: &mut Random, met: &mut Met) {
    let mut cases = 0;
    for kernel in kernels {
        for (l, place) in (0..256).map(|i| (i / 16, i % 16)) {
            let (values, symbols) = (full_range(random), random.word());
            let mut lanes = [Lane { values, symbols }; 16];
            lanes[l].values[place] = either(random, LIMIT);
            let found = compare(tally, kernel.number, &lanes);
            met.one_value.case(found[l] != found[(l + 1) % 16]);
            cases += 16;
        }
    }
    tally.group("side by side, lanes with one value apart", cases);
}

/// The same with one symbol: no score changes before the next phase.
fn one_symbol_apart(tally: &mut Tally, kernels: &[Kernel], random: &mut Random, met: &mut Met) {
    let mut cases = 0;
    for kernel in kernels {
        for (l, s) in (0..256).map(|i| (i / 16, i % 16)) {
            let (values, symbols) = (full_range(random), random.word());
            let mut lanes = [Lane { values, symbols }; 16];
            lanes[l].symbols ^= 0x8000 >> s;
            let found = compare(tally, kernel.number, &lanes);
            let other = found[(l + 1) % 16];
            tally.expect(
                found[l][..=s] == other[..=s],
                format_args!(
                    "side by side, kernel {}, lane {l} of {lanes:?}: symbol {s} changed {:?} to {:?}",
                    kernel.number, other, found[l]
                ),
            );
            met.one_symbol.case(found[l] != other);
            cases += 16;
        }
    }
    tally.group("side by side, lanes with one symbol apart", cases);
}

/// Values at the ends of the range in all lanes, by the bits of a word and along its symbols: the last score is as large as any.
fn ends(tally: &mut Tally, kernels: &[Kernel], random: &mut Random, met: &mut Met) {
    let mut paid = Vec::new();
    let mut cases = 0;
    for kernel in kernels {
        for turn in 0..16 {
            let lanes: Lanes = array::from_fn(|_| {
                let word = match turn {
                    0 => 0,
                    1 => u16::MAX,
                    _ => random.word(),
                };
                Lane {
                    values: array::from_fn(|i| if bit(word, i) { -LIMIT } else { LIMIT }),
                    symbols: kernel.symbols_of_word(word),
                }
            });
            let found = compare(tally, kernel.number, &lanes);
            for (l, lane) in lanes.iter().enumerate() {
                met.watch(kernel.number, &lanes, l, &found);
                totals(kernel, &lane.values, pay, &mut paid);
                let (want, got) = (scores(&paid, lane.symbols), found[l].map(i64::from));
                tally.expect(
                    got == want && got[15].abs() == i64::from(MOST),
                    format_args!(
                        "side by side, kernel {}, {lane:?}: wanted {want:?}, got {got:?}",
                        kernel.number
                    ),
                );
                cases += 1;
            }
        }
    }
    tally.group("side by side, ends of the range", cases);
}

/// A request that is accepted, with different lanes.
fn request(random: &mut Random) -> (Vec<i16>, Vec<u16>) {
    let lanes = array::from_fn(|_| Lane {
        values: full_range(random),
        symbols: random.word(),
    });
    (values_of(&lanes), planes_of(&lanes))
}

/// Output that is longer than needed: the scores come first, and the rest stays.
fn longer_output(tally: &mut Tally, random: &mut Random) {
    let mut cases = 0;
    for kernel in 0..3 {
        for output in [257, 272, 300, 512] {
            let (values, planes) = request(random);
            let mut exact = [UNTOUCHED; 256];
            let mut longer = vec![UNTOUCHED; output];
            let accepted = [
                side_follow(kernel, &values, &planes, &mut exact),
                side_follow(kernel, &values, &planes, &mut longer),
            ];
            tally.expect(
                accepted == [true; 2]
                    && longer[..256] == exact
                    && !exact.contains(&UNTOUCHED)
                    && longer[256..].iter().all(|&score| score == UNTOUCHED),
                format_args!(
                    "side by side, kernel {kernel}, {values:?}, {planes:?}, output of {output}: {accepted:?}, \
                     wanted {exact:?} and {UNTOUCHED} after it, got {longer:?}"
                ),
            );
            cases += 1;
        }
    }
    tally.group("side by side, longer output", cases);
}

/// One refused request: no score is written.
fn refused(tally: &mut Tally, kernel: u8, values: &[i16], planes: &[u16], output: usize) {
    let before: Vec<i32> = (0..output).map(|i| 123_456_789 - i as i32).collect();
    let mut after = before.clone();
    let accepted = side_follow(kernel, values, planes, &mut after);
    tally.expect(
        !accepted && after == before,
        format_args!(
            "side by side, kernel {kernel}, {values:?}, {planes:?}, output of {output}: accepted {accepted}; \
             the output was {before:?} before, {after:?} after"
        ),
    );
}

fn no_kernel(tally: &mut Tally, random: &mut Random) {
    for kernel in 3..=u8::MAX {
        let (values, planes) = request(random);
        refused(tally, kernel, &values, &planes, 256);
    }
    tally.group("side by side, kernels 3 to 255 refused", 253);
}

fn lengths(tally: &mut Tally, random: &mut Random) {
    let mut cases = 0;
    for kernel in 0..3 {
        let (values, planes) = request(random);
        for length in [0, 1, 16, 255, 257, 512] {
            let values: Vec<i16> = values.iter().copied().cycle().take(length).collect();
            refused(tally, kernel, &values, &planes, 256);
            cases += 1;
        }
        for length in [0, 1, 15, 17, 32] {
            let planes: Vec<u16> = planes.iter().copied().cycle().take(length).collect();
            refused(tally, kernel, &values, &planes, 256);
            cases += 1;
        }
        for output in [0, 1, 16, 240, 255] {
            refused(tally, kernel, &values, &planes, output);
            cases += 1;
        }
    }
    tally.group("side by side, wrong lengths", cases);
}

/// A value outside the range, at each place of each lane.
fn out_of_range(tally: &mut Tally, random: &mut Random) {
    let mut cases = 0;
    for kernel in 0..3 {
        for i in 0..256 {
            for y in [2048, -2048, i16::MAX, i16::MIN] {
                let (mut values, planes) = request(random);
                values[i] = y;
                refused(tally, kernel, &values, &planes, 256);
                cases += 1;
            }
        }
    }
    tally.group("side by side, a value out of range", cases);
}

/// Every choice of the five reasons to refuse.
fn conditions_at_once(tally: &mut Tally, random: &mut Random) {
    let mut cases = 0;
    for choice in 1..32 {
        let holds = |i: u32| (choice >> i) & 1 == 1;
        for _ in 0..8 {
            let (mut values, mut planes) = request(random);
            let kernel = random.between(0, 2) as u8;
            if holds(1) {
                values[random.between(0, 254) as usize] = 2048;
            }
            if holds(2) {
                values.truncate(255);
            }
            if holds(3) {
                planes.truncate(15);
            }
            let output = if holds(4) { 255 } else { 256 };
            refused(
                tally,
                if holds(0) { 3 } else { kernel },
                &values,
                &planes,
                output,
            );
            cases += 1;
        }
    }
    tally.group("side by side, reasons to refuse at once", cases);
}
