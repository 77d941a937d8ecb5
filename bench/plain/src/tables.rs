//! The kernels' rows and the tables of their phases, computed from the relations. Sixteen bits are packed, index 0 in the
//! most significant.

/// Symbol s is the sum of the listed v.
#[rustfmt::skip]
const RELATIONS: [[&[usize]; 16]; 3] = [
    [&[0], &[1], &[2], &[3], &[4], &[5], &[6], &[7], &[8], &[9], &[10], &[11], &[12], &[13], &[14], &[15]],
    [&[0], &[1], &[2], &[4], &[8], &[6, 9], &[5, 6, 10], &[3], &[12], &[6], &[10], &[7], &[11], &[13], &[14], &[15]],
    [&[0], &[1], &[2], &[3], &[4], &[8], &[6, 9], &[5, 6, 10], &[6], &[10], &[7], &[11], &[12], &[13], &[14], &[15]],
];

/// Where the totals of a phase's paths come from.
pub enum Source {
    /// The relations reach further than before: folds of the costs.
    Costs,
    /// They reach no further: the kept row. Symbol 1 has the path whose number differs from symbol 0's by `own`.
    Kept { own: u16 },
}

/// A phase. What the symbols before it and the window's bits add up to is, with `Source::Costs`, the words of the known
/// halves and the last v for symbol 0; with `Source::Kept`, the number of the path among those of the phase before.
pub struct Phase {
    /// The highest v that the relations up to the phase use.
    pub high: usize,
    pub source: Source,
    /// What each symbol adds.
    pub symbols: Sums,
    /// What each choice of the window's bits adds.
    windows: [u16; 16],
    paths: usize,
}

impl Phase {
    pub fn windows(&self) -> &[u16] {
        &self.windows[..self.paths]
    }
}

pub struct Kernel {
    /// The word of each symbol alone.
    pub rows: Sums,
    pub phases: [Phase; 16],
}

/// Sums of sixteen rows, four at a time.
pub struct Sums([[u16; 16]; 4]);

impl Sums {
    fn new(rows: [u16; 16]) -> Sums {
        let four = |n: usize, bits: usize| {
            (0..4)
                .filter(|i| bits & (8 >> i) != 0)
                .fold(0, |sum, i| sum ^ rows[4 * n + i])
        };
        Sums(std::array::from_fn(|n| {
            std::array::from_fn(|bits| four(n, bits))
        }))
    }

    /// The sum of the rows that the bits of x choose.
    pub fn of(&self, x: u16) -> u16 {
        let four = |n: usize| self.0[n][usize::from(x >> (12 - 4 * n) & 15)];
        four(0) ^ four(1) ^ four(2) ^ four(3)
    }
}

fn bit(x: u16, i: usize) -> u16 {
    x >> (15 - i) & 1
}

/// The word of `count` of the v from `start` on, at their places.
fn word(v: u16, start: usize, count: usize) -> u16 {
    (0..count).fold(0, |word, j| {
        let sum = (0..count)
            .filter(|i| i & j == j)
            .fold(0, |sum, i| sum ^ bit(v, start + i));
        word | sum << (15 - start - j)
    })
}

/// The words of the halves that are known where the v before v[high] are, and v[high] itself.
fn known_words(v: u16, high: usize) -> u16 {
    let halves = [8, 4, 2, 1]
        .into_iter()
        .filter(|half| high & half != 0)
        .fold(0, |known, half| {
            known | word(v, high & !(2 * half - 1), half)
        });
    halves | bit(v, high) << (15 - high)
}

/// Whether a form, a set of v to be summed, is no sum of those in a basis; it then goes into the basis.
fn extends(basis: &mut Vec<u16>, form: u16) -> bool {
    // The highest bit of each form in the basis is in no later one.
    let rest = basis.iter().fold(form, |rest, &old| rest.min(rest ^ old));
    if rest != 0 {
        basis.push(rest);
    }
    rest != 0
}

/// The v for which one of some forms is 1 and all others are 0, for each form.
fn inverse(forms: &[u16]) -> Vec<u16> {
    // Each form with the set of the first forms whose sum it is.
    let mut pairs: Vec<(u16, u16)> = (0..)
        .map(|i| 0x8000 >> i)
        .zip(forms)
        .map(|(own, &form)| (form, own))
        .collect();
    for i in 0..pairs.len() {
        let at = (i..pairs.len())
            .find(|&at| bit(pairs[at].0, i) == 1)
            .expect("the forms are independent");
        pairs.swap(i, at);
        let (form, set) = pairs[i];
        for (other, pair) in pairs.iter_mut().enumerate() {
            if other != i && bit(pair.0, i) == 1 {
                pair.0 ^= form;
                pair.1 ^= set;
            }
        }
    }
    (0..forms.len())
        .map(|k| (0..forms.len()).fold(0, |v, i| v | bit(pairs[i].1, k) << (15 - i)))
        .collect()
}

impl Kernel {
    pub fn new(number: usize) -> Kernel {
        let relations =
            RELATIONS[number].map(|list| list.iter().fold(0u16, |form, v| form | 0x8000 >> v));
        let alone = inverse(&relations);
        let mut before = (None, Vec::new());
        let phases = std::array::from_fn(|s| {
            let (phase, window) = phase(&relations[..=s], before.0, &before.1);
            before = (Some(phase.high), window);
            phase
        });
        Kernel {
            rows: Sums::new(std::array::from_fn(|s| word(alone[s], 0, 16))),
            phases,
        }
    }
}

/// The decoding window of some relations that use v up to v[high]: v that are free, and fix with the symbols all others.
fn window(relations: &[u16], high: usize) -> Vec<usize> {
    let mut basis = Vec::new();
    for &form in relations {
        extends(&mut basis, form);
    }
    (0..=high)
        .filter(|&v| extends(&mut basis, 0x8000 >> v))
        .collect()
}

/// The number of the path that has v, among those of a window.
fn path_number(v: u16, window: &[usize]) -> u16 {
    let members = window.iter().rev();
    members.fold(0, |number, &i| number << 1 | bit(v, i))
}

/// The phase of the last of some relations, and its window. The highest v and the window of the phase before are given.
fn phase(
    relations: &[u16],
    high_before: Option<usize>,
    window_before: &[usize],
) -> (Phase, Vec<usize>) {
    let s = relations.len() - 1;
    let used = relations.iter().fold(0, |used, form| used | form);
    let high = 15 - used.trailing_zeros() as usize;
    let window = window(relations, high);
    let mut forms = relations.to_vec();
    forms.extend(window.iter().map(|&v| 0x8000 >> v));
    let again = high_before == Some(high);
    let adds: Vec<u16> = inverse(&forms)
        .into_iter()
        .map(|v| match again {
            true => path_number(v, window_before),
            false => known_words(v, high),
        })
        .collect();
    let window_adds = |w: usize| {
        (0..window.len())
            .filter(|k| w >> k & 1 == 1)
            .fold(0, |sum, k| sum ^ adds[s + 1 + k])
    };
    let paths = 1 << window.len();
    let phase = Phase {
        high,
        source: match again {
            true => Source::Kept { own: adds[s] },
            false => Source::Costs,
        },
        symbols: Sums::new(std::array::from_fn(|i| if i < s { adds[i] } else { 0 })),
        windows: std::array::from_fn(|w| if w < paths { window_adds(w) } else { 0 }),
        paths,
    };
    (phase, window)
}
