//! Scores by the paper's definition, over all 65,536 words of a kernel.
use crate::paper::{bit, Kernel};

/// The limit of a kernel's channel values: they go from minus this to this.
pub const LIMIT: i32 = 32767;

/// Sixteen channel values.
pub type Values = [i32; 16];

/// What a place with value y pays for a bit.
pub fn pay(y: i32, bit: bool) -> i64 {
    if (y > 0 && bit) || (y < 0 && !bit) {
        i64::from(y).abs()
    } else {
        0
    }
}

/// What each word pays in all, listed by its symbols.
pub fn totals(
    kernel: &Kernel,
    values: &Values,
    pay: impl Fn(i32, bool) -> i64,
    totals: &mut Vec<i64>,
) {
    // What eight places from `start` on pay for each byte of a word.
    let bytes = |start: usize| -> Vec<i64> {
        (0..256u16)
            .map(|byte| {
                (0..8)
                    .map(|i| pay(values[start + i], bit(byte << 8, i)))
                    .sum()
            })
            .collect()
    };
    let (first, last) = (bytes(0), bytes(8));
    totals.clear();
    totals.extend(
        kernel
            .words
            .iter()
            .map(|&c| first[usize::from(c >> 8)] + last[usize::from(c & 255)]),
    );
}

/// The best score of some words: minus the least total.
fn best_score(totals: &[i64]) -> i64 {
    -totals.iter().copied().min().unwrap()
}

/// The score of a phase: the best score of the words that begin with the symbols before it and have 0 next, less that
/// of those with 1 next. The words that begin with given symbols stand next to one another.
pub fn score(totals: &[i64], symbols: u16, phase: usize) -> i64 {
    let count = 65536 >> phase;
    let start = usize::from(symbols) / count * count;
    let (zero, one) = totals[start..start + count].split_at(count / 2);
    best_score(zero) - best_score(one)
}

/// The scores of all phases. From the last one on, so that every word is looked at once: those with the symbol and those with the
/// other one next are together the words with the symbol of the phase before.
pub fn scores(totals: &[i64], symbols: u16) -> [i64; 16] {
    let mut scores = [0; 16];
    let mut same = -totals[usize::from(symbols)];
    for phase in (0..16).rev() {
        let count = 32768 >> phase;
        let start = (usize::from(symbols) / count ^ 1) * count;
        let other = best_score(&totals[start..start + count]);
        scores[phase] = if bit(symbols, phase) {
            other - same
        } else {
            same - other
        };
        same = same.max(other);
    }
    scores
}

/// The symbols of the best word, the lowest where several are best.
pub fn best_symbols(totals: &[i64]) -> u16 {
    let least = totals.iter().min().unwrap();
    totals.iter().position(|t| t == least).unwrap() as u16
}
