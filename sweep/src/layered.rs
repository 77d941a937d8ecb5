//! Frames of any layers, scored layer by layer over all words of each kernel, and over all words of the frame.
//!
//! Nothing here knows of scores between the layers: a layer hands the next one inward, for each of its words, the least total
//! for bit 0 and for bit 1, and a penalty is the least total itself.
use crate::block::{Block, Least};

/// What a value pays for bit 0 and for bit 1.
pub fn pay(value: i32) -> [i32; 2] {
    [(-value).max(0), value.max(0)]
}

/// Symbols with their scores and penalties, phase by phase.
#[derive(Debug, PartialEq, Eq, Default)]
pub struct Found {
    pub symbols: Vec<bool>,
    pub scores: Vec<i32>,
    pub penalties: Vec<i32>,
}

impl Found {
    /// One phase more: what is paid at least with symbol 0 and with symbol 1, and the symbol.
    fn push(&mut self, least: [i32; 2], symbol: bool) {
        self.scores.push(least[1] - least[0]);
        self.penalties.push(least[usize::from(symbol)]);
        self.symbols.push(symbol);
    }
}

/// How a symbol is chosen, from its phase and the phase's score.
type Choose<'a> = &'a dyn Fn(usize, i32) -> bool;

/// The layers given, innermost first, and what each place pays for bit 0 and for bit 1, all other layers' symbols of the frame
/// being known or free. The word of the symbols that were chosen.
fn run(layers: &[&Block], costs: &[[i32; 2]], choose: Choose, found: &mut Found) -> Vec<bool> {
    let Some((outer, inner)) = layers.split_last() else {
        let [least] = costs else {
            panic!("no layer and {} places", costs.len());
        };
        let symbol = choose(found.symbols.len(), least[1] - least[0]);
        found.push(*least, symbol);
        return vec![symbol];
    };
    // The words of this layer, with the symbols of each so far.
    let mut words: Vec<(Least, usize)> = costs
        .chunks(outer.n)
        .map(|costs| (Least::new(outer, costs), 0))
        .collect();
    for r in 0..outer.n {
        let costs: Vec<[i32; 2]> = words
            .iter()
            .map(|(least, front)| [0, 1].map(|bit| least.of(2 * front + bit, r + 1)))
            .collect();
        let bits = run(inner, &costs, choose, found);
        for ((_, front), bit) in words.iter_mut().zip(bits) {
            *front = 2 * *front + usize::from(bit);
        }
    }
    let bits = |&(_, symbols): &(Least, usize)| (0..outer.n).map(move |j| outer.bit(symbols, j));
    words.iter().flat_map(bits).collect()
}

/// Layer by layer. `choose` gives the symbol of a phase from its score.
pub fn layered(layers: &[&Block], values: &[i32], choose: impl Fn(usize, i32) -> bool) -> Found {
    let mut found = Found::default();
    let costs: Vec<[i32; 2]> = values.iter().map(|&y| pay(y)).collect();
    run(layers, &costs, &choose, &mut found);
    found
}

/// The word of a frame's symbols: the sum of the rows of those that are 1. A row is the product of the layers' rows at the
/// digits of the phase, of which the innermost layer's is the least significant; of a place it is the most significant.
pub fn word(layers: &[&Block], symbols: &[bool]) -> Vec<bool> {
    let mut sum = vec![false; symbols.len()];
    for phase in (0..symbols.len()).filter(|&i| symbols[i]) {
        let mut rest = phase;
        let row = layers.iter().fold(vec![true], |front, block| {
            let (n, s) = (block.n, rest % block.n);
            rest /= n;
            let with = |&one: &bool| (0..n).map(move |j| one && block.bit(1 << (n - 1 - s), j));
            front.iter().flat_map(with).collect()
        });
        add(&mut sum, &row);
    }
    sum
}

fn add(sum: &mut [bool], word: &[bool]) {
    sum.iter_mut().zip(word).for_each(|(bit, one)| *bit ^= one);
}

/// The total of every word whose symbols agree with the first ones, `count` of them being free. The words are sums of
/// those of single symbols, each by the sum above; from each to the next one symbol changes.
pub fn totals_from(layers: &[&Block], values: &[i32], symbols: &[bool], count: usize) -> Vec<i32> {
    let known = symbols.len() - count;
    let mut front = symbols.to_vec();
    front[known..].fill(false);
    let unit = |i: usize| {
        let mut unit = vec![false; symbols.len()];
        unit[symbols.len() - 1 - i] = true;
        word(layers, &unit)
    };
    let units: Vec<Vec<bool>> = (0..count).map(unit).collect();
    let costs: Vec<[i32; 2]> = values.iter().map(|&y| pay(y)).collect();
    let mut totals = vec![0; 1 << count];
    let (mut u, mut bits) = (0, word(layers, &front));
    for next in 1..=1usize << count {
        let paid = costs.iter().zip(&bits);
        totals[u] = paid.map(|(cost, &bit)| cost[usize::from(bit)]).sum();
        let changed = next.trailing_zeros() as usize;
        if changed < count {
            u ^= 1 << changed;
            add(&mut bits, &units[changed]);
        }
    }
    totals
}

/// The scores and penalties of the last `count` phases of these symbols, over all words that agree with the symbols
/// before them, with no layering.
pub fn over_all_words(layers: &[&Block], values: &[i32], symbols: &[bool], count: usize) -> Found {
    let totals = totals_from(layers, values, symbols, count);
    let mut found = Found::default();
    let mut front = 0;
    for (i, &symbol) in symbols[symbols.len() - count..].iter().enumerate() {
        let free = count - 1 - i;
        let least = [0, 1].map(|bit| {
            let from = (2 * front + bit) << free;
            *totals[from..from + (1 << free)].iter().min().unwrap()
        });
        found.push(least, symbol);
        front = 2 * front + usize::from(symbol);
    }
    found
}
