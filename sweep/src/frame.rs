//! Frames as the paper gives them: the sum over all digits, masks and payloads, bit by bit.
use crate::paper::{bit, pack, Kernel};
use crate::random::Random;

/// Bit i of packed bytes: index 0 is the most significant bit of the first.
pub fn bit_of(bytes: &[u8], i: usize) -> bool {
    (bytes[i / 8] >> (7 - i % 8)) & 1 == 1
}

/// The bits of bytes.
pub fn unpacked(bytes: &[u8]) -> Vec<bool> {
    (0..8 * bytes.len()).map(|i| bit_of(bytes, i)).collect()
}

/// Bits, packed into whole bytes.
pub fn packed(bits: &[bool]) -> Vec<u8> {
    bits.chunks(8)
        .map(|eight| {
            eight
                .iter()
                .fold(0, |byte, &one| (byte << 1) | u8::from(one))
        })
        .collect()
}

/// The marks of some of n phases.
pub fn marks_at(phases: &[usize], n: usize) -> Vec<bool> {
    let mut marks = vec![false; n];
    phases.iter().for_each(|&phase| marks[phase] = true);
    marks
}

/// Any bits.
pub fn bits(random: &mut Random, count: usize) -> Vec<bool> {
    (0..count).map(|_| random.once_in(2)).collect()
}

/// Any bytes.
pub fn bytes(random: &mut Random, count: usize) -> Vec<u8> {
    (0..count).map(|_| random.word() as u8).collect()
}

/// How many ones bytes have.
pub fn ones(bytes: &[u8]) -> usize {
    bytes.iter().map(|byte| byte.count_ones() as usize).sum()
}

/// The symbols of a payload: its bits at the marked phases in rising order, 0 at all others.
pub fn placed(mask: &[bool], payload: &[u8]) -> Vec<bool> {
    let mut next = 0..;
    mask.iter()
        .map(|&marked| marked && bit_of(payload, next.next().unwrap()))
        .collect()
}

/// The payload of symbols: those at the marked phases in rising order.
pub fn taken(mask: &[bool], symbols: &[bool]) -> Vec<u8> {
    let both = mask.iter().zip(symbols);
    let marked: Vec<bool> = both.filter(|(&m, _)| m).map(|(_, &s)| s).collect();
    packed(&marked)
}

/// Entry s, j of a kernel: bit j of the word with only symbol s set.
pub fn entry(kernel: &Kernel, s: usize, j: usize) -> bool {
    bit(kernel.words[1 << (15 - s)], j)
}

/// A digit of a number of base 16; digit 0 is the least significant.
fn digit(number: usize, i: usize) -> usize {
    (number >> (4 * i)) & 15
}

/// A bit of the word of some symbols, by the sum as it stands: over all phases, the symbol times the product over the layers
/// of the entry at the layer's digits. The most significant digit of the phase belongs to the outermost layer, which is the
/// last one; the digits of the place run the other way.
pub fn bit_by_sum(layers: &[&Kernel], symbols: &[bool], place: usize) -> bool {
    let m = layers.len();
    let product =
        |phase: usize| (0..m).all(|l| entry(layers[l], digit(phase, l), digit(place, m - 1 - l)));
    let phases = 0..symbols.len();
    phases.fold(false, |sum, i| sum ^ (symbols[i] && product(i)))
}

/// The word of some symbols: the same sum, with the outermost layer's digits taken together. Phases that differ only in that
/// digit have their sixteen symbols' word at each place where the product of the other layers' entries is 1.
pub fn word(layers: &[&Kernel], symbols: &[bool]) -> Vec<bool> {
    let (outer, inner) = layers.split_last().unwrap();
    let mut sums = vec![0; symbols.len() / 16];
    for phase in 0..sums.len() {
        let sixteen = outer.words[usize::from(pack(|r| symbols[sums.len() * r + phase]))];
        let product = inner
            .iter()
            .enumerate()
            .fold(vec![true], |front, (l, kernel)| {
                let row = kernel.words[0x8000 >> digit(phase, l)];
                let with = |&one: &bool| (0..16).map(move |j| one && bit(row, j));
                front.iter().flat_map(with).collect()
            });
        for (sum, one) in sums.iter_mut().zip(product) {
            *sum ^= if one { sixteen } else { 0 };
        }
    }
    let bits = |&sum: &u16| (0..16).map(move |t| bit(sum, t));
    sums.iter().flat_map(bits).collect()
}

/// The symbols of a word, layer by layer from the outermost on.
fn undone(layers: &[&Kernel], of: &[bool]) -> Vec<bool> {
    let Some((outer, inner)) = layers.split_last() else {
        return of.to_vec();
    };
    let columns: Vec<u16> = of
        .chunks(16)
        .map(|block| outer.symbols_of_word(pack(|t| block[t])))
        .collect();
    let row = |r: usize| -> Vec<bool> { columns.iter().map(|&column| bit(column, r)).collect() };
    (0..16).flat_map(|r| undone(inner, &row(r))).collect()
}

/// The symbols of a word. They are found layer by layer; that their word is this one is looked at.
pub fn symbols(layers: &[&Kernel], of: &[bool]) -> Vec<bool> {
    let found = undone(layers, of);
    assert!(
        word(layers, &found) == of,
        "the symbols of a word are not its symbols"
    );
    found
}

/// The profile number of each row: the least count of ones in the row plus any sum of later rows.
pub fn profile(kernel: &Kernel) -> [u32; 16] {
    let mut least = [u32::MAX; 16];
    for symbols in 1..=u16::MAX {
        let first = symbols.leading_zeros() as usize;
        let ones = kernel.words[usize::from(symbols)].count_ones();
        least[first] = least[first].min(ones);
    }
    least
}

/// The phases by falling product of the profile numbers, equal products by falling phase.
pub fn order(kernel: &Kernel) -> Vec<usize> {
    let least = profile(kernel);
    let mut phases: Vec<usize> = (0..256).collect();
    phases.sort_by_key(|&i| std::cmp::Reverse((least[i / 16] * least[i % 16], i)));
    phases
}
