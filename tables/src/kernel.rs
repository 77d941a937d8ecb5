//! A kernel: its relations solved, its rows and those of its inverse, and its phases.
//!
//! Sets and lists of bits are numbers, with index i in the bit of value 2^i. `packed` turns a word round, as the paper has
//! it: index 0 in the most significant of sixteen bits.
use crate::phases::Phase;
use crate::relations::Relations;

pub struct Kernel {
    pub number: usize,
    /// For each v the set of symbols whose sum it is.
    pub solved: Vec<u16>,
    /// Row s: the word with only symbol s set.
    pub rows: Vec<u16>,
    /// Row j: the symbols of the word with only bit j set.
    pub inverse_rows: Vec<u16>,
    /// After 0 to 16 symbols.
    pub phases: Vec<Phase>,
}

/// Whether a set has i.
pub fn has(set: u16, i: usize) -> bool {
    set >> i & 1 == 1
}

/// The set of the numbers below sixteen that have some property.
pub fn set_of(property: impl Fn(usize) -> bool) -> u16 {
    (0..16)
        .filter(|&i| property(i))
        .fold(0, |set, i| set | 1 << i)
}

/// The numbers of a set, rising.
pub fn members(set: u16) -> impl Iterator<Item = usize> {
    (0..16).filter(move |&i| has(set, i))
}

pub fn packed(bits: u16) -> u16 {
    bits.reverse_bits()
}

/// F[i][j] = 1 exactly if every set bit of j is set in i.
pub fn f(i: usize, j: usize) -> bool {
    i & j == j
}

/// The word c = vF.
fn word(v: u16) -> u16 {
    set_of(|j| members(v).filter(|&i| f(i, j)).count() % 2 == 1)
}

/// For each v the set of forms whose sum it is, where as many forms as v are given, each a set of v: Gaussian elimination.
/// None where they do not fix all v.
pub fn solve(forms: &[u16]) -> Option<Vec<u16>> {
    // Each form with the set of given forms whose sum it is.
    let mut pairs: Vec<(u16, u16)> = (0..).map(|i| 1 << i).zip(forms.iter().copied()).collect();
    for v in 0..forms.len() {
        let at = (v..forms.len()).find(|&at| has(pairs[at].1, v))?;
        pairs.swap(v, at);
        let (set, form) = pairs[v];
        for (other, pair) in pairs.iter_mut().enumerate() {
            if other != v && has(pair.1, v) {
                *pair = (pair.0 ^ set, pair.1 ^ form);
            }
        }
    }
    Some(pairs.into_iter().map(|(set, _)| set).collect())
}

impl Kernel {
    pub fn new(number: usize, relations: Relations) -> Result<Kernel, String> {
        let solved = solve(&relations)
            .ok_or_else(|| format!("the relations of kernel {number} do not fix the v"))?;
        let alone = |s: usize| set_of(|i| has(solved[i], s));
        let symbols = |v: u16| set_of(|s| (v & relations[s]).count_ones() % 2 == 1);
        Ok(Kernel {
            number,
            rows: (0..16).map(|s| word(alone(s))).collect(),
            // F is its own inverse, so the v of a word c is cF.
            inverse_rows: (0..16).map(|j| symbols(word(1 << j))).collect(),
            phases: (0..=16).map(|i| Phase::new(&relations[..i])).collect(),
            solved,
        })
    }

    /// Whether the symbols are the v.
    pub fn is_plain(&self) -> bool {
        (0..16).all(|i| self.solved[i] == 1 << i)
    }
}
