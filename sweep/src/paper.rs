//! The kernels as the paper gives them: relations and F, bit by bit.

/// The relations of the three kernels: symbol s is the sum of the listed v.
#[rustfmt::skip]
pub const RELATIONS: [[&[usize]; 16]; 3] = [
    [&[0], &[1], &[2], &[3], &[4], &[5], &[6], &[7], &[8], &[9], &[10], &[11], &[12], &[13], &[14], &[15]],
    [&[0], &[1], &[2], &[4], &[8], &[6, 9], &[5, 6, 10], &[3], &[12], &[6], &[10], &[7], &[11], &[13], &[14], &[15]],
    [&[0], &[1], &[2], &[3], &[4], &[8], &[6, 9], &[5, 6, 10], &[6], &[10], &[7], &[11], &[12], &[13], &[14], &[15]],
];

/// The profile numbers of the three kernels.
pub const PROFILES: [[u32; 16]; 3] = [
    [1, 2, 2, 4, 2, 4, 4, 8, 2, 4, 4, 8, 4, 8, 8, 16],
    [1, 2, 2, 2, 2, 4, 4, 4, 4, 6, 6, 8, 8, 8, 8, 16],
    [1, 2, 2, 4, 2, 2, 4, 4, 6, 6, 8, 8, 4, 8, 8, 16],
];

/// Bit i of sixteen packed bits: index 0 is the most significant bit.
pub fn bit(packed: u16, i: usize) -> bool {
    (packed >> (15 - i)) & 1 == 1
}

/// Sixteen bits, packed.
pub fn pack(bit_at: impl Fn(usize) -> bool) -> u16 {
    (0..16).fold(0, |packed, i| (packed << 1) | u16::from(bit_at(i)))
}

/// F[i][j] = 1 exactly if every set bit of j is set in i.
fn f(i: usize, j: usize) -> bool {
    (0..4).all(|b| (j >> b) & 1 == 0 || (i >> b) & 1 == 1)
}

/// The symbols u of v: each the sum of the v that its relation lists.
fn symbols_of(kernel: u8, v: u16) -> u16 {
    let relations = &RELATIONS[usize::from(kernel)];
    pack(|s| relations[s].iter().fold(false, |sum, &i| sum ^ bit(v, i)))
}

/// The word c = vF.
fn word_of(v: u16) -> u16 {
    pack(|j| (0..16).fold(false, |sum, i| sum ^ (bit(v, i) & f(i, j))))
}

/// A kernel by tables over all 65,536 choices of v.
pub struct Kernel {
    pub number: u8,
    /// The word of each sixteen symbols.
    pub words: Vec<u16>,
    /// The v of each sixteen symbols.
    pub vs: Vec<u16>,
    /// The sixteen symbols of each word.
    symbols: Vec<u16>,
}

impl Kernel {
    pub fn new(number: u8) -> Kernel {
        let mut kernel = Kernel {
            number,
            words: vec![0; 65536],
            vs: vec![0; 65536],
            symbols: vec![0; 65536],
        };
        let mut met = vec![false; 65536];
        for v in 0..=u16::MAX {
            let u = usize::from(symbols_of(number, v));
            assert!(!met[u], "kernel {number}: two v have the symbols {u:04x}");
            met[u] = true;
            kernel.words[u] = word_of(v);
            kernel.vs[u] = v;
            kernel.symbols[usize::from(word_of(v))] = u as u16;
        }
        kernel
    }

    /// The symbols whose word this is.
    pub fn symbols_of_word(&self, word: u16) -> u16 {
        let symbols = self.symbols[usize::from(word)];
        assert!(self.words[usize::from(symbols)] == word);
        symbols
    }
}
