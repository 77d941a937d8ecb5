//! A frame decoder with no proof, for comparison with the library: the same windows, the same folds of sixteen costs for
//! each path, the same kept rows. It has no unsafe code and no vector code of its own.
mod tables;

use tables::{Kernel, Phase, Source};

/// A sum of costs: at most 16 × 2032, and 2032 is 16 × 127.
type Total = i16;

/// What each of N places pays for bit 0 and for bit 1.
type Costs<const N: usize> = [[Total; N]; 2];

/// The least totals of the paths.
type Row = [Total; 16];

/// Two halves folded onto one, the second half's word being free.
#[inline(always)]
fn fold_free<const N: usize, const HALF: usize>([zero, one]: &Costs<N>) -> Costs<HALF> {
    let mut folded = [[0; HALF]; 2];
    for i in 0..HALF {
        let [p, q] = [zero[i], zero[HALF + i]];
        let [r, s] = [one[i], one[HALF + i]];
        folded[0][i] = (p + q).min(r + s);
        folded[1][i] = (r + q).min(p + s);
    }
    folded
}

/// The same where the first half's word is known: it stands in the first bits of `word`.
#[inline(always)]
fn fold_known<const N: usize, const HALF: usize>([zero, one]: &Costs<N>, word: u16) -> Costs<HALF> {
    let mut folded = [[0; HALF]; 2];
    for i in 0..HALF {
        let [p, q] = [zero[i], zero[HALF + i]];
        let [r, s] = [one[i], one[HALF + i]];
        let other = if word & (0x8000 >> i) == 0 { 0 } else { p ^ r };
        folded[0][i] = (p ^ other) + q;
        folded[1][i] = (r ^ other) + s;
    }
    folded
}

#[inline(always)]
fn fold<const N: usize, const HALF: usize>(
    costs: &Costs<N>,
    known: bool,
    word: u16,
) -> Costs<HALF> {
    if known {
        fold_known(costs, word)
    } else {
        fold_free(costs)
    }
}

/// The least totals of a path for the phase's symbol 0 and 1. In a loop over paths the compiler takes eight at a time, where
/// all of it is inlined.
#[inline(always)]
fn least_totals(costs: &Costs<16>, high: usize, word: u16) -> [Total; 2] {
    let eight: Costs<8> = fold(costs, high & 8 != 0, word);
    let four: Costs<4> = fold(&eight, high & 4 != 0, word << (high & 8));
    let two: Costs<2> = fold(&four, high & 2 != 0, word << (high & 12));
    let [[zero], [one]] = fold(&two, high & 1 != 0, word << (high & 14));
    if word & (0x8000 >> high) == 0 {
        [zero, one]
    } else {
        [one, zero]
    }
}

fn least(totals: &[Total]) -> Total {
    totals.iter().copied().fold(Total::MAX, Total::min)
}

/// A kernel on its way through the phases.
struct Walk {
    costs: Costs<16>,
    symbols: u16,
    /// One row for symbol 0 and one for symbol 1.
    rows: [Row; 2],
    kept: Row,
}

impl Walk {
    fn new(values: [i16; 16]) -> Walk {
        Walk {
            costs: [
                values.map(|y| (-y).max(0) as Total),
                values.map(|y| y.max(0) as Total),
            ],
            symbols: 0,
            rows: [[0; 16]; 2],
            kept: [0; 16],
        }
    }

    /// The score of a phase.
    fn score(&mut self, phase: &Phase) -> i16 {
        let known = phase.symbols.of(self.symbols);
        let windows = phase.windows();
        let [zeros, ones] = &mut self.rows;
        match phase.source {
            Source::Costs if windows.len() == 1 => {
                [zeros[0], ones[0]] = least_totals(&self.costs, phase.high, known);
                return (ones[0] - zeros[0]) as i16;
            }
            Source::Costs => {
                for ((window, zero), one) in windows.iter().zip(zeros).zip(ones) {
                    [*zero, *one] = least_totals(&self.costs, phase.high, known ^ window);
                }
            }
            Source::Kept { own } => {
                for ((window, zero), one) in windows.iter().zip(zeros).zip(ones) {
                    // A path's number is below 16.
                    let path = known ^ window;
                    *zero = self.kept[usize::from(path % 16)];
                    *one = self.kept[usize::from((path ^ own) % 16)];
                }
            }
        }
        let [zero, one] = &self.rows;
        (least(&one[..windows.len()]) - least(&zero[..windows.len()])) as i16
    }

    /// Settles the phase's symbol.
    fn settle(&mut self, phase: usize, symbol: bool) {
        self.symbols |= u16::from(symbol) << (15 - phase);
        self.kept = self.rows[usize::from(symbol)];
    }
}

/// What decoding writes, and how far it is.
struct Output<'a> {
    scores: &'a mut [i16; 256],
    penalties: &'a mut [u16; 256],
    payload: &'a mut [u8],
    penalty: u16,
    byte: u8,
    bits: usize,
}

impl Output<'_> {
    /// Takes the score of phase i, and gives its symbol: the sign where it is marked, else 0.
    #[inline(always)]
    fn take(&mut self, i: usize, score: i16, marked: bool) -> bool {
        let symbol = marked && score < 0;
        if symbol != (score < 0) {
            self.penalty += score.unsigned_abs();
        }
        self.scores[i] = score;
        self.penalties[i] = self.penalty;
        if marked {
            self.byte = self.byte << 1 | u8::from(symbol);
            self.bits += 1;
            if self.bits % 8 == 0 {
                self.payload[self.bits / 8 - 1] = self.byte;
            }
        }
        symbol
    }
}

pub struct Decoder {
    kernels: [Kernel; 3],
}

impl Decoder {
    pub fn new() -> Decoder {
        Decoder {
            kernels: [0, 1, 2].map(Kernel::new),
        }
    }

    /// Frame decode, and the bytes of the payload. A bad request gives none, and changes nothing.
    #[allow(clippy::too_many_arguments)]
    pub fn frame_decode(
        &self,
        inner: u8,
        outer: u8,
        values: &[i8; 256],
        mask: &[u8; 32],
        scores: &mut [i16; 256],
        penalties: &mut [u16; 256],
        payload: &mut [u8],
    ) -> Option<usize> {
        let inner = self.kernels.get(usize::from(inner))?;
        let outer = self.kernels.get(usize::from(outer))?;
        let marked: u32 = mask.iter().map(|byte| byte.count_ones()).sum();
        if marked == 0 || marked % 8 != 0 || values.contains(&i8::MIN) {
            return None;
        }
        let payload = payload.get_mut(..marked as usize / 8)?;
        let bytes = payload.len();
        let (penalty, byte, bits) = (0, 0, 0);
        #[rustfmt::skip]
        let mut output = Output { scores, penalties, payload, penalty, byte, bits };
        let mut columns: [Walk; 16] = std::array::from_fn(|j| {
            Walk::new(std::array::from_fn(|t| i16::from(values[16 * j + t])))
        });
        for (r, phase) in outer.phases.iter().enumerate() {
            let marks = u16::from_be_bytes([mask[2 * r], mask[2 * r + 1]]);
            let mut row = Walk::new(columns.each_mut().map(|column| column.score(phase)));
            for (s, phase) in inner.phases.iter().enumerate() {
                let score = row.score(phase);
                let symbol = output.take(16 * r + s, score, marks & (0x8000 >> s) != 0);
                row.settle(s, symbol);
            }
            let word = inner.rows.of(row.symbols);
            for (j, column) in columns.iter_mut().enumerate() {
                column.settle(r, word & (0x8000 >> j) != 0);
            }
        }
        Some(bytes)
    }
}

impl Default for Decoder {
    fn default() -> Decoder {
        Decoder::new()
    }
}
