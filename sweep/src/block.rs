//! A kernel of few symbols as the layers take it, and the least totals over all its words that begin with given symbols.
//!
//! The symbols are in two halves, and so are the places: the bits at the fixing places fix the last symbols as soon as the
//! first ones are known. So for any first symbols the words go through all bits at the fixing places; and the bits that they
//! have then at the other places are the same sum for all first symbols but for one number that belongs to these. That way the
//! least totals for all choices of the first symbols are found side by side.
use crate::paper::Kernel;
use crate::random::Random;

pub struct Block {
    /// How many symbols there are, at most 16.
    pub n: usize,
    /// The word of each choice of symbols, symbol 0 and bit 0 in the most significant of n bits.
    words: Vec<u16>,
    /// The fixing places, and the other ones.
    places: [Vec<usize>; 2],
    /// For each choice of symbols the bits of its word at the ones and at the others.
    parts: Vec<[u8; 2]>,
    /// For each choice of bits at the fixing places those at the others, where the first symbols are 0.
    others: Vec<u8>,
    /// For each choice of the first symbols the bits at the other places, where those at the fixing ones are 0.
    fronts: Vec<u8>,
}

impl Block {
    fn new(n: usize, words: Vec<u16>) -> Block {
        let mut block = Block {
            n,
            words,
            places: Default::default(),
            parts: Vec::new(),
            others: Vec::new(),
            fronts: Vec::new(),
        };
        let fixing = block.fixing_places();
        let others = (0..n).filter(|place| !fixing.contains(place)).collect();
        block.places = [fixing, others];
        let parts = |u: usize| block.places.each_ref().map(|places| block.bits(u, places));
        block.parts = (0..block.words.len()).map(parts).collect();
        // The words whose first symbols are 0 come first.
        block.others = vec![0; 1 << block.lasts()];
        for [fixing, other] in &block.parts[..1 << block.lasts()] {
            block.others[usize::from(*fixing)] = *other;
        }
        let fronts = block.parts.iter().step_by(1 << block.lasts());
        let moved = |[fixing, other]: &[u8; 2]| other ^ block.others[usize::from(*fixing)];
        block.fronts = fronts.map(moved).collect();
        block
    }

    /// One of the three kernels.
    pub fn of(kernel: &Kernel) -> Block {
        Block::new(16, kernel.words.clone())
    }

    /// A random invertible kernel of n symbols: every word is met once.
    pub fn invertible(random: &mut Random, n: usize) -> Block {
        loop {
            let rows: Vec<u16> = (0..n).map(|_| random.word() >> (16 - n)).collect();
            let row = |u: usize, s: usize| ((u >> (n - 1 - s)) & 1) as u16 * rows[s];
            let words: Vec<u16> = (0..1usize << n)
                .map(|u| (0..n).fold(0, |sum, s| sum ^ row(u, s)))
                .collect();
            let mut met = vec![false; 1 << n];
            words.iter().for_each(|&word| met[usize::from(word)] = true);
            if !met.contains(&false) {
                return Block::new(n, words);
            }
        }
    }

    /// How many symbols are the first ones.
    fn firsts(&self) -> usize {
        self.n / 2
    }

    /// How many are the last ones.
    fn lasts(&self) -> usize {
        self.n - self.firsts()
    }

    /// Bit j of the word of some symbols.
    pub fn bit(&self, symbols: usize, j: usize) -> bool {
        (self.words[symbols] >> (self.n - 1 - j)) & 1 == 1
    }

    /// Its bits at some places, the first of them the most significant.
    fn bits(&self, symbols: usize, places: &[usize]) -> u8 {
        let next = |bits: u8, &place: &usize| 2 * bits + u8::from(self.bit(symbols, place));
        places.iter().fold(0, next)
    }

    /// Places at which the rows of the last symbols are independent, one for each: a row that has been rid of those before it
    /// still has a 1 somewhere.
    fn fixing_places(&self) -> Vec<usize> {
        // Rows as the symbols whose words they are.
        let mut rows: Vec<(usize, usize)> = Vec::new();
        for s in self.firsts()..self.n {
            let row = rows
                .iter()
                .fold(1 << (self.n - 1 - s), |row, (other, place)| {
                    row ^ if self.bit(row, *place) { *other } else { 0 }
                });
            let place = (0..self.n).find(|&j| self.bit(row, j));
            rows.push((row, place.unwrap()));
        }
        rows.iter().map(|&(_, place)| place).collect()
    }
}

/// A total, in 16 bits where all of a kernel fit.
trait Total: Copy + Ord {
    const MOST: Self;

    fn new(total: i32) -> Self;

    /// It does not wrap: no total is above the most.
    fn plus(self, other: Self) -> Self;

    fn get(self) -> i32;
}

impl Total for i16 {
    const MOST: i16 = i16::MAX;

    fn new(total: i32) -> i16 {
        total as i16
    }

    fn plus(self, other: i16) -> i16 {
        self.wrapping_add(other)
    }

    fn get(self) -> i32 {
        self.into()
    }
}

impl Total for i32 {
    const MOST: i32 = i32::MAX;

    fn new(total: i32) -> i32 {
        total
    }

    fn plus(self, other: i32) -> i32 {
        self.wrapping_add(other)
    }

    fn get(self) -> i32 {
        self
    }
}

/// What the places pay in all for each word of a kernel.
pub struct Least<'a> {
    block: &'a Block,
    /// What every word pays: the smaller cost of each place.
    floor: i32,
    /// What the fixing places and the other ones pay above that, for each choice of their bits.
    sums: [Vec<i32>; 2],
    /// The least of what words pay above it, for each choice of the first symbols.
    fronts: Vec<i32>,
}

impl Least<'_> {
    /// Place j pays `costs[j][bit]`.
    pub fn new<'a>(block: &'a Block, costs: &[[i32; 2]]) -> Least<'a> {
        let sums = |places: &Vec<usize>| -> Vec<i32> {
            places.iter().fold(vec![0], |sums, &place| {
                let [zero, one] = costs[place];
                let above = [(zero - one).max(0), (one - zero).max(0)];
                let both = |&sum: &i32| above.map(|cost| sum + cost);
                sums.iter().flat_map(both).collect()
            })
        };
        let sums = block.places.each_ref().map(sums);
        let most: i32 = sums.iter().map(|sums| sums.iter().max().unwrap()).sum();
        let fits = most < i16::MAX.into();
        Least {
            block,
            floor: costs.iter().map(|cost| cost[0].min(cost[1])).sum(),
            fronts: match sums[1].len() {
                16.. if fits => least_of_fronts::<i16, 16>(block, &sums),
                8.. => least_of_fronts::<i32, 8>(block, &sums),
                _ => least_of_fronts::<i32, 1>(block, &sums),
            },
            sums,
        }
    }

    /// The least total of the words that begin with the first `count` symbols, which stand in `front`.
    pub fn of(&self, front: usize, count: usize) -> i32 {
        let Least { block, sums, .. } = self;
        let firsts = block.firsts();
        let least = if count <= firsts {
            let free = firsts - count;
            let fronts = &self.fronts[front << free..(front + 1) << free];
            fronts.iter().copied().min()
        } else {
            let free = block.n - count;
            let parts = block.parts[front << free..(front + 1) << free].iter();
            let total =
                |part: &[u8; 2]| sums[0][usize::from(part[0])] + sums[1][usize::from(part[1])];
            parts.map(total).min()
        };
        self.floor + least.unwrap()
    }
}

/// The least total for each choice of the first symbols. All bits at the fixing places are gone through, and with each of them
/// all bits at the other places at once, some lanes at a time.
fn least_of_fronts<T: Total, const LANES: usize>(
    block: &Block,
    [fixing, other]: &[Vec<i32>; 2],
) -> Vec<i32> {
    // What the other places pay with some of the last bits turned.
    let turned: Vec<Vec<T>> = (0..LANES)
        .map(|turn| {
            (0..other.len())
                .map(|bits| T::new(other[bits ^ turn]))
                .collect()
        })
        .collect();
    let mut least = vec![T::MOST; other.len()];
    for (&sum, &bits) in fixing.iter().zip(&block.others) {
        let bits = usize::from(bits);
        let (turned, turn) = (&turned[bits % LANES], bits / LANES);
        lower::<T, LANES>(&mut least, turned, T::new(sum), turn);
    }
    let fronts = block.fronts.iter();
    fronts.map(|&bits| least[usize::from(bits)].get()).collect()
}

/// Takes totals where they are less; lanes stand where their number is turned. Not inlined: the compiler is to see that the two
/// slices do not overlap, and to take all lanes at a time.
#[inline(never)]
fn lower<T: Total, const LANES: usize>(least: &mut [T], totals: &[T], sum: T, turn: usize) {
    for (i, least) in least.chunks_exact_mut(LANES).enumerate() {
        let at = LANES * (i ^ turn);
        for (to, &total) in least.iter_mut().zip(&totals[at..at + LANES]) {
            *to = (*to).min(sum.plus(total));
        }
    }
}
