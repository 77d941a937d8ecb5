//! List decoding by the paper's rules: layer by layer, and over all words of a frame. And the checksum of a payload.
//!
//! Layer by layer a penalty is looked up. Of every outer word the least totals are made once, for all symbols that it can
//! begin with; of the inner word anew for each path at the beginning of a row. Lists are for two layers only.
use crate::block::{Block, Least};
use crate::layered::{pay, totals_from};

/// The CRC-16 of some bytes, bit by bit: polynomial 1021, start ffff, most significant bit first.
pub fn checksum(bytes: &[u8]) -> u16 {
    let mut sum = 0xffff;
    for &byte in bytes {
        for i in 0..8 {
            let next = (byte >> (7 - i)) & 1 == 1;
            let top = sum & 0x8000 != 0;
            sum = (sum & 0x7fff) << 1;
            if top != next {
                sum ^= 0x1021;
            }
        }
    }
    sum
}

/// Whether the last two bytes are the checksum of those before them, the high byte first.
pub fn agrees(payload: &[u8]) -> bool {
    let (data, last) = payload.split_at(payload.len() - 2);
    checksum(data).to_be_bytes() == last
}

/// A payload with the right checksum in place of its last two bytes.
pub fn with_checksum(payload: &[u8]) -> Vec<u8> {
    let data = &payload[..payload.len() - 2];
    [data, &checksum(data).to_be_bytes()].concat()
}

/// A path: its symbols and its penalty.
#[derive(Clone, Debug, PartialEq, Eq)]
pub struct Path {
    pub symbols: Vec<bool>,
    pub penalty: i32,
}

/// A path on its way through a row.
#[derive(Clone)]
struct Going {
    path: Path,
    /// The symbols of the outer words, before this row.
    columns: Vec<usize>,
    /// Which path it was when the row began.
    origin: usize,
    /// The symbols of this row so far.
    row: usize,
}

impl Going {
    /// With one symbol more; `rows` has the least totals of the row, for each origin, and `count` symbols are before it.
    fn with(&self, rows: &[Least], count: usize, symbol: bool) -> Going {
        let mut next = self.clone();
        next.row = 2 * self.row + usize::from(symbol);
        next.path.penalty = rows[self.origin].of(next.row, count + 1);
        next.path.symbols.push(symbol);
        next
    }
}

/// The final paths, in order. `marked` has the marks of the frame, and `most` is how many paths stay.
pub fn list(
    [inner, outer]: [&Block; 2],
    values: &[i32],
    marked: &[bool],
    most: usize,
) -> Vec<Path> {
    let costs: Vec<[i32; 2]> = values.iter().map(|&y| pay(y)).collect();
    let blocks = costs.chunks(outer.n).map(|costs| Least::new(outer, costs));
    let blocks: Vec<Least> = blocks.collect();
    let mut paths = vec![Going {
        path: Path {
            symbols: Vec::new(),
            penalty: 0,
        },
        columns: vec![0; inner.n],
        origin: 0,
        row: 0,
    }];
    for r in 0..outer.n {
        let mut rows = Vec::new();
        for (i, going) in paths.iter_mut().enumerate() {
            let costs: Vec<[i32; 2]> = blocks
                .iter()
                .zip(&going.columns)
                .map(|(block, &front)| [0, 1].map(|bit| block.of(2 * front + bit, r + 1)))
                .collect();
            rows.push(Least::new(inner, &costs));
            (going.origin, going.row) = (i, 0);
        }
        for s in 0..inner.n {
            let splits = marked[inner.n * r + s];
            let symbols = if splits { &[false, true][..] } else { &[false] };
            paths = paths
                .iter()
                .flat_map(|going| symbols.iter().map(|&symbol| going.with(&rows, s, symbol)))
                .collect();
            if splits {
                // They stand by parent and symbol, and a stable sort keeps that where penalties are equal.
                paths.sort_by_key(|going| going.path.penalty);
                paths.truncate(most);
            }
        }
        for going in &mut paths {
            for (j, column) in going.columns.iter_mut().enumerate() {
                *column = 2 * *column + usize::from(inner.bit(going.row, j));
            }
        }
    }
    paths.into_iter().map(|going| going.path).collect()
}

/// The same with no layers: a penalty is the least over all words of the frame that begin with the symbols, and at a
/// marked phase a path stays at place i where i others go before it.
pub fn list_over_all_words(
    layers: [&Block; 2],
    values: &[i32],
    marked: &[bool],
    most: usize,
) -> Vec<Path> {
    let totals = totals_from(&layers, values, &vec![false; marked.len()], marked.len());
    let penalty = |symbols: &[bool]| {
        let free = marked.len() - symbols.len();
        let front = symbols
            .iter()
            .fold(0, |front, &one| 2 * front + usize::from(one));
        let words = &totals[front << free..(front + 1) << free];
        *words.iter().min().unwrap()
    };
    let with = |path: &Path, symbol: bool| {
        let symbols = [&path.symbols[..], &[symbol]].concat();
        let penalty = penalty(&symbols);
        Path { symbols, penalty }
    };
    let mut paths = vec![Path {
        symbols: Vec::new(),
        penalty: 0,
    }];
    for &splits in marked {
        if !splits {
            paths = paths.iter().map(|path| with(path, false)).collect();
            continue;
        }
        let mut split = Vec::new();
        for (parent, path) in paths.iter().enumerate() {
            for symbol in [false, true] {
                let next = with(path, symbol);
                split.push(((next.penalty, parent, symbol), next));
            }
        }
        let before = |key| split.iter().filter(|other| other.0 < key).count();
        paths = (0..most.min(split.len()))
            .map(|i| {
                let at_i = split.iter().find(|one| before(one.0) == i);
                at_i.unwrap().1.clone()
            })
            .collect();
    }
    paths
}
