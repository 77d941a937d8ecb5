//! What is known after the first symbols of a kernel: its decoding window, how the v follow from symbols and window, and
//! the rows of the phase's table.
use crate::kernel::{f, has, set_of, solve};

pub struct Phase {
    /// One more than the highest v that the relations of these symbols use.
    pub height: usize,
    /// The decoding window, rising.
    pub window: Vec<usize>,
    /// For each v below the height what it is the sum of: symbols, and counted on from them the members of the window.
    pub solution: Vec<u16>,
}

impl Phase {
    /// After the symbols that these relations give.
    pub fn new(relations: &[u16]) -> Phase {
        let used = relations.iter().fold(0, |used, form| used | form);
        let height = (u16::BITS - used.leading_zeros()) as usize;
        let window = window(relations, height);
        let forms: Vec<u16> = relations
            .iter()
            .copied()
            .chain(window.iter().map(|&i| 1 << i))
            .collect();
        Phase {
            height,
            window,
            solution: solve(&forms).expect("the window and the relations fix all v"),
        }
    }

    /// Whether v i is the sum of symbol or member x and others.
    fn uses(&self, i: usize, x: usize) -> bool {
        has(self.solution[i], x)
    }
}

/// The decoding window. Of the smallest sets the first in rising order: from v0 on every v is taken that the symbols and
/// those taken before do not fix. (No set is smaller: each v that is taken adds one to the rank, and all ways to the full
/// rank have the same length.)
fn window(relations: &[u16], height: usize) -> Vec<usize> {
    let mut basis = Vec::new();
    for &form in relations {
        extend(&mut basis, form);
    }
    (0..height)
        .filter(|&i| extend(&mut basis, 1 << i))
        .collect()
}

/// Whether a form is no sum of those in a basis; it then goes into the basis.
fn extend(basis: &mut Vec<u16>, form: u16) -> bool {
    // The highest bit of each form in the basis is in no later one.
    let rest = basis.iter().fold(form, |rest, &old| rest.min(rest ^ old));
    if rest != 0 {
        basis.push(rest);
    }
    rest != 0
}

/// The highest v in use up to and with phase s.
pub fn high(phases: &[Phase], s: usize) -> usize {
    phases[s + 1].height - 1
}

/// Whether the relations reach no further at phase s than before.
pub fn again(phases: &[Phase], s: usize) -> bool {
    phases[s + 1].height == phases[s].height
}

/// What the rows of phase s stand for: the symbols up to it, then the members of its window.
pub fn names(phases: &[Phase], s: usize) -> Vec<String> {
    let symbols = (0..=s).map(|i| format!("u{i}"));
    let members = phases[s + 1].window.iter().map(|i| format!("v{i}"));
    symbols.chain(members).collect()
}

/// The rows of phase s: what each symbol and each member of the window adds. Where the relations reach further: to the
/// words of the known halves and the last v. Else: to the number of the path among those of the phase before, which has a
/// bit for each member of the window before, the last one lowest.
pub fn path_rows(phases: &[Phase], s: usize) -> Vec<u16> {
    let (before, after) = (&phases[s], &phases[s + 1]);
    let high = high(phases, s);
    let row = |x: usize| {
        if again(phases, s) {
            let start = 16 - before.window.len();
            set_of(|j| j >= start && after.uses(before.window[j - start], x))
        } else {
            set_of(|j| {
                j <= high
                    && (0..=high)
                        .filter(|&i| after.uses(i, x) && in_block(8, high, i, j))
                        .count()
                        % 2
                        == 1
            })
        }
    };
    (0..16)
        .map(|x| if x <= high { row(x) } else { 0 })
        .collect()
}

/// Whether v i is in bit j of the words that the folds take as known with n known v and the next: blocks of F. `half` is
/// half of the places.
fn in_block(half: usize, n: usize, i: usize, j: usize) -> bool {
    if half == 0 {
        i == j
    } else if n < half {
        in_block(half / 2, n, i, j)
    } else if i < half {
        j < half && f(i, j)
    } else {
        j >= half && in_block(half / 2, n - half, i - half, j - half)
    }
}
