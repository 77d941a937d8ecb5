//! The partial distances of a kernel (the paper's profile numbers), and the information order (its house order).
use crate::kernel::Kernel;

/// For each row the least count of ones in it plus any sum of later rows.
pub fn partial_distances(kernel: &Kernel) -> Vec<u32> {
    (0..16)
        .map(|s| least(&kernel.rows[s + 1..], kernel.rows[s]))
        .collect()
}

/// The least count of ones in a word plus any sum of some rows.
fn least(rows: &[u16], word: u16) -> u32 {
    match rows {
        [] => word.count_ones(),
        [row, rest @ ..] => least(rest, word).min(least(rest, word ^ row)),
    }
}

/// The product of the partial distances of a phase's two rows.
pub fn product(distances: &[u32], phase: usize) -> u32 {
    distances[phase / 16] * distances[phase % 16]
}

/// The 256 phases by falling product, equal products by falling phase.
pub fn information_order(distances: &[u32]) -> Vec<usize> {
    let mut phases: Vec<usize> = (0..256).rev().collect();
    // The sort keeps the order of equal ones.
    phases.sort_by_key(|&phase| std::cmp::Reverse(product(distances, phase)));
    phases
}
