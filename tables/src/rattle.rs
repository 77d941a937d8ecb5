//! The tables as constants of the code, as the formatter lays them out: a number with a name has a line of its own, and numbers
//! with none fill their lines.
use crate::kernel::{packed, Kernel};
use crate::order::product;
use crate::phases::{again, high, names, path_rows};

/// The most columns that the formatter fills with numbers.
const WIDTH: usize = 99;

/// Numbers with no name, as many to a line as it holds.
fn filled(indent: usize, numbers: impl IntoIterator<Item = String>) -> Vec<String> {
    let mut lines: Vec<String> = Vec::new();
    for number in numbers {
        match lines.last_mut() {
            Some(line) if line.len() + number.len() + 2 <= WIDTH => *line += &format!(" {number},"),
            _ => lines.push(format!("{:indent$}{number},", "")),
        }
    }
    lines
}

/// The lines of a table of kernels, from those of each kernel.
fn by_kernel(kernels: &[Kernel], lines: impl Fn(&Kernel) -> Vec<String>) -> Vec<String> {
    let mut all = Vec::new();
    for kernel in kernels {
        all.push("    [".to_string());
        all.extend(lines(kernel));
        all.push("    ],".to_string());
    }
    all.push("];".to_string());
    all
}

/// Sixteen words, named by a letter and a number.
fn named(kernel: &Kernel, words: &[u16], letter: char) -> Vec<String> {
    words
        .iter()
        .enumerate()
        .map(|(i, &word)| {
            let (word, k) = (packed(word), kernel.number);
            format!("        {word:#06x}, // kernel {k}, {letter}{i}")
        })
        .collect()
}

pub fn rows(kernels: &[Kernel]) -> Vec<String> {
    by_kernel(kernels, |kernel| named(kernel, &kernel.rows, 'u'))
}

pub fn inverse_rows(kernels: &[Kernel]) -> Vec<String> {
    by_kernel(kernels, |kernel| named(kernel, &kernel.inverse_rows, 'c'))
}

pub fn shapes(kernels: &[Kernel]) -> Vec<String> {
    by_kernel(kernels, |kernel| {
        let shape = |s| {
            let (high, again) = (high(&kernel.phases, s), u8::from(again(&kernel.phases, s)));
            format!(
                "        [{high}, {again}], // kernel {}, phase {s}",
                kernel.number
            )
        };
        (0..16).map(shape).collect()
    })
}

pub fn paths(kernels: &[Kernel]) -> Vec<String> {
    by_kernel(kernels, |kernel| {
        (0..16).flat_map(|s| phase_rows(kernel, s)).collect()
    })
}

/// The rows of one phase; those past the window have no name.
fn phase_rows(kernel: &Kernel, s: usize) -> Vec<String> {
    let (names, rows) = (names(&kernel.phases, s), path_rows(&kernel.phases, s));
    let row = |&row| format!("{:#06x}", packed(row));
    let mut lines = vec!["        [".to_string()];
    for (word, name) in rows.iter().map(row).zip(&names) {
        let name = format!("kernel {}, phase {s}, {name}", kernel.number);
        lines.push(format!("            {word}, // {name}"));
    }
    lines.extend(filled(12, rows.iter().skip(names.len()).map(row)));
    lines.push("        ],".to_string());
    lines
}

/// The information order, with a line above the phases of each product.
pub fn order(order: &[usize], distances: &[u32]) -> Vec<String> {
    let mut lines = Vec::new();
    for phases in order.chunk_by(|&a, &b| product(distances, a) == product(distances, b)) {
        lines.push(format!("    // product {}", product(distances, phases[0])));
        lines.extend(filled(4, phases.iter().map(usize::to_string)));
    }
    lines.push("];".to_string());
    lines
}
