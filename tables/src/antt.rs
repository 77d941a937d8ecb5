//! The tables as definitions of the proof side. Each text goes on after the definition's name (see `source::Block`).
use crate::kernel::{members, packed, Kernel};
use crate::phases::{again, high, path_rows};

/// How a definition names kernels 0, 1 and 2 (and what is above).
const CLAUSES: [&str; 3] = ["zero", "(suc zero)", "(suc (suc k))"];

/// A list, as it stands in a line.
fn list(entries: impl IntoIterator<Item = String>) -> String {
    let mut text = String::new();
    for entry in entries {
        text += &entry;
        text += " ∷ ";
    }
    text + "[]"
}

/// The same, as the entry of another list: in parentheses unless it is empty.
fn entry(entries: impl IntoIterator<Item = String>) -> String {
    match list(entries).as_str() {
        "[]" => "[]".to_string(),
        list => format!("({list})"),
    }
}

/// A set of numbers, as an entry.
fn set(set: u16) -> String {
    entry(members(set).map(|i| i.to_string()))
}

fn words(words: &[u16]) -> String {
    entry(words.iter().map(|&word| format!("{:#06x}", packed(word))))
}

/// A list in lines of so many entries.
fn lines(entries: Vec<String>, width: usize) -> Vec<String> {
    let mut lines: Vec<String> = entries
        .chunks(width)
        .map(|chunk| format!("    ∷ {}", chunk.join(" ∷ ")))
        .collect();
    lines[0] = lines[0].replacen("∷ ", "", 1);
    if let Some(last) = lines.last_mut() {
        *last += " ∷ []";
    }
    lines
}

/// A list with one entry to a line, and its end on a line of its own.
fn column(entries: Vec<String>) -> Vec<String> {
    let mut lines = lines(entries, 1);
    if let Some(last) = lines.last_mut() {
        *last = last.trim_end_matches(" ∷ []").to_string();
    }
    lines.push("    ∷ []".to_string());
    lines
}

/// A definition with no argument.
fn whole(lines: Vec<String>) -> Vec<String> {
    let mut all = vec!["=".to_string()];
    all.extend(lines);
    all
}

/// A definition by clauses, one for each kernel; one whose symbols are the v has a short form.
fn clauses(kernels: &[Kernel], short: &str, value: impl Fn(&Kernel) -> Vec<String>) -> Vec<String> {
    let mut all = Vec::new();
    for (kernel, clause) in kernels.iter().zip(CLAUSES) {
        if kernel.is_plain() {
            all.push(format!("{clause} = {short}"));
        } else {
            all.push(format!("{clause} ="));
            all.extend(value(kernel));
        }
    }
    all
}

pub fn rows(kernels: &[Kernel]) -> Vec<String> {
    let entries = kernels.iter().map(|kernel| words(&kernel.rows)).collect();
    whole(lines(entries, 1))
}

pub fn inverse_rows(kernels: &[Kernel]) -> Vec<String> {
    let entries = kernels
        .iter()
        .map(|kernel| words(&kernel.inverse_rows))
        .collect();
    whole(lines(entries, 1))
}

pub fn solved(kernels: &[Kernel]) -> Vec<String> {
    clauses(kernels, "relations zero", |kernel| {
        lines(kernel.solved.iter().map(|&form| set(form)).collect(), 8)
    })
}

pub fn windows(kernels: &[Kernel]) -> Vec<String> {
    clauses(kernels, "[]", |kernel| {
        let windows = kernel
            .phases
            .iter()
            .map(|phase| entry(phase.window.iter().map(usize::to_string)));
        lines(windows.collect(), 9)
    })
}

pub fn solutions(kernels: &[Kernel]) -> Vec<String> {
    let short = "tabulate 17 (λ i. tabulate i (λ j. j ∷ []))";
    clauses(kernels, short, |kernel| {
        let solutions = kernel
            .phases
            .iter()
            .map(|phase| entry(phase.solution.iter().map(|&form| set(form))));
        column(solutions.collect())
    })
}

/// A table of phases for each kernel, one phase to a line.
fn by_phase(kernels: &[Kernel], phase: impl Fn(&Kernel, usize) -> String) -> Vec<String> {
    let mut all = vec!["=".to_string()];
    for (number, kernel) in kernels.iter().enumerate() {
        let start = if number == 0 { "(" } else { "∷ (" };
        for s in 0..16 {
            let before = if s == 0 { start } else { "∷ " };
            all.push(format!("    {before}{}", phase(kernel, s)));
        }
        all.push("    ∷ [])".to_string());
    }
    all.push("    ∷ []".to_string());
    all
}

pub fn shapes(kernels: &[Kernel]) -> Vec<String> {
    by_phase(kernels, |kernel, s| {
        let (high, again) = (high(&kernel.phases, s), u8::from(again(&kernel.phases, s)));
        entry([high.to_string(), again.to_string()])
    })
}

pub fn paths(kernels: &[Kernel]) -> Vec<String> {
    by_phase(kernels, |kernel, s| words(&path_rows(&kernel.phases, s)))
}

pub fn order(order: &[usize]) -> Vec<String> {
    whole(lines(order.iter().map(usize::to_string).collect(), 16))
}

pub fn partial_distances(distances: &[Vec<u32>]) -> Vec<String> {
    distances
        .iter()
        .zip(CLAUSES)
        .map(|(numbers, clause)| format!("{clause} = {}", list(numbers.iter().map(u32::to_string))))
        .collect()
}
