//! Kernel encode and kernel undo: all 65,536 words of each kernel; and its words by whole rows and bit by bit.
use std::fs;
use std::time::Instant;

use crate::library::{word_by_bits, word_by_rows, WordOutcome};
use crate::paper::{bit, Kernel};
use crate::recorded::{kernel_encode, kernel_undo};
use crate::tally::Tally;

/// Condition 1: no such kernel.
const NO_KERNEL: WordOutcome = WordOutcome {
    number: 1,
    place: 0,
    word: 0,
};

/// What the program `round_trip` must print.
const ROUND_TRIP: &str = concat!(env!("CARGO_MANIFEST_DIR"), "/../crates/round_trip/stdout");

pub fn sweep(tally: &mut Tally, kernels: &[Kernel]) {
    for kernel in kernels {
        one_to_one(tally, kernel);
        encode(tally, kernel);
        undo(tally, kernel);
        both_ways(tally, kernel);
    }
    rows(tally);
    refusals(tally);
    refused_both_ways(tally);
    round_trip(tally, kernels);
}

/// Each word is the word of one choice of symbols.
fn one_to_one(tally: &mut Tally, kernel: &Kernel) {
    let mut met = vec![0; 65536];
    for symbols in 0..=u16::MAX {
        met[usize::from(kernel_encode(kernel.number, symbols).word)] += 1;
    }
    for (word, count) in met.iter().enumerate() {
        tally.expect(
            *count == 1,
            format_args!(
                "kernel {}: {count} choices of symbols have the word {word:04x}",
                kernel.number
            ),
        );
    }
    tally.group(
        &format!("kernel {}, words one to one", kernel.number),
        65536,
    );
}

fn encode(tally: &mut Tally, kernel: &Kernel) {
    for symbols in 0..=u16::MAX {
        let want = kernel.words[usize::from(symbols)];
        let got = kernel_encode(kernel.number, symbols);
        compare(tally, "encode", kernel.number, symbols, want, got);
    }
    tally.group(&format!("kernel {}, encode", kernel.number), 65536);
}

fn undo(tally: &mut Tally, kernel: &Kernel) {
    for symbols in 0..=u16::MAX {
        let word = kernel.words[usize::from(symbols)];
        let got = kernel_undo(kernel.number, word);
        compare(tally, "undo", kernel.number, word, symbols, got);
    }
    tally.group(&format!("kernel {}, undo", kernel.number), 65536);
}

/// Each word by whole rows and bit by bit: both are the paper's. The times are of this run.
fn both_ways(tally: &mut Tally, kernel: &Kernel) {
    let number = kernel.number;
    let (rows, rows_time) = all_words(|symbols| word_by_rows(number, symbols));
    let (bits, bits_time) = all_words(|symbols| word_by_bits(number, symbols));
    for (symbols, &want) in kernel.words.iter().enumerate() {
        let (rows, bits) = (rows[symbols], bits[symbols]);
        tally.expect(
            rows == bits && rows == want,
            format_args!(
                "kernel {number}, word of {symbols:04x}: wanted {want:04x}, got {rows:04x} by whole rows and {bits:04x} bit by bit"
            ),
        );
    }
    tally.line(
        format_args!(
            "kernel {number}, each word both ways: 65536 cases, {rows_time:.2} ms by whole rows, {bits_time:.2} ms bit by bit"
        ),
        65536,
    );
}

/// The words of all symbols, each put in the place of its symbols, and how many milliseconds that took.
fn all_words(way: impl Fn(u16) -> u16) -> (Vec<u16>, f64) {
    let mut words: Vec<u16> = (0..=u16::MAX).collect();
    let start = Instant::now();
    for word in &mut words {
        *word = way(*word);
    }
    let time = start.elapsed();
    (words, time.as_secs_f64() * 1e3)
}

/// An accepted job with this word, bit by bit.
fn compare(tally: &mut Tally, job: &str, kernel: u8, input: u16, want: u16, got: WordOutcome) {
    let off = (0..16).find(|&i| bit(got.word, i) != bit(want, i));
    tally.expect(
        got.number == 0 && got.place == 0 && off.is_none(),
        format_args!(
            "kernel {kernel}, {job} {input:04x}: wanted {want:04x}, got {:04x} with number {} and place {}, first bit off {off:?}",
            got.word, got.number, got.place
        ),
    );
}

/// The bench cases: the word with only one symbol set.
fn rows(tally: &mut Tally) {
    let cases: [(u8, usize, u16); 5] = [
        (1, 9, 0xa6c0),
        (2, 8, 0xa6c0),
        (1, 10, 0x6ca0),
        (1, 5, 0xc0c0),
        (0, 5, 0xcc00),
    ];
    for (kernel, s, want) in cases {
        let symbols = 1 << (15 - s);
        let got = kernel_encode(kernel, symbols);
        compare(tally, "encode", kernel, symbols, want, got);
    }
    tally.group("bench cases of encode", cases.len() as u64);
}

/// Numbers that no kernel has.
fn refusals(tally: &mut Tally) {
    let mut cases = 0;
    for kernel in 3..=u8::MAX {
        for x in (0..=u16::MAX).step_by(257) {
            for (job, got) in [
                ("encode", kernel_encode(kernel, x)),
                ("undo", kernel_undo(kernel, x)),
            ] {
                tally.expect(
                    got == NO_KERNEL,
                    format_args!(
                        "kernel {kernel}, {job} {x:04x}: wanted {NO_KERNEL:?}, got {got:?}"
                    ),
                );
                cases += 1;
            }
        }
    }
    tally.group("kernels 3 to 255 refused", cases);
}

/// The same numbers, both ways to a word: it is 0.
fn refused_both_ways(tally: &mut Tally) {
    let mut cases = 0;
    for kernel in 3..=u8::MAX {
        for symbols in (0..=u16::MAX).step_by(257) {
            let got = [word_by_rows(kernel, symbols), word_by_bits(kernel, symbols)];
            tally.expect(
                got == [0, 0],
                format_args!(
                    "kernel {kernel}, words of {symbols:04x}: wanted 0 and 0, got {got:?}"
                ),
            );
            cases += 1;
        }
    }
    tally.group("kernels 3 to 255 refused both ways", cases);
}

/// The lines of the program `round_trip`, from the paper alone.
fn round_trip(tally: &mut Tally, kernels: &[Kernel]) {
    let mut want = Vec::new();
    for kernel in kernels {
        let digest = kernel.words.iter().fold(0, |digest: u64, &word| {
            (digest * 65599 + u64::from(word)) % 2147483647
        });
        want.push(format!(
            "kernel {}: all came back, all the same bit by bit, digest {digest}",
            kernel.number
        ));
    }
    for kernel in [3, 255] {
        want.push(format!("kernel {kernel}: encode 1 0 0, undo 1 0 0"));
    }
    match fs::read_to_string(ROUND_TRIP) {
        Ok(text) => {
            let got: Vec<&str> = text.lines().collect();
            for i in 0..want.len().max(got.len()) {
                let (want, got) = (want.get(i).map(String::as_str), got.get(i).copied());
                tally.expect(
                    want == got,
                    format_args!("round_trip, line {}: wanted {want:?}, got {got:?}", i + 1),
                );
            }
        }
        Err(error) => tally.wrong(format_args!("{ROUND_TRIP}: {error}")),
    }
    tally.group("lines of round_trip", want.len() as u64);
}
