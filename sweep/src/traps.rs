//! Mistaken ways to score. Each is told from the true one by a named case, and by cases among the random ones.
use crate::paper::{bit, Kernel, RELATIONS};
use crate::recorded::kernel_follow;
use crate::scores::{pay, score, scores, totals, Values};
use crate::tally::Tally;

/// Mistake: v9 taken as fixed at phase 7 of kernel 2, at the value of u6 = v6 + v9, whatever v6 is.
fn v9_fixed(kernel: &Kernel, totals: &[i64], symbols: u16) -> i64 {
    let start = usize::from(symbols) / 1024 * 1024;
    let best_score = |next: bool| -> i64 {
        (start..start + 1024)
            .filter(|&u| bit(u as u16, 7) == next && bit(kernel.vs[u], 9) == bit(symbols, 6))
            .map(|u| -totals[u])
            .max()
            .unwrap()
    };
    best_score(false) - best_score(true)
}

/// Mistake: the kept row of the symbol that was not chosen at the phase before.
fn other_row(totals: &[i64], symbols: u16, phase: usize) -> i64 {
    score(totals, symbols ^ (1 << (16 - phase)), phase)
}

/// Whether a phase can work on with a kept row: its relation reaches no v beyond those of the phases before.
fn keeps_row(kernel: u8, phase: usize) -> bool {
    let highest = |phases: &[&[usize]]| phases.concat().into_iter().max();
    let relations = &RELATIONS[usize::from(kernel)];
    highest(&relations[..=phase]) == highest(&relations[..phase])
}

/// Mistake: a zero value pays 1 for bit 1.
fn pay_for_zero(y: i32, bit: bool) -> i64 {
    if y == 0 && bit {
        1
    } else {
        pay(y, bit)
    }
}

/// Mistake: what a word pays, kept in sixteen bits.
fn narrow_totals(totals: &[i64]) -> Vec<i64> {
    totals.iter().map(|&t| i64::from(t as u16)).collect()
}

/// Mistake: a score written as sixteen bits.
fn narrow_score(score: i64) -> i64 {
    i64::from(score as i16)
}

enum Mistake {
    V9Fixed,
    OtherRow,
    ZeroPays,
    NarrowTotals,
    NarrowScore,
}

/// A case with its true score at a phase and the score by the mistake.
struct Named {
    mistake: Mistake,
    kernel: u8,
    values: Values,
    symbols: u16,
    phase: usize,
    truth: i64,
    mistaken: i64,
}

#[rustfmt::skip]
const NAMED: [Named; 13] = [
    Named { mistake: Mistake::V9Fixed, kernel: 2, values: [-1, 0, 0, 0, 0, 0, 0, -1, 0, 0, 0, 1, 1, 0, 0, 0], symbols: 0, phase: 7, truth: 0, mistaken: 1 },
    Named { mistake: Mistake::V9Fixed, kernel: 2, values: [2, 1, 0, 0, 2, 0, 0, 1, 1, -1, 0, 1, 0, 0, 0, 0], symbols: 0x0200, phase: 7, truth: 1, mistaken: -1 },
    Named { mistake: Mistake::OtherRow, kernel: 1, values: [0, -1, -1, 2, 0, 0, 0, 1, 0, 2, 0, 0, 0, 0, -1, 0], symbols: 0, phase: 7, truth: -1, mistaken: 1 },
    Named { mistake: Mistake::OtherRow, kernel: 1, values: [1, 0, 0, 0, 0, 0, 0, -1, 0, 0, -1, 0, 0, -1, 0, 0], symbols: 0, phase: 10, truth: -1, mistaken: 1 },
    Named { mistake: Mistake::OtherRow, kernel: 2, values: [-1, 0, 0, 0, 0, 0, 0, -1, 0, 0, 0, 1, 1, 0, 0, 0], symbols: 0, phase: 8, truth: 1, mistaken: -1 },
    Named { mistake: Mistake::OtherRow, kernel: 2, values: [0, 0, 0, 0, 1, 0, 1, 0, 0, 0, 0, 0, 1, 0, 1, 0], symbols: 0, phase: 9, truth: 1, mistaken: -1 },
    Named { mistake: Mistake::ZeroPays, kernel: 0, values: [0; 16], symbols: 0, phase: 15, truth: 0, mistaken: 16 },
    Named { mistake: Mistake::ZeroPays, kernel: 1, values: [0; 16], symbols: 0, phase: 9, truth: 0, mistaken: 6 },
    Named { mistake: Mistake::ZeroPays, kernel: 2, values: [0; 16], symbols: 0, phase: 8, truth: 0, mistaken: 6 },
    Named { mistake: Mistake::ZeroPays, kernel: 2, values: [0, 0, 0, 0, 0, 0, 0, 5, 0, 0, 0, 0, 0, 0, 0, 0], symbols: 0, phase: 15, truth: 5, mistaken: 20 },
    Named { mistake: Mistake::NarrowTotals, kernel: 0, values: [32767; 16], symbols: 0, phase: 15, truth: 524_272, mistaken: 65_520 },
    Named { mistake: Mistake::NarrowScore, kernel: 1, values: [32767; 16], symbols: 0, phase: 15, truth: 524_272, mistaken: -16 },
    Named { mistake: Mistake::NarrowScore, kernel: 2, values: [2048; 16], symbols: 0, phase: 15, truth: 32_768, mistaken: -32_768 },
];

pub fn named(tally: &mut Tally, kernels: &[Kernel]) {
    let (mut paid, mut mistaken_paid) = (Vec::new(), Vec::new());
    for case in &NAMED {
        let &Named {
            kernel,
            values,
            symbols,
            phase,
            ..
        } = case;
        let tables = &kernels[usize::from(kernel)];
        totals(tables, &values, pay, &mut paid);
        totals(tables, &values, pay_for_zero, &mut mistaken_paid);
        let truth = score(&paid, symbols, phase);
        let mistaken = match case.mistake {
            Mistake::V9Fixed => v9_fixed(tables, &paid, symbols),
            Mistake::OtherRow => other_row(&paid, symbols, phase),
            Mistake::ZeroPays => score(&mistaken_paid, symbols, phase),
            Mistake::NarrowTotals => score(&narrow_totals(&paid), symbols, phase),
            Mistake::NarrowScore => narrow_score(truth),
        };
        let mut got = [i32::MIN; 16];
        let outcome = kernel_follow(kernel, &values, symbols, &mut got);
        let got = i64::from(got[phase]);
        tally.expect(
            outcome.number == 0
                && got == case.truth
                && truth == case.truth
                && mistaken == case.mistaken,
            format_args!(
                "kernel {kernel}, values {values:?}, symbols {symbols:016b}, phase {phase}: wanted {}, got {got}, \
                 {outcome:?}; the sweep has {truth}, and {mistaken} by the mistake",
                case.truth
            ),
        );
    }
    tally.group("traps, named cases", NAMED.len() as u64);
}

/// How many cases were tried, and how many of them tell a mistake from the truth.
#[derive(Clone, Copy, Default)]
pub struct Told {
    tried: u64,
    apart: u64,
}

impl Told {
    pub fn case(&mut self, apart: bool) {
        self.tried += 1;
        self.apart += u64::from(apart);
    }

    /// Some case tells the mistake.
    pub fn report(&self, tally: &mut Tally, name: &str) {
        let Told { tried, apart } = self;
        tally.expect(
            *apart > 0,
            format_args!("trap, {name}: told by none of {tried} cases"),
        );
        tally.line(
            format_args!("trap, {name}: told by {apart} of {tried} cases"),
            1,
        );
    }
}

/// The mistakes over the random cases.
#[derive(Default)]
pub struct Traps {
    v9_fixed: Told,
    /// By kernel and phase.
    other_row: [[Told; 16]; 3],
    /// By kernel.
    zero_pays: [Told; 3],
    narrow_totals: Told,
    narrow_score: Told,
    scratch: Vec<i64>,
}

impl Traps {
    /// One case with its true totals and scores.
    pub fn watch(
        &mut self,
        kernel: &Kernel,
        values: &Values,
        symbols: u16,
        true_totals: &[i64],
        true_scores: &[i64; 16],
    ) {
        let k = usize::from(kernel.number);
        if kernel.number == 2 {
            let mistaken = v9_fixed(kernel, true_totals, symbols);
            self.v9_fixed.case(mistaken != true_scores[7]);
        }
        for (phase, &truth) in true_scores.iter().enumerate().skip(1) {
            if keeps_row(kernel.number, phase) {
                let mistaken = other_row(true_totals, symbols, phase);
                self.other_row[k][phase].case(mistaken != truth);
            }
        }
        if values.contains(&0) {
            totals(kernel, values, pay_for_zero, &mut self.scratch);
            self.zero_pays[k].case(scores(&self.scratch, symbols) != *true_scores);
        }
        let narrow = scores(&narrow_totals(true_totals), symbols);
        self.narrow_totals.case(narrow != *true_scores);
        self.narrow_score
            .case(true_scores.map(narrow_score) != *true_scores);
    }

    pub fn report(&self, tally: &mut Tally) {
        self.v9_fixed
            .report(tally, "v9 fixed at phase 7 of kernel 2");
        for (kernel, rows) in (0..3).zip(&self.other_row) {
            for (phase, told) in rows.iter().enumerate().skip(1) {
                if keeps_row(kernel, phase) {
                    let name =
                        format!("the other symbol's row at phase {phase} of kernel {kernel}");
                    told.report(tally, &name);
                }
            }
        }
        for (kernel, told) in self.zero_pays.iter().enumerate() {
            told.report(tally, &format!("a zero value that pays, kernel {kernel}"));
        }
        self.narrow_totals
            .report(tally, "what a word pays kept in sixteen bits");
        self.narrow_score
            .report(tally, "scores written as sixteen bits");
    }
}
