//! Times of the jobs, and plain calls for tools that count.
use std::cmp::Reverse;
use std::hint::black_box;
use std::process::ExitCode;
use std::sync::OnceLock;
use std::thread;
use std::time::Instant;

use plain_decoder::Decoder;

use crate::frame::{bit_of, bytes, marks_at, packed};
use crate::library::{
    frame_decode, frame_encode, frame_follow, frame_undo, information_mask, kernel_encode,
    kernel_follow, kernel_follow_hadamard, kernel_undo, list_decode, part_length,
    values_from_marks, word_by_bits, word_by_rows, Plan,
};
use crate::list::with_checksum;
use crate::paper::{Kernel, PROFILES};
use crate::product::value;
use crate::random::Random;
use crate::scores::{pay, scores as kernel_scores, totals, Values, LIMIT};

/// How many different inputs a job is timed on, one after another; but for frames of three layers.
const INPUTS: usize = 256;

/// The same of these.
const FEW_INPUTS: usize = 32;

/// The bytes of a payload of one layer, two and three: k = 8, 128 and 2,048.
const PAYLOADS: [usize; 3] = [1, 16, 256];

/// The scale of the marks.
const SCALE: f32 = 32.0;

/// The library's jobs and a kernel's word by whole rows, what each is called with, and what is timed beside it.
const JOBS: [(&str, &[&str], &str); 18] = [
    ("kernel-encode", KERNELS, "-"),
    ("kernel-undo", KERNELS, "-"),
    ("word-by-rows", KERNELS, "word-by-bits"),
    ("kernel-follow", KERNELS, "sweep-follow"),
    ("kernel-hadamard", KERNELS, "kernel-follow"),
    ("frame-encode", PLANS, "-"),
    ("frame-undo", PLANS, "-"),
    ("frame-follow", PLANS, "-"),
    ("frame-decode", KERNELS, "-"),
    ("frame-decode", PAIRS, "plain-decode"),
    ("frame-decode", TRIPLES, "-"),
    ("list-decode-1", PAIRS, "frame-decode"),
    ("list-decode-2", PAIRS, "frame-decode"),
    ("list-decode-4", PAIRS, "frame-decode"),
    ("list-decode-8", PAIRS, "frame-decode"),
    ("part-length", NO_KERNEL, "-"),
    ("information-mask", NO_KERNEL, "-"),
    ("values-from-marks", NO_KERNEL, "sweep-values"),
];
/// The plans of one layer, two and three, whose kernels are alike.
const PLANS: &[&str] = &[
    "0", "1", "2", "0,0", "1,1", "2,2", "0,0,0", "1,1,1", "2,2,2",
];
const KERNELS: &[&str] = &["0", "1", "2"];
const PAIRS: &[&str] = &["0,0", "1,1", "2,2"];
const TRIPLES: &[&str] = &["0,0,0", "1,1,1", "2,2,2"];
const NO_KERNEL: &[&str] = &["-"];

/// The plan of a name: the kernels of its layers, innermost first; two layers of kernel 0 for none.
fn plan(name: &str) -> Option<Plan> {
    let name = if name == "-" { "0,0" } else { name };
    let kernels: Result<Vec<u8>, _> = name.split(',').map(str::parse).collect();
    let plan = Plan::of(&kernels.ok()?);
    (!plan.bad_layers() && !plan.no_kernel()).then_some(plan)
}

/// The inputs of all jobs. The job of a kernel takes the innermost one.
struct Inputs {
    plan: Plan,
    /// Sixteen symbols, or sixteen bits of a word.
    words: Vec<u16>,
    values: Vec<Values>,
    mask: Vec<u8>,
    /// Those of two layers end in their checksum.
    payloads: Vec<Vec<u8>>,
    /// The words of the payloads.
    frames: Vec<Vec<u8>>,
    /// These with some noise.
    received: Vec<Vec<i8>>,
    /// A frame's symbols, to be followed.
    symbols: Vec<Vec<u8>>,
    amplitudes: Vec<[f32; 256]>,
    decoder: Decoder,
    /// The sweep's tables of the inner kernel, made where they are asked for.
    kernel: OnceLock<Kernel>,
}

impl Inputs {
    fn new(plan: Plan) -> Inputs {
        let mut random = Random::new(2);
        let payload = PAYLOADS[usize::from(plan.layers) - 1];
        let mask = mask(plan, payload);
        let values = inputs(INPUTS, || {
            std::array::from_fn(|_| random.wide(-LIMIT, LIMIT))
        });
        let count = if plan.layers == 3 { FEW_INPUTS } else { INPUTS };
        let payloads = inputs(count, || {
            let payload = bytes(&mut random, payload);
            if plan.layers == 2 {
                with_checksum(&payload)
            } else {
                payload
            }
        });
        let amplitudes = inputs(INPUTS, || {
            std::array::from_fn(|_| f32::from(random.between(-4096, 4096)) / 1024.0)
        });
        let symbols = inputs(count, || bytes(&mut random, plan.bytes()));
        let word = |payload: &Vec<u8>| {
            let mut word = vec![0; plan.bytes()];
            frame_encode(plan, &mask, payload, &mut word);
            word
        };
        let frames: Vec<Vec<u8>> = payloads.iter().map(word).collect();
        Inputs {
            plan,
            words: (0..INPUTS).map(|i| (i * 40503 % 65536) as u16).collect(),
            values,
            payloads,
            received: frames.iter().map(|word| received(word)).collect(),
            frames,
            symbols,
            amplitudes,
            mask,
            decoder: Decoder::new(),
            kernel: OnceLock::new(),
        }
    }

    /// Calls a job, or what is timed beside it, `count` times. False where there is none of this name. The functions below
    /// are not inlined, so that the stack of a job has nothing of another.
    fn run(&self, job: &str, count: u64) -> bool {
        let out = &mut Outputs::new(self.plan);
        self.kernel_job(job, count, out)
            || self.word_job(job, count, out)
            || self.value_job(job, count, out)
            || self.list_job(job, count, out)
            || self.other_job(job, count, out)
            || self.plain_job(job, count, out)
            || self.sweep_job(job, count, out)
    }

    /// The jobs of one kernel, and both ways to its word.
    #[inline(never)]
    fn kernel_job(&self, job: &str, count: u64, out: &mut Outputs) -> bool {
        let (kernel, scores) = (self.plan.kernels[0], &mut out.sixteen);
        match job {
            "kernel-encode" => each(count, |i| {
                black_box(kernel_encode(kernel, self.words[i]));
            }),
            "kernel-undo" => each(count, |i| {
                black_box(kernel_undo(kernel, self.words[i]));
            }),
            "word-by-rows" => each(count, |i| {
                black_box(word_by_rows(kernel, self.words[i]));
            }),
            "word-by-bits" => each(count, |i| {
                black_box(word_by_bits(kernel, self.words[i]));
            }),
            "kernel-follow" => each(count, |i| {
                let (y, symbols) = (&self.values[i], self.words[i]);
                black_box(kernel_follow(kernel, y, symbols, &mut scores[..]));
                black_box(&mut *scores);
            }),
            "kernel-hadamard" => each(count, |i| {
                let (y, symbols) = (&self.values[i], self.words[i]);
                black_box(kernel_follow_hadamard(kernel, y, symbols, &mut scores[..]));
                black_box(&mut *scores);
            }),
            _ => return false,
        }
        true
    }

    /// Between payloads and the words of frames.
    #[inline(never)]
    fn word_job(&self, job: &str, count: u64, out: &mut Outputs) -> bool {
        let (plan, mask) = (self.plan, &self.mask);
        let bytes = &mut out.bytes;
        match job {
            "frame-encode" => each_of(&self.payloads, count, |payload, _| {
                black_box(frame_encode(plan, mask, payload, bytes));
                black_box(&mut *bytes);
            }),
            "frame-undo" => each_of(&self.frames, count, |word, _| {
                black_box(frame_undo(plan, mask, word, bytes));
                black_box(&mut *bytes);
            }),
            _ => return false,
        }
        true
    }

    /// From a frame's values.
    #[inline(never)]
    fn value_job(&self, job: &str, count: u64, out: &mut Outputs) -> bool {
        let (plan, mask) = (self.plan, &self.mask);
        #[rustfmt::skip]
        let Outputs { scores, penalties, bytes, .. } = out;
        match job {
            "frame-follow" => each_of(&self.received, count, |values, i| {
                let symbols = &self.symbols[i];
                black_box(frame_follow(plan, values, symbols, scores, penalties));
                black_box((&mut *scores, &mut *penalties));
            }),
            "frame-decode" => each_of(&self.received, count, |values, _| {
                black_box(frame_decode(plan, values, mask, scores, penalties, bytes));
                black_box((&mut *scores, &mut *penalties, &mut *bytes));
            }),
            _ => return false,
        }
        true
    }

    /// List decode; the name ends in the length of the list.
    #[inline(never)]
    #[rustfmt::skip]
    fn list_job(&self, job: &str, count: u64, out: &mut Outputs) -> bool {
        let Some(list) = job.strip_prefix("list-decode-").and_then(|list| list.parse().ok()) else {
            return false;
        };
        let (plan, mask) = (self.plan, &self.mask);
        let Outputs { scratch, bytes, .. } = out;
        each_of(&self.received, count, |values, _| {
            black_box(list_decode(plan, list, values, mask, scratch, bytes));
            black_box((&mut *scratch, &mut *bytes));
        });
        true
    }

    /// Masks, and marks.
    #[inline(never)]
    fn other_job(&self, job: &str, count: u64, out: &mut Outputs) -> bool {
        let Outputs { values, bytes, .. } = out;
        match job {
            "part-length" => each(count, |_| {
                black_box(part_length(self.plan, black_box(&self.mask), bytes.len()));
            }),
            "information-mask" => each(count, |_| {
                black_box(information_mask(PAYLOADS[1], bytes));
                black_box(&mut *bytes);
            }),
            "values-from-marks" => each(count, |i| {
                let amplitudes = &self.amplitudes[i];
                black_box(values_from_marks(
                    SCALE,
                    amplitudes,
                    &[0; 16],
                    &mut values[..],
                ));
                black_box(&mut *values);
            }),
            _ => return false,
        }
        true
    }

    /// The plain decoder, which is for two layers.
    #[inline(never)]
    #[rustfmt::skip]
    fn plain_job(&self, job: &str, count: u64, out: &mut Outputs) -> bool {
        let ([inner, outer, _], Ok(mask)) = (self.plan.kernels, self.mask[..].try_into()) else {
            return false;
        };
        let Outputs { narrow_scores, narrow_penalties, bytes, .. } = out;
        match job {
            "plain-decode" => each_of(&self.received, count, |values, _| {
                let values: &[i8; 256] = values[..].try_into().unwrap();
                black_box(self.decoder.frame_decode(inner, outer, values, mask, narrow_scores, narrow_penalties, bytes));
                black_box((&mut *narrow_scores, &mut *narrow_penalties, &mut *bytes));
            }),
            _ => return false,
        }
        true
    }

    /// The sweep's own ways.
    #[inline(never)]
    fn sweep_job(&self, job: &str, count: u64, out: &mut Outputs) -> bool {
        let values = &mut out.values;
        match job {
            "sweep-follow" => {
                let kernel = self
                    .kernel
                    .get_or_init(|| Kernel::new(self.plan.kernels[0]));
                let mut paid = Vec::new();
                each(count, |i| {
                    totals(kernel, &self.values[i], pay, &mut paid);
                    black_box(kernel_scores(&paid, self.words[i]));
                });
            }
            "sweep-values" => each(count, |i| {
                let scale = SCALE.to_bits();
                **values = self.amplitudes[i].map(|amplitude| value(scale, amplitude.to_bits()));
                black_box(&mut *values);
            }),
            _ => return false,
        }
        true
    }
}

/// What the jobs write to; it is not on the stack.
struct Outputs {
    /// The scores of a kernel.
    sixteen: Box<[i32; 16]>,
    scores: Vec<i32>,
    penalties: Vec<u32>,
    /// Those of the plain decoder.
    narrow_scores: Box<[i16; 256]>,
    narrow_penalties: Box<[u16; 256]>,
    values: Box<[i8; 256]>,
    bytes: Vec<u8>,
    /// Lent to list decode.
    scratch: Vec<u8>,
}

impl Outputs {
    fn new(plan: Plan) -> Outputs {
        Outputs {
            sixteen: Box::new([0; 16]),
            scores: vec![0; plan.symbols()],
            penalties: vec![0; plan.symbols()],
            narrow_scores: Box::new([0; 256]),
            narrow_penalties: Box::new([0; 256]),
            values: Box::new([0; 256]),
            bytes: vec![0; plan.bytes()],
            scratch: vec![0; 8192],
        }
    }
}

/// The mask of a payload of so many bytes: the information mask for two layers; for others the phases of greatest product of the
/// layers' profile numbers, equal products by falling phase, as the order of the information mask has it for two.
fn mask(plan: Plan, payload: usize) -> Vec<u8> {
    if plan.layers == 2 {
        let mut mask = vec![0; plan.bytes()];
        information_mask(payload, &mut mask);
        return mask;
    }
    let profiles = plan.layers_of(&PROFILES);
    let product = |phase: usize| -> u32 {
        let digits = profiles.iter().enumerate();
        digits
            .map(|(l, profile)| profile[(phase >> (4 * l)) & 15])
            .product()
    };
    let mut phases: Vec<usize> = (0..plan.symbols()).collect();
    phases.sort_by_key(|&phase| Reverse((product(phase), phase)));
    packed(&marks_at(&phases[..8 * payload], plan.symbols()))
}

/// As many inputs as a job is timed on.
fn inputs<T>(count: usize, one: impl FnMut() -> T) -> Vec<T> {
    std::iter::repeat_with(one).take(count).collect()
}

/// Calls with the numbers of the inputs, one after another.
fn each(count: u64, mut call: impl FnMut(usize)) {
    for turn in 0..count {
        call(turn as usize % INPUTS);
    }
}

/// Calls with the inputs themselves, of a frame, and their numbers.
fn each_of<T>(inputs: &[Vec<T>], count: u64, mut call: impl FnMut(&[T], usize)) {
    for turn in 0..count {
        let i = turn as usize % inputs.len();
        call(&inputs[i], i);
    }
}

/// The values of a word received with some noise.
fn received(word: &[u8]) -> Vec<i8> {
    let mut random = Random::new(u64::from(word[0]));
    (0..8 * word.len())
        .map(|i| {
            let y = random.between(-30, 100) as i8;
            if bit_of(word, i) {
                -y
            } else {
                y
            }
        })
        .collect()
}

/// Nanoseconds of one call: the least of nine rounds.
fn nanoseconds(inputs: &Inputs, job: &str) -> f64 {
    let calls = match job {
        "kernel-encode" | "kernel-undo" | "word-by-rows" => 1_000_000,
        "frame-follow" | "frame-decode" if inputs.plan.layers == 3 => FEW_INPUTS as u64,
        "frame-follow" | "frame-decode" | "plain-decode" => 500,
        "frame-encode" | "frame-undo" if inputs.plan.layers == 3 => 1000,
        "sweep-follow" | "sweep-values" => INPUTS as u64,
        _ if job.starts_with("list-decode-") => INPUTS as u64,
        _ => 10_000,
    };
    (0..9)
        .map(|_| {
            let start = Instant::now();
            inputs.run(job, calls);
            start.elapsed().as_secs_f64() * 1e9 / calls as f64
        })
        .fold(f64::INFINITY, f64::min)
}

/// One line for each job and kernel: nanoseconds of a call; what is timed beside it, and its nanoseconds.
pub fn times() -> ExitCode {
    println!("job kernel ns beside beside-ns");
    for (job, kernels, beside) in JOBS {
        for kernel in kernels {
            let inputs = Inputs::new(plan(kernel).unwrap());
            print!("{job} {kernel} {:.1} {beside} ", nanoseconds(&inputs, job));
            if beside == "-" {
                println!("-");
            } else {
                println!("{:.1}", nanoseconds(&inputs, beside));
            }
        }
    }
    ExitCode::SUCCESS
}

/// Only the calls, in a thread of their own, for tools that count their instructions or measure their stack.
pub fn calls(job: &str, kernel: &str, count: &str) -> ExitCode {
    let ran = match (plan(kernel), count.parse()) {
        (Some(plan), Ok(count)) => {
            let inputs = Inputs::new(plan);
            thread::scope(|scope| scope.spawn(|| inputs.run(job, count)).join().unwrap())
        }
        _ => false,
    };
    if ran {
        ExitCode::SUCCESS
    } else {
        let jobs: Vec<&str> = JOBS
            .iter()
            .flat_map(|&(job, _, beside)| [job, beside])
            .filter(|&job| job != "-")
            .collect();
        eprintln!("sweep calls JOB KERNEL COUNT: JOB is one of {jobs:?}");
        ExitCode::from(2)
    }
}
