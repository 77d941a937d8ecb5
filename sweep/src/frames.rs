//! Frame encode, frame undo, the payload part's length and the information mask.
use std::fs;

use crate::frame::{
    bit_by_sum, bytes, marks_at, ones, order, packed, placed, symbols, taken, unpacked, word,
};
use crate::library::{Outcome, Plan};
use crate::paper::Kernel;
use crate::plan::{of_layers, LAYERS};
use crate::random::Random;
use crate::recorded::{
    frame_encode, frame_undo, information_mask, kernel_encode, kernel_undo, part_length,
};
use crate::tally::Tally;

/// What an output buffer holds before a call.
const UNTOUCHED: u8 = 0x5a;

/// How much longer than needed it is.
const SPARE: usize = 4;

/// What the program `frame_cases` must print.
const FRAME_CASES: &str = concat!(env!("CARGO_MANIFEST_DIR"), "/../crates/frame_cases/stdout");

pub fn sweep(tally: &mut Tally, kernels: &[Kernel]) {
    let mut random = Random::new(3);
    sums(tally, kernels, &mut random);
    for layers in 1..=LAYERS {
        round_trips(tally, kernels, &mut random, layers);
        damage(tally, kernels, &mut random, layers);
        frozen_ones(tally, kernels, layers);
        ends(tally, kernels, &mut random, layers);
        no_kernel(tally, kernels, &mut random, layers);
        lengths(tally, kernels, &mut random, layers);
        at_once(tally, kernels, &mut random, layers);
        requests(tally, kernels, &mut random, layers);
    }
    one_layer(tally);
    refused_layers(tally, kernels, &mut random);
    parts(tally, &mut random);
    masks(tally, kernels);
    frame_cases(tally, kernels);
}

/// One call: its outcome, and its buffer afterwards.
type Done = (Outcome, Vec<u8>);

fn accepted(new: &[u8], room: usize) -> Done {
    let mut buffer = vec![UNTOUCHED; room];
    buffer[..new.len()].copy_from_slice(new);
    (
        Outcome {
            number: 0,
            place: 0,
        },
        buffer,
    )
}

fn refused(number: u32, place: usize, room: usize) -> Done {
    (Outcome { number, place }, vec![UNTOUCHED; room])
}

/// What a job must leave: the refusal of the first condition that holds, or its output.
fn settled(conditions: &[(bool, u32)], room: usize, job: impl Fn() -> Done) -> Done {
    match conditions.iter().find(|(holds, _)| *holds) {
        Some(&(_, number)) => refused(number, 0, room),
        None => job(),
    }
}

fn call(room: usize, job: impl FnOnce(&mut [u8]) -> Outcome) -> Done {
    let mut buffer = vec![UNTOUCHED; room];
    let outcome = job(&mut buffer);
    (outcome, buffer)
}

/// A request of frame encode or frame undo.
#[derive(Clone)]
struct Request {
    plan: Plan,
    mask: Vec<u8>,
    /// The payload to encode, or the word to undo.
    input: Vec<u8>,
    room: usize,
}

impl Request {
    fn marked(&self) -> usize {
        ones(&self.mask)
    }

    fn bad_mask(&self) -> bool {
        self.marked() == 0 || self.marked() % 8 != 0
    }

    /// What frame encode must leave.
    fn encoded(&self, kernels: &[Kernel]) -> Done {
        let plan = self.plan;
        let conditions = [
            (plan.bad_layers(), 14),
            (plan.no_kernel(), 1),
            (self.mask.len() != plan.bytes(), 2),
            (self.bad_mask(), 3),
            (self.input.len() != self.marked() / 8, 4),
            (self.room < plan.bytes(), 5),
        ];
        settled(&conditions, self.room, || {
            let symbols = placed(&unpacked(&self.mask), &self.input);
            let word = word(&plan.layers_of(kernels), &symbols);
            accepted(&packed(&word), self.room)
        })
    }

    /// What frame undo must leave.
    fn undone(&self, kernels: &[Kernel]) -> Done {
        let plan = self.plan;
        let wrong_length = |bytes: &[u8]| bytes.len() != plan.bytes();
        let conditions = [
            (plan.bad_layers(), 14),
            (plan.no_kernel(), 1),
            (wrong_length(&self.mask) || wrong_length(&self.input), 2),
            (self.bad_mask(), 3),
            (self.room < self.marked() / 8, 5),
        ];
        settled(&conditions, self.room, || {
            let mask = unpacked(&self.mask);
            let symbols = symbols(&plan.layers_of(kernels), &unpacked(&self.input));
            match (0..plan.symbols()).find(|&i| symbols[i] && !mask[i]) {
                Some(phase) => refused(9, phase, self.room),
                None => accepted(&taken(&mask, &symbols), self.room),
            }
        })
    }

    fn encode(&self) -> Done {
        call(self.room, |word| {
            frame_encode(self.plan, &self.mask, &self.input, word)
        })
    }

    fn undo(&self) -> Done {
        call(self.room, |payload| {
            frame_undo(self.plan, &self.mask, &self.input, payload)
        })
    }

    fn compare(&self, tally: &mut Tally, job: &str, want: &Done, got: &Done) {
        tally.expect(
            want == got,
            format_args!(
                "{job}, {:?}, mask {:02x?}, input {:02x?}, room {}: wanted {want:02x?}, got {got:02x?}",
                self.plan, self.mask, self.input, self.room
            ),
        );
    }

    /// The request as one of frame encode. What it must leave.
    fn compare_encoded(&self, tally: &mut Tally, what: &str, kernels: &[Kernel]) -> Done {
        let want = self.encoded(kernels);
        self.compare(tally, &format!("encode, {what}"), &want, &self.encode());
        want
    }

    /// The request as one of frame undo. What it must leave.
    fn compare_undone(&self, tally: &mut Tally, what: &str, kernels: &[Kernel]) -> Done {
        let want = self.undone(kernels);
        self.compare(tally, &format!("undo, {what}"), &want, &self.undo());
        want
    }
}

/// One of some numbers of cases: for one layer, two and three.
fn turns_of(layers: u8, turns: [usize; 3]) -> usize {
    turns[usize::from(layers) - 1]
}

/// A mask that is taken: some multiple of 8 phases, dense or sparse.
fn mask(random: &mut Random, plan: Plan) -> Vec<u8> {
    let one_in = random.between(1, 8);
    let mut marks: Vec<bool> = (0..plan.symbols())
        .map(|_| random.once_in(one_in))
        .collect();
    while !marks.contains(&true) || marks.iter().filter(|&&marked| marked).count() % 8 != 0 {
        marks[place(random, plan.symbols())] ^= true;
    }
    packed(&marks)
}

/// One of some places.
fn place(random: &mut Random, count: usize) -> usize {
    random.wide(0, count as i32 - 1) as usize
}

/// A request of frame encode that is accepted.
fn request(random: &mut Random, plan: Plan) -> Request {
    let mask = mask(random, plan);
    Request {
        plan,
        input: bytes(random, ones(&mask) / 8),
        mask,
        room: plan.bytes() + SPARE,
    }
}

/// The same with any plan of some layers.
fn any_request(random: &mut Random, layers: u8) -> Request {
    let plan = Plan::any(random, layers);
    request(random, plan)
}

/// The request of frame undo for the word of a request of frame encode.
fn back(request: &Request, word: &[u8]) -> Request {
    Request {
        plan: request.plan,
        mask: request.mask.clone(),
        input: word[..request.plan.bytes()].to_vec(),
        room: request.input.len() + SPARE,
    }
}

/// Words of all plans, every bit by the sum over all digits.
fn sums(tally: &mut Tally, kernels: &[Kernel], random: &mut Random) {
    let mut cases = 0;
    for layers in 1..=LAYERS {
        let each = turns_of(layers, [32, 50, 1]);
        for number in 0..each * Plan::count(layers) {
            let plan = Plan::number(layers, number);
            let (n, layers) = (plan.symbols(), plan.layers_of(kernels));
            let there = Request {
                plan,
                mask: vec![0xff; plan.bytes()],
                input: bytes(random, plan.bytes()),
                room: plan.bytes() + SPARE,
            };
            let symbols = unpacked(&there.input);
            let sum: Vec<bool> = (0..n).map(|i| bit_by_sum(&layers, &symbols, i)).collect();
            let want = accepted(&packed(&sum), there.room);
            there.compare(tally, "encode, by the sum", &want, &there.encode());
            tally.expect(
                sum == word(&layers, &symbols),
                format_args!("{plan:?}: the sum over all digits and that of whole rows differ"),
            );
            cases += 1;
        }
    }
    tally.group(
        "frames of all plans, words by the sum over all digits",
        cases,
    );
}

/// Random plans, masks and payloads: the word by the sum, and the payload again.
fn round_trips(tally: &mut Tally, kernels: &[Kernel], random: &mut Random, layers: u8) {
    let turns = turns_of(layers, [450, 450, 108]);
    for turn in 0..turns {
        let there = request(random, Plan::number(layers, turn));
        let (_, word) = there.compare_encoded(tally, "there", kernels);
        let here = back(&there, &word);
        let payload = accepted(&there.input, here.room);
        here.compare(tally, "undo, and back", &payload, &here.undo());
    }
    let name = of_layers(layers, "frames of all plans, there and back");
    tally.group(&name, 2 * turns as u64);
}

/// Single bits of some words damaged, every one of them but for three layers, and words at random.
fn damage(tally: &mut Tally, kernels: &[Kernel], random: &mut Random, layers: u8) {
    let mut cases = 0;
    let mut other = 0;
    for number in 0..Plan::count(layers) {
        let plan = Plan::number(layers, number);
        let mut there = request(random, plan);
        if number % 3 == 1 {
            // All phases marked: every word is that of a payload.
            there.mask.fill(0xff);
            there.input = bytes(random, plan.bytes());
        }
        let (_, word) = there.encoded(kernels);
        let (first, step) = if layers == LAYERS {
            (number, 255)
        } else {
            (0, 1)
        };
        for place in (first..plan.symbols()).step_by(step) {
            let mut here = back(&there, &word);
            here.input[place / 8] ^= 0x80 >> (place % 8);
            let want = here.compare_undone(tally, "a damaged word", kernels);
            other += u64::from(want.0.number == 0);
            cases += 1;
        }
        for _ in 0..turns_of(layers, [20, 20, 4]) {
            let mut here = back(&there, &word);
            here.input = bytes(random, plan.bytes());
            here.compare_undone(tally, "any word", kernels);
            cases += 1;
        }
    }
    tally.group(&of_layers(layers, "damaged words"), cases);
    tally.line(
        format_args!("of them, undone to another payload: {other}"),
        0,
    );
}

/// The only symbol 1 at each phase, unmarked with seven others; then with the highest of these at 1 as well. Of three layers
/// some phases, with all digits.
fn frozen_ones(tally: &mut Tally, kernels: &[Kernel], layers: u8) {
    let mut cases = 0;
    let step = turns_of(layers, [1, 1, 13]);
    for phase in (0..Plan::number(layers, 0).symbols()).step_by(step) {
        let plan = Plan::number(layers, phase / step);
        let n = plan.symbols();
        // An odd step, so that they are different ones.
        let unmarked: Vec<usize> = (0..8).map(|i| (phase + (n / 8 - 1) * i) % n).collect();
        let highest = *unmarked.iter().max().unwrap();
        for other in [phase, highest] {
            let symbols: Vec<bool> = (0..n).map(|i| i == phase || i == other).collect();
            let marks: Vec<bool> = (0..n).map(|i| !unmarked.contains(&i)).collect();
            let here = Request {
                plan,
                mask: packed(&marks),
                input: packed(&word(&plan.layers_of(kernels), &symbols)),
                room: plan.bytes() - 1 + SPARE,
            };
            let want = refused(9, phase, here.room);
            here.compare(tally, "undo of a frozen one", &want, &here.undo());
            cases += 1;
        }
    }
    let name = of_layers(layers, "an unmarked symbol 1 at every phase");
    tally.group(&name, cases);
}

/// k = 8 at the first phases and at the last ones, and k = 16 to the power of the layers; into buffers just long enough, longer
/// by one and much longer.
fn ends(tally: &mut Tally, kernels: &[Kernel], random: &mut Random, layers: u8) {
    let mut cases = 0;
    for number in 0..Plan::count(layers) {
        let plan = Plan::number(layers, number);
        let last = plan.bytes() - 1;
        for marked in [0..=0, last..=last, 0..=last] {
            let mut mask = vec![0; plan.bytes()];
            mask[marked.clone()].fill(0xff);
            for spare in [0, 1, 1000] {
                let there = Request {
                    plan,
                    mask: mask.clone(),
                    input: bytes(random, marked.clone().count()),
                    room: plan.bytes() + spare,
                };
                let (_, word) = there.compare_encoded(tally, "an end", kernels);
                let mut here = back(&there, &word);
                here.room = there.input.len() + spare;
                let want = accepted(&there.input, here.room);
                here.compare(tally, "undo, an end", &want, &here.undo());
                cases += 2;
            }
        }
    }
    let name = of_layers(layers, "encode and undo, the least k and the greatest");
    tally.group(&name, cases);
}

/// Numbers that no kernel has, in each layer and in all, alone and with every other fault; and in a layer that is not used, where
/// they are not looked at.
fn no_kernel(tally: &mut Tally, kernels: &[Kernel], random: &mut Random, layers: u8) {
    let mut cases = 0;
    let step = turns_of(layers, [1, 1, 9]);
    for kernel in (3..=u8::MAX).step_by(step) {
        for layer in 0..=usize::from(LAYERS) {
            let mut there = any_request(random, layers);
            match there.plan.kernels.get_mut(layer) {
                Some(other) => *other = kernel,
                None => there.plan.kernels = [kernel; 3],
            }
            let mut here = back(&there, &vec![0; there.plan.bytes()]);
            for _ in 0..2 {
                there.compare_encoded(tally, "no kernel", kernels);
                here.compare_undone(tally, "no kernel", kernels);
                cases += 2;
                for request in [&mut there, &mut here] {
                    request.mask.truncate(request.plan.bytes() - 1);
                    request.mask.fill(0);
                    request.input.push(0);
                    request.room = 0;
                }
            }
        }
    }
    let name = of_layers(layers, "encode and undo, numbers of kernels");
    tally.group(&name, cases);
}

/// Every count of layers that is refused, alone, with no kernel and with every other fault; with the lengths of one layer, two and
/// three.
fn refused_layers(tally: &mut Tally, kernels: &[Kernel], random: &mut Random) {
    let mut cases = 0;
    for layers in (0..=u8::MAX).filter(|layers| !(1..=LAYERS).contains(layers)) {
        for like in 1..=LAYERS {
            let mut there = any_request(random, like);
            let mut here = back(&there, &vec![0; there.plan.bytes()]);
            for request in [&mut there, &mut here] {
                request.plan.kernels = Plan::any(random, LAYERS).kernels;
                request.plan.layers = layers;
            }
            for _ in 0..3 {
                there.compare_encoded(tally, "refused layers", kernels);
                here.compare_undone(tally, "refused layers", kernels);
                cases += 2;
                for request in [&mut there, &mut here] {
                    if request.plan.no_kernel() {
                        request.mask.clear();
                        request.input.push(0);
                        request.room = 0;
                    }
                    request.plan.kernels = [3, 255, 4];
                }
            }
        }
    }
    tally.group("encode and undo, layers 0 and 4 to 255 refused", cases);
}

/// One layer is the kernel by itself: words and symbols are those of kernel encode and kernel undo.
fn one_layer(tally: &mut Tally) {
    let mut cases = 0;
    for kernel in 0..3 {
        for sixteen in (0..=u16::MAX).step_by(7) {
            let request = Request {
                plan: Plan::of(&[kernel]),
                mask: vec![0xff; 2],
                input: sixteen.to_be_bytes().to_vec(),
                room: 2,
            };
            for (job, got, want) in [
                ("encode", request.encode(), kernel_encode(kernel, sixteen)),
                ("undo", request.undo(), kernel_undo(kernel, sixteen)),
            ] {
                let want = accepted(&want.word.to_be_bytes(), 2);
                request.compare(tally, job, &want, &got);
                cases += 1;
            }
        }
    }
    tally.group("one layer, as kernel encode and kernel undo", cases);
}

/// Every combination of lengths, right and wrong, with a mask that is taken, one of all phases but one and one of none.
fn lengths(tally: &mut Tally, kernels: &[Kernel], random: &mut Random, layers: u8) {
    let mut cases = 0;
    let all = Plan::number(layers, 0).bytes();
    // The right one, one off, and what is right for other layers.
    let mut tried = vec![0, 1, all - 1, all, all + 1, 2 * all, 2, 32, 512];
    tried.sort();
    tried.dedup();
    for &length in &tried {
        for (fill, first) in [(0xff, 0xff), (0xff, 0xfe), (0, 0)] {
            for &count in &tried {
                for room in [0, 1, all - 1, all, all + 1] {
                    let mut mask = vec![fill; length];
                    mask.iter_mut().take(1).for_each(|byte| *byte = first);
                    let request = Request {
                        plan: Plan::any(random, layers),
                        mask,
                        input: bytes(random, count),
                        room,
                    };
                    request.compare_encoded(tally, "lengths", kernels);
                    request.compare_undone(tally, "lengths", kernels);
                    cases += 2;
                }
            }
        }
    }
    let name = of_layers(layers, "encode and undo, lengths of all buffers");
    tally.group(&name, cases);
}

/// Each condition of a job, as what makes it hold.
type Fault = fn(&mut Request);

const ENCODE: [(u32, Fault); 6] = [
    (14, |request| request.plan.layers = 4),
    (1, |request| request.plan.kernels[0] = 3),
    (2, |request| request.mask.push(0)),
    (3, |request| request.mask[0] ^= 1),
    (4, |request| request.input.push(0)),
    (5, |request| request.room = request.plan.bytes().min(2) - 1),
];

const UNDO: [(u32, Fault); 6] = [
    (14, |request| request.plan.layers = 4),
    (1, |request| request.plan.kernels[0] = 255),
    (2, |request| request.input.push(0)),
    (3, |request| request.mask[0] ^= 1),
    (5, |request| request.room = 0),
    (9, |request| request.input.fill(0xff)),
];

/// Every condition alone, every two at once and all from one on: the first in checking order is named.
fn at_once(tally: &mut Tally, kernels: &[Kernel], random: &mut Random, layers: u8) {
    let mut cases = 0;
    for (undoes, faults) in [(false, ENCODE), (true, UNDO)] {
        for first in 0..faults.len() {
            for second in first..=faults.len() {
                let mut request = any_request(random, layers);
                request.mask.fill(0xff);
                // With a phase that is not marked among those of the last symbols, whose word is all ones.
                *request.mask.last_mut().unwrap() = 0;
                request.input = bytes(random, request.marked() / 8);
                if undoes {
                    request.input = vec![0; request.plan.bytes()];
                }
                for (i, (_, fault)) in faults.iter().enumerate().rev() {
                    if i == first || i == second || second == faults.len() && i > first {
                        fault(&mut request);
                    }
                }
                let want = if undoes {
                    request.compare_undone(tally, "at once", kernels)
                } else {
                    request.compare_encoded(tally, "at once", kernels)
                };
                let (number, got) = (faults[first].0, want.0.number);
                tally.expect(
                    number == got,
                    format_args!("conditions at once: meant {number}, made {got}"),
                );
                cases += 1;
            }
        }
    }
    let name = of_layers(layers, "encode and undo, conditions at once");
    tally.group(&name, cases);
}

/// Requests with some of their parts spoiled, so that several conditions can hold at once.
fn requests(tally: &mut Tally, kernels: &[Kernel], random: &mut Random, layers: u8) {
    let mut met = [[0u64; 15]; 2];
    let turns = turns_of(layers, [5000, 20_000, 600]);
    for turn in 0..turns {
        let plan = Plan::number(layers, turn);
        let mut there = request(random, plan);
        spoil(random, &mut there);
        let want = there.compare_encoded(tally, "a request", kernels);
        met[0][want.0.number as usize] += 1;

        let mut here = request(random, plan);
        let (_, word) = here.encoded(kernels);
        here = back(&here, &word);
        if random.once_in(2) {
            here.input = bytes(random, plan.bytes());
        }
        spoil(random, &mut here);
        let want = here.compare_undone(tally, "a request", kernels);
        met[1][want.0.number as usize] += 1;
    }
    tally.group(&of_layers(layers, "requests"), 2 * turns as u64);
    for (job, met) in ["encode", "undo"].iter().zip(met) {
        tally.line(
            format_args!("of them, {job} by the number answered: {met:?}"),
            0,
        );
    }
    tally.expect(
        [0, 1, 2, 3, 4, 5, 14].iter().all(|&n| met[0][n] > 0)
            && [0, 1, 2, 3, 5, 9, 14].iter().all(|&n| met[1][n] > 0),
        format_args!("not every condition was met: {met:?}"),
    );
}

/// Each part of a request is spoiled now and then.
fn spoil(random: &mut Random, request: &mut Request) {
    let bytes = request.plan.bytes();
    if random.once_in(12) {
        request.plan.layers = random.between(0, 4) as u8;
    }
    if random.once_in(5) {
        request.plan.kernels[0] = random.between(0, 4) as u8;
    }
    if random.once_in(5) {
        let layer = random.between(0, 2) as usize;
        request.plan.kernels[layer] = random.word() as u8;
    }
    if random.once_in(5) {
        let length = (bytes + place(random, 5)).saturating_sub(2);
        request.mask.resize(length, 0xff);
    }
    if random.once_in(5) && !request.mask.is_empty() {
        let at = place(random, request.mask.len());
        request.mask[at] ^= random.word() as u8;
    }
    if random.once_in(20) {
        request.mask.fill(0);
    }
    if random.once_in(5) {
        let length = request.input.len() + place(random, 3);
        request.input.resize(length.saturating_sub(1), 0);
    }
    if random.once_in(5) {
        request.room = place(random, bytes + 3);
    }
}

/// The length of the payload part, for all layers and for plans that are refused.
fn parts(tally: &mut Tally, random: &mut Random) {
    let turns = 6000;
    for turn in 0..turns {
        let layers = 1 + (turn / 6 % 3) as u8;
        let mut plan = Plan::any(random, layers);
        let mut mask = mask(random, plan);
        let mut length = plan.bytes();
        let others = [0, 1, 2, 30, 31, 32, 33, 64, 511, 512, 513];
        match turn % 6 {
            0 => mask.resize(others[place(random, 11)], 0xff),
            1 => {
                let far = [length - 1, length + 1, length + (1 << 32), usize::MAX];
                length = [&others[..], &far].concat()[place(random, 15)];
            }
            2 => {
                let at = place(random, length);
                mask[at] ^= random.word() as u8;
            }
            3 => mask.fill([0, 0xff][turn / 18 % 2]),
            4 => {
                let layer = place(random, 3);
                plan.kernels[layer] = random.between(0, 5) as u8;
                plan.layers = [layers, layers, 0, 4, 255][place(random, 5)];
            }
            _ => {}
        }
        let marked = ones(&mask);
        let right = !plan.bad_layers() && !plan.no_kernel();
        let whole = mask.len() == plan.bytes() && length == plan.bytes() && marked % 8 == 0;
        let want = if right && whole { marked / 8 } else { 0 };
        let got = part_length(plan, &mask, length);
        tally.expect(
            want == got,
            format_args!(
                "part of {length} bytes, {plan:?}, mask {mask:02x?}: wanted {want}, got {got}"
            ),
        );
    }
    tally.group("payload parts", turns as u64);
}

/// The information mask of every size, and sizes that are refused, into buffers long enough and too short.
fn masks(tally: &mut Tally, kernels: &[Kernel]) {
    let order = order(&kernels[2]);
    let mut cases = 0;
    for room in [0, 31, 32, 32 + SPARE] {
        for p in (0..=40).chain([usize::MAX / 8 + 2, usize::MAX]) {
            let conditions = [(room < 32, 5), (!(1..=32).contains(&p), 8)];
            let want = settled(&conditions, room, || {
                accepted(&packed(&marks_at(&order[..8 * p], 256)), room)
            });
            let got = call(room, |mask| information_mask(p, mask));
            tally.expect(
                want == got,
                format_args!(
                    "information mask of {p}, room {room}: wanted {want:02x?}, got {got:02x?}"
                ),
            );
            cases += 1;
        }
    }
    let mut eight = order[..8].to_vec();
    eight.sort();
    tally.expect(
        eight == [191, 223, 239, 250, 251, 253, 254, 255],
        format_args!("the first eight phases of the order are {eight:?}"),
    );
    tally.group("information masks", cases + 1);
}

/// The words and payloads that the program `frame_cases` prints, from the paper alone.
fn frame_cases(tally: &mut Tally, kernels: &[Kernel]) {
    let text = match fs::read_to_string(FRAME_CASES) {
        Ok(text) => text,
        Err(error) => {
            tally.wrong(format_args!("{FRAME_CASES}: {error}"));
            return;
        }
    };
    let mut mixed = [36, 146, 73].repeat(10);
    mixed.extend([255, 255]);
    let payload = b"Nospridda\x00\xff\x81";
    let mut late = vec![0; 32];
    late[25] = 128;
    late[31] = 1;
    let all = vec![255; 32];
    let cases = [
        (
            "encode 2 0 1 3 6 32 12 36 9999 0",
            0,
            1,
            &mixed,
            &payload[..],
        ),
        ("encode 2 1 0 255 6 32 12 36 9999 0", 1, 0, &mixed, payload),
        ("encode 2 1 2 0 6 32 12 36 9999 0", 1, 2, &mixed, payload),
        ("encode 2 2 2 0 6 32 12 36 9999 0", 2, 2, &mixed, payload),
        ("encode 2 2 1 0 1 32 32 36 200 255", 2, 1, &all, &late),
    ];
    for (label, inner, outer, mask, payload) in cases {
        let symbols = placed(&unpacked(mask), payload);
        let mut buffer = packed(&word(&[&kernels[inner], &kernels[outer]], &symbols));
        buffer.extend([UNTOUCHED; SPARE]);
        let hexadecimal: String = buffer.iter().map(|byte| format!("{byte:02x}")).collect();
        let want = format!("{label}: 0 0, {hexadecimal}");
        tally.expect(
            text.lines().any(|line| line == want),
            format_args!("frame_cases does not print {want}"),
        );
    }
    tally.group("lines of frame_cases", cases.len() as u64);
}
