//! Frame follow and frame decode, every score and every penalty.
use crate::block::Block;
use crate::frame::{bits, marks_at, ones, order, packed, taken, unpacked, word};
use crate::layered::{layered, over_all_words, Found};
use crate::library::{Outcome, Plan};
use crate::paper::{pack, Kernel};
use crate::plan::{of_layers, LAYERS};
use crate::random::Random;
use crate::recorded::{frame_decode, frame_follow, kernel_follow, kernel_follow_hadamard};
use crate::tally::Tally;

/// What output buffers hold before a call: no score and no penalty is the like.
const UNSCORED: i32 = i32::MIN;
const UNSUMMED: u32 = u32::MAX;
const UNTOUCHED: u8 = 0x5a;

/// How much longer than needed output buffers are.
const SPARE: usize = 3;

/// The cases of one and two layers, and of layers that are refused.
pub fn sweep(tally: &mut Tally, kernels: &[Kernel]) {
    let mut random = Random::new(4);
    analogues(tally, &mut random);
    let blocks: Vec<Block> = kernels.iter().map(Block::of).collect();
    for layers in 1..LAYERS {
        frames(tally, kernels, &blocks, &mut random, layers, 108);
        of_all_layers(tally, kernels, &blocks, &mut random, layers);
    }
    one_layer(tally, kernels, &mut random);
    bench_cases(tally, kernels);
    refused_layers(tally, &blocks, &mut random);
}

/// The cases of three layers, in two parts with random numbers of their own: ten frames for each mix of kernels in each part, all
/// other cases in part 0.
pub fn sweep_three(tally: &mut Tally, kernels: &[Kernel], part: usize) {
    let mut random = Random::new(40 + part as u64);
    let blocks: Vec<Block> = kernels.iter().map(Block::of).collect();
    frames(
        tally,
        kernels,
        &blocks,
        &mut random,
        LAYERS,
        10 * Plan::count(LAYERS),
    );
    if part == 0 {
        of_all_layers(tally, kernels, &blocks, &mut random, LAYERS);
    }
}

/// The groups that all layers have.
fn of_all_layers(
    tally: &mut Tally,
    kernels: &[Kernel],
    blocks: &[Block],
    random: &mut Random,
    layers: u8,
) {
    last_rows(tally, kernels, blocks, random, layers);
    all_alike(tally, blocks, random, layers);
    no_kernel(tally, blocks, random, layers);
    out_of_range(tally, blocks, random, layers);
    lengths(tally, blocks, random, layers);
    requests(tally, blocks, random, layers);
}

/// The sizes of the kernels of small frames, of one to four layers.
#[rustfmt::skip]
const SMALL: [&[usize]; 20] = [
    &[2, 3], &[3, 2], &[2, 4], &[4, 2], &[3, 4], &[4, 3], &[2, 2], &[3, 3], &[4, 4], &[2, 6],
    &[7, 2], &[9], &[2, 2, 2], &[2, 3, 2], &[3, 2, 2], &[2, 2, 3], &[3, 1, 4], &[2, 4, 2], &[1, 2, 7], &[2, 2, 2, 2],
];

/// Small frames of unequal kernels: layer by layer against all words of the frame.
fn analogues(tally: &mut Tally, random: &mut Random) {
    let mut cases = 0;
    for sizes in SMALL {
        for _ in 0..10 {
            let blocks: Vec<Block> = sizes
                .iter()
                .map(|&n| Block::invertible(random, n))
                .collect();
            let layers: Vec<&Block> = blocks.iter().collect();
            let n = sizes.iter().product();
            let limit = [4, 4, 30_000][random.between(0, 2) as usize];
            let values: Vec<i32> = (0..n).map(|_| random.wide(-limit, limit)).collect();
            let symbols = bits(random, n);
            let got = layered(&layers, &values, |i, _| symbols[i]);
            let want = over_all_words(&layers, &values, &symbols, n);
            tally.expect(
                want == got,
                format_args!(
                    "a frame of {sizes:?}, values {values:?}: wanted {want:?}, got {got:?}"
                ),
            );
            cases += 1;
        }
    }
    tally.group("small frames, layers against all words", cases);
}

/// Values of some kind.
fn values(random: &mut Random, kind: usize, sent: &[bool]) -> Vec<i8> {
    let value = |&one: &bool| {
        let y = match kind {
            0 => random.between(-127, 127),
            1 => random.between(-2, 2),
            2 => [0, 0, 0, 5, -5][random.between(0, 4) as usize],
            3 => [127, -127][random.between(0, 1) as usize],
            4 => random.between(-40, 100),
            // The word itself at the ends of the range: the last score is as large as any.
            _ => 127,
        };
        (if one && kind > 3 { -y } else { y }) as i8
    };
    sent.iter().map(value).collect()
}

fn wide(values: &[i8]) -> Vec<i32> {
    values.iter().map(|&y| i32::from(y)).collect()
}

/// What the buffers for scores, penalties and payload hold.
type Buffers = (Vec<i32>, Vec<u32>, Vec<u8>);

/// A request of frame follow or frame decode.
#[derive(Clone)]
struct Request {
    decodes: bool,
    plan: Plan,
    values: Vec<i8>,
    /// The mask to decode by, or the symbols to follow.
    bytes: Vec<u8>,
    /// The lengths of the buffers for scores, penalties and payload; frame follow has no third one.
    rooms: [usize; 3],
}

impl Request {
    /// A request with longer buffers than needed.
    fn new(decodes: bool, plan: Plan, values: &[i8], bytes: &[u8]) -> Request {
        let mut request = Request {
            decodes,
            plan,
            values: values.to_vec(),
            bytes: bytes.to_vec(),
            rooms: [plan.symbols() + SPARE; 3],
        };
        request.rooms[2] = request.marked() / 8 + SPARE;
        request
    }

    fn marked(&self) -> usize {
        ones(&self.bytes)
    }

    /// The number and place that the job must answer.
    fn settled(&self) -> Outcome {
        let (k, plan) = (self.marked(), self.plan);
        let offender = self.values.iter().position(|&y| y == -128);
        let lengths = [self.values.len(), self.bytes.len()];
        let short = self.rooms[..2].iter().any(|&room| room < plan.symbols());
        let conditions = [
            (plan.bad_layers(), 14),
            (plan.no_kernel(), 1),
            (lengths != [plan.symbols(), plan.bytes()], 2),
            (self.decodes && (k == 0 || k % 8 != 0), 3),
            (short || self.decodes && self.rooms[2] < k / 8, 5),
            (offender.is_some(), 6),
        ];
        let number = conditions.iter().find(|c| c.0).map_or(0, |c| c.1);
        Outcome {
            number,
            place: if number == 6 { offender.unwrap() } else { 0 },
        }
    }

    /// The symbols, scores and penalties of a request that is accepted.
    fn found(&self, blocks: &[Block]) -> Found {
        let bits = unpacked(&self.bytes);
        let choose = |i: usize, score| bits[i] && (!self.decodes || score < 0);
        layered(&self.plan.layers_of(blocks), &wide(&self.values), choose)
    }

    fn untouched(&self) -> Buffers {
        let [scores, penalties, payload] = self.rooms;
        (
            vec![UNSCORED; scores],
            vec![UNSUMMED; penalties],
            vec![UNTOUCHED; payload],
        )
    }

    /// What the job must leave: a refusal changes no buffer, and what lies past the written part stays.
    fn left(&self, found: Option<&Found>) -> Buffers {
        let mut buffers = self.untouched();
        if let Some(found) = found {
            let n = self.plan.symbols();
            buffers.0[..n].copy_from_slice(&found.scores);
            for (to, &penalty) in buffers.1.iter_mut().zip(&found.penalties) {
                *to = penalty as u32;
            }
            if self.decodes {
                let payload = taken(&unpacked(&self.bytes), &found.symbols);
                buffers.2[..payload.len()].copy_from_slice(&payload);
            }
        }
        buffers
    }

    fn call(&self) -> (Outcome, Buffers) {
        let mut buffers = self.untouched();
        let (scores, penalties, payload) = &mut buffers;
        let (plan, values, bytes) = (self.plan, &self.values, &self.bytes);
        let outcome = if self.decodes {
            frame_decode(plan, values, bytes, scores, penalties, payload)
        } else {
            frame_follow(plan, values, bytes, scores, penalties)
        };
        (outcome, buffers)
    }

    /// Outcome and all buffers against what the layers give. What they found, where the request is accepted.
    fn compare(&self, tally: &mut Tally, what: &str, blocks: &[Block]) -> Option<Found> {
        let found = (self.settled().number == 0).then(|| self.found(blocks));
        self.compare_with(tally, what, found.as_ref());
        found
    }

    /// Outcome and all buffers against what was found, where the request is accepted; the first places that are off are named.
    fn compare_with(&self, tally: &mut Tally, what: &str, found: Option<&Found>) {
        let outcome = self.settled();
        let want = self.left(found);
        let (answered, got) = self.call();
        let off = [
            first_off(&want.0, &got.0),
            first_off(&want.1, &got.1),
            first_off(&want.2, &got.2),
        ];
        tally.expect(
            answered == outcome && off == [None; 3],
            format_args!(
                "{what}, decode {}, {:?}, {} values, bytes {:02x?}, rooms {:?}: wanted {outcome:?}, got {answered:?}; \
                 scores, penalties and payload first off at {off:?}",
                self.decodes,
                self.plan,
                self.values.len(),
                self.bytes,
                self.rooms
            ),
        );
    }
}

/// The first place where two buffers of one length differ.
fn first_off<T: PartialEq>(want: &[T], got: &[T]) -> Option<usize> {
    (0..want.len()).find(|&i| want[i] != got[i])
}

/// A mask of some multiple of 8 phases: the first ones of the order where it has all phases, or any.
fn mask(random: &mut Random, plan: Plan, order: &[usize]) -> Vec<u8> {
    let n = plan.symbols();
    let k = 8 * random.wide(1, n as i32 / 8) as usize;
    if random.once_in(2) && order.len() == n {
        return packed(&marks_at(&order[..k], n));
    }
    let mut phases: Vec<usize> = (0..n).collect();
    for i in 0..k {
        let other = random.wide(i as i32, n as i32 - 1) as usize;
        phases.swap(i, other);
    }
    packed(&marks_at(&phases[..k], n))
}

/// Random and noisy words of all plans, with many zeros and ties, and at the ends of the range: decoded, and followed along the
/// decoder's symbols and along others.
fn frames(
    tally: &mut Tally,
    kernels: &[Kernel],
    blocks: &[Block],
    random: &mut Random,
    layers: u8,
    turns: usize,
) {
    let order = order(&kernels[2]);
    for turn in 0..turns {
        let plan = Plan::number(layers, turn);
        let n = plan.symbols();
        let mask = mask(random, plan, &order);
        let symbols: Vec<bool> = unpacked(&mask)
            .iter()
            .map(|&marked| marked && random.once_in(2))
            .collect();
        let sent = word(&plan.layers_of(kernels), &symbols);
        let values = values(random, turn / Plan::count(layers) % 6, &sent);
        let decode = Request::new(true, plan, &values, &mask);
        let decoded = decode.compare(tally, "a frame", blocks).unwrap();
        // Along the decoder's symbols it is the same.
        Request::new(false, plan, &values, &packed(&decoded.symbols)).compare_with(
            tally,
            "a frame",
            Some(&decoded),
        );
        let symbols = if random.once_in(3) {
            symbols
        } else {
            bits(random, n)
        };
        Request::new(false, plan, &values, &packed(&symbols)).compare(tally, "a frame", blocks);
    }
    let name = of_layers(
        layers,
        "frames followed and decoded, all scores and penalties",
    );
    tally.group(&name, 3 * turns as u64);
}

/// The last sixteen phases, eight of three layers, against all remaining words of the frame, with no layering.
fn last_rows(
    tally: &mut Tally,
    kernels: &[Kernel],
    blocks: &[Block],
    random: &mut Random,
    layers: u8,
) {
    let count = if layers == LAYERS { 8 } else { 16 };
    for number in 0..Plan::count(layers) {
        let plan = Plan::number(layers, number);
        let n = plan.symbols();
        let symbols = bits(random, n);
        let sent = word(&plan.layers_of(kernels), &symbols);
        let values = values(random, 4 * (number % 2), &sent);
        let want = over_all_words(&plan.layers_of(blocks), &wide(&values), &symbols, count);
        let request = Request::new(false, plan, &values, &packed(&symbols));
        let (outcome, (scores, penalties, _)) = request.call();
        let (scores, penalties) = (&scores[n - count..n], &penalties[n - count..n]);
        let paid: Vec<i32> = penalties.iter().map(|&p| p as i32).collect();
        tally.expect(
            outcome.number == 0 && scores == want.scores && paid == want.penalties,
            format_args!(
                "{plan:?}, last phases: wanted {want:?}, got {outcome:?} with {scores:?} and {paid:?}"
            ),
        );
    }
    let name = of_layers(layers, "last phases against all remaining words");
    tally.group(&name, Plan::count(layers) as u64);
}

/// All values 127, with symbols 0: the first score is 127 and the last one 127 for each symbol. All -127, all 1, all 0 too.
fn all_alike(tally: &mut Tally, blocks: &[Block], random: &mut Random, layers: u8) {
    let mut cases = 0;
    let step = if layers == LAYERS { 13 } else { 1 };
    for number in (0..Plan::count(layers)).step_by(step) {
        let plan = Plan::number(layers, number);
        let n = plan.symbols();
        let most = 127 * n as i32;
        for y in [127, -127, 1, 0] {
            let followed = Request::new(false, plan, &vec![y; n], &vec![0; n / 8]);
            let found = followed.compare(tally, "all alike", blocks).unwrap();
            let y = i32::from(y);
            let wanted = [y, y * n as i32, (-y).max(0) * n as i32];
            let met = [found.scores[0], found.scores[n - 1], found.penalties[n - 1]];
            tally.expect(
                met == wanted || y < 0 && met[1..] == wanted[1..],
                format_args!("{plan:?}, all {y}: wanted {wanted:?}, got {met:?}"),
            );
            let mask = mask(random, plan, &[]);
            Request::new(true, plan, &vec![y as i8; n], &mask).compare(tally, "all alike", blocks);
            cases += 3;
        }
        // Against the last symbol, whose word is all ones.
        let mut last = vec![0; n / 8];
        last[n / 8 - 1] = 1;
        let against = Request::new(false, plan, &vec![127; n], &last);
        let found = against.compare(tally, "all against", blocks).unwrap();
        tally.expect(
            found.penalties[n - 2..] == [0, most],
            format_args!(
                "{plan:?}: the penalties of the last symbol are {:?}",
                &found.penalties[n - 2..]
            ),
        );
        cases += 2;
    }
    tally.group(&of_layers(layers, "values all alike"), cases);
}

/// One layer is the kernel by itself: scores are those of kernel follow by both engines on the same values, and the penalties
/// what the symbols go against.
fn one_layer(tally: &mut Tally, kernels: &[Kernel], random: &mut Random) {
    let turns = 3000;
    for turn in 0..turns {
        let plan = Plan::number(1, turn);
        let kernel = &kernels[turn % 3];
        let sent = word(&[kernel], &bits(random, 16));
        let values = values(random, turn / 3 % 6, &sent);
        let symbols = bits(random, 16);
        let (outcome, (scores, penalties, _)) =
            Request::new(false, plan, &values, &packed(&symbols)).call();
        for follow in [kernel_follow, kernel_follow_hadamard] {
            let mut alone = [UNSCORED; 16];
            let answered = follow(
                kernel.number,
                &wide(&values),
                pack(|s| symbols[s]),
                &mut alone,
            );
            tally.expect(
                outcome.number == 0 && answered.number == 0 && scores[..16] == alone,
                format_args!(
                    "{plan:?}, {values:?}, {symbols:?}: {scores:?}, but kernel follow has {alone:?}"
                ),
            );
            let mut paid = 0;
            for s in 0..16 {
                let against = alone[s] != 0 && symbols[s] != (alone[s] < 0);
                paid += if against { alone[s].unsigned_abs() } else { 0 };
                tally.expect(
                    penalties[s] == paid,
                    format_args!("{plan:?}, {values:?}, {symbols:?}: penalties {penalties:?}, wanted {paid} at {s}"),
                );
            }
        }
    }
    tally.group(
        "one layer, as kernel follow by both engines",
        2 * turns as u64,
    );
}

/// The paper's bench cases.
fn bench_cases(tally: &mut Tally, kernels: &[Kernel]) {
    let mut scores = vec![0; 256];
    let mut penalties = vec![0; 256];
    let plan = Plan::of(&[2, 2]);
    let outcome = frame_follow(plan, &[127; 256], &[0; 32], &mut scores, &mut penalties);
    tally.expect(
        outcome.number == 0 && scores[0] == 127 && scores[255] == 32512,
        format_args!(
            "all 127: {outcome:?}, scores {} and {}",
            scores[0], scores[255]
        ),
    );
    let mask = packed(&marks_at(&order(&kernels[2])[..8], 256));
    let mut values = [-1i8; 256];
    values[0] = 1;
    let mut payload = [0];
    let outcome = frame_decode(
        plan,
        &values,
        &mask,
        &mut scores,
        &mut penalties,
        &mut payload,
    );
    tally.expect(
        outcome.number == 0 && penalties[255] == 1 && payload == [1],
        format_args!(
            "linkline's input: {outcome:?}, penalty {}, payload {payload:02x?}",
            penalties[255]
        ),
    );
    tally.group("bench cases of frames", 2);
}

/// A request that is accepted: any plan, small values, all phases marked or all symbols 1.
fn request(random: &mut Random, decodes: bool, layers: u8) -> Request {
    let plan = Plan::any(random, layers);
    let n = plan.symbols();
    let values: Vec<i8> = (0..n).map(|_| random.between(-9, 9) as i8).collect();
    Request::new(decodes, plan, &values, &vec![0xff; n / 8])
}

/// Makes every condition hold but for those of the plan.
fn spoil_all(request: &mut Request) {
    let n = request.values.len();
    request.values[7] = -128;
    request.values.push(0);
    request.bytes.fill(0);
    request.rooms = [n - 1, 0, 0];
}

/// Numbers that no kernel has, in each layer and in all, alone and with every other fault; and in a layer that is not used, where
/// they are not looked at.
fn no_kernel(tally: &mut Tally, blocks: &[Block], random: &mut Random, layers: u8) {
    let mut cases = 0;
    let used = usize::from(layers);
    for kernel in 3..=u8::MAX {
        for layer in 0..=used {
            let mut request = request(random, (layer + usize::from(kernel)) % 2 == 1, layers);
            match request.plan.kernels[..used].get_mut(layer) {
                Some(other) => *other = kernel,
                None => request.plan.kernels = [kernel; 3],
            }
            request.compare(tally, "no kernel", blocks);
            spoil_all(&mut request);
            request.compare(tally, "no kernel and more", blocks);
            cases += 2;
        }
    }
    for kernel in [3, 4, 127, 128, 254, 255] {
        for decodes in [false, true] {
            let mut request = request(random, decodes, layers);
            request.plan.kernels[used..].fill(kernel);
            request.compare(tally, "no kernel where none is looked at", blocks);
            cases += 1;
        }
    }
    let name = of_layers(layers, "follow and decode, numbers of kernels");
    tally.group(&name, cases);
}

/// Every count of layers that is refused, alone, with no kernel and with every other fault; with the lengths of one layer, two and
/// three.
fn refused_layers(tally: &mut Tally, blocks: &[Block], random: &mut Random) {
    let mut cases = 0;
    for layers in (0..=u8::MAX).filter(|layers| !(1..=LAYERS).contains(layers)) {
        for like in 1..=LAYERS {
            let mut request = request(random, (layers ^ like) % 2 == 1, like);
            request.plan = Plan::any(random, LAYERS);
            request.plan.layers = layers;
            request.compare(tally, "refused layers", blocks);
            request.plan.kernels = [3, 255, 4];
            request.compare(tally, "refused layers, no kernel", blocks);
            spoil_all(&mut request);
            request.compare(tally, "refused layers and more", blocks);
            cases += 3;
        }
    }
    tally.group("follow and decode, layers 0 and 4 to 255 refused", cases);
}

/// A value of -128 at every place, or at some of three layers, alone and with a second one above it; all -127 is accepted.
fn out_of_range(tally: &mut Tally, blocks: &[Block], random: &mut Random, layers: u8) {
    let mut cases = 0;
    let n = Plan::number(layers, 0).symbols();
    let step = if layers == LAYERS { 13 } else { 1 };
    for place in (0..n).step_by(step) {
        for decodes in [false, true] {
            let mut request = request(random, decodes, layers);
            request.values[place] = -128;
            request.compare(tally, "-128", blocks);
            request.values[place + (n - 1 - place) / 2] = -128;
            request.compare(tally, "-128 twice", blocks);
            cases += 2;
        }
    }
    for decodes in [false, true] {
        let mut request = request(random, decodes, layers);
        request.values.fill(-127);
        request.compare(tally, "all -127", blocks);
        cases += 1;
    }
    let name = of_layers(layers, "follow and decode, a value out of range");
    tally.group(&name, cases);
}

/// The lengths of a request's buffers.
struct Lengths {
    values: usize,
    bytes: usize,
    rooms: [usize; 3],
}

/// Every combination of them, right and wrong: one off, and what is right for other layers.
fn all_lengths(layers: u8) -> Vec<Lengths> {
    let n = Plan::number(layers, 0).symbols();
    let b = n / 8;
    let mut all = Vec::new();
    for values in [0, 1, n - 1, n, n + 1, 2 * n, n / 16, 16 * n] {
        for bytes in [0, 1, b - 1, b, b + 1, 2 * b, 16 * b] {
            for (scores, penalties) in [(n, n), (n - 1, n), (n, n - 1), (0, n + 44), (n + 44, 0)] {
                for payload in [0, b - 1, b, b + 1] {
                    all.push(Lengths {
                        values,
                        bytes,
                        rooms: [scores, penalties, payload],
                    });
                }
            }
        }
    }
    all
}

/// All lengths with a mask that is taken, one of no phase and one of all phases but one.
fn lengths(tally: &mut Tally, blocks: &[Block], random: &mut Random, layers: u8) {
    let mut cases = 0;
    let first = request(random, true, layers);
    for lengths in all_lengths(layers) {
        for (fill, last) in [(0xff, 0xff), (0xff, 0xfe), (0, 0)] {
            for decodes in [false, true] {
                let mut request = first.clone();
                request.decodes = decodes;
                request.values.resize(lengths.values, 3);
                request.bytes = vec![fill; lengths.bytes];
                let bytes = request.bytes.iter_mut();
                bytes.take(1).for_each(|byte| *byte = last);
                request.rooms = lengths.rooms;
                // Accepted requests have groups of their own.
                if request.settled().number != 0 {
                    request.compare(tally, "lengths", blocks);
                    cases += 1;
                }
            }
        }
    }
    let name = of_layers(layers, "follow and decode, lengths of all buffers");
    tally.group(&name, cases);
}

/// Requests with some of their parts spoiled: the first condition that holds, its place, and every buffer.
fn requests(tally: &mut Tally, blocks: &[Block], random: &mut Random, layers: u8) {
    let turns = if layers == LAYERS { 600 } else { 6000 };
    let mut met = [[0u64; 15]; 2];
    for turn in 0..turns {
        let mut request = request(random, turn % 2 == 1, layers);
        spoil(random, &mut request);
        let number = request.settled().number;
        // Accepted ones of three layers have a group of their own, and take long.
        if number != 0 || layers < LAYERS || turn % 4 < 2 {
            met[turn % 2][number as usize] += 1;
            request.compare(tally, "a request", blocks);
        }
    }
    let done: u64 = met.iter().flatten().sum();
    tally.group(&of_layers(layers, "requests of follow and decode"), done);
    tally.line(format_args!("of them, by the number answered: {met:?}"), 0);
    tally.expect(
        [0, 1, 2, 5, 6, 14].iter().all(|&n| met[0][n] > 0)
            && [0, 1, 2, 3, 5, 6, 14].iter().all(|&n| met[1][n] > 0),
        format_args!("not every condition was met: {met:?}"),
    );
}

/// Each part of a request is spoiled now and then.
fn spoil(random: &mut Random, request: &mut Request) {
    let (n, bytes) = (request.plan.symbols(), request.plan.bytes());
    if random.once_in(12) {
        request.plan.layers = random.between(0, 4) as u8;
    }
    if random.once_in(6) {
        request.plan.kernels[0] = random.word() as u8;
    }
    if random.once_in(6) {
        let layer = random.between(0, 2) as usize;
        request.plan.kernels[layer] = random.between(0, 4) as u8;
    }
    if random.once_in(5) {
        let length = n - 2 + random.between(0, 4) as usize;
        request.values.resize(length, 0);
    }
    for _ in 0..random.between(0, 2) {
        let at = random.wide(0, request.values.len() as i32 - 1);
        request.values[at as usize] = -128;
    }
    if random.once_in(5) {
        let length = bytes - 1 + random.between(0, 3) as usize;
        request.bytes.resize(length, 0xff);
    }
    if random.once_in(4) {
        let at = random.wide(0, request.bytes.len() as i32 - 1);
        request.bytes[at as usize] = random.word() as u8;
    }
    if random.once_in(20) {
        request.bytes.fill(0);
    }
    let k = request.marked();
    request.rooms[2] = k / 8 + SPARE;
    for room in &mut request.rooms[..2] {
        if random.once_in(6) {
            *room = [0, n - 1][random.between(0, 1) as usize];
        }
    }
    if random.once_in(5) {
        request.rooms[2] = (k / 8).saturating_sub(1);
    }
}
