//! List decode: its answer against the best agreeing one of all final paths, and every buffer.
use std::cmp::Reverse;

use crate::block::Block;
use crate::frame::{bytes, marks_at, ones, order, packed, placed, profile, taken, unpacked, word};
use crate::layered::pay;
use crate::library::{PenaltyOutcome, Plan};
use crate::list::{agrees, checksum, list, list_over_all_words, with_checksum};
use crate::paper::Kernel;
use crate::random::Random;
use crate::recorded::{frame_decode, list_decode};
use crate::tally::Tally;

/// The bytes of scratch that end as zeros.
const SCRATCH: usize = 8192;

/// The sizes of payloads, in bits.
const SIZES: [usize; 5] = [24, 64, 128, 200, 256];

pub fn sweep(tally: &mut Tally, kernels: &[Kernel]) {
    let mut random = Random::new(11);
    let pairs = Pairs {
        kernels,
        profiles: kernels.iter().map(profile).collect(),
        blocks: kernels.iter().map(Block::of).collect(),
    };
    checksums(tally);
    analogues(tally, &mut random);
    frames(
        tally,
        &pairs,
        &mut random,
        "frames decoded by lists",
        &SIZES,
        &KINDS,
    );
    frames(
        tally,
        &pairs,
        &mut random,
        "the same, with ties",
        &[24, 32],
        &TIES,
    );
    several(tally, &pairs, &mut random);
    no_kernel(tally, &pairs, &mut random);
    layers(tally, &pairs, &mut random);
    lists(tally, &pairs, &mut random);
    sizes(tally, &pairs, &mut random);
    out_of_range(tally, &pairs, &mut random);
    lengths(tally, &pairs, &mut random);
    requests(tally, &pairs, &mut random);
}

/// The kernels as the double sum takes them, with their profiles, and as the layers do.
struct Pairs<'a> {
    kernels: &'a [Kernel],
    profiles: Vec<[u32; 16]>,
    blocks: Vec<Block>,
}

impl Pairs<'_> {
    /// The word of some symbols.
    fn word(&self, plan: Plan, symbols: &[bool]) -> Vec<bool> {
        word(&plan.layers_of(self.kernels), symbols)
    }

    /// The product of the profile numbers of a phase.
    fn distance(&self, plan: Plan, phase: usize) -> u32 {
        let profiles = plan.layers_of(&self.profiles);
        profiles[1][phase / 16] * profiles[0][phase % 16]
    }
}

/// The check value of the CRC, and some by hand.
fn checksums(tally: &mut Tally) {
    let cases: [(&[u8], u16); 4] = [
        (b"123456789", 0x29b1),
        (b"", 0xffff),
        (&[0], 0xe1f0),
        (&[0xff, 0xff], 0),
    ];
    for (bytes, want) in cases {
        let got = checksum(bytes);
        tally.expect(
            got == want,
            format_args!("the checksum of {bytes:02x?}: wanted {want:04x}, got {got:04x}"),
        );
    }
    tally.group("checksums", cases.len() as u64);
}

/// Small frames of unequal kernels: layer by layer against all words of the frame.
fn analogues(tally: &mut Tally, random: &mut Random) {
    let mut cases = 0;
    for (n, w) in [(2, 3), (3, 2), (2, 4), (4, 2), (3, 4), (4, 3), (4, 4)] {
        for most in 1..=8 {
            for marks_of_four in 1..=4 {
                let layers = [n, w].map(|n| Block::invertible(random, n));
                let limit = [1, 4, 100][random.between(0, 2) as usize];
                let values: Vec<i32> = (0..n * w)
                    .map(|_| i32::from(random.between(-limit, limit)))
                    .collect();
                let marked: Vec<bool> = (0..n * w)
                    .map(|_| random.between(1, 4) <= marks_of_four)
                    .collect();
                let want = list_over_all_words(layers.each_ref(), &values, &marked, most);
                let got = list(layers.each_ref(), &values, &marked, most);
                tally.expect(
                    want == got,
                    format_args!(
                        "a list of {most}, {n} by {w}, values {values:?}, marks {marked:?}: wanted {want:?}, got {got:?}"
                    ),
                );
                cases += 1;
            }
        }
    }
    tally.group("lists of small frames, layers against all words", cases);
}

/// A number from low to high, both among them.
fn number(random: &mut Random, low: usize, high: usize) -> usize {
    random.wide(low as i32, high as i32) as usize
}

/// Any k phases below an end.
fn marks_below(random: &mut Random, k: usize, end: usize) -> Vec<bool> {
    let mut marks = vec![false; 256];
    while marks.iter().filter(|&&marked| marked).count() < k {
        marks[number(random, 0, end - 1)] = true;
    }
    marks
}

/// A mask of k phases: the first of the order, any, or any below some phase, so that those after it are unmarked.
fn mask(random: &mut Random, order: &[usize], k: usize) -> Vec<u8> {
    if random.once_in(2) {
        return packed(&marks_at(&order[..k], 256));
    }
    let end = if random.once_in(2) {
        256
    } else {
        number(random, k, 256)
    };
    packed(&marks_below(random, k, end))
}

/// The kinds of values, and those with many equal penalties.
const KINDS: [usize; 13] = [0, 1, 2, 3, 4, 5, 6, 7, 8, 9, 10, 11, 12];
const TIES: [usize; 5] = [5, 6, 8, 11, 12];

/// 256 values of some kind: of a sent word with no noise, with more and more of it, with ties, and of no word.
fn values(random: &mut Random, kind: usize, sent: &[bool]) -> Vec<i8> {
    let value = |&one: &bool| {
        let y = match kind {
            0 => random.between(1, 127),
            1 => random.between(-20, 100),
            2 => random.between(-30, 100),
            3 => random.between(-40, 100),
            4 => random.between(-60, 90),
            5 => random.between(-1, 2),
            6 => [0, 0, 0, 5, -5, 5][number(random, 0, 5)],
            7 if random.once_in(8) => -127,
            7 => 127,
            8 => [0, 9][number(random, 0, 1)],
            9 => random.between(-127, 127),
            10 => 0,
            11 if random.once_in(12) => -1,
            _ => 1,
        };
        (if one { -y } else { y }) as i8
    };
    sent.iter().map(value).collect()
}

#[derive(Clone)]
struct Request {
    plan: Plan,
    list: usize,
    values: Vec<i8>,
    mask: Vec<u8>,
    /// What the two buffers hold before the call.
    scratch: Vec<u8>,
    payload: Vec<u8>,
}

/// An outcome, and what scratch and payload hold then.
type Answered = (PenaltyOutcome, Vec<u8>, Vec<u8>);

/// The final paths of a request that passes the checks, in order.
struct Found {
    /// Payload and penalty of each.
    answers: Vec<(Vec<u8>, i32)>,
    /// The places of those whose checksum agrees.
    agreeing: Vec<usize>,
}

impl Found {
    fn new(answers: Vec<(Vec<u8>, i32)>) -> Found {
        let agreeing = (0..answers.len()).filter(|&i| agrees(&answers[i].0));
        Found {
            agreeing: agreeing.collect(),
            answers,
        }
    }

    fn penalty(&self, i: usize) -> i32 {
        self.answers[i].1
    }

    /// The place of the path to answer: the first agreeing one by least penalty, equal penalties by the place in the list.
    fn best(&self) -> Option<usize> {
        let agreeing = self.agreeing.iter().copied();
        agreeing.min_by_key(|&i| (self.penalty(i), i))
    }
}

impl Request {
    /// A request with buffers of the length that it needs, or longer.
    fn new(random: &mut Random, plan: Plan, list: usize, values: &[i8], mask: &[u8]) -> Request {
        let mut request = Request {
            plan,
            list,
            values: values.to_vec(),
            mask: mask.to_vec(),
            scratch: Vec::new(),
            payload: Vec::new(),
        };
        let spare = [0, 0, 1, 77, SCRATCH][number(random, 0, 4)];
        request.scratch = bytes(random, SCRATCH + spare);
        let spare = [0, 0, 1, 9][number(random, 0, 3)];
        request.payload = bytes(random, request.marked() / 8 + spare);
        request
    }

    fn marked(&self) -> usize {
        ones(&self.mask)
    }

    /// The refusal that the checks before all decoding give.
    fn refusal(&self) -> Option<PenaltyOutcome> {
        let k = self.marked();
        let offender = self.values.iter().position(|&y| y == -128);
        let conditions = [
            (self.plan.layers != 2, 14),
            (self.plan.no_kernel(), 1),
            (self.list < 1 || self.list > 8, 11),
            (self.values.len() != 256 || self.mask.len() != 32, 2),
            (k == 0 || k % 8 != 0, 3),
            (k < 24, 12),
            (
                self.payload.len() < k / 8 || self.scratch.len() < SCRATCH,
                5,
            ),
            (offender.is_some(), 6),
        ];
        let number = conditions.iter().find(|c| c.0)?.1;
        Some(PenaltyOutcome {
            number,
            place: if number == 6 { offender? } else { 0 },
            penalty: 0,
        })
    }

    /// The final paths of a request that passes the checks.
    fn found(&self, pairs: &Pairs) -> Found {
        let values: Vec<i32> = self.values.iter().map(|&y| i32::from(y)).collect();
        let layers = self.plan.layers_of(&pairs.blocks);
        let marks = unpacked(&self.mask);
        let paths = list([layers[0], layers[1]], &values, &marks, self.list);
        let answers = paths
            .iter()
            .map(|path| (taken(&marks, &path.symbols), path.penalty));
        Found::new(answers.collect())
    }

    /// What the word of a payload pays.
    fn paid(&self, pairs: &Pairs, payload: &[u8]) -> i32 {
        let word = pairs.word(self.plan, &placed(&unpacked(&self.mask), payload));
        let paid = self.values.iter().zip(word);
        paid.map(|(&y, bit)| pay(y.into())[usize::from(bit)]).sum()
    }

    /// Turns the values to another payload: what was a word of the frame is then that word plus the one of this payload.
    fn turn(&mut self, pairs: &Pairs, payload: &[u8]) {
        let word = pairs.word(self.plan, &placed(&unpacked(&self.mask), payload));
        for (y, bit) in self.values.iter_mut().zip(word) {
            if bit {
                *y = -*y;
            }
        }
    }

    /// The outcome and both buffers after a call.
    fn call(&self) -> Answered {
        let (mut scratch, mut payload) = (self.scratch.clone(), self.payload.clone());
        let outcome = list_decode(
            self.plan,
            self.list,
            &self.values,
            &self.mask,
            &mut scratch,
            &mut payload,
        );
        (outcome, scratch, payload)
    }

    fn wrong(&self, tally: &mut Tally, what: &str, why: std::fmt::Arguments) {
        tally.wrong(format_args!(
            "{what}, {:?}, list {}, {} values, mask {:02x?}, rooms {} and {}: {why}",
            self.plan,
            self.list,
            self.values.len(),
            self.mask,
            self.scratch.len(),
            self.payload.len()
        ));
    }

    /// The outcome and both buffers that the paper gives a request that is refused before all decoding, or has these paths.
    fn settled(&self, found: Option<&Found>) -> Answered {
        let (mut scratch, mut payload) = (self.scratch.clone(), self.payload.clone());
        let Some(found) = found else {
            return (self.refusal().unwrap(), scratch, payload);
        };
        let mut outcome = PenaltyOutcome {
            number: 13,
            place: 0,
            penalty: 0,
        };
        if let Some(i) = found.best() {
            let (bytes, penalty) = &found.answers[i];
            (outcome.number, outcome.penalty) = (0, *penalty as u32);
            payload[..bytes.len()].copy_from_slice(bytes);
        }
        scratch[..SCRATCH].fill(0);
        (outcome, scratch, payload)
    }

    /// What was wanted and what came instead.
    fn differs(
        &self,
        tally: &mut Tally,
        what: &str,
        found: Option<&Found>,
        want: &Answered,
        got: &Answered,
    ) {
        let bytes = self.payload.len().min(self.marked() / 8);
        let kept = [got.1 == want.1, got.2[bytes..] == want.2[bytes..]];
        self.wrong(
            tally,
            what,
            format_args!(
                "wanted {:?} and {:02x?}, got {:?} and {:02x?}; scratch and what lies past the payload right: {kept:?}; \
                 final paths: {:02x?}",
                want.0,
                &want.2[..bytes],
                got.0,
                &got.2[..bytes],
                found.map(|found| &found.answers)
            ),
        );
    }

    /// Outcome and buffers. The final paths, where the request passes the checks.
    fn compare(&self, tally: &mut Tally, what: &str, pairs: &Pairs) -> Option<Found> {
        let found = match self.refusal() {
            Some(_) => None,
            None => Some(self.found(pairs)),
        };
        let (want, got) = (self.settled(found.as_ref()), self.call());
        if got != want {
            self.differs(tally, what, found.as_ref(), &want, &got);
        }
        let found = found?;
        let answered = &got.2[..self.marked() / 8];
        if got.0.number == 0 && self.paid(pairs, answered) != got.0.penalty as i32 {
            let why = format_args!("{:?} is not what the word of {answered:02x?} pays", got.0);
            self.wrong(tally, what, why);
        }
        if self.list == 1 {
            self.beside_frame_decode(tally, what, got.0, answered);
        }
        Some(found)
    }

    /// With one path it is frame decode's payload and last penalty, where the checksum agrees.
    fn beside_frame_decode(
        &self,
        tally: &mut Tally,
        what: &str,
        got: PenaltyOutcome,
        answered: &[u8],
    ) {
        let (mut scores, mut penalties) = ([0; 256], [0; 256]);
        let mut payload = vec![0; self.marked() / 8];
        let single = frame_decode(
            self.plan,
            &self.values,
            &self.mask,
            &mut scores,
            &mut penalties,
            &mut payload,
        );
        let same = if agrees(&payload) {
            got.number == 0 && payload == answered && got.penalty == penalties[255]
        } else {
            got.number == 13
        };
        if single.number != 0 || !same {
            self.wrong(
                tally,
                what,
                format_args!(
                    "{got:?} with {answered:02x?}, but frame decode has {single:?}, {payload:02x?} and {}",
                    penalties[255]
                ),
            );
        }
    }
}

/// What was met among the requests that pass the checks.
#[derive(Default)]
struct Met {
    /// By the place of the path that is answered.
    places: [u64; 8],
    /// None agrees.
    refused: u64,
    /// A path that does not agree has a lower penalty than the one that is answered.
    lower: u64,
    /// Several agree;
    several: u64,
    /// of them the best is not the first,
    behind: u64,
    /// and two or more have the least penalty.
    equal: u64,
}

impl Met {
    fn add(&mut self, found: &Found) {
        let Some(best) = found.best() else {
            self.refused += 1;
            return;
        };
        let least = found.penalty(best);
        let is_least = |&&i: &&usize| found.penalty(i) == least;
        let equal = found.agreeing.iter().filter(is_least);
        self.places[best] += 1;
        self.lower += u64::from(found.answers.iter().any(|answer| answer.1 < least));
        self.several += u64::from(found.agreeing.len() > 1);
        self.behind += u64::from(best != found.agreeing[0]);
        self.equal += u64::from(equal.count() > 1);
    }

    fn report(&self, tally: &mut Tally) {
        tally.line(
            format_args!(
                "of them, by the place of the path that is answered: {:?}; none agrees: {}; one that does not agree pays less: {}",
                self.places, self.refused, self.lower
            ),
            0,
        );
        tally.line(
            format_args!(
                "several agree: {}, the best is not the first of them: {}, several have the least penalty: {}",
                self.several, self.behind, self.equal
            ),
            0,
        );
    }
}

/// All pairs with every length of the list and every size, the kinds of values in turn. Two frames of three are turned to
/// another payload, so that the checksum of some final path, any of them, agrees; but where ties are settled by symbols, it
/// may not be kept then.
fn frames(
    tally: &mut Tally,
    pairs: &Pairs,
    random: &mut Random,
    name: &str,
    sizes: &[usize],
    kinds: &[usize],
) {
    let order = order(&pairs.kernels[2]);
    let mut met = Met::default();
    let mut cases = 0;
    for (round, &k) in sizes.iter().enumerate() {
        for turn in 0..72 {
            let plan = Plan::number(2, turn);
            let mask = mask(random, &order, k);
            let mut sent = bytes(random, k / 8);
            if !random.once_in(6) {
                sent = with_checksum(&sent);
            }
            let word = pairs.word(plan, &placed(&unpacked(&mask), &sent));
            let values = values(random, kinds[(turn + 3 * round) % kinds.len()], &word);
            let mut request = Request::new(random, plan, 1 + turn / 9, &values, &mask);
            if !random.once_in(3) {
                let answers = request.found(pairs).answers;
                let from = &answers[number(random, 0, answers.len() - 1)].0;
                let to = match random.between(0, 3) {
                    0 => with_checksum(&bytes(random, k / 8)),
                    _ => with_checksum(from),
                };
                let other: Vec<u8> = from.iter().zip(&to).map(|(a, b)| a ^ b).collect();
                request.turn(pairs, &other);
            }
            let found = request.compare(tally, name, pairs).unwrap();
            tally.expect(
                found.answers.len() == request.list,
                format_args!(
                    "a list of {} has {} paths",
                    request.list,
                    found.answers.len()
                ),
            );
            met.add(&found);
            cases += 1;
        }
    }
    tally.group(name, cases);
    met.report(tally);
    tally.expect(
        met.refused > 0 && met.places.iter().all(|&count| count > 0),
        format_args!("{name}: not every place of a list was met, or not 13"),
    );
}

/// Two payloads of k bits with a right checksum: they differ by the polynomial.
fn two_payloads(random: &mut Random, k: usize) -> [Vec<u8>; 2] {
    let first = with_checksum(&bytes(random, k / 8));
    let shift = number(random, 0, k - 17);
    let mut polynomial = vec![false; k];
    for i in [0, 4, 11, 16] {
        polynomial[shift + i] = true;
    }
    let both = first.iter().zip(packed(&polynomial));
    let second: Vec<u8> = both.map(|(a, b)| a ^ b).collect();
    assert!(agrees(&first) && agrees(&second));
    [first, second]
}

/// How the values tell two payloads apart: by this much at most for the first, where their words differ; and whether that
/// word has 1 at an unmarked phase after all marked ones, so that the first leads, or is level, only until then.
const TOLD: [(i16, bool); 4] = [(0, false), (0, true), (1, true), (1, false)];

/// A frame of two near payloads that both agree, for a list of so many. The k marked phases are those of the largest distances
/// below some end.
fn near(
    random: &mut Random,
    pairs: &Pairs,
    plan: Plan,
    list: usize,
    k: usize,
    (most, late): (i16, bool),
) -> Request {
    let end = number(random, 160, 255);
    let mut phases: Vec<usize> = (0..end).collect();
    phases.sort_by_key(|&i| Reverse(pairs.distance(plan, i)));
    let marks = marks_at(&phases[..k], 256);
    let mut symbols = two_payloads(random, k).map(|payload| placed(&marks, &payload));
    if late {
        let phase = (end..256).min_by_key(|&i| pairs.distance(plan, i));
        symbols[0][phase.unwrap()] = true;
    }
    let [first, second] = symbols.map(|symbols| pairs.word(plan, &symbols));
    let values = first.iter().zip(second).map(|(&one, other)| {
        let size = if one == other {
            90
        } else {
            random.between(0, most)
        };
        (if one { -size } else { size }) as i8
    });
    let values: Vec<i8> = values.collect();
    Request::new(random, plan, list, &values, &packed(&marks))
}

/// Two payloads with a right checksum whose words the values hardly tell apart, at all pairs with every length of the list.
fn several(tally: &mut Tally, pairs: &Pairs, random: &mut Random) {
    let mut met = Met::default();
    let turns = 1008;
    for turn in 0..turns {
        let plan = Plan::number(2, turn);
        let k = [24, 32, 64, 128][number(random, 0, 3)];
        let request = near(
            random,
            pairs,
            plan,
            1 + turn / 9 % 8,
            k,
            TOLD[turn / 72 % 4],
        );
        met.add(&request.compare(tally, "several agree", pairs).unwrap());
    }
    tally.group("frames with two near payloads that agree", turns as u64);
    met.report(tally);
    tally.expect(
        [met.refused, met.lower, met.several, met.behind, met.equal]
            .iter()
            .all(|&count| count > 0),
        format_args!("several agree: not every case was met"),
    );
}

/// A request that passes the checks: any pair and list, small values, and from 24 phases on.
fn request(random: &mut Random) -> Request {
    let plan = Plan::any(random, 2);
    let values: Vec<i8> = (0..256).map(|_| random.between(-9, 9) as i8).collect();
    let mut marks = [false; 256];
    marks[..8 * number(random, 3, 32)].fill(true);
    let list = number(random, 1, 8);
    Request::new(random, plan, list, &values, &packed(&marks))
}

/// Compares a request that must be refused.
fn compare_refused(tally: &mut Tally, what: &str, pairs: &Pairs, request: &Request) {
    tally.expect(
        request.refusal().is_some(),
        format_args!("{what}: not refused"),
    );
    request.compare(tally, what, pairs);
}

/// Numbers that no kernel has, as inner and as outer kernel, alone and with every other fault.
fn no_kernel(tally: &mut Tally, pairs: &Pairs, random: &mut Random) {
    let mut cases = 0;
    for kernel in 3..=u8::MAX {
        let other = random.between(0, 2) as u8;
        for pair in [[kernel, other], [other, kernel]] {
            let mut request = request(random);
            request.plan = Plan::of(&pair);
            compare_refused(tally, "no kernel", pairs, &request);
            request.list = 9;
            request.values[7] = -128;
            request.values.push(0);
            request.mask.fill(0);
            request.payload.clear();
            request.scratch.truncate(SCRATCH - 1);
            compare_refused(tally, "no kernel and more", pairs, &request);
            cases += 2;
        }
    }
    tally.group("list decode, kernels 3 to 255 refused", cases);
}

/// Every count of layers but two, alone, with no kernel, with a list too long, and with every other fault.
fn layers(tally: &mut Tally, pairs: &Pairs, random: &mut Random) {
    let mut cases = 0;
    for layers in (0..=u8::MAX).filter(|&layers| layers != 2) {
        let mut request = request(random);
        request.plan.layers = layers;
        compare_refused(tally, "layers", pairs, &request);
        let list = request.list;
        request.list = 9;
        compare_refused(tally, "layers and a list", pairs, &request);
        request.list = list;
        request.plan.kernels = [3, 255, 7];
        compare_refused(tally, "layers and no kernel", pairs, &request);
        request.list = 0;
        request.values.truncate(16);
        request.mask.truncate(2);
        request.payload.clear();
        request.scratch.clear();
        compare_refused(tally, "layers and more", pairs, &request);
        cases += 4;
    }
    tally.group("list decode, other layers than two refused", cases);
}

/// Lengths of the list outside 1 to 8, alone and with every later fault.
fn lists(tally: &mut Tally, pairs: &Pairs, random: &mut Random) {
    let mut cases = 0;
    let far =
        [0, 1 << 8, 1 << 16, 1 << 32, 1 << 63].map(|high: usize| (0..9).map(move |low| high + low));
    let near = 9..256;
    let outside = near.chain(far.into_iter().flatten()).chain([usize::MAX]);
    for list in outside.filter(|list| !(1..=8).contains(list)) {
        let mut request = request(random);
        request.list = list;
        compare_refused(tally, "a list too long or of none", pairs, &request);
        request.values[9] = -128;
        request.mask.truncate(31);
        request.scratch.clear();
        compare_refused(
            tally,
            "a list too long or of none, and more",
            pairs,
            &request,
        );
        cases += 2;
    }
    tally.group("list decode, lengths of the list", cases);
}

/// Every count of marked phases that is refused, alone and with every later fault; and 24, the least.
fn sizes(tally: &mut Tally, pairs: &Pairs, random: &mut Random) {
    let mut cases = 0;
    for k in 0..=256 {
        let marks = marks_below(random, k, 256);
        let mut request = request(random);
        request.mask = packed(&marks);
        request.payload = bytes(random, k / 8);
        if request.refusal().is_none() && k != 24 {
            continue;
        }
        request.compare(tally, "a size", pairs);
        request.values[200] = -128;
        request.payload.pop();
        request.scratch.pop();
        compare_refused(tally, "a size and more", pairs, &request);
        cases += 2;
    }
    tally.group("list decode, counts of marked phases", cases);
}

/// A value of -128 at every place, alone and with a second one above it.
fn out_of_range(tally: &mut Tally, pairs: &Pairs, random: &mut Random) {
    let mut cases = 0;
    for place in 0..256 {
        let mut request = request(random);
        request.values[place] = -128;
        compare_refused(tally, "-128", pairs, &request);
        request.values[place + (255 - place) / 2] = -128;
        compare_refused(tally, "-128 twice", pairs, &request);
        cases += 2;
    }
    let mut request = request(random);
    request.values.fill(-127);
    request.compare(tally, "all -127", pairs);
    tally.group("list decode, a value out of range", cases + 1);
}

/// Every combination of lengths, right and wrong, with a mask of 256 phases, 255, 16 and none.
fn lengths(tally: &mut Tally, pairs: &Pairs, random: &mut Random) {
    let mut cases = 0;
    let first = request(random);
    let longest = bytes(random, SCRATCH + 1);
    for count in [0, 1, 255, 256, 257, 512] {
        for length in [0, 1, 31, 32, 33, 64] {
            for (scratch, payload) in [
                (SCRATCH, 32),
                (SCRATCH, 31),
                (SCRATCH + 1, 0),
                (SCRATCH - 1, 32),
                (SCRATCH - 1, 33),
                (0, 32),
                (0, 0),
            ] {
                for marked in [256, 255, 16, 0] {
                    let mut request = first.clone();
                    request.values.resize(count, 3);
                    let marks: Vec<bool> = (0..8 * length).map(|i| i < marked).collect();
                    request.mask = packed(&marks);
                    request.scratch = longest[..scratch].to_vec();
                    request.payload = longest[..payload].to_vec();
                    // Accepted requests have groups of their own.
                    if request.refusal().is_some() {
                        request.compare(tally, "lengths", pairs);
                        cases += 1;
                    }
                }
            }
        }
    }
    tally.group("list decode, lengths of all buffers", cases);
}

/// Requests with some of their parts spoiled: the first condition that holds, its place, and every buffer.
fn requests(tally: &mut Tally, pairs: &Pairs, random: &mut Random) {
    let turns = 3000;
    let mut met = [0u64; 15];
    for _ in 0..turns {
        let mut request = request(random);
        spoil(random, &mut request);
        match request.refusal() {
            Some(refusal) => {
                request.compare(tally, "a request", pairs);
                met[refusal.number as usize] += 1;
            }
            None => {
                // Some frames of a right checksum, with no noise.
                if random.once_in(2) {
                    let sent = with_checksum(&bytes(random, request.marked() / 8));
                    request.values.fill(4);
                    request.turn(pairs, &sent);
                }
                let found = request.compare(tally, "a request", pairs).unwrap();
                met[if found.agreeing.is_empty() { 13 } else { 0 }] += 1;
            }
        }
    }
    tally.group("requests of list decode", turns);
    tally.line(format_args!("of them, by the number answered: {met:?}"), 0);
    tally.expect(
        [0, 1, 2, 3, 5, 6, 11, 12, 13, 14]
            .iter()
            .all(|&n| met[n] > 0),
        format_args!("not every condition was met: {met:?}"),
    );
}

/// Each part of a request is spoiled now and then.
fn spoil(random: &mut Random, request: &mut Request) {
    if random.once_in(8) {
        request.plan.layers = random.between(0, 4) as u8;
    }
    if random.once_in(8) {
        request.plan.kernels[0] = random.word() as u8;
    }
    if random.once_in(8) {
        request.plan.kernels[1] = random.between(0, 4) as u8;
    }
    if random.once_in(4) {
        request.list = [0, 9, 10, 257, 1 << 32][number(random, 0, 4)];
    }
    if random.once_in(5) {
        request.values.resize(number(random, 254, 258), 0);
    }
    for _ in 0..random.between(0, 2) {
        let at = number(random, 0, request.values.len() - 1);
        request.values[at] = -128;
    }
    if random.once_in(5) {
        request.mask.resize(number(random, 30, 34), 0xff);
    }
    if random.once_in(4) {
        let at = number(random, 0, request.mask.len() - 1);
        request.mask[at] = random.word() as u8;
    }
    if random.once_in(5) {
        let bytes = number(random, 0, 3);
        request.mask.fill(0);
        request.mask[..bytes].fill(0xff);
    }
    let k = request.marked();
    request.payload = bytes(random, k / 8 + 2);
    if random.once_in(5) {
        request.payload.truncate((k / 8).saturating_sub(1));
    }
    if random.once_in(5) {
        request
            .scratch
            .truncate([0, 4096, SCRATCH - 1][number(random, 0, 2)]);
    }
}
