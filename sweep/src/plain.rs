//! The plain decoder that the library's is timed beside: every score, every penalty and the payload are the library's.
use plain_decoder::Decoder;

use crate::frame::{unpacked, word};
use crate::library::{Outcome, Plan};
use crate::paper::Kernel;
use crate::random::Random;
use crate::recorded::frame_decode;
use crate::tally::Tally;

/// What a decoder hands out. The plain decoder's scores and penalties have 16 bits.
struct Decoded {
    scores: [i32; 256],
    penalties: [u32; 256],
    payload: [u8; 32],
}

impl Decoded {
    /// The first phase whose score or penalty differs from another's.
    fn first_apart(&self, other: &Decoded) -> Option<usize> {
        (0..256)
            .find(|&i| self.scores[i] != other.scores[i] || self.penalties[i] != other.penalties[i])
    }
}

/// A mask of some multiple of 8 phases.
fn mask(random: &mut Random) -> [u8; 32] {
    let mut mask = [0; 32];
    let k = 8 * random.between(1, 32) as u32;
    while mask.iter().map(|byte: &u8| byte.count_ones()).sum::<u32>() < k {
        let phase = random.between(0, 255) as usize;
        mask[phase / 8] |= 0x80 >> (phase % 8);
    }
    mask
}

/// Values of some kind: any, small with ties, the two ends, or a sent word with noise.
fn values(random: &mut Random, kind: usize, sent: &[bool]) -> [i8; 256] {
    std::array::from_fn(|i| {
        let y = match kind {
            0 => random.between(-127, 127),
            1 => random.between(-2, 2),
            2 => [127, -127][random.between(0, 1) as usize],
            _ if sent[i] => random.between(-100, 40),
            _ => random.between(-40, 100),
        };
        y as i8
    })
}

/// A request of frame decode.
struct Request {
    plan: Plan,
    values: [i8; 256],
    mask: [u8; 32],
}

impl Request {
    /// One of the nine pairs, any mask, and values of the four kinds in turn.
    fn new(random: &mut Random, kernels: &[Kernel], turn: usize) -> Request {
        let plan = Plan::number(2, turn);
        let mask = mask(random);
        let marks = unpacked(&mask).into_iter();
        let symbols: Vec<bool> = marks.map(|marked| marked && random.once_in(2)).collect();
        let sent = word(&plan.layers_of(kernels), &symbols);
        Request {
            plan,
            values: values(random, turn / 9 % 4, &sent),
            mask,
        }
    }

    /// What the library answers, and hands out.
    fn library(&self) -> (Outcome, Decoded) {
        let mut decoded = Decoded {
            scores: [0; 256],
            penalties: [0; 256],
            payload: [0; 32],
        };
        let outcome = frame_decode(
            self.plan,
            &self.values,
            &self.mask,
            &mut decoded.scores,
            &mut decoded.penalties,
            &mut decoded.payload,
        );
        (outcome, decoded)
    }

    /// The same of the plain decoder.
    fn plain(&self, decoder: &Decoder) -> (Option<usize>, Decoded) {
        let [inner, outer, _] = self.plan.kernels;
        let (mut scores, mut penalties) = ([0; 256], [0; 256]);
        let mut payload = [0; 32];
        let bytes = decoder.frame_decode(
            inner,
            outer,
            &self.values,
            &self.mask,
            &mut scores,
            &mut penalties,
            &mut payload,
        );
        let decoded = Decoded {
            scores: scores.map(i32::from),
            penalties: penalties.map(u32::from),
            payload,
        };
        (bytes, decoded)
    }
}

pub fn sweep(tally: &mut Tally, kernels: &[Kernel]) {
    let decoder = Decoder::new();
    let mut random = Random::new(7);
    let turns = 900;
    for turn in 0..turns {
        let request = Request::new(&mut random, kernels, turn);
        let (outcome, want) = request.library();
        let (bytes, got) = request.plain(&decoder);
        let k: u32 = request.mask.iter().map(|byte| byte.count_ones()).sum();
        let apart = want.first_apart(&got);
        tally.expect(
            (outcome.number, outcome.place) == (0, 0)
                && bytes == Some(k as usize / 8)
                && apart.is_none()
                && want.payload == got.payload,
            format_args!(
                "plain decoder, {:?}: {outcome:?} and {bytes:?}, first phase apart {apart:?}, \
                 payloads {:02x?} and {:02x?}",
                request.plan, want.payload, got.payload
            ),
        );
    }
    tally.group(
        "frames by the plain decoder, 256 scores and penalties each",
        turns as u64,
    );
}
