//! A request of values from marks, what the paper says of it, and what random ones are made of. Scales and amplitudes
//! are bit patterns here.
use std::sync::atomic::{AtomicU64, Ordering};

use crate::frame::bit_of;
use crate::library::Outcome;
use crate::product::{
    is_bounded, is_finite, is_scale, least, value, Size, LARGEST, SIGN, THIRTY_TWO,
};
use crate::random::Random;
use crate::recorded::values_from_marks;
use crate::tally::Tally;

/// What an output buffer holds before a call; no amplitude gives it.
const UNTOUCHED: i8 = -128;

/// How much longer than needed it is.
pub const SPARE: usize = 44;

/// Both infinities, and NaNs: quiet and signalling, of both signs, with several payloads.
pub const NOT_FINITE: [u32; 12] = [
    0x7f80_0000,
    0xff80_0000,
    0x7fc0_0000,
    0xffc0_0000,
    0x7f80_0001,
    0xff80_0001,
    0x7fa0_0000,
    0xffbf_ffff,
    0x7fc0_0001,
    0xffd5_5555,
    0x7fff_ffff,
    0xffff_ffff,
];

/// Finite numbers that are not above zero.
pub const NOT_ABOVE_ZERO: [u32; 12] = [
    0,
    SIGN,
    0x8000_0001, // minus the least
    0x8000_0002,
    0x807f_ffff,
    0x8080_0000,
    0xb400_0000,
    0xbf80_0000, // -1
    0xc1ff_ffff,
    0xc200_0000, // -32
    0xff00_0000,
    0xff7f_ffff, // minus the greatest
];

/// How many values of heard amplitudes other than 0 were looked at for the bound.
static BOUNDED: AtomicU64 = AtomicU64::new(0);

/// The line of all values that were looked at for the bound. They belong to cases that are counted elsewhere.
pub fn report_bound(tally: &mut Tally) {
    let values = BOUNDED.load(Ordering::Relaxed);
    tally.line(
        format_args!("values looked at for the bound, of amplitudes other than 0: {values}"),
        0,
    );
}

/// One call: its outcome, and its buffer afterwards.
pub type Done = (Outcome, Vec<i8>);

#[derive(Clone)]
pub struct Request {
    pub scale: u32,
    pub amplitudes: Vec<u32>,
    pub blanked: Vec<u8>,
    pub room: usize,
}

impl Request {
    /// All marks heard.
    pub fn heard(scale: u32, amplitudes: &[u32]) -> Request {
        let mut amplitudes = amplitudes.to_vec();
        amplitudes.resize(256, 0);
        Request {
            scale,
            amplitudes,
            blanked: vec![0; 16],
            room: 256 + SPARE,
        }
    }

    pub fn blank(&mut self, mark: usize) {
        self.blanked[mark / 8] |= 0x80 >> (mark % 8);
    }

    /// A mark that a mask too short does not have counts as heard.
    pub fn is_heard(&self, amplitude: usize) -> bool {
        let mark = amplitude / 2;
        mark / 8 >= self.blanked.len() || !bit_of(&self.blanked, mark)
    }

    /// The lowest amplitude of a heard mark that is not finite.
    fn offender(&self) -> Option<usize> {
        (0..self.amplitudes.len()).find(|&i| self.is_heard(i) && !is_finite(self.amplitudes[i]))
    }

    /// Whether conditions 2, 5, 10 and 7 hold; that is the order of the checks.
    pub fn conditions(&self) -> [bool; 4] {
        [
            self.amplitudes.len() != 256 || self.blanked.len() != 16,
            self.room < 256,
            !is_scale(self.scale),
            self.offender().is_some(),
        ]
    }

    /// What the job must leave.
    pub fn settled(&self) -> Done {
        let (number, place) = match self.conditions() {
            [true, _, _, _] => (2, 0),
            [_, true, _, _] => (5, 0),
            [_, _, true, _] => (10, 0),
            [_, _, _, true] => (7, self.offender().unwrap()),
            _ => (0, 0),
        };
        let mut buffer = vec![UNTOUCHED; self.room];
        if number == 0 {
            for (i, to) in buffer[..256].iter_mut().enumerate() {
                *to = if self.is_heard(i) {
                    value(self.scale, self.amplitudes[i])
                } else {
                    0
                };
            }
        }
        (Outcome { number, place }, buffer)
    }

    fn call(&self) -> Done {
        let amplitudes: Vec<f32> = self
            .amplitudes
            .iter()
            .map(|&pattern| f32::from_bits(pattern))
            .collect();
        let scale = f32::from_bits(self.scale);
        let mut buffer = vec![UNTOUCHED; self.room];
        let outcome = values_from_marks(scale, &amplitudes, &self.blanked, &mut buffer);
        (outcome, buffer)
    }

    /// What the job left.
    pub fn compare(&self, tally: &mut Tally, what: &str) -> Done {
        let (want, got) = (self.settled(), self.call());
        if want != got {
            let place = (0..self.room).find(|&i| want.1[i] != got.1[i]);
            let values = place.map(|i| (i, self.amplitudes.get(i), want.1[i], got.1[i]));
            tally.wrong(format_args!(
                "{what}, scale {:08x}, {} amplitudes, mask {:02x?}, room {}: wanted {:?}, got {:?}; \
                 first difference (place, pattern, wanted, got): {values:x?}",
                self.scale,
                self.amplitudes.len(),
                self.blanked,
                self.room,
                want.0,
                got.0
            ));
        }
        if [want.0.number, got.0.number] == [0, 0] {
            self.bound(tally, what, &got.1);
        }
        got
    }

    /// The bound, for the value of every heard amplitude.
    fn bound(&self, tally: &mut Tally, what: &str, values: &[i8]) {
        let mut looked_at = 0;
        for (i, &pattern) in self.amplitudes.iter().enumerate() {
            if self.is_heard(i) {
                tally.expect(
                    is_bounded(values[i], self.scale, pattern),
                    format_args!(
                        "{what}: {} is too far from {:08x} times {pattern:08x}",
                        values[i], self.scale
                    ),
                );
                looked_at += u64::from(pattern & !SIGN != 0);
            }
        }
        BOUNDED.fetch_add(looked_at, Ordering::Relaxed);
    }
}

/// Compares finite amplitudes under a scale, 256 to a request; how many there are.
pub fn compare_all(tally: &mut Tally, what: &str, scale: u32, amplitudes: &[u32]) -> u64 {
    for some in amplitudes.chunks(256) {
        Request::heard(scale, some).compare(tally, what);
    }
    amplitudes.len() as u64
}

/// A pattern and the one with the other sign.
pub fn both_signs(pattern: u32) -> [u32; 2] {
    [pattern, pattern ^ SIGN]
}

/// The size of h half steps.
pub fn halves(h: u64) -> Size {
    Size {
        digits: h,
        power: -1,
    }
}

/// Any pattern.
pub fn pattern(random: &mut Random) -> u32 {
    (u32::from(random.word()) << 16) | u32::from(random.word())
}

/// Any finite number above zero.
pub fn any_scale(random: &mut Random) -> u32 {
    pattern(random) % LARGEST + 1
}

/// A finite number above zero: 32, a subnormal one, any, or one from about 2^-10 to 2^10.
pub fn scale(random: &mut Random) -> u32 {
    match random.between(0, 7) {
        0 | 1 => THIRTY_TWO,
        2 => (pattern(random) & 0x7f_ffff).max(1),
        3 | 4 => any_scale(random),
        _ => (pattern(random) & 0x7f_ffff) | ((random.between(117, 136) as u32) << 23),
    }
}

/// An amplitude of either sign whose product has a size from about 2^-4 to 2^9, as far as there are any.
pub fn in_range(random: &mut Random, scale: u32) -> u32 {
    let field = i32::from(random.between(124, 135)) - Size::of(scale).top();
    (pattern(random) & 0x807f_ffff) | ((field.clamp(0, 254) as u32) << 23)
}

/// An amplitude of either sign whose product is a half step or next to one, as far as there are any.
pub fn near_step(random: &mut Random, scale: u32) -> u32 {
    let at = least(scale, halves(random.between(0, 260) as u64));
    let near = match random.between(0, 3) {
        0 => at + 1,
        1 => at.saturating_sub(1),
        _ => at,
    };
    both_signs(near.min(LARGEST))[random.between(0, 1) as usize]
}

/// A finite amplitude: its product next to a half step or in range, or itself with any even exponent or subnormal.
pub fn amplitude(random: &mut Random, scale: u32) -> u32 {
    match random.between(0, 7) {
        0 => near_step(random, scale),
        1 => pattern(random) & 0xff7f_ffff,
        2 => pattern(random) & 0x807f_ffff,
        _ => in_range(random, scale),
    }
}

/// A pattern that is not finite.
pub fn not_finite(random: &mut Random) -> u32 {
    let i = random.between(0, NOT_FINITE.len() as i16) as usize;
    match NOT_FINITE.get(i) {
        Some(&listed) => listed,
        None => pattern(random) | 0x7f80_0000,
    }
}

/// A pattern that is no scale.
pub fn refused_scale(random: &mut Random) -> u32 {
    let i = random.between(0, NOT_ABOVE_ZERO.len() as i16) as usize;
    match NOT_ABOVE_ZERO.get(i) {
        Some(&listed) if random.once_in(2) => listed,
        Some(_) => not_finite(random),
        None => pattern(random) | SIGN,
    }
}
