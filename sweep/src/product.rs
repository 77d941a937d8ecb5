//! The value of an amplitude under a scale. Both are bit patterns of f32 here, and all is found in whole numbers: no
//! number is multiplied, divided or rounded by the processor's floats.
use std::cmp::Ordering;

/// The pattern of 1.0.
pub const ONE: u32 = 0x3f80_0000;

/// The pattern of 32.0.
pub const THIRTY_TWO: u32 = 0x4200_0000;

/// The greatest finite number.
pub const LARGEST: u32 = 0x7f7f_ffff;

/// The least number above zero.
pub const SMALLEST: u32 = 1;

/// The bit of the sign.
pub const SIGN: u32 = 0x8000_0000;

pub fn is_finite(pattern: u32) -> bool {
    (pattern >> 23) & 0xff != 0xff
}

/// Whether it is a finite number above zero.
pub fn is_scale(pattern: u32) -> bool {
    (SMALLEST..=LARGEST).contains(&pattern)
}

/// Below 2^-126, zero among them.
pub fn is_subnormal(pattern: u32) -> bool {
    (pattern >> 23) & 0xff == 0
}

/// Whether a whole part goes up, by how the rest lies to a half.
pub type Rule = fn(u64, Ordering) -> bool;

/// To the nearest, a half to the even neighbour: the rounding of f32.
pub fn half_to_even(whole: u64, rest: Ordering) -> bool {
    match rest {
        Ordering::Less => false,
        Ordering::Equal => whole % 2 == 1,
        Ordering::Greater => true,
    }
}

/// To the nearest, a half to the neighbour farther from zero.
pub fn half_outward(_: u64, rest: Ordering) -> bool {
    rest.is_ge()
}

/// Digits without the last ones, that is divided by 2^dropped, to a whole number by a rule. Above 62 it is 62 that are
/// dropped: digits below 2^48 are far below a half then, and so they are with more dropped.
fn without_last(digits: u64, dropped: i32, rule: Rule) -> u64 {
    let dropped = dropped.min(62);
    let (whole, rest) = (digits >> dropped, digits & ((1 << dropped) - 1));
    whole + u64::from(rule(whole, (2 * rest).cmp(&(1 << dropped))))
}

/// The size of a number: digits × 2^power. The digits are below 2^48.
#[derive(Clone, Copy)]
pub struct Size {
    pub digits: u64,
    pub power: i32,
}

/// Halfway from the greatest finite number to 2^128. A product overflows from here on.
pub const OVERFLOW: Size = Size {
    digits: 0x1ff_ffff,
    power: 103,
};

impl Size {
    /// The size of a finite number.
    pub fn of(pattern: u32) -> Size {
        let low = u64::from(pattern & 0x7f_ffff);
        match (pattern >> 23) & 0xff {
            0 => Size {
                digits: low,
                power: -149,
            },
            field => Size {
                digits: low + 0x80_0000,
                power: field as i32 - 150,
            },
        }
    }

    /// The exact product of two finite numbers.
    pub fn product(scale: u32, amplitude: u32) -> Size {
        let (s, x) = (Size::of(scale), Size::of(amplitude));
        Size {
            digits: s.digits * x.digits,
            power: s.power + x.power,
        }
    }

    /// The power of the least power of two above it; zero has none.
    pub fn top(self) -> i32 {
        self.power + (64 - self.digits.leading_zeros() as i32)
    }

    /// To compare by.
    fn key(self) -> Option<(i32, u64)> {
        let Size { digits, .. } = self;
        (digits > 0).then(|| (self.top(), digits << digits.leading_zeros()))
    }

    pub fn cmp(self, other: Size) -> Ordering {
        self.key().cmp(&other.key())
    }

    /// Rounded in f32, which has 24 digits and none below 2^-149; none where it overflows, at 2^128 or above.
    pub fn in_f32(self, rule: Rule) -> Option<Size> {
        let least = (self.top() - 24).max(-149);
        let dropped = (least - self.power).max(0);
        let rounded = Size {
            digits: without_last(self.digits, dropped, rule),
            power: self.power + dropped,
        };
        (rounded.digits == 0 || rounded.top() <= 128).then_some(rounded)
    }

    /// To a whole number. Any size from 2^10 on is far above the range, so that no power above 10 is needed.
    fn whole(self, rule: Rule) -> u64 {
        if self.power >= 0 {
            self.digits << self.power.min(10)
        } else {
            without_last(self.digits, -self.power, rule)
        }
    }
}

/// A way from a scale and a finite amplitude to a value.
#[derive(Clone, Copy)]
pub struct Way {
    /// What is multiplied.
    pub factors: fn(u32, u32) -> (u32, u32),
    /// How the product is rounded in f32, if it is.
    pub product: Option<Rule>,
    /// How it goes to a whole number, above zero and below it.
    pub whole: [Rule; 2],
    /// What an overflowed product goes to.
    pub overflowed: u64,
    /// Where the range begins; it ends at 127.
    pub lowest: i16,
}

/// The paper's way.
pub const TRUE: Way = Way {
    factors: |scale, amplitude| (scale, amplitude),
    product: Some(half_to_even),
    whole: [half_outward; 2],
    overflowed: 127,
    lowest: -127,
};

/// Mistake: the exact product goes to the nearest whole number, and is not rounded in f32 before.
pub const EXACT: Way = Way {
    product: None,
    ..TRUE
};

impl Way {
    pub fn value(&self, scale: u32, amplitude: u32) -> i16 {
        let (s, x) = (self.factors)(scale, amplitude);
        let exact = Size::product(s, x);
        let product = match self.product {
            Some(rule) => exact.in_f32(rule),
            None => Some(exact),
        };
        let is_negative = amplitude & SIGN != 0;
        let rule = self.whole[usize::from(is_negative)];
        let size = product.map_or(self.overflowed, |product| product.whole(rule));
        let size = size.min(1000) as i16;
        if is_negative {
            (-size).max(self.lowest)
        } else {
            size.min(127)
        }
    }
}

/// The value of a finite amplitude.
pub fn value(scale: u32, amplitude: u32) -> i8 {
    TRUE.value(scale, amplitude) as i8
}

/// How far a value v lies from the exact product a/c limited to -127 to 127: |v·c - limited a|, and c.
///
/// c is cut to 2^64. Where it was above, the product is below 2^48 / 2^64, cut or not: v = 0 is nearer than 1/2 to it,
/// and every other v farther than 1/2 + 1/131072, cut or not. A power above 10 is cut to 10: above 127, cut or not.
pub fn distance(value: i8, scale: u32, amplitude: u32) -> (u128, u128) {
    let exact = Size::product(scale, amplitude);
    let c = 1i128 << (-exact.power).clamp(0, 64);
    let a = i128::from(exact.digits) << exact.power.clamp(0, 10);
    let limited = a.min(127 * c);
    let limited = if amplitude & SIGN == 0 {
        limited
    } else {
        -limited
    };
    ((i128::from(value) * c).abs_diff(limited), c as u128)
}

/// Whether a value lies within 1/2 + 1/131072 of the exact product limited to -127 to 127.
pub fn is_bounded(value: i8, scale: u32, amplitude: u32) -> bool {
    let (distance, c) = distance(value, scale, amplitude);
    distance * 131_072 <= 65_537 * c
}

/// The least pattern of an amplitude whose exact product has this size or more; infinity's where no finite one has it.
pub fn least(scale: u32, size: Size) -> u32 {
    let (mut low, mut high) = (0, LARGEST + 1);
    while low < high {
        let middle = (low + high) / 2;
        if Size::product(scale, middle).cmp(size).is_lt() {
            low = middle + 1;
        } else {
            high = middle;
        }
    }
    low
}

/// The finite patterns next to that one, above zero or zero, some on both sides.
pub fn near(scale: u32, size: Size, some: u32) -> Vec<u32> {
    let at = least(scale, size);
    (at.saturating_sub(some)..=(at + some).min(LARGEST)).collect()
}
