//! Numbers with a lower and an upper end, and quotients of them without divisions.

/// How many binary places the ends have.
pub const F: u32 = 48;

/// One whole, in units of the last place.
pub const ONE: u64 = 1 << F;

/// A lower and an upper end in units of 2^-48. The lower one is rounded down and the upper one up.
#[derive(Clone, Copy, Default, PartialEq, Debug)]
pub struct Iv {
    pub lo: u64,
    pub hi: u64,
}

/// Exactly one.
pub const UNIT: Iv = Iv { lo: ONE, hi: ONE };

/// A product of two numbers of 48 places, rounded down.
#[inline(always)]
pub fn product_down(a: u64, b: u64) -> u64 {
    ((u128::from(a) * u128::from(b)) >> F) as u64
}

/// The same rounded up.
#[inline(always)]
fn product_up(a: u64, b: u64) -> u64 {
    ((u128::from(a) * u128::from(b) + u128::from(ONE - 1)) >> F) as u64
}

impl Iv {
    /// The sum.
    #[inline(always)]
    pub fn add(self, b: Iv) -> Iv {
        Iv { lo: self.lo + b.lo, hi: self.hi + b.hi }
    }

    /// The difference, cut at 0.
    #[inline(always)]
    pub fn less(self, b: Iv) -> Iv {
        Iv { lo: self.lo.saturating_sub(b.hi), hi: self.hi.saturating_sub(b.lo) }
    }

    /// The product.
    #[inline(always)]
    pub fn mul(self, b: Iv) -> Iv {
        Iv { lo: product_down(self.lo, b.lo), hi: product_up(self.hi, b.hi) }
    }

    /// The same with no end above a cap.
    #[inline(always)]
    pub fn capped(self, cap: u64) -> Iv {
        Iv { lo: self.lo.min(cap), hi: self.hi.min(cap) }
    }

    /// The larger one, end by end.
    #[inline(always)]
    pub fn max_of(self, b: Iv) -> Iv {
        Iv { lo: self.lo.max(b.lo), hi: self.hi.max(b.hi) }
    }

    /// The quotient by a whole number.
    pub fn over(self, k: u64) -> Iv {
        Iv { lo: self.lo / k, hi: self.hi.div_ceil(k) }
    }
}

/// The high 64 bits of a product.
#[inline(always)]
pub fn high(a: u64, b: u64) -> u64 {
    ((u128::from(a) * u128::from(b)) >> 64) as u64
}

/// The inverse to eight places or so, by the nine leading bits of a number.
static FIRST_PLACES: [u16; 256] = {
    let mut table = [0; 256];
    let mut k = 0;
    while k < 256 {
        table[k] = ((1 << 20) / (2 * k + 513)) as u16;
        k += 1;
    }
    table
};

/// 2^127 over a number whose first bit is set: at most that, and less than 8 below it. Three steps of Newton's, each
/// with twice the places of the one before. What a step multiplies is rounded so that nothing comes out above the
/// inverse.
#[inline(always)]
pub fn inverse_of(number: u64) -> u64 {
    let first = u64::from(FIRST_PLACES[((number >> 55) & 255) as usize]);
    let top = (number >> 32) + 1;
    let second = (first * ((1 << 43) - top * first)) >> 21 << 32;
    let third = high(second, (high(number, second) + 1).wrapping_neg());
    let near_one = ((u128::from(number) * u128::from(third)) >> 63) as u64 + 1;
    ((u128::from(third) * u128::from(near_one.wrapping_neg())) >> 62) as u64
}

/// A divisor from one whole to 2^62 units, with its inverse.
#[derive(Clone, Copy)]
pub struct Divisor {
    pub value: u64,
    inverse: u64,
    down: u32,
}

impl Divisor {
    /// A divisor, with its inverse.
    #[inline(always)]
    pub fn new(value: u64) -> Divisor {
        let places = value.leading_zeros();
        Divisor { value, inverse: inverse_of(value << places), down: 63 - F - places }
    }

    /// The quotient of a number below 2^63 units by the divisor, rounded down, and what is left. The guess by the
    /// inverse isn't above the quotient, and what is left says how far below it is.
    #[inline(always)]
    pub fn quotient(self, number: u64) -> (u64, u64) {
        let mut whole = high(number, self.inverse) >> self.down;
        let mut left = (number << F).wrapping_sub(whole.wrapping_mul(self.value));
        while left >= self.value {
            left -= self.value;
            whole += 1;
        }
        (whole, left)
    }

    /// The quotient rounded down.
    #[inline(always)]
    pub fn down(self, number: u64) -> u64 {
        self.quotient(number).0
    }

    /// The quotient rounded up.
    #[inline(always)]
    pub fn up(self, number: u64) -> u64 {
        let (whole, left) = self.quotient(number);
        whole + u64::from(left != 0)
    }
}

/// The last index that weights may have, and one more.
pub const LAST: usize = 1024;

/// What a number below 2^59 is multiplied with, and then shifted by, to divide it by an index.
static BY_INDEX: [(u64, u32); LAST + 2] = {
    let mut table = [(0, 0); LAST + 2];
    let mut x = 1;
    while x < LAST + 2 {
        let places = (x - 1 + (x == 1) as usize).ilog2() + (x > 1) as u32;
        table[x] = ((1u128 << (59 + places)).div_ceil(x as u128) as u64, places);
        x += 1;
    }
    table
};

/// A number below 2^59 over an index, rounded down.
#[inline(always)]
pub fn over_index(number: u64, x: usize) -> u64 {
    let (factor, places) = BY_INDEX[x];
    high(number << 5, factor) >> places
}
