//! What the two peers share: intervals, the cases, their checksums and times.
//!
//! An interval has a lower and an upper end in units of 2^-48. A lower end is rounded down and an upper end up, and a
//! difference is cut at 0.

use std::env;
use std::hint::black_box;
use std::time::Instant;

/// How many binary places the ends have.
pub const F: u32 = 48;

/// One whole, in units of the last place.
pub const ONE: u128 = 1 << F;

/// The stocks of a table are 0 to 63.
pub const STOCKS: usize = 64;

#[derive(Clone, Copy, PartialEq, Eq, Debug)]
pub struct Iv {
    pub lo: u128,
    pub hi: u128,
}

impl Iv {
    pub fn exact(k: u32) -> Iv {
        let end = u128::from(k) * ONE;
        Iv { lo: end, hi: end }
    }

    pub fn of_ratio(num: u32, den: u32) -> Iv {
        let (num, den) = (u128::from(num) * ONE, u128::from(den));
        Iv {
            lo: num / den,
            hi: num.div_ceil(den),
        }
    }

    pub fn add(self, b: Iv) -> Iv {
        Iv {
            lo: self.lo + b.lo,
            hi: self.hi + b.hi,
        }
    }

    pub fn less(self, b: Iv) -> Iv {
        Iv {
            lo: self.lo.saturating_sub(b.hi),
            hi: self.hi.saturating_sub(b.lo),
        }
    }

    pub fn times(self, k: u32) -> Iv {
        Iv {
            lo: self.lo * u128::from(k),
            hi: self.hi * u128::from(k),
        }
    }

    pub fn div(self, b: Iv) -> Iv {
        Iv {
            lo: (self.lo << F) / b.hi,
            hi: (self.hi << F).div_ceil(b.lo),
        }
    }

    pub fn max_of(self, b: Iv) -> Iv {
        Iv {
            lo: self.lo.max(b.lo),
            hi: self.hi.max(b.hi),
        }
    }
}

/// The cases: a mean and a variance in ten-thousandths. Table i of a case has i mod 97 and i mod 89 of them more.
const CASES: [(u32, u32); 5] = [
    (5_000, 5_000),
    (46_594, 60_000),
    (200_000, 200_000),
    (200_000, 800_000),
    (2_000_000, 2_000_000),
];

/// Makes as many tables of each case as the first word says, and prints a line for each: its checksum, and the time of a table.
/// `table` makes one, and `ends` takes from it the lower end of the backorders at 7 and the upper end of their variance at 9.
pub fn run<T>(table: fn(Iv, Iv) -> T, ends: fn(&T) -> (u128, u128)) {
    let count = env::args().nth(1).and_then(|word| word.parse().ok()).unwrap_or(5);
    for (mean, variance) in CASES {
        let start = Instant::now();
        let mut sum = 0;
        for i in 0..count {
            let made = table(
                black_box(Iv::of_ratio(mean + i % 97, 10_000)),
                black_box(Iv::of_ratio(variance + i % 89, 10_000)),
            );
            let (low, high) = ends(black_box(&made));
            sum ^= low ^ high;
        }
        let spent = start.elapsed().as_nanos() / u128::from(count.max(1));
        println!("mean {mean} variance {variance} checksum {sum} nanoseconds {spent}");
    }
}
