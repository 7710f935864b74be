//! The fast peer: the same tables with few divisions, in 64 bits where the numbers fit. It is for means that are above 0.
//!
//! - The quotient of a ratio's parts is carried from index to index by additions, and a division by the index is a product with
//!   its inverse and one comparison.
//! - Where a weight is at most one unit and no later ratio is above 1, the weights to index 63 are all the same.
//! - Shares of the sum are products with its inverse and a comparison or two.

mod harness;

use harness::{F, Iv, ONE, STOCKS};

/// A lower and an upper end, in 64 bits.
type Ends = (u64, u64);

/// The figures at one stock: the expected backorders, their variance, and the chance of more in the pipeline than the stock.
struct Row {
    ebo: Ends,
    vbo: Ends,
    tail: Ends,
}

/// 2^64 over each index, rounded down.
static INVERSES: [u64; 1026] = {
    let mut table = [u64::MAX; 1026];
    let mut x = 2;
    while x < 1026 {
        table[x] = ((1u128 << 64) / x as u128) as u64;
        x += 1;
    }
    table
};

/// `num / x`, rounded down, by the inverse of `x`, which falls short by 1 at most.
#[inline(always)]
fn over(num: u64, x: u32) -> u64 {
    let inverse = INVERSES[x as usize];
    let guess = ((u128::from(num) * u128::from(inverse)) >> 64) as u64;
    guess + u64::from(num - guess * u64::from(x) >= u64::from(x))
}

/// `num / den` rounded down and what is left, by a guess in floating point that is put right.
#[inline(always)]
fn guessed(num: u128, den: u64) -> (u64, u64) {
    let inverse = 1.0 / den as f64;
    let whole = (num as f64 * inverse) as u64;
    let left = num as i128 - i128::from(whole) * i128::from(den);
    let near = (left as f64 * inverse) as i64;
    let mut whole = (whole as i64 + near) as u64;
    let mut left = left as i64 - near * den as i64;
    while left < 0 {
        whole -= 1;
        left += den as i64;
    }
    while left as u64 >= den {
        whole += 1;
        left -= den as i64;
    }
    (whole, left as u64)
}

/// A quotient by a fixed divisor that gains a fixed step at a time.
#[derive(Clone, Copy)]
struct Carried {
    whole: u64,
    rest: u64,
    step: u64,
    step_rest: u64,
    divisor: u64,
}

impl Carried {
    /// The quotient of `num` whole ones, given in units, by `divisor` units; each step adds `more`.
    fn new(num: u128, more: u128, divisor: u128) -> Carried {
        let (num, more) = (num << F, more << F);
        let (whole, step) = (num / divisor, if more == 0 { 0 } else { more / divisor });
        Carried {
            whole: whole as u64,
            rest: (num - whole * divisor) as u64,
            step: step as u64,
            step_rest: (more - step * divisor) as u64,
            divisor: divisor as u64,
        }
    }

    /// So many steps at once.
    fn skip(&mut self, steps: u32) {
        let rest = u128::from(self.rest) + u128::from(self.step_rest) * u128::from(steps);
        let more = rest / u128::from(self.divisor);
        self.whole += self.step * u64::from(steps) + more as u64;
        self.rest = (rest - more * u128::from(self.divisor)) as u64;
    }

    #[inline(always)]
    fn next(&mut self) {
        self.whole += self.step;
        self.rest += self.step_rest;
        if self.rest >= self.divisor {
            self.rest -= self.divisor;
            self.whole += 1;
        }
    }
}

/// The ratios of the weights, index after index.
struct Ratios {
    low: Carried,
    high: Carried,
}

impl Ratios {
    fn at(mean: Iv, excess: Iv, x: u32) -> Ratios {
        let above = mean.add(excess.times(x - 1));
        Ratios {
            low: Carried::new(above.lo, excess.lo, ONE + excess.hi),
            high: Carried::new(above.hi, excess.hi, ONE + excess.lo),
        }
    }

    /// The ratio at `x`. They go on to the next index.
    #[inline(always)]
    fn take(&mut self, x: u32) -> Ends {
        let up = self.high.whole + u64::from(self.high.rest != 0);
        let ratio = (over(self.low.whole, x), over(up + u64::from(x - 1), x));
        self.low.next();
        self.high.next();
        ratio
    }
}

/// A product of two numbers of 48 places, rounded down and up.
#[inline(always)]
fn product(weight: Ends, ratio: Ends) -> Ends {
    let low = u128::from(weight.0) * u128::from(ratio.0);
    let high = u128::from(weight.1) * u128::from(ratio.1);
    ((low >> F) as u64, ((high + (ONE - 1)) >> F) as u64)
}

/// A list of weights and their sum.
struct Weighed {
    list: Vec<Ends>,
    sum: Ends,
}

/// The weights from the pivot down to 0, in their order, and None where one passes 8.
fn low_weights(mean: Iv, excess: Iv, pivot: u32) -> Option<Vec<Ends>> {
    let most = 8 * ONE as u64;
    let unit = ONE as u64;
    let step = Iv::exact(1).add(excess);
    let mut list = Vec::with_capacity(pivot as usize + 80);
    let mut last = (unit, unit);
    list.push(last);
    for x in (1..=pivot).rev() {
        let (above, below) = (step.times(x), mean.add(excess.times(x - 1)));
        let low = guessed(above.lo << F, below.hi as u64).0;
        let (high, left) = guessed(above.hi << F, below.lo as u64);
        last = product(last, (low, high + u64::from(left != 0)));
        if last.1 > most {
            return None;
        }
        list.push(last);
    }
    list.reverse();
    Some(list)
}

/// Whether all ratios from `x` on are at most 1.
fn falls(mean: Iv, excess: Iv, x: u32) -> bool {
    let above = mean.hi + excess.hi * u128::from(x - 1);
    above <= (ONE + excess.lo) * u128::from(x) && excess.hi <= ONE + excess.lo
}

/// The weights and their sum, and None where one passes 8 or the rest needn't fall.
fn weights(mean: Iv, excess: Iv) -> Option<Weighed> {
    let most = 8 * ONE as u64;
    let unit = ONE as u64;
    let pivot = (mean.less(excess).lo >> F) as u32;
    let mut list = low_weights(mean, excess, pivot)?;
    let far = (excess.hi << F).div_ceil(ONE + excess.hi) as u64;
    let mut ratios = Ratios::at(mean, excess, pivot + 1);
    let mut last = (unit, unit);
    let mut x = pivot + 1;
    while x < 63 {
        last = product(last, ratios.take(x));
        if last.1 > most {
            return None;
        }
        list.push(last);
        x += 1;
        if last == (0, 1) && falls(mean, excess, x) {
            list.resize(63, last);
            ratios.low.skip(63 - x);
            ratios.high.skip(63 - x);
            x = 63;
        }
    }
    let mut ratio = ratios.take(x);
    while x <= 1024 {
        last = product(last, ratio);
        if last.1 > most {
            return None;
        }
        list.push(last);
        ratio = ratios.take(x + 1);
        let bound = ratio.1.max(far);
        if bound < unit {
            let whole = u128::from(last.1) * u128::from(bound);
            let gap = u128::from(unit - bound);
            if whole <= 256 * gap || x == 1024 {
                let rest = if whole <= gap { u128::from(whole != 0) } else { whole.div_ceil(gap) };
                let mut sum = (0, rest as u64);
                for weight in &list {
                    sum.0 += weight.0;
                    sum.1 += weight.1;
                }
                return Some(Weighed { list, sum });
            }
        }
        x += 1;
    }
    None
}

/// 2^110 over a sum, by which shares of it are guessed.
fn inverse_of(sum: u64) -> u64 {
    ((1u128 << (F + 62)) / u128::from(sum)).min(u128::from(u64::MAX)) as u64
}

/// `weight / sum`, rounded down and up, by the inverses of the sum's ends.
#[inline(always)]
fn share(weight: Ends, sum: Ends, inverses: Ends) -> Ends {
    let mut low = ((u128::from(weight.0) * u128::from(inverses.1)) >> 62) as u64;
    let mut left = (u128::from(weight.0) << F) - u128::from(low) * u128::from(sum.1);
    while left >= u128::from(sum.1) {
        low += 1;
        left -= u128::from(sum.1);
    }
    let mut high = ((u128::from(weight.1) * u128::from(inverses.0)) >> 62) as u64;
    let mut left = (u128::from(weight.1) << F) - u128::from(high) * u128::from(sum.0);
    while left > 0 {
        high += 1;
        left = left.saturating_sub(u128::from(sum.0));
    }
    (low, high)
}

/// The row at a stock where the weights aren't known.
fn wide_row(mean: Ends, spread: Ends, stock: u64) -> Row {
    Row {
        ebo: (mean.0.saturating_sub(stock << F), mean.1),
        vbo: (0, spread.1),
        tail: (0, ONE as u64),
    }
}

/// A difference, cut at 0.
#[inline(always)]
fn less(a: Ends, b: Ends) -> Ends {
    (a.0.saturating_sub(b.1), a.1.saturating_sub(b.0))
}

/// The rows at the stocks 0 to 63.
fn table(mean: Iv, variance: Iv) -> Vec<Row> {
    let excess = variance.div(mean).less(Iv::exact(1));
    let start = variance.max_of(mean);
    let mut ebo = (mean.lo as u64, mean.hi as u64);
    let mut vbo = (start.lo as u64, start.hi as u64);
    let Some(Weighed { list, sum }) = weights(mean, excess) else {
        return (0..STOCKS as u64).map(|s| wide_row(ebo, vbo, s)).collect();
    };
    let inverses = (inverse_of(sum.0), inverse_of(sum.1));
    let mut rows = Vec::with_capacity(STOCKS);
    let one = (ONE as u64, ONE as u64);
    let (mut below, mut before, mut chance) = ((0, 0), (u64::MAX, 0), (0, 0));
    for weight in &list[..STOCKS] {
        if *weight != before {
            before = *weight;
            chance = share(before, sum, inverses);
        }
        below = (below.0 + chance.0, below.1 + chance.1);
        let tail = less(one, below);
        rows.push(Row { ebo, vbo, tail });
        ebo = less(ebo, tail);
        vbo = less(vbo, product((2 * ebo.0 + tail.0, 2 * ebo.1 + tail.1), less(one, tail)));
    }
    rows
}

fn main() {
    harness::run(table, |rows| {
        debug_assert!(rows[7].tail.0 <= rows[7].tail.1);
        (u128::from(rows[7].ebo.0), u128::from(rows[9].vbo.1))
    });
}
