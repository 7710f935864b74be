//! The expected backorders of a pipeline and their variance, by stock.

use crate::ends::{Divisor, F, Iv, LAST, ONE, UNIT, high, over_index};

/// How many stocks a table may have: 0 to 63.
pub const STOCKS: usize = 64;

/// A quotient rounded down, which gains the same step from index to index.
struct Rising {
    whole: u64,
    left: u64,
    step: (u64, u64),
    divisor: u64,
}

impl Rising {
    /// The quotient of a start that gains a step, both over a divisor.
    #[inline(always)]
    fn new(start: u64, step: u64, divisor: Divisor) -> Rising {
        let (whole, left) = divisor.quotient(start);
        Rising { whole, left, step: divisor.quotient(step), divisor: divisor.value }
    }

    /// Goes on to the next index.
    #[inline(always)]
    fn next(&mut self) {
        self.whole += self.step.0;
        self.left += self.step.1;
        if self.left >= self.divisor {
            self.left -= self.divisor;
            self.whole += 1;
        }
    }
}

/// The ratios of the weights: each to the one before it, index after index. `low` and `high` are the quotients of the
/// mean and the excess so far by one and the excess; a ratio is one of these over its index.
struct Ratios {
    low: Rising,
    high: Rising,
    next: usize,
}

impl Ratios {
    /// The ratio at the next index.
    #[inline(always)]
    fn take(&mut self) -> Iv {
        let x = self.next;
        let above = self.high.whole + u64::from(self.high.left != 0) + (x as u64 - 1);
        let ratio = Iv { lo: over_index(self.low.whole, x), hi: over_index(above, x) };
        self.low.next();
        self.high.next();
        self.next += 1;
        ratio
    }
}

/// The first weights, each as a share of that at the pivot, and the sum of all.
struct Weights {
    list: [Iv; STOCKS],
    sum: Iv,
}

/// A pipeline whose weights are known and fit 64 bits: its mean and excess, its pivot, and its ratios from the pivot
/// on.
struct Walk {
    mean: Iv,
    excess: Iv,
    pivot: usize,
    ratios: Ratios,
    /// The ratio above the pivot, and the next one.
    first: [Iv; 2],
    /// What no ratio of far indices passes.
    far: u64,
}

impl Walk {
    /// None where the ends are so far apart that the weights may pass 64 bits, or 8. Else no ratio from the pivot's
    /// second on is above one, so the weights fall.
    #[inline(always)]
    fn new(mean: Iv, variance: Iv) -> Option<Walk> {
        let excess = excess_of(mean, variance)?;
        let pivot = (mean.lo.saturating_sub(excess.hi) >> F) as usize;
        let (low, high) = (Divisor::new(ONE + excess.hi), Divisor::new(ONE + excess.lo));
        let (low_start, high_start) = (mean.lo + excess.lo * pivot as u64, mean.hi + excess.hi * pivot as u64);
        let mut ratios = Ratios {
            low: Rising::new(low_start, excess.lo, low),
            high: Rising::new(high_start, excess.hi, high),
            next: pivot + 1,
        };
        let steepest = ratios.high.step.0 + u64::from(ratios.high.step.1 != 0);
        if ratios.high.whole >> 58 != 0 || steepest >= ONE {
            return None;
        }
        let first = [ratios.take(), ratios.take()];
        let falls = first[0].hi <= 8 * ONE && first[1].hi < ONE;
        falls.then(|| Walk { mean, excess, pivot, ratios, first, far: low.up(excess.hi) })
    }

    /// The weights below the pivot. None where the ends are too far apart.
    #[inline(always)]
    fn descend(&self, weights: &mut Weights) -> Option<()> {
        let (mean, excess) = (self.mean, self.excess);
        let mut last = UNIT;
        for x in (1..=self.pivot).rev() {
            let low = Divisor::new(mean.hi + excess.hi * (x as u64 - 1));
            let high = Divisor::new(mean.lo + excess.lo * (x as u64 - 1));
            let back = Iv { lo: low.down((ONE + excess.lo) * x as u64), hi: high.up((ONE + excess.hi) * x as u64) };
            // the ratio at the pivot is the largest
            if x == self.pivot && back.hi > ONE + (ONE >> 10) {
                return None;
            }
            last = last.mul(back);
            if x <= STOCKS {
                weights.list[x - 1] = last;
            }
            weights.sum = weights.sum.add(last);
        }
        Some(())
    }

    /// The weights above the pivot, to where the rest is at most 256 units; in the list the first `count`. None where
    /// the rest doesn't fit.
    #[inline(always)]
    fn climb(mut self, count: usize, weights: &mut Weights) -> Option<()> {
        let [mut last, mut ratio] = self.first;
        let mut sum = weights.sum.add(last);
        let mut x = self.pivot + 1;
        while x < STOCKS - 1 {
            weights.list[x] = last;
            if last.hi == 1 && last.lo == 0 && ratio.hi.max(self.ratios.high.step.0) < ONE / 2 {
                // so are all weights from here on, and the rest is at most one
                weights.list[x.min(count)..count].fill(last);
                weights.sum = sum.add(Iv { lo: 0, hi: (STOCKS - x) as u64 });
                return Some(());
            }
            last = below(last, ratio);
            sum = sum.add(last);
            ratio = self.ratios.take();
            x += 1;
        }
        loop {
            let bound = ratio.hi.max(self.far);
            let (rest, gap) = (u128::from(last.hi) * u128::from(bound), u128::from(ONE - bound));
            if rest <= 256 * gap || x == LAST {
                let rest = if rest <= gap { 1 } else { rest.div_ceil(gap) };
                weights.sum = sum.add(Iv { lo: 0, hi: rest as u64 });
                return (rest >> 60 == 0).then_some(());
            }
            last = below(last, ratio);
            sum = sum.add(last);
            ratio = self.ratios.take();
            x += 1;
        }
    }

    /// The first `count` weights, and the sum of all.
    #[inline(always)]
    fn weigh(self, count: usize, weights: &mut Weights) -> Option<()> {
        weights.sum = UNIT;
        if self.pivot < STOCKS {
            weights.list[self.pivot] = UNIT;
        }
        self.descend(weights)?;
        self.climb(count, weights)
    }
}

/// A weight by a ratio below one, which is shifted so that the high bits of the products are the answer.
#[inline(always)]
fn below(weight: Iv, ratio: Iv) -> Iv {
    let up = u128::from(weight.hi) * u128::from(ratio.hi << 16);
    Iv { lo: high(weight.lo, ratio.lo << 16), hi: (up >> 64) as u64 + u64::from(up as u64 != 0) }
}

/// By how much the ratio of variance to mean passes one. None where the ends are far apart.
#[inline(always)]
fn excess_of(mean: Iv, variance: Iv) -> Option<Iv> {
    if variance.hi <= mean.lo {
        return Some(Iv::default());
    }
    // both shifted, so that the mean is at least one whole
    let up = mean.lo.leading_zeros().saturating_sub(63 - F);
    if mean.lo == 0 || mean.hi >> 1 > mean.lo || variance.hi >> 11 >= mean.lo {
        return None;
    }
    let lo = Divisor::new(mean.hi << up).down(variance.lo << up);
    let hi = Divisor::new(mean.lo << up).up(variance.hi << up);
    Some(Iv { lo: lo.saturating_sub(ONE), hi: hi.saturating_sub(ONE) })
}

/// Mean and variance of what is in a pipeline.
#[derive(Clone, Copy, Default)]
pub struct Pipeline {
    pub mean: Iv,
    pub variance: Iv,
}

impl Pipeline {
    /// Both together.
    #[inline(always)]
    pub fn add(self, more: Pipeline) -> Pipeline {
        Pipeline { mean: self.mean.add(more.mean), variance: self.variance.add(more.variance) }
    }

    /// The same with no end above a cap.
    #[inline(always)]
    pub fn capped(self, cap: u64) -> Pipeline {
        Pipeline { mean: self.mean.capped(cap), variance: self.variance.capped(cap) }
    }
}

/// The expected backorders at a stock, and their variance.
#[derive(Clone, Copy, Default, Debug, PartialEq)]
pub struct Row {
    pub ebo: Iv,
    pub vbo: Iv,
}

/// The chances so far: of at most so many units in the pipeline.
struct Chances {
    low: Divisor,
    high: Divisor,
    sum: Iv,
}

impl Chances {
    /// No chance so far, where this is the sum of the weights.
    #[inline(always)]
    fn new(sum: Iv) -> Chances {
        Chances { low: Divisor::new(sum.hi), high: Divisor::new(sum.lo), sum: Iv::default() }
    }

    /// The chance of more than the next stock, whose weight this is.
    #[inline(always)]
    fn tail(&mut self, weight: Iv) -> Iv {
        self.sum = self.sum.add(Iv { lo: self.low.down(weight.lo), hi: self.high.up(weight.hi) });
        UNIT.less(self.sum)
    }
}

/// Makes tables. It holds the weights of the one that it makes.
pub struct TableMaker {
    weights: Weights,
}

impl TableMaker {
    /// A maker without weights.
    pub fn new() -> TableMaker {
        TableMaker { weights: Weights { list: [UNIT; STOCKS], sum: UNIT } }
    }

    /// The expected backorders at the stocks from 0 on.
    #[inline(always)]
    pub fn backorders(&mut self, pipeline: Pipeline, ebo: &mut [Iv]) {
        let Pipeline { mean, variance } = pipeline;
        ebo[0] = mean;
        if ebo.len() == 1 || mean.hi == 0 {
            ebo.fill(mean);
        } else if Walk::new(mean, variance).and_then(|walk| walk.weigh(ebo.len() - 1, &mut self.weights)).is_some() {
            let mut chances = Chances::new(self.weights.sum);
            let mut last = mean;
            for (end, &weight) in ebo[1..].iter_mut().zip(&self.weights.list) {
                last = last.less(chances.tail(weight));
                *end = last;
            }
        } else {
            for (end, row) in ebo.iter_mut().zip(literal::rows(mean, variance)) {
                *end = row.ebo;
            }
        }
    }

    /// The rows of the stocks from 0 on.
    pub fn rows(&mut self, pipeline: Pipeline, rows: &mut [Row]) {
        let Pipeline { mean, variance } = pipeline;
        if mean.hi == 0 {
            rows.fill(Row::default());
            return;
        }
        let mut last = Row { ebo: mean, vbo: variance.max_of(mean) };
        if rows.len() == 1 && mean.hi < ONE && variance.hi < 2 * mean.lo {
            // no weight is above one, and the ratios are below one
            rows[0] = last;
            return;
        }
        let walk = Walk::new(mean, variance);
        if rows.len() == 1 && walk.as_ref().is_some_and(|walk| walk.pivot == 0) {
            rows[0] = last;
        } else if walk.and_then(|walk| walk.weigh(rows.len() - 1, &mut self.weights)).is_some() {
            rows[0] = last;
            let mut chances = Chances::new(self.weights.sum);
            for (row, &weight) in rows[1..].iter_mut().zip(&self.weights.list) {
                let tail = chances.tail(weight);
                last.ebo = last.ebo.less(tail);
                let twice = last.ebo.add(last.ebo).add(tail);
                last.vbo = last.vbo.less(twice.mul(UNIT.less(tail)));
                *row = last;
            }
        } else {
            rows.copy_from_slice(&literal::rows(mean, variance)[..rows.len()]);
        }
    }

    /// The row at one stock.
    pub fn row_at(&mut self, pipeline: Pipeline, stock: usize) -> Row {
        let mut rows = [Row::default(); STOCKS];
        self.rows(pipeline, &mut rows[..=stock]);
        rows[stock]
    }
}

/// The same tables by the operations of their definition, one after the other, in 128 bits: for pipelines whose ends
/// are far apart.
mod literal {
    use super::{F, Iv, LAST, ONE, Row, STOCKS, UNIT};

    /// One whole.
    const WHOLE: u128 = ONE as u128;

    /// A lower and an upper end.
    type Ends = (u128, u128);

    /// The weights up to index 62 and the sum, and None where some weight passes 8 or the rest needn't fall.
    fn weights(mean: Ends, excess: Ends) -> Option<(Vec<Ends>, Ends)> {
        let pivot = (mean.0.saturating_sub(excess.1) >> F) as usize;
        let above = |x: usize| (mean.0 + excess.0 * (x as u128 - 1), mean.1 + excess.1 * (x as u128 - 1));
        let under = |x: usize| ((WHOLE + excess.0) * x as u128, (WHOLE + excess.1) * x as u128);
        let mut list = vec![(WHOLE, WHOLE)];
        for x in (1..=pivot).rev() {
            let next = product(list[list.len() - 1], quotient(under(x), above(x)))?;
            list.push(next);
        }
        list.reverse();
        let far = (excess.1 << F).div_ceil(WHOLE + excess.1);
        for x in pivot + 1..=LAST {
            let next = product(list[x - 1], quotient(above(x), under(x)))?;
            list.push(next);
            let bound = quotient(above(x + 1), under(x + 1)).1.max(far);
            if x < STOCKS - 1 || bound >= WHOLE {
                continue;
            }
            let rest = (next.1 * bound).div_ceil(WHOLE - bound);
            if rest <= 256 || x == LAST {
                let sum = list.iter().fold((0, rest), |sum, weight| (sum.0 + weight.0, sum.1 + weight.1));
                return Some((list, sum));
            }
        }
        None
    }

    /// The quotient of two numbers.
    fn quotient(a: Ends, b: Ends) -> Ends {
        ((a.0 << F) / b.1, (a.1 << F).div_ceil(b.0))
    }

    /// The next weight, and None where it passes 8.
    fn product(a: Ends, b: Ends) -> Option<Ends> {
        let hi = (a.1 * b.1).div_ceil(WHOLE);
        (hi <= 8 * WHOLE).then_some(((a.0 * b.0) >> F, hi))
    }

    /// The same ends in 64 bits.
    fn narrow(ends: Ends) -> Iv {
        Iv { lo: ends.0 as u64, hi: ends.1 as u64 }
    }

    /// The rows at the stocks 0 to 63, of a mean above 0.
    pub fn rows(mean: Iv, variance: Iv) -> Vec<Row> {
        let (m, v) = ((u128::from(mean.lo), u128::from(mean.hi)), (u128::from(variance.lo), u128::from(variance.hi)));
        let ratio = quotient(v, m);
        let excess = (ratio.0.saturating_sub(WHOLE), ratio.1.saturating_sub(WHOLE));
        let most = variance.max_of(mean);
        let Some((list, sum)) = weights(m, excess) else {
            let at = |stock: u64| Iv { lo: mean.lo.saturating_sub(stock * ONE), hi: mean.hi };
            return (0..STOCKS as u64).map(|stock| Row { ebo: at(stock), vbo: Iv { lo: 0, hi: most.hi } }).collect();
        };
        let mut rows = vec![Row { ebo: mean, vbo: most }];
        let mut chances = (0, 0);
        for &weight in &list[..STOCKS - 1] {
            let chance = quotient(weight, sum);
            chances = (chances.0 + chance.0, chances.1 + chance.1);
            let tail = narrow((WHOLE.saturating_sub(chances.1), WHOLE.saturating_sub(chances.0)));
            let last = rows[rows.len() - 1];
            let ebo = last.ebo.less(tail);
            let vbo = last.vbo.less(ebo.add(ebo).add(tail).mul(UNIT.less(tail)));
            rows.push(Row { ebo, vbo });
        }
        rows
    }
}
