//! Lower bounds of what a pipeline's backorders and its stocks come to at two prices, at a tenth of the work of its
//! table.

use crate::ends::{F, ONE};
use crate::tables::{Pipeline, STOCKS};

/// A value at the steeper and at the flatter of two prices.
#[derive(Clone, Copy, Default)]
pub struct Both {
    pub steep: u64,
    pub flat: u64,
}

impl Both {
    /// Above every value.
    pub const MOST: Both = Both { steep: u64::MAX >> 2, flat: u64::MAX >> 2 };

    /// The sum, price by price.
    #[inline(always)]
    pub fn add(self, more: Both) -> Both {
        Both { steep: self.steep + more.steep, flat: self.flat + more.flat }
    }

    /// The difference, price by price, of what isn't less.
    #[inline(always)]
    pub fn less(self, part: Both) -> Both {
        Both { steep: self.steep - part.steep, flat: self.flat - part.flat }
    }

    /// So many of it.
    #[inline(always)]
    pub fn times(self, count: usize) -> Both {
        Both { steep: self.steep * count as u64, flat: self.flat * count as u64 }
    }

    /// With as many backorders at both prices.
    #[inline(always)]
    pub fn with(self, backorders: u64) -> Both {
        Both { steep: self.steep + backorders, flat: self.flat + backorders }
    }

    /// The smaller value at each price.
    #[inline(always)]
    pub fn least(self, other: Both) -> Both {
        Both { steep: self.steep.min(other.steep), flat: self.flat.min(other.flat) }
    }

    /// The larger value at each price.
    #[inline(always)]
    pub fn most(self, other: Both) -> Both {
        Both { steep: self.steep.max(other.steep), flat: self.flat.max(other.flat) }
    }

    /// Whether it is above another at both prices. A vector's value is linear in the price, so it is above between them
    /// too.
    #[inline(always)]
    pub fn is_above(self, other: Both) -> bool {
        self.steep > other.steep && self.flat > other.flat
    }

    /// Both together, by which values are put in order.
    #[inline(always)]
    pub fn sum(self) -> u64 {
        self.steep + self.flat
    }
}

/// How many binary places the numbers of a bound have. A table rounds at 48 places; all its roundings together come to
/// less than one unit here.
const PLACES: u32 = 28;

/// One whole.
const WHOLE: u64 = 1 << PLACES;

/// 2^32 over an index, rounded down and up.
static OVER: [(u64, u64); STOCKS] = {
    let mut table = [(0, 0); STOCKS];
    let mut k = 1;
    while k < STOCKS {
        table[k] = ((1 << 32) / k as u64, (1u64 << 32).div_ceil(k as u64));
        k += 1;
    }
    table
};

/// The ratios of a pipeline's weights, each to the one before it: at index x it is (first + (x - 1) step) / x.
#[derive(Clone, Copy)]
struct Ratios {
    first: u64,
    step: u64,
}

/// A lower end of the mean, and ratios below and above those of a table. With `share` for mean over variance, `first`
/// is the mean times the share, and `step` what the share leaves of one.
///
/// None if the mean isn't from 2^-8 to 4, the variance is more than 8 times the mean, or the ends are more than 2^-32
/// apart.
#[inline(always)]
fn ratios_of(pipeline: Pipeline) -> Option<(u64, Ratios, Ratios)> {
    let Pipeline { mean, variance } = pipeline;
    if mean.hi >= 4 * ONE || (mean.hi - mean.lo).max(variance.hi - variance.lo) >> 16 != 0 {
        return None;
    }
    let (low, high) = (mean.lo >> (F - PLACES), (mean.hi >> (F - PLACES)) + 1);
    let spread = (variance.hi.max(mean.hi) >> (F - PLACES)) + 1;
    let share = (low << PLACES) / spread;
    if low < WHOLE >> 8 || share < WHOLE / 8 {
        return None;
    }
    // the mean's and the variance's ends are at most 2 units apart, so the share's by less than 7 parts in the mean
    let more = ((share << 3) >> low.ilog2()) + 2;
    let most = (share + more).min(WHOLE);
    // the table divides an end of its excess by the other end of one and the excess; a share is at least an eighth
    let below = Ratios { first: (low * share) >> PLACES, step: (WHOLE - most).saturating_sub(8 * more) };
    let above = Ratios { first: ((high * most) >> PLACES) + 1, step: WHOLE - share + 8 * more };
    Some((low, below, above))
}

/// At least the sum of all weights, that at 0 being one: the first ones as they are, and what follows by the largest
/// ratio to come. None if that isn't below one.
#[inline(always)]
fn sum_above(ratios: Ratios) -> Option<u64> {
    let (mut sum, mut weight, mut above) = (WHOLE + 1, WHOLE, ratios.first);
    let mut index = 1;
    let mut ratio = ratios.first + 1;
    while index < 3 || ratio > WHOLE / 5 && index < 12 {
        weight = ((weight * ratio) >> PLACES) + 1;
        sum += weight;
        index += 1;
        above += ratios.step;
        ratio = ((above * OVER[index].1) >> 32) + 1;
    }
    let far = ratio.max(ratios.step);
    if far >= WHOLE {
        return None;
    }
    // the weight over what the ratio leaves of one; the first weight is in the sum already
    let all = if far <= WHOLE / 4 {
        WHOLE + far + ((far * far) >> PLACES) / 3 * 4 + 8
    } else {
        (1 << (2 * PLACES)) / (WHOLE - far) + 1
    };
    sum += ((weight * (all - WHOLE)) >> PLACES) + 2;
    // a table may count its weights from another index, which changes their sum by less than this
    Some(sum + (sum >> 26))
}

/// Lower bounds at both prices of backorders and cost, for the best of so many stocks from 0 on, each of which costs
/// `one`. None if this pipeline needs its table.
#[inline(always)]
pub fn low_both(pipeline: Pipeline, stocks: usize, one: Both) -> Option<Both> {
    let mean = pipeline.mean.lo;
    let mut least = Both::default().with(mean);
    if stocks == 1 || mean <= one.flat {
        return Some(least);
    }
    if mean < ONE >> 8 {
        // nearly nothing is left with one in stock
        return Some(least.least(one));
    }
    let (low, below, above) = ratios_of(pipeline)?;
    let mut chance = (1 << (2 * PLACES)) / sum_above(above)?;
    // one more in stock lowers the backorders by the chance of more in the pipeline; one unit is off for all roundings
    let (mut chances, mut backorders, mut gained) = (chance, low - 1, below.first);
    let mut priced = Both::default();
    for &(over, _) in &OVER[1..stocks] {
        if (WHOLE - chances) << (F - PLACES) <= one.flat || backorders == 0 {
            // from here on one more in stock gains no more than it costs
            break;
        }
        backorders = (backorders + chances).saturating_sub(WHOLE);
        priced = priced.add(one);
        least = least.least(priced.with(backorders << (F - PLACES)));
        chance = (chance * ((gained * over) >> 32)) >> PLACES;
        chances = (chances + chance).min(WHOLE);
        gained += below.step;
    }
    Some(least)
}
