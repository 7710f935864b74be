//! A guess at the price at which a budget is spent, from lower bounds of a sample of the families. A bad guess costs
//! only time.

use crate::families::Family;
use crate::part_curves::{PartMaker, Window};

/// How many binary places logarithms have.
const PLACES: u32 = 16;

/// The binary logarithm of a number, straight between powers of two.
fn logarithm(number: u64) -> i64 {
    let places = number.ilog2();
    (i64::from(places) << PLACES) + (((u128::from(number) << PLACES) >> places) as i64 & ((1 << PLACES) - 1))
}

/// The number of a logarithm.
fn power(logarithm: i64) -> u64 {
    let part = (1 << PLACES) + (logarithm as u64 & ((1 << PLACES) - 1));
    (part << (logarithm >> PLACES)) >> PLACES
}

/// Families of which samples are taken.
struct Sample<'a> {
    families: &'a [Family],
    weights: &'a [u64],
    budget: u64,
    maker: &'a mut PartMaker,
    /// About what all units of each family in a pipeline cost, and all of these.
    sizes: Vec<u128>,
    all: u128,
}

impl Sample<'_> {
    /// The logarithm of what one of every so many families costs at a price over its share of the budget.
    fn excess(&mut self, every: usize, price: u64) -> i64 {
        let (mut cost, mut size) = (0, 0);
        for number in (every / 2..self.families.len()).step_by(every) {
            cost += self.maker.cost_at(&self.families[number], price / self.weights[number]);
            size += self.sizes[number];
        }
        let share = u128::from(self.budget) * size / self.all;
        logarithm(cost.max(1)) - logarithm((share as u64).max(1))
    }
}

/// About what all units of a family in a pipeline cost.
fn size_of(family: &Family) -> u128 {
    let units =
        |part: usize| (0..family.sites).map(|site| u128::from(family.source(part, site).cap >> 20)).sum::<u128>();
    (0..family.len()).map(|part| units(part) * u128::from(family.costs[part])).sum()
}

/// The guess, between two limits. None if it isn't between them.
pub fn guess_price(
    families: &[Family],
    weights: &[u64],
    budget: u64,
    limits: Window,
    maker: &mut PartMaker,
) -> Option<u64> {
    let sizes: Vec<u128> = families.iter().map(size_of).collect();
    let all = sizes.iter().sum::<u128>().max(1);
    let mut sample = Sample { families, weights, budget, maker, sizes, all };
    // between two powers of two by few families
    let few = (families.len() / 8).max(1);
    let (mut low, mut high) = (limits.flat.ilog2(), limits.steep.checked_ilog2()?);
    let (mut above, mut below) = (sample.excess(few, 1 << low), None);
    if above <= 0 {
        return None;
    }
    while high - low > 1 {
        let middle = (low + high) / 2;
        let excess = sample.excess(few, 1 << middle);
        if excess > 0 {
            (low, above) = (middle, excess);
        } else {
            (high, below) = (middle, Some(excess));
        }
    }
    // and then by more, as the excess falls between these
    let fall = above - below?;
    let more = (families.len() / (families.len() / 20).max(16)).max(1);
    let mut price = (i64::from(low) << PLACES) + (above << PLACES) / fall;
    let within = logarithm(limits.flat)..=logarithm(limits.steep);
    for _ in 0..3 {
        let excess = sample.excess(more, power(price));
        price = (price + (excess << PLACES) / fall).clamp(*within.start(), *within.end());
        if excess.abs() < 1 << (PLACES - 5) {
            break;
        }
    }
    Some(power(price))
}
