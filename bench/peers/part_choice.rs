//! The plan from parts of the families' curves near the price at which the budget is spent.

use crate::case::Case;
use crate::choice::{Choice, Filling, Hull, Plan, lowest_so_far, plan_by_curves, weights_of};
use crate::curves::Point;
use crate::families::Family;
use crate::part_curves::{Part, PartMaker, Window};
use crate::price_guess::guess_price;

/// With fewer families, parts take more work than whole curves.
const FEWEST: usize = 16;

/// At flatter prices, units of 2^-48 for one of money, nearly all is bought.
const FLATTEST: u64 = 1 << 20;

/// How often all parts are made longer before whole curves are made.
const EXTENSIONS: usize = 4;

/// How often the filling makes one part longer before it is made to the end of the curve.
const STRETCHES: u32 = 5;

/// The plan from parts of the curves, and from whole ones if parts don't serve.
pub fn plan_by_parts(case: &Case, families: &[Family], budget: u64) -> Plan {
    plan_near_price(case, families, budget).unwrap_or_else(|| plan_by_curves(case, families, budget))
}

/// The plan from parts. None if they don't serve.
fn plan_near_price(case: &Case, families: &[Family], budget: u64) -> Option<Plan> {
    let costs: Vec<u64> = families.iter().map(most_cost).collect();
    if families.len() < FEWEST || budget >= costs.iter().sum() {
        return None;
    }
    // a family's cost at a price fits 60 bits
    let limits = Window { steep: (1 << 60) / costs.iter().max()?, flat: FLATTEST };
    let mut maker = PartMaker::new();
    let weights = weights_of(case);
    let price = guess_price(families, &weights, budget, limits, &mut maker)?;
    let choice = Choice { curves: Vec::with_capacity(families.len()), weights, picks: Vec::new(), cost: 0, budget };
    let mut parts =
        Parts { families, maker, limits, window: limits, choice, known: Vec::with_capacity(families.len()) };
    parts.make(Window { steep: (price + price / 8).min(limits.steep), flat: (price / 5 * 4).max(limits.flat) });
    for _ in 0..=EXTENSIONS {
        match parts.search()? {
            Found::Hull(hull) => {
                parts.fill();
                return Some(parts.plan(case, hull));
            }
            Found::Steeper => parts.go_back()?,
            Found::Flatter => parts.go_on()?,
        }
    }
    None
}

/// Where the price at which the budget is spent is found.
enum Found {
    /// Within the window; this follows from it.
    Hull(Hull),
    Steeper,
    Flatter,
}

/// What is known of a family's curve beside its points: between which prices it is whole, and as in `Part`.
struct Known {
    window: Window,
    stocks: Vec<u8>,
    room: u64,
    stretches: u32,
}

impl Known {
    /// Keeps the stocks of those points of a part that count, and answers these points with their new marks.
    fn keep(&mut self, part: Part, size: usize, counts: impl Fn(&Point) -> bool) -> Vec<Point> {
        let mut points = Vec::with_capacity(part.points.len());
        for (point, stocks) in part.points.into_iter().zip(part.stocks.chunks(size)) {
            if counts(&point) {
                points.push(Point { mark: (self.stocks.len() / size) as u64, ..point });
                self.stocks.extend(stocks);
            }
        }
        points
    }
}

/// What a family costs with all stocks at their limits.
fn most_cost(family: &Family) -> u64 {
    let widths = family.depot_widths.iter().zip(&family.base_widths);
    let counts = widths.map(|(depot, base)| (depot - 1 + (base - 1) * (family.sites - 1)) as u64);
    counts.zip(&family.costs).map(|(count, cost)| count * cost).sum()
}

/// The parts of all families' curves between two prices for a weighted backorder, and the choice from them.
struct Parts<'a> {
    families: &'a [Family],
    maker: PartMaker,
    /// Between which prices the window stays, and the window.
    limits: Window,
    window: Window,
    choice: Choice,
    known: Vec<Known>,
}

impl Parts<'_> {
    /// Makes the parts in a window.
    fn make(&mut self, window: Window) {
        self.window = window;
        for (number, family) in self.families.iter().enumerate() {
            let weight = self.choice.weights[number];
            let window = Window { steep: window.steep.div_ceil(weight), flat: window.flat / weight };
            let part = self.maker.part_of(family, window, None);
            self.choice.curves.push(part.points);
            self.known.push(Known { window, stocks: part.stocks, room: part.room, stretches: 0 });
        }
    }

    /// Takes steps from the first point of each part. All other steps of the curves are steeper or flatter than the
    /// window; so the first step that doesn't fit is that of whole curves, if its price is within the window. None if a
    /// vertex before a part may have a lower upper end than those in it.
    fn search(&mut self) -> Option<Found> {
        let choice = &mut self.choice;
        choice.picks = vec![0; self.families.len()];
        choice.cost = choice.curves.iter().map(|curve| curve[0].cost).sum();
        if choice.cost > choice.budget {
            return Some(Found::Steeper);
        }
        let hull = choice.take_steps();
        let at = |price: u64| u128::from(price) * u128::from(hull.price.1);
        if hull.price.0 > at(self.window.steep) {
            return Some(Found::Steeper);
        }
        if hull.critical.is_none() || hull.price.0 < at(self.window.flat) {
            return Some(Found::Flatter);
        }
        // a vertex before the first point is cheaper, and above it by more than the steep price
        let firsts = choice.curves.iter().map(|curve| curve[0].hi - curve[0].lo);
        firsts.zip(&self.known).all(|(width, known)| width <= known.window.steep).then_some(Found::Hull(hull))
    }

    /// Makes all parts longer at steeper prices. None if prices are too steep.
    fn go_back(&mut self) -> Option<()> {
        let steep = (self.window.steep + self.window.steep / 4).min(self.limits.steep);
        if steep == self.window.steep {
            return None;
        }
        self.window.steep = steep;
        for (number, (family, known)) in self.families.iter().zip(&mut self.known).enumerate() {
            let steep = steep.div_ceil(self.choice.weights[number]);
            let curve = &mut self.choice.curves[number];
            let first = curve[0];
            let window = Window { steep, flat: known.window.steep };
            let part = self.maker.part_of(family, window, Some(&first));
            known.window.steep = steep;
            curve.splice(..0, known.keep(part, family.len() * family.sites, |point| point.cost < first.cost));
        }
        Some(())
    }

    /// Makes all parts longer at flatter prices. None if prices are too flat.
    fn go_on(&mut self) -> Option<()> {
        let flat = (self.window.flat / 2).max(self.limits.flat);
        if flat == self.window.flat {
            return None;
        }
        self.window.flat = flat;
        for family in 0..self.families.len() {
            self.stretch(family, flat / self.choice.weights[family]);
        }
        Some(())
    }

    /// Makes a family's part longer, down to a flatter price.
    fn stretch(&mut self, number: usize, flat: u64) {
        let (family, known) = (&self.families[number], &mut self.known[number]);
        let curve = &mut self.choice.curves[number];
        let last = curve[curve.len() - 1];
        let window = Window { steep: known.window.flat, flat };
        let part = self.maker.part_of(family, window, Some(&last));
        (known.window.flat, known.room) = (flat, part.room);
        curve.extend(known.keep(part, family.len() * family.sites, |point| point.cost > last.cost));
    }

    /// Uses the rest of the budget as `Choice::fill` does. Before each change, parts are made longer if there may be as
    /// good a change past their ends.
    fn fill(&mut self) {
        let mut filling = Filling::new(&self.choice);
        loop {
            while self.stretch_for(&mut filling) {}
            let Some(family) = filling.best() else {
                return;
            };
            filling.take(&mut self.choice, family);
        }
    }

    /// Makes each part longer that may have as good a change past its end as the best so far. Whether there was one.
    fn stretch_for(&mut self, filling: &mut Filling) -> bool {
        let least = filling.best().map_or(1, |family| filling.changes[family].0);
        let mut is_longer = false;
        for family in 0..self.families.len() {
            if self.fall_beyond(family) >= least {
                let known = &mut self.known[family];
                known.stretches += 1;
                let flat = if known.stretches > STRETCHES || known.window.flat < 1 << 16 {
                    0
                } else {
                    known.window.flat / 3 * 2
                };
                self.stretch(family, flat);
                filling.lowest[family] = lowest_so_far(&self.choice.curves[family]);
                filling.changes[family] = self.choice.best_change(family, &filling.lowest[family]);
                is_longer = true;
            }
        }
        is_longer
    }

    /// How much a change of a family to a vertex past its part lowers the upper end at most. At the flat price such a
    /// vertex is above the last point by `room`, or more.
    fn fall_beyond(&self, family: usize) -> u128 {
        let (curve, known) = (&self.choice.curves[family], &self.known[family]);
        let (pick, last) = (curve[self.choice.picks[family]], curve[curve.len() - 1]);
        let left = (self.choice.budget - self.choice.cost).saturating_sub(last.cost - pick.cost);
        let lower = u128::from(known.window.flat) * u128::from(left);
        match lower.checked_sub(u128::from(known.room)) {
            // its own lower end is below the last one
            Some(lower) if lower > 0 => {
                (u128::from(pick.hi - last.lo) + lower) * u128::from(self.choice.weights[family])
            }
            _ => 0,
        }
    }

    /// The plan, with the stocks of the picks.
    fn plan(self, case: &Case, hull: Hull) -> Plan {
        let mut stocks = vec![0; case.rates.len()];
        for (number, (family, known)) in self.families.iter().zip(&self.known).enumerate() {
            let pick = self.choice.curves[number][self.choice.picks[number]];
            let size = family.len() * family.sites;
            case.put_stocks(number, &known.stocks[pick.mark as usize * size..][..size], &mut stocks);
        }
        Plan { choice: self.choice, hull, stocks }
    }
}
