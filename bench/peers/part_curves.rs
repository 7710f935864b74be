//! The part of a family's curve between two prices: its vertices that are best at one of these or at a price between.
//! Most vectors of the depot are passed over, since lower bounds at both prices lie above a vertex that is known.

use crate::bounds::{Both, low_both};
use crate::curves::{CurveMaker, Point, depot_cost, digits, lower_vertices};
use crate::ends::{Iv, product_down};
use crate::families::Family;
use crate::tables::{Pipeline, STOCKS};

/// A steeper and a flatter price: units of 2^-48 for one of money.
#[derive(Clone, Copy)]
pub struct Window {
    pub steep: u64,
    pub flat: u64,
}

impl Window {
    /// What backorders and a cost come to at both prices.
    #[inline(always)]
    fn value(self, backorders: u64, cost: u64) -> Both {
        Both { steep: self.steep * cost, flat: self.flat * cost }.with(backorders)
    }

    /// The same of a point.
    #[inline(always)]
    fn of(self, point: &Point) -> Both {
        self.value(point.lo, point.cost)
    }

    /// Leaves the vertices of a curve that are best at a price of the window.
    fn cut(self, curve: &mut Vec<Point>) {
        let slope = |k: usize, price: u64| {
            let (a, b) = (curve[k], curve[k + 1]);
            u128::from(a.lo - b.lo).cmp(&(u128::from(price) * u128::from(b.cost - a.cost)))
        };
        let end = curve.len() - 1;
        let first = (0..end).find(|&k| slope(k, self.steep).is_le()).unwrap_or(end);
        let last = (first..end).find(|&k| slope(k, self.flat).is_lt()).unwrap_or(end);
        curve.truncate(last + 1);
        curve.drain(..first);
    }
}

/// The least value at the flat price of the vectors so far, and what no other one is below.
#[derive(Clone, Copy)]
struct Flattest {
    least: u64,
    others: u64,
}

impl Flattest {
    /// Of no vectors.
    const NONE: Flattest = Flattest { least: u64::MAX, others: u64::MAX };

    /// Counts a vector of this value.
    #[inline(always)]
    fn add(&mut self, value: u64) {
        self.others = self.others.min(value.max(self.least));
        self.least = self.least.min(value);
    }

    /// Counts vectors that are at least of this value, and aren't the best.
    #[inline(always)]
    fn pass(&mut self, value: u64) {
        self.others = self.others.min(value);
    }

    /// All other vectors are above the best one by at least this.
    fn room(self) -> u64 {
        self.others.saturating_sub(self.least)
    }
}

/// The backorders of a vector that is passed over. Its step to any other vector is steeper than each window.
const PASSED: Iv = Iv { lo: u64::MAX, hi: u64::MAX };

/// A part of a curve. The mark of a point is the number of its list of stocks.
pub struct Part {
    pub points: Vec<Point>,
    /// Lists of stocks by part and then by site, one after the other.
    pub stocks: Vec<u8>,
    /// At the flat price all other vectors of the family are above the last point by at least this.
    pub room: u64,
}

/// A vector of the depot whose bases have a part of a curve: its number, and where its places begin.
struct Made {
    number: usize,
    start: usize,
}

/// Makes the part of one curve after another. Its contents belong to the family and the window at hand.
pub struct PartMaker {
    curves: CurveMaker,
    window: Window,
    /// What one more line unit costs.
    one: Both,
    /// What the stocks of a base cost, by place.
    priced: Vec<Both>,
    /// Lower bounds of each base, and of all, for all stocks of the line unit at the depot.
    floors: Vec<Both>,
    floor: Both,
    /// A lower bound of all bases for all vectors of the depot.
    lowest: Both,
    /// A vertex known from another window, and all vertices known by now.
    known: Option<Both>,
    seen: Vec<Both>,
    /// A little above one of these; vectors above it are passed over at once.
    limit: Both,
    flattest: Flattest,
    made: Vec<Made>,
    /// By vector: the first place of each base, and then that to which each step leads.
    places: Vec<(usize, usize)>,
    /// Of the base at hand: the bound of each choice of its shop units' stocks, and the vectors that have tables.
    lows: Vec<Both>,
    points: Vec<Both>,
}

impl PartMaker {
    /// A maker without a family.
    pub fn new() -> PartMaker {
        PartMaker {
            curves: CurveMaker::new(),
            window: Window { steep: 0, flat: 0 },
            one: Both::default(),
            priced: Vec::new(),
            floors: Vec::new(),
            floor: Both::default(),
            lowest: Both::default(),
            known: None,
            seen: Vec::new(),
            limit: Both::MOST,
            flattest: Flattest::NONE,
            made: Vec::new(),
            places: Vec::new(),
            lows: Vec::new(),
            points: Vec::new(),
        }
    }

    /// The part of a family's curve in a window. A vertex that is known already helps to pass over others.
    pub fn part_of(&mut self, family: &Family, window: Window, known: Option<&Point>) -> Part {
        self.begin(family, window);
        self.known = known.map(|point| window.of(point));
        self.see();
        let mut shops = [0; 8];
        let shops = &mut shops[..family.len() - 1];
        // the choice in the middle of the shop units' stocks is likely near the best
        let middle = family.depot_widths[1..].iter().fold(0, |number, width| number * width + width / 2);
        for choice in std::iter::once(middle).chain((0..family.depot_choices).filter(|&choice| choice != middle)) {
            digits(choice, &family.depot_widths[1..], shops);
            self.add_choice(family, choice, shops);
        }
        let mut part = Part { points: self.curves.curve.clone(), stocks: Vec::new(), room: self.flattest.room() };
        for (number, point) in part.points.iter_mut().enumerate() {
            part.stocks.extend(self.stocks_of(family, point.mark));
            point.mark = number as u64;
        }
        part
    }

    /// About what a family's best vectors cost at a price: by how much the least bound rises with the price.
    pub fn cost_at(&mut self, family: &Family, price: u64) -> u64 {
        let window = Window { steep: price + (price >> 6) + 1, flat: price };
        self.begin(family, window);
        let mut shops = [0; 8];
        let shops = &mut shops[..family.len() - 1];
        for choice in 0..family.depot_choices {
            digits(choice, &family.depot_widths[1..], shops);
            let own = window.value(0, depot_cost(family, 0, shops));
            if own.add(self.lowest).is_above(self.limit) {
                continue;
            }
            self.choose_shops(family, shops);
            for stock in 0..family.depot_widths[0] {
                self.limit = self.limit.least(self.low_of(family, stock, own));
            }
        }
        (self.limit.steep - self.limit.flat) / (window.steep - window.flat)
    }

    /// Takes up a family and a window.
    fn begin(&mut self, family: &Family, window: Window) {
        self.curves.begin(family);
        self.curves.keep_all_rows(family);
        self.window = window;
        self.one = window.value(0, family.costs[0]);
        self.priced.resize(self.curves.by_cost.len(), Both::default());
        for &(cost, place) in &self.curves.by_cost {
            self.priced[place as usize] = window.value(0, cost);
        }
        self.lowest = Both::default();
        for base in 1..family.sites {
            let source = family.source(0, base);
            self.lowest = self.lowest.add(self.without_or_one(source.direct.lo.min(source.cap)));
        }
        self.limit = Both::MOST;
        self.flattest = Flattest::NONE;
        self.made.clear();
        self.places.clear();
    }

    /// A lower bound for the line unit at a base with this mean: without stock all of it is backordered, and any stock
    /// costs at least one unit.
    #[inline(always)]
    fn without_or_one(&self, mean: u64) -> Both {
        self.one.least(Both::default().with(mean))
    }

    /// Takes up the vertices that are known by now.
    fn see(&mut self) {
        self.seen.clear();
        self.seen.extend(self.known);
        self.seen.extend(self.curves.curve.iter().map(|point| self.window.of(point)));
        if let Some(best) = self.seen.iter().min_by_key(|value| value.sum()) {
            // a higher limit leaves more room, and passes over fewer vectors
            self.limit = best.with(best.flat >> 8);
        }
    }

    /// Takes up stocks of the shop units at the depot.
    fn choose_shops(&mut self, family: &Family, shops: &[u8]) {
        self.curves.choose_shops(family, shops);
        let least = self.curves.line_rows[family.depot_widths[0] - 1].ebo.lo;
        self.floors.clear();
        for base in 0..family.sites - 1 {
            let source = family.source(0, base + 1);
            let own = source.direct.lo + product_down(source.share.lo, least);
            let added = self.curves.added[base * family.base_choices..][..family.base_choices].iter();
            let floors = added
                .zip(self.priced.iter().step_by(family.base_widths[0]))
                .map(|(added, &priced)| priced.add(self.without_or_one((own + added.mean.lo).min(source.cap))));
            self.floors.push(floors.fold(Both::MOST, Both::least));
        }
        self.floor = self.floors.iter().fold(Both::default(), |sum, &floor| sum.add(floor));
    }

    /// Adds the vectors of the depot in which the shop units have these stocks, those with the lowest bounds first.
    fn add_choice(&mut self, family: &Family, choice: usize, shops: &[u8]) {
        let own = self.window.value(0, depot_cost(family, 0, shops));
        let floor = own.add(self.lowest);
        if floor.is_above(self.limit) {
            return self.flattest.pass(floor.flat);
        }
        self.choose_shops(family, shops);
        let first = self.seen.is_empty().then(|| self.likely_stock(family, own));
        if let Some(stock) = first {
            self.add_vector(family, choice, stock, shops);
        }
        let mut lows = Vec::with_capacity(family.depot_widths[0]);
        for stock in (0..family.depot_widths[0]).filter(|&stock| first != Some(stock)) {
            let low = self.low_of(family, stock, own);
            if low.is_above(self.limit) {
                self.flattest.pass(self.limit.flat);
            } else {
                lows.push((low, stock));
            }
        }
        lows.sort_unstable_by_key(|(low, _)| low.sum());
        for (low, stock) in lows {
            if self.seen.iter().any(|&value| low.is_above(value)) {
                self.flattest.pass(low.flat);
            } else {
                self.add_vector(family, choice, stock, shops);
            }
        }
    }

    /// The stock of the line unit at the depot that is reached from a third of its limit while bounds fall.
    fn likely_stock(&mut self, family: &Family, own: Both) -> usize {
        let start = family.depot_widths[0] / 3;
        let mut best = start;
        let mut least = self.low_of(family, start, own).sum();
        for is_up in [true, false] {
            loop {
                let next = if is_up { best + 1 } else { best.wrapping_sub(1) };
                if next >= family.depot_widths[0] || is_up != (next > start) {
                    break;
                }
                let low = self.low_of(family, next, own).sum();
                if low >= least {
                    break;
                }
                (best, least) = (next, low);
            }
        }
        best
    }

    /// A lower bound of all vectors with this stock of the line unit at the depot, on top of what the shop units there
    /// cost. It may end early above the limit.
    #[inline(always)]
    fn low_of(&mut self, family: &Family, stock: usize, own: Both) -> Both {
        let mut all = own.add(self.one.times(stock)).add(self.floor);
        for base in 0..family.sites - 1 {
            if all.is_above(self.limit) {
                break;
            }
            let (fed, cap) = self.fed(family, stock, base);
            let lows = (0..family.base_choices).map(|choice| self.low_of_choice(family, fed, cap, base, choice));
            let low = lows.fold(Both::MOST, Both::least);
            let floor = self.floors[base];
            all = all.add(low.most(floor).less(floor));
        }
        all
    }

    /// The pipeline of the line unit at a base but for its shop units there, and its cap.
    #[inline(always)]
    fn fed(&self, family: &Family, stock: usize, base: usize) -> (Pipeline, u64) {
        (family.fed(0, base + 1, self.curves.line_rows[stock]), family.source(0, base + 1).cap)
    }

    /// A lower bound of a base's vectors with this choice of its shop units' stocks, by the table if none is ready.
    #[inline(always)]
    fn low_of_choice(&mut self, family: &Family, fed: Pipeline, cap: u64, base: usize, choice: usize) -> Both {
        let width = family.base_widths[0];
        let pipeline = fed.add(self.curves.added[base * family.base_choices + choice]).capped(cap);
        let low = low_both(pipeline, width, self.one).unwrap_or_else(|| {
            let mut table = [Iv::default(); STOCKS];
            self.curves.maker.backorders(pipeline, &mut table[..width]);
            let values = table[..width].iter().enumerate().map(|(stock, ebo)| self.one.times(stock).with(ebo.lo));
            values.fold(Both::MOST, Both::least)
        });
        low.add(self.priced[choice * width])
    }

    /// Joins the part of a vector of the depot to that so far.
    fn add_vector(&mut self, family: &Family, choice: usize, stock: usize, shops: &[u8]) {
        let number = stock * family.depot_choices + choice;
        let room = self.make_base_parts(family, stock);
        self.curves.sort_steps();
        self.keep_places(number);
        self.curves.add_curves(depot_cost(family, stock, shops), (number as u64) << 32);
        let least = self.curves.sum.iter().map(|point| self.window.of(point).flat).fold(u64::MAX, u64::min);
        self.flattest.add(least);
        self.flattest.pass(least.saturating_add(room));
        self.curves.join();
        self.window.cut(&mut self.curves.curve);
        self.see();
    }

    /// The parts of the bases' curves where the line unit has this stock at the depot, and their steps. Answers by how
    /// much at the flat price all other vectors of the bases are above the best ones.
    fn make_base_parts(&mut self, family: &Family, stock: usize) -> u64 {
        self.curves.steps.clear();
        let mut room = u64::MAX;
        for base in 0..family.sites - 1 {
            room = room.min(self.make_tables(family, stock, base).room());
            let curve = &mut self.curves.base_curves[base];
            lower_vertices(&self.curves.by_cost, &self.curves.backorders, curve);
            self.window.cut(curve);
            self.curves.push_steps(base);
        }
        room
    }

    /// The tables of the line unit at a base, the likeliest choice of its shop units' stocks first. A choice is passed
    /// over if its bound is above a vector that has a table.
    fn make_tables(&mut self, family: &Family, stock: usize, base: usize) -> Flattest {
        let (fed, cap) = self.fed(family, stock, base);
        let (width, choices) = (family.base_widths[0], family.base_choices);
        self.lows.clear();
        for choice in (0..choices).filter(|_| choices > 1) {
            let low = self.low_of_choice(family, fed, cap, base, choice);
            self.lows.push(low);
        }
        let likely = (0..choices).filter(|_| choices > 1).min_by_key(|&choice| self.lows[choice].sum()).unwrap_or(0);
        self.points.clear();
        let mut flattest = Flattest::NONE;
        for choice in std::iter::once(likely).chain((0..choices).filter(|&choice| choice != likely)) {
            let table = &mut self.curves.backorders[choice * width..][..width];
            if choice != likely && self.points.iter().any(|&point| self.lows[choice].is_above(point)) {
                table.fill(PASSED);
                flattest.pass(self.lows[choice].flat);
                continue;
            }
            self.curves.maker.backorders(fed.add(self.curves.added[base * choices + choice]).capped(cap), table);
            for (ebo, priced) in table.iter().zip(&self.priced[choice * width..]) {
                let value = priced.with(ebo.lo);
                flattest.add(value.flat);
                self.points.push(value);
            }
        }
        flattest
    }

    /// Keeps which vectors of the bases the vertices of this vector of the depot have.
    fn keep_places(&mut self, number: usize) {
        self.made.push(Made { number, start: self.places.len() });
        for (base, curve) in self.curves.base_curves.iter().enumerate() {
            self.places.push((base, curve[0].mark as usize));
        }
        for step in &self.curves.steps {
            self.places.push((step.base(), step.ends(&self.curves.base_curves).1.mark as usize));
        }
    }

    /// The stocks of a vertex, by part and then by site.
    fn stocks_of(&self, family: &Family, mark: u64) -> Vec<u8> {
        let (number, taken) = ((mark >> 32) as usize, mark as u32 as usize);
        let (stock, choice) = (number / family.depot_choices, number % family.depot_choices);
        let mut shops = [0; 8];
        let shops = &mut shops[..family.len() - 1];
        digits(choice, &family.depot_widths[1..], shops);
        let made = self.made.iter().find(|made| made.number == number);
        let start = made.map_or(0, |made| made.start);
        let mut places = vec![0; family.sites - 1];
        for &(base, place) in &self.places[start..][..family.sites - 1 + taken] {
            places[base] = place;
        }
        self.curves.stocks_at(family, stock, shops, &places)
    }
}
