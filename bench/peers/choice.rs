//! The choice of a vertex on each family's curve under a budget.

use crate::case::Case;
use crate::curves::{CurveMaker, Point, compare_slopes, steepness};
use crate::families::Family;

/// The curves of all families with their weights, and what each family has picked: a vertex of its curve.
pub struct Choice {
    pub curves: Vec<Vec<Point>>,
    pub weights: Vec<u64>,
    pub picks: Vec<usize>,
    pub cost: u64,
    pub budget: u64,
}

/// A step of a family's curve to a vertex, with its steepness.
#[derive(Clone, Copy)]
struct FleetStep {
    steepness: u64,
    family: u32,
    vertex: u32,
}

/// What is known of the choice before the rest of the budget is used.
pub struct Hull {
    pub cost: u64,
    /// The fall of `lo` and the rise of cost of the critical step; 0 and 1 where every step is taken.
    pub price: (u128, u64),
    pub critical: Option<usize>,
    pub floors: Vec<u128>,
    pub bound: u128,
    pub rounding: u128,
}

impl Choice {
    /// The vertices that a step leads from and to.
    fn ends(&self, step: FleetStep) -> (Point, Point) {
        let (curve, vertex) = (&self.curves[step.family as usize], step.vertex as usize);
        (curve[vertex - 1], curve[vertex])
    }

    /// The weighted fall of `lo` of a step, and its rise of cost.
    fn slope(&self, step: FleetStep) -> (u128, u64) {
        let (from, to) = self.ends(step);
        (u128::from(from.lo - to.lo) * u128::from(self.weights[step.family as usize]), to.cost - from.cost)
    }

    /// The steps of all families: the steepest first, then by family and vertex.
    fn steps(&self) -> Vec<FleetStep> {
        let mut steps = Vec::with_capacity(self.curves.iter().map(|curve| curve.len() - 1).sum());
        for (family, curve) in self.curves.iter().enumerate() {
            for vertex in 1..curve.len() {
                let step = FleetStep { steepness: 0, family: family as u32, vertex: vertex as u32 };
                let (fall, rise) = self.slope(step);
                // what doesn't fit 64 bits is cut, and counted as exponent
                let cut = 64 - ((fall >> 64) as u64).leading_zeros();
                let steepness = steepness((fall >> cut) as u64, rise) + (u64::from(cut) << 56);
                steps.push(FleetStep { steepness, ..step });
            }
        }
        steps.sort_unstable_by(|a, b| {
            if a.steepness.abs_diff(b.steepness) > 2 {
                return b.steepness.cmp(&a.steepness);
            }
            compare_slopes(self.slope(*b), self.slope(*a)).then((a.family, a.vertex).cmp(&(b.family, b.vertex)))
        });
        steps
    }

    /// Takes steps while they fit, and says what follows from the first that doesn't.
    pub fn take_steps(&mut self) -> Hull {
        let mut critical = None;
        for step in self.steps() {
            let rise = self.slope(step).1;
            if self.cost + rise > self.budget {
                critical = Some(step);
                break;
            }
            self.cost += rise;
            self.picks[step.family as usize] = step.vertex as usize;
        }
        let price = critical.map_or((0, 1), |step| self.slope(step));
        let width = |family: usize, point: Point| u128::from(point.hi - point.lo) * u128::from(self.weights[family]);
        let next = critical.map_or(0, |step| width(step.family as usize, self.ends(step).1));
        let picked = || (0..self.picks.len()).map(|family| (family, self.curves[family][self.picks[family]]));
        // a family's steps are taken as far as they are steeper than the price, so its pick is least at the price
        let floor = |(family, point): (usize, Point)| {
            u128::from(point.lo) * u128::from(self.weights[family]) * u128::from(price.1)
                + price.0 * u128::from(point.cost)
        };
        let floors: Vec<u128> = picked().map(floor).collect();
        let paid = price.0 * u128::from(self.budget);
        Hull {
            cost: self.cost,
            price,
            critical: critical.map(|step| step.family as usize),
            bound: floors.iter().sum::<u128>().saturating_sub(paid) / u128::from(price.1),
            floors,
            rounding: picked().map(|(family, point)| width(family, point)).sum::<u128>() + next + 1,
        }
    }

    /// Uses the rest of the budget: the change that lowers some family's upper end most, of equal ones that of the
    /// first family, until there is none.
    pub fn fill(&mut self) {
        let mut filling = Filling::new(self);
        while let Some(family) = filling.best() {
            filling.take(self, family);
        }
    }

    /// The cost where a family picks another vertex.
    fn cost_with(&self, family: usize, vertex: usize) -> u64 {
        let curve = &self.curves[family];
        self.cost - curve[self.picks[family]].cost + curve[vertex].cost
    }

    /// The vertex of a family that fits and has the least upper end, and by how much it is lower.
    pub fn best_change(&self, family: usize, lowest: &[u32]) -> (u128, usize) {
        let (curve, pick) = (&self.curves[family], self.picks[family]);
        let most = curve[pick].cost + self.budget - self.cost;
        let fitting = pick + curve[pick..].partition_point(|point| point.cost <= most);
        let vertex = lowest[fitting - 1] as usize;
        let fall = curve[pick].hi.saturating_sub(curve[vertex].hi);
        (u128::from(fall) * u128::from(self.weights[family]), vertex)
    }

    /// The upper end of the picks' total.
    pub fn upper(&self) -> u128 {
        let ends = self.curves.iter().zip(&self.picks).map(|(curve, &pick)| u128::from(curve[pick].hi));
        ends.zip(&self.weights).map(|(hi, &weight)| hi * u128::from(weight)).sum()
    }
}

/// For each vertex the first one up to it whose upper end is the lowest.
pub fn lowest_so_far(curve: &[Point]) -> Vec<u32> {
    let mut lowest = 0;
    let next = |vertex: usize| {
        if curve[vertex].hi < curve[lowest].hi {
            lowest = vertex;
        }
        lowest as u32
    };
    (0..curve.len()).map(next).collect()
}

/// The best change of each family, and by how much it lowers the upper end.
pub struct Filling {
    pub lowest: Vec<Vec<u32>>,
    pub changes: Vec<(u128, usize)>,
}

impl Filling {
    /// The best changes of a choice.
    pub fn new(choice: &Choice) -> Filling {
        let lowest: Vec<Vec<u32>> = choice.curves.iter().map(|curve| lowest_so_far(curve)).collect();
        let changes = (0..lowest.len()).map(|family| choice.best_change(family, &lowest[family])).collect();
        Filling { lowest, changes }
    }

    /// The family whose change is the best of all.
    pub fn best(&self) -> Option<usize> {
        let best = (0..self.changes.len()).rev().max_by_key(|&family| self.changes[family].0);
        best.filter(|&family| self.changes[family].0 > 0)
    }

    /// Takes a family's change.
    pub fn take(&mut self, choice: &mut Choice, family: usize) {
        let before = choice.cost;
        let vertex = self.changes[family].1;
        choice.cost = choice.cost_with(family, vertex);
        choice.picks[family] = vertex;
        for (other, change) in self.changes.iter_mut().enumerate() {
            // with less left, a best change that still fits is still the best
            let fits = change.0 == 0 || choice.cost_with(other, change.1) <= choice.budget;
            if other == family || choice.cost < before || !fits {
                *change = choice.best_change(other, &self.lowest[other]);
            }
        }
    }
}

/// A plan: the choice, what is known of it before the filling, and all stocks, by part and then by site.
pub struct Plan {
    pub choice: Choice,
    pub hull: Hull,
    pub stocks: Vec<u8>,
}

/// The weights of the families' backorders.
pub fn weights_of(case: &Case) -> Vec<u64> {
    case.families.iter().map(|parts| case.parts[parts[0]].weight).collect()
}

/// The plan from the whole curve of each family.
pub fn plan_by_curves(case: &Case, families: &[Family], budget: u64) -> Plan {
    let mut maker = CurveMaker::new();
    let curves = families.iter().map(|family| maker.curve_of(family)).collect();
    let mut choice = Choice { curves, weights: weights_of(case), picks: vec![0; families.len()], cost: 0, budget };
    let hull = choice.take_steps();
    choice.fill();
    let mut stocks = vec![0; case.rates.len()];
    for (number, family) in families.iter().enumerate() {
        let pick = choice.curves[number][choice.picks[number]];
        case.put_stocks(number, &maker.stocks_of(family, pick.mark), &mut stocks);
    }
    Plan { choice, hull, stocks }
}
