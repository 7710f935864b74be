//! Families: a line unit with its shop units, what their pipelines are made of, and their items at given stocks.

use crate::case::{Case, Part, stop};
use crate::ends::{F, Iv, UNIT};
use crate::tables::{Pipeline, Row, TableMaker};

/// What a pair's pipeline is made of: its direct part, its mean without any stock as a cap, and the share of the
/// depot's backorders that it has.
#[derive(Clone, Copy, Default)]
pub struct Source {
    pub direct: Iv,
    pub cap: u64,
    pub share: Iv,
}

/// One demand, one repair, each share and one day, multiplied in units of their last places, come to so many in a year.
const YEAR: u128 = 365 * 1_000_000_000_000_000_000;

/// Probability one, in units of its last place.
const CERTAIN: u128 = 10_000;

/// The exact figures of a pair: direct pipeline and mean without stock over `YEAR`, and the share as a fraction.
#[derive(Clone, Copy, Default)]
struct Exact {
    direct: u128,
    without_stock: u128,
    share: (u128, u128),
    has_demand: bool,
}

/// The exact figures of a family: by its parts, and then by site.
fn exact_figures(case: &Case, family: &[usize], exact: &mut [Exact]) {
    let sites = case.sites.len();
    let rate = |i: usize, j: usize| &case.rates[family[i] * sites + j];
    let sent = |i: usize, j: usize| CERTAIN - u128::from(rate(i, j).here);
    let demand = |j: usize| u128::from(rate(0, j).demand);
    // demand of a shop unit at a base, and what of it goes to the depot
    let shop_demand = |i: usize, j: usize| demand(j) * u128::from(rate(0, j).here) * u128::from(rate(i, j).share);
    let shop_sent = |i: usize, j: usize| shop_demand(i, j) * sent(i, j);
    // time in shipment and in repair there, each with its chance
    let turnaround = |i: usize, j: usize| {
        sent(i, j) * u128::from(case.sites[j].ship) + u128::from(rate(i, j).here) * u128::from(rate(i, j).days)
    };
    let at_depot: u128 = (1..sites).map(|j| demand(j) * sent(0, j)).sum();
    let depot_days = u128::from(rate(0, 0).days) * CERTAIN;
    let needs = |i: usize| u128::from(rate(i, 0).share);
    let shop_days = |i: usize| u128::from(rate(i, 0).days);
    let waiting: u128 = (1..family.len()).map(|i| needs(i) * shop_days(i)).sum();

    let direct = at_depot * depot_days * CERTAIN;
    let without_stock = direct + at_depot * waiting * CERTAIN;
    exact[0] = Exact { direct, without_stock, share: (0, 0), has_demand: at_depot > 0 };
    for j in 1..sites {
        let direct = demand(j) * turnaround(0, j) * CERTAIN * CERTAIN;
        let without_stock = direct + demand(j) * sent(0, j) * (depot_days + waiting) * CERTAIN;
        exact[j] =
            Exact { direct, without_stock, share: (demand(j) * sent(0, j), at_depot), has_demand: demand(j) > 0 };
    }
    for i in 1..family.len() {
        let all = (1..sites).map(|j| shop_sent(i, j)).sum::<u128>() + at_depot * needs(i) * CERTAIN;
        let direct = all * shop_days(i);
        let share = (at_depot * needs(i) * CERTAIN, all);
        exact[i * sites] = Exact { direct, without_stock: direct, share, has_demand: all > 0 };
        for j in 1..sites {
            let direct = shop_demand(i, j) * turnaround(i, j);
            let without_stock = direct + shop_sent(i, j) * shop_days(i);
            exact[i * sites + j] =
                Exact { direct, without_stock, share: (shop_sent(i, j), all), has_demand: shop_demand(i, j) > 0 };
            exact[j].without_stock += without_stock;
        }
    }
}

/// A quotient as an interval.
fn quotient(num: u128, den: u128) -> Iv {
    let whole = num / den;
    Iv { lo: whole as u64, hi: whole as u64 + u64::from(whole * den != num) }
}

/// A fraction as an interval, and 0 where its denominator is 0.
fn ratio(num: u128, den: u128) -> Iv {
    if den == 0 { Iv::default() } else { quotient(num << F, den) }
}

/// A number of units over a year, as an interval. 2^18 goes out of both.
fn over_year(num: u128) -> Iv {
    quotient(num << (F - 18), YEAR >> 18)
}

impl Exact {
    /// The name of what the model refuses of this pipeline.
    fn fault(&self) -> Option<&'static str> {
        if self.has_demand && self.direct * 10_000_000 < YEAR {
            Some("thin-pipeline")
        } else if self.without_stock > 256 * YEAR {
            Some("pipeline-too-large")
        } else if self.without_stock > 1024 * self.direct {
            Some("pipeline-ratio")
        } else {
            None
        }
    }

    /// The same figures as intervals.
    fn source(&self) -> Source {
        Source {
            direct: over_year(self.direct),
            cap: over_year(self.without_stock).hi,
            share: ratio(self.share.0, self.share.1),
        }
    }
}

/// The families of a case. Ends the program if the model doesn't hold of a pipeline, and names the first such one.
pub fn families_of(case: &Case) -> Vec<Family> {
    let sites = case.sites.len();
    let mut rows = [Exact::default(); 9 * 16];
    let mut families = Vec::with_capacity(case.families.len());
    let mut first = None;
    for parts in &case.families {
        let rows = &mut rows[..parts.len() * sites];
        exact_figures(case, parts, rows);
        for (row, part) in rows.chunks(sites).zip(parts) {
            let faults = row.iter().enumerate().filter_map(|(site, figures)| Some((part, site, figures.fault()?)));
            first = first.into_iter().chain(faults).min();
        }
        families.push(Family::new(case, rows.iter().map(Exact::source).collect(), parts));
    }
    if let Some((&part, site, fault)) = first {
        let (part, site) = (case.parts[part].name, case.sites[site].name);
        stop(3, format!("fault,{fault},{},{}", String::from_utf8_lossy(part), String::from_utf8_lossy(site)));
    }
    families
}

/// A family: a line unit, which stands first, and its shop units.
pub struct Family {
    pub sites: usize,
    pub sources: Vec<Source>,
    pub costs: Vec<u64>,
    /// The limits plus 1, at the depot and at a base.
    pub depot_widths: Vec<usize>,
    pub base_widths: Vec<usize>,
    /// How many choices of the shop units' stocks there are.
    pub depot_choices: usize,
    pub base_choices: usize,
}

impl Family {
    /// The family of these parts.
    fn new(case: &Case, sources: Vec<Source>, parts: &[usize]) -> Family {
        let sites = case.sites.len();
        let widths = |limit: fn(&Part) -> usize| parts.iter().map(|&k| limit(&case.parts[k]) + 1).collect::<Vec<_>>();
        let (depot_widths, base_widths) = (widths(|part| part.depot_limit), widths(|part| part.base_limit));
        Family {
            sites,
            sources,
            costs: parts.iter().map(|&k| case.parts[k].cost).collect(),
            depot_choices: depot_widths[1..].iter().product(),
            base_choices: base_widths[1..].iter().product(),
            depot_widths,
            base_widths,
        }
    }

    /// How many parts it has.
    pub fn len(&self) -> usize {
        self.costs.len()
    }

    /// What the pipeline of a part at a site is made of.
    pub fn source(&self, part: usize, site: usize) -> Source {
        self.sources[part * self.sites + site]
    }

    /// The pipeline of a shop unit at the depot.
    pub fn depot_shop(&self, part: usize) -> Pipeline {
        let source = self.source(part, 0);
        Pipeline { mean: source.direct, variance: source.direct }.capped(source.cap)
    }

    /// The pipeline of a part at a base, or of the line unit at the depot, but for its shop units there and its cap.
    #[inline(always)]
    pub fn fed(&self, part: usize, site: usize, from: Row) -> Pipeline {
        let source = self.source(part, site);
        Pipeline { mean: source.direct, variance: source.direct }.add(shared(source.share, from))
    }

    /// The pipeline of a shop unit at a base, where these are its rows at the depot.
    pub fn base_shop(&self, part: usize, site: usize, from: Row) -> Pipeline {
        self.fed(part, site, from).capped(self.source(part, site).cap)
    }

    /// The line unit at the depot, where these are the rows of the shop units there.
    pub fn depot_line(&self, shops: impl Iterator<Item = Row>) -> Pipeline {
        let Source { direct, cap, .. } = self.source(0, 0);
        let own = Pipeline { mean: direct, variance: direct };
        (1..).zip(shops).fold(own, |sum, (part, row)| sum.add(shared(self.source(part, 0).share, row))).capped(cap)
    }

    /// How many tables its curve takes.
    pub fn tables(&self) -> u64 {
        let count = |widths: &[usize]| widths.iter().fold(1u64, |product, &w| product.saturating_mul(w as u64));
        let (shops, bases) = (self.len() as u64 - 1, self.sites as u64 - 1);
        let lines = count(&self.depot_widths).saturating_mul(bases).saturating_mul(count(&self.base_widths[1..]));
        let kept = shops + bases * self.depot_widths[1..].iter().sum::<usize>() as u64;
        lines.saturating_add(count(&self.depot_widths[1..])).saturating_add(kept)
    }
}

/// The part of a pipeline that is a share of backorders.
#[inline(always)]
fn shared(share: Iv, from: Row) -> Pipeline {
    let spread = share.mul(UNIT.less(share)).mul(from.ebo);
    Pipeline { mean: share.mul(from.ebo), variance: spread.add(share.mul(share).mul(from.vbo)) }
}

/// A pair's pipeline, and its row at the pair's stock.
#[derive(Clone, Copy, Default)]
pub struct Item {
    pub pipeline: Pipeline,
    pub row: Row,
}

/// The items of a family at these stocks; both by part and then by site.
pub fn items_of(family: &Family, stocks: &[u8], maker: &mut TableMaker) -> Vec<Item> {
    let sites = family.sites;
    let mut items = vec![Item::default(); stocks.len()];
    let mut item =
        |pipeline: Pipeline, pair: usize| Item { pipeline, row: maker.row_at(pipeline, usize::from(stocks[pair])) };
    for i in 1..family.len() {
        let pair = i * sites;
        items[pair] = item(family.depot_shop(i), pair);
        for j in 1..sites {
            items[pair + j] = item(family.base_shop(i, j, items[pair].row), pair + j);
        }
    }
    items[0] = item(family.depot_line(items.iter().skip(sites).step_by(sites).map(|item| item.row)), 0);
    for j in 1..sites {
        let mut pipeline = family.fed(0, j, items[0].row);
        for shop in items.iter().skip(sites + j).step_by(sites) {
            pipeline = pipeline.add(Pipeline { mean: shop.row.ebo, variance: shop.row.vbo });
        }
        items[j] = item(pipeline.capped(family.source(0, j).cap), j);
    }
    items
}
