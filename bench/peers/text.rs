//! The figures of given stocks, and the text of reports and certificates.

use crate::case::{Case, Part};
use crate::choice::{Choice, Hull};
use crate::ends::{F, Iv, ONE, UNIT};
use crate::families::{Family, Item, items_of};
use crate::tables::TableMaker;

/// What is printed of given stocks.
pub struct Figures {
    pub stocks: Vec<u8>,
    pub items: Vec<Item>,
    /// By site; that of the depot counts nothing.
    pub availabilities: Vec<Iv>,
    pub fleet: Iv,
    pub total: (u128, u128),
}

/// The figures of these stocks, by part and then by site.
pub fn figures_of(case: &Case, families: &[Family], stocks: &[u8]) -> Figures {
    let sites = case.sites.len();
    let mut maker = TableMaker::new();
    let mut figures = Figures {
        stocks: stocks.to_vec(),
        items: vec![Item::default(); case.rates.len()],
        availabilities: vec![UNIT; sites],
        fleet: UNIT,
        total: (0, 0),
    };
    for (family, parts) in families.iter().zip(&case.families) {
        let own: Vec<u8> = parts.iter().flat_map(|&part| &stocks[part * sites..][..sites]).copied().collect();
        let items = items_of(family, &own, &mut maker);
        for (row, &part) in items.chunks(sites).zip(parts) {
            figures.items[part * sites..][..sites].copy_from_slice(row);
        }
        figures.add_line(case, &case.parts[parts[0]], &items[..sites]);
    }
    let (mut sum, mut systems) = ((0, 0), 0);
    for (site, availability) in case.sites.iter().zip(&figures.availabilities).skip(1) {
        sum = (sum.0 + availability.lo * site.systems, sum.1 + availability.hi * site.systems);
        systems += site.systems;
    }
    figures.fleet = Iv { lo: sum.0, hi: sum.1 }.over(systems);
    figures
}

impl Figures {
    /// Adds a line unit to the total, and multiplies the availabilities by its own.
    fn add_line(&mut self, case: &Case, line: &Part, items: &[Item]) {
        for (j, item) in items.iter().enumerate().skip(1) {
            let ebo = item.row.ebo;
            self.total.0 += u128::from(ebo.lo) * u128::from(line.weight);
            self.total.1 += u128::from(ebo.hi) * u128::from(line.weight);
            let place = UNIT.less(ebo.over(case.sites[j].systems * line.per_system));
            let factor = (1..line.per_system).fold(place, |product, _| product.mul(place));
            self.availabilities[j] = self.availabilities[j].mul(factor);
        }
    }
}

/// All numbers of two digits.
static PAIRS: [[u8; 2]; 100] = {
    let mut table = [[0; 2]; 100];
    let mut k = 0;
    while k < 100 {
        table[k] = [b'0' + (k / 10) as u8, b'0' + (k % 10) as u8];
        k += 1;
    }
    table
};

/// A text that is written piece by piece.
pub struct Text(pub Vec<u8>);

impl Text {
    /// Appends a piece.
    pub fn put(&mut self, piece: &[u8]) -> &mut Text {
        self.0.extend_from_slice(piece);
        self
    }

    /// Appends a whole number.
    pub fn whole(&mut self, number: impl Into<u128>) -> &mut Text {
        let number: u128 = number.into();
        match u64::try_from(number) {
            Ok(short) => self.short(short),
            Err(_) => self.put(number.to_string().as_bytes()),
        }
    }

    /// Appends a whole number of 64 bits.
    #[inline(always)]
    fn short(&mut self, mut number: u64) -> &mut Text {
        let mut digits = [0; 20];
        let mut at = digits.len();
        while number >= 10 {
            at -= 2;
            digits[at..at + 2].copy_from_slice(&PAIRS[(number % 100) as usize]);
            number /= 100;
        }
        if number > 0 || at == digits.len() {
            at -= 1;
            digits[at] = b'0' + number as u8;
        }
        // a last pair may begin with a 0
        at += usize::from(digits[at] == b'0' && at + 1 < digits.len());
        self.put(&digits[at..])
    }

    /// A number in units of its last place, of which there is an even count up to 12.
    #[inline(always)]
    fn decimal<const PLACES: usize>(&mut self, number: u128) -> &mut Text {
        let scale = 10u64.pow(PLACES as u32);
        let (whole, mut behind) = match u64::try_from(number) {
            Ok(short) => (u128::from(short / scale), short % scale),
            Err(_) => (number / u128::from(scale), (number % u128::from(scale)) as u64),
        };
        self.whole(whole);
        let mut digits = [b'.'; 13];
        for at in (1..PLACES).step_by(2).rev() {
            digits[at..at + 2].copy_from_slice(&PAIRS[(behind % 100) as usize]);
            behind /= 100;
        }
        self.put(&digits[..=PLACES])
    }

    /// Units of 2^-48 with 6 decimals, rounded down.
    #[inline(always)]
    fn down(&mut self, units: u128) -> &mut Text {
        self.decimal::<6>((units * 1_000_000) >> F)
    }

    /// The same rounded up.
    #[inline(always)]
    fn up(&mut self, units: u128) -> &mut Text {
        self.decimal::<6>((units * 1_000_000 + u128::from(ONE - 1)) >> F)
    }

    /// Both ends, each after a comma.
    #[inline(always)]
    fn ends(&mut self, ends: Iv) -> &mut Text {
        self.put(b",").down(ends.lo.into()).put(b",").up(ends.hi.into())
    }

    /// The lines of the figures, from `cost` to `total`.
    pub fn figures(&mut self, case: &Case, figures: &Figures) {
        let sites = case.sites.len();
        self.put(b"cost,").whole(case.cost(&figures.stocks)).put(b"\n");
        for (pair, (item, &stock)) in figures.items.iter().zip(&figures.stocks).enumerate() {
            let (part, site) = (&case.parts[pair / sites], &case.sites[pair % sites]);
            self.put(b"item,").put(part.name).put(b",").put(site.name).put(b",").short(u64::from(stock));
            self.ends(item.pipeline.mean).ends(item.pipeline.variance).ends(item.row.ebo).ends(item.row.vbo).put(b"\n");
        }
        for (site, &availability) in case.sites.iter().zip(&figures.availabilities).skip(1) {
            self.put(b"base,").put(site.name).ends(availability).put(b"\n");
        }
        self.put(b"fleet").ends(figures.fleet).put(b"\ntotal,");
        self.down(figures.total.0).put(b",").up(figures.total.1).put(b"\n");
    }

    /// The lines of a plan after those of its figures.
    pub fn claims(&mut self, case: &Case, hull: &Hull, upper: u128) {
        let (fall, rise) = hull.price;
        self.put(b"bound,").down(hull.bound).put(b"\ngap,").up(upper - hull.bound);
        self.put(b"\nrounding,").up(hull.rounding);
        self.put(b"\nprice,").decimal::<12>(fall * 1_000_000_000_000 / (u128::from(rise) << F));
        self.put(b"\nhull,").whole(hull.cost);
        match hull.critical {
            None => self.put(b"\ncritical,none\n"),
            Some(family) => {
                let line = &case.parts[case.families[family][0]];
                self.put(b"\ncritical,").put(line.name).put(b",").whole(rise).put(b"\n")
            }
        };
    }

    /// The lines of the sites and parts of a case.
    pub fn frame(&mut self, case: &Case) {
        self.put(b"sites,").whole(case.sites.len() as u64).put(b"\n");
        for site in &case.sites {
            self.put(site.name);
            match site.is_depot {
                true => self.put(b",depot,,\n"),
                false => self.put(b",base,").whole(site.systems).put(b",").decimal::<2>(site.ship.into()).put(b"\n"),
            };
        }
        let has_weights = case.parts.iter().any(|part| part.weight > 1);
        self.put(b"parts,").whole(case.parts.len() as u64).put(if has_weights { b",weights\n" } else { b"\n" });
        for part in &case.parts {
            self.put(part.name).put(b",").put(part.parent.map_or(b"", |parent| case.parts[parent].name)).put(b",");
            self.whole(part.cost).put(b",");
            if part.parent.is_none() {
                self.whole(part.per_system);
            }
            self.put(b",").whole(part.depot_limit as u64).put(b",").whole(part.base_limit as u64);
            if has_weights {
                self.put(b",");
                if part.parent.is_none() {
                    self.whole(part.weight);
                }
            }
            self.put(b"\n");
        }
    }

    /// The lines of the rates of a case.
    pub fn rates(&mut self, case: &Case) {
        let sites = case.sites.len();
        self.put(b"rates,").whole(case.rates.len() as u64).put(b"\n");
        for (pair, rate) in case.rates.iter().enumerate() {
            let (part, site) = (&case.parts[pair / sites], &case.sites[pair % sites]);
            self.put(part.name).put(b",").put(site.name).put(b",");
            if part.parent.is_none() && !site.is_depot {
                self.decimal::<4>(rate.demand.into());
            }
            self.put(b",");
            if !site.is_depot {
                self.decimal::<4>(rate.here.into());
            }
            self.put(b",");
            if part.parent.is_some() {
                self.decimal::<4>(rate.share.into());
            }
            self.put(b",").decimal::<2>(rate.days.into()).put(b"\n");
        }
    }

    /// The lines of a certificate after those of its case.
    pub fn plan(&mut self, choice: &Choice, hull: &Hull, stocks: &[u8]) {
        self.put(b"budget,").whole(choice.budget).put(b"\nprice,").whole(hull.price.0).put(b",").whole(hull.price.1);
        self.put(b"\nfloors,").whole(hull.floors.len() as u64);
        for &floor in &hull.floors {
            self.put(b"\n").whole(floor);
        }
        self.put(b"\nstocks,").whole(stocks.len() as u64);
        for &stock in stocks {
            self.put(b"\n").short(u64::from(stock));
        }
        self.put(b"\nupper,").whole(choice.upper()).put(b"\nbound,").whole(hull.bound).put(b"\nend\n");
    }
}
