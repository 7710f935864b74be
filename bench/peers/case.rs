//! The tables of a case: its sites, parts and rates, and stocks for them.

use std::collections::HashMap;

/// Ends the program with a line on the standard error.
pub fn stop(status: i32, line: String) -> ! {
    eprintln!("{line}");
    std::process::exit(status)
}

/// A depot or a base; days are in hundredths.
pub struct Site<'a> {
    pub name: &'a [u8],
    pub is_depot: bool,
    pub systems: u64,
    pub ship: u64,
}

/// A line unit, or a shop unit of the part `parent`.
pub struct Part<'a> {
    pub name: &'a [u8],
    pub parent: Option<usize>,
    pub cost: u64,
    pub per_system: u64,
    pub depot_limit: usize,
    pub base_limit: usize,
    pub weight: u64,
}

/// A row of rates, in units of the last place: 4 places, and 2 for days.
#[derive(Clone, Copy, Default)]
pub struct Rate {
    pub demand: u64,
    pub here: u64,
    pub share: u64,
    pub days: u64,
}

/// The depot stands first; rates are by part and then by site.
pub struct Case<'a> {
    pub sites: Vec<Site<'a>>,
    pub parts: Vec<Part<'a>>,
    pub rates: Vec<Rate>,
    /// Each line unit with its shop units.
    pub families: Vec<Vec<usize>>,
    pub by_name: HashMap<&'a [u8], usize>,
}

/// A field without the space round it, and without its quotes.
fn trimmed(mut field: &[u8]) -> &[u8] {
    field = field.trim_ascii();
    if let [b'"', inner @ .., b'"'] = field {
        field = inner.trim_ascii();
    }
    field
}

/// Calls `each` with the fields of every row after the header, which has at least so many columns.
fn each_row<'a>(name: &str, table: &'a [u8], columns: usize, mut each: impl FnMut(&[&'a [u8]])) {
    let table = table.strip_prefix(b"\xef\xbb\xbf").unwrap_or(table);
    let mut fields = Vec::with_capacity(8);
    let mut width = None;
    for line in table.split(|&byte| byte == b'\n' || byte == b'\r').filter(|line| !line.is_empty()) {
        fields.clear();
        fields.extend(line.split(|&byte| byte == b',').map(trimmed));
        if fields.len() < columns || width.is_some_and(|width| width != fields.len()) {
            stop(3, format!("the table of {name} has a row of {} fields", fields.len()));
        }
        if width.is_some() {
            each(&fields);
        }
        width = Some(fields.len());
    }
}

/// A number of so many places, in units of the last; zeros may follow. An empty field counts as 0.
fn number(field: &[u8], places: usize) -> u64 {
    let (mut value, mut left, mut is_behind) = (0u64, places, false);
    for &byte in field {
        match byte {
            b'0'..=b'9' if !is_behind || left > 0 => {
                value = value.saturating_mul(10).saturating_add(u64::from(byte - b'0'));
                left -= usize::from(is_behind);
            }
            b'0' => {}
            b'.' if !is_behind => is_behind = true,
            _ => stop(3, format!("'{}' is no number of {places} places", String::from_utf8_lossy(field))),
        }
    }
    value.saturating_mul(10u64.pow(left as u32))
}

/// A number of so many places, which is within its range.
pub fn within(field: &[u8], places: usize, range: std::ops::RangeInclusive<u64>) -> u64 {
    let value = number(field, places);
    if !range.contains(&value) {
        stop(3, format!("'{}' is out of its range", String::from_utf8_lossy(field)));
    }
    value
}

/// The sites, the depot first.
fn read_sites(table: &[u8]) -> Vec<Site<'_>> {
    let mut sites: Vec<Site> = Vec::new();
    each_row("sites", table, 4, |fields| {
        let is_depot = fields[1] == b"depot";
        let systems = if is_depot { 0 } else { within(fields[2], 0, 1..=10_000) };
        let site = Site { name: fields[0], is_depot, systems, ship: within(fields[3], 2, 0..=999_999) };
        sites.insert(if is_depot { 0 } else { sites.len() }, site);
    });
    if sites.len() < 2 || sites.len() > 16 || !sites[0].is_depot || sites[1].is_depot {
        stop(3, "the sites are no depot and 1 to 15 bases".into());
    }
    sites
}

/// The parts, each with the name of its parent.
fn read_parts(table: &[u8]) -> Vec<(Part<'_>, &[u8])> {
    let mut parts = Vec::new();
    each_row("parts", table, 6, |fields| {
        let is_line = fields[1].is_empty();
        let weight = match fields.get(6) {
            _ if !is_line => 0,
            Some(field) => within(field, 0, 1..=100),
            None => 1,
        };
        let part = Part {
            name: fields[0],
            parent: None,
            cost: within(fields[2], 0, 1..=100_000_000),
            per_system: if is_line { within(fields[3], 0, 1..=100) } else { 0 },
            depot_limit: within(fields[4], 0, 0..=63) as usize,
            base_limit: within(fields[5], 0, 0..=63) as usize,
            weight,
        };
        parts.push((part, fields[1]));
    });
    parts
}

impl<'a> Case<'a> {
    /// Reads the tables of a case.
    pub fn read(sites: &'a [u8], parts: &'a [u8], rates: &'a [u8]) -> Case<'a> {
        let sites = read_sites(sites);
        let named = read_parts(parts);
        let by_name: HashMap<&[u8], usize> = named.iter().enumerate().map(|(k, (part, _))| (part.name, k)).collect();
        let mut parts = Vec::with_capacity(named.len());
        let mut families: Vec<Vec<usize>> = vec![Vec::new(); named.len()];
        for (k, (mut part, parent)) in named.into_iter().enumerate() {
            let name = if parent.is_empty() { part.name } else { parent };
            let Some(&line) = by_name.get(name) else { stop(3, "a parent is no part".into()) };
            if parent.is_empty() {
                families[k].insert(0, k);
            } else {
                part.parent = Some(line);
                families[line].push(k);
            }
            parts.push(part);
        }
        families.retain(|family| !family.is_empty());
        if families.iter().any(|family| parts[family[0]].parent.is_some() || family.len() > 9) {
            stop(3, "a parent is no line unit, or has more than 8 shop units".into());
        }
        let mut case =
            Case { rates: vec![Rate::default(); parts.len() * sites.len()], sites, parts, families, by_name };
        case.read_rates(rates);
        case
    }

    /// Reads the rates into their places.
    fn read_rates(&mut self, table: &[u8]) {
        let mut rates = std::mem::take(&mut self.rates);
        self.each_pair("rates", table, 6, |pair, fields| {
            rates[pair] = Rate {
                demand: within(fields[2], 4, 0..=1_000_000_000),
                here: within(fields[3], 4, 0..=10_000),
                share: within(fields[4], 4, 0..=10_000),
                days: within(fields[5], 2, 0..=999_999),
            };
        });
        self.rates = rates;
    }

    /// Calls `each` with the pair and the fields of every row of a table with one row for each part and site. Where
    /// rows are in order, the next pair is that after the last one, and no name needs to be looked up.
    fn each_pair<'b>(&self, name: &str, table: &'b [u8], columns: usize, mut each: impl FnMut(usize, &[&'b [u8]])) {
        let sites = self.sites.len();
        let mut seen = vec![false; self.parts.len() * sites];
        let (mut pair, mut rows) = (0, 0);
        each_row(name, table, columns, |fields| {
            if pair >= seen.len()
                || self.parts[pair / sites].name != fields[0]
                || self.sites[pair % sites].name != fields[1]
            {
                let part = self.by_name.get(fields[0]);
                let site = self.sites.iter().position(|site| site.name == fields[1]);
                let (Some(part), Some(site)) = (part, site) else { stop(3, format!("a name in {name} is unknown")) };
                pair = part * sites + site;
            }
            rows += usize::from(!std::mem::replace(&mut seen[pair], true));
            each(pair, fields);
            pair += 1;
        });
        if rows != seen.len() {
            stop(3, format!("a row of {name} is missing"));
        }
    }

    /// The stocks of a table, by part and then by site.
    pub fn read_stocks(&self, table: &[u8]) -> Vec<u8> {
        let mut stocks = vec![0; self.rates.len()];
        self.each_pair("stocks", table, 3, |pair, fields| {
            stocks[pair] = within(fields[2], 0, 0..=self.limit(pair) as u64) as u8
        });
        stocks
    }

    /// The most stock of a pair.
    fn limit(&self, pair: usize) -> usize {
        let part = &self.parts[pair / self.sites.len()];
        if pair % self.sites.len() == 0 { part.depot_limit } else { part.base_limit }
    }

    /// What these stocks cost, which are by part and then by site.
    pub fn cost(&self, stocks: &[u8]) -> u64 {
        stocks
            .chunks(self.sites.len())
            .zip(&self.parts)
            .map(|(row, part)| part.cost * row.iter().map(|&s| u64::from(s)).sum::<u64>())
            .sum()
    }

    /// Puts a family's stocks, by its parts and then by site, in their places among all.
    pub fn put_stocks(&self, family: usize, own: &[u8], stocks: &mut [u8]) {
        let sites = self.sites.len();
        for (row, &part) in own.chunks(sites).zip(&self.families[family]) {
            stocks[part * sites..][..sites].copy_from_slice(row);
        }
    }
}
