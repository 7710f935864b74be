//! The commands `eval` and `plan`, with the words of `spares`.

use std::collections::HashMap;
use std::io::Write;

use crate::case::{Case, stop, within};
use crate::choice::Plan;
use crate::families::{Family, families_of};
use crate::text::{Text, figures_of};

/// A way to choose a plan of these families within a budget.
type Choose = fn(&Case, &[Family], u64) -> Plan;

/// The options of the command line, by their names.
struct Options(HashMap<String, String>);

/// The options of both commands.
const NAMES: [&str; 6] = ["sites", "parts", "rates", "stocks", "budget", "certificate"];

/// The options that may have one value alone.
const FIXED: [(&str, &str); 3] = [("bits", "48"), ("format", "1"), ("objective", "backorders")];

impl Options {
    /// Takes `--name value` and `--name=value`.
    fn read(mut words: impl Iterator<Item = String>) -> Options {
        let mut options = HashMap::new();
        while let Some(word) = words.next().filter(|word| word != "--") {
            let Some(option) = word.strip_prefix("--") else { stop(2, format!("'{word}' is no option")) };
            let (name, value) = match option.split_once('=') {
                Some((name, value)) => (name.to_string(), Some(value.to_string())),
                None => (option.to_string(), words.next()),
            };
            let Some(value) = value else { stop(2, format!("'--{name}' has no value")) };
            if !NAMES.contains(&name.as_str()) && !FIXED.contains(&(name.as_str(), value.as_str())) {
                stop(2, format!("'--{name} {value}' isn't done here"));
            }
            if options.insert(name, value).is_some() {
                stop(2, "an option stands twice".into());
            }
        }
        Options(options)
    }

    /// What stands after an option.
    fn value(&self, name: &str) -> &str {
        self.0.get(name).unwrap_or_else(|| stop(2, format!("'--{name}' is missing")))
    }

    /// The bytes of the file that an option names.
    fn file(&self, name: &str) -> Vec<u8> {
        std::fs::read(self.value(name)).unwrap_or_else(|error| stop(5, format!("the table of {name}: {error}")))
    }
}

/// The report of the figures of given stocks.
fn eval(case: &Case, stocks: &[u8]) -> Text {
    let figures = figures_of(case, &families_of(case), stocks);
    let mut report = Text(Vec::with_capacity(128 * case.rates.len() + 4096));
    report.put(b"eval,48\n").figures(case, &figures);
    report
}

/// The report of a plan, and its certificate.
fn plan(case: &Case, budget: u64, choose: Choose) -> (Text, Text) {
    let families = families_of(case);
    let tables = families.iter().fold(0u64, |sum, family| sum.saturating_add(family.tables()));
    if tables > 1_000_000 {
        stop(3, format!("fault,work,{tables}"));
    }
    let Plan { choice, hull, stocks } = choose(case, &families, budget);
    let figures = figures_of(case, &families, &stocks);
    let mut report = Text(Vec::with_capacity(128 * case.rates.len() + 4096));
    report.put(b"plan,").whole(budget).put(b"\n").figures(case, &figures);
    report.claims(case, &hull, choice.upper());
    let mut certificate = Text(Vec::with_capacity(48 * case.rates.len() + 64 * case.parts.len() + 4096));
    certificate.put(b"spares-certificate,1\n").frame(case);
    certificate.rates(case);
    certificate.plan(&choice, &hull, &figures.stocks);
    (report, certificate)
}

/// Does what the command line says; a plan is chosen by `choose`.
pub fn run(choose: Choose) {
    let mut words = std::env::args().skip(1);
    let command = words.next().unwrap_or_default();
    let options = Options::read(words);
    let (sites, parts, rates) = (options.file("sites"), options.file("parts"), options.file("rates"));
    let case = Case::read(&sites, &parts, &rates);
    let report = match command.as_str() {
        "eval" => eval(&case, &case.read_stocks(&options.file("stocks"))),
        "plan" => {
            let budget = within(options.value("budget").as_bytes(), 0, 0..=1_000_000_000_000_000);
            let (report, certificate) = plan(&case, budget, choose);
            if let Some(name) = options.0.get("certificate")
                && let Err(error) = std::fs::write(name, &certificate.0)
            {
                stop(6, format!("the certificate: {error}"));
            }
            report
        }
        _ => stop(2, "the first word is eval or plan".into()),
    };
    if let Err(error) = std::io::stdout().write_all(&report.0) {
        stop(6, format!("the report: {error}"));
    }
}
