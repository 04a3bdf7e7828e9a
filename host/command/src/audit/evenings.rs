//! The results of auditing many evenings: a row for each, the share that differs, and the distribution of the creep.

use super::words::{an_hour, span};
use crate::{
    fault::Result,
    figures::{QUANTILES, rank},
    interval::Share,
    out::Out,
    page::{Row, Sink, Table, foot, head, note, section},
    plot::{counted, escaped, grouped},
    report::per_100,
    table::{csv_line, laid_out},
};

/// The result for an evening.
#[derive(Debug, Clone, Copy, PartialEq, Eq, PartialOrd, Ord)]
pub enum Outcome {
    Differs,
    Unknown,
    Unpaired,
    Agrees,
}

impl Outcome {
    fn name(self) -> &'static str {
        match self {
            Self::Differs => "DIFFERS",
            Self::Unknown => "UNKNOWN",
            Self::Unpaired => "UNPAIRED",
            Self::Agrees => "AGREES",
        }
    }
}

/// An evening's row.
pub struct Evening {
    /// Its files' name.
    pub name: String,
    /// What was found.
    pub outcome: Outcome,
    /// The first line of the log that differs.
    pub block: Option<u64>,
    /// How many seconds late the sound is after an hour, if it differs.
    pub creep: Option<f64>,
    /// The seconds compared.
    pub seconds: f64,
    /// The result in a sentence.
    pub says: String,
    /// A sentence for each sound that its trace names and that was not given.
    pub missing: Vec<String>,
    /// The plot of its creep, if a page was asked for.
    pub plot: String,
}

/// The evenings of an audit.
pub struct Evenings {
    /// A row for each.
    pub rows: Vec<Evening>,
    /// Whether sounds were given.
    pub with_sounds: bool,
}

/// How many evenings have this outcome.
fn count(evenings: &[Evening], outcome: Outcome) -> u64 {
    let has = evenings.iter().filter(|evening| evening.outcome == outcome);
    has.count() as u64
}

/// How many evenings have which outcome, in words.
fn counts(evenings: &[Evening]) -> String {
    let count = |outcome| grouped(count(evenings, outcome));
    format!(
        "{}: {} agree, {} differ, {} unknown, {} without a trace or a log",
        counted(evenings.len() as u64, "evening"),
        count(Outcome::Agrees),
        count(Outcome::Differs),
        count(Outcome::Unknown),
        count(Outcome::Unpaired)
    )
}

/// Those that differ, of the evenings that agree or differ.
fn differing(evenings: &[Evening]) -> Share {
    let differ = count(evenings, Outcome::Differs);
    Share {
        of: differ,
        all: differ + count(evenings, Outcome::Agrees),
    }
}

/// The share that differs, in words.
fn share(evenings: &[Evening]) -> Option<String> {
    let share = differing(evenings);
    let (value, interval) = per_100(Some(share.estimate()?));
    Some(format!(
        "of {} audited, {} of 100 differ, 95 percent {interval}",
        counted(share.all, "evening"),
        value
    ))
}

/// The quantiles of the creep, over the evenings that creep.
fn creeps(evenings: &[Evening]) -> Vec<(&'static str, f64)> {
    let creeps = evenings.iter().filter_map(|evening| evening.creep);
    let mut creeps: Vec<f64> = creeps.filter(|creep| *creep != 0.0).collect();
    creeps.sort_by(f64::total_cmp);
    let quantile = |(name, hundredths)| {
        let creep = creeps.get(rank(creeps.len(), hundredths))?;
        Some((name, *creep))
    };
    QUANTILES.into_iter().filter_map(quantile).collect()
}

/// The creep's distribution, in words.
fn distribution(evenings: &[Evening]) -> Option<String> {
    let creeps = creeps(evenings);
    let parts = creeps
        .iter()
        .map(|(name, creep)| format!("{name} {creep:.4}"));
    let parts: Vec<String> = parts.collect();
    (!parts.is_empty()).then(|| {
        format!(
            "the creep of those that creep, in seconds an hour: {}",
            parts.join(", ")
        )
    })
}

const HEADS: [&str; 5] = [
    "evening",
    "verdict",
    "first at block",
    "the sound is",
    "compared",
];

/// The evenings that name a sound that was not given, in words.
fn without_sounds(evenings: &[Evening]) -> String {
    let missing = evenings
        .iter()
        .filter(|evening| !evening.missing.is_empty());
    format!(
        "{} of {} name a sound that was not given",
        grouped(missing.count() as u64),
        counted(evenings.len() as u64, "evening")
    )
}

impl Evenings {
    /// The evenings as text for a terminal.
    pub fn put_text(&self, out: &mut Out<'_>) -> Result<()> {
        let evenings = &self.rows;
        let missing = self.with_sounds.then_some("sounds missing");
        let heads = HEADS.into_iter().chain(missing);
        let mut table = vec![heads.map(str::to_owned).collect::<Vec<_>>()];
        table.extend(evenings.iter().map(|evening| {
            let missing = self.with_sounds.then(|| evening.missing.len().to_string());
            let cells = [
                evening.name.clone(),
                evening.outcome.name().into(),
                evening.block.map_or("-".into(), grouped),
                evening.creep.map_or("-".into(), an_hour),
                match evening.seconds > 0.0 {
                    true => span(evening.seconds),
                    false => "-".into(),
                },
            ];
            cells.into_iter().chain(missing).collect()
        }));
        for line in laid_out(&table) {
            out.put(format!("{line}\n"))?;
        }
        out.put("\n")?;
        for evening in evenings {
            let says = (evening.outcome != Outcome::Agrees).then_some(&evening.says);
            for sentence in says.into_iter().chain(&evening.missing) {
                out.put(format!("{}: {sentence}\n", evening.name))?;
            }
        }
        let last = [
            Some(counts(evenings)),
            share(evenings),
            distribution(evenings),
            self.with_sounds.then(|| without_sounds(evenings)),
        ];
        for sentence in last.into_iter().flatten() {
            out.put(format!("{sentence}\n"))?;
        }
        Ok(())
    }
}

/// The columns of an evening: the name in comma separated values, and the words for people.
const COLUMNS: [(&str, &str); 6] = [
    ("name", "Evening"),
    ("verdict", "Verdict"),
    ("first_block", "First at block"),
    ("creep_seconds_an_hour", "Creep, seconds an hour"),
    ("seconds", "Seconds compared"),
    ("says", "What was found"),
];

/// The column if sounds are given.
const MISSING: (&str, &str) = ("missing_sounds", "Sounds missing");

fn cells(evening: &Evening) -> [Option<String>; COLUMNS.len()] {
    let says = [&evening.says].into_iter().chain(&evening.missing);
    let says: Vec<&str> = says.map(String::as_str).collect();
    [
        Some(evening.name.clone()),
        Some(evening.outcome.name().into()),
        evening.block.map(|block| block.to_string()),
        evening.creep.map(|creep| format!("{creep:.4}")),
        (evening.seconds > 0.0).then(|| format!("{:.3}", evening.seconds)),
        Some(says.join("; ")),
    ]
}

impl Evenings {
    fn columns(&self) -> Vec<(&'static str, &'static str)> {
        let missing = self.with_sounds.then_some(MISSING);
        COLUMNS.into_iter().chain(missing).collect()
    }

    /// The cells of a row, and how many sounds are missing.
    fn cells(
        &self,
        cells: [Option<String>; COLUMNS.len()],
        missing: Option<usize>,
    ) -> Vec<Option<String>> {
        let missing = missing.map(|missing| missing.to_string());
        let last = self.with_sounds.then_some(missing);
        cells.into_iter().chain(last).collect()
    }

    fn row(&self, evening: &Evening) -> Vec<Option<String>> {
        self.cells(cells(evening), Some(evening.missing.len()))
    }

    /// The evenings, the share that differs and the creep's quantiles as comma separated values.
    pub fn csv(&self) -> String {
        let evenings = &self.rows;
        let columns: Vec<&str> = self.columns().iter().map(|(column, _)| *column).collect();
        let shares = ["differ", "audited", "differ_per_100", "low", "high"];
        let mut text = csv_line(&[&["row"], &columns[..], &shares].concat());
        let mut put = |row: &str, cells: Vec<Option<String>>, shares: [String; 5]| {
            let cells: Vec<String> = cells.into_iter().map(Option::unwrap_or_default).collect();
            text += &csv_line(&[&[row.to_owned()], &cells[..], &shares].concat());
        };
        for evening in evenings {
            put("evening", self.row(evening), Default::default());
        }
        let share = differing(evenings);
        if let Some(estimate) = share.estimate() {
            let ends = [estimate.value, estimate.low, estimate.high];
            let [value, low, high] = ends.map(|end| format!("{:.4}", 100.0 * end));
            let name = [Some("differ".into()), None, None, None, None, None];
            let shares = [
                share.of.to_string(),
                share.all.to_string(),
                value,
                low,
                high,
            ];
            put("share", self.cells(name, None), shares);
        }
        for (name, creep) in creeps(evenings) {
            let creep = format!("{creep:.4}");
            let cells = [Some(name.into()), None, None, Some(creep), None, None];
            put("quantile", self.cells(cells, None), Default::default());
        }
        text
    }

    /// The page: first the evenings that creep most, then other differences, then unknown, then those that agree. A row
    /// that differs opens the plot of its creep.
    pub fn page(&self, put: &mut Sink<'_>) -> Result<()> {
        let evenings = &self.rows;
        head("Did these boxes play as proved?", put)?;
        put(&format!(
            "<p class=\"lede\">{}</p>\n",
            escaped(&counts(evenings))
        ))?;
        let sentences = [
            share(evenings),
            distribution(evenings),
            self.with_sounds.then(|| without_sounds(evenings)),
        ];
        for sentence in sentences.into_iter().flatten() {
            put(&note(&sentence))?;
        }
        put(&note(
            "Each trace is played again by the proved rule, and the box's own log is compared with it. The creep is how much later the sound is after an hour; below 0 it is earlier. A row that differs opens the plot of its creep.",
        ))?;
        let mut sorted: Vec<&Evening> = evenings.iter().collect();
        let creep = |evening: &Evening| evening.creep.map_or(0.0, f64::abs);
        sorted.sort_by(|a, b| {
            let by_creep = creep(b).total_cmp(&creep(a));
            a.outcome.cmp(&b.outcome).then(by_creep)
        });
        let row = |(index, evening): (usize, &&Evening)| Row {
            opens: (!evening.plot.is_empty()).then_some(index + 1),
            cells: self.row(evening),
        };
        let table = Table {
            id: "evenings",
            class: "lines",
            columns: self.columns(),
            rows: sorted.iter().enumerate().map(row).collect(),
            over: Vec::new(),
            csv: self.csv(),
        };
        table.put(put)?;
        for (index, evening) in sorted.iter().enumerate() {
            if !evening.plot.is_empty() {
                put(&section(index + 1, false, &evening.name, &evening.plot))?;
            }
        }
        foot(put)
    }
}
