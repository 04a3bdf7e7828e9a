//! The figures of groups of evenings, and what changed from one group to the next.

use std::collections::BTreeMap;

use super::{rows::minutes, whiskers::whiskers};
use crate::{
    fault::Result,
    figures::Figures,
    interval::{Estimate, Share},
    out::Out,
    page::{Row, Sink, Table, note},
    plot::grouped,
    table::{csv_line, laid_out},
};

/// The groups of a report, in the order of their names.
pub struct Groups {
    /// What they are grouped by, in a word.
    by: &'static str,
    groups: BTreeMap<String, Group>,
}

/// The figures of a group. A share is of the logs that contain it.
#[derive(Debug, Clone, Copy, PartialEq, Eq, Default)]
struct Group {
    sessions: u64,
    frames: u64,
    played: u64,
    /// Sessions with a restart by hand.
    restarted: Share,
    /// Wraps, and the frames played in the logs that contain them.
    rounds: u64,
    rounds_in: u64,
    seeks: u64,
    pauses: u64,
    refused: u64,
    /// Lines that do not fit together.
    misfits: u64,
    /// Sessions that reached the sound's end.
    ended: Share,
    /// Sessions with a tail: a window count below 4 means that the silence was the sound's end.
    tails: Share,
}

impl Group {
    fn add(&mut self, figures: &Figures) {
        let raise = |sum: &mut u64, more: u64| *sum = sum.saturating_add(more);
        raise(&mut self.sessions, 1);
        raise(&mut self.frames, figures.frames);
        raise(&mut self.played, figures.played);
        raise(&mut self.seeks, figures.seeks.unwrap_or(0));
        raise(&mut self.pauses, figures.pauses.unwrap_or(0));
        raise(&mut self.refused, figures.all_refused());
        raise(&mut self.misfits, figures.misfits.unwrap_or(0));
        if let Some(rounds) = figures.rounds {
            raise(&mut self.rounds, rounds);
            raise(&mut self.rounds_in, figures.played);
        }
        let count = |share: &mut Share, has: Option<bool>| {
            share.all += u64::from(has.is_some());
            share.of += u64::from(has == Some(true));
        };
        count(&mut self.restarted, figures.restarts.map(|n| n > 0));
        count(&mut self.ended, figures.ended.map(|n| n > 0));
        count(&mut self.tails, figures.lowest.map(|n| n < 4));
    }

    fn rounds_a_minute(&self, rate: u32) -> Option<f64> {
        let minutes = self.rounds_in as f64 / (60.0 * f64::from(rate));
        (minutes > 0.0).then(|| self.rounds as f64 / minutes)
    }

    /// Its cells, one for each of `COLUMNS`.
    fn cells(&self, rate: u32) -> [Option<String>; COLUMNS.len()] {
        let [per_100, low, high] = ends(self.restarted.estimate());
        let rounds = self.rounds_a_minute(rate);
        let number = |number: u64| Some(number.to_string());
        [
            number(self.sessions),
            Some(minutes(self.frames, rate)),
            Some(minutes(self.played, rate)),
            number(self.restarted.of),
            number(self.restarted.all),
            per_100,
            low,
            high,
            rounds.map(|rounds| format!("{rounds:.4}")),
            number(self.refused),
            number(self.seeks),
            number(self.pauses),
            number(self.ended.of),
            number(self.ended.all),
            number(self.tails.of),
            number(self.tails.all),
            number(self.misfits),
        ]
    }
}

/// The columns of the comma separated values and of the page, after the group's name: the name, and the heading for
/// people.
const COLUMNS: [(&str, &str); 17] = [
    ("sessions", "Sessions"),
    ("minutes", "Minutes"),
    ("minutes_played", "Minutes played"),
    ("restarted", "Sessions with a restart"),
    ("restarted_of", "of sessions"),
    ("restarted_per_100", "that is of 100"),
    ("low", "95 percent: from"),
    ("high", "to"),
    ("rounds_per_minute", "Wraps a minute"),
    ("refused", "Refused blocks"),
    ("seeks", "Seeks"),
    ("pauses", "Pauses"),
    ("ended", "Sessions that reached the end"),
    ("ended_of", "of sessions"),
    ("tails", "Sessions with a tail"),
    ("tails_of", "of sessions"),
    ("misfits", "Lines that do not fit"),
];

/// A share in percent, and the ends of its interval.
fn ends(estimate: Option<Estimate>) -> [Option<String>; 3] {
    let number = |of: fn(Estimate) -> f64| Some(format!("{:.4}", 100.0 * of(estimate?)));
    [number(|e| e.value), number(|e| e.low), number(|e| e.high)]
}

/// A share in percent, with its interval, for people.
pub fn per_100(estimate: Option<Estimate>) -> (String, String) {
    let Some(Estimate { value, low, high }) = estimate else {
        return ("-".into(), "-".into());
    };
    let [value, low, high] = [value, low, high].map(|share| format!("{:.1}", 100.0 * share));
    (value, format!("{low} to {high}"))
}

impl Groups {
    /// No group yet.
    pub fn new(by: &'static str) -> Self {
        Self {
            by,
            groups: BTreeMap::new(),
        }
    }

    /// Adds an evening to a group.
    pub fn add(&mut self, group: String, figures: &Figures) {
        self.groups.entry(group).or_default().add(figures);
    }

    /// Each group and the next one, with what changed.
    fn changes(&self) -> impl Iterator<Item = (&String, &String, Option<Estimate>)> {
        let pairs = self.groups.iter().zip(self.groups.iter().skip(1));
        pairs.map(|((from, earlier), (to, later))| {
            (from, to, Share::rise(earlier.restarted, later.restarted))
        })
    }

    /// What changed, a sentence for each pair of neighbours.
    fn sentences(&self) -> Vec<String> {
        let sentence = |(from, to, rise): (&String, &String, Option<Estimate>)| {
            let rise = rise?;
            let (value, interval) = per_100(Some(rise));
            let sign = if rise.value > 0.0 { "+" } else { "" };
            let says = match rise.is_a_change() {
                true => "a change",
                false => "no change is shown",
            };
            Some(format!(
                "from {from} to {to}: {sign}{value} restarted of 100 sessions, 95 percent {interval}: {says}"
            ))
        };
        self.changes().filter_map(sentence).collect()
    }

    /// The groups as text for a terminal.
    pub fn put_text(&self, rate: u32, out: &mut Out<'_>) -> Result<()> {
        let sessions = self.groups.values().map(|group| group.sessions).sum();
        out.put(format!(
            "{} sessions by {}, read at {} frames a second; shares in percent, with a 95 percent interval\n",
            grouped(sessions),
            self.by,
            grouped(rate.into())
        ))?;
        let heads = [
            self.by,
            "sessions",
            "minutes",
            "played",
            "restarted",
            "95 percent",
            "reached the end",
            "with a tail",
            "wraps a minute",
            "seeks",
            "pauses",
            "refused",
        ];
        let mut table = vec![heads.map(str::to_owned).to_vec()];
        for (name, group) in &self.groups {
            let (restarted, interval) = per_100(group.restarted.estimate());
            let rounds = group.rounds_a_minute(rate);
            table.push(vec![
                name.clone(),
                grouped(group.sessions),
                minutes(group.frames, rate),
                minutes(group.played, rate),
                restarted,
                interval,
                per_100(group.ended.estimate()).0,
                per_100(group.tails.estimate()).0,
                rounds.map_or("-".into(), |rounds| format!("{rounds:.2}")),
                grouped(group.seeks),
                grouped(group.pauses),
                grouped(group.refused),
            ]);
        }
        for line in laid_out(&table).into_iter().chain(self.sentences()) {
            out.put(format!("{line}\n"))?;
        }
        Ok(())
    }

    /// The groups, and the differences of neighbours, as comma separated values.
    pub fn csv(&self, rate: u32) -> String {
        let columns = COLUMNS.map(|(column, _)| column);
        let rate_cell = rate.to_string();
        let mut text = csv_line(&[&["row", "group", "since", "rate"][..], &columns].concat());
        for (name, group) in &self.groups {
            let cells = group.cells(rate).map(Option::unwrap_or_default);
            let before = ["group", name, "", &rate_cell].map(str::to_owned);
            text += &csv_line(&[&before[..], &cells].concat());
        }
        for (from, to, rise) in self.changes() {
            let [value, low, high] = ends(rise).map(Option::unwrap_or_default);
            let cells = COLUMNS.map(|(column, _)| match column {
                "restarted_per_100" => value.as_str(),
                "low" => &low,
                "high" => &high,
                _ => "",
            });
            text += &csv_line(&[&["difference", to, from, &rate_cell][..], &cells].concat());
        }
        text
    }

    /// The groups' part of a page.
    pub fn put_page(&self, rate: u32, put: &mut Sink<'_>) -> Result<()> {
        put(&format!("<h2 id=\"groups\">By {}</h2>\n", self.by))?;
        let shares = self.groups.iter();
        let shares = shares.filter_map(|(name, g)| Some((name.clone(), g.restarted.estimate()?)));
        put(&whiskers(
            "Sessions with a restart by hand, of 100, with intervals of 95 percent",
            &shares.collect::<Vec<_>>(),
        ))?;
        let changes = self.changes();
        let changes = changes.filter_map(|(_, to, rise)| Some((format!("to {to}"), rise?)));
        put(&whiskers(
            "What changed since the group before: restarted of 100, with intervals of 95 percent",
            &changes.collect::<Vec<_>>(),
        ))?;
        for sentence in self.sentences() {
            put(&note(&sentence))?;
        }
        let row = |(name, group): (&String, &Group)| Row {
            opens: None,
            cells: [Some(name.clone())]
                .into_iter()
                .chain(group.cells(rate))
                .collect(),
        };
        let table = Table {
            id: "groups-table",
            class: "",
            columns: [("group", "Group")].into_iter().chain(COLUMNS).collect(),
            rows: self.groups.iter().map(row).collect(),
            over: Vec::new(),
            csv: self.csv(rate),
        };
        table.put(put)
    }
}
