//! The report's page, for people who do not read logs: groups, then evenings, each with its plots.

use std::collections::BTreeSet;

use cableowl::Refusal;

use super::{
    evening::{Evening, Rates},
    groups::Groups,
    rows::{COLUMNS, PrintedRow, Row, csv, lacking, minutes},
    text::refused,
};
use crate::{
    fault::Result,
    figures::REFUSALS,
    page::{self, FEW, Sink, Table, foot, head, note, section},
    plot::{counted, escaped, grouped},
    table::spaced,
};

/// An evening on the page: its figures and its drawn plots.
pub struct Drawn {
    /// Its figures.
    pub evening: Evening,
    /// Its plots.
    pub plots: String,
}

/// The columns that a page shows first.
const FIRST: [&str; FEW - 1] = [
    "minutes",
    "minutes_played",
    "minutes_paused",
    "rounds",
    "seeks",
    "restarts",
    "ended",
    "misfits",
    "lowest_count",
    "refused",
];

/// The report's page.
pub fn page(
    evenings: &[Drawn],
    rows: &[PrintedRow],
    groups: Option<&Groups>,
    rates: Rates,
    put: &mut Sink<'_>,
) -> Result<()> {
    let rate = rates.device;
    let title = match evenings {
        [_] => "An evening at the listening box".to_owned(),
        _ => format!(
            "{} evenings at the listening box",
            grouped(evenings.len() as u64)
        ),
    };
    head(&title, put)?;
    let frames = evenings.iter().map(|drawn| drawn.evening.figures.frames);
    put(&format!(
        "<p class=\"lede\">{} minutes of blocks at {} a second.</p>\n",
        spaced(&minutes(frames.fold(0, u64::saturating_add), rate)),
        counted(rate.into(), "frame")
    ))?;
    if let Some(groups) = groups {
        groups.put_page(rate, put)?;
    }
    let folder = shared_folder(evenings);
    table(evenings, rows, folder, rate, put)?;
    for (index, drawn) in evenings.iter().enumerate() {
        let alone = evenings.len() == 1;
        let evening = &drawn.evening;
        let body = facts(evening, rate) + &drawn.plots;
        let name = evening.name.strip_prefix(folder).unwrap_or(&evening.name);
        put(&section(index + 1, alone, name, &body))?;
    }
    put(&reading(evenings, rates))?;
    foot(put)
}

/// The table of evenings, with all of them together and the quantiles.
fn table(
    evenings: &[Drawn],
    rows: &[PrintedRow],
    folder: &str,
    rate: u32,
    put: &mut Sink<'_>,
) -> Result<()> {
    put("<h2 id=\"evenings\">Evenings</h2>\n")?;
    if evenings.len() > 1 {
        put(&note(
            "A row opens the evening's plots. A quantile is the figure of one of the evenings (nearest rank).",
        ))?;
    }
    let others = COLUMNS.iter().map(|(column, _)| *column);
    let others = others.filter(|column| !FIRST.contains(column));
    let shown: Vec<&str> = FIRST.into_iter().chain(others).collect();
    let row = |(index, printed): (usize, &PrintedRow)| page::Row {
        opens: (printed.row == Row::Log && evenings.len() > 1).then_some(index + 1),
        cells: cells(printed, &shown, folder),
    };
    let logs = evenings.len();
    let table = Table {
        id: "figures",
        class: "",
        columns: [("name", "Log")]
            .into_iter()
            .chain(shown.iter().map(|column| (*column, words_of(column))))
            .chain([("form", "Form")])
            .collect(),
        rows: rows.iter().enumerate().take(logs).map(row).collect(),
        over: rows.iter().enumerate().skip(logs).map(row).collect(),
        csv: csv(rows, rate),
    };
    table.put(put)?;
    put(&note(
        "– means that the log does not contain the figure. Logs of forms 2 and 3 contain wraps, seeks, restarts by hand and window counts; form 3 also contains the rest.",
    ))?;
    for sentence in lacking(rows, &FIRST.map(|column| (column, words_of(column)))) {
        put(&note(&sentence))?;
    }
    Ok(())
}

/// The cells of a row, in the order in which the page shows them.
fn cells(printed: &PrintedRow, shown: &[&str], folder: &str) -> Vec<Option<String>> {
    let name = printed.name.strip_prefix(folder).unwrap_or(&printed.name);
    let figures = shown.iter().map(|column| printed.cell(column));
    let form = printed
        .form
        .map_or(String::new(), |form| form.number().to_string());
    [Some(name.to_owned())]
        .into_iter()
        .chain(figures)
        .chain([Some(form)])
        .collect()
}

/// The heading of a column.
fn words_of(column: &str) -> &'static str {
    let named = COLUMNS.iter().find(|(name, _)| *name == column);
    named.map_or("", |(_, words)| words)
}

/// The folder that contains all logs, up to its slash; empty if they are in several.
fn shared_folder(evenings: &[Drawn]) -> &str {
    let folder = |drawn: &'_ Drawn| drawn.evening.name.rfind('/').map_or(0, |slash| slash + 1);
    let Some(first) = evenings.first() else {
        return "";
    };
    let shared = first.evening.name.get(..folder(first)).unwrap_or_default();
    let in_it = |drawn: &Drawn| drawn.evening.name.get(..folder(drawn)) == Some(shared);
    match evenings.iter().all(in_it) {
        true => shared,
        false => "",
    }
}

/// The text above an evening's plots.
fn facts(evening: &Evening, rate: u32) -> String {
    let figures = &evening.figures;
    let time = |frames| spaced(&minutes(frames, rate));
    let mut says = format!(
        "<p class=\"note\">Minutes: {} played, {} paused, {} silent. Refused blocks: {}.</p>\n",
        time(figures.played),
        time(figures.paused),
        time(figures.silent),
        refused(figures)
    );
    let mut bad = |sentence: String| {
        says += &format!("<p class=\"bad\">{}</p>\n", escaped(&sentence));
    };
    if evening.again {
        bad("This file was given twice, and counts twice in the totals.".into());
    }
    if let Some(sentence) = super::text::misfits(figures) {
        bad(sentence);
    }
    if let Some((refusal, at)) = figures.broken {
        bad(format!(
            "The run ended at a record that was refused with {refusal}, at byte {at}."
        ));
    }
    if let Some(cut) = &evening.cut {
        bad(format!(
            "The log was cut short: {cut}. The figures are those of the lines before it."
        ));
    }
    if figures.frames == 0 {
        says += &note("No block of this log was played, so there is nothing to draw.");
    }
    says
}

/// How to read the plots, once for all of them.
fn reading(evenings: &[Drawn], rates: Rates) -> String {
    let mut text = String::from("<h2 id=\"reading\">How to read the plots</h2>\n");
    text += "<p class=\"note\"><span class=\"key place\"></span>the position<span class=\"key paused\"></span>paused<span class=\"key silent\"></span>silent (stopped, or not started)<span class=\"key loop\"></span>a loop that was gone round<span class=\"key seek\"></span>a seek</p>\n";
    text += &note(&format!(
        "Across: the evening's time. Where in the sound: upward, the position in seconds of the sound{}. The line rises while the sound plays, falls back at a wrap or a seek, and is level while nothing moves. In a log of form 1 wraps and seeks look alike, and there are no window counts.",
        sound_rates(evenings, rates)
    ));
    text += &note(
        "A window count below 4 says that the sound had ended and its tail ran out: silence there is no gap in the network. A refused block plays nothing and changes nothing.",
    );
    let mut numbers = BTreeSet::new();
    for drawn in evenings {
        let refused = REFUSALS.iter().zip(drawn.evening.figures.refused);
        numbers.extend(
            refused
                .filter(|(_, count)| *count > 0)
                .map(|(number, _)| *number),
        );
    }
    for number in numbers {
        let why = Refusal::text(number.into()).unwrap_or_default();
        text += &note(&format!("Refusal {number}: {why}"));
    }
    text
}

/// The text for an evening whose seconds of the sound are not known.
fn sound_rates(evenings: &[Drawn], rates: Rates) -> String {
    let unknown = evenings
        .iter()
        .any(|drawn| drawn.evening.sound_rate.is_none());
    match unknown {
        true => format!(
            ", for a log at {} a second, the box's: --sound-rate gives the sound's own",
            counted(rates.device.into(), "frame")
        ),
        false => String::new(),
    }
}
