//! A report as text for a terminal.

use super::{
    evening::Evening,
    rows::{PrintedRow, Row, lacking, minutes},
};
use crate::{
    fault::Result,
    figures::{Figures, REFUSALS},
    out::Out,
    plot::{counted, grouped},
    table::{laid_out, spaced},
};

const NOT_LOGGED: &str = "not in the log";

/// One log, a line for each figure.
pub fn put_one(evening: &Evening, rate: u32, out: &mut Out<'_>) -> Result<()> {
    let figures = &evening.figures;
    let printed = |number: Option<u64>| number.map_or(NOT_LOGGED.into(), grouped);
    let time = |frames| format!("{} minutes", minutes(frames, rate));
    let source = match evening.trace {
        true => "a trace".into(),
        false => format!("a log of form {}", evening.form.number()),
    };
    out.put(format!(
        "{}: {source}, read at {} a second\n",
        evening.name,
        counted(rate.into(), "frame")
    ))?;
    let still = match figures.still {
        None | Some(0) => String::new(),
        Some(still) => format!(", {} of them at a rate of 0", minutes(still, rate)),
    };
    let jumps = figures.jumps.map(|jumps| ("jumps", grouped(jumps)));
    let ended = figures.ended.map(|ended| match ended {
        0 => ("reached the end", "no".to_owned()),
        _ => ("reached the end", "yes".to_owned()),
    });
    let lines = [
        ("blocks", grouped(figures.blocks)),
        (
            "frames",
            format!("{}, {}", grouped(figures.frames), time(figures.frames)),
        ),
        ("played", format!("{}{still}", time(figures.played))),
        ("paused", time(figures.paused)),
        ("silent", time(figures.silent)),
        ("steps", steps(figures.steps, evening.sound_rate)),
    ];
    let more = [
        ("wraps", printed(figures.rounds)),
        ("seeks", printed(figures.seeks)),
        ("restarts by hand", printed(figures.restarts)),
        ("pauses", printed(figures.pauses)),
        ("lowest window count", printed(figures.lowest)),
        ("refused blocks", refused(figures)),
    ];
    for (name, says) in lines.into_iter().chain(jumps).chain(more).chain(ended) {
        out.put(format!("  {name:<21}{says}\n"))?;
    }
    if let Some(sentence) = misfits(figures) {
        out.put(format!("  {sentence}\n"))?;
    }
    if let Some((refusal, at)) = figures.broken {
        out.put(format!(
            "  the run ended at a record that was refused with {refusal}, at byte {at}\n"
        ))?;
    }
    Ok(())
}

/// How many lines do not fit together, and the first of them.
pub fn misfits(figures: &Figures) -> Option<String> {
    let (misfits, first) = (figures.misfits?, grouped(figures.first_misfit?));
    let lines = match misfits {
        1 => "1 line does not fit".into(),
        _ => format!("{} lines do not fit", grouped(misfits)),
    };
    Some(format!(
        "{lines}: steps, wraps and positions disagree, first at block {first}"
    ))
}

/// The logs with lines that do not fit together, a sentence each.
pub fn put_misfits<'a>(
    evenings: impl Iterator<Item = &'a Evening>,
    out: &mut Out<'_>,
) -> Result<()> {
    for evening in evenings {
        if let Some(sentence) = misfits(&evening.figures) {
            out.put(format!("{}: {sentence}\n", evening.name))?;
        }
    }
    Ok(())
}

/// Steps, also as seconds of the sound.
fn steps(steps: u64, sound_rate: Option<u32>) -> String {
    let seconds = |rate: u32| steps as f64 / f64::from(rate);
    match sound_rate {
        Some(rate) => format!("{}, {:.3} s of the sound", grouped(steps), seconds(rate)),
        None => grouped(steps),
    }
}

/// The refused blocks by number.
pub fn refused(figures: &Figures) -> String {
    let named = REFUSALS.iter().zip(figures.refused);
    let named = named.map(|(number, count)| (format!("with {number}"), count));
    let others = ("otherwise".to_owned(), figures.refused_otherwise);
    let parts: Vec<String> = named
        .chain([others])
        .filter(|(_, count)| *count > 0)
        .map(|(how, count)| format!("{} {how}", grouped(count)))
        .collect();
    match parts.is_empty() {
        true => "none".into(),
        false => parts.join(", "),
    }
}

/// The columns that fit on a terminal.
const SHORT: [(&str, &str); 11] = [
    ("blocks", "blocks"),
    ("minutes", "minutes"),
    ("minutes_played", "played"),
    ("minutes_paused", "paused"),
    ("minutes_silent", "silent"),
    ("steps", "steps"),
    ("rounds", "wraps"),
    ("seeks", "seeks"),
    ("restarts", "restarts"),
    ("refused", "refused"),
    ("lowest_count", "lowest"),
];

/// Several logs, a row each.
pub fn put_table(rows: &[PrintedRow], rate: u32, out: &mut Out<'_>) -> Result<()> {
    let logs = rows
        .iter()
        .filter(|printed| printed.row == Row::Log)
        .count();
    out.put(format!(
        "{} logs, read at {} frames a second; - means that the log does not contain it\n",
        grouped(logs as u64),
        grouped(rate.into())
    ))?;
    let mut table = vec![
        ["log".to_owned()]
            .into_iter()
            .chain(SHORT.map(|(_, name)| name.to_owned()))
            .collect(),
    ];
    for printed in rows.iter().filter(|printed| printed.row != Row::Logs) {
        let cells = SHORT.iter().map(|(column, _)| {
            printed
                .cell(column)
                .map_or("-".into(), |cell| spaced(&cell))
        });
        let row: Vec<String> = [printed.name.clone()].into_iter().chain(cells).collect();
        table.push(row);
    }
    for (index, line) in laid_out(&table).iter().enumerate() {
        if index == logs + 1 {
            out.put("\n")?;
        }
        out.put(format!("{line}\n"))?;
    }
    for sentence in lacking(rows, &SHORT) {
        out.put(format!("{sentence}\n"))?;
    }
    Ok(())
}
