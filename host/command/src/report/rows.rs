//! The rows of a report: one for each log. If there are several, one for all of them together, and the quantiles.

use super::evening::Evening;
use crate::{
    figures::{Figures, QUANTILES, quantile},
    log::Form,
    plot::grouped,
    table::csv_line,
};

/// The kind of a row of the report.
#[derive(Debug, Clone, Copy, PartialEq, Eq)]
pub enum Row {
    /// One log.
    Log,
    /// All of them.
    Total,
    /// Over all of them.
    Quantile,
    /// How many of them contain each figure.
    Logs,
}

impl Row {
    /// Its name.
    pub fn name(self) -> &'static str {
        match self {
            Self::Log => "log",
            Self::Total => "total",
            Self::Quantile => "quantile",
            Self::Logs => "logs",
        }
    }
}

/// The columns: the name in a table, and the heading for people.
pub const COLUMNS: [(&str, &str); 24] = [
    ("blocks", "Blocks"),
    ("frames", "Frames"),
    ("minutes", "Minutes"),
    ("minutes_played", "Minutes played"),
    ("minutes_paused", "Minutes paused"),
    ("minutes_silent", "Minutes silent"),
    ("minutes_still", "Minutes at a rate of 0"),
    ("steps", "Steps"),
    ("jumps", "Jumps"),
    ("rounds", "Wraps"),
    ("seeks", "Seeks"),
    ("restarts", "Restarts by hand"),
    ("pauses", "Pauses"),
    ("ended", "Reached the end"),
    ("misfits", "Lines that do not fit"),
    ("lowest_count", "Lowest window count"),
    ("refused", "Refused blocks"),
    ("refused_1", "Refused with 1"),
    ("refused_9", "Refused with 9"),
    ("refused_10", "Refused with 10"),
    ("refused_11", "Refused with 11"),
    ("refused_12", "Refused with 12"),
    ("refused_other", "Refused otherwise"),
    ("broken", "Broken records"),
];

/// The figures of a row, one for each column; `None` if the log does not contain it.
type Cells = [Option<u64>; COLUMNS.len()];

fn cells(figures: &Figures) -> Cells {
    let [one, nine, ten, eleven, twelve] = figures.refused.map(Some);
    [
        Some(figures.blocks),
        Some(figures.frames),
        Some(figures.frames),
        Some(figures.played),
        Some(figures.paused),
        Some(figures.silent),
        figures.still,
        Some(figures.steps),
        figures.jumps,
        figures.rounds,
        figures.seeks,
        figures.restarts,
        figures.pauses,
        figures.ended,
        figures.misfits,
        figures.lowest,
        Some(figures.all_refused()),
        one,
        nine,
        ten,
        eleven,
        twelve,
        Some(figures.refused_otherwise),
        Some(figures.broken.is_some().into()),
    ]
}

/// A row as it is printed: its kind, its name, its form, its figures.
pub struct PrintedRow {
    /// What it is.
    pub row: Row,
    /// Its name.
    pub name: String,
    /// The form of its log.
    pub form: Option<Form>,
    /// Its figures as text, minutes with three digits; `None` if the log does not contain it.
    pub cells: [Option<String>; COLUMNS.len()],
}

impl PrintedRow {
    fn new(row: Row, name: &str, form: Option<Form>, cells: Cells, rate: u32) -> Self {
        let mut index = 0;
        let cells = cells.map(|cell| {
            let (column, _) = COLUMNS[index];
            index += 1;
            let number = cell?;
            Some(match column.starts_with("minutes") && row != Row::Logs {
                true => minutes(number, rate),
                false => number.to_string(),
            })
        });
        Self {
            row,
            name: name.into(),
            form,
            cells,
        }
    }

    /// Its figure in the column of this name.
    pub fn cell(&self, column: &str) -> Option<String> {
        let index = COLUMNS.iter().position(|(name, _)| *name == column)?;
        self.cells.get(index)?.clone()
    }
}

/// Minutes of this many frames, to a thousandth.
pub fn minutes(frames: u64, rate: u32) -> String {
    let whole = 60 * u128::from(rate);
    let thousandths = (u128::from(frames) * 1_000 + whole / 2) / whole;
    format!("{}.{:03}", thousandths / 1_000, thousandths % 1_000)
}

/// The rows: one for each log. If there are several, one for all of them together, and the quantiles.
pub fn rows<'a>(evenings: impl Iterator<Item = &'a Evening>, rate: u32) -> Vec<PrintedRow> {
    let (mut all, mut rows) = (Vec::new(), Vec::new());
    for evening in evenings {
        let (form, cells) = (Some(evening.form), cells(&evening.figures));
        all.push(cells);
        rows.push(PrintedRow::new(Row::Log, &evening.name, form, cells, rate));
    }
    if rows.len() < 2 {
        return rows;
    }
    let printed = columns_of(&all);
    let sums = over(&printed, |column, numbers| match column {
        "lowest_count" => numbers.iter().copied().min(),
        _ => numbers.iter().copied().reduce(u64::saturating_add),
    });
    rows.push(PrintedRow::new(Row::Total, "total", None, sums, rate));
    for (name, hundredths) in QUANTILES {
        let cells = over(&printed, |_, numbers| quantile(numbers, hundredths));
        rows.push(PrintedRow::new(Row::Quantile, name, None, cells, rate));
    }
    let counts = over(&printed, |_, numbers| Some(numbers.len() as u64));
    rows.push(PrintedRow::new(
        Row::Logs,
        "logs that say it",
        None,
        counts,
        rate,
    ));
    rows
}

/// The figures of each column, from the logs that contain it.
type Columns = [Vec<u64>; COLUMNS.len()];

fn columns_of(all: &[Cells]) -> Columns {
    let mut columns = Columns::default();
    for cells in all {
        for (column, cell) in columns.iter_mut().zip(cells) {
            column.extend(cell);
        }
    }
    columns
}

/// A row over the logs: one figure for each column.
fn over(columns: &Columns, figure: impl Fn(&str, &[u64]) -> Option<u64>) -> Cells {
    let mut cells = Cells::default();
    let named = COLUMNS.iter().zip(columns);
    for (cell, ((column, _), numbers)) in cells.iter_mut().zip(named) {
        *cell = figure(column, numbers);
    }
    cells
}

/// Which totals and quantiles lack a log: a sentence for each number of logs. The columns have the names under which
/// they are shown.
pub fn lacking(rows: &[PrintedRow], columns: &[(&str, &str)]) -> Vec<String> {
    let logs = rows
        .iter()
        .filter(|printed| printed.row == Row::Log)
        .count();
    let Some(counts) = rows.iter().find(|printed| printed.row == Row::Logs) else {
        return Vec::new();
    };
    let mut named: Vec<(usize, Vec<&str>)> = Vec::new();
    for (column, name) in columns {
        let Some(count) = counts.cell(column).and_then(|cell| cell.parse().ok()) else {
            continue;
        };
        if (1..logs).contains(&count) {
            match named.iter_mut().find(|(held, _)| *held == count) {
                Some((_, names)) => names.push(name),
                None => named.push((count, vec![name])),
            }
        }
    }
    let sentence = |(count, names): (usize, Vec<&str>)| {
        let [count, logs] = [count, logs].map(|number| grouped(number as u64));
        let names = names.join(", ");
        format!("{names}: over {count} of {logs} logs, since the others do not say it")
    };
    named.into_iter().map(sentence).collect()
}

/// The rows as comma separated values.
pub fn csv(rows: &[PrintedRow], rate: u32) -> String {
    let columns = COLUMNS.map(|(column, _)| column);
    let mut text = csv_line(&[&["row", "name", "form", "rate"][..], &columns].concat());
    for printed in rows {
        let form = printed
            .form
            .map_or(String::new(), |form| form.number().to_string());
        let mut cells = vec![printed.row.name().to_owned(), printed.name.clone(), form];
        cells.push(rate.to_string());
        cells.extend(
            printed
                .cells
                .iter()
                .map(|cell| cell.clone().unwrap_or_default()),
        );
        text += &csv_line(&cells);
    }
    text
}

#[cfg(test)]
mod tests {
    use super::*;

    #[test]
    fn minutes_are_rounded_once() {
        assert_eq!(minutes(0, 48_000), "0.000");
        assert_eq!(minutes(48_000 * 60, 48_000), "1.000");
        assert_eq!(minutes(6, 1), "0.100");
        assert_eq!(minutes(1_439, 48_000), "0.000");
        assert_eq!(minutes(1_440, 48_000), "0.001");
        assert_eq!(minutes(u64::MAX, 1), "307445734561825860.250");
    }
}
