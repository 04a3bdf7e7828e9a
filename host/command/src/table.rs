//! Tables of text: laid out for a terminal, or as comma separated values.

use crate::plot::grouped;

/// The lines of a table: the first column is left aligned, the others right aligned.
pub fn laid_out(table: &[Vec<String>]) -> Vec<String> {
    let columns = table.iter().map(Vec::len).max().unwrap_or(0);
    let width = |column: usize| {
        let cells = table.iter().filter_map(|row| row.get(column));
        cells.map(|cell| cell.chars().count()).max().unwrap_or(0)
    };
    let widths: Vec<usize> = (0..columns).map(width).collect();
    let line = |row: &Vec<String>| {
        let mut line = String::new();
        for (column, (cell, width)) in row.iter().zip(&widths).enumerate() {
            match column {
                0 => line += &format!("{cell:<width$}"),
                _ => line += &format!("  {cell:>width$}"),
            }
        }
        line.trim_end().to_owned()
    };
    table.iter().map(line).collect()
}

/// A figure with a comma after each three digits of its whole part.
pub fn spaced(cell: &str) -> String {
    let (whole, rest) = match cell.split_once('.') {
        Some((whole, rest)) => (whole, format!(".{rest}")),
        None => (cell, String::new()),
    };
    match whole.parse() {
        Ok(number) => grouped(number) + &rest,
        Err(_) => cell.to_owned(),
    }
}

/// A row of comma separated values, with its line feed.
pub fn csv_line(cells: &[impl AsRef<str>]) -> String {
    let cells: Vec<String> = cells.iter().map(|cell| quoted(cell.as_ref())).collect();
    cells.join(",") + "\n"
}

fn quoted(cell: &str) -> String {
    match cell.contains([',', '"', '\n', '\r']) {
        true => format!("\"{}\"", cell.replace('"', "\"\"")),
        false => cell.to_owned(),
    }
}

#[cfg(test)]
mod tests {
    use super::*;

    #[test]
    fn names_are_quoted() {
        assert_eq!(csv_line(&["a.log", "1"]), "a.log,1\n");
        assert_eq!(csv_line(&["a, \"b\""]), "\"a, \"\"b\"\"\"\n");
    }
}
