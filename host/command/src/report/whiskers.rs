//! Numbers with their intervals, one above the other: a dot for each number and a line for its interval.

use std::fmt::Write as _;

use crate::{
    interval::Estimate,
    plot::{Pen, escaped, round_step},
};

/// The width in the plot's own units, the space for the names, and the height of a row.
const WIDTH: i64 = 1_440;
const LEFT: i64 = 330;
const RIGHT: i64 = 60;
const ROW: i64 = 56;

/// The largest number of rows that is drawn.
const MOST: usize = 60;

/// The plot of shares or of differences, in hundredths; nothing if there are none or too many.
pub fn whiskers(caption: &str, rows: &[(String, Estimate)]) -> String {
    if rows.is_empty() || rows.len() > MOST {
        return String::new();
    }
    let low = rows
        .iter()
        .fold(0.0, |low: f64, row| low.min(100.0 * row.1.low));
    let high = rows
        .iter()
        .fold(1.0, |high: f64, row| high.max(100.0 * row.1.high));
    let x = |number: f64| {
        let part = ((number - low) / (high - low)).clamp(0.0, 1.0);
        LEFT + ((WIDTH - LEFT - RIGHT) as f64 * part).round() as i64
    };
    let (mut lines, mut dots, mut names) = (Pen::default(), Pen::default(), String::new());
    let base = ROW * rows.len() as i64;
    for (index, (name, estimate)) in rows.iter().enumerate() {
        let y = ROW * index as i64 + ROW / 2;
        lines.go(x(100.0 * estimate.low), y);
        lines.draw(x(100.0 * estimate.high), y);
        dots.dot(x(100.0 * estimate.value), y);
        let _ = write!(names, "<text y=\"{}\">{}</text>", y + 8, escaped(name));
    }
    let (mut grid, mut marks) = (String::new(), String::new());
    let step = round_step(high - low, 6.0, 1.0);
    let first = (low / step).ceil() as i64;
    for number in (first..first + 40).map(|index| index as f64 * step) {
        if number > high {
            break;
        }
        let _ = write!(grid, "M{} 0V{base}", x(number));
        let _ = write!(marks, "<text x=\"{}\">{number}</text>", x(number));
    }
    let (zero, height, caption) = (x(0.0), base + 70, escaped(caption));
    let (left, below) = (LEFT - 24, base + 46);
    format!(
        "<h3>{caption}</h3>\n<svg viewBox=\"0 0 {WIDTH} {height}\" role=\"img\" aria-label=\"{caption}\">\n\
         <path class=\"grid\" d=\"{grid}\"/><path class=\"axis\" d=\"M{zero} 0V{base}\"/>\n\
         <g class=\"names\" transform=\"translate({left})\">{names}</g><g class=\"x\" transform=\"translate(0 {below})\">{marks}</g>\n\
         <path class=\"whisker\" d=\"{lines}\"/><path class=\"value\" d=\"{dots}\"/>\n</svg>\n"
    )
}
