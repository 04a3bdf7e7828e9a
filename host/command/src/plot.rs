//! Plots as SVG, written directly: panels one above the other over one axis of time. All numbers are whole, and a line
//! is written by its steps, so that hundreds of plots fit on a page.

use std::fmt::{self, Write as _};

/// A plot's width in its own units, and the margins: left and right of the panels, above each for its caption, and
/// below all for the time.
const WIDTH: i64 = 1_440;
const LEFT: i64 = 160;
const RIGHT: i64 = 32;
const CAPTION: i64 = 84;
const BOTTOM: i64 = 76;

/// The largest number of marks on an axis.
const MARKS: u32 = 40;

/// Panels over one axis of time.
pub struct Plot {
    seconds: f64,
    /// The current panel: its upper and its lower edge, and the values there.
    top: i64,
    base: i64,
    until: f64,
    from: f64,
    drawn: String,
}

impl Plot {
    /// A plot of this many seconds, without a panel.
    pub fn new(seconds: f64) -> Self {
        Self {
            seconds: match seconds.is_finite() && seconds > 0.0 {
                true => seconds,
                false => 1.0,
            },
            top: 0,
            base: 0,
            until: 1.0,
            from: 0.0,
            drawn: String::new(),
        }
    }

    /// Adds a panel below the last one, with values from `from` to `until`.
    pub fn panel(&mut self, caption: &str, height: i64, from: f64, until: f64) {
        self.top = self.base + CAPTION;
        self.base = self.top + height;
        (self.from, self.until) = (from, if until > from { until } else { from + 1.0 });
        let (y, caption) = (self.top - 18, escaped(caption));
        self.put(&format!(
            "<text class=caption x={LEFT} y={y}>{caption}</text>"
        ));
    }

    /// The x coordinate of a time.
    pub fn x(&self, seconds: f64) -> i64 {
        let part = (seconds / self.seconds).clamp(0.0, 1.0);
        LEFT + ((WIDTH - LEFT - RIGHT) as f64 * part).round() as i64
    }

    /// The y coordinate of a value.
    pub fn y(&self, number: f64) -> i64 {
        let part = ((number - self.from) / (self.until - self.from)).clamp(0.0, 1.0);
        self.base - ((self.base - self.top) as f64 * part).round() as i64
    }

    fn put(&mut self, element: &str) {
        self.drawn.push_str(element);
        self.drawn.push('\n');
    }

    /// A filled area with a name.
    pub fn area(&mut self, class: &str, (times, numbers): Area, says: &str) {
        let (x, y, width, height) = self.sides(times, numbers);
        let title = title(says);
        self.put(&format!(
            "<rect class={class} x={x} y={y} width={width} height={height}>{title}</rect>"
        ));
    }

    /// Filled areas of one kind without names.
    pub fn areas(&mut self, class: &str, areas: &[Area]) {
        let mut pen = Pen::default();
        for (times, numbers) in areas {
            let (x, y, width, height) = self.sides(*times, *numbers);
            pen.go(x, y);
            for (x, y) in [
                (x + width, y),
                (x + width, y + height),
                (x, y + height),
                (x, y),
            ] {
                pen.draw(x, y);
            }
        }
        self.path(class, &pen);
    }

    fn sides(&self, times: (f64, f64), numbers: (f64, f64)) -> (i64, i64, i64, i64) {
        let (x, y) = (self.x(times.0), self.y(numbers.1));
        let (right, bottom) = (self.x(times.1), self.y(numbers.0));
        (x, y, (right - x).max(2), (bottom - y).max(2))
    }

    /// Dots of one size. The class sets the width of the stroke.
    pub fn dots(&mut self, class: &str, dots: &[(f64, f64)]) {
        let mut pen = Pen::default();
        for (seconds, number) in dots {
            pen.dot(self.x(*seconds), self.y(*number));
        }
        self.path(class, &pen);
    }

    /// What a pen drew.
    pub fn path(&mut self, class: &str, pen: &Pen) {
        if !pen.drawn.is_empty() {
            self.put(&format!("<path class={class} d=\"{pen}\"/>"));
        }
    }

    /// A label at a time and a value.
    pub fn label(&mut self, seconds: f64, number: f64, says: &str) {
        let (x, y, says) = (self.x(seconds) + 10, self.y(number) - 10, escaped(says));
        self.put(&format!("<text class=label x={x} y={y}>{says}</text>"));
    }

    /// A vertical line at a time.
    pub fn mark(&mut self, class: &str, seconds: f64, says: &str) {
        let (x, top, base, title) = (self.x(seconds), self.top, self.base, title(says));
        self.put(&format!(
            "<path class={class} d=\"M{x} {top}V{base}\">{title}</path>"
        ));
    }

    /// The axis of values, with lines at round values.
    pub fn numbers(&mut self) {
        let step = round_step(self.until - self.from, self.marks(), 1.0);
        let first = (self.from / step).ceil();
        let marks = (0..MARKS).map(|index| (first + f64::from(index)) * step);
        let marks = marks.take_while(|number| *number <= self.until);
        let marks: Vec<_> = marks
            .map(|number| (number, grouped_signed(number)))
            .collect();
        self.rows(&marks);
    }

    /// The axis of values in seconds, of which each has `rate` values.
    pub fn seconds(&mut self, rate: f64) {
        let (from, until) = (self.from / rate, self.until / rate);
        let step = time_step(until - from).max(round_step(until - from, self.marks(), 0.0));
        let first = (from / step).ceil();
        let marks = (0..MARKS).map(|index| (first + f64::from(index)) * step);
        let marks = marks.take_while(|seconds| *seconds <= until);
        let name = |seconds: f64| match until < 60.0 && step >= 1.0 {
            true => format!("{seconds} s"),
            false => time(seconds, step),
        };
        let marks: Vec<_> = marks
            .map(|seconds| (seconds * rate, name(seconds)))
            .collect();
        self.rows(&marks);
    }

    /// About how many marks fit beside the panel.
    fn marks(&self) -> f64 {
        (self.base - self.top) as f64 / 80.0
    }

    /// Horizontal lines at some values, with their names on the left.
    pub fn rows(&mut self, marks: &[(f64, String)]) {
        let (mut lines, mut names) = (String::new(), String::new());
        for (number, name) in marks {
            let (y, name) = (self.y(*number), escaped(name));
            let (right, below) = (WIDTH - RIGHT, y + 8);
            let _ = write!(lines, "M{LEFT} {y}H{right}");
            let _ = write!(names, "<text y={below}>{name}</text>");
        }
        self.put(&format!("<path class=grid d=\"{lines}\"/>"));
        // The style sets their x coordinate, left of the panels.
        self.put(&format!("<g class=y>{names}</g>"));
    }

    /// The whole plot, with its axis of time.
    pub fn done(mut self, says: &str) -> String {
        let (base, right) = (self.base, WIDTH - RIGHT);
        let step = time_step(self.seconds);
        let (mut lines, mut names) = (format!("M{LEFT} {base}H{right}"), String::new());
        for at in (0..MARKS).map(|index| f64::from(index) * step) {
            if at > self.seconds * 1.000_001 {
                break;
            }
            let (x, time) = (self.x(at), time(at, step));
            let _ = write!(lines, "M{x} {base}v10");
            let end = if x > right - 72 { " class=end" } else { "" };
            let _ = write!(names, "<text{end} x={x}>{time}</text>");
        }
        let below = base + 54;
        self.put(&format!("<path class=axis d=\"{lines}\"/>"));
        self.put(&format!(
            "<g class=x transform=\"translate(0 {below})\">{names}</g>"
        ));
        let (height, says) = (base + BOTTOM, escaped(says));
        format!(
            "<svg viewBox=\"0 0 {WIDTH} {height}\" role=img aria-label=\"{says}\">\n{}</svg>\n",
            self.drawn
        )
    }
}

/// An area of a panel: two times and two values.
pub type Area = ((f64, f64), (f64, f64));

/// Lines, each written as a step from the end of the previous one.
#[derive(Default)]
pub struct Pen {
    drawn: String,
    at: (i64, i64),
    /// Where the next line begins, if that is not the end of the previous one.
    begin: Option<(i64, i64)>,
    /// Where the previous line is in the text, if it is horizontal, and its length.
    level: Option<(usize, i64)>,
}

impl Pen {
    /// The next line begins here.
    pub fn go(&mut self, x: i64, y: i64) {
        self.begin = Some((x, y));
    }

    /// Draws a line to this point.
    pub fn draw(&mut self, x: i64, y: i64) {
        if let Some(begin) = self.begin.take()
            && (self.drawn.is_empty() || begin != self.at)
        {
            let (x, y) = self.step(begin);
            let _ = write!(self.drawn, "m{x}{}", signed(y));
            self.level = None;
        }
        let _ = match self.step((x, y)) {
            (0, y) => write!(self.drawn, "v{y}"),
            (x, 0) if x > 0 => return self.level(x),
            (x, 0) => write!(self.drawn, "h{x}"),
            (x, y) => write!(self.drawn, "l{x}{}", signed(y)),
        };
        self.level = None;
    }

    /// Draws a horizontal line to the right. Successive ones become one line.
    fn level(&mut self, length: i64) {
        let (from, before) = self.level.unwrap_or((self.drawn.len(), 0));
        self.drawn.truncate(from);
        self.level = Some((from, before + length));
        let _ = write!(self.drawn, "h{}", before + length);
    }

    /// Draws a dot: a line of length 0, whose round ends are visible.
    pub fn dot(&mut self, x: i64, y: i64) {
        self.go(x, y);
        self.draw(x, y);
    }

    fn step(&mut self, to: (i64, i64)) -> (i64, i64) {
        let step = (to.0 - self.at.0, to.1 - self.at.1);
        self.at = to;
        step
    }
}

impl fmt::Display for Pen {
    fn fmt(&self, f: &mut fmt::Formatter<'_>) -> fmt::Result {
        f.write_str(&self.drawn)
    }
}

/// The second number of a pair. A minus sign separates it from the first.
fn signed(number: i64) -> String {
    match number < 0 {
        true => number.to_string(),
        false => format!(" {number}"),
    }
}

fn title(says: &str) -> String {
    match says.is_empty() {
        true => String::new(),
        false => format!("<title>{}</title>", escaped(says)),
    }
}

/// A round step, 1, 2 or 5 times a power of ten, such that about `many` of them fit.
pub fn round_step(range: f64, many: f64, least: f64) -> f64 {
    let rough = (range / many).max(f64::MIN_POSITIVE);
    let power = 10f64.powf(rough.log10().floor());
    let step = [1.0, 2.0, 5.0, 10.0].into_iter().map(|k| k * power);
    step.into_iter()
        .find(|step| *step >= rough)
        .unwrap_or(10.0 * power)
        .max(least)
}

/// A step of time that people use.
fn time_step(seconds: f64) -> f64 {
    let steps = [
        1.0, 2.0, 5.0, 10.0, 15.0, 30.0, 60.0, 120.0, 300.0, 600.0, 900.0, 1_800.0, 3_600.0,
        7_200.0, 21_600.0, 43_200.0, 86_400.0,
    ];
    match seconds {
        ..7.0 => round_step(seconds, 7.0, 0.0),
        _ => {
            let found = steps.into_iter().find(|step| seconds / step <= 7.0);
            found.unwrap_or_else(|| round_step(seconds / 86_400.0, 8.0, 1.0) * 86_400.0)
        }
    }
}

/// A time, as precise as its step.
pub fn time(seconds: f64, step: f64) -> String {
    if step < 1.0 {
        let digits = (-step.log10().floor()).clamp(1.0, 9.0) as usize;
        return format!("{seconds:.digits$} s");
    }
    let whole = seconds.round() as u64;
    let (hours, minutes, seconds) = (whole / 3_600, whole / 60 % 60, whole % 60);
    match hours {
        0 => format!("{minutes}:{seconds:02}"),
        _ => format!("{hours}:{minutes:02}:{seconds:02}"),
    }
}

/// A whole number with a comma after each three digits.
pub fn grouped(number: u64) -> String {
    let digits = number.to_string();
    let mut text = String::new();
    for (index, digit) in digits.chars().enumerate() {
        if index > 0 && (digits.len() - index).is_multiple_of(3) {
            text.push(',');
        }
        text.push(digit);
    }
    text
}

/// A count with its noun: `1 block`, `2 blocks`.
pub fn counted(number: u64, thing: &str) -> String {
    let end = if number == 1 { "" } else { "s" };
    format!("{} {thing}{end}", grouped(number))
}

/// A time of the evening, to a thousandth of a second: `1:15.000`.
pub fn clock(seconds: f64) -> String {
    // Above 2^64 thousandths the cast saturates.
    let thousandths = (seconds * 1_000.0).round() as u64;
    let (whole, rest) = (thousandths / 1_000, thousandths % 1_000);
    format!("{}.{rest:03}", time(whole as f64, 1.0))
}

fn grouped_signed(number: f64) -> String {
    let sign = if number <= -0.5 { "-" } else { "" };
    format!("{sign}{}", grouped(number.abs().round() as u64))
}

/// Text escaped for a page.
pub fn escaped(text: &str) -> String {
    let mut safe = String::with_capacity(text.len());
    for letter in text.chars() {
        match letter {
            '&' => safe.push_str("&amp;"),
            '<' => safe.push_str("&lt;"),
            '>' => safe.push_str("&gt;"),
            '"' => safe.push_str("&quot;"),
            '\'' => safe.push_str("&#39;"),
            _ if letter.is_control() => {
                let _ = write!(safe, "{}", letter.escape_default());
            }
            _ => safe.push(letter),
        }
    }
    safe
}

#[cfg(test)]
mod tests {
    use super::*;

    #[test]
    fn names_mean_themselves() {
        assert_eq!(
            escaped("<script>\"a\" & 'b'\n"),
            "&lt;script&gt;&quot;a&quot; &amp; &#39;b&#39;\\n"
        );
    }

    #[test]
    fn times_are_told_as_people_count() {
        assert_eq!(time(0.0, 60.0), "0:00");
        assert_eq!(time(75.0, 15.0), "1:15");
        assert_eq!(time(3_600.0, 600.0), "1:00:00");
        assert_eq!(time(0.25, 0.05), "0.25 s");
        assert_eq!(time_step(300.0), 60.0);
        assert_eq!(clock(75.0004), "1:15.000");
        assert_eq!(clock(0.0205), "0:00.021");
        assert_eq!(time_step(3_600.0), 600.0);
    }

    #[test]
    fn lines_are_written_by_their_steps() {
        let mut pen = Pen::default();
        pen.go(10, 20);
        pen.draw(13, 16);
        pen.go(13, 16);
        pen.draw(13, 20);
        pen.go(20, 20);
        pen.draw(25, 20);
        pen.draw(29, 20);
        pen.draw(25, 20);
        pen.draw(26, 20);
        pen.dot(1, 30);
        assert_eq!(pen.drawn, "m10 20l3-4v4m7 0h9h-4h1m-25 10v0");
    }

    #[test]
    fn any_size_is_drawn() {
        for seconds in [
            0.0,
            f64::MIN_POSITIVE,
            1e-9,
            1.0,
            300.0,
            1e9,
            1e300,
            f64::MAX,
            f64::INFINITY,
            f64::NAN,
        ] {
            for until in [0.0, 1.0, 1e19] {
                let mut plot = Plot::new(seconds);
                plot.panel("p", 400, 0.0, until);
                plot.numbers();
                plot.seconds(48_000.0);
                assert!(plot.done("p").len() < 1_000_000, "{seconds} {until}");
            }
        }
    }
}
