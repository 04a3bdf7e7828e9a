//! The plots of an evening: position in the sound, wraps, window counts and refusals, one above the other over the
//! evening's time.

use super::evening::Evening;
use crate::{
    course::{Course, ROWS, STRETCHES, Stretch},
    figures::REFUSALS,
    plot::{Pen, Plot, counted},
};

/// The number of intervals of each evening, by how many evenings are on the page. It is so small that a page with
/// hundreds of evenings stays below 2 MB.
pub fn stretches(evenings: usize) -> usize {
    (STRETCHES * 60 / evenings.max(1)).clamp(48, STRETCHES)
}

/// The plots of an evening in which something was played.
pub fn drawn(evening: &Evening, course: &Course, rate: u32) -> String {
    let rate = f64::from(rate);
    let mut plot = Plot::new(seconds(course.frames, rate));
    let sound_rate = evening.sound_rate.map_or(rate, f64::from);
    places(course, rate, sound_rate, &mut plot);
    rounds(course, rate, &mut plot);
    counts(course, rate, &mut plot);
    refusals(course, rate, &mut plot);
    plot.done("the plots of the evening")
}

/// A frame's number in seconds.
fn seconds(clock: u64, rate: f64) -> f64 {
    clock as f64 / rate
}

/// The intervals, each with the time at which it begins.
fn timed(course: &Course, rate: f64) -> impl Iterator<Item = (f64, &Stretch)> {
    let width = course.stretches.width;
    let stretches = course.stretches.held.iter().enumerate();
    stretches.map(move |(index, stretch)| (seconds(index as u64 * width, rate), stretch))
}

/// Groups of neighbouring intervals for which this holds, as times.
fn runs(course: &Course, rate: f64, holds: impl Fn(&Stretch) -> bool) -> Vec<(f64, f64)> {
    let mut runs: Vec<(f64, f64)> = Vec::new();
    let mut open = false;
    for (from, stretch) in timed(course, rate) {
        // Between two long blocks there may be intervals in which no block begins.
        if stretch.frames == 0 {
            continue;
        }
        match (holds(stretch), open, runs.last_mut()) {
            (true, true, Some(_)) => {}
            (true, _, _) => runs.push((from, from)),
            (false, true, Some(last)) => last.1 = from,
            (false, ..) => {}
        }
        open = holds(stretch);
    }
    if let Some(last) = runs.last_mut().filter(|_| open) {
        last.1 = seconds(course.frames, rate);
    }
    runs
}

/// The voice's position in the sound.
fn places(course: &Course, rate: f64, sound_rate: f64, plot: &mut Plot) {
    // Space for a loop's label above the highest position.
    let top = course.highest as f64 * 1.1;
    plot.panel("Where in the sound", 380, 0.0, top);
    for (class, of) in [
        ("paused", (|s: &Stretch| s.paused) as fn(&Stretch) -> u64),
        ("silent", |s: &Stretch| s.silent),
    ] {
        let runs = runs(course, rate, |stretch| 2 * of(stretch) > stretch.frames);
        let areas: Vec<_> = runs.into_iter().map(|run| (run, (0.0, top))).collect();
        plot.areas(class, &areas);
    }
    plot.seconds(sound_rate);
    loops(course, rate, sound_rate, plot);
    let (line, leaps) = lines(course, plot, rate);
    plot.path("leap", &leaps);
    plot.path("place", &line);
    let seeks = timed(course, rate).filter(|(_, stretch)| stretch.seeks > 0);
    let seeks = seeks.filter_map(|(at, stretch)| Some((at, stretch.places?.2 as f64)));
    plot.dots("seek", &seeks.collect::<Vec<_>>());
}

/// The loops that were wrapped. Those that are wide enough have names.
fn loops(course: &Course, rate: f64, sound_rate: f64, plot: &mut Plot) {
    let mut narrow = Vec::new();
    for round in &course.loops {
        let times = (seconds(round.from, rate), seconds(round.until, rate));
        let (high, next) = (round.high as f64, round.high.saturating_add(1));
        let area = (times, (next.saturating_sub(round.length) as f64, high));
        let width = plot.x(times.1) - plot.x(times.0);
        if width < 60 {
            narrow.push(area);
            continue;
        }
        let rounds = counted(round.rounds, "wrap");
        let says = format!(
            "{rounds} of a loop of {}, {:.3} s",
            counted(round.length, "frame"),
            round.length as f64 / sound_rate
        );
        plot.area("loop", area, &says);
        if width > 300 {
            plot.label(times.0, high, &rounds);
        }
    }
    plot.areas("loop", &narrow);
}

/// The line of positions, and its jumps.
fn lines(course: &Course, plot: &Plot, rate: f64) -> (Pen, Pen) {
    let (mut line, mut leaps) = (Pen::default(), Pen::default());
    let mut drawn = false;
    for (at, stretch) in timed(course, rate) {
        let Some((low, high, last)) = stretch.places else {
            continue;
        };
        let (x, last) = (plot.x(at), plot.y(last as f64));
        if stretch.leapt {
            leaps.go(x, plot.y(low as f64));
            leaps.draw(x, plot.y(high as f64));
        }
        match drawn && !stretch.leapt {
            true => line.draw(x, last),
            false => line.go(x, last),
        }
        drawn = true;
    }
    (line, leaps)
}

/// Wraps, minute by minute.
fn rounds(course: &Course, rate: f64, plot: &mut Plot) {
    let width = course.rounds.width;
    let bar = |(index, rounds): (usize, &u64)| {
        let from = index as u64 * width;
        let until = from.saturating_add(width).min(course.frames);
        let (from, until) = (seconds(from, rate), seconds(until, rate));
        let minutes = (until - from) / 60.0;
        let per_minute = match minutes > 0.0 {
            true => *rounds as f64 / minutes,
            false => 0.0,
        };
        let gap = (until - from) * 0.04;
        ((from + gap, until - gap), (0.0, per_minute))
    };
    let bars: Vec<_> = course.rounds.held.iter().enumerate().map(bar).collect();
    let highest = bars.iter().fold(0.0, |most: f64, bar| most.max(bar.1.1));
    if highest == 0.0 {
        return;
    }
    plot.panel("Wraps a minute", 180, 0.0, highest * 1.1);
    plot.numbers();
    let bars: Vec<_> = bars.into_iter().filter(|bar| bar.1.1 > 0.0).collect();
    plot.areas("bar", &bars);
}

/// Window counts below 4.
fn counts(course: &Course, rate: f64, plot: &mut Plot) {
    let low = timed(course, rate).filter_map(|(at, stretch)| Some((at, stretch.lowest?)));
    let low = low.filter(|(_, lowest)| *lowest < 4);
    let dots: Vec<_> = low.map(|(at, lowest)| (at, f64::from(lowest))).collect();
    if dots.is_empty() {
        return;
    }
    plot.panel("Window counts below 4: the sound had ended", 160, 0.0, 4.0);
    plot.numbers();
    plot.dots("count", &dots);
}

/// Refused blocks, a row for each number.
fn refusals(course: &Course, rate: f64, plot: &mut Plot) {
    let has = |row: &usize| {
        let held = &course.stretches.held;
        held.iter().any(|stretch| stretch.refused[*row] > 0)
    };
    let rows: Vec<usize> = (0..ROWS).filter(has).collect();
    if rows.is_empty() {
        return;
    }
    let count = rows.len() as f64;
    plot.panel(
        "Refused blocks, by number",
        50 * rows.len() as i64,
        0.0,
        count,
    );
    let name = |row: &usize| match REFUSALS.get(*row) {
        Some(refusal) => refusal.to_string(),
        None => "others".into(),
    };
    let at = |place: usize| place as f64 + 0.5;
    let names = rows.iter().enumerate();
    let names: Vec<_> = names.map(|(place, row)| (at(place), name(row))).collect();
    plot.rows(&names);
    let mut dots = Vec::new();
    for (place, row) in rows.iter().enumerate() {
        let refused = timed(course, rate).filter(|(_, stretch)| stretch.refused[*row] > 0);
        dots.extend(refused.map(|(time, _)| (time, at(place))));
    }
    plot.dots("refused", &dots);
}

#[cfg(test)]
mod tests {
    use super::*;

    #[test]
    fn more_evenings_have_fewer_stretches_each() {
        let each = [0, 1, 60, 300, 600, 100_000].map(stretches);
        assert_eq!(each, [480, 480, 480, 96, 48, 48]);
    }
}
