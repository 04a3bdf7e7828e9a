//! What an audit found, in words.

use cableowl::PlaybackState;

use super::{Differs, Found, Stop, Verdict, align::Part};
use crate::{
    explain,
    fault::Result,
    log::Form,
    out::Out,
    plot::{counted, grouped},
};

/// A part of a comparison as it is shown beside the other: the words of a log's line.
pub fn shown(part: &Part, form: Form) -> String {
    let (number, frames) = (part.number, part.frames);
    let Some(last) = part.last else {
        let refusal = part.refusal.unwrap_or_default();
        return format!("block={number} refused={refusal}");
    };
    let (steps, position) = (part.steps, last.position);
    let state = state_word(last.state);
    let mut words =
        format!("block={number} frames={frames} steps={steps} state={state} position={position}");
    if let Some(refusal) = part.refusal {
        words += &format!(" refused={refusal}");
    }
    let (Some(more), true) = (last.more, form != Form::First) else {
        return words;
    };
    let lowest = part.lowest.unwrap_or(4);
    let (forward, backward, started) = (more.forward, more.backward, u8::from(more.started));
    words += &format!(" lowest={lowest} forward={forward} backward={backward} started={started}");
    if let (Some((usage, back)), Some(third), Form::Third) = (part.spent, more.third, form) {
        let (played, paused, silent, still) =
            (usage.played, usage.paused, usage.silent, usage.still);
        let ((start, end), direction, ended) = (
            third.loop_region,
            u8::from(third.is_backward),
            u8::from(third.ended),
        );
        words += &format!(" played={played} paused={paused} silent={silent} still={still}");
        words += &format!(" loop_start={start} loop_end={end} direction={direction}");
        words += &format!(" steps_back={back} ended={ended}");
    }
    words
}

/// A state's name as one word.
fn state_word(number: u8) -> String {
    let state = PlaybackState::from_number(number.into());
    state.map_or("unknown".into(), explain::state_word)
}

/// Seconds for people.
pub fn span(seconds: f64) -> String {
    match seconds.abs() {
        1.0.. => format!("{seconds:.1} s"),
        0.01.. => format!("{seconds:.2} s"),
        _ => format!("{seconds:.4} s"),
    }
}

/// The seconds of the sound that the box is behind; below 0 it is ahead.
fn behind_seconds(found: &Found) -> f64 {
    match found.sample_rate {
        0 => 0.0,
        rate => found.creep as f64 / f64::from(rate),
    }
}

/// How much later the sound is after an hour.
pub fn hourly(found: &Found) -> Option<f64> {
    (found.seconds > 0.0).then(|| behind_seconds(found) * 3_600.0 / found.seconds)
}

pub fn behind(found: &Found) -> String {
    let frames = grouped(u64::try_from(found.creep.unsigned_abs()).unwrap_or(u64::MAX));
    let seconds = span(behind_seconds(found).abs());
    match found.creep {
        0 => "neither behind nor ahead".into(),
        1.. => format!("{frames} frames of the sound behind, {seconds}"),
        _ => format!("{frames} frames of the sound ahead, {seconds}"),
    }
}

pub fn an_hour(hourly: f64) -> String {
    let way = if hourly < 0.0 { "earlier" } else { "later" };
    format!("{} {way} after an hour", span(hourly.abs()))
}

/// What was found, in a sentence.
pub fn sentence(found: &Found) -> String {
    let (trace, log) = (&found.trace, &found.log);
    match (found.verdict(), found.first.first()) {
        (Verdict::Differs, Some(first)) => format!("{log}: {}", difference(found, first)),
        (Verdict::Agrees, _) => {
            let compared = compared(found);
            format!("{log} says what the rule gives for {trace}, {compared}")
        }
        _ => {
            let stops: Vec<String> = found.stops.iter().map(Stop::words).collect();
            match (stops.is_empty(), found.places) {
                (true, _) => format!(
                    "{trace} has no block and {log} has no line: nothing is said of the box"
                ),
                (false, 0) => format!("{trace} and {log}: {}", stops.join("; ")),
                (false, _) => format!(
                    "{trace} and {log}: {}; what was compared agrees, {}",
                    stops.join("; "),
                    compared(found)
                ),
            }
        }
    }
}

/// What was compared, in words.
fn compared(found: &Found) -> String {
    let (blocks, lines) = (grouped(found.blocks), grouped(found.lines));
    let seconds = span(found.seconds);
    match found.places == found.blocks && found.places == found.lines {
        true => format!(
            "block by block: {}, {seconds}",
            counted(found.places, "block")
        ),
        false => format!(
            "at all {} where a block of the one and a line of the other end together ({blocks} blocks, {lines} lines, {seconds})",
            counted(found.places, "frame")
        ),
    }
}

/// The difference in everyday words.
fn difference(found: &Found, first: &Differs) -> String {
    let block = grouped(first.segment.said.first);
    let place = format!(
        "first at block {block}, {} into the evening",
        span(first.at)
    );
    let creeps = found.only_moves && found.creep != 0;
    if let (true, Some(hourly)) = (creeps, hourly(found)) {
        let sound = if found.looped { "loop" } else { "sound" };
        let cause = match found.clears && found.creep > 0 {
            true => "; a player that clears its fraction at block edges does this",
            false => "",
        };
        return format!("the {sound} creeps: {}; {place}{cause}", an_hour(hourly));
    }
    format!("{} differs, {place}", first.what.name())
}

pub fn put_text(found: &Found, out: &mut Out<'_>) -> Result<()> {
    let mark = match found.verdict() {
        Verdict::Agrees => "AGREES",
        Verdict::Differs => "DIFFERS",
        Verdict::Unknown => "UNKNOWN",
    };
    out.put(format!("{mark}: {}\n", sentence(found)))?;
    let Some(first) = found.first.first() else {
        return Ok(());
    };
    for (name, part) in [
        ("the rule", &first.segment.rule),
        ("the box ", &first.segment.said),
    ] {
        out.put(format!("  {name}  {}\n", shown(part, found.form)))?;
    }
    out.put("     block       steps: rule     box    position: rule     box       creep\n")?;
    for differs in &found.first {
        let cells = |part: &Part| match part.last {
            Some(block) => (part.steps.to_string(), block.position.to_string()),
            None => (
                format!("({})", part.refusal.unwrap_or_default()),
                "-".into(),
            ),
        };
        let (rule, said) = (cells(&differs.segment.rule), cells(&differs.segment.said));
        out.put(format!(
            "{:>10} {:>17} {:>7} {:>17} {:>7} {:>11}\n",
            grouped(differs.segment.said.number),
            rule.0,
            said.0,
            rule.1,
            said.1,
            differs.creep
        ))?;
    }
    let more = found.differing - found.first.len() as u64;
    if more > 0 {
        out.put(format!(
            "  and {} more; --csv has all of them\n",
            counted(more, "comparison")
        ))?;
    }
    out.put(format!(
        "  after {}, {}, the box is {}\n",
        counted(found.blocks, "block"),
        span(found.seconds),
        behind(found)
    ))?;
    for stop in &found.stops {
        out.put(format!("  {}\n", stop.words()))?;
    }
    Ok(())
}
