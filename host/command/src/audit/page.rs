//! The audit's page.

use super::{
    Found, Gap, Verdict,
    words::{an_hour, behind, hourly, sentence, shown, span},
};
use crate::{
    fault::Result,
    page::{Sink, foot, head},
    plot::{Pen, Plot, escaped, grouped},
};

/// The audit's page.
pub fn page(found: &Found, put: &mut Sink<'_>) -> Result<()> {
    head("Did this box play as proved?", put)?;
    let class = match found.verdict() {
        Verdict::Agrees => "good",
        Verdict::Differs | Verdict::Unknown => "bad",
    };
    put(&format!(
        "<p class=\"lede {class}\">{}</p>\n<p class=\"note\">The trace is played again by the proved rule; the log is what the box said of itself. A step is one frame of the sound.</p>\n",
        escaped(&sentence(found))
    ))?;
    if found.verdict() == Verdict::Differs {
        for stop in &found.stops {
            put(&format!(
                "<p class=\"bad\">{}</p>\n",
                escaped(&stop.words())
            ))?;
        }
    }
    put("<dl>\n")?;
    let facts = [
        ("Blocks compared", grouped(found.blocks)),
        ("Places that differ", grouped(found.differing)),
        ("Time", span(found.seconds)),
        ("At the end", behind(found)),
        ("Creep", hourly(found).map_or("not known".into(), an_hour)),
    ];
    for (name, says) in facts {
        put(&format!("<div><dt>{name}</dt><dd>{says}</dd></div>\n"))?;
    }
    put("</dl>\n")?;
    put(&creep_plot(found))?;
    if !found.first.is_empty() {
        put(
            "<h3>The first differences</h3>\n<div class=\"scroll\"><table id=\"differing\" class=\"lines\"><thead><tr><th>The rule</th><th>The box</th><th>Creep</th></tr></thead><tbody>\n",
        )?;
        for differs in &found.first {
            put(&format!(
                "<tr><td>{}</td><td>{}</td><td>{}</td></tr>\n",
                escaped(&shown(&differs.segment.rule, found.form)),
                escaped(&shown(&differs.segment.said, found.form)),
                differs.creep
            ))?;
        }
        put("</tbody></table></div>\n")?;
    }
    foot(put)
}

/// The creep over time; if the steps agree and the positions do not, the difference of the positions.
pub fn creep_plot(found: &Found) -> String {
    let steps_differ = found
        .gaps
        .held
        .iter()
        .any(|gap| gap.creep.is_some_and(|c| c != 0));
    let (of, caption): (fn(&Gap) -> Option<i128>, _) = match (steps_differ, found.apart) {
        (false, true) => (
            |gap| gap.place,
            "The rule's position minus the box's, in frames of the sound",
        ),
        _ => (
            |gap| gap.creep,
            "Frames of the sound that the box is behind the proved player",
        ),
    };
    let second = match found.frames {
        0 => 0.0,
        frames => found.seconds / frames as f64,
    };
    let at = |index: usize| (index as u64 * found.gaps.width) as f64 * second;
    let points = found.gaps.held.iter().enumerate();
    let points = points.filter_map(|(index, gap)| Some((at(index), of(gap)? as f64)));
    let points: Vec<(f64, f64)> = points.collect();
    if points.is_empty() {
        return String::from("<p class=\"note\">There is no block to draw.</p>\n");
    }
    let low = points.iter().fold(0.0, |low: f64, point| low.min(point.1));
    let high = points
        .iter()
        .fold(0.0, |high: f64, point| high.max(point.1));
    let mut plot = Plot::new(found.seconds);
    plot.panel(caption, 420, low, if high > low { high } else { low + 4.0 });
    plot.numbers();
    if let Some(first) = found.first.first() {
        let begins = first.at - first.segment.seconds;
        plot.mark("first", begins, "the first block that differs begins here");
    }
    let mut pen = Pen::default();
    for (index, (at, creep)) in points.iter().enumerate() {
        let (x, y) = (plot.x(*at), plot.y(*creep));
        match index {
            0 => pen.go(x, y),
            _ => pen.draw(x, y),
        }
    }
    plot.path("creep", &pen);
    plot.done("how far the box is behind, over the evening")
}
