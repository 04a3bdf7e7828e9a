//! Two logs of one evening that are cut into blocks in different places.

use cableowl::{PlaybackState, trace::Line};

/// Some lines of a log, one after the other.
#[derive(Debug, Default)]
struct Sum {
    frames: u64,
    steps: u64,
    /// The state and the position after the last of them.
    after: Option<(PlaybackState, u64)>,
}

impl Sum {
    fn add(&mut self, line: Line) -> Result<(), String> {
        let Line::Block {
            frames,
            steps,
            state,
            position,
            ..
        } = line
        else {
            return Err(format!("{line}"));
        };
        self.frames += frames;
        self.steps += steps;
        self.after = Some((state, position));
        Ok(())
    }

    fn agrees(&self, other: &Self) -> bool {
        (self.steps, self.after) == (other.steps, other.after)
    }
}

/// Joins the lines of two logs up to each frame at which both have an edge. There the sums of their
/// steps, their states and their positions must be equal, and both must end together. Returns how many
/// such frames there are, or what differs first.
pub fn common_edges(
    one: impl IntoIterator<Item = Line>,
    other: impl IntoIterator<Item = Line>,
) -> Result<usize, String> {
    let (mut one, mut other) = (one.into_iter(), other.into_iter());
    let (mut ours, mut theirs, mut edges) = (Sum::default(), Sum::default(), 0);
    loop {
        let is_edge = ours.frames == theirs.frames;
        if is_edge && !ours.agrees(&theirs) {
            return Err(format!("{ours:?} and {theirs:?}"));
        }
        edges += usize::from(is_edge);
        let (ahead, behind) = match ours.frames <= theirs.frames {
            true => (one.next(), &mut ours),
            false => (other.next(), &mut theirs),
        };
        match ahead {
            Some(line) => behind.add(line)?,
            None if is_edge && other.next().is_none() => return Ok(edges - 1),
            None => return Err(format!("{ours:?} and {theirs:?}: one log is longer")),
        }
    }
}
