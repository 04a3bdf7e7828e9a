//! Reads a log line by line: one line per block or callback of a voice (docs/guide/TOOLS.md has the three
//! forms). It accepts any bytes; for bytes that are not a log, one sentence names the line.

use std::{fmt, io::Read};

use cableowl::Usage;

use crate::{fault::Result, input::Input};

/// Which of the three forms a log has.
#[derive(Debug, Clone, Copy, PartialEq, Eq)]
pub enum Form {
    /// The lines that replay prints.
    First,
    /// `log=2`, then lines with more words: the form of older boxes.
    Second,
    /// `log=3`, then lines that also count played, paused and silent frames.
    Third,
}

impl Form {
    /// Its number.
    pub fn number(self) -> u64 {
        match self {
            Self::First => 1,
            Self::Second => 2,
            Self::Third => 3,
        }
    }
}

/// A line of a log.
#[derive(Debug, Clone, Copy, PartialEq, Eq)]
pub enum Line {
    /// An accepted block.
    Block(Block),
    /// A block that the player refused.
    Refused {
        /// Its number.
        number: u64,
        /// The refusal's number.
        refusal: u8,
        /// What came before it; form 1 does not contain it.
        before: Option<Before>,
    },
    /// A record that the reader refused, where the run ended.
    Broken {
        /// The refusal's number.
        refusal: u8,
        /// The record's first byte.
        at: u64,
    },
}

/// An accepted block.
#[derive(Debug, Clone, Copy, PartialEq, Eq)]
pub struct Block {
    /// Its number, from 1.
    pub number: u64,
    /// Its frames.
    pub frames: u64,
    /// Its steps.
    pub steps: u64,
    /// The state after it, 0 to 6.
    pub state: u8,
    /// The position after it.
    pub position: u64,
    /// What forms 2 and 3 add.
    pub more: Option<More>,
}

/// What forms 2 and 3 add for an accepted block.
#[derive(Debug, Clone, Copy, PartialEq, Eq)]
pub struct More {
    /// The lowest window count that it read, 0 to 4.
    pub lowest: u8,
    /// The voice's forward wraps so far.
    pub forward: u32,
    /// The voice's backward wraps so far.
    pub backward: u32,
    /// Whether the sound has started.
    pub started: bool,
    /// What form 3 adds.
    pub third: Option<Third>,
    /// What came before it.
    pub before: Before,
}

/// What only form 3 has for an accepted block.
#[derive(Debug, Clone, Copy, PartialEq, Eq)]
pub struct Third {
    /// How many frames were played, paused or silent.
    pub usage: Usage,
    /// The loop after it, end exclusive; 0 and 0 if there is none.
    pub loop_region: (u64, u64),
    /// Whether the voice moves backward after it.
    pub is_backward: bool,
    /// Of the steps, those backward.
    pub steps_back: u64,
    /// Whether the position has passed the end of the sound.
    pub ended: bool,
}

/// What was done to the voice since the previous line.
#[derive(Debug, Clone, Copy, PartialEq, Eq)]
pub struct Before {
    /// Voices created.
    pub created: u64,
    /// Seeks.
    pub seeks: u64,
    /// Of both, those that restarted the sound.
    pub restarts: u64,
    /// Pauses; only in form 3.
    pub pauses: Option<u64>,
}

/// The longest line: form 3 with every number at its longest has fewer bytes.
const LONGEST: usize = 576;

/// Whether this is the line of a creation that a replay refused: none of the given sounds was the
/// recorded one. It is a line of every form.
fn is_refused_creation(text: &[u8]) -> std::result::Result<bool, Wrong> {
    let mut words = Words { text, at: 0 };
    if !words.next_is(b"creation=") {
        return Ok(false);
    }
    words.number(b"creation=", 255)?;
    words.number(b" at=", u64::MAX)?;
    words.end()?;
    Ok(true)
}

/// A line of this form, without its line feed.
pub fn parse(text: &[u8], form: Form) -> std::result::Result<Line, Wrong> {
    let mut words = Words { text, at: 0 };
    if words.next_is(b"refused=") {
        let refusal = words.number(b"refused=", 255)? as u8;
        let at = words.number(b" at=", u64::MAX)?;
        words.end()?;
        return Ok(Line::Broken { refusal, at });
    }
    let number = words.number(b"block=", u64::MAX)?;
    if words.next_is(b" refused=") {
        let refusal = words.number(b" refused=", 255)? as u8;
        let before = match form {
            Form::First => None,
            Form::Second | Form::Third => Some(words.before(form)?),
        };
        words.end()?;
        return Ok(Line::Refused {
            number,
            refusal,
            before,
        });
    }
    let frames = words.number(b" frames=", u64::MAX)?;
    let steps = words.number(b" steps=", u64::MAX)?;
    let state = words.number(b" state=", 6)? as u8;
    let position = words.number(b" position=", u64::MAX)?;
    let more = match form {
        Form::First => None,
        Form::Second | Form::Third => Some(More {
            lowest: words.number(b" lowest=", 4)? as u8,
            forward: words.number(b" forward=", u32::MAX.into())? as u32,
            backward: words.number(b" backward=", u32::MAX.into())? as u32,
            started: words.number(b" started=", 1)? == 1,
            third: match form {
                Form::Third => Some(words.third(frames, steps)?),
                _ => None,
            },
            before: words.before(form)?,
        }),
    };
    words.end()?;
    Ok(Line::Block(Block {
        number,
        frames,
        steps,
        state,
        position,
        more,
    }))
}

/// Why a line is not valid, and at which of its bytes, from 1.
#[derive(Debug, Clone, PartialEq, Eq)]
pub struct Wrong {
    column: usize,
    words: String,
}

impl fmt::Display for Wrong {
    fn fmt(&self, f: &mut fmt::Formatter<'_>) -> fmt::Result {
        write!(f, "column {}: {}", self.column, self.words)
    }
}

/// The words of a line, read from its start.
struct Words<'a> {
    text: &'a [u8],
    at: usize,
}

impl Words<'_> {
    fn rest(&self) -> &[u8] {
        self.text.get(self.at..).unwrap_or_default()
    }

    fn next_is(&self, word: &[u8]) -> bool {
        self.rest().starts_with(word)
    }

    fn wrong(&self, words: impl Into<String>) -> Wrong {
        Wrong {
            column: self.at + 1,
            words: words.into(),
        }
    }

    /// A word, then a decimal number up to this limit.
    fn number(&mut self, word: &[u8], most: u64) -> std::result::Result<u64, Wrong> {
        let named = || String::from_utf8_lossy(word.trim_ascii_start());
        if !self.next_is(word) {
            return Err(self.wrong(format!("'{}' must stand here", named())));
        }
        self.at += word.len();
        let length = self.rest().iter().take_while(|byte| byte.is_ascii_digit());
        let digits = self.rest().get(..length.count()).unwrap_or_default();
        let number = match digits {
            [] => return Err(self.wrong(format!("'{}' has no number", named()))),
            [b'0', _, ..] => {
                return Err(self.wrong(format!("the number of '{}' begins with 0", named())));
            }
            _ => std::str::from_utf8(digits)
                .ok()
                .and_then(|digits| digits.parse().ok())
                .filter(|number| *number <= most),
        };
        let Some(number) = number else {
            let named = named();
            return Err(self.wrong(format!("the number of '{named}' is above {most}")));
        };
        self.at += digits.len();
        Ok(number)
    }

    /// What form 3 adds for a block of this many frames and steps.
    fn third(&mut self, frames: u64, steps: u64) -> std::result::Result<Third, Wrong> {
        let usage = Usage {
            played: self.number(b" played=", frames)?,
            paused: self.number(b" paused=", frames)?,
            silent: self.number(b" silent=", frames)?,
            still: self.number(b" still=", frames)?,
        };
        let spent = [usage.played, usage.paused, usage.silent].map(u128::from);
        if spent.iter().sum::<u128>() != frames.into() {
            return Err(self.wrong("played, paused and silent frames are not all frames together"));
        }
        if usage.still > usage.played {
            return Err(self.wrong("more frames at a rate of 0 than were played"));
        }
        let (start, end) = (
            self.number(b" loop_start=", u64::MAX)?,
            self.number(b" loop_end=", u64::MAX)?,
        );
        if start >= end && (start, end) != (0, 0) {
            return Err(self.wrong("the loop ends before it starts"));
        }
        Ok(Third {
            usage,
            loop_region: (start, end),
            is_backward: self.number(b" direction=", 1)? == 1,
            steps_back: self.number(b" steps_back=", steps)?,
            ended: self.number(b" ended=", 1)? == 1,
        })
    }

    fn before(&mut self, form: Form) -> std::result::Result<Before, Wrong> {
        Ok(Before {
            created: self.number(b" created=", u64::MAX)?,
            seeks: self.number(b" seeks=", u64::MAX)?,
            restarts: self.number(b" restarts=", u64::MAX)?,
            pauses: match form {
                Form::Third => Some(self.number(b" pauses=", u64::MAX)?),
                _ => None,
            },
        })
    }

    fn end(&self) -> std::result::Result<(), Wrong> {
        match self.rest() {
            [] => Ok(()),
            [b'\r'] => {
                Err(self.wrong("a carriage return: a log's lines end with a line feed alone"))
            }
            _ => Err(self.wrong("the line must end here")),
        }
    }
}

/// A log that is being read. It keeps one line at a time.
pub struct Log {
    input: Input,
    form: Form,
    room: Vec<u8>,
    from: usize,
    until: usize,
    ended: bool,
    /// The next line, from 1, and its first byte.
    line: u64,
    place: u64,
    blocks: u64,
    broken: bool,
    counts: Option<(u32, u32)>,
    /// The line and the byte at which the log ends inside a line.
    cut: Option<(u64, u64)>,
}

impl Log {
    /// Begins to read a log, and finds its form.
    pub fn new(input: Input) -> Result<Self> {
        let mut log = Self {
            input,
            form: Form::First,
            room: vec![0; 1 << 16],
            from: 0,
            until: 0,
            ended: false,
            line: 1,
            place: 0,
            blocks: 0,
            broken: false,
            counts: None,
            cut: None,
        };
        log.fill()?;
        if log.held().starts_with(b"log=") {
            log.form = match log.take()? {
                Some(b"log=2") => Form::Second,
                Some(b"log=3") | None => Form::Third,
                Some(_) => {
                    let words = "this form of a log is not known: the forms 1, 2 and 3 are";
                    return Err(log.input.wrong(format_args!("line 1: {words}")));
                }
            };
        }
        Ok(log)
    }

    /// Where the log ends inside a line, in words; known once its last complete line has been read.
    pub fn cut(&self) -> Option<String> {
        let (line, place) = self.cut?;
        Some(format!("line {line} (byte {place}) breaks off"))
    }

    /// Its form.
    pub fn form(&self) -> Form {
        self.form
    }

    /// Its name, safe to print.
    pub fn name(&self) -> &str {
        self.input.name()
    }

    /// The next complete line of a block, or the one where the run ended; none at the log's end.
    pub fn next_line(&mut self) -> Result<Option<Line>> {
        loop {
            let (number, place, form) = (self.line, self.place, self.form);
            let wrong = |words: &dyn fmt::Display| format!("line {number} (byte {place}): {words}");
            let Some(text) = self.take()? else {
                return Ok(None);
            };
            let parsed = match is_refused_creation(text) {
                Ok(true) => Ok(None),
                Ok(false) => parse(text, form).map(Some),
                Err(why) => Err(why),
            };
            let Some(line) = parsed.map_err(|why| self.input.wrong(wrong(&why)))? else {
                // There is no voice after it.
                self.counts = None;
                continue;
            };
            if let Err(why) = self.follows(&line) {
                return Err(self.input.wrong(wrong(&why)));
            }
            return Ok(Some(line));
        }
    }

    /// Checks that a line follows from those before it.
    fn follows(&mut self, line: &Line) -> std::result::Result<(), String> {
        if self.broken {
            return Err("a line after the one where the run ended".into());
        }
        let number = match *line {
            Line::Broken { .. } => {
                self.broken = true;
                return Ok(());
            }
            Line::Block(Block { number, .. }) | Line::Refused { number, .. } => number,
        };
        if Some(number) != self.blocks.checked_add(1) {
            let before = self.blocks;
            return Err(match before {
                0 => format!("block {number} is the first, and 1 must be: lines are missing"),
                _ => format!(
                    "block {number} follows block {before}: lines are missing or stand twice"
                ),
            });
        }
        self.blocks = number;
        self.counts_follow(line)
    }

    /// Checks that no count of a voice falls.
    fn counts_follow(&mut self, line: &Line) -> std::result::Result<(), String> {
        let before = match line {
            Line::Block(Block { more: Some(m), .. }) => Some(m.before),
            Line::Refused { before, .. } => *before,
            _ => None,
        };
        if before.is_some_and(|before| before.created > 0) {
            self.counts = None;
        }
        let Line::Block(Block { more: Some(m), .. }) = line else {
            return Ok(());
        };
        if let Some((forward, backward)) = self.counts
            && (m.forward < forward || m.backward < backward)
        {
            return Err("a count of wraps is lower than before, and no voice was created".into());
        }
        self.counts = Some((m.forward, m.backward));
        Ok(())
    }

    fn held(&self) -> &[u8] {
        self.room.get(self.from..self.until).unwrap_or_default()
    }

    /// Moves the unread bytes to the front, and reads until a longest line fits or the input ends.
    fn fill(&mut self) -> Result<()> {
        self.room.copy_within(self.from..self.until, 0);
        (self.from, self.until) = (0, self.until - self.from);
        while !self.ended && self.until <= LONGEST {
            match self.input.read(&mut self.room[self.until..]) {
                Ok(0) => self.ended = true,
                Ok(read) => self.until += read,
                Err(error) if error.kind() == std::io::ErrorKind::Interrupted => {}
                Err(error) => return Err(self.input.unread(&error)),
            }
        }
        Ok(())
    }

    /// The next line's bytes, without the line feed.
    fn take(&mut self) -> Result<Option<&[u8]>> {
        if self.until - self.from <= LONGEST && !self.ended {
            self.fill()?;
        }
        let held = self.held();
        if held.is_empty() {
            return Ok(None);
        }
        let Some(length) = held
            .iter()
            .take(LONGEST + 1)
            .position(|byte| *byte == b'\n')
        else {
            let (line, place) = (self.line, self.place);
            if held.len() <= LONGEST && begins_a_line(held, line == 1) {
                self.cut = Some((line, place));
                self.from = self.until;
                return Ok(None);
            }
            let words = match held.len() > LONGEST {
                true => format!("no line of a log has more than {LONGEST} bytes: this is no log"),
                false => "these last bytes begin no line of a log".into(),
            };
            return Err(self
                .input
                .wrong(format_args!("line {line} (byte {place}): {words}")));
        };
        let from = self.from;
        self.from += length + 1;
        self.line += 1;
        self.place += length as u64 + 1;
        Ok(self.room.get(from..from + length))
    }
}

/// Whether bytes without a line feed can be an incomplete line after a power loss.
fn begins_a_line(bytes: &[u8], is_first: bool) -> bool {
    let begins = |word: &[u8]| bytes.starts_with(word) || word.starts_with(bytes);
    begins(b"block=") || begins(b"refused=") || is_first && begins(b"log=")
}

#[cfg(test)]
mod tests {
    use super::*;

    fn first(text: &str) -> std::result::Result<Line, String> {
        parse(text.as_bytes(), Form::First).map_err(|wrong| wrong.to_string())
    }

    #[test]
    fn the_three_lines_of_replay_are_read() {
        let block = Block {
            number: 1,
            frames: 6,
            steps: 6,
            state: 6,
            position: 3,
            more: None,
        };
        assert_eq!(
            first("block=1 frames=6 steps=6 state=6 position=3"),
            Ok(Line::Block(block))
        );
        let refused = Line::Refused {
            number: 1,
            refusal: 12,
            before: None,
        };
        assert_eq!(first("block=1 refused=12"), Ok(refused));
        let broken = Line::Broken { refusal: 15, at: 0 };
        assert_eq!(first("refused=15 at=0"), Ok(broken));
    }

    #[test]
    fn what_is_no_line_is_told_by_its_column() {
        for (text, expected) in [
            ("", "column 1: 'block=' must stand here"),
            ("block=", "column 7: 'block=' has no number"),
            (
                "block=01 refused=1",
                "column 7: the number of 'block=' begins with 0",
            ),
            ("block=-1 refused=1", "column 7: 'block=' has no number"),
            ("block=1", "column 8: 'frames=' must stand here"),
            ("block=1  refused=1", "column 8: 'frames=' must stand here"),
            (
                "block=1 refused=300",
                "column 17: the number of 'refused=' is above 255",
            ),
            ("block=1 refused=12 ", "column 19: the line must end here"),
            (
                "block=1 refused=12\r",
                "column 19: a carriage return: a log's lines end with a line feed alone",
            ),
            (
                "block=18446744073709551616 refused=1",
                "column 7: the number of 'block=' is above 18446744073709551615",
            ),
            (
                "block=1 frames=6 steps=6 state=7 position=3",
                "column 32: the number of 'state=' is above 6",
            ),
        ] {
            assert_eq!(first(text), Err(expected.into()), "{text:?}");
        }
    }
}
