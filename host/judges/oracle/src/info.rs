// Stand-in for kira's Info: the signals of a block.

/// A block's answer to a start that waits.
#[derive(Debug, Clone, Copy, PartialEq, Eq, Default)]
pub enum Answer {
    /// Still waiting.
    #[default]
    Waiting,
    /// It starts with this block.
    Now,
    /// It will never start.
    Never,
}

/// The signals of one block; the default is no signals.
#[derive(Debug, Clone, Copy, PartialEq, Eq, Default)]
pub struct Signals {
    /// The fade has finished.
    pub finished: bool,
    /// The answer for the sound's own start.
    pub start: Answer,
    /// The answer for a waiting resume.
    pub resume: Answer,
}

/// kira's name for what a block gets besides its lanes.
pub type Info = Signals;
