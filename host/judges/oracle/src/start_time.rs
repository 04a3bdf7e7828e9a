// Stand-in for kira's StartTime: a start that waits gets its own answer from each block.

use crate::{Answer, info::Info};

/// When something starts. A start that has come stays.
#[derive(Debug, Clone, Copy, PartialEq, Eq, Default)]
pub enum StartTime {
    #[default]
    Immediate,
    /// The sound's own start, which waits for [`Info::start`].
    WithSound,
    /// A waiting resume, which waits for [`Info::resume`].
    WithResume,
}

impl StartTime {
    /// The start of a sound that waits, or does not.
    pub fn of_sound(waits: bool) -> Self {
        if waits {
            Self::WithSound
        } else {
            Self::Immediate
        }
    }

    /// The start of a resume that waits, or does not.
    pub fn of_resume(waits: bool) -> Self {
        if waits {
            Self::WithResume
        } else {
            Self::Immediate
        }
    }

    /// Applies this block's answer. Returns true if the start will never come.
    pub fn update(&mut self, _dt: f64, info: &Info) -> bool {
        let answer = match self {
            Self::Immediate => return false,
            Self::WithSound => info.start,
            Self::WithResume => info.resume,
        };
        if answer == Answer::Now {
            *self = Self::Immediate;
        }
        answer == Answer::Never
    }
}
