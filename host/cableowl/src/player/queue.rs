//! The commands that a player gets between two frames, in their order.

use std::hint::black_box;

use super::{
    command::{Seek, frames_of, judge_seek, wrapped},
    tween::Ramp,
};
use crate::{Commands, LoopCommand, Refusal, Region, ResumeCommand, State, float_mode};

/// The most seeks that can wait for one frame.
pub const MAX_SEEKS: usize = 64;

/// A pause, resume or stop.
#[derive(Debug, Clone, Copy, PartialEq, Eq)]
pub enum Press {
    Pause,
    Resume,
    Stop,
}

/// A seek, and the last loop command between it and the seek before it.
#[derive(Debug, Clone, Copy, PartialEq)]
pub struct Step {
    pub loop_region: LoopCommand,
    pub seek: Seek,
}

/// The pauses, resumes and stops between two frames.
#[derive(Debug, Clone, Copy, PartialEq)]
pub struct Presses {
    /// How many of the seeks came before the first of them.
    pub after_seeks: usize,
    pub last: Press,
    pub fade: Ramp,
}

/// A list of commands, reduced to what decides its outcome:
///
/// - A loop command sets the loop, which only seeks and frames read. So only the last loop command
///   between two seeks counts.
/// - A pause, resume or stop sets the state and the fade, unless the voice has stopped. A seek only
///   asks whether the state advances, which it does after any of the three. So the last of them at
///   the position of the first has the same outcome.
///
/// This leaves at most 64 seeks, 65 loop commands and one of pause, resume and stop. The tests compare
/// it with applying each command separately (`tests/player/order.rs`).
#[derive(Debug, Clone)]
pub struct Queue {
    steps: Box<[Step; MAX_SEEKS]>,
    seeks: usize,
    /// The last loop command after the last seek.
    loop_region: LoopCommand,
    presses: Option<Presses>,
}

impl Queue {
    pub fn new() -> Self {
        let blank = Step {
            loop_region: LoopCommand::Keep,
            seek: Seek::To(0.0),
        };
        Self {
            steps: Box::new([blank; MAX_SEEKS]),
            seeks: 0,
            loop_region: LoopCommand::Keep,
            presses: None,
        }
    }

    pub fn is_empty(&self) -> bool {
        self.seeks == 0 && self.loop_region == LoopCommand::Keep && self.presses.is_none()
    }

    pub fn clear(&mut self) {
        self.seeks = 0;
        self.loop_region = LoopCommand::Keep;
        self.presses = None;
    }

    pub fn steps(&self) -> &[Step] {
        self.steps.get(..self.seeks).unwrap_or_default()
    }

    pub fn loop_region(&self) -> LoopCommand {
        self.loop_region
    }

    pub fn presses(&self) -> Option<Presses> {
        self.presses
    }

    pub fn press(&mut self, last: Press, fade: Ramp) {
        let first = self.presses.map(|presses| presses.after_seeks);
        self.presses = Some(Presses {
            after_seeks: first.unwrap_or(self.seeks),
            last,
            fade,
        });
    }

    /// The pauses, resumes and stops of a saved player.
    pub fn set_presses(&mut self, presses: Option<Presses>) {
        self.presses = presses;
    }

    pub fn set_loop(&mut self, state: &State, region: Region) -> Result<(), Refusal> {
        frames_of(state, region)?;
        self.loop_region = LoopCommand::Set(region);
        Ok(())
    }

    pub fn clear_loop(&mut self) {
        self.loop_region = LoopCommand::Clear;
    }

    /// Checks a seek as the voice will after the commands that wait before it.
    pub fn seek(&mut self, state: &State, seek: Seek) -> Result<(), Refusal> {
        float_mode::plain(|| black_box(&*self).judge(state, black_box(seek)))?;
        let step = self.steps.get_mut(self.seeks).ok_or(Refusal::Queue)?;
        *step = Step {
            loop_region: std::mem::take(&mut self.loop_region),
            seek,
        };
        self.seeks += 1;
        Ok(())
    }

    #[inline(never)]
    fn judge(&self, state: &State, seek: Seek) -> Result<(), Refusal> {
        let mut loop_region = state
            .loop_region
            .map(|(start, end)| (start as u64, end as u64));
        let mut position = state.position as u64;
        for step in self.steps() {
            match step.loop_region {
                LoopCommand::Keep => {}
                LoopCommand::Clear => loop_region = None,
                LoopCommand::Set(region) => loop_region = Some(frames_of(state, region)?),
            }
            let to = judge_seek(state.sample_rate, position, step.seek)?;
            position = wrapped(position, to, loop_region);
        }
        judge_seek(state.sample_rate, position, seek).map(|_| ())
    }

    /// The command sets to apply, one after the other; the last may be empty.
    pub fn sets(&self) -> impl Iterator<Item = Commands> {
        (0..=self.seeks).map(|number| {
            let mut commands = match self.steps().get(number) {
                Some(step) => step.commands(),
                None => Commands {
                    loop_region: self.loop_region,
                    ..Commands::new()
                },
            };
            match self.presses {
                Some(presses) if presses.after_seeks == number => presses.last.tell(&mut commands),
                _ => {}
            }
            commands
        })
    }
}

impl Step {
    fn commands(&self) -> Commands {
        let (seek_by, seek_to) = match self.seek {
            Seek::By(seconds) => (Some(seconds), None),
            Seek::To(seconds) => (None, Some(seconds)),
        };
        Commands {
            loop_region: self.loop_region,
            seek_by,
            seek_to,
            ..Commands::new()
        }
    }
}

impl Press {
    fn tell(self, commands: &mut Commands) {
        match self {
            Self::Pause => commands.pause = true,
            Self::Resume => commands.resume = ResumeCommand::AtOnce,
            Self::Stop => commands.stop = true,
        }
    }
}
