//! How a player plays: it cuts calls of any length into blocks where its voice needs a signal or command.

use std::hint::black_box;

use super::{
    Player,
    block::{Given, Numbers, Place, Watch},
    queue::Press,
};
use crate::{
    Commands, Level, MAX_BLOCK_FRAMES, Processed, Refusal, Signals, StartAnswer, float_mode,
    trace::MAX_TRACED_FRAMES,
};

impl Player {
    /// A whole call, in the plain float mode.
    pub(super) fn run<W: Watch>(
        &mut self,
        sound: &[f32],
        out: &mut [f32],
        place: Place,
        watch: &mut W,
    ) -> Result<Processed, Refusal> {
        float_mode::plain(|| black_box(self).cut(sound, black_box(out), place, watch))
    }

    /// Checks a call, applies the waiting commands before its first frame, and plays block after block.
    #[inline(never)]
    fn cut<W: Watch>(
        &mut self,
        sound: &[f32],
        out: &mut [f32],
        place: Place,
        watch: &mut W,
    ) -> Result<Processed, Refusal> {
        if !self.voice.is_of(sound) {
            return Err(Refusal::State);
        }
        if !out.len().is_multiple_of(2) {
            return Err(Refusal::OddOutput);
        }
        let (mut counts, mut rest) = (Processed::NONE, out);
        while !rest.is_empty() {
            self.obey(sound, watch)?;
            let (frames, block) = self.block(sound, rest, place, watch)?;
            counts = counts.and(block);
            rest = rest.split_at_mut_checked(2 * frames).unwrap_or_default().1;
        }
        self.counts = self.counts.and(counts);
        Ok(counts)
    }

    /// Passes the waiting commands to the voice, set after set, and turns its direction if the sign of the
    /// next frame's rate has changed.
    fn obey<W: Watch>(&mut self, sound: &[f32], watch: &mut W) -> Result<(), Refusal> {
        let rate = self.parameters.rate.at(self.clock);
        let turns = rate.is_sign_negative() != self.voice.playback_rate().is_sign_negative();
        if !turns && self.queue.is_empty() {
            return Ok(());
        }
        // No waiting command depends on the direction, so the first set turns it.
        let mut turn = turns.then_some(rate);
        for mut commands in self.queue.sets() {
            commands.playback_rate = turn.take();
            if commands != Commands::new() {
                self.voice.on_start_processing(sound, commands)?;
                watch.commanded(commands);
            }
        }
        if let Some(presses) = self.queue.presses() {
            let to = match presses.last {
                Press::Resume => Level::FULL,
                Press::Pause | Press::Stop => Level::SILENCE,
            };
            let fade = &mut self.parameters.fade;
            fade.set(super::tenths(to), self.clock, presses.fade);
        }
        self.queue.clear();
        Ok(())
    }

    /// Plays one block at the beginning of `out`. Returns its frames and its counts.
    fn block<W: Watch>(
        &mut self,
        sound: &[f32],
        out: &mut [f32],
        place: Place,
        watch: &mut W,
    ) -> Result<(usize, Processed), Refusal> {
        let (clock, parameters, room) = (self.clock, &self.parameters, &mut self.room);
        let frames = (out.len() / 2).min(MAX_BLOCK_FRAMES);
        let frames = match W::CUTS {
            true => parameters.constant_frames(clock, frames.min(MAX_TRACED_FRAMES)),
            false => frames,
        };
        let fade_ends = parameters.fade.ends();
        let frames = until(clock, Some(fade_ends), frames);
        let frames = until(clock, self.starts_at, frames);
        let (frames, numbers) = match parameters.at_rest(clock) {
            Some(held) => (frames, Numbers::Held(held)),
            None => parameters.lanes(clock, frames, &mut room.buffers),
        };
        let start = match self.starts_at {
            Some(frame) if frame <= clock => StartAnswer::Now,
            _ => StartAnswer::Waiting,
        };
        let given = Given {
            sound,
            numbers,
            time_step: self.time_step,
            signals: Signals::new().finished(clock == fade_ends).start(start),
        };
        let (voice, lanes) = (&mut self.voice, &mut room.lanes);
        let out = out.get_mut(..2 * frames).unwrap_or_default();
        let (frames, counts) = match place {
            Place::Out => given.play_all(frames, voice, lanes, out)?,
            Place::Mix => {
                let played = room.played.get_mut(..out.len()).unwrap_or_default();
                let (frames, counts) = given.play_all(frames, voice, lanes, played)?;
                let played = played.get(..2 * frames).unwrap_or_default();
                add(out, played);
                (frames, counts)
            }
        };
        if W::RECORDS {
            let lanes = given.lanes(0..frames, lanes);
            watch.played(lanes, given.time_step, given.signals, voice, counts);
        }
        self.clock = clock.saturating_add(frames as u64);
        Ok((frames, counts))
    }
}

/// This many frames from the clock on, but none after the next change.
fn until(clock: u64, change: Option<u64>, frames: usize) -> usize {
    let to_go = change.and_then(|change| change.checked_sub(clock));
    match to_go.and_then(|to_go| usize::try_from(to_go).ok()) {
        None | Some(0) => frames,
        Some(to_go) => frames.min(to_go),
    }
}

#[inline(never)]
fn add(out: &mut [f32], played: &[f32]) {
    for (out, played) in out.iter_mut().zip(played) {
        *out += played;
    }
}
