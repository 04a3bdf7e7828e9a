//! A whole player as bytes, with a version and a check.

use super::{
    Player,
    command::Seek,
    easing::Easing,
    queue::{Press, Presses},
    tween::{MOST_FRAMES, Parameter, Ramp},
};
use crate::{
    EndPosition, Level, LoopCommand, PlaybackPosition, Processed, Region, State, StaticSound,
    Unreadable, Usage,
    saved::{Reader, crc_32},
};

/// What a saved player begins with.
const MARK: [u8; 4] = *b"COwP";
const VERSION: u8 = 1;
/// Mark, version and length.
const HEAD: usize = 9;
/// The bytes of a state.
const STATE: usize = 156;
const CHECK: usize = 4;
/// The largest clock of a saved player, so that no sum of two frame counts overflows.
const MOST_PLAYED: u64 = 1 << 62;

impl Player {
    /// The whole player as bytes: its voice, its parameters and their tweens, its clock and counts,
    /// and the waiting commands. [`Player::from_bytes`] makes the same player again, bit for bit.
    ///
    /// Numbers are little-endian, floats by their bits, flags one byte.
    ///
    /// | bytes | contents |
    /// |---|---|
    /// | 4 | the mark: `43 4F 77 50`, "COwP" |
    /// | 1 | the version: 1 |
    /// | 4 | the number of all bytes |
    /// | 156 | the voice, as [`State::to_bytes`] |
    /// | 4, 8 | the output rate; the frames played |
    /// | 9 | whether a start is set, its frame (0 if not) |
    /// | 4 | the lowest count so far |
    /// | 48 | the steps so far, those backward; the frames played, paused, silent and still, 8 each |
    /// | 4 times 41 | volume, fade, rate, panning: old value (8), new value (8), first frame (8), frames (8), easing (9) |
    /// | 27 | the last of pause, resume and stop: 0 none, or 1, 2, 3 (1); how many seeks came before the first of them (1); the last one's fade: delay (8), frames (8), easing (9). All 0 for none |
    /// | 19 | the loop command after the last seek |
    /// | 1 | how many seeks wait, at most 64 |
    /// | 28 each | the loop command before the seek (19), 0 for `seek_by` or 1 for `seek_to`, its seconds (8) |
    /// | 4 | the check: CRC-32 of all bytes before it |
    ///
    /// An easing is its kind, 0 to 6 in the order of [`Easing`], and its power (0 if it has none). A
    /// loop command is 0 to keep the loop, 1 to remove it, 2 to set it; then start and end, each a
    /// kind (0 seconds, 1 frames, 2 the end of the audio) and a number (8), all 0 if it sets none.
    ///
    /// ```
    /// use cableowl::{Level, Player, Settings, Tween};
    ///
    /// let sound = vec![0.5; 20_000];
    /// let mut player = Player::play(Settings::new(48_000), 48_000, &sound)?;
    /// player.set_volume(Level::decibels(-6.0)?, Tween::from_millis(50));
    /// player.process(&sound, &mut [0.0; 600])?;
    /// player.seek_by(0.01)?;
    ///
    /// let mut again = Player::from_bytes(&player.to_bytes(), &sound)?;
    /// let (mut one, mut other) = ([0.0; 600], [0.0; 600]);
    /// player.process(&sound, &mut one)?;
    /// again.process(&sound, &mut other)?;
    /// assert_eq!(one, other);
    /// # Ok::<(), cableowl::Refusal>(())
    /// ```
    #[must_use]
    pub fn to_bytes(&self) -> Vec<u8> {
        let mut bytes = Vec::new();
        bytes.extend(MARK);
        bytes.push(VERSION);
        bytes.extend([0; 4]);
        bytes.extend(self.voice.state().to_bytes());
        bytes.extend(self.output_rate.to_le_bytes());
        bytes.extend(self.clock.to_le_bytes());
        bytes.push(self.starts_at.is_some().into());
        bytes.extend(self.starts_at.unwrap_or_default().to_le_bytes());
        let (counts, usage) = (self.counts, self.counts.usage);
        bytes.extend(counts.lowest_count.to_le_bytes());
        for count in [
            counts.steps,
            counts.steps_back,
            usage.played,
            usage.paused,
            usage.silent,
            usage.still,
        ] {
            bytes.extend(count.to_le_bytes());
        }
        put_parameter(&mut bytes, self.parameters.volume, u64::from);
        put_parameter(&mut bytes, self.parameters.fade, u64::from);
        put_parameter(&mut bytes, self.parameters.rate, f64::to_bits);
        put_parameter(&mut bytes, self.parameters.panning, f64::to_bits);
        put_presses(&mut bytes, self.queue.presses());
        put_loop(&mut bytes, self.queue.loop_region());
        bytes.push(self.queue.steps().len() as u8);
        for step in self.queue.steps() {
            put_loop(&mut bytes, step.loop_region);
            let (kind, seconds) = match step.seek {
                Seek::By(seconds) => (0, seconds),
                Seek::To(seconds) => (1, seconds),
            };
            bytes.push(kind);
            bytes.extend(seconds.to_bits().to_le_bytes());
        }
        let length = (bytes.len() + CHECK) as u32;
        if let Some(field) = bytes.get_mut(5..HEAD) {
            field.copy_from_slice(&length.to_le_bytes());
        }
        let check = crc_32(&bytes);
        bytes.extend(check.to_le_bytes());
        bytes
    }

    /// Loads a saved player, over the sound with which it was created.
    ///
    /// # Errors
    ///
    /// The reason, if [`Player::to_bytes`] cannot have written the bytes; [`Unreadable::Sound`] for a sound
    /// of another length.
    pub fn from_bytes(bytes: &[u8], sound: &[f32]) -> Result<Self, Unreadable> {
        let rest = bytes.strip_prefix(&MARK).ok_or(Unreadable::Mark)?;
        match rest.first() {
            None => return Err(Unreadable::Length),
            Some(&VERSION) => {}
            Some(&version) => return Err(Unreadable::Version(version)),
        }
        let mut head = Reader(rest.get(1..).unwrap_or_default());
        let length = head.word().ok_or(Unreadable::Length)?;
        if usize::try_from(length) != Ok(bytes.len()) {
            return Err(Unreadable::Length);
        }
        let body = bytes.len().checked_sub(CHECK).ok_or(Unreadable::Length)?;
        let (body, check) = bytes.split_at_checked(body).ok_or(Unreadable::Length)?;
        if crc_32(body).to_le_bytes() != check {
            return Err(Unreadable::Check);
        }
        let body = body.get(HEAD..).ok_or(Unreadable::Length)?;
        let (state, body) = body.split_at_checked(STATE).ok_or(Unreadable::Length)?;
        let state = State::from_bytes(state)?;
        if state.num_frames.checked_mul(2) != Some(sound.len()) {
            return Err(Unreadable::Sound);
        }
        let voice = StaticSound::from_state(state, sound).map_err(|_| Unreadable::Value)?;
        let mut reader = Reader(body);
        let player = reader.player(voice, &state).ok_or(Unreadable::Value)?;
        match reader.0 {
            [] => Ok(player),
            _ => Err(Unreadable::Length),
        }
    }
}

/// A level as a parameter's number.
fn level(number: u64) -> Option<u16> {
    let is_level = |tenths: &u16| Level::new(u32::from(*tenths)).is_ok();
    u16::try_from(number).ok().filter(is_level)
}

fn put_easing(bytes: &mut Vec<u8>, easing: Easing) {
    let (kind, power) = match easing {
        Easing::Linear => (0, 0),
        Easing::InPowi(power) => (1, u64::from(power as u32)),
        Easing::OutPowi(power) => (2, u64::from(power as u32)),
        Easing::InOutPowi(power) => (3, u64::from(power as u32)),
        Easing::InPowf(power) => (4, power.to_bits()),
        Easing::OutPowf(power) => (5, power.to_bits()),
        Easing::InOutPowf(power) => (6, power.to_bits()),
    };
    bytes.push(kind);
    bytes.extend(power.to_le_bytes());
}

fn put_parameter<T>(bytes: &mut Vec<u8>, parameter: Parameter<T>, number: impl Fn(T) -> u64) {
    bytes.extend(number(parameter.from).to_le_bytes());
    bytes.extend(number(parameter.to).to_le_bytes());
    bytes.extend(parameter.starts.to_le_bytes());
    bytes.extend(parameter.frames.to_le_bytes());
    put_easing(bytes, parameter.easing);
}

fn put_presses(bytes: &mut Vec<u8>, presses: Option<Presses>) {
    let Some(presses) = presses else {
        bytes.extend([0; 27]);
        return;
    };
    bytes.push(match presses.last {
        Press::Pause => 1,
        Press::Resume => 2,
        Press::Stop => 3,
    });
    bytes.push(presses.after_seeks as u8);
    bytes.extend(presses.fade.delay.to_le_bytes());
    bytes.extend(presses.fade.frames.to_le_bytes());
    put_easing(bytes, presses.fade.easing);
}

fn put_loop(bytes: &mut Vec<u8>, command: LoopCommand) {
    let place = |place| match place {
        PlaybackPosition::Seconds(seconds) => (0, seconds.to_bits()),
        PlaybackPosition::Samples(frames) => (1, frames as u64),
    };
    let (kind, start, end) = match command {
        LoopCommand::Keep => (0, (0, 0), (0, 0)),
        LoopCommand::Clear => (1, (0, 0), (0, 0)),
        LoopCommand::Set(region) => {
            let end = match region.end {
                EndPosition::EndOfAudio => (2, 0),
                EndPosition::Custom(end) => place(end),
            };
            (2, place(region.start), end)
        }
    };
    bytes.push(kind);
    for (kind, number) in [start, end] {
        bytes.push(kind);
        bytes.extend(number.to_le_bytes());
    }
}

impl Player {
    /// Queues a saved loop command; `None` if it is not valid.
    fn queue_loop(&mut self, state: &State, command: LoopCommand) -> Option<()> {
        match command {
            LoopCommand::Keep => {}
            LoopCommand::Clear => self.queue.clear_loop(),
            LoopCommand::Set(region) => self.queue.set_loop(state, region).ok()?,
        }
        Some(())
    }
}

/// `None` if the bytes end, or one has no meaning.
impl Reader<'_> {
    fn player(&mut self, voice: StaticSound, state: &State) -> Option<Player> {
        let output_rate = self.word()?;
        let mut player = Player::of(voice, 0.0, output_rate).ok()?;
        player.clock = self.double_word().filter(|clock| *clock <= MOST_PLAYED)?;
        player.starts_at = match (self.byte()?, self.double_word()?) {
            (0, 0) => None,
            (1, frame) => Some(frame),
            _ => return None,
        };
        player.counts = Processed {
            lowest_count: self.word().filter(|count| *count <= 4)?,
            steps: self.double_word()?,
            steps_back: self.double_word()?,
            usage: Usage {
                played: self.double_word()?,
                paused: self.double_word()?,
                silent: self.double_word()?,
                still: self.double_word()?,
            },
        };
        player.parameters.volume = self.parameter(level)?;
        player.parameters.fade = self.parameter(level)?;
        let rate = |bits| {
            let rate = f64::from_bits(bits);
            player.judge_rate(rate).ok().map(|()| rate)
        };
        let rate = self.parameter(rate)?;
        player.parameters.rate = rate;
        let panning = |bits| Some(f64::from_bits(bits)).filter(|panning| panning.is_finite());
        player.parameters.panning = self.parameter(panning)?;
        let presses = self.presses()?;
        let last_loop = self.loop_command()?;
        let seeks = self.byte()?;
        for _ in 0..seeks {
            let command = self.loop_command()?;
            player.queue_loop(state, command)?;
            let seek = match (self.byte()?, f64::from_bits(self.double_word()?)) {
                (0, seconds) => Seek::By(seconds),
                (1, seconds) => Seek::To(seconds),
                _ => return None,
            };
            player.queue.seek(state, seek).ok()?;
        }
        player.queue_loop(state, last_loop)?;
        match presses {
            Some(presses) if presses.after_seeks > seeks.into() => return None,
            presses => player.queue.set_presses(presses),
        }
        Some(player)
    }

    fn easing(&mut self) -> Option<Easing> {
        let (kind, bits) = (self.byte()?, self.double_word()?);
        let whole = u32::try_from(bits).map(|power| power as i32).ok();
        let power = f64::from_bits(bits);
        match kind {
            0 if bits == 0 => Some(Easing::Linear),
            1 => whole.map(Easing::InPowi),
            2 => whole.map(Easing::OutPowi),
            3 => whole.map(Easing::InOutPowi),
            4 => Some(Easing::InPowf(power)),
            5 => Some(Easing::OutPowf(power)),
            6 => Some(Easing::InOutPowf(power)),
            _ => None,
        }
    }

    fn parameter<T>(&mut self, number: impl Fn(u64) -> Option<T>) -> Option<Parameter<T>> {
        Some(Parameter {
            from: number(self.double_word()?)?,
            to: number(self.double_word()?)?,
            starts: self.double_word()?,
            frames: self.frames()?,
            easing: self.easing()?,
        })
    }

    fn frames(&mut self) -> Option<u64> {
        self.double_word().filter(|frames| *frames <= MOST_FRAMES)
    }

    fn presses(&mut self) -> Option<Option<Presses>> {
        let last = match self.byte()? {
            0 => return self.take().filter(|rest| *rest == [0; 26]).map(|_| None),
            1 => Press::Pause,
            2 => Press::Resume,
            3 => Press::Stop,
            _ => return None,
        };
        Some(Some(Presses {
            last,
            after_seeks: self.byte()?.into(),
            fade: Ramp {
                delay: self.frames()?,
                frames: self.frames()?,
                easing: self.easing()?,
            },
        }))
    }

    fn loop_command(&mut self) -> Option<LoopCommand> {
        let kind = self.byte()?;
        let (start, end) = (
            (self.byte()?, self.double_word()?),
            (self.byte()?, self.double_word()?),
        );
        let place = |(kind, number)| match kind {
            0 => Some(PlaybackPosition::Seconds(f64::from_bits(number))),
            1 => usize::try_from(number).map(PlaybackPosition::Samples).ok(),
            _ => None,
        };
        match (kind, start, end) {
            (0, (0, 0), (0, 0)) => Some(LoopCommand::Keep),
            (1, (0, 0), (0, 0)) => Some(LoopCommand::Clear),
            (2, start, end) => Some(LoopCommand::Set(Region {
                start: place(start)?,
                end: match end {
                    (2, 0) => EndPosition::EndOfAudio,
                    end => EndPosition::Custom(place(end)?),
                },
            })),
            _ => None,
        }
    }
}
