// A voice that follows the rules: a state and its sound. It gets only accepted input.

use oracle::{
    Commands, Entry, Frame, Lanes, PlaybackState, Reported, Settings, Signals, State, Wraps,
    leaves::Transport,
};

use crate::Rules;

/// A voice that follows the rules: a state and its sound.
pub struct Voice<'a, R> {
    /// The rules that it follows.
    pub rules: &'a R,
    /// Its state.
    pub state: State,
    /// The whole sound, left then right.
    pub sound: &'a [f32],
}

impl<'a, R: Rules> Voice<'a, R> {
    /// Creates a voice.
    #[must_use]
    pub fn create(rules: &'a R, settings: &Settings, sound: &'a [f32]) -> Self {
        let rate = settings.sample_rate;
        let total_frames = sound.len() / 2;
        let slice = settings
            .slice
            .map(|r| rules.to_region(r, rate, total_frames));
        let n = slice.map_or(total_frames, |(start, end)| end - start);
        let start = rules.to_frames(settings.start, rate);
        let position = rules.first(start, settings.reverse, n);
        let empty = Entry {
            number: position,
            ..Entry::default()
        };
        let state = State {
            sample_rate: rate,
            total_frames,
            slice,
            reverse: settings.reverse,
            rate: settings.rate,
            started: !settings.waits,
            playback: PlaybackState::Playing,
            fraction: 0.0,
            position,
            loop_region: settings.loop_region.map(|r| rules.to_region(r, rate, n)),
            playing: true,
            window: [empty; 4],
            count: 0,
            wraps: Wraps::default(),
        };
        let mut voice = Self {
            rules,
            state,
            sound,
        };
        (0..3).for_each(|_| voice.update(None));
        voice
    }

    /// Applies a command set and returns the reported position.
    pub fn command(&mut self, commands: &Commands) -> f64 {
        let rate = f64::from(self.state.sample_rate);
        let reported = self.rules.heard(&self.state.window) as f64 / rate;
        let n = self.state.num_frames();
        self.state.rate = commands.rate.unwrap_or(self.state.rate);
        if let Some(region) = commands.loop_region {
            self.state.loop_region =
                region.map(|r| self.rules.to_region(r, self.state.sample_rate, n));
        }
        let resume = commands.resume.map(|waits| match waits {
            true => PlaybackState::WaitingToResume,
            false => PlaybackState::Resuming,
        });
        let orders = [
            commands.pause.then_some(PlaybackState::Pausing),
            resume,
            commands.stop.then_some(PlaybackState::Stopping),
        ];
        for to in orders.into_iter().flatten() {
            self.state.playback = self.rules.ordered(self.state.playback, to);
        }
        if let Some(amount) = commands.seek_by {
            self.seek(self.rules.product_by(self.state.position, rate, amount));
        }
        if let Some(seconds) = commands.seek_to {
            self.seek(seconds * rate);
        }
        reported
    }

    /// Plays a block into interleaved samples and returns what it reports. A block that reads no window has a lowest
    /// count of 4.
    pub fn block(&mut self, lanes: &Lanes, dt: f64, signals: Signals, out: &mut [f32]) -> Reported {
        let mut reported = Reported {
            steps: 0,
            lowest_count: 4,
        };
        let settled = self.rules.states(self.state.playback, signals);
        (self.state.started, self.state.playback) =
            self.rules.start(self.state.started, settled, signals.start);
        if !self.state.started || !self.rules.is_advancing(self.state.playback) {
            out.fill(0.0);
            return reported;
        }
        for (i, frame) in out.chunks_mut(2).enumerate() {
            let f = self.rules.narrowed(self.state.fraction);
            let window = self.state.window;
            reported.lowest_count = reported.lowest_count.min(self.state.count as u32);
            let gained = |value: f32, gain: f32| value * lanes.fade[i] * lanes.volume[i] * gain;
            frame[0] = gained(self.rules.reading(window.map(|e| e.left), f), lanes.left[i]);
            frame[1] = gained(
                self.rules.reading(window.map(|e| e.right), f),
                lanes.right[i],
            );
            reported.steps += self.turn(lanes.rate[i], dt);
        }
        reported
    }

    fn turn(&mut self, lane: f64, dt: f64) -> u64 {
        let advance = f64::from(self.state.sample_rate) * lane.abs() * dt;
        let sum = self.state.fraction + advance;
        self.state.fraction = self.rules.rest(sum);
        (0..sum as u64).for_each(|_| self.update(Some(lane)));
        sum as u64
    }

    fn seek(&mut self, product: f64) {
        let target = self.rules.target(product);
        let n = self.state.num_frames();
        self.move_to(self.rules.seek(self.transport(), target, n));
        if self.rules.seek_pushes(self.state.playback) {
            self.push_one();
        }
    }

    fn update(&mut self, lane: Option<f64>) {
        self.push_one();
        let (held, reverse) = (self.state.rate, self.state.reverse);
        let given = self.transport();
        let backward = self.rules.is_backward(held, lane, reverse);
        self.state.wraps = self.rules.counted(self.state.wraps, given, backward);
        let next = if backward {
            self.rules.backward(given)
        } else {
            let n = self.state.num_frames();
            self.rules.forward(given, n)
        };
        self.move_to(next);
        if self.rules.has_stopped(&self.state) {
            self.state.playback = PlaybackState::Stopped;
        }
    }

    fn push_one(&mut self) {
        let state = &self.state;
        let frame = state.playing.then(|| {
            let place = 2 * (state.position + state.slice.map_or(0, |(start, _)| start));
            // A wrong rule may leave the sound.
            let sample = |place: usize| self.sound.get(place).copied().unwrap_or_default();
            Frame::new(sample(place), sample(place + 1))
        });
        let window = self.rules.push(&state.window(), frame, state.position);
        (self.state.window, self.state.count) = (window.entries, window.count);
    }

    fn transport(&self) -> Transport {
        Transport {
            position: self.state.position,
            loop_region: self.state.loop_region,
            playing: self.state.playing,
        }
    }

    fn move_to(&mut self, next: Transport) {
        self.state.position = next.position;
        self.state.playing = next.playing;
    }
}
