// Numbers, one per line, in the layouts that records consist of.

use std::fmt::Write;

use oracle::{
    Answer, Commands, EndPosition, LaneBuffers, PlaybackPosition, Region, Settings, Signals, State,
};

/// The text of a list.
#[derive(Default)]
pub struct Words(String);

impl Words {
    pub fn into_text(self) -> String {
        self.0
    }

    pub fn number(&mut self, number: u64) {
        writeln!(self.0, "{number:x}").expect("a String takes any text");
    }

    pub fn index(&mut self, number: usize) {
        self.number(number as u64);
    }

    pub fn yes(&mut self, answer: bool) {
        self.number(u64::from(answer));
    }

    /// The bits of a double; every NaN has the same.
    pub fn double(&mut self, x: f64) {
        let x = if x.is_nan() { f64::NAN } else { x };
        self.number(x.to_bits());
    }

    /// The bits of a single; every NaN has the same.
    pub fn single(&mut self, x: f32) {
        let x = if x.is_nan() { f32::NAN } else { x };
        self.number(u64::from(x.to_bits()));
    }

    pub fn samples(&mut self, samples: &[f32]) {
        samples.iter().for_each(|sample| self.single(*sample));
    }

    /// A length, then that many samples.
    pub fn counted(&mut self, samples: &[f32]) {
        self.index(samples.len());
        self.samples(samples);
    }

    pub fn state(&mut self, state: &State) {
        self.number(u64::from(state.sample_rate));
        self.index(state.total_frames);
        self.range(state.slice);
        self.yes(state.reverse);
        self.double(state.rate);
        self.yes(state.started);
        self.double(state.fraction);
        self.number(u64::from(state.playback.number()));
        self.index(state.position);
        self.range(state.loop_region);
        self.yes(state.playing);
        for entry in state.window {
            self.samples(&[entry.left, entry.right]);
            self.index(entry.number);
        }
        self.index(state.count);
        self.number(state.wraps.forward.into());
        self.number(state.wraps.backward.into());
    }

    pub fn settings(&mut self, settings: &Settings) {
        self.number(u64::from(settings.sample_rate));
        self.optional_region(settings.slice);
        self.position(settings.start);
        self.optional_region(settings.loop_region);
        self.yes(settings.reverse);
        self.double(settings.rate);
        self.yes(settings.waits);
    }

    pub fn commands(&mut self, commands: &Commands) {
        self.amount(commands.rate);
        match commands.loop_region {
            None => self.number(0),
            Some(None) => self.number(1),
            Some(Some(region)) => {
                self.number(2);
                self.region(region);
            }
        }
        self.yes(commands.pause);
        self.number(match commands.resume {
            None => 0,
            Some(false) => 1,
            Some(true) => 2,
        });
        self.yes(commands.stop);
        self.amount(commands.seek_by);
        self.amount(commands.seek_to);
    }

    pub fn lanes(&mut self, lanes: &LaneBuffers) {
        for lane in [&lanes.fade, &lanes.volume, &lanes.left, &lanes.right] {
            self.counted(lane);
        }
        self.index(lanes.rate.len());
        lanes.rate.iter().for_each(|rate| self.double(*rate));
    }

    pub fn signals(&mut self, signals: Signals) {
        self.yes(signals.finished);
        self.answer(signals.start);
        self.answer(signals.resume);
    }

    fn answer(&mut self, answer: Answer) {
        self.number(match answer {
            Answer::Waiting => 0,
            Answer::Now => 1,
            Answer::Never => 2,
        });
    }

    fn amount(&mut self, amount: Option<f64>) {
        self.yes(amount.is_some());
        if let Some(amount) = amount {
            self.double(amount);
        }
    }

    fn range(&mut self, range: Option<(usize, usize)>) {
        self.yes(range.is_some());
        let (start, end) = range.unwrap_or_default();
        self.index(start);
        self.index(end);
    }

    fn optional_region(&mut self, region: Option<Region>) {
        self.yes(region.is_some());
        if let Some(region) = region {
            self.region(region);
        }
    }

    fn region(&mut self, region: Region) {
        self.position(region.start);
        match region.end {
            EndPosition::EndOfAudio => self.number(0),
            EndPosition::Custom(position) => {
                self.number(1);
                self.position(position);
            }
        }
    }

    fn position(&mut self, position: PlaybackPosition) {
        match position {
            PlaybackPosition::Samples(frames) => {
                self.number(0);
                self.index(frames);
            }
            PlaybackPosition::Seconds(seconds) => {
                self.number(1);
                self.double(seconds);
            }
        }
    }
}
