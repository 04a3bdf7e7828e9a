//! A voice recorded in version 2, over any sound and with any lanes.

use super::{Unrecorded, bits, commands, record_block, settings};
use cableowl::{
    Commands, Lanes, Refusal, Settings, Signals, StartAnswer, StaticSound,
    trace::{
        Block, Lesson, Line, MAX_TRACED_FRAMES, Record, Recorded, Recorder, Replay, Sounds, Trace,
        lines, write,
    },
};
use random::Random;

#[path = "../../../../cableowl/examples/evening/edges.rs"]
mod edges;

use edges::common_edges;

fn lessons(random: &mut Random) -> Vec<Lesson> {
    [1, 3, 20, 65, 700, 3_000, 9_000]
        .into_iter()
        .map(|frames| {
            let samples: Vec<f32> = (0..2 * frames)
                .map(|_| random.unit() as f32 - 0.5)
                .collect();
            Lesson::new(samples).unwrap()
        })
        .collect()
}

fn signals(random: &mut Random) -> Signals {
    let answers = [StartAnswer::Waiting, StartAnswer::Now, StartAnswer::Never];
    let mut answer = || match random.below(12) {
        0 => answers[2],
        1 | 2 => answers[1],
        _ => answers[0],
    };
    let (start, resume) = (answer(), answer());
    let finished = random.one_in(6);
    Signals::new()
        .finished(finished)
        .start(start)
        .resume(resume)
}

/// The lanes of a block: constant, constant in a slice, or changing; rarely with a bad number.
struct Numbers {
    frames: usize,
    fade: Vec<f32>,
    rate: Vec<f64>,
    /// Whether the lanes are passed as constants.
    constant: bool,
}

impl Numbers {
    fn any(random: &mut Random) -> Self {
        let frames = match random.below(12) {
            0 => 1_025 + random.below(3_072),
            1 => [1_024, 1_025, 2_048, 4_096][random.below(4)],
            2 => 0,
            3..6 => 200,
            _ => random.below(40),
        };
        let level = [1.0, 1.0, 1.0, 0.5][random.below(4)];
        let speed = [1.0, 1.0, 1.0, 0.7, 0.0][random.below(5)];
        let (mut fade, mut rate) = (vec![level; frames], vec![speed; frames]);
        let constant = random.coin();
        if !constant && frames > 0 {
            for _ in 0..random.below(4) {
                let from = random.below(frames);
                match random.coin() {
                    true => fade[from..].fill(random.unit() as f32),
                    false => rate[from..].fill(2.0 * random.unit()),
                }
            }
            match random.below(20) {
                0 => fade[random.below(frames)] = -0.0,
                1 => rate[random.below(frames)] = f64::INFINITY,
                2 => rate[random.below(frames)] = 1.0e9,
                _ => {}
            }
        }
        Self {
            frames,
            fade,
            rate,
            constant,
        }
    }

    fn lanes<'a>(&'a self, room: &'a mut Lanes) -> cableowl::BlockLanes<'a> {
        let lanes = room.frames(self.frames);
        match (self.constant, self.fade.first(), self.rate.first()) {
            (true, Some(fade), Some(rate)) => lanes.fade(*fade).rate(*rate),
            _ => lanes.fade(&self.fade).rate(&self.rate),
        }
    }
}

/// A log: the accepted lines that have frames, and each refusal with the frames before it.
#[derive(Default)]
struct Log {
    accepted: Vec<Line>,
    refused: Vec<(u64, u32)>,
    frames: u64,
}

impl Log {
    fn add(&mut self, line: Line) {
        match line {
            Line::RefusedBlock { refusal, .. } => {
                self.refused.push((self.frames, refusal.number()));
            }
            Line::Block { frames: 0, .. } => {}
            Line::Block { frames, .. } => {
                self.frames += frames;
                self.accepted.push(line);
            }
            line => panic!("{line}"),
        }
    }
}

/// An unrecorded voice beside a recorded one.
struct Beside<'a> {
    recorder: Recorder<'a>,
    voice: Unrecorded,
    lanes: [Lanes; 2],
    log: Log,
    heard: Vec<u32>,
    in_parts: usize,
}

impl Beside<'_> {
    fn same<T: PartialEq + std::fmt::Debug>(&self, made: Recorded<T>, answer: Result<T, Refusal>) {
        self.voice.compare(&self.recorder, &made, &answer);
        assert_eq!(made.recorded, Ok(()));
    }

    fn create(&mut self, settings: Settings, lesson: &Lesson) {
        let answer = self.voice.create(settings, lesson.samples());
        let made = self.recorder.create(settings, lesson);
        self.same(made, answer);
    }

    fn commands(&mut self, sound: &[f32], commands: Commands) {
        let made = self.recorder.on_start_processing(sound, commands);
        let answer = self.voice.commands(sound, commands);
        self.same(made, answer);
    }

    fn block(&mut self, sound: &[f32], numbers: &Numbers, dt: f64, signals: Signals, mix: bool) {
        let (frames, from) = (numbers.frames, mix.then_some(3));
        let first = 2 * from.unwrap_or(0);
        let mut outs = [(); 2].map(|()| vec![9.0; 2 * frames + first]);
        let [ours, plain] = &mut outs;
        let [one, other] = &mut self.lanes;
        let lanes = numbers.lanes(one);
        let made = record_block(&mut self.recorder, sound, lanes, dt, signals, ours, from);
        let lanes = numbers.lanes(other);
        let answer = self.voice.block(sound, lanes, dt, signals, plain, from);
        let stopped = self.voice.0.as_ref().is_some_and(StaticSound::finished);
        let ran_off = stopped && answer.is_ok_and(|counts| counts.steps > 0);
        if ran_off && frames > MAX_TRACED_FRAMES {
            // It is played in parts. The frames are the same; the trace counts fewer steps after the end.
            self.in_parts += 1;
            assert_eq!(made.recorded, Ok(()));
            let (ours, plain) = (made.answer.unwrap(), answer.unwrap());
            assert!(ours.steps <= plain.steps);
            self.voice.0 = self.recorder.voice().cloned();
            assert!(self.voice.0.as_ref().is_some_and(StaticSound::finished));
        } else {
            self.same(made, answer);
        }
        assert_eq!(bits(&outs[0]), bits(&outs[1]));
        self.log.add(self.recorder.line().unwrap());
        if answer.is_ok() {
            self.heard.extend(bits(&outs[0][first..]));
        }
    }

    /// A replay of the trace has the samples and the lines that were played.
    fn end(&mut self, sounds: &Sounds) -> [usize; 6] {
        let trace = self.recorder.bytes();
        let (mut again, mut heard, mut kinds) = (Log::default(), Vec::new(), [0; 6]);
        let mut replay = Replay::new().sounds(sounds.clone());
        let mut printed = Vec::new();
        for record in Trace::new(trace) {
            let (at, record) = record.unwrap();
            kinds[usize::from(trace[at as usize + 2])] += 1;
            if let Some(line) = replay.play(&record) {
                again.add(line);
                printed.push(line);
                heard.extend(bits(replay.heard()));
            }
        }
        assert_eq!(heard, self.heard);
        assert_eq!(again.refused, self.log.refused);
        let log = self.log.accepted.drain(..);
        common_edges(log, again.accepted).unwrap();
        assert!(lines(trace).eq(printed));
        kinds
    }
}

#[test]
fn a_recorded_voice_plays_as_an_unrecorded_one() {
    let random = &mut Random::new(38);
    let lessons = lessons(random);
    let sounds: Sounds = lessons.iter().cloned().collect();
    let (mut kinds, mut blocks, mut in_parts, mut refused) = ([0; 6], 0, 0, 0);
    for _ in 0..600 {
        let mut buffer = vec![0; 8_000_000];
        let mut beside = Beside {
            recorder: Recorder::new(&mut buffer),
            voice: Unrecorded::default(),
            lanes: [Lanes::new(), Lanes::new()],
            log: Log::default(),
            heard: Vec::new(),
            in_parts: 0,
        };
        let mut lesson = &lessons[0];
        for call in 0..80 {
            match random.below(24) {
                0 | 1 => {
                    lesson = &lessons[random.below(lessons.len())];
                    beside.create(settings(random), lesson);
                }
                _ if call == 3 => beside.create(Settings::new(1).loop_region(..), lesson),
                2..6 => beside.commands(
                    lesson.samples(),
                    commands(random, |random| random.one_in(4)),
                ),
                _ => {
                    let numbers = Numbers::any(random);
                    let dt = match random.one_in(20) {
                        true => [0.0, f64::NAN, 1e9][random.below(3)],
                        false => 1.0,
                    };
                    let (signals, mix) = (signals(random), random.coin());
                    let signals = match random.below(3) {
                        0 => signals,
                        _ => Signals::new(),
                    };
                    beside.block(lesson.samples(), &numbers, dt, signals, mix);
                    blocks += 1;
                }
            }
            if random.one_in(30) {
                // This closes the open record and changes nothing else.
                let _ = beside.recorder.bytes();
            }
        }
        for (sum, kind) in kinds.iter_mut().zip(beside.end(&sounds)) {
            *sum += kind;
        }
        in_parts += beside.in_parts;
        refused += beside.log.refused.len();
    }
    println!(
        "{blocks} blocks, {refused} of them refused, {in_parts} played in parts; records of kinds 2 to 5: {:?}",
        &kinds[2..]
    );
    assert_eq!(kinds[1], 0);
    assert!(in_parts > 50 && refused > 1_000 && kinds[2..].iter().all(|kind| *kind > 1_000));
}

/// A call that fits no record is played and ends the trace. A call without space for its records is not recorded in part.
#[test]
fn what_is_not_recorded() {
    let lesson = Lesson::new(vec![0.25; 2_000]).unwrap();
    let copy: Vec<f32> = lesson.samples().to_vec();
    let (mut room, mut out, signals) = (Lanes::new(), vec![0.0; 8_192], Signals::new());
    let fade: Vec<f32> = (0..4_096).map(|frame| 1.0 / (1.0 + frame as f32)).collect();
    // Lanes of a wrong length, another sound, too little space for the second of three records.
    for (case, refusal) in [Refusal::Record, Refusal::Record, Refusal::Room]
        .into_iter()
        .enumerate()
    {
        let mut buffer = vec![0; 78 + 42 + 24_598 + 100];
        let mut recorder = Recorder::new(&mut buffer);
        recorder
            .create(Settings::new(1).loop_region(..), &lesson)
            .recorded
            .unwrap();
        let sound = lesson.samples();
        let block = recorder.process(sound, room.frames(8), 1.0, signals, &mut out[..16]);
        block.recorded.unwrap();
        let before = recorder.voice().map(StaticSound::state);
        let made = match case {
            0 => recorder.process(
                sound,
                room.frames(8).fade(&fade[..7]),
                1.0,
                signals,
                &mut out[..16],
            ),
            1 => recorder.process(&copy, room.frames(8), 1.0, signals, &mut out[..16]),
            _ => {
                let lanes = room.frames(4_096).fade(&fade);
                recorder.process(sound, lanes, 1.0, signals, &mut out)
            }
        };
        assert_eq!(made.recorded, Err(refusal));
        assert_eq!(made.answer.is_ok(), case > 0);
        assert_eq!(recorder.voice().map(StaticSound::state) != before, case > 0);
        let kinds: Vec<bool> = Trace::new(recorder.bytes())
            .map(|record| matches!(record.unwrap().1, Record::Block(block) if block.frames == 8))
            .collect();
        assert_eq!(kinds, [false, true]);
        let later = recorder.process(sound, room.frames(8), 1.0, signals, &mut out[..16]);
        assert_eq!((later.answer.is_ok(), later.recorded), (true, Err(refusal)));
        assert_eq!(recorder.bytes().len(), 78 + 42);
    }
}

/// The block that may still grow is in the bytes whenever the host asks, and its space is kept free.
#[test]
fn the_open_block_has_its_space() {
    let lesson = Lesson::new(vec![0.25; 2_000]).unwrap();
    let (sound, mut room, signals) = (lesson.samples(), Lanes::new(), Signals::new());
    let mut buffer = [0; 78 + 2 * 42];
    let mut recorder = Recorder::new(&mut buffer);
    recorder
        .create(Settings::new(1).loop_region(..), &lesson)
        .recorded
        .unwrap();
    let mut block = |recorder: &mut Recorder<'_>, rate: f64| {
        let lanes = room.frames(4).rate(rate);
        recorder
            .process(sound, lanes, 1.0, signals, &mut [0.0; 8])
            .recorded
    };
    assert_eq!(recorder.room(), 84);
    assert_eq!(block(&mut recorder, 1.0), Ok(()));
    assert_eq!(recorder.room(), 42);
    assert_eq!(block(&mut recorder, 1.0), Ok(()));
    assert_eq!(recorder.room(), 42);
    assert_eq!(block(&mut recorder, 0.5), Ok(()));
    assert_eq!(recorder.room(), 0);
    assert_eq!(block(&mut recorder, 0.5), Ok(()));
    let printed: Vec<String> = lines(recorder.bytes())
        .map(|line| line.to_string())
        .collect();
    assert_eq!(printed.len(), 2);
    assert!(
        printed.iter().all(|line| line.contains(" frames=8 ")),
        "{printed:?}"
    );
    // After `bytes` nothing is joined to the last record, so there is no space.
    assert_eq!(block(&mut recorder, 0.5), Err(Refusal::Room));
    recorder.clear();
    assert_eq!((recorder.bytes().len(), recorder.room()), (0, 162));
}

/// The steps of the lines that a trace prints.
fn steps(trace: &[u8]) -> Vec<u64> {
    let steps = |line| match line {
        Line::Block { steps, .. } => steps,
        line => panic!("{line}"),
    };
    lines(trace).map(steps).collect()
}

/// Blocks up to the end of a sound and behind it: a record over both would count more steps.
#[test]
fn nothing_is_joined_over_the_end_of_the_sound() {
    let lesson = Lesson::new(vec![0.5; 6]).unwrap();
    let (mut room, mut buffer) = (Lanes::new(), [0; 300]);
    let mut recorder = Recorder::new(&mut buffer);
    recorder.create(Settings::new(1), &lesson).recorded.unwrap();
    for _ in 0..4 {
        let (sound, lanes) = (lesson.samples(), room.frames(2));
        let block = recorder.process(sound, lanes, 1.0, Signals::new(), &mut [0.0; 4]);
        block.recorded.unwrap();
    }
    // The second block ends the sound. The first two are one record, the last two another.
    assert_eq!(steps(recorder.bytes()), [4, 0]);
    let mut as_one = [0; 112];
    let settings = Settings::new(1);
    let sound = lesson.id();
    let next = write(&Record::GivenCreation { settings, sound }, &mut as_one, 0).unwrap();
    let block = Record::Block(Block::new(8, 1.0));
    write(&block, &mut as_one, next).unwrap();
    assert_eq!(steps(&as_one), [8]);
}

/// A block that is too long for one record and in which the sound ends.
#[test]
fn a_long_block_over_the_end_is_played_in_parts() {
    let lesson = Lesson::new(vec![0.5; 2]).unwrap();
    let (mut room, mut buffer, mut out) = (Lanes::new(), [0; 300], [0.0; 4_000]);
    let mut recorder = Recorder::new(&mut buffer);
    recorder.create(Settings::new(1), &lesson).recorded.unwrap();
    let (sound, lanes) = (lesson.samples(), room.frames(2_000));
    let block = recorder.process(sound, lanes, 1.0, Signals::new(), &mut out);
    assert_eq!(block.answer.unwrap().steps, 1_024);
    assert_eq!(steps(recorder.bytes()), [1_024, 0]);
    let mut voice = StaticSound::new(Settings::new(1), sound).unwrap();
    let whole = voice.process(sound, room.frames(2_000), 1.0, Signals::new(), &mut out);
    assert_eq!(whole.unwrap().steps, 2_000);
}
