//! A voice recorded in version 1. Some of its calls fit no record, and then the trace ends.

use super::{Unrecorded, bits, commands, record_block, settings};
use cableowl::{
    Commands, Frames, Hall, Lanes, LoopTable, Refusal, Settings, Signals, StartAnswer, StartSignal,
    StaticSound,
    trace::{
        self, Block, Lesson, Line, Record, Recorded, Recorder, Replay, ShortSound, Trace,
        TraceVersion,
    },
};
use random::Random;

/// The length of the longest record in bytes.
const MAX_BYTES: usize = TraceVersion::First.max_record_bytes();

/// The lanes of a block.
#[derive(Clone)]
struct Numbers {
    fade: Vec<f32>,
    left: f32,
    rate: Vec<f64>,
}

/// One call.
#[derive(Clone)]
enum Call {
    Create(Settings, Vec<f32>),
    Commands(Commands),
    Take(LoopTable, usize),
    /// The frames, the lanes, the time step, the signals, the samples of the output, and the first frame in a mix.
    Block(usize, Numbers, f64, Signals, usize, Option<usize>),
    /// Passes another sound from now on, until the next creation.
    Sound(Vec<f32>),
}

fn sound(random: &mut Random) -> Vec<f32> {
    let samples = match random.below(40) {
        0 | 1 => 2 * 65,
        2 => 2 * 64,
        3 => 0,
        _ => 2 * (1 + random.below(20)),
    };
    (0..samples).map(|_| random.unit() as f32 - 0.5).collect()
}

fn signals(random: &mut Random) -> Signals {
    let answers = [
        StartAnswer::Waiting,
        StartAnswer::Waiting,
        StartAnswer::Now,
        StartAnswer::Never,
    ];
    let start = match random.below(4) {
        0 => StartSignal::Tick {
            due: random.word() as u32,
            now: random.word() as u32,
        },
        1 => StartSignal::Tick { due: 7, now: 7 },
        _ => answers[random.below(4)].into(),
    };
    Signals::new()
        .finished(random.one_in(4))
        .start(start)
        .resume(answers[random.below(4)])
}

fn block(random: &mut Random, off: bool) -> Call {
    let frames = match random.below(40) {
        0 if off => 1_025 + random.below(4_000),
        1 => 1_024,
        2 => 0,
        _ => random.below(24),
    };
    let fade = random.unit() as f32;
    let mut fade = vec![if random.one_in(20) { -0.0 } else { fade }; frames];
    let mut rate = vec![2.0 * random.unit(); frames];
    if off {
        match random.below(60) {
            0 if frames > 0 => fade[frames - 1] += 1.0,
            1 if frames > 0 => rate[random.below(frames)] *= -1.0,
            2 => fade.push(0.5),
            _ => {}
        }
    }
    let dt = match random.one_in(12) {
        true => [0.0, f64::NAN, 1e9][random.below(3)],
        false => 1.0,
    };
    let numbers = Numbers {
        fade,
        left: random.unit() as f32,
        rate,
    };
    let odd = usize::from(off && random.one_in(60));
    let signals = signals(random);
    match random.coin() {
        true => Call::Block(frames, numbers, dt, signals, 2 * frames + odd, None),
        false => {
            let from = random.below(3) + 9 * odd;
            Call::Block(frames, numbers, dt, signals, 2 * frames + 6, Some(from))
        }
    }
}

/// An evening's calls. If `off` is set, some of them fit no record.
fn evening(random: &mut Random, calls: usize, off: bool) -> Vec<Call> {
    let mut table = LoopTable::new(8);
    table.write(Hall::A, 3, 1..3).unwrap();
    table.write(Hall::B, 9, 5..8).unwrap();
    let mut call = |first: bool| match random.below(30) {
        _ if first => Call::Create(settings(random), vec![0.5; 16]),
        0 | 1 => {
            let mut sound = sound(random);
            if !off && sound.len() > 128 {
                sound.truncate(2);
            }
            Call::Create(settings(random), sound)
        }
        2 => Call::Take(table, [3, 9, 4, 99][random.below(4)]),
        3 if off && random.one_in(4) => Call::Sound(sound(random)),
        3..=9 => Call::Commands(commands(random, |_| true)),
        _ => block(random, off),
    };
    (0..calls).map(|place| call(place == 0)).collect()
}

/// An unrecorded voice beside a recorded one.
struct Beside<'a> {
    recorder: Recorder<'a>,
    voice: Unrecorded,
    sound: Vec<f32>,
    created: Vec<f32>,
    lanes: [Lanes; 2],
    blocks: u64,
    /// The lines and the samples of the recorded blocks.
    log: Vec<(Line, Vec<u32>)>,
    /// The records that the trace must have.
    records: Vec<Record<'static>>,
    room: usize,
    /// Why the trace ended.
    ended: Option<Refusal>,
}

impl<'a> Beside<'a> {
    fn new(buffer: &'a mut [u8]) -> Self {
        Self {
            room: buffer.len(),
            recorder: Recorder::with_version(buffer, TraceVersion::First),
            voice: Unrecorded::default(),
            sound: Vec::new(),
            created: Vec::new(),
            lanes: [Lanes::new(), Lanes::new()],
            blocks: 0,
            log: Vec::new(),
            records: Vec::new(),
            ended: None,
        }
    }

    /// Compares what the recorder returned for a call with this record, and whether the trace goes on after it.
    fn expect<T: PartialEq + std::fmt::Debug>(
        &mut self,
        made: Recorded<T>,
        answer: Result<T, Refusal>,
        record: Option<Record<'static>>,
    ) -> bool {
        self.voice.compare(&self.recorder, &made, &answer);
        if self.ended.is_none() {
            let mut bytes = [0; MAX_BYTES];
            let write = |record| TraceVersion::First.write(&record, &mut bytes, 0).unwrap();
            self.ended = match record.map(write) {
                None => Some(Refusal::Record),
                Some(length) if length > self.room => Some(Refusal::Room),
                Some(length) => {
                    self.room -= length;
                    self.records.extend(record);
                    None
                }
            };
        }
        assert_eq!(made.recorded, self.ended.map_or(Ok(()), Err));
        assert_eq!(self.recorder.room(), self.room);
        self.ended.is_none()
    }

    /// Whether the sound is the one that the voice was created with.
    fn is_the_creations(&self) -> bool {
        self.voice.0.is_none() || bits(&self.sound) == bits(&self.created)
    }

    fn call(&mut self, call: &Call) {
        match call {
            Call::Sound(sound) => self.sound.clone_from(sound),
            Call::Create(settings, sound) => {
                self.sound.clone_from(sound);
                self.created.clone_from(sound);
                let answer = self.voice.create(*settings, sound);
                let lesson = Lesson::new(sound.clone()).unwrap();
                let made = self.recorder.create(*settings, &lesson);
                let settings = *settings;
                let short = ShortSound::new(sound).ok();
                let record = short.map(|sound| Record::Creation { settings, sound });
                self.expect(made, answer, record);
            }
            Call::Commands(commands) => {
                let made = self.recorder.on_start_processing(&self.sound, *commands);
                let answer = self.voice.commands(&self.sound, *commands);
                let record = Record::Commands(*commands);
                let record = self.is_the_creations().then_some(record);
                self.expect(made, answer, record);
            }
            Call::Take(table, slot) => {
                let made = self.recorder.take_loop(&self.sound, table, *slot);
                let answer = table.read(*slot).and_then(|_| {
                    let voice = self.voice.voice()?;
                    voice.take_loop(&self.sound, table, *slot)
                });
                let Ok(region) = table.read(*slot) else {
                    assert_eq!(made.answer, answer);
                    assert_eq!(made.recorded, self.ended.map_or(Ok(()), Err));
                    return;
                };
                let region = Frames(region.start as usize)..Frames(region.end as usize);
                let record = Record::Commands(Commands::new().set_loop_region(region));
                let record = self.is_the_creations().then_some(record);
                self.expect(made, answer, record);
            }
            Call::Block(frames, numbers, dt, signals, length, from) => {
                self.block(*frames, numbers, *dt, *signals, *length, *from);
            }
        }
    }

    fn block(
        &mut self,
        frames: usize,
        numbers: &Numbers,
        dt: f64,
        signals: Signals,
        length: usize,
        from: Option<usize>,
    ) {
        let mut outs = [vec![9.0; length], vec![9.0; length]];
        let [one, other] = &mut self.lanes;
        let [recorded_out, plain_out] = &mut outs;
        let lanes = |room| Lanes::frames(room, frames);
        let lanes = [one, other].map(|room| {
            let lanes = lanes(room).fade(&numbers.fade).rate(&numbers.rate);
            lanes.left(numbers.left)
        });
        let [recorded, plain] = lanes;
        let constant = recorded.constant_frames() == frames && numbers.fade.len() == frames;
        let sound = &self.sound;
        let made = record_block(
            &mut self.recorder,
            sound,
            recorded,
            dt,
            signals,
            recorded_out,
            from,
        );
        let answer = self.voice.block(sound, plain, dt, signals, plain_out, from);
        assert_eq!(bits(&outs[0]), bits(&outs[1]));
        self.blocks += 1;
        let line = match &self.voice.0 {
            Some(voice) => Line::of_block(self.blocks, frames, voice, answer),
            None => Line::RefusedBlock {
                block: self.blocks,
                refusal: Refusal::State,
            },
        };
        assert_eq!(self.recorder.line(), Some(line));
        let holds = constant
            && frames <= trace::MAX_TRACED_FRAMES
            && answer != Err(Refusal::Block)
            && self.is_the_creations();
        let record = holds.then(|| {
            Record::Block(
                Block {
                    fade: numbers.fade.first().copied().unwrap_or(1.0),
                    left: numbers.left,
                    rate: numbers.rate.first().copied().unwrap_or(1.0),
                    ..Block::new(frames, dt)
                }
                .with_signals(signals),
            )
        });
        let first = 2 * from.unwrap_or(0);
        let played = match answer {
            Ok(_) => bits(&outs[0][first..first + 2 * frames]),
            Err(_) => Vec::new(),
        };
        if self.expect(made, answer, record) {
            self.log.push((line, played));
        }
    }

    /// The records are those of the calls, and a replay has the lines and the samples that were played.
    fn end(&mut self) {
        let bytes = self.recorder.bytes();
        let records: Vec<Record> = Trace::new(bytes).map(|record| record.unwrap().1).collect();
        assert_eq!(records, self.records);
        let mut replay = Replay::new();
        let mut again = Vec::new();
        for record in &records {
            if let Some(line) = replay.play(record) {
                again.push((line, bits(replay.heard())));
            }
        }
        assert_eq!(again, self.log);
        let lines = self.log.iter().map(|(line, _)| *line);
        assert!(trace::lines(bytes).eq(lines));
    }
}

#[test]
fn a_recorded_voice_plays_as_an_unrecorded_one() {
    let mut random = Random::new(1_051);
    let (mut lines, mut ends) = (0, [0; 3]);
    for round in 0..3_000 {
        let room = match round % 4 {
            0 => random.below(3_000),
            _ => 100_000,
        };
        let mut buffer = vec![0; room];
        let mut beside = Beside::new(&mut buffer);
        for call in evening(&mut random, 60, round % 2 == 0) {
            beside.call(&call);
        }
        beside.end();
        lines += beside.log.len();
        ends[match beside.ended {
            None => 0,
            Some(Refusal::Record) => 1,
            _ => 2,
        }] += 1;
    }
    println!("{lines} lines; recorded to the end, 17, 19: {ends:?}");
    assert!(lines > 20_000 && ends.iter().all(|times| *times > 100));
}

/// A host that empties a small buffer in time gets the same trace as one with a large buffer.
#[test]
fn emptied_in_time_the_buffer_is_never_full() {
    let mut random = Random::new(1_052);
    for _ in 0..200 {
        let calls = evening(&mut random, 80, false);
        let mut large = vec![0; 100_000];
        let mut beside = Beside::new(&mut large);
        let mut small = [0; 2 * MAX_BYTES];
        let mut emptied = Beside::new(&mut small);
        let mut file = Vec::new();
        for call in &calls {
            beside.call(call);
            if emptied.recorder.room() < MAX_BYTES {
                file.extend_from_slice(emptied.recorder.bytes());
                emptied.recorder.clear();
                emptied.room = emptied.recorder.room();
            }
            emptied.call(call);
        }
        file.extend_from_slice(emptied.recorder.bytes());
        assert_eq!((beside.ended, emptied.ended), (None, None));
        assert_eq!(file, beside.recorder.bytes());
        assert_eq!(emptied.log, beside.log);
    }
}

/// A tick is recorded as the answer that the library computes from it.
#[test]
fn a_tick_is_its_answer() {
    let edges = [0, 1, 2, 1 << 31, u32::MAX].map(|edge: u32| {
        let near = |by: u32| edge.wrapping_sub(2).wrapping_add(by);
        (0..5).map(near).collect::<Vec<_>>()
    });
    let edges = edges.concat();
    let (sound, mut lanes) = ([0.5; 8], Lanes::new());
    for (&due, &now) in edges
        .iter()
        .flat_map(|due| edges.iter().map(move |now| (due, now)))
    {
        let started = |start: StartSignal, lanes: &mut Lanes| {
            let mut voice = StaticSound::new(Settings::new(1).start_waits(true), &sound).unwrap();
            let signals = Signals::new().start(start);
            let block = voice.process(&sound, lanes.frames(1), 1.0, signals, &mut [0.0; 2]);
            (block.unwrap().steps, voice.state())
        };
        let tick = StartSignal::Tick { due, now };
        let expected = started(tick.answer().into(), &mut lanes);
        assert_eq!(started(tick, &mut lanes), expected, "due {due}, now {now}");
    }
}

/// Without a voice, command sets and blocks are refused with 1 and recorded.
#[test]
fn before_a_creation() {
    let mut buffer = [0; 200];
    let mut recorder = Recorder::with_version(&mut buffer, TraceVersion::First);
    let mut lanes = Lanes::new();
    let made = recorder.on_start_processing(&[], Commands::new());
    assert_eq!((made.answer, made.recorded), (Err(Refusal::State), Ok(())));
    let made = recorder.process(&[], lanes.frames(1), 1.0, Signals::new(), &mut [0.0; 2]);
    assert_eq!((made.answer, made.recorded), (Err(Refusal::State), Ok(())));
    assert_eq!(recorder.line().unwrap().to_string(), "block=1 refused=1");
    assert_eq!(recorder.bytes().len(), 12 + 42);
    assert!(recorder.into_voice().is_none());
}
