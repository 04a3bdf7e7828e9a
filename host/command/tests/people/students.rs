//! An invented week: students at listening boxes. The test knows who restarts the sound, whose blocks are refused, and
//! which boxes clear their fraction.

use cableowl::{
    Commands, Frames, Lanes, Settings, StaticSound,
    trace::{Block, LOG_HEAD, Log, Record, ShortSound},
};
use random::Random;

use crate::room::{creation, trace};

/// The box's seconds per frame, and its frames per second.
const TIME_STEP: f64 = 1.0 / 1_000.0;
pub const RATE: &str = "1000";

/// A box: it plays a voice, records the trace and writes the log.
struct ListeningBox {
    voice: StaticSound,
    sound: ShortSound,
    lanes: Lanes,
    records: Vec<Record<'static>>,
    log: Log,
    lines: String,
    /// The slip that makes a sentence creep: the fraction is cleared after each block.
    clears: bool,
}

/// A sound of 64 frames, four seconds.
fn voice() -> (Record<'static>, StaticSound, ShortSound) {
    let record = creation(Settings::new(16), 64);
    let Record::Creation { settings, sound } = record else {
        panic!("a creation");
    };
    let voice = StaticSound::new(settings, sound.samples()).expect("a voice");
    (record, voice, sound)
}

impl ListeningBox {
    fn new(clears: bool) -> Self {
        let (record, voice, sound) = voice();
        let mut log = Log::new();
        log.created();
        Self {
            voice,
            sound,
            lanes: Lanes::new(),
            records: vec![record],
            log,
            lines: format!("{LOG_HEAD}\n"),
            clears,
        }
    }

    fn create(&mut self) {
        let (record, voice, _) = voice();
        self.voice = voice;
        self.records.push(record);
        self.log.created();
    }

    fn command(&mut self, commands: Commands) {
        let answer = self
            .voice
            .on_start_processing(self.sound.samples(), commands);
        answer.expect("a command that is obeyed");
        self.records.push(Record::Commands(commands));
    }

    fn block(&mut self, block: Block) {
        let mut out = [0.0; 2_048];
        let lanes = self.lanes.frames(block.frames).rate(block.rate);
        let sound = self.sound.samples();
        let signals = block.signals();
        let answer = self.voice.process(
            sound,
            lanes,
            block.time_step,
            signals,
            &mut out[..2 * block.frames],
        );
        let line = self.log.block(block.frames, Some(&self.voice), answer);
        self.lines += &format!("{line}\n");
        self.records.push(Record::Block(block));
        if self.clears {
            let mut state = self.voice.state();
            state.fractional_position = 0.0;
            self.voice = StaticSound::from_state(state, sound).expect("a state");
        }
    }

    /// Some blocks of any lengths, all but the first without a signal.
    fn play(&mut self, random: &mut Random, blocks: usize, rate: f64, finished: bool) {
        for index in 0..blocks {
            self.block(Block {
                rate,
                finished: finished && index == 0,
                ..Block::new(201 + random.below(700), TIME_STEP)
            });
        }
    }
}

/// What a student is known to do.
#[derive(Clone, Copy, Default)]
pub struct Known {
    pub restarts: u64,
    pub seeks: u64,
    pub pauses: u64,
    pub refused: u64,
    pub ended: bool,
}

/// An evening: its trace and its log, and what is known of it.
pub struct Evening {
    pub trace: Vec<u8>,
    pub log: String,
    pub known: Known,
}

/// A student loops a sentence, slows it, steps back and pauses; restarts it as often as `known` says, by hand or with a
/// new voice; has as many blocks refused; and listens to the end or not.
pub fn evening(random: &mut Random, clears: bool, known: Known) -> Evening {
    let mut listening = ListeningBox::new(clears);
    let looped = Commands::new().set_loop_region(Frames(20)..Frames(50));
    listening.command(looped);
    listening.play(random, 6, 1.0, false);
    let mut known = known;
    assert!(known.restarts <= 4, "there are four parts");
    for part in 0..4 {
        if part < known.restarts {
            match random.coin() {
                true => {
                    let before = listening.voice.state().position;
                    // In a loop, a position before the loop is one inside it.
                    listening.command(Commands::new().clear_loop_region().seek_to(0.0));
                    let after = listening.voice.state().position;
                    assert!(
                        after < before,
                        "{before} {after}: a restart that can be seen"
                    );
                    listening.log.seeked(true);
                    known.seeks += 1;
                }
                false => listening.create(),
            }
            listening.command(looped);
        }
        let rate = [1.0, 0.7, 0.85][random.below(3)];
        // Long enough that a step back does not reach the start.
        listening.play(random, 6, rate, false);
        if random.coin() {
            listening.command(Commands::new().seek_by(-0.125));
            listening.log.seeked(false);
            known.seeks += 1;
        }
        if random.one_in(3) {
            listening.command(Commands::new().pause());
            listening.log.paused();
            known.pauses += 1;
            listening.play(random, 2, 1.0, true);
            listening.command(Commands::new().resume());
            listening.play(random, 1, 1.0, true);
        }
    }
    for _ in 0..known.refused {
        listening.block(Block::new(64, 0.0));
    }
    listening.play(random, 3, 0.7, false);
    if known.ended {
        listening.command(Commands::new().clear_loop_region());
        listening.play(random, 40, 1.0, false);
    }
    Evening {
        trace: trace(&listening.records),
        log: listening.lines,
        known,
    }
}

/// An evening of a box on a day.
pub struct Session {
    pub box_number: usize,
    pub day: &'static str,
    pub week: &'static str,
    pub evening: Evening,
}

impl Session {
    pub fn name(&self) -> String {
        format!("box{:02}_{}", self.box_number, self.day)
    }
}

/// The boxes that clear their fraction.
pub const CREEPING: [usize; 3] = [3, 11, 24];

/// Two weeks of five days, 30 boxes each day: 300 evenings. In the first week 3 of 150 students restart the sound, in
/// the second 14.
pub fn made() -> Vec<Session> {
    let days = [
        ("2026-11-09", "2026-W46"),
        ("2026-11-10", "2026-W46"),
        ("2026-11-11", "2026-W46"),
        ("2026-11-12", "2026-W46"),
        ("2026-11-13", "2026-W46"),
        ("2026-11-16", "2026-W47"),
        ("2026-11-17", "2026-W47"),
        ("2026-11-18", "2026-W47"),
        ("2026-11-19", "2026-W47"),
        ("2026-11-20", "2026-W47"),
    ];
    let mut random = Random::new(40);
    let mut sessions = Vec::new();
    for (index, (day, week)) in days.into_iter().enumerate() {
        for box_number in 0..30 {
            // Each student of a week has another index here.
            let place = (30 * (index % 5) + box_number) * 7 % 150;
            let restarting = if week == "2026-W46" { 3 } else { 14 };
            let known = Known {
                restarts: match place < restarting {
                    true => 1 + random.below(4) as u64,
                    false => 0,
                },
                refused: match random.one_in(5) {
                    true => 1 + random.below(3) as u64,
                    false => 0,
                },
                ended: random.one_in(4),
                ..Known::default()
            };
            let evening = evening(&mut random, CREEPING.contains(&box_number), known);
            sessions.push(Session {
                box_number,
                day,
                week,
                evening,
            });
        }
    }
    sessions
}
