// All commands take effect with the next frame, in the order in which they were given.

use cableowl::{
    Command, Frames, Level, PlaybackState, Player, RecordedPlayer, Refusal, Settings, Tween,
    trace::{Lesson, Record, Trace, lines},
};
use random::Random;

use crate::{
    edges::common_edges,
    evening::{Evening, bits, seeds},
    per_block::{Obeys, Ours, PerBlock, our_place},
};

fn millis(millis: u64) -> Tween {
    Tween::from_millis(millis)
}

/// A sound of 40 frames at 1,000 frames a second, which is also the output rate.
fn evening(commands: Vec<(usize, Command)>) -> Evening {
    Evening {
        sound: (0..40).flat_map(|i| [i as f32, -i as f32]).collect(),
        settings: Settings::new(1_000).start_position(Frames(20)),
        output_rate: 1_000,
        fade_in: None,
        commands,
        frames: 24,
    }
}

fn player() -> (Vec<f32>, Player) {
    let evening = evening(Vec::new());
    (evening.sound.clone(), evening.player())
}

fn position(player: &Player) -> usize {
    player.voice().state().position
}

#[test]
fn a_loop_set_after_a_seek_does_not_wrap_it() {
    let (sound, mut player) = player();
    player.seek_to(0.030).unwrap();
    player.set_loop_region(Frames(2)..Frames(6)).unwrap();
    player.process(&sound, &mut []).unwrap();
    player.seek_by(0.0).unwrap();
    player.clear_loop_region();
    player.process(&sound, &mut [0.0; 2]).unwrap();
    assert_eq!(position(&player), 30 + 1);
    player.set_loop_region(Frames(2)..Frames(6)).unwrap();
    player.seek_to(0.039).unwrap();
    player.clear_loop_region();
    player.process(&sound, &mut [0.0; 2]).unwrap();
    assert_eq!(position(&player), 3 + 1, "39 wrapped into 2 to 6");
    assert_eq!(player.voice().state().loop_region, None);
}

#[test]
fn a_parameters_last_target_counts_from_its_value_before_the_frame() {
    let (sound, mut player) = player();
    player.set_volume(Level::SILENCE, Tween::AT_ONCE);
    player.set_volume(Level::new(100).unwrap(), millis(2));
    player.set_playback_rate(-3.0, Tween::AT_ONCE).unwrap();
    player.set_playback_rate(0.5, millis(2)).unwrap();
    player.process(&sound, &mut [0.0; 2]).unwrap();
    let now = (player.volume().tenths(), player.playback_rate());
    assert_eq!(now, (50, 0.75));
}

#[test]
fn sixty_four_seeks_wait_and_one_more_is_refused() {
    let (sound, mut player) = player();
    let back = -0.000_25;
    player.seek_to(0.039).unwrap();
    for _ in 1..64 {
        player.set_loop_region(Frames(0)..Frames(40)).unwrap();
        player.seek_to(0.038).unwrap();
    }
    let full = player.to_bytes();
    assert_eq!(player.seek_by(back), Err(Refusal::Queue));
    assert_eq!(
        player.seek_to(f64::NAN),
        Err(Refusal::Seek),
        "8 comes first"
    );
    assert_eq!(player.to_bytes(), full, "nothing is lost");
    let said = Refusal::Queue.to_string();
    assert_eq!(
        said,
        "refusal 29: 64 seeks wait for the next frame already: play a frame, then seek again"
    );
    // Nothing else is refused for lack of space, however often it comes.
    for _ in 0..1_000 {
        player.set_loop_region(Frames(1)..Frames(40)).unwrap();
        player.clear_loop_region();
        player.resume(millis(1));
        player.stop(millis(1));
        player.pause(Tween::AT_ONCE);
        player.set_volume(Level::FULL, millis(3));
        player.set_panning(0.25, millis(3)).unwrap();
        player.set_playback_rate(0.5, millis(3)).unwrap();
    }
    player.process(&sound, &mut [0.0; 2]).unwrap();
    assert_eq!(player.state(), PlaybackState::Paused);
    assert_eq!(position(&player), 38);
    assert_eq!(player.voice().state().loop_region, None);
    assert_eq!(player.seek_by(back), Ok(()), "a frame was played");
}

/// What the student presses.
fn words() -> [Command; 7] {
    [
        Command::Pause(millis(3)),
        Command::Resume(millis(2)),
        Command::Stop(millis(4)),
        Command::SeekBy(-0.007),
        Command::SeekTo(0.0395),
        Command::SetLoopRegion((Frames(5)..Frames(9)).into()),
        Command::ClearLoopRegion,
    ]
}

/// Every sequence of this many commands, one after the other.
fn rows(length: u32) -> impl Iterator<Item = Vec<Command>> {
    let words = words();
    (0..words.len().pow(length)).map(move |number| {
        let digit = |place| number / words.len().pow(place) % words.len();
        (0..length).map(|place| words[digit(place)]).collect()
    })
}

/// The situations in which a sequence starts: every playback state, a voice that has not started, one past the end of
/// its sound.
fn situations() -> Vec<Evening> {
    let paused = (1, Command::Pause(Tween::AT_ONCE));
    let commands = [
        vec![],
        vec![(1, Command::Pause(millis(20)))],
        vec![paused],
        vec![paused, (2, Command::Resume(millis(20)))],
        vec![(1, Command::Stop(millis(20)))],
        vec![(1, Command::Stop(Tween::AT_ONCE))],
        vec![(1, Command::SeekTo(0.039))],
        vec![(1, Command::SetPlaybackRate(-0.7, millis(6)))],
    ];
    let mut evenings: Vec<Evening> = commands.into_iter().map(evening).collect();
    let mut waiting = evening(Vec::new());
    waiting.settings.start_waits = true;
    evenings.push(waiting);
    evenings
}

#[test]
fn every_short_row_is_obeyed_as_each_command_by_itself() {
    let mut tried = 0;
    for situation in situations() {
        for row in (0..=4).flat_map(rows) {
            let mut evening = situation.clone();
            evening
                .commands
                .extend(row.iter().map(|command| (4, *command)));
            let mut player = evening.player();
            let ours = evening.played(&mut player, &mut || 4_096);
            let mut each = PerBlock::<Ours>::new(&evening, Obeys::InOrder);
            let theirs = evening.played(&mut each, &mut || 1);
            assert_eq!(ours.samples, theirs.samples, "{evening:?}");
            assert_eq!(ours.counts, theirs.counts, "{evening:?}");
            assert_eq!(our_place(player.voice()), our_place(&each.voice.0));
            let (one, other) = (player.voice().state(), each.voice.0.state());
            assert_eq!(one, other, "{evening:?}");
            tried += 1;
        }
    }
    println!("{tried} rows");
    assert_eq!(tried, 9 * (1 + 7 + 49 + 343 + 2_401));
}

/// Five frames in callbacks that also end at these frames; the presses come before the callbacks at their frames.
fn in_callbacks(evening: &Evening, ends: u32) -> (Vec<u32>, Vec<u8>) {
    let (mut player, mut out) = (evening.player(), [0.0; 10]);
    let mut from = 0;
    for frame in 0..=5 {
        let at_once = evening.commands.iter().filter(|(at, _)| *at == frame);
        let pressed = at_once.clone().count() > 0;
        if pressed || frame == 5 || ends & 1 << frame != 0 {
            let part = &mut out[2 * from..2 * frame];
            player.process(&evening.sound, part).unwrap();
            from = frame;
        }
        for (_, command) in at_once {
            player.command(*command).unwrap();
        }
    }
    (bits(&out), player.to_bytes())
}

#[test]
fn three_presses_end_alike_in_callbacks_of_every_length() {
    let mut tried = 0;
    for row in rows(3) {
        for frames in 0..4_usize.pow(3) {
            let frames = [frames / 16, frames / 4 % 4, frames % 4];
            if !frames.is_sorted() {
                continue;
            }
            let commands = frames.into_iter().zip(row.iter().copied()).collect();
            let mut evening = evening(commands);
            evening.frames = 5;
            let whole = in_callbacks(&evening, 0);
            for ends in 1..32 {
                assert_eq!(in_callbacks(&evening, ends), whole, "{ends:b}: {evening:?}");
                tried += 1;
            }
        }
    }
    println!("{tried} cuttings");
    assert_eq!(tried, 343 * 20 * 31);
}

/// kira's own text, with the same presses before one frame.
#[test]
fn kira_keeps_the_last_of_each_kind_in_an_order_of_its_own() {
    let ends = |row: &[Command]| {
        let mut evening = evening(row.iter().map(|command| (0, *command)).collect());
        evening.frames = 1;
        let place = |obeys| {
            let mut player = PerBlock::<oracle::Oracle>::new(&evening, obeys);
            evening.played(&mut player, &mut || 1);
            let place = crate::per_block::Voice::place(&player.voice);
            (PlaybackState::from_number(place.0).unwrap(), place.1)
        };
        let mut ours = evening.player();
        evening.played(&mut ours, &mut || 1);
        assert_eq!((ours.state(), position(&ours)), place(Obeys::InOrder));
        [place(Obeys::LikeKira), place(Obeys::InOrder)]
    };
    use PlaybackState::{Pausing, Playing, Resuming};
    let pressed = [Command::Resume(millis(4)), Command::Pause(millis(4))];
    assert_eq!(ends(&pressed), [(Resuming, 24), (Pausing, 24)]);
    let back = [Command::SeekBy(-0.0085); 2];
    assert_eq!(ends(&back), [(Playing, 15), (Playing, 6)]);
    let there = [Command::SeekTo(0.002), Command::SeekBy(0.0035)];
    assert_eq!(ends(&there), [(Playing, 3), (Playing, 6)]);
    let looped = [
        Command::SeekTo(0.001),
        Command::SetLoopRegion((Frames(10)..Frames(14)).into()),
    ];
    assert_eq!(ends(&looped), [(Playing, 10), (Playing, 2)]);
}

#[test]
fn a_row_is_the_same_before_one_callback_or_an_empty_one_each() {
    let mut presses = 0;
    for seed in seeds(2_000) {
        let mut evening = Evening::any(&mut Random::new(seed));
        // All before one frame.
        let frame = evening.commands.first().map_or(0, |(frame, _)| *frame);
        evening.commands.iter_mut().for_each(|(at, _)| *at = frame);
        let mut players = [evening.player(), evening.player()];
        let mut heard = [(); 2].map(|()| vec![0.0; 2 * evening.frames]);
        let mut answers = [Vec::new(), Vec::new()];
        for (number, player) in players.iter_mut().enumerate() {
            let (before, after) = heard[number].split_at_mut(2 * frame);
            player.process(&evening.sound, before).unwrap();
            for (_, command) in &evening.commands {
                answers[number].push(player.command(*command));
                if number == 1 {
                    player.process(&evening.sound, &mut []).unwrap();
                }
            }
            player.process(&evening.sound, after).unwrap();
        }
        presses += evening.commands.len();
        assert_eq!(answers[0], answers[1], "seed {seed}");
        assert_eq!(bits(&heard[0]), bits(&heard[1]), "seed {seed}");
        assert_eq!(players[0].to_bytes(), players[1].to_bytes(), "seed {seed}");
    }
    println!("{presses} commands");
}

#[test]
fn a_trace_has_every_seek_as_a_record_and_plays_the_same() {
    let evening = evening(Vec::new());
    let mut buffer = [0; 8_192];
    let lesson = Lesson::new(evening.sound).unwrap();
    let mut player = RecordedPlayer::play(evening.settings, 1_000, &lesson, &mut buffer).unwrap();
    let row = [
        Command::SeekBy(-0.002),
        Command::SeekTo(0.005),
        Command::Pause(millis(3)),
        Command::SeekBy(0.001),
        Command::Resume(millis(2)),
        Command::SetLoopRegion((Frames(5)..Frames(9)).into()),
    ];
    for command in row {
        player.command(command).unwrap();
    }
    let (mut out, mut log) = ([0.0; 20], Vec::new());
    player
        .process(&mut out, |line| log.push(line))
        .recorded
        .unwrap();
    let records: Vec<Record> = Trace::new(player.bytes())
        .map(|record| record.unwrap().1)
        .collect();
    let sets = records.iter().skip(1);
    let sets = sets.take_while(|record| matches!(record, Record::Commands(_)));
    assert_eq!(sets.count(), 4, "three seeks, and the loop after them");
    common_edges(log, lines(player.bytes())).unwrap();
}
