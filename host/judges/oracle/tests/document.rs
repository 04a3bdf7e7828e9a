// kira's text and the rules agree leaf by leaf (whole voices: crate differential).

use oracle::{
    Answer, Entry, Frame, PlaybackPosition, PlaybackState, Signals,
    leaves::{self, Transport, Window},
    same_f32,
};
use random::Random;
use rules::{Document, Rules};

#[test]
fn transports_agree_on_every_small_case() {
    for n in 1..8 {
        for (start, end) in (0..n).flat_map(|s| (s..=n).map(move |e| (s, e))) {
            let loop_region = (start < end).then_some((start, end));
            for position in 0..2 * n {
                for playing in [position < n, false] {
                    let given = Transport {
                        position,
                        loop_region,
                        playing,
                    };
                    let forward = leaves::increment_position(given, n).unwrap();
                    assert_eq!(forward, Document.forward(given, n), "{given:?}");
                    let backward = leaves::decrement_position(given).unwrap();
                    assert_eq!(backward, Document.backward(given), "{given:?}");
                    for target in 0..3 * n {
                        let seek = leaves::seek_to(given, target, n).unwrap();
                        assert_eq!(seek, Document.seek(given, target, n), "{given:?} {target}");
                    }
                }
            }
        }
    }
}

#[test]
fn states_agree_on_every_case() {
    let answers = [Answer::Waiting, Answer::Now, Answer::Never];
    for given in PlaybackState::ALL {
        for (finished, resume) in answers.into_iter().flat_map(|a| [(false, a), (true, a)]) {
            let signals = Signals {
                finished,
                start: Answer::Never,
                resume,
            };
            let (after, changed) = leaves::update(given, signals);
            assert_eq!(after, Document.states(given, signals));
            assert_eq!(changed, after != given);
        }
        for (after, to) in [
            (leaves::pause(given), PlaybackState::Pausing),
            (leaves::resume(given, false), PlaybackState::Resuming),
            (leaves::resume(given, true), PlaybackState::WaitingToResume),
            (leaves::stop(given), PlaybackState::Stopping),
        ] {
            assert_eq!(after, Document.ordered(given, to));
        }
        assert_eq!(leaves::mark_as_stopped(given), PlaybackState::Stopped);
    }
}

#[test]
fn windows_and_readings_agree() {
    let mut random = Random::new(11);
    let mut window = leaves::new_window(9);
    assert_eq!(leaves::current_frame_index(&window), 9);
    for number in 0..2_000 {
        let frame = random.coin().then(|| any_frame(&mut random));
        let next = leaves::push_frame(&window, frame, number);
        assert!(next.same_bits(&Document.push(&window, frame, number)));
        assert_eq!(leaves::empty(&next), next.count == 0);
        window = next;
        let fraction = random.unit() as f32;
        let (heard, count) = leaves::get(&window, fraction);
        let [left, right] = [
            window.entries.map(|e| e.left),
            window.entries.map(|e| e.right),
        ]
        .map(|samples| Document.reading(samples, fraction));
        assert!(same_f32(heard.left, left) && same_f32(heard.right, right));
        assert_eq!(count, window.count);
        let four = window.entries.map(|e| Frame::new(e.left, e.right));
        let alone = leaves::interpolate_frame(four, fraction);
        assert!(same_f32(alone.left, left) && same_f32(alone.right, right));
    }
}

#[test]
fn seconds_agree() {
    let mut random = Random::new(12);
    for _ in 0..20_000 {
        let rate = 1 + random.below(768_000) as u32;
        let halves = random.below(1 << 20) as f64 - 1_000.0;
        let near = halves / 2.0 / f64::from(rate);
        for seconds in [near.next_down(), near, near.next_up()] {
            let position = PlaybackPosition::Seconds(seconds);
            let frames = leaves::into_samples(position, rate);
            assert_eq!(frames, Document.to_frames(position, rate));
        }
    }
}

fn any_frame(random: &mut Random) -> Frame {
    let mut sample = || (random.unit() * 4.0 - 2.0) as f32;
    Frame::new(sample(), sample())
}

#[test]
fn a_window_is_compared_bit_by_bit() {
    let minus = Entry {
        left: -0.0,
        ..Entry::default()
    };
    let mut other = Window::default();
    other.entries[2] = minus;
    assert!(!other.same_bits(&Window::default()));
    other.entries[2].left = f32::NAN;
    let mut negative = other;
    negative.entries[2].left = -f32::NAN;
    assert!(other.same_bits(&negative));
}
