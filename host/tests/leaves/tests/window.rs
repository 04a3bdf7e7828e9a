// The compiled window and kira's agree: random pushes and readings, including NaNs and infinities.

use leaves::{Tally, doubles, window};
use oracle::{Entry, Frame, LIMIT, leaves as original, leaves::Window, same_f32};
use random::Random;

fn any_frame(random: &mut Random) -> Frame {
    Frame::new(doubles::any_f32(random), doubles::any_f32(random))
}

/// Mostly a fraction narrowed as the player does, sometimes any float.
fn any_fraction(random: &mut Random) -> f32 {
    match random.below(8) {
        0 => [0.0, 1.0, 0.5][random.below(3)],
        1 => doubles::any_f32(random),
        _ => doubles::fraction(random) as f32,
    }
}

fn any_number(random: &mut Random) -> usize {
    match random.below(4) {
        0 => random.word() as usize,
        1 => LIMIT,
        _ => random.below(1 << 24),
    }
}

fn any_window(random: &mut Random) -> Window {
    let mut entries = [Entry::default(); 4];
    for entry in &mut entries {
        let Frame { left, right } = any_frame(random);
        *entry = Entry {
            left,
            right,
            number: any_number(random),
        };
    }
    Window {
        entries,
        count: random.below(6),
    }
}

fn same(a: Frame, b: Frame) -> bool {
    same_f32(a.left, b.left) && same_f32(a.right, b.right)
}

#[test]
fn pushes_agree_with_kira() {
    let mut random = Random::new(21);
    let mut tally = Tally::new("window: new, push_frame, current_frame_index, empty");
    let (mut ours, mut theirs) = (Window::default(), Window::default());
    for turn in 0..1_000_000 {
        if turn % 100 == 0 {
            let number = any_number(&mut random);
            ours = window::new_window(number);
            theirs = original::new_window(number);
        } else if turn % 100 == 50 {
            ours = any_window(&mut random);
            theirs = ours;
        }
        let frame = random.coin().then(|| any_frame(&mut random));
        let number = any_number(&mut random);
        let given = ours;
        ours = window::push_frame(&ours, frame, number);
        theirs = original::push_frame(&theirs, frame, number);
        let alike = ours.same_bits(&theirs)
            && window::current_frame_index(&ours) == original::current_frame_index(&theirs)
            && window::empty(&ours) == original::empty(&theirs);
        tally.count(alike, || format!("{given:?}, {frame:?}, {number}"));
    }
    assert!(tally.report());
}

#[test]
fn readings_agree_with_kira() {
    let mut random = Random::new(22);
    let mut gets = Tally::new("window: get");
    let mut frames = Tally::new("interpolate_frame");
    for _ in 0..1_000_000 {
        let given = any_window(&mut random);
        let fraction = any_fraction(&mut random);
        let (ours, theirs) = (
            window::get(&given, fraction),
            original::get(&given, fraction),
        );
        let alike = same(ours.0, theirs.0) && ours.1 == theirs.1;
        gets.count(alike, || format!("{given:?} at {fraction:?}: {ours:?}"));
        let four = [(); 4].map(|()| any_frame(&mut random));
        let ours = window::interpolate_frame(four, fraction);
        let theirs = original::interpolate_frame(four, fraction);
        frames.count(same(ours, theirs), || {
            format!("{four:?} at {fraction:?}: {ours:?}")
        });
    }
    let alike = [gets.report(), frames.report()];
    assert_eq!(alike, [true; 2]);
}
