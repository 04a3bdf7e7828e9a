// A printed call is Rust text that makes the same call again.

use differential::paste::*;

#[test]
#[rustfmt::skip]
fn printed_calls_can_be_pasted() {
    let calls = [
        create(Settings { sample_rate: 1, slice: Some(Region { start: Samples(0), end: EndOfAudio }), start: Seconds(0.5), loop_region: Some(Region { start: Samples(0), end: Custom(Samples(2)) }), reverse: true, rate: -1.0, waits: false }, &[1.0, 2.0, 3.0, 4.0]),
        command(State { sample_rate: 1, total_frames: 2, slice: None, reverse: false, rate: 1.0, started: true, playback: Playing, fraction: 0.0, position: 0, loop_region: Some((0, 1)), playing: true, window: [entry(0.0, 0.0, 0), entry(0.0, 0.0, 0), entry(0.0, 0.0, 0), entry(0.0, 0.0, 0)], count: 0, wraps: Wraps { forward: 0, backward: 0 } }, Commands { loop_region: Some(None), seek_to: Some(0.5), ..Default::default() }, &[1.0; 4]),
        block(State { sample_rate: 1, total_frames: 2, slice: None, reverse: false, rate: 1.0, started: true, playback: Paused, fraction: 0.5, position: 0, loop_region: None, playing: true, window: [entry(f32::from_bits(0x7fc00000), 0.0, 0), entry(1.0, 0.0, 0), entry(0.0, 0.0, 0), entry(0.0, 0.0, 0)], count: 2, wraps: Wraps { forward: 0, backward: 0 } }, [&[1.0], &[1.0], &[1.0], &[1.0]], &[0.5], 1.0, Signals { finished: true, start: Waiting, resume: Now }, Mix(6, 1), &[1.0; 4]),
        stretch(State { sample_rate: 1, total_frames: 1, slice: None, reverse: false, rate: 1.0, started: true, playback: Stopped, fraction: 0.0, position: 1, loop_region: None, playing: false, window: [entry(0.0, 0.0, 0), entry(0.0, 0.0, 0), entry(0.0, 0.0, 0), entry(0.0, 0.0, 0)], count: 0, wraps: Wraps { forward: 0, backward: 0 } }, &[1.0, 2.0]),
    ];
    let here = include_str!("paste.rs");
    for call in &calls {
        assert!(here.contains(&format!("{call},")), "{call}");
        agree(call);
    }
}
