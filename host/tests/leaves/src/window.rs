//! The window of four, and the value between four frames.

use oracle::{Entry, Frame, leaves::Window};

use crate::calls::{self, PlainEntry, PlainFrame, PlainWindow};

/// `Resampler::new`.
#[must_use]
pub fn new_window(starting_frame_index: usize) -> Window {
    window_of(calls::cableowl_test_new_window(starting_frame_index as u64))
}

/// `Resampler::push_frame`.
#[must_use]
pub fn push_frame(given: &Window, frame: Option<Frame>, number: usize) -> Window {
    window_of(calls::cableowl_test_push_frame(
        plain_window(given),
        frame.is_some().into(),
        plain_frame(frame.unwrap_or(Frame::ZERO)),
        number as u64,
    ))
}

/// `Resampler::get`: the frame, and the window's count.
#[must_use]
pub fn get(given: &Window, fraction: f32) -> (Frame, usize) {
    let reading = calls::cableowl_test_get(plain_window(given), fraction);
    (frame_of(reading.frame), reading.count as usize)
}

/// `Resampler::current_frame_index`.
#[must_use]
pub fn current_frame_index(given: &Window) -> usize {
    calls::cableowl_test_current_frame_index(plain_window(given)) as usize
}

/// `Resampler::empty`.
#[must_use]
pub fn empty(given: &Window) -> bool {
    calls::cableowl_test_empty(plain_window(given)) != 0
}

/// `interpolate_frame`.
#[must_use]
pub fn interpolate_frame(frames: [Frame; 4], fraction: f32) -> Frame {
    let [previous, current, next_1, next_2] = frames.map(plain_frame);
    frame_of(calls::cableowl_test_interpolate_frame(
        previous, current, next_1, next_2, fraction,
    ))
}

fn plain_frame(frame: Frame) -> PlainFrame {
    let Frame { left, right } = frame;
    PlainFrame { left, right }
}

fn frame_of(frame: PlainFrame) -> Frame {
    Frame::new(frame.left, frame.right)
}

fn plain_window(window: &Window) -> PlainWindow {
    PlainWindow {
        entries: window.entries.map(|entry| PlainEntry {
            frame: PlainFrame {
                left: entry.left,
                right: entry.right,
            },
            frame_index: entry.number as u64,
        }),
        time_until_empty: window.count as u64,
    }
}

fn window_of(window: PlainWindow) -> Window {
    Window {
        entries: window.entries.map(|entry| Entry {
            left: entry.frame.left,
            right: entry.frame.right,
            number: entry.frame_index as usize,
        }),
        count: window.time_until_empty as usize,
    }
}
