// The exports as C sees them: the only unsafe part.
//
// Each function is proved to be safe and to end for every input. It gets and returns only plain numbers, so each is
// declared `safe`.
#![allow(unsafe_code)]

#[repr(C)]
#[derive(Debug, Clone, Copy)]
pub struct Moved {
    pub steps: u64,
    pub rest: f64,
}

#[repr(C)]
#[derive(Debug, Clone, Copy)]
pub struct PlainPosition {
    pub in_seconds: u32,
    pub seconds: f64,
    pub samples: u64,
}

#[repr(C)]
#[derive(Debug, Clone, Copy)]
pub struct PlainRegion {
    pub start: PlainPosition,
    pub end_given: u32,
    pub end: PlainPosition,
}

#[repr(C)]
#[derive(Debug, Clone, Copy)]
pub struct PlainRange {
    pub given: u32,
    pub start: u64,
    pub end: u64,
}

#[repr(C)]
#[derive(Debug, Clone, Copy)]
pub struct PlainTransport {
    pub position: u64,
    pub loop_region: PlainRange,
    pub playing: u32,
}

#[repr(C)]
#[derive(Debug, Clone, Copy)]
pub struct PlainFrame {
    pub left: f32,
    pub right: f32,
}

#[repr(C)]
#[derive(Debug, Clone, Copy)]
pub struct PlainReading {
    pub frame: PlainFrame,
    pub count: u64,
}

#[repr(C)]
#[derive(Debug, Clone, Copy)]
pub struct PlainEntry {
    pub frame: PlainFrame,
    pub frame_index: u64,
}

#[repr(C)]
#[derive(Debug, Clone, Copy)]
pub struct PlainWindow {
    pub entries: [PlainEntry; 4],
    pub time_until_empty: u64,
}

unsafe extern "C" {
    /// The nearest f32 of a proper fraction; otherwise positive zero.
    pub safe fn cableowl_test_narrow(x: f64) -> f32;
    pub safe fn cableowl_test_advance_by(fraction: f64, advance: f64) -> Moved;
    /// The nearest whole number, with a half rounded away from zero; 0 below 0, and at most 2^32.
    pub safe fn cableowl_test_round_half_away(x: f64) -> u64;
    /// The whole number toward zero, in the same range.
    pub safe fn cableowl_test_cut(x: f64) -> u64;
    /// Without its sign.
    pub safe fn cableowl_test_magnitude(x: f64) -> f64;
    pub safe fn cableowl_test_is_finite(x: f64) -> u32;
    pub safe fn cableowl_test_is_negative(x: f64) -> u32;
    pub safe fn cableowl_test_is_proper(x: f64) -> u32;
    pub safe fn cableowl_test_is_finite_clear(x: f32) -> u32;
    pub safe fn cableowl_test_is_positive_zero(x: f32) -> u32;

    pub safe fn cableowl_test_into_samples(position: PlainPosition, sample_rate: u32) -> u64;
    pub safe fn cableowl_test_into_frames(
        region: PlainRegion,
        sample_rate: u32,
        num_frames: u64,
    ) -> PlainRange;
    pub safe fn cableowl_test_is_lawful(
        region: PlainRegion,
        sample_rate: u32,
        num_frames: u64,
    ) -> u32;

    pub safe fn cableowl_test_increment_position(
        t: PlainTransport,
        num_frames: u64,
    ) -> PlainTransport;
    pub safe fn cableowl_test_decrement_position(t: PlainTransport) -> PlainTransport;
    pub safe fn cableowl_test_seek_to(
        t: PlainTransport,
        position: u64,
        num_frames: u64,
    ) -> PlainTransport;
    pub safe fn cableowl_test_set_loop_region(
        t: PlainTransport,
        loop_region: PlainRange,
    ) -> PlainTransport;
    pub safe fn cableowl_test_new_transport(
        start_position: u64,
        loop_region: PlainRange,
        reverse: u32,
        num_frames: u64,
    ) -> PlainTransport;

    pub safe fn cableowl_test_new_window(starting_frame_index: u64) -> PlainWindow;
    pub safe fn cableowl_test_push_frame(
        w: PlainWindow,
        given: u32,
        frame: PlainFrame,
        frame_index: u64,
    ) -> PlainWindow;
    pub safe fn cableowl_test_get(w: PlainWindow, fractional_position: f32) -> PlainReading;
    pub safe fn cableowl_test_current_frame_index(w: PlainWindow) -> u64;
    pub safe fn cableowl_test_empty(w: PlainWindow) -> u32;
    pub safe fn cableowl_test_interpolate_frame(
        previous: PlainFrame,
        current: PlainFrame,
        next_1: PlainFrame,
        next_2: PlainFrame,
        fraction: f32,
    ) -> PlainFrame;

    /// The state's number.
    pub safe fn cableowl_test_number(state: u32) -> u32;
    /// 1 if a voice in this state advances, otherwise 0.
    pub safe fn cableowl_test_is_advancing(state: u32) -> u32;
    /// The state after a pause.
    pub safe fn cableowl_test_pause(state: u32) -> u32;
    /// The state after a resume, which waits if the second number is not 0.
    pub safe fn cableowl_test_resume(state: u32, waits: u32) -> u32;
    /// The state after a stop.
    pub safe fn cableowl_test_stop(state: u32) -> u32;
    /// Stopped.
    pub safe fn cableowl_test_mark_as_stopped(state: u32) -> u32;
    /// The state after a block's signals: finished if not 0; 0 for still waiting, 1 for now, 2 for never.
    pub safe fn cableowl_test_update(state: u32, finished: u32, resume: u32) -> u32;
}
