//! The transport's moves.

use oracle::leaves::Transport;

use crate::{
    calls::{self, PlainTransport},
    places::{plain_range, range_of},
};

/// `Transport::new`; all zeros if the start is not below the frames.
#[must_use]
pub fn new_transport(
    start_position: usize,
    loop_region: Option<(usize, usize)>,
    reverse: bool,
    num_frames: usize,
) -> Transport {
    transport_of(calls::cableowl_test_new_transport(
        start_position as u64,
        plain_range(loop_region),
        reverse.into(),
        num_frames as u64,
    ))
}

/// `Transport::set_loop_region`.
#[must_use]
pub fn set_loop_region(given: Transport, loop_region: Option<(usize, usize)>) -> Transport {
    let loop_region = plain_range(loop_region);
    transport_of(calls::cableowl_test_set_loop_region(
        plain(given),
        loop_region,
    ))
}

/// `Transport::increment_position`; all zeros if the transport is not well formed.
#[must_use]
pub fn increment_position(given: Transport, num_frames: usize) -> Transport {
    transport_of(calls::cableowl_test_increment_position(
        plain(given),
        num_frames as u64,
    ))
}

/// `Transport::decrement_position`; all zeros if the loop is empty.
#[must_use]
pub fn decrement_position(given: Transport) -> Transport {
    transport_of(calls::cableowl_test_decrement_position(plain(given)))
}

/// `Transport::seek_to`; all zeros if the loop is empty.
#[must_use]
pub fn seek_to(given: Transport, position: usize, num_frames: usize) -> Transport {
    transport_of(calls::cableowl_test_seek_to(
        plain(given),
        position as u64,
        num_frames as u64,
    ))
}

fn plain(given: Transport) -> PlainTransport {
    PlainTransport {
        position: given.position as u64,
        loop_region: plain_range(given.loop_region),
        playing: given.playing.into(),
    }
}

fn transport_of(given: PlainTransport) -> Transport {
    Transport {
        position: given.position as usize,
        loop_region: range_of(given.loop_region),
        playing: given.playing != 0,
    }
}
