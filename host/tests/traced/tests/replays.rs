//! Compares the step of a replay with the model, in pieces and for any bytes, and the lines with the proved bytes.

use traced::replays;

#[test]
fn a_trace_in_any_pieces_does_what_the_model_does() {
    println!("{}", replays::steps(1_371, 60_000).unwrap());
}

#[test]
fn any_bytes_as_the_replay_and_as_the_trace() {
    println!("{}", replays::any_bytes(1_372, 60_000).unwrap());
}
