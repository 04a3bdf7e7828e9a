// Runs the example of an audio callback with the other tests: it does not allocate, and its block sizes do not change
// the output.

#[path = "../examples/audio_callback.rs"]
mod example;

#[test]
fn the_callback_neither_allocates_nor_is_heard() {
    example::main().unwrap();
}
