// A C program may pass an empty slice as a null pointer with the count 0.

use std::ptr::{null, null_mut};

use oracle::{Oracle, Settings};
use raw::{CableowlSignals, StateBytes, convert};

#[test]
fn empty_slices_may_be_null() {
    let settings = Settings::new(1);
    // SAFETY: a count of 0 means that nothing is read.
    let refused = unsafe { cableowl_sys::cableowl_new(convert::settings_in(&settings), null(), 0) };
    assert_eq!(refused.refusal, 3);
    let sound = [0.5; 8];
    let state = convert::state_in(&Oracle::create(&settings, &sound).state());
    // SAFETY: the whole sound is passed, and nothing of the other slices.
    let answer = unsafe {
        cableowl_sys::cableowl_process(
            state,
            sound.as_ptr(),
            sound.len(),
            null(),
            0,
            null(),
            0,
            null(),
            0,
            null(),
            0,
            null(),
            0,
            1.0,
            CableowlSignals::default(),
            null_mut(),
            0,
        )
    };
    assert_eq!((answer.refusal, answer.steps), (0, 0));
    assert_eq!(answer.state.to_bytes(), state.to_bytes());
}

#[test]
fn the_structs_have_the_sizes_of_the_header() {
    use raw::*;
    let sizes = [
        size_of::<CableowlState>(),
        size_of::<CableowlPlace>(),
        size_of::<CableowlRegion>(),
        size_of::<CableowlSettings>(),
        size_of::<CableowlCommands>(),
        size_of::<CableowlCreated>(),
        size_of::<CableowlCommanded>(),
        size_of::<CableowlProcessed>(),
    ];
    assert_eq!(sizes, [168, 24, 48, 152, 104, 176, 184, 184]);
    assert_eq!(version(), 2);
}
