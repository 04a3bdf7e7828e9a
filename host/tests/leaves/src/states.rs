//! The seven states by their numbers. A number above 6 counts as 6, and an answer above 2 as 2.

pub use crate::calls::{
    cableowl_test_is_advancing as is_advancing, cableowl_test_mark_as_stopped as mark_as_stopped,
    cableowl_test_number as number, cableowl_test_pause as pause, cableowl_test_resume as resume,
    cableowl_test_stop as stop, cableowl_test_update as update,
};
