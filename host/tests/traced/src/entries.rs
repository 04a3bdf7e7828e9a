//! The compiled readers, writers and salvages, through their C entries; those of version 2 end in `_v2`.

pub use cableowl_sys::{
    Record as Read, Saved, Sent, read_record as read, read_record_v2 as read_v2, salvage,
    salvage_v2, write_record as write, write_record_v2 as write_v2,
};
