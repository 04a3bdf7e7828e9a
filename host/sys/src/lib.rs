//! The C interface of the proved archive, as in `host/include/cableowl.h`: records of numbers by value, slices as a
//! pointer and a length. The build script links the archive. A function without `cableowl_` in its name calls the entry
//! of that name with slices, and is safe.
//!
//! Programs use the crate `cableowl`, which is built on this one.

/// The archive that this crate links, if it was built with one: C programs can link it too.
pub const LINKED_ARCHIVE: Option<&str> = option_env!("LINKED_ARCHIVE");

/// A window entry.
#[repr(C)]
#[derive(Debug, Clone, Copy, Default)]
pub struct Entry {
    pub left: f32,
    pub right: f32,
    pub number: u64,
}

/// A voice's state.
#[repr(C)]
#[derive(Debug, Clone, Copy, Default)]
pub struct State {
    pub sample_rate: u32,
    pub state: u32,
    pub reverse: u32,
    pub started: u32,
    pub playing: u32,
    pub has_slice: u32,
    pub has_loop: u32,
    pub count: u32,
    pub num_frames: u64,
    pub slice_start: u64,
    pub slice_end: u64,
    pub position: u64,
    pub loop_start: u64,
    pub loop_end: u64,
    pub playback_rate: f64,
    pub fraction: f64,
    pub window: [Entry; 4],
    pub forward_wraps: u32,
    pub backward_wraps: u32,
}

/// A position in a sound: kind 0 seconds, 1 samples, and for an end 2 the end of audio.
#[repr(C)]
#[derive(Debug, Clone, Copy, Default)]
pub struct Place {
    pub seconds: f64,
    pub samples: u64,
    pub kind: u32,
}

/// A part of a sound.
#[repr(C)]
#[derive(Debug, Clone, Copy, Default)]
pub struct Region {
    pub start: Place,
    pub end: Place,
}

/// The settings of a creation.
#[repr(C)]
#[derive(Debug, Clone, Copy, Default)]
pub struct Settings {
    pub sample_rate: u32,
    pub has_slice: u32,
    pub has_loop: u32,
    pub reverse: u32,
    pub start_waits: u32,
    pub playback_rate: f64,
    pub start: Place,
    pub slice: Region,
    pub loop_region: Region,
}

/// A command set.
#[repr(C)]
#[derive(Debug, Clone, Copy, Default)]
pub struct Commands {
    pub has_rate: u32,
    pub loop_command: u32,
    pub pause: u32,
    pub resume: u32,
    pub stop: u32,
    pub has_seek_by: u32,
    pub has_seek_to: u32,
    pub rate: f64,
    pub seek_by: f64,
    pub seek_to: f64,
    pub loop_region: Region,
}

/// A block's signals.
#[repr(C)]
#[derive(Debug, Clone, Copy, Default)]
pub struct Signals {
    pub finished: u32,
    pub start: u32,
    pub resume: u32,
    pub due: u32,
    pub now: u32,
}

/// What a creation returns.
#[repr(C)]
#[derive(Debug, Clone, Copy, Default)]
pub struct Created {
    pub state: State,
    pub refusal: u32,
}

/// What a command set returns.
#[repr(C)]
#[derive(Debug, Clone, Copy, Default)]
pub struct Commanded {
    pub state: State,
    pub position: f64,
    pub refusal: u32,
}

/// What a block returns.
#[repr(C)]
#[derive(Debug, Clone, Copy, Default)]
pub struct Processed {
    pub state: State,
    pub steps: u64,
    pub refusal: u32,
    pub lowest_count: u32,
}

/// A part of the sound's samples.
#[repr(C)]
#[derive(Debug, Clone, Copy, Default, PartialEq, Eq)]
pub struct Part {
    pub offset: u64,
    pub length: u64,
}

/// A loop of the table in frames; both 0 in an empty slot.
#[repr(C)]
#[derive(Debug, Clone, Copy, Default, PartialEq, Eq)]
pub struct LoopSlot {
    pub start: u64,
    pub end: u64,
}

/// The table of loops.
#[repr(C)]
#[derive(Debug, Clone, Copy, Default, PartialEq, Eq)]
pub struct LoopTable {
    pub num_frames: u64,
    pub slots: [LoopSlot; 16],
}

/// What a write or a clear returns.
#[repr(C)]
#[derive(Debug, Clone, Copy)]
pub struct LoopChanged {
    pub table: LoopTable,
    pub refusal: u32,
}

/// What a read returns.
#[repr(C)]
#[derive(Debug, Clone, Copy)]
pub struct LoopFound {
    pub slot: LoopSlot,
    pub refusal: u32,
}

/// A copy of a loop table, with each hall's number of changes.
#[repr(C)]
#[derive(Debug, Clone, Copy, Default, PartialEq, Eq)]
pub struct LoopCopy {
    pub table: LoopTable,
    pub changes_a: u64,
    pub changes_b: u64,
}

/// What a write, a clear or a merge of a copy returns.
#[repr(C)]
#[derive(Debug, Clone, Copy)]
pub struct CopyChanged {
    pub copy: LoopCopy,
    pub refusal: u32,
}

/// The borrowed lanes of one block.
#[derive(Debug, Clone, Copy)]
pub struct Lanes<'a> {
    pub fade: &'a [f32],
    pub volume: &'a [f32],
    pub left: &'a [f32],
    pub right: &'a [f32],
    pub rate: &'a [f64],
}

/// The five numbers that apply to every frame of a block.
#[derive(Debug, Clone, Copy)]
pub struct Held {
    pub fade: f32,
    pub volume: f32,
    pub left: f32,
    pub right: f32,
    pub rate: f64,
}

unsafe extern "C" {
    pub safe fn cableowl_version() -> u32;

    pub fn cableowl_new(settings: Settings, sound: *const f32, sound_len: usize) -> Created;

    pub fn cableowl_on_start_processing(
        state: State,
        sound: *const f32,
        sound_len: usize,
        commands: Commands,
    ) -> Commanded;

    pub fn cableowl_process(
        state: State,
        sound: *const f32,
        sound_len: usize,
        fade: *const f32,
        fade_len: usize,
        volume: *const f32,
        volume_len: usize,
        left: *const f32,
        left_len: usize,
        right: *const f32,
        right_len: usize,
        rate: *const f64,
        rate_len: usize,
        dt: f64,
        signals: Signals,
        out: *mut f32,
        out_len: usize,
    ) -> Processed;

    pub fn cableowl_process_into(
        state: State,
        sound: *const f32,
        sound_len: usize,
        fade: *const f32,
        fade_len: usize,
        volume: *const f32,
        volume_len: usize,
        left: *const f32,
        left_len: usize,
        right: *const f32,
        right_len: usize,
        rate: *const f64,
        rate_len: usize,
        dt: f64,
        signals: Signals,
        mix: *mut f32,
        mix_len: usize,
        from: u64,
    ) -> Processed;

    pub fn cableowl_process_held(
        state: State,
        sound: *const f32,
        sound_len: usize,
        fade: f32,
        volume: f32,
        left: f32,
        right: f32,
        rate: f64,
        dt: f64,
        signals: Signals,
        out: *mut f32,
        out_len: usize,
    ) -> Processed;

    pub fn cableowl_process_held_into(
        state: State,
        sound: *const f32,
        sound_len: usize,
        fade: f32,
        volume: f32,
        left: f32,
        right: f32,
        rate: f64,
        dt: f64,
        signals: Signals,
        mix: *mut f32,
        mix_len: usize,
        from: u64,
        frames: u64,
    ) -> Processed;

    pub fn cableowl_stretch(state: State, sound: *const f32, sound_len: usize) -> Part;

    pub safe fn cableowl_loop_table(num_frames: u64) -> LoopTable;

    pub safe fn cableowl_write_loop(
        table: LoopTable,
        hall: u32,
        slot: u64,
        start: u64,
        end: u64,
    ) -> LoopChanged;

    pub safe fn cableowl_clear_loop(table: LoopTable, hall: u32, slot: u64) -> LoopChanged;

    pub safe fn cableowl_read_loop(table: LoopTable, slot: u64) -> LoopFound;

    pub safe fn cableowl_loop_copy(num_frames: u64) -> LoopCopy;

    pub safe fn cableowl_write_copy(
        copy: LoopCopy,
        hall: u32,
        slot: u64,
        start: u64,
        end: u64,
    ) -> CopyChanged;

    pub safe fn cableowl_clear_copy(copy: LoopCopy, hall: u32, slot: u64) -> CopyChanged;

    pub safe fn cableowl_merge_copies(ours: LoopCopy, theirs: LoopCopy) -> CopyChanged;

    pub fn cableowl_take_loop(
        table: LoopTable,
        slot: u64,
        state: State,
        sound: *const f32,
        sound_len: usize,
    ) -> Commanded;
}

// SAFETY, for every call below: each pointer comes with the length of the same slice, which is borrowed for the call.
// The archive keeps no pointer, reads only within those lengths, and writes only within `&mut` slices, which nothing
// else borrows. Every number is accepted as input.

#[inline]
pub fn version() -> u32 {
    cableowl_version()
}

#[inline]
pub fn new(settings: Settings, sound: &[f32]) -> Created {
    unsafe { cableowl_new(settings, sound.as_ptr(), sound.len()) }
}

#[inline]
pub fn on_start_processing(state: State, sound: &[f32], commands: Commands) -> Commanded {
    unsafe { cableowl_on_start_processing(state, sound.as_ptr(), sound.len(), commands) }
}

#[inline]
pub fn process(
    state: State,
    sound: &[f32],
    lanes: Lanes,
    dt: f64,
    signals: Signals,
    out: &mut [f32],
) -> Processed {
    unsafe {
        cableowl_process(
            state,
            sound.as_ptr(),
            sound.len(),
            lanes.fade.as_ptr(),
            lanes.fade.len(),
            lanes.volume.as_ptr(),
            lanes.volume.len(),
            lanes.left.as_ptr(),
            lanes.left.len(),
            lanes.right.as_ptr(),
            lanes.right.len(),
            lanes.rate.as_ptr(),
            lanes.rate.len(),
            dt,
            signals,
            out.as_mut_ptr(),
            out.len(),
        )
    }
}

#[inline]
pub fn process_into(
    state: State,
    sound: &[f32],
    lanes: Lanes,
    dt: f64,
    signals: Signals,
    mix: &mut [f32],
    from: u64,
) -> Processed {
    unsafe {
        cableowl_process_into(
            state,
            sound.as_ptr(),
            sound.len(),
            lanes.fade.as_ptr(),
            lanes.fade.len(),
            lanes.volume.as_ptr(),
            lanes.volume.len(),
            lanes.left.as_ptr(),
            lanes.left.len(),
            lanes.right.as_ptr(),
            lanes.right.len(),
            lanes.rate.as_ptr(),
            lanes.rate.len(),
            dt,
            signals,
            mix.as_mut_ptr(),
            mix.len(),
            from,
        )
    }
}

#[inline]
pub fn process_held(
    state: State,
    sound: &[f32],
    held: Held,
    dt: f64,
    signals: Signals,
    out: &mut [f32],
) -> Processed {
    unsafe {
        cableowl_process_held(
            state,
            sound.as_ptr(),
            sound.len(),
            held.fade,
            held.volume,
            held.left,
            held.right,
            held.rate,
            dt,
            signals,
            out.as_mut_ptr(),
            out.len(),
        )
    }
}

#[inline]
#[expect(clippy::too_many_arguments, reason = "those of the C entry")]
pub fn process_held_into(
    state: State,
    sound: &[f32],
    held: Held,
    dt: f64,
    signals: Signals,
    mix: &mut [f32],
    from: u64,
    frames: u64,
) -> Processed {
    unsafe {
        cableowl_process_held_into(
            state,
            sound.as_ptr(),
            sound.len(),
            held.fade,
            held.volume,
            held.left,
            held.right,
            held.rate,
            dt,
            signals,
            mix.as_mut_ptr(),
            mix.len(),
            from,
            frames,
        )
    }
}

#[inline]
pub fn stretch(state: State, sound: &[f32]) -> Part {
    unsafe { cableowl_stretch(state, sound.as_ptr(), sound.len()) }
}

#[inline]
pub fn loop_table(num_frames: u64) -> LoopTable {
    cableowl_loop_table(num_frames)
}

#[inline]
pub fn write_loop(table: LoopTable, hall: u32, slot: u64, start: u64, end: u64) -> LoopChanged {
    cableowl_write_loop(table, hall, slot, start, end)
}

#[inline]
pub fn clear_loop(table: LoopTable, hall: u32, slot: u64) -> LoopChanged {
    cableowl_clear_loop(table, hall, slot)
}

#[inline]
pub fn read_loop(table: LoopTable, slot: u64) -> LoopFound {
    cableowl_read_loop(table, slot)
}

#[inline]
pub fn loop_copy(num_frames: u64) -> LoopCopy {
    cableowl_loop_copy(num_frames)
}

#[inline]
pub fn write_copy(copy: LoopCopy, hall: u32, slot: u64, start: u64, end: u64) -> CopyChanged {
    cableowl_write_copy(copy, hall, slot, start, end)
}

#[inline]
pub fn clear_copy(copy: LoopCopy, hall: u32, slot: u64) -> CopyChanged {
    cableowl_clear_copy(copy, hall, slot)
}

#[inline]
pub fn merge_copies(ours: LoopCopy, theirs: LoopCopy) -> CopyChanged {
    cableowl_merge_copies(ours, theirs)
}

#[inline]
pub fn take_loop(table: LoopTable, slot: u64, state: State, sound: &[f32]) -> Commanded {
    unsafe { cableowl_take_loop(table, slot, state, sound.as_ptr(), sound.len()) }
}

// Levels and fades: plain numbers and one borrowed lane.
unsafe extern "C" {
    pub fn cableowl_amplitude(level: u32, to: *mut f32) -> u32;

    pub fn cableowl_fade_ramp(
        start: u32,
        end: u32,
        count: u32,
        lane: *mut f32,
        lane_len: usize,
    ) -> u32;
}

#[inline]
pub fn amplitude(level: u32, to: &mut f32) -> u32 {
    unsafe { cableowl_amplitude(level, to) }
}

#[inline]
pub fn fade_ramp(start: u32, end: u32, count: u32, lane: &mut [f32]) -> u32 {
    unsafe { cableowl_fade_ramp(start, end, count, lane.as_mut_ptr(), lane.len()) }
}

/// Saved settings: eight words.
#[repr(C)]
#[derive(Debug, Clone, Copy, Default)]
pub struct SavedSettings {
    pub start: u64,
    pub has_loop: u64,
    pub loop_start: u64,
    pub loop_end: u64,
    pub reverse: u64,
    pub playback_rate: f64,
    pub pitch: i64,
    pub version: u64,
}

unsafe extern "C" {
    pub fn cableowl_store_settings(
        saved: *const SavedSettings,
        buffer: *mut u8,
        buffer_len: usize,
    ) -> u32;

    pub fn cableowl_load_settings(
        reader: u32,
        bytes: *const u8,
        bytes_len: usize,
        saved: *mut SavedSettings,
    ) -> u32;

    pub fn cableowl_settings_of(saved: *const SavedSettings, sample_rate: u32) -> Settings;
}

#[inline]
pub fn store_settings(saved: &SavedSettings, buffer: &mut [u8]) -> u32 {
    unsafe { cableowl_store_settings(saved, buffer.as_mut_ptr(), buffer.len()) }
}

#[inline]
pub fn load_settings(reader: u32, bytes: &[u8], saved: &mut SavedSettings) -> u32 {
    unsafe { cableowl_load_settings(reader, bytes.as_ptr(), bytes.len(), saved) }
}

#[inline]
pub fn settings_of(saved: &SavedSettings, sample_rate: u32) -> Settings {
    unsafe { cableowl_settings_of(saved, sample_rate) }
}

/// A hall's half of a loop table: nineteen words.
#[repr(C)]
#[derive(Debug, Clone, Copy, Default, PartialEq, Eq)]
pub struct LoopHalf {
    pub hall: u64,
    pub num_frames: u64,
    pub changes: u64,
    pub slots: [LoopSlot; 8],
}

unsafe extern "C" {
    pub fn cableowl_store_half(
        half: *const LoopHalf,
        names: *const u8,
        names_len: usize,
        buffer: *mut u8,
        buffer_len: usize,
    ) -> u32;

    pub fn cableowl_load_half(bytes: *const u8, bytes_len: usize, half: *mut LoopHalf) -> u32;
}

#[inline]
pub fn store_half(half: &LoopHalf, names: &[u8], buffer: &mut [u8]) -> u32 {
    let (room, size) = (buffer.as_mut_ptr(), buffer.len());
    unsafe { cableowl_store_half(half, names.as_ptr(), names.len(), room, size) }
}

#[inline]
pub fn load_half(bytes: &[u8], half: &mut LoopHalf) -> u32 {
    unsafe { cableowl_load_half(bytes.as_ptr(), bytes.len(), half) }
}

/// A record of a trace: its kind and its numbers in the order of docs/formats/TRACE.md.
#[repr(C)]
#[derive(Debug, Clone, Copy, PartialEq, Eq)]
pub struct Record {
    pub refusal: u64,
    pub kind: u64,
    pub next: u64,
    pub values: [u64; 80],
}

/// What a write of a record returns.
#[repr(C)]
#[derive(Debug, Clone, Copy, Default, PartialEq, Eq)]
pub struct Sent {
    pub refusal: u64,
    pub next: u64,
}

/// What a salvage returns.
#[repr(C)]
#[derive(Debug, Clone, Copy, Default, PartialEq, Eq)]
pub struct Saved {
    pub refusal: u64,
    pub records: u64,
    pub skipped: u64,
    pub first: u64,
}

unsafe extern "C" {
    pub fn cableowl_read_record(bytes: *const u8, bytes_len: usize, at: u64) -> Record;

    pub fn cableowl_write_record(
        buffer: *mut u8,
        buffer_len: usize,
        at: u64,
        kind: u64,
        values: *const u64,
    ) -> Sent;

    pub fn cableowl_salvage(
        bytes: *const u8,
        bytes_len: usize,
        out: *mut u8,
        out_len: usize,
    ) -> Saved;

    pub fn cableowl_read_record_v2(bytes: *const u8, bytes_len: usize, at: u64) -> Record;

    pub fn cableowl_write_record_v2(
        buffer: *mut u8,
        buffer_len: usize,
        at: u64,
        kind: u64,
        values: *const u64,
        lanes: *const u8,
        lanes_len: usize,
    ) -> Sent;

    pub fn cableowl_salvage_v2(
        bytes: *const u8,
        bytes_len: usize,
        out: *mut u8,
        out_len: usize,
    ) -> Saved;
}

#[inline]
pub fn read_record(bytes: &[u8], at: u64) -> Record {
    unsafe { cableowl_read_record(bytes.as_ptr(), bytes.len(), at) }
}

#[inline]
pub fn write_record(buffer: &mut [u8], at: u64, kind: u64, values: &[u64; 80]) -> Sent {
    unsafe { cableowl_write_record(buffer.as_mut_ptr(), buffer.len(), at, kind, values.as_ptr()) }
}

#[inline]
pub fn salvage(bytes: &[u8], out: &mut [u8]) -> Saved {
    unsafe { cableowl_salvage(bytes.as_ptr(), bytes.len(), out.as_mut_ptr(), out.len()) }
}

/// A record of version 2. The lanes of a laned block stay in the bytes: the `24 * frames` bytes before the last four of
/// the record.
#[inline]
pub fn read_record_v2(bytes: &[u8], at: u64) -> Record {
    unsafe { cableowl_read_record_v2(bytes.as_ptr(), bytes.len(), at) }
}

#[inline]
pub fn write_record_v2(
    buffer: &mut [u8],
    at: u64,
    kind: u64,
    values: &[u64; 80],
    lanes: &[u8],
) -> Sent {
    let (room, size) = (buffer.as_mut_ptr(), buffer.len());
    unsafe {
        cableowl_write_record_v2(
            room,
            size,
            at,
            kind,
            values.as_ptr(),
            lanes.as_ptr(),
            lanes.len(),
        )
    }
}

#[inline]
pub fn salvage_v2(bytes: &[u8], out: &mut [u8]) -> Saved {
    unsafe { cableowl_salvage_v2(bytes.as_ptr(), bytes.len(), out.as_mut_ptr(), out.len()) }
}

/// A replay of a trace: the voice, the samples of its sound, the blocks counted, the next record's offset.
#[repr(C)]
#[derive(Debug, Clone, Copy)]
pub struct Replay {
    pub voice: State,
    pub samples: u64,
    pub blocks: u64,
    pub offset: u64,
    pub reader: u32,
    pub given: u32,
}

/// What a step of a replay did.
#[repr(C)]
#[derive(Debug, Clone, Copy)]
pub struct Replayed {
    pub replay: Replay,
    pub size: u64,
    pub frames: u64,
    pub steps: u64,
    pub what: u64,
    pub kind: u64,
    pub refusal: u64,
    pub lowest_count: u64,
}

unsafe extern "C" {
    safe fn cableowl_replay() -> Replay;

    fn cableowl_replay_step(
        replay: Replay,
        bytes: *const u8,
        bytes_len: usize,
        ended: u32,
        sound: *mut f32,
        sound_len: usize,
        out: *mut f32,
        out_len: usize,
    ) -> Replayed;

    safe fn cableowl_replay_v2() -> Replay;

    fn cableowl_replay_step_v2(
        replay: Replay,
        bytes: *const u8,
        bytes_len: usize,
        ended: u32,
        sound: *mut f32,
        sound_len: usize,
        given: *const f32,
        given_len: usize,
        sounds: u32,
        out: *mut f32,
        out_len: usize,
    ) -> Replayed;
}

#[inline]
pub fn replay() -> Replay {
    cableowl_replay()
}

#[inline]
pub fn replay_v2() -> Replay {
    cableowl_replay_v2()
}

#[inline]
pub fn replay_step(
    replay: Replay,
    bytes: &[u8],
    ended: bool,
    sound: &mut [f32],
    out: &mut [f32],
) -> Replayed {
    unsafe {
        cableowl_replay_step(
            replay,
            bytes.as_ptr(),
            bytes.len(),
            ended.into(),
            sound.as_mut_ptr(),
            sound.len(),
            out.as_mut_ptr(),
            out.len(),
        )
    }
}

/// `sounds` is 0 if no sound is given, 1 if `given` has the recorded digest, 2 if no given sound has it.
#[inline]
pub fn replay_step_v2(
    replay: Replay,
    bytes: &[u8],
    ended: bool,
    sound: &mut [f32],
    given: &[f32],
    sounds: u32,
    out: &mut [f32],
) -> Replayed {
    unsafe {
        cableowl_replay_step_v2(
            replay,
            bytes.as_ptr(),
            bytes.len(),
            ended.into(),
            sound.as_mut_ptr(),
            sound.len(),
            given.as_ptr(),
            given.len(),
            sounds,
            out.as_mut_ptr(),
            out.len(),
        )
    }
}
