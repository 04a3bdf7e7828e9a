/* Cableowl: kira's static sound, proved. The C interface of the archive libcableowl.a, which
 * `make archive` writes for Linux on x86-64 or Arm (aarch64).
 *
 * Every call accepts any numbers and refuses bad ones with a number (0: accepted). A refused call
 * returns the state that it was given, byte for byte (creation: the blank state), and writes nothing.
 * No call allocates, waits or keeps a pointer. A pointer must lead to as many elements as the length
 * after it says, and what a call writes must not overlap what it reads.
 *
 *  1  the state is not well formed, or the sound's length is not the one that the state records
 *  2  sample rate 0 or above 768,000
 *  3  sample count odd, or frames 0 or above 16,777,216
 *  4  slice not start < end <= frames, or seconds not finite
 *  5  start not below N (the slice's frames, or all), or seconds not finite
 *  6  loop not start < end <= N, or seconds not finite
 *  7  playback rate not finite
 *  8  seek amount not finite, or it goes to frame 4,294,967,296 or further
 *  9  block above 4,096 frames, lanes of another length, output odd, or too little space in the mix
 * 10  time step not finite or not above 0
 * 11  an amplitude or gain not finite or with its sign bit set, or a lane rate not finite
 * 12  an advance, (sample rate * |lane rate|) * time step, above 256
 * 13  a level above 601
 * 14  a ramp's count 0 or above 65,536, or not its lane's length
 * 15  bytes that do not begin with the mark of a record
 * 16  a trace record of an unknown kind; version 1 knows kinds 1 to 3, version 2 kinds 1 to 5
 * 17  a trace record with a length that its kind cannot have, a wrong tag, a number above its limit, fields that do not
 *     end where the length says, or a wrong checksum; in writing, a field above its limit or lanes of a wrong length
 * 18  bytes that end inside a record
 * 19  a buffer with too little space for a record
 * 20  loop table: slot above 15
 * 21  loop table: a write or a clear by the other hall
 * 22  loop table: a read of an empty slot
 * 23  saved settings or a hall's loops of a version that the reader does not know
 * 24  a field of saved settings or of a hall's loops wrong, their length, or the CRC
 * 25  salvage: an output shorter than the input
 * 26  replay of a trace: sounds are given and none is the recorded one
 * 27  two copies of a loop table are over sounds of different frame counts
 * 28  two copies of a loop table have the same number of changes for a hall and different slots
 * 29  only in the Rust crate's player: a seek when 64 already wait for the next frame; no C call returns it
 *
 * If several numbers apply, a call returns the first of its list:
 *
 *   creation 2 to 7; a command set 1, 6 to 8; a block 1, 9 to 12; a fade ramp 13, 14;
 *   a loop table: a write 1, 6, 20, 21; a clear 1, 20, 21; a read 1, 20, 22; a merge of two copies 1, 27, 28;
 *   saved settings, or a half: storing 24, 19; loading 15, 23, 24 (the length), 18, 24 (a field);
 *   a trace: a read 15 to 18, byte by byte in reading order; a write 16, 17, 19; a salvage 25;
 *   a step of a replay 1, 19; in it, a creation over a given sound 26, then 2 to 7.
 *
 * The float mode. The promises hold in the mode in which a program begins: round to nearest, keep
 * subnormals (x86-64: neither FTZ nor DAZ; Arm: no FZ), mask exceptions. Audio hosts often flush
 * subnormals on the callback thread. Set the mode around each call there, or around all calls of a
 * callback, which costs less:
 *
 *     const CableowlFloatMode given = cableowl_float_mode_hold();
 *     ... calls ...
 *     cableowl_float_mode_give_back(given);
 *
 * In another mode with exceptions masked a call still returns and stays inside its buffers, but its
 * frames and even a refusal may differ: subnormal samples are lost, a held rate of -5e-324 plays
 * forward, and a state with a subnormal where there must be silence is accepted.
 *
 * The held rate gives only the direction; the rate lane gives the speed of each frame. Pause and stop
 * do not fade by themselves: the host passes a falling fade lane and then the signal `finished`.
 */
#ifndef CABLEOWL_H
#define CABLEOWL_H

#include <stddef.h>
#include <stdint.h>

#if defined(__x86_64__)
#include <xmmintrin.h>
#endif

#ifdef __cplusplus
extern "C" {
#endif

/* The version of this interface, which cableowl_version() returns. New since version 1: lowest_count in
 * CableowlProcessed; due, now and the start 3 (due at a tick) in CableowlSignals; forward_wraps and
 * backward_wraps in CableowlState. */
#define CABLEOWL_VERSION 2

/* The limits. */
#define CABLEOWL_MAX_SAMPLE_RATE 768000
#define CABLEOWL_MAX_FRAMES 16777216
#define CABLEOWL_MAX_BLOCK_FRAMES 4096
#define CABLEOWL_MAX_ADVANCE 256
#define CABLEOWL_MAX_RAMP_FRAMES 65536

/* The refusals. */
enum {
    CABLEOWL_ACCEPTED = 0,
    CABLEOWL_REFUSAL_STATE = 1,
    CABLEOWL_REFUSAL_SAMPLE_RATE = 2,
    CABLEOWL_REFUSAL_FRAME_COUNT = 3,
    CABLEOWL_REFUSAL_SLICE = 4,
    CABLEOWL_REFUSAL_START_POSITION = 5,
    CABLEOWL_REFUSAL_LOOP_REGION = 6,
    CABLEOWL_REFUSAL_PLAYBACK_RATE = 7,
    CABLEOWL_REFUSAL_SEEK = 8,
    CABLEOWL_REFUSAL_BLOCK = 9,
    CABLEOWL_REFUSAL_TIME_STEP = 10,
    CABLEOWL_REFUSAL_LANE = 11,
    CABLEOWL_REFUSAL_ADVANCE = 12,
    CABLEOWL_REFUSAL_LEVEL = 13,
    CABLEOWL_REFUSAL_RAMP = 14,
    CABLEOWL_REFUSAL_MARK = 15,
    CABLEOWL_REFUSAL_KIND = 16,
    CABLEOWL_REFUSAL_RECORD = 17,
    CABLEOWL_REFUSAL_TRUNCATED = 18,
    CABLEOWL_REFUSAL_ROOM = 19,
    CABLEOWL_REFUSAL_LOOP_SLOT = 20,
    CABLEOWL_REFUSAL_OTHER_HALL = 21,
    CABLEOWL_REFUSAL_EMPTY_SLOT = 22,
    CABLEOWL_REFUSAL_VERSION = 23,
    CABLEOWL_REFUSAL_SAVED_FIELD = 24,
    CABLEOWL_REFUSAL_OUTPUT = 25,
    CABLEOWL_REFUSAL_OTHER_SOUND = 26,
    CABLEOWL_REFUSAL_OTHER_FRAMES = 27,
    CABLEOWL_REFUSAL_TWO_HALVES = 28
};

/* The playback state: CableowlState's state. */
enum {
    CABLEOWL_STATE_PLAYING = 0,
    CABLEOWL_STATE_PAUSING = 1,
    CABLEOWL_STATE_PAUSED = 2,
    CABLEOWL_STATE_WAITING_TO_RESUME = 3,
    CABLEOWL_STATE_RESUMING = 4,
    CABLEOWL_STATE_STOPPING = 5,
    CABLEOWL_STATE_STOPPED = 6
};

/* CableowlPlace's kind. */
enum { CABLEOWL_PLACE_SECONDS = 0, CABLEOWL_PLACE_SAMPLES = 1, CABLEOWL_PLACE_END_OF_AUDIO = 2 };

/* CableowlCommands' loop_command and resume. */
enum { CABLEOWL_LOOP_KEEP = 0, CABLEOWL_LOOP_CLEAR = 1, CABLEOWL_LOOP_SET = 2 };
enum { CABLEOWL_RESUME_NO = 0, CABLEOWL_RESUME_AT_ONCE = 1, CABLEOWL_RESUME_WAITING = 2 };

/* CableowlSignals' start and resume. Only the start can also be due at a tick. */
enum { CABLEOWL_ANSWER_WAITING = 0, CABLEOWL_ANSWER_NOW = 1, CABLEOWL_ANSWER_NEVER = 2 };
enum { CABLEOWL_START_TICK = 3 };

/* An entry of the window of four: a frame and its frame index. */
typedef struct CableowlEntry {
    float left;
    float right;
    uint64_t number;
} CableowlEntry;

/* A voice's whole state. Save it as it is and change nothing, or a call may refuse it with 1.
 *
 * The wraps count the steps that wrapped round the loop, creation's three steps included. A step counts once, however
 * many loop lengths it covers. Seeks do not count, and no command clears the counts. A count stays at 4,294,967,295, and
 * any two counts are well formed. The direction is the one in which the position moves: reverse at rate 1 counts
 * backward. In a forward block inside a loop of L frames: position after = position before + steps - L * wraps. */
typedef struct CableowlState {
    uint32_t sample_rate;
    uint32_t state; /* 0 playing, 1 pausing, 2 paused, 3 waiting to resume, 4 resuming, 5 stopping, 6 stopped */
    uint32_t reverse;   /* this and the next four: 0 or 1 */
    uint32_t started;
    uint32_t playing;
    uint32_t has_slice; /* if 0, the slice's two numbers are 0 */
    uint32_t has_loop;  /* if 0, the loop's two numbers are 0 */
    uint32_t count;     /* the window's count, 0 to 4 */
    uint64_t num_frames;
    uint64_t slice_start;
    uint64_t slice_end;
    uint64_t position;
    uint64_t loop_start;
    uint64_t loop_end;
    double playback_rate;
    double fraction;
    CableowlEntry window[4];
    uint32_t forward_wraps;
    uint32_t backward_wraps;
} CableowlState;

/* A position in a sound. The number that the kind does not name is ignored. */
typedef struct CableowlPlace {
    double seconds;
    uint64_t samples; /* frames */
    uint32_t kind;    /* 0 seconds, 1 samples; for an end also 2, the end of audio */
} CableowlPlace;

/* A part of a sound; the end is exclusive. */
typedef struct CableowlRegion {
    CableowlPlace start;
    CableowlPlace end;
} CableowlRegion;

/* How to create a voice. A slice or loop that is absent is not read. */
typedef struct CableowlSettings {
    uint32_t sample_rate;
    uint32_t has_slice; /* 0 absent, 1 given, any other 4 */
    uint32_t has_loop;  /* 0 absent, 1 given, any other 6 */
    uint32_t reverse;     /* 0 no, any other yes */
    uint32_t start_waits; /* 0 no, any other yes */
    double playback_rate;
    CableowlPlace start;
    CableowlRegion slice;
    CableowlRegion loop_region;
} CableowlSettings;

/* A command set; all zeros is the empty set. Order: rate, loop, pause, resume, stop, seek_by, seek_to. */
typedef struct CableowlCommands {
    uint32_t has_rate;     /* 0 absent, 1 given, any other 7 */
    uint32_t loop_command; /* 0 keep, 1 clear, 2 set, any other 6 */
    uint32_t pause;        /* 0 no, any other yes */
    uint32_t resume;       /* 0 no, 1 at once, any other waits */
    uint32_t stop;         /* 0 no, any other yes */
    uint32_t has_seek_by;  /* 0 absent, 1 given, any other 8 */
    uint32_t has_seek_to;  /* 0 absent, 1 given, any other 8 */
    double rate;
    double seek_by; /* seconds */
    double seek_to; /* seconds */
    CableowlRegion loop_region;
} CableowlCommands;

/* A block's signals; all zeros is no signals.
 *
 * A start of 3 is due at a 32-bit tick, which may wrap. It means "now" if now - due, in uint32_t, is below
 * 2147483648, and otherwise "still waiting". So a tick that is due at most half the range ahead is waited
 * for, and one that is due further ahead counts as reached. At 1,000 ticks per second half the range is 24
 * days, 20 hours, 31 minutes and 23.648 seconds. A start that has come stays, even if the tick goes back.
 * If you cut a block in two, pass both parts the same tick.
 */
typedef struct CableowlSignals {
    uint32_t finished; /* the fade has finished: 0 no, any other yes */
    uint32_t start;    /* 1 now, 2 never, 3 by the tick, any other still waiting */
    uint32_t resume;   /* 1 now, 2 never, any other still waiting */
    uint32_t due;      /* if start is 3: the tick at which it is due */
    uint32_t now;      /* if start is 3: the current tick */
} CableowlSignals;

typedef struct CableowlCreated {
    CableowlState state;
    uint32_t refusal;
} CableowlCreated;

typedef struct CableowlCommanded {
    CableowlState state;
    double position; /* in seconds, read before the commands */
    uint32_t refusal;
} CableowlCommanded;

/* For a monitor: a lowest_count of 4 means that at every read of the block the newest entry was a frame of
 * the sound. A count t below 4 means that at one of its reads 4 - t pushes had been made without a frame
 * (0: at least four), because the transport had ended: the silence is the sound's end, not a gap. For a
 * block cut in two it is the smaller of the two counts, unless the voice had stopped by the cut. */
typedef struct CableowlProcessed {
    CableowlState state;
    uint64_t steps; /* the number of frames that the transport stepped */
    uint32_t refusal;
    uint32_t lowest_count; /* the lowest window count that was read; 4 for 0 frames, silent or refused */
} CableowlProcessed;

/* A part of the sound's samples; both numbers count samples, two per frame. */
typedef struct CableowlPart {
    uint64_t offset;
    uint64_t length;
} CableowlPart;

/* A loop of the table, in frames; the end is exclusive. In an empty slot both are 0. */
typedef struct CableowlLoopSlot {
    uint64_t start;
    uint64_t end;
} CableowlLoopSlot;

/* Sixteen loops over one sound. Hall A writes slots 0 to 7, hall B writes 8 to 15, and both read all. If any slot is
 * neither empty nor start < end <= num_frames, every call refuses the table with 1. */
typedef struct CableowlLoopTable {
    uint64_t num_frames; /* of the whole sound; each loop must lie inside */
    CableowlLoopSlot slots[16];
} CableowlLoopTable;

typedef struct CableowlLoopChanged {
    CableowlLoopTable table; /* if refused: the given one */
    uint32_t refusal;
} CableowlLoopChanged;

typedef struct CableowlLoopFound {
    CableowlLoopSlot slot; /* if refused: both 0 */
    uint32_t refusal;
} CableowlLoopFound;

/* A copy of a loop table, for two boxes that share no memory: the table, and how many writes and clears each hall has
 * made. Each hall changes its half at one box only, so the half with the larger number is the newer one. */
typedef struct CableowlLoopCopy {
    CableowlLoopTable table;
    uint64_t changes_a;
    uint64_t changes_b;
} CableowlLoopCopy;

typedef struct CableowlCopyChanged {
    CableowlLoopCopy copy; /* if refused: the given one */
    uint32_t refusal;
} CableowlCopyChanged;

/* The settings that a tutor saves for a sound, eight words: docs/formats/SETTINGS.md. */
typedef struct CableowlSavedSettings {
    uint64_t start;      /* frames, below 2^32 */
    uint64_t has_loop;   /* 0 none, then both numbers are 0; 1 given */
    uint64_t loop_start; /* frames */
    uint64_t loop_end;   /* frames, exclusive, below 2^32 */
    uint64_t reverse;    /* 0 or 1 */
    double playback_rate;
    int64_t pitch;    /* whole semitones, -24 to 24; 0 in version 1 */
    uint64_t version; /* 1 or 2 */
} CableowlSavedSettings;

/* What one hall has written of a loop table: docs/formats/LOOPS.md. Nineteen words. Its slots are slots 0 to 7 of a
 * CableowlLoopTable if the hall is 0, and 8 to 15 if it is 1; `changes` is the copy's changes_a or changes_b. */
typedef struct CableowlLoopHalf {
    uint64_t hall; /* 0 for A, 1 for B */
    uint64_t num_frames;
    uint64_t changes;
    CableowlLoopSlot slots[8];
} CableowlLoopHalf;

/* CableowlRecord's kind: docs/formats/TRACE.md. The last two are in version 2 only. */
enum {
    CABLEOWL_KIND_CREATION = 1,
    CABLEOWL_KIND_COMMANDS = 2,
    CABLEOWL_KIND_BLOCK = 3,
    CABLEOWL_KIND_GIVEN_CREATION = 4,
    CABLEOWL_KIND_LANES = 5
};

/* A record of a trace. Its numbers are in the order of docs/formats/TRACE.md, floats by their bits. Each field has a
 * number, and an absent one is 0: a creation has 77 (13, then the 64 frames of the sound, the left sample in the low
 * half), a command set 12, a block 10. A creation over a given sound has 17 (12, the frame count, then the digest in
 * four numbers, its first byte the lowest), a block with lanes 5; its lanes are no numbers. The numbers after them are 0. */
typedef struct CableowlRecord {
    uint64_t refusal;
    uint64_t kind;       /* if refused: 0 */
    uint64_t next;       /* the offset after the record, where the next one begins; if refused: the given offset */
    uint64_t values[80]; /* if refused: all 0 */
} CableowlRecord;

/* What a write of a record returns. */
typedef struct CableowlSent {
    uint64_t refusal;
    uint64_t next; /* the offset after the record, where the next one goes; if refused: the given offset */
} CableowlSent;

/* What salvage returns. If refused, all other numbers are 0. */
typedef struct CableowlSaved {
    uint64_t refusal;
    uint64_t records; /* kept; they are the first bytes_len - skipped bytes of the output */
    uint64_t skipped; /* bytes that are in no kept record */
    uint64_t first;   /* the offset of the first skipped byte; bytes_len if none */
} CableowlSaved;

/* A replay of a trace. Begin with cableowl_replay() or cableowl_replay_v2(), and pass each step the replay that the step before
 * it returned. */
typedef struct CableowlReplay {
    CableowlState voice; /* before any creation, and after a refused one, the blank state */
    uint64_t samples;    /* how many samples of its buffer, `sound` or `given`, are the voice's sound */
    uint64_t blocks;     /* counted so far, refused ones too; no creation resets it */
    uint64_t offset;     /* the offset of the next record in the trace */
    uint32_t reader;     /* the version of the traces that are read: 1 or 2 */
    uint32_t given;      /* 0: the voice plays the recorded sound; 1, only in version 2: the given one */
} CableowlReplay;

/* CableowlReplayed's what. */
enum {
    CABLEOWL_REPLAY_PLAYED = 0,
    CABLEOWL_REPLAY_MORE = 1,
    CABLEOWL_REPLAY_END = 2,
    CABLEOWL_REPLAY_BROKEN = 3,
    CABLEOWL_REPLAY_REFUSED = 4
};

/* What a host has for a creation over a given sound: no sound at all, the recorded one (its digest is the recorded one), or
 * others only. */
enum { CABLEOWL_SOUNDS_NONE = 0, CABLEOWL_SOUNDS_FITS = 1, CABLEOWL_SOUNDS_OTHER = 2 };

/* What a step of a replay did. What is not named for a `what` is 0, lowest_count 4, and the replay is the given one.
 * 0: it played a record of `size` bytes and of this kind; the refusal is the voice's. A block's line has replay.blocks, frames, steps,
 *    replay.voice's state and position, and if it is refused replay.blocks and the refusal.
 * 1: the bytes end inside a record: call again with more of them. 2: the trace has ended.
 * 3: the reader refuses the record at replay.offset, with 15 to 18. 4: the call is refused, with 1 or 19. */
typedef struct CableowlReplayed {
    CableowlReplay replay;
    uint64_t size;
    uint64_t frames; /* of a block */
    uint64_t steps;  /* of a block */
    uint64_t what;
    uint64_t kind;
    uint64_t refusal;
    uint64_t lowest_count; /* of a block; 4 otherwise */
} CableowlReplayed;

/* This interface's version. */
uint32_t cableowl_version(void);

/* Creates a voice over a sound of interleaved samples, left then right. Pass the same sound to each later call. */
CableowlCreated cableowl_new(CableowlSettings settings, const float *sound, size_t sound_len);

/* Applies a command set, which may be empty, and reports the position. */
CableowlCommanded cableowl_on_start_processing(CableowlState state, const float *sound, size_t sound_len,
                                               CableowlCommands commands);

/* Plays a block of out_len / 2 frames; each lane has one number per frame. dt is the seconds of one output frame. */
CableowlProcessed cableowl_process(CableowlState state, const float *sound, size_t sound_len, const float *fade,
                                   size_t fade_len, const float *volume, size_t volume_len, const float *left,
                                   size_t left_len, const float *right, size_t right_len, const double *rate,
                                   size_t rate_len, double dt, CableowlSignals signals, float *out, size_t out_len);

/* Plays a block of rate_len frames into a longer buffer from frame `from` on. It replaces the samples there (it does
 * not add) and changes no other sample. */
CableowlProcessed cableowl_process_into(CableowlState state, const float *sound, size_t sound_len, const float *fade,
                                        size_t fade_len, const float *volume, size_t volume_len, const float *left,
                                        size_t left_len, const float *right, size_t right_len, const double *rate,
                                        size_t rate_len, double dt, CableowlSignals signals, float *mix,
                                        size_t mix_len, uint64_t from);

/* Plays a block of out_len / 2 frames that all have the same five numbers: cableowl_process with lanes that repeat them.
 * An odd out_len is refused with 9. With no frames the five numbers are not checked. */
CableowlProcessed cableowl_process_held(CableowlState state, const float *sound, size_t sound_len, float fade,
                                        float volume, float left, float right, double rate, double dt,
                                        CableowlSignals signals, float *out, size_t out_len);

/* Plays such a block of `frames` frames into a longer buffer from frame `from` on, as cableowl_process_into does. */
CableowlProcessed cableowl_process_held_into(CableowlState state, const float *sound, size_t sound_len, float fade,
                                             float volume, float left, float right, double rate, double dt,
                                             CableowlSignals signals, float *mix, size_t mix_len, uint64_t from,
                                             uint64_t frames);

/* The part of the sound that the voice plays. For a state that is refused with 1, the empty part at 0. */
CableowlPart cableowl_stretch(CableowlState state, const float *sound, size_t sound_len);

/* A table of empty slots over a sound of num_frames frames. */
CableowlLoopTable cableowl_loop_table(uint64_t num_frames);

/* Hall 0 is A, 1 is B; any other is refused with 1. A write replaces the slot's loop; a clear empties the slot. */
CableowlLoopChanged cableowl_write_loop(CableowlLoopTable table, uint32_t hall, uint64_t slot, uint64_t start,
                                        uint64_t end);
CableowlLoopChanged cableowl_clear_loop(CableowlLoopTable table, uint32_t hall, uint64_t slot);
CableowlLoopFound cableowl_read_loop(CableowlLoopTable table, uint64_t slot);

/* A copy of an empty table, with no changes by either hall. */
CableowlLoopCopy cableowl_loop_copy(uint64_t num_frames);

/* A write or a clear of a copy's table. If it is accepted, the hall's number of changes rises by one. */
CableowlCopyChanged cableowl_write_copy(CableowlLoopCopy copy, uint32_t hall, uint64_t slot, uint64_t start,
                                        uint64_t end);
CableowlCopyChanged cableowl_clear_copy(CableowlLoopCopy copy, uint32_t hall, uint64_t slot);

/* Returns our copy with each hall's newer half. */
CableowlCopyChanged cableowl_merge_copies(CableowlLoopCopy ours, CableowlLoopCopy theirs);

/* Reads a slot and sets its loop by a command set. Returns the table's refusal or the command set's result. */
CableowlCommanded cableowl_take_loop(CableowlLoopTable table, uint64_t slot, CableowlState state, const float *sound,
                                     size_t sound_len);

/* A level is 0 to 600 tenths of a decibel below full level, or 601 for silence. Its amplitude is e / 2^24 exactly, for
 * the largest whole e with (e / 2^24)^200 * 10^level at most 1; silence is +0. Returns 0, or 13 and writes nothing. */
uint32_t cableowl_amplitude(uint32_t level, float *to);

/* Fills a fade lane with amplitudes whose levels go in a straight line from start on the first frame to end on the last,
 * rounded down: (start * (count - 1 - i) + end * i) / (count - 1) on frame i. A single frame has the end level. Pass each
 * block its part of the lane. Returns 0; or 13 or 14 (13 first) and writes nothing. */
uint32_t cableowl_fade_ramp(uint32_t start, uint32_t end, uint32_t count, float *lane, size_t lane_len);

/* Writes the settings as a record of their version, 25 or 26 bytes, at the buffer's start. Returns 0; or 24 or 19 (24
 * first) and writes nothing. */
uint32_t cableowl_store_settings(const CableowlSavedSettings *saved, uint8_t *buffer, size_t buffer_len);

/* Reads the record at the beginning of the bytes and ignores what follows. Reader 1 knows version 1 only, any other
 * reader also version 2. Returns 0, or a refusal and sets every field of `saved` to 0. */
uint32_t cableowl_load_settings(uint32_t reader, const uint8_t *bytes, size_t bytes_len, CableowlSavedSettings *saved);

/* Writes a half and its names as a record of 666 bytes at the buffer's start. The names are 512 bytes, 64 a slot: text,
 * then zero bytes; they are not checked. Answers 0, or 24, then 19, and writes nothing. */
uint32_t cableowl_store_half(const CableowlLoopHalf *half, const uint8_t *names, size_t names_len, uint8_t *buffer,
                             size_t buffer_len);

/* Reads the record that the bytes begin with; what follows it is not read. The names are bytes 150 to 661 of the record.
 * To take a half that another box has sent, put it into an empty copy (cableowl_loop_copy) and merge that copy. Answers
 * 0, or a refusal and every field of `half` is 0. */
uint32_t cableowl_load_half(const uint8_t *bytes, size_t bytes_len, CableowlLoopHalf *half);

/* The settings for cableowl_new: the whole sound, the saved start and loop in frames, and the saved rate times the ratio
 * of the pitch, rounded once. If the rate is not finite or the pitch is not -24 to 24, the rate is NaN, which creation
 * refuses. The version is not read. */
CableowlSettings cableowl_settings_of(const CableowlSavedSettings *saved, uint32_t sample_rate);

/* Reads the record at an offset of a trace: docs/formats/TRACE.md. At the trace's end and after it, it returns 18. A record has at
 * most 575 bytes, so the next 575 bytes of a longer trace, or all that are left, are enough. */
CableowlRecord cableowl_read_record(const uint8_t *bytes, size_t bytes_len, uint64_t at);

/* Writes a record at an offset of the buffer, for cableowl_read_record to read. `values` has 80 numbers, of which those of the
 * kind are used. Refused, it writes nothing: 16 an unknown kind, 17 a field above its limit or an absent field that is not 0,
 * 19 too little space after the offset. */
CableowlSent cableowl_write_record(uint8_t *buffer, size_t buffer_len, uint64_t at, uint64_t kind, const uint64_t *values);

/* Copies the complete records of a damaged trace to the output's start and skips all other bytes. The rest of the output does
 * not change. If the output is shorter than the bytes, it is refused with 25 and writes nothing. */
CableowlSaved cableowl_salvage(const uint8_t *bytes, size_t bytes_len, uint8_t *out, size_t out_len);

/* Reads the record of any of the five kinds at an offset of a trace of version 2. The lanes of a block with lanes stay in the
 * bytes: the 24 * frames bytes before the last four of the record, which ends at `next`. A record has at most 24,598 bytes, so
 * the next 24,598 bytes of a longer trace, or all that are left, are enough. */
CableowlRecord cableowl_read_record_v2(const uint8_t *bytes, size_t bytes_len, uint64_t at);

/* Writes a record of any of the five kinds, for cableowl_read_record_v2 to read, and its checksum if the kind has one. The
 * lanes are the bytes of a block with lanes, 24 a frame: fade, volume, left, right (f32), rate (f64). A creation over a given
 * sound has no lanes, and the other kinds do not look at them. Refused as cableowl_write_record, also with 17 for lanes of a
 * wrong length. */
CableowlSent cableowl_write_record_v2(uint8_t *buffer, size_t buffer_len, uint64_t at, uint64_t kind, const uint64_t *values,
                                      const uint8_t *lanes, size_t lanes_len);

/* Salvages a trace of version 2, as cableowl_salvage does one of version 1: it also keeps complete records of the last two
 * kinds, and their checksum makes it unlikely that other bytes are taken for one. */
CableowlSaved cableowl_salvage_v2(const uint8_t *bytes, size_t bytes_len, uint8_t *out, size_t out_len);

/* A replay before any record. */
CableowlReplay cableowl_replay(void);

/* Reads the record that the bytes begin with and plays it: docs/formats/TRACE.md. The bytes are those of the trace from replay.offset
 * on, as many as there are; `ended` is 0 if more may follow them. Lend the same `sound` to each step, room for 128 samples or more: a
 * creation puts its sound there. A block of n frames is heard in the first 2 n samples of `out`, which has room for 2,048 or more; the
 * others stay. Refused with 1 where the numbers are no replay's (reader, given, or more samples than the sound has), with 19 where
 * there is too little room. */
CableowlReplayed cableowl_replay_step(CableowlReplay replay, const uint8_t *bytes, size_t bytes_len, uint32_t ended, float *sound,
                                      size_t sound_len, float *out, size_t out_len);

/* A replay of version 2 before any record. */
CableowlReplay cableowl_replay_v2(void);

/* The same step for a trace of version 2: it plays all five kinds. `sound` and `out` as for cableowl_replay_step. A creation
 * with its samples (kind 1) writes them to `sound`, and the voice plays them. For a creation over a given sound (kind 4) `given`
 * is the sound, interleaved, and `sounds` says what the host has:
 *   0 no sound at all. `given` has any samples, at least as many as the sound, for example silence. All but the samples in
 *     `out` and in the voice's window is as with the real sound. If it has fewer samples, the call is refused with 19 (what 4)
 *     and changes nothing.
 *   1 `given` has the recorded digest. The host compares digests. The step compares the frame count: the creation is refused
 *     with 26 if `given` has another.
 *   2 or more: sounds, but none with the recorded digest. The creation is refused with 26.
 * After 26 the voice is blank and has no sound (replay.given 1, replay.samples 0). Until the next creation `given` must hold the
 * same sound: a command set or a block is refused with 1 (what 4) if `given` has fewer than replay.samples samples. A block with
 * lanes (kind 5) is counted and answered as any block. A record has at most 24,598 bytes. The call is refused with 1 if the
 * numbers are no replay of version 2. */
CableowlReplayed cableowl_replay_step_v2(CableowlReplay replay, const uint8_t *bytes, size_t bytes_len, uint32_t ended,
                                         float *sound, size_t sound_len, const float *given, size_t given_len,
                                         uint32_t sounds, float *out, size_t out_len);

/* The sentence for a number that a call returned: "accepted" for 0, and the Rust crate's `Refusal::text` for a refusal. It
 * accepts any number; the text is a constant. */
static inline const char *cableowl_refusal_text(uint64_t number) {
    switch (number) {
    case CABLEOWL_ACCEPTED:
        return "accepted";
    case CABLEOWL_REFUSAL_STATE:
        return "the state is not well formed or belongs to another sound: pass the samples it was created with, or "
               "create the sound anew";
    case CABLEOWL_REFUSAL_SAMPLE_RATE:
        return "the sample rate must be from 1 to 768,000";
    case CABLEOWL_REFUSAL_FRAME_COUNT:
        return "a sound is left and right samples in turn, an even count, and 1 to 16,777,216 frames";
    case CABLEOWL_REFUSAL_SLICE:
        return "the slice must start before it ends and end within the sound, in finite seconds or in frames";
    case CABLEOWL_REFUSAL_START_POSITION:
        return "the start position must be a finite time or a frame, before the end of the slice or sound";
    case CABLEOWL_REFUSAL_LOOP_REGION:
        return "the loop must start before it ends and end within the slice or sound, in finite seconds or in frames";
    case CABLEOWL_REFUSAL_PLAYBACK_RATE:
        return "the playback rate must be finite";
    case CABLEOWL_REFUSAL_SEEK:
        return "a seek must be a finite number of seconds and go to a frame below 4,294,967,296";
    case CABLEOWL_REFUSAL_BLOCK:
        return "a block has at most 4,096 frames, each lane as many, and two samples of output a frame";
    case CABLEOWL_REFUSAL_TIME_STEP:
        return "the time step, the seconds of one output frame, must be finite and above 0";
    case CABLEOWL_REFUSAL_LANE:
        return "fade, volume and gains must be finite with no minus sign (minus zero has one), and rates must be "
               "finite";
    case CABLEOWL_REFUSAL_ADVANCE:
        return "sample rate times lane rate times time step must be at most 256 in every frame: lower the rate";
    case CABLEOWL_REFUSAL_LEVEL:
        return "a level is 0 to 600 tenths of a decibel below full level, or 601 for silence";
    case CABLEOWL_REFUSAL_RAMP:
        return "a ramp has 1 to 65,536 frames, and its lane as many: cut a longer fade into several ramps";
    case CABLEOWL_REFUSAL_MARK:
        return "no record begins here: saved settings begin with the bytes 5E 71, a hall's loops with A7 4C, a record "
               "of a trace with A5 1D";
    case CABLEOWL_REFUSAL_KIND:
        return "a record of a trace is of kind 1 to 3, or in version 2 of kind 1 to 5: read the trace as version 2 "
               "or with a newer reader, or salvage it";
    case CABLEOWL_REFUSAL_RECORD:
        return "a record of a trace holds a sound of at most 64 frames, or a block of at most 1,024 with constant "
               "lanes (in version 2, with 24 bytes of lanes a frame): cut the block at the limit or at the change; if "
               "the record was read, its bytes are damaged: salvage the trace";
    case CABLEOWL_REFUSAL_TRUNCATED:
        return "the bytes end inside the record: give the rest of it, then read again";
    case CABLEOWL_REFUSAL_ROOM:
        return "the buffer is too short: saved settings have 25 bytes, or 26 with a pitch, a hall's loops 666, a "
               "record of a trace at most 575, or in version 2 24,598";
    case CABLEOWL_REFUSAL_LOOP_SLOT:
        return "a loop table has the slots 0 to 15";
    case CABLEOWL_REFUSAL_OTHER_HALL:
        return "hall A writes and clears slots 0 to 7, hall B slots 8 to 15: ask the other hall";
    case CABLEOWL_REFUSAL_EMPTY_SLOT:
        return "the slot holds no loop: its hall must write one first";
    case CABLEOWL_REFUSAL_VERSION:
        return "the record is of a version that this reader does not know: load it with a newer reader";
    case CABLEOWL_REFUSAL_SAVED_FIELD:
        return "saved settings need a loop that starts before it ends, a finite rate, a pitch of -24 to 24 (0 in "
               "version 1), and in bytes the length of their version, 21 or 22; a hall's loops must lie in their "
               "sound, a name has at most 64 bytes of UTF-8, and in bytes their length is 661 and their CRC right";
    case CABLEOWL_REFUSAL_OUTPUT:
        return "the output of a salvage must be at least as long as the trace";
    case CABLEOWL_REFUSAL_OTHER_SOUND:
        return "none of the given sounds is the recorded one: give the sound whose frame count and SHA-256 the record "
               "names, or give no sound";
    case CABLEOWL_REFUSAL_OTHER_FRAMES:
        return "the two copies are of loop tables over different sounds: merge copies over one sound";
    case CABLEOWL_REFUSAL_TWO_HALVES:
        return "one hall has made the same number of changes in both copies, but its slots differ: two boxes have "
               "written for one hall, or one went back to an old copy; keep the copy that is right and write its slots "
               "again";
    case 29: /* only of the Rust crate's player; a log may contain it */
        return "64 seeks wait for the next frame already: play a frame, then seek again";
    default:
        return "no refusal has this number";
    }
}

/* The thread's float mode before the calls, to restore after them. */
typedef uint64_t CableowlFloatMode;

#if defined(__x86_64__)
static inline CableowlFloatMode cableowl_float_mode_hold(void) {
    const unsigned int given = _mm_getcsr();
    _mm_setcsr(0x1f80u);
    return given;
}

static inline void cableowl_float_mode_give_back(CableowlFloatMode given) { _mm_setcsr((unsigned int)given); }
#elif defined(__aarch64__)
static inline CableowlFloatMode cableowl_float_mode_hold(void) {
    uint64_t given;
    __asm__ volatile("mrs %0, fpcr\n\tmsr fpcr, xzr" : "=&r"(given) : : "memory");
    return given;
}

static inline void cableowl_float_mode_give_back(CableowlFloatMode given) {
    __asm__ volatile("msr fpcr, %0" : : "r"(given) : "memory");
}
#endif

#ifdef __cplusplus
}
#endif

#endif
