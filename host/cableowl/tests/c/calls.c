/* Calls each entry of cableowl.h once, on the three frames of the rules' example, and prints what differs. */
#include <stdio.h>
#include <string.h>

#include "cableowl.h"

static int faults = 0;

static void expect(int holds, const char *what) {
    if (!holds) {
        printf("differs: %s\n", what);
        faults += 1;
    }
}

int main(void) {
    const float sound[6] = {1, 1, 2, 2, 3, 3};
    const float ones[6] = {1, 1, 1, 1, 1, 1};
    const double rate[6] = {1, 1, 1, 1, 1, 1};

    expect(cableowl_version() == CABLEOWL_VERSION && CABLEOWL_VERSION == 2, "version");

    CableowlSettings settings;
    memset(&settings, 0, sizeof settings);
    settings.sample_rate = 1;
    settings.playback_rate = 1;
    const CableowlCreated created = cableowl_new(settings, sound, 6);
    expect(created.refusal == 0, "new: refusal");
    expect(created.state.num_frames == 3, "new: frames");
    expect(created.state.window[3].number == 2 && created.state.window[3].left == 3, "new: window");

    CableowlCommands commands;
    memset(&commands, 0, sizeof commands);
    const CableowlCommanded commanded = cableowl_on_start_processing(created.state, sound, 6, commands);
    expect(commanded.refusal == 0 && commanded.position == 0, "on_start_processing: position");
    commands.has_rate = 2;
    expect(cableowl_on_start_processing(created.state, sound, 6, commands).refusal == 7, "on_start_processing: tag");

    const CableowlSignals signals = {0, 0, 0, 0, 0};
    float out[12];
    const CableowlProcessed processed = cableowl_process(commanded.state, sound, 6, ones, 6, ones, 6, ones, 6, ones, 6,
                                                         rate, 6, 1.0, signals, out, 12);
    const float heard[12] = {1, 1, 2, 2, 3, 3, 0, 0, 0, 0, 0, 0};
    expect(processed.refusal == 0 && processed.steps == 6, "process: steps");
    expect(processed.lowest_count == 0, "process: lowest count");
    expect(processed.state.state == 6, "process: stopped");
    expect(memcmp(out, heard, sizeof out) == 0, "process: frames");

    settings.start_waits = 1;
    const CableowlState waiting = cableowl_new(settings, sound, 6).state;
    CableowlSignals tick = {0, CABLEOWL_START_TICK, 0, 3, 2};
    expect(cableowl_process(waiting, sound, 6, ones, 0, ones, 0, ones, 0, ones, 0, rate, 0, 1.0, tick, out, 0)
                   .state.started == 0,
           "process: a tick that is not reached");
    tick.now = 3;
    expect(cableowl_process(waiting, sound, 6, ones, 0, ones, 0, ones, 0, ones, 0, rate, 0, 1.0, tick, out, 0)
                   .state.started == 1,
           "process: a tick that is reached");

    float mix[8] = {9, 9, 9, 9, 9, 9, 9, 9};
    const CableowlProcessed mixed = cableowl_process_into(commanded.state, sound, 6, ones, 2, ones, 2, ones, 2, ones, 2,
                                                          rate, 2, 1.0, signals, mix, 8, 1);
    const float mixture[8] = {9, 9, 1, 1, 2, 2, 9, 9};
    expect(mixed.refusal == 0 && mixed.steps == 2, "process_into: steps");
    expect(mixed.lowest_count == 3, "process_into: lowest count");
    const CableowlProcessed refused = cableowl_process(commanded.state, sound, 6, ones, 6, ones, 6, ones, 6, ones, 6,
                                                       rate, 6, 0.0, signals, out, 12);
    expect(refused.refusal == 10 && refused.lowest_count == 4, "process: refused");
    expect(memcmp(mix, mixture, sizeof mix) == 0, "process_into: frames");

    const uint32_t nan_bits = 0x7fc00000;
    float nan;
    memcpy(&nan, &nan_bits, sizeof nan);
    memset(out, 0x77, sizeof out);
    const CableowlProcessed held =
        cableowl_process_held(commanded.state, sound, 6, 1, 1, 1, 1, 1, 1.0, signals, out, 12);
    expect(held.refusal == 0 && held.steps == 6 && held.lowest_count == 0, "process_held: answer");
    expect(memcmp(&held.state, &processed.state, sizeof held.state) == 0, "process_held: state");
    expect(memcmp(out, heard, sizeof out) == 0, "process_held: frames");
    expect(cableowl_process_held(commanded.state, sound, 6, nan, 1, 1, 1, 1, 1.0, signals, out, 11).refusal == 9,
           "process_held: an odd output");
    expect(cableowl_process_held(commanded.state, sound, 6, nan, 1, 1, 1, 1, 0.0, signals, out, 0).refusal == 10,
           "process_held: the time step, with no frames too");
    expect(cableowl_process_held(commanded.state, sound, 6, nan, 1, 1, 1, 1, 1.0, signals, out, 0).refusal == 0,
           "process_held: no frames, and no number judged");
    expect(cableowl_process_held(commanded.state, sound, 6, -0.0f, 1, 1, 1, 300, 1.0, signals, out, 2).refusal == 11,
           "process_held: minus zero");
    expect(cableowl_process_held(commanded.state, sound, 6, 1, 1, 1, 1, 300, 1.0, signals, out, 2).refusal == 12,
           "process_held: too fast");
    float again_mix[8] = {9, 9, 9, 9, 9, 9, 9, 9};
    expect(cableowl_process_held_into(commanded.state, sound, 6, 1, 1, 1, 1, 1, 1.0, signals, again_mix, 8, 3, 2)
                   .refusal == 9,
           "process_held_into: no room");
    expect(cableowl_process_held_into(commanded.state, sound, 6, 1, 1, 1, 1, 1, 1.0, signals, again_mix, 8, 1, 2)
                   .steps == 2,
           "process_held_into: steps");
    expect(memcmp(again_mix, mixture, sizeof mix) == 0, "process_held_into: frames");

    const CableowlPart all = cableowl_stretch(created.state, sound, 6);
    expect(all.offset == 0 && all.length == 6, "stretch");

    CableowlState unknown = created.state;
    unknown.state = 7;
    const CableowlPart none = cableowl_stretch(unknown, sound, 6);
    expect(none.offset == 0 && none.length == 0, "stretch: a state that means nothing");

    float amplitude = 9;
    expect(cableowl_amplitude(600, &amplitude) == 0 && amplitude * 16777216 == 16777, "amplitude");
    expect(cableowl_amplitude(602, &amplitude) == 13 && amplitude * 16777216 == 16777, "amplitude: a level too high");
    float lane[3] = {9, 9, 9};
    expect(cableowl_fade_ramp(602, 0, 0, lane, 3) == 13, "fade_ramp: the level first");
    expect(cableowl_fade_ramp(0, 601, 2, lane, 3) == 14 && cableowl_fade_ramp(0, 0, 0, lane, 0) == 14, "fade_ramp: count");
    expect(lane[0] == 9 && lane[1] == 9 && lane[2] == 9, "fade_ramp: refused");
    expect(cableowl_fade_ramp(0, 601, 3, lane, 3) == 0, "fade_ramp: refusal");
    expect(lane[0] == 1 && lane[1] * 16777216 == 530542 && lane[2] == 0, "fade_ramp: amplitudes");
    const CableowlLoopTable empty = cableowl_loop_table(3);
    expect(empty.num_frames == 3 && empty.slots[15].start == 0 && empty.slots[15].end == 0, "loop_table");
    const CableowlLoopChanged kept = cableowl_write_loop(empty, 1, 8, 1, 3);
    expect(kept.refusal == 0 && kept.table.slots[8].start == 1 && kept.table.slots[8].end == 3, "write_loop");
    expect(cableowl_write_loop(empty, 1, 7, 1, 3).refusal == 21, "write_loop: the other hall's slot");
    expect(cableowl_write_loop(empty, 2, 8, 1, 3).refusal == 1, "write_loop: a hall that means nothing");
    const CableowlLoopFound read = cableowl_read_loop(kept.table, 8);
    expect(read.refusal == 0 && read.slot.start == 1 && read.slot.end == 3, "read_loop");
    const CableowlCommanded taken = cableowl_take_loop(kept.table, 8, created.state, sound, 6);
    expect(taken.refusal == 0 && taken.state.has_loop == 1 && taken.state.loop_start == 1, "take_loop");
    const CableowlLoopChanged gone = cableowl_clear_loop(kept.table, 1, 8);
    expect(gone.refusal == 0 && memcmp(&gone.table, &empty, sizeof empty) == 0, "clear_loop");
    expect(cableowl_take_loop(gone.table, 8, created.state, sound, 6).refusal == 22, "take_loop: an empty slot");

    CableowlSavedSettings saved = {1, 1, 1, 3, 1, -0.75, -1, 2};
    uint8_t record[27];
    memset(record, 9, sizeof record);
    expect(cableowl_store_settings(&saved, record, 25) == 19 && record[0] == 9, "store_settings: room");
    expect(cableowl_store_settings(&saved, record, 27) == 0 && record[2] == 2 && record[3] == 22, "store_settings");
    expect(record[25] == 0xff && record[26] == 9, "store_settings: the last byte");
    CableowlSavedSettings loaded;
    expect(cableowl_load_settings(1, record, 27, &loaded) == 23 && loaded.start == 0, "load_settings: reader 1");
    expect(cableowl_load_settings(2, record, 27, &loaded) == 0, "load_settings");
    expect(memcmp(&saved, &loaded, sizeof saved) == 0, "load_settings: fields");
    const CableowlSettings raised = cableowl_settings_of(&loaded, 1);
    expect(raised.playback_rate > -0.71 && raised.playback_rate < -0.70, "settings_of: rate");
    const CableowlCreated again = cableowl_new(raised, sound, 6);
    expect(again.refusal == 0 && again.state.loop_end == 3 && again.state.reverse == 1, "settings_of: creation");

    CableowlLoopHalf half = {1, 3, 5, {{1, 3}}};
    uint8_t names[512] = "one";
    uint8_t bytes[667];
    memset(bytes, 9, sizeof bytes);
    expect(cableowl_store_half(&half, names, 511, bytes, 667) == 24 && bytes[0] == 9, "store_half: names");
    expect(cableowl_store_half(&half, names, 512, bytes, 665) == 19 && bytes[0] == 9, "store_half: room");
    expect(cableowl_store_half(&half, names, 512, bytes, 667) == 0 && bytes[5] == 1, "store_half");
    expect(memcmp(bytes + 150, names, 512) == 0 && bytes[666] == 9, "store_half: names and the last byte");
    CableowlLoopHalf back;
    expect(cableowl_load_half(bytes, 667, &back) == 0 && memcmp(&half, &back, sizeof half) == 0, "load_half");
    bytes[150] ^= 1;
    expect(cableowl_load_half(bytes, 667, &back) == 24 && back.changes == 0, "load_half: CRC");
    expect(cableowl_load_half(bytes, 665, &back) == 18, "load_half: cut");

    uint64_t values[80] = {0};
    uint8_t trace[60];
    memset(trace, 9, sizeof trace);
    values[0] = 1025;
    expect(cableowl_write_record(trace, 60, 3, 4, values).refusal == 16, "write_record: a kind");
    expect(cableowl_write_record(trace, 60, 61, CABLEOWL_KIND_BLOCK, values).refusal == 17, "write_record: a limit");
    values[0] = 6;
    const CableowlSent full = cableowl_write_record(trace, 44, 3, CABLEOWL_KIND_BLOCK, values);
    expect(full.refusal == 19 && full.next == 3 && trace[3] == 9, "write_record: room");
    const CableowlSent sent = cableowl_write_record(trace, 45, 3, CABLEOWL_KIND_BLOCK, values);
    expect(sent.refusal == 0 && sent.next == 45, "write_record");
    expect(trace[2] == 9 && trace[3] == 0xa5 && trace[6] == 37 && trace[8] == 6 && trace[45] == 9, "write_record: bytes");
    const CableowlRecord found = cableowl_read_record(trace, 60, 3);
    expect(found.refusal == 0 && found.kind == CABLEOWL_KIND_BLOCK && found.next == 45, "read_record");
    expect(memcmp(found.values, values, sizeof values) == 0, "read_record: numbers");
    const CableowlRecord cut = cableowl_read_record(trace, 44, 3);
    expect(cut.refusal == 18 && cut.kind == 0 && cut.next == 3 && cut.values[0] == 0, "read_record: cut");
    expect(cableowl_read_record(trace, 60, 0).refusal == 15, "read_record: no mark");
    expect(cableowl_read_record(trace, 60, 61).refusal == 18, "read_record: past the end");
    uint8_t mended[61];
    memset(mended, 7, sizeof mended);
    expect(cableowl_salvage(trace, 60, mended, 59).refusal == 25 && mended[0] == 7, "salvage: room");
    const CableowlSaved kept_records = cableowl_salvage(trace, 60, mended, 61);
    expect(kept_records.refusal == 0 && kept_records.records == 1, "salvage: records");
    expect(kept_records.skipped == 18 && kept_records.first == 0, "salvage: skipped");
    expect(memcmp(mended, trace + 3, 42) == 0 && mended[42] == 7 && mended[60] == 7, "salvage: bytes");
    uint8_t lanes[48] = {0}, sealed[76];
    memset(sealed, 9, sizeof sealed);
    memset(values, 0, sizeof values);
    values[0] = 2;
    lanes[3] = 7;
    expect(cableowl_write_record_v2(sealed, 76, 3, 6, values, lanes, 48).refusal == 16, "write_record_v2: a kind");
    expect(cableowl_write_record_v2(sealed, 76, 77, CABLEOWL_KIND_LANES, values, lanes, 47).refusal == 17, "write_record_v2: lanes");
    const CableowlSent small = cableowl_write_record_v2(sealed, 72, 3, CABLEOWL_KIND_LANES, values, lanes, 48);
    expect(small.refusal == 19 && small.next == 3 && sealed[3] == 9, "write_record_v2: room");
    const CableowlSent laned = cableowl_write_record_v2(sealed, 73, 3, CABLEOWL_KIND_LANES, values, lanes, 48);
    expect(laned.refusal == 0 && laned.next == 73 && sealed[2] == 9 && sealed[5] == 5 && sealed[73] == 9, "write_record_v2");
    const CableowlRecord block = cableowl_read_record_v2(sealed, 76, 3);
    expect(block.refusal == 0 && block.kind == CABLEOWL_KIND_LANES && block.next == 73, "read_record_v2");
    expect(memcmp(block.values, values, sizeof values) == 0, "read_record_v2: numbers");
    expect(memcmp(sealed + 73 - 4 - 48, lanes, 48) == 0, "read_record_v2: lanes");
    expect(cableowl_read_record(sealed, 76, 3).refusal == 16, "read_record: version 2");
    expect(cableowl_read_record_v2(sealed, 72, 3).refusal == 18, "read_record_v2: cut");
    uint8_t unbroken[77];
    memset(unbroken, 7, sizeof unbroken);
    expect(cableowl_salvage_v2(sealed, 76, unbroken, 75).refusal == 25 && unbroken[0] == 7, "salvage_v2: room");
    const CableowlSaved kept_sealed = cableowl_salvage_v2(sealed, 76, unbroken, 77);
    expect(kept_sealed.refusal == 0 && kept_sealed.records == 1, "salvage_v2: records");
    expect(kept_sealed.skipped == 6 && kept_sealed.first == 0, "salvage_v2: skipped");
    expect(memcmp(unbroken, sealed + 3, 70) == 0 && unbroken[70] == 7 && unbroken[76] == 7, "salvage_v2: bytes");
    expect(cableowl_salvage(sealed, 76, unbroken, 77).skipped == 76, "salvage: version 2");
    sealed[30] ^= 1;
    expect(cableowl_read_record_v2(sealed, 76, 3).refusal == 17, "read_record_v2: checksum");
    expect(cableowl_read_record_v2(trace, 60, 3).next == 45, "read_record_v2: a block of version 1");
    memset(values, 0, sizeof values);
    values[12] = 4294967295u;
    values[16] = 5;
    const CableowlSent naming = cableowl_write_record_v2(sealed, 76, 0, CABLEOWL_KIND_GIVEN_CREATION, values, lanes, 0);
    expect(naming.refusal == 0 && naming.next == 70, "write_record_v2: a given sound");
    const CableowlRecord over_given = cableowl_read_record_v2(sealed, 76, 0);
    expect(over_given.kind == CABLEOWL_KIND_GIVEN_CREATION && over_given.values[16] == 5, "read_record_v2: a given sound");
    static float recorded[128], replayed[2048];
    CableowlReplay replay = cableowl_replay();
    expect(replay.reader == 1 && replay.blocks == 0, "replay: begins");
    expect(cableowl_replay_step(replay, trace, 0, 0, recorded, 127, replayed, 2048).refusal == 19, "replay_step: room");
    expect(cableowl_replay_step(replay, trace, 0, 0, recorded, 128, replayed, 2048).what == CABLEOWL_REPLAY_MORE, "replay_step: more");
    expect(cableowl_replay_step(replay, trace, 0, 1, recorded, 128, replayed, 2048).what == CABLEOWL_REPLAY_END, "replay_step: end");
    const CableowlReplayed broken = cableowl_replay_step(replay, trace, 60, 1, recorded, 128, replayed, 2048);
    expect(broken.what == CABLEOWL_REPLAY_BROKEN && broken.refusal == 15 && broken.size == 0, "replay_step: broken");
    const CableowlReplayed blind = cableowl_replay_step(replay, trace + 3, 57, 0, recorded, 128, replayed, 2048);
    expect(blind.what == CABLEOWL_REPLAY_PLAYED && blind.kind == CABLEOWL_KIND_BLOCK && blind.refusal == 1, "replay_step: no voice");
    expect(blind.size == 42 && blind.replay.blocks == 1 && blind.replay.offset == 42, "replay_step: counted");
    replay.given = 1;
    expect(cableowl_replay_step(replay, trace, 60, 1, recorded, 128, replayed, 2048).refusal == 1, "replay_step: state");

    /* The creation over a given sound of three frames of docs/formats/TRACE.md. */
    static const uint8_t lesson[70] = {
        0xa5, 0x1d, 4,    65,   0,    1,    0,    0,    0,    0,    0,    0,    0,    0,    0,    0,    0,    0,
        0,    0,    0,    0,    0,    0,    0,    0,    0,    0xf0, 0x3f, 0,    3,    0,    0,    0,    0x46, 0x84,
        0xaf, 0xa9, 0xfd, 0xf3, 0x69, 0xfc, 0xad, 0x25, 0xc4, 0xa4, 0xc5, 0xff, 0x53, 0x5f, 0xd8, 0x1a, 0x53, 0xfb,
        0x02, 0xf7, 0xd4, 0xb5, 0x4f, 0x47, 0xa9, 0x83, 0x23, 0xa3, 0x0a, 0x09, 0xe8, 0xd8, 0xce, 0xd6};
    static const float given[6] = {1, 1, 2, 2, 3, 3};
    replay = cableowl_replay_v2();
    expect(replay.reader == 2 && replay.given == 0 && replay.samples == 0, "replay_v2: begins");
    CableowlReplayed step =
        cableowl_replay_step_v2(replay, lesson, 70, 1, recorded, 128, given, 6, CABLEOWL_SOUNDS_FITS, replayed, 2048);
    expect(step.what == CABLEOWL_REPLAY_PLAYED && step.kind == 4 && step.refusal == 0, "replay_step_v2: created");
    expect(step.replay.given == 1 && step.replay.samples == 6 && step.replay.offset == 70, "replay_step_v2: its sound");
    step = cableowl_replay_step_v2(step.replay, trace + 3, 57, 0, recorded, 128, given, 6, 0, replayed, 2048);
    expect(step.kind == CABLEOWL_KIND_BLOCK && step.refusal == 10 && step.replay.blocks == 1, "replay_step_v2: a block");
    step = cableowl_replay_step_v2(step.replay, lesson, 70, 1, recorded, 128, given, 4, CABLEOWL_SOUNDS_NONE, replayed, 2048);
    expect(step.what == CABLEOWL_REPLAY_REFUSED && step.refusal == 19, "replay_step_v2: short silence");
    step = cableowl_replay_step_v2(step.replay, lesson, 70, 1, recorded, 128, given, 6, CABLEOWL_SOUNDS_OTHER, replayed, 2048);
    expect(step.what == CABLEOWL_REPLAY_PLAYED && step.refusal == 26 && step.replay.samples == 0, "replay_step_v2: 26");
    expect(cableowl_replay_step_v2(cableowl_replay(), lesson, 70, 1, recorded, 128, given, 6, 1, replayed, 2048).refusal == 1,
           "replay_step_v2: reader 1");

    printf("%d differ\n", faults);
    return faults == 0 ? 0 : 1;
}
