/* How much stack each entry uses at most: a thread's stack is filled with a pattern before a call and read after it. The figures go
 * to standard error; one above its limit is a difference. cc -pthread -I host/include stack.c libcableowl.a */
#define _GNU_SOURCE
#include <pthread.h>
#include <stdio.h>
#include <stdlib.h>
#include <string.h>

#include "cableowl.h"

enum {
    STACK = 1 << 18,
    PAINT = 0xa5,
    PLAYER = 4096,
    TRACE = 12288,
    TRACE_2 = 16384,
    LANED = 65536,
    SOUND = 2 * 4800,
    FRAMES = CABLEOWL_MAX_BLOCK_FRAMES
};

static float sound[SOUND], ones[FRAMES], out[2 * FRAMES], mix[2 * FRAMES + 6];
static double slow[FRAMES], fast[FRAMES];
static CableowlSettings settings;
static CableowlCommands commands;
static CableowlState voice, broken;
static const CableowlSignals none = {0, 0, 0, 0, 0};
static uint32_t refusal;

static void nothing(void) {}
static void create(void) { refusal = cableowl_new(settings, sound, SOUND).refusal; }
static void command(void) { refusal = cableowl_on_start_processing(voice, sound, SOUND, commands).refusal; }

static void process_at(CableowlState state, const double *rate) {
    refusal = cableowl_process(state, sound, SOUND, ones, FRAMES, ones, FRAMES, ones, FRAMES, ones, FRAMES, rate, FRAMES,
                               1.0, none, out, 2 * FRAMES)
                  .refusal;
}
static void process_slow(void) { process_at(voice, slow); }
static void process_fast(void) { process_at(voice, fast); }
static void process_refused(void) { process_at(broken, slow); }

static void process_into(void) {
    refusal = cableowl_process_into(voice, sound, SOUND, ones, FRAMES, ones, FRAMES, ones, FRAMES, ones, FRAMES, fast,
                                    FRAMES, 1.0, none, mix, 2 * FRAMES + 6, 2)
                  .refusal;
}
static void process_held_at(double rate) {
    refusal = cableowl_process_held(voice, sound, SOUND, 1, 1, 1, 1, rate, 1.0, none, out, 2 * FRAMES).refusal;
}
static void process_held_slow(void) { process_held_at(0.7); }
static void process_held_fast(void) { process_held_at(256); }
static void process_held_into(void) {
    refusal = cableowl_process_held_into(voice, sound, SOUND, 1, 1, 1, 1, 256, 1.0, none, mix, 2 * FRAMES + 6, 2, FRAMES)
                  .refusal;
}
static uint8_t trace[575], saved[575];
static uint64_t numbers[80];
static void read_record(void) { refusal = (uint32_t)cableowl_read_record(trace, sizeof trace, 0).refusal; }
static void write_record(void) {
    refusal = (uint32_t)cableowl_write_record(saved, sizeof saved, 0, CABLEOWL_KIND_CREATION, numbers).refusal;
}
static void salvage(void) { refusal = (uint32_t)cableowl_salvage(trace, sizeof trace, saved, sizeof saved).refusal; }
static uint8_t sealed[24598], resealed[24598], lanes[24 * 1024];
static uint64_t frames[80] = {1024};
static void read_record_v2(void) { refusal = (uint32_t)cableowl_read_record_v2(trace, sizeof trace, 0).refusal; }
static void read_lanes(void) { refusal = (uint32_t)cableowl_read_record_v2(sealed, sizeof sealed, 0).refusal; }
static void write_record_v2(void) {
    refusal = (uint32_t)cableowl_write_record_v2(resealed, sizeof resealed, 0, CABLEOWL_KIND_CREATION, numbers, lanes, 0).refusal;
}
static void write_lanes(void) {
    refusal = (uint32_t)cableowl_write_record_v2(resealed, sizeof resealed, 0, CABLEOWL_KIND_LANES, frames, lanes, sizeof lanes).refusal;
}
static void salvage_v2(void) { refusal = (uint32_t)cableowl_salvage_v2(trace, sizeof trace, resealed, sizeof resealed).refusal; }
static CableowlReplay replay;
static float lent[128], heard[2048];
static void replay_step(void) {
    refusal = (uint32_t)cableowl_replay_step(replay, trace, sizeof trace, 1, lent, 128, heard, 2048).refusal;
}
/* The longest laned block, with its checksum. */
static CableowlReplay replay_v2;
static uint8_t laned[5 + 24593];
static void seal_laned(void) {
    const uint8_t head[18] = {0xa5, 0x1d, 5, 0x11, 0x60, 0, 4, 0, 0, 0, 0, 0, 0, 0xf0, 0x3f};
    const float gains[4] = {1, 1, 1, 1};
    const double rate = 256;
    memcpy(laned, head, sizeof head);
    for (int i = 0; i < 1024; i += 1) {
        memcpy(laned + 18 + 24 * i, gains, sizeof gains);
        memcpy(laned + 34 + 24 * i, &rate, sizeof rate);
    }
    uint32_t crc = 0xffffffff;
    for (size_t i = 2; i < sizeof laned - 4; i += 1) {
        crc ^= laned[i];
        for (int bit = 0; bit < 8; bit += 1) crc = crc >> 1 ^ (crc & 1 ? 0xedb88320 : 0);
    }
    for (int i = 0; i < 4; i += 1) laned[sizeof laned - 4 + i] = (uint8_t)(~crc >> 8 * i);
}
static void replay_step_v2(void) {
    const CableowlReplayed did =
        cableowl_replay_step_v2(replay_v2, laned, sizeof laned, 1, lent, 128, sound, SOUND, 0, heard, 2048);
    refusal = did.what == CABLEOWL_REPLAY_PLAYED && did.kind == 5 ? (uint32_t)did.refusal : 99;
}
static void stretch(void) { refusal = cableowl_stretch(voice, sound, SOUND).length == SOUND ? 0 : 1; }

static void *run(void *call) {
    void (*entry)(void);
    memcpy(&entry, call, sizeof entry);
    entry();
    return NULL;
}

/* The bytes of the pattern that a thread with this call overwrites. */
static size_t used(void (*entry)(void)) {
    unsigned char *stack = aligned_alloc(4096, STACK);
    pthread_attr_t attributes;
    pthread_t thread;
    memset(stack, PAINT, STACK);
    pthread_attr_init(&attributes);
    if (pthread_attr_setstack(&attributes, stack, STACK) != 0 || pthread_create(&thread, &attributes, run, &entry) != 0) {
        printf("no thread\n");
        exit(1);
    }
    pthread_join(thread, NULL);
    pthread_attr_destroy(&attributes);
    size_t untouched = 0;
    while (untouched < STACK && stack[untouched] == PAINT) untouched += 1;
    free(stack);
    return STACK - untouched;
}

int main(void) {
    const struct {
        const char *name;
        void (*entry)(void);
        size_t limit;
        uint32_t refusal;
    } calls[] = {
        {"new", create, PLAYER, 0},
        {"on_start_processing", command, PLAYER, 0},
        {"process, advance 0.7", process_slow, PLAYER, 0},
        {"process, advance 256", process_fast, PLAYER, 0},
        {"process, refused", process_refused, PLAYER, 1},
        {"process_into, advance 256", process_into, PLAYER, 0},
        {"process_held, advance 0.7", process_held_slow, PLAYER, 0},
        {"process_held, advance 256", process_held_fast, PLAYER, 0},
        {"process_held_into, advance 256", process_held_into, PLAYER, 0},
        {"stretch", stretch, PLAYER, 0},
        {"read_record", read_record, TRACE, 0},
        {"write_record", write_record, TRACE, 0},
        {"salvage", salvage, TRACE, 0},
        {"read_record_v2", read_record_v2, TRACE_2, 0},
        {"read_record_v2, lanes", read_lanes, TRACE_2, 0},
        {"write_record_v2", write_record_v2, TRACE_2, 0},
        {"write_record_v2, lanes", write_lanes, TRACE_2, 0},
        {"salvage_v2", salvage_v2, TRACE_2, 0},
        {"replay_step", replay_step, TRACE, 2},
        {"replay_step_v2", replay_step_v2, LANED, 0},
    };
    for (int i = 0; i < FRAMES; i += 1) {
        ones[i] = 1;
        slow[i] = 0.7;
        fast[i] = 256;
    }
    for (int i = 0; i < SOUND; i += 1) sound[i] = (float)(i % 17) / 17;
    settings.sample_rate = 1;
    settings.playback_rate = 1;
    settings.has_loop = 1;
    settings.loop_region.start.kind = CABLEOWL_PLACE_SAMPLES;
    settings.loop_region.end.kind = CABLEOWL_PLACE_END_OF_AUDIO;
    commands.has_seek_by = 1;
    commands.seek_by = 7.5;
    commands.pause = 1;
    commands.loop_command = CABLEOWL_LOOP_SET;
    commands.loop_region = settings.loop_region;
    voice = cableowl_new(settings, sound, SOUND).state;
    broken = voice;
    broken.count = 5;

    replay = cableowl_replay();
    replay_v2 = cableowl_replay_v2();
    replay_v2.voice = voice;
    replay_v2.given = 1;
    replay_v2.samples = SOUND;
    seal_laned();

    /* The longest record there is. */
    numbers[1] = numbers[6] = 3;
    numbers[12] = 64;

    int faults = 0;
    if (cableowl_write_record(trace, sizeof trace, 0, CABLEOWL_KIND_CREATION, numbers).next != sizeof trace) {
        printf("differs: the longest record\n");
        faults += 1;
    }
    if (cableowl_write_record_v2(sealed, sizeof sealed, 0, CABLEOWL_KIND_LANES, frames, lanes, sizeof lanes).next != sizeof sealed) {
        printf("differs: the longest record of version 2\n");
        faults += 1;
    }
    used(nothing); /* once before, so that the linker's work for the first thread is not counted */
    const size_t thread = used(nothing);
    for (size_t i = 0; i < sizeof calls / sizeof calls[0]; i += 1) {
        used(calls[i].entry); /* once before, so that the linker's work for the first call is not counted */
        const size_t all = used(calls[i].entry);
        const size_t bytes = all > thread ? all - thread : 0;
        fprintf(stderr, "%-26s %6zu bytes of stack\n", calls[i].name, bytes);
        if (bytes > calls[i].limit || refusal != calls[i].refusal) {
            printf("differs: %s\n", calls[i].name);
            faults += 1;
        }
    }
    printf("%d differ\n", faults);
    return faults == 0 ? 0 : 1;
}
