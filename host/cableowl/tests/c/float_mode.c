/* What cableowl.h says about the float mode: a call returns in any mode, and with cableowl_float_mode_hold its result is the usual one. */
#include <stdio.h>
#include <string.h>

#include "cableowl.h"

static int faults = 0;

static void expect(int holds, const char *what) {
    if (!holds) {
        printf("differs: %s\n", what);
        faults += 1;
    }
}

#if defined(__x86_64__)
/* Flushing first; then rounding down, up and to zero. */
static const unsigned int modes[] = {0x9fc0, 0x3f80, 0x5f80, 0x7f80};
static void set(unsigned int mode) { _mm_setcsr(mode); }
/* Without the flags of past exceptions. */
static unsigned int now(void) { return _mm_getcsr() & ~0x3fu; }
#else
static const unsigned int modes[] = {1u << 24, 2u << 22, 1u << 22, 3u << 22};
static void set(unsigned int mode) {
    const uint64_t word = mode;
    __asm__ volatile("msr fpcr, %0" : : "r"(word) : "memory");
}
static unsigned int now(void) {
    uint64_t word;
    __asm__ volatile("mrs %0, fpcr" : "=r"(word) : : "memory");
    return (unsigned int)word;
}
#endif

enum { MODES = sizeof modes / sizeof modes[0], FRAMES = 8 };

static const float ones[FRAMES] = {1, 1, 1, 1, 1, 1, 1, 1};
static const float halves[FRAMES] = {0.5f, 0.5f, 0.5f, 0.5f, 0.5f, 0.5f, 0.5f, 0.5f};
static const double rates[FRAMES] = {0.7, 0.7, 0.7, 0.7, 0.7, 0.7, 0.7, 0.7};
static const CableowlSignals none = {0, 0, 0, 0, 0};

/* A block over subnormal samples. */
static CableowlProcessed subnormal_block(float *out) {
    uint32_t bits[20];
    float sound[20];
    for (uint32_t i = 0; i < 20; i += 1) bits[i] = 0x1357u * (i + 1);
    memcpy(sound, bits, sizeof sound);
    CableowlSettings settings;
    memset(&settings, 0, sizeof settings);
    settings.sample_rate = 1;
    settings.playback_rate = 1;
    const CableowlCreated created = cableowl_new(settings, sound, 20);
    return cableowl_process(created.state, sound, 20, halves, FRAMES, ones, FRAMES, ones, FRAMES, ones, FRAMES, rates,
                            FRAMES, 1.0, none, out, 2 * FRAMES);
}

/* The call that once never returned when rounding up. */
static uint32_t far_advance(void) {
    const float sound[2] = {0.5f, 0.5f};
    const double most_negative[1] = {-1.7976931348623157e308};
    CableowlSettings settings;
    memset(&settings, 0, sizeof settings);
    settings.sample_rate = 2;
    settings.playback_rate = 1;
    float out[2];
    const CableowlCreated created = cableowl_new(settings, sound, 2);
    return cableowl_process(created.state, sound, 2, ones, 1, ones, 1, ones, 1, ones, 1, most_negative, 1, 4.9e-324, none,
                            out, 2)
        .refusal;
}

int main(void) {
    const unsigned int plain = now();
    float expected[2 * FRAMES];
    const CableowlProcessed answer = subnormal_block(expected);
    expect(answer.refusal == CABLEOWL_ACCEPTED, "plain: accepted");
    expect(far_advance() == CABLEOWL_REFUSAL_ADVANCE, "plain: too far");

    for (int i = 0; i < MODES; i += 1) {
        float out[2 * FRAMES];
        set(modes[i]);
        const CableowlProcessed loose = subnormal_block(out);
        const uint32_t returned = far_advance();
        const CableowlFloatMode given = cableowl_float_mode_hold();
        const unsigned int within = now();
        float held_out[2 * FRAMES];
        const CableowlProcessed held = subnormal_block(held_out);
        const uint32_t refused = far_advance();
        cableowl_float_mode_give_back(given);
        const unsigned int after = now();
        set(plain);
        expect(within == plain && after == modes[i], "the mode is held, and given back");
        expect(held.steps == answer.steps && memcmp(held_out, expected, sizeof expected) == 0, "held: the same frames");
        expect(memcmp(&held.state, &answer.state, sizeof held.state) == 0, "held: the same state");
        expect(refused == CABLEOWL_REFUSAL_ADVANCE, "held: the same refusal");
        /* Where subnormal numbers count as 0, so does the time step. */
        expect(returned == CABLEOWL_ACCEPTED || returned == CABLEOWL_REFUSAL_ADVANCE ||
                   (i == 0 && returned == CABLEOWL_REFUSAL_TIME_STEP),
               "not held: it returns");
        expect(loose.refusal == CABLEOWL_ACCEPTED, "not held: accepted");
        if (i == 0) expect(memcmp(out, expected, sizeof out) != 0, "flushing is seen, or this test shows nothing");
    }

    printf("%d differ\n", faults);
    return faults == 0 ? 0 : 1;
}
