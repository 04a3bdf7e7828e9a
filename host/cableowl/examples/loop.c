/* Plays a sound of six frames in a loop of three, from C:
 *
 *     cc loop.c $(pkg-config --cflags --libs cableowl) -o loop && ./loop
 *
 * It prints the left sample of nine frames: 1 2 3 4 2 3 4 2 3. */
#include <stdio.h>
#include <string.h>

#include <cableowl.h>

enum { FRAMES = 9 };

int main(void) {
    const float sound[12] = {1, 1, 2, 2, 3, 3, 4, 4, 5, 5, 6, 6};

    if (cableowl_version() != CABLEOWL_VERSION) {
        fprintf(stderr, "the archive and the header have different versions\n");
        return 1;
    }

    CableowlSettings settings;
    memset(&settings, 0, sizeof settings);
    settings.sample_rate = 48000;
    settings.playback_rate = 1;
    settings.has_loop = 1;
    settings.loop_region.start.kind = CABLEOWL_PLACE_SAMPLES;
    settings.loop_region.start.samples = 1;
    settings.loop_region.end.kind = CABLEOWL_PLACE_SAMPLES;
    settings.loop_region.end.samples = 4;
    const CableowlCreated created = cableowl_new(settings, sound, 12);
    if (created.refusal != 0) {
        fprintf(stderr, "creation is refused with %u\n", (unsigned)created.refusal);
        return 1;
    }

    /* Each lane has a number for each frame: fade, volume, left gain, right gain, rate. */
    float ones[FRAMES];
    double rates[FRAMES];
    float out[2 * FRAMES];
    for (int i = 0; i < FRAMES; i++) {
        ones[i] = 1;
        rates[i] = 1;
    }
    const CableowlSignals none = {0, 0, 0, 0, 0};
    const CableowlProcessed block = cableowl_process(created.state, sound, 12, ones, FRAMES, ones, FRAMES, ones, FRAMES,
                                                     ones, FRAMES, rates, FRAMES, 1.0 / 48000, none, out, 2 * FRAMES);
    if (block.refusal != 0) {
        fprintf(stderr, "the block is refused with %u\n", (unsigned)block.refusal);
        return 1;
    }
    for (int i = 0; i < FRAMES; i++) {
        printf("%g%c", out[2 * i], i + 1 < FRAMES ? ' ' : '\n');
    }
    return 0;
}
