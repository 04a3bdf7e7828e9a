/* Plays a workload of the guard (host/tools/benches/tests/instructions.rs) through the C entry, or only makes it ready:
 * play ours|none RATE BLOCK LOOPED LANES FRAMES, where LOOPED is the frames of the loop, in the middle of the sound, and LANES
 * is once, constant, frames or rates. */
#include <stdlib.h>
#include <string.h>

#include "cableowl.h"

enum { HZ = 48000, SOUND = 48000 };

static float sound[2 * SOUND], gains[4][CABLEOWL_MAX_BLOCK_FRAMES], out[2 * CABLEOWL_MAX_BLOCK_FRAMES];
static double rates[CABLEOWL_MAX_BLOCK_FRAMES];

static double unit(void) {
    static unsigned long long x = 88172645463325252ULL;
    x ^= x << 13;
    x ^= x >> 7;
    x ^= x << 17;
    return (double)(x >> 11) * 0x1p-53;
}

static CableowlPlace place(int frame) {
    CableowlPlace place = {0.0, (uint64_t)frame, 1};
    return place;
}

int main(int argc, char **argv) {
    if (argc != 7) return 2;
    const int once = !strcmp(argv[5], "once"), constant = !strcmp(argv[5], "constant"), vary = !strcmp(argv[5], "rates");
    const float held[4] = {1, 0.5f, 0.8f, 0.9f};
    double rate = atof(argv[2]);
    int block = atoi(argv[3]), looped = atoi(argv[4]), start = (SOUND - looped) / 2;
    for (int i = 0; i < 2 * SOUND; i++) sound[i] = (float)(unit() * 2 - 1);
    for (int i = 0; i < block; i++) {
        for (int lane = 0; lane < 4; lane++) gains[lane][i] = constant ? 1 : (float)unit();
        rates[i] = vary ? rate * (1 + 0.001 * unit()) : rate;
    }
    CableowlSettings settings;
    memset(&settings, 0, sizeof settings);
    settings.sample_rate = HZ;
    settings.has_loop = 1;
    settings.playback_rate = rate;
    settings.start = settings.loop_region.start = place(start);
    settings.loop_region.end = place(start + looped);
    CableowlCreated created = cableowl_new(settings, sound, 2 * SOUND);
    if (created.refusal) return 3;
    const CableowlSignals none = {0, 0, 0, 0, 0};
    size_t n = (size_t)block;
    for (int left = strcmp(argv[1], "ours") ? 0 : atoi(argv[6]) / block; left > 0; left--) {
        CableowlProcessed played =
            once ? cableowl_process_held(created.state, sound, 2 * SOUND, held[0], held[1], held[2], held[3], rate, 1.0 / HZ,
                                         none, out, 2 * n)
                 : cableowl_process(created.state, sound, 2 * SOUND, gains[0], n, gains[1], n, gains[2], n, gains[3], n,
                                    rates, n, 1.0 / HZ, none, out, 2 * n);
        if (played.refusal) return 4;
        created.state = played.state;
    }
    return 0;
}
