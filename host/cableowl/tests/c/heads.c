/* How long a salvage of version 2 takes for bytes without a record, and for a trace of the longest records, in seconds of
 * the processor. cc -O1 -I host/include heads.c libcableowl.a; heads [MEGABYTES] */
#include <stdio.h>
#include <stdlib.h>
#include <string.h>
#include <time.h>

#include "cableowl.h"

static uint8_t *bytes, *out;
static size_t length;

static void salvage(const char *name) {
    const clock_t began = clock();
    const CableowlSaved saved = cableowl_salvage_v2(bytes, length, out, length);
    const double seconds = (double)(clock() - began) / CLOCKS_PER_SEC;
    printf("%-44s %8.2f s, %llu records, %llu bytes skipped\n", name, seconds, (unsigned long long)saved.records,
           (unsigned long long)saved.skipped);
}

int main(int count, char **words) {
    length = (size_t)(count > 1 ? atoi(words[1]) : 1) << 20;
    bytes = malloc(length);
    out = malloc(length);
    if (bytes == NULL || out == NULL) return 1;

    memset(bytes, 0xff, length);
    salvage("FF");
    memset(bytes, 0xa5, length);
    salvage("A5");

    static uint8_t lanes[24 * 1024];
    const uint64_t values[80] = {1024};
    uint64_t at = 0;
    memset(bytes, 0, length);
    while (cableowl_write_record_v2(bytes, length, at, CABLEOWL_KIND_LANES, values, lanes, sizeof lanes).refusal == 0) {
        at += 24598;
    }
    salvage("blocks of 1,024 frames with lanes");

    /* A head of such a block, its frames, a time step of 0 and no signals, every 18 bytes: they cannot be closer. */
    const uint8_t head[18] = {0xa5, 0x1d, 5, 0x11, 0x60, 0, 4};
    for (size_t i = 0; i < length; i += 1) bytes[i] = head[i % 18];
    salvage("heads of such blocks, one in each 18 bytes");
    return 0;
}
