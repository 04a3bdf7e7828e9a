/* Compares the sentences of the refusals with those of the Rust crate. */

#include <stdio.h>
#include <string.h>

#include "cableowl.h"

/* The Rust crate's sentences for 0 to 39. */
extern const char *const TEXTS[40];

int main(void) {
    int differ = 0;
    for (uint64_t number = 0; number < 40; number++) {
        if (strcmp(cableowl_refusal_text(number), TEXTS[number]) != 0) {
            printf("%d: %s\n", (int)number, cableowl_refusal_text(number));
            differ++;
        }
    }
    /* Any number has a text, also one above 32 bits. */
    if (strcmp(cableowl_refusal_text(UINT64_C(4294967297)), TEXTS[39]) != 0) differ++;
    printf("%d differ\n", differ);
    return differ != 0;
}
