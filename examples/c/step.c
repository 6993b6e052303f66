/* The step call, with one action twice: it needs proposition 511, forbids 256, adds 256 and deletes 0. Prints the answer, the number for the trace and
   the words of the state: yes with the next one, words 0 and 4 computed, then, since 256 is true now, no with the state as it came and none computed.
     step */
#include <inttypes.h>
#include <stdio.h>

#include "cuecheck.h"

static void put(uint64_t set[CUECHECK_WORDS], unsigned p)
{
    set[p / 64] |= (uint64_t)1 << p % 64;
}

int main(void)
{
    uint64_t state[CUECHECK_WORDS] = {0}, needed[CUECHECK_WORDS] = {0}, forbidden[CUECHECK_WORDS] = {0};
    uint64_t added[CUECHECK_WORDS] = {0}, deleted[CUECHECK_WORDS] = {0};
    put(state, 0);
    put(state, 511);
    put(needed, 511);
    put(forbidden, 256);
    put(added, 256);
    put(deleted, 0);
    for (int cue = 0; cue < 2; cue++) {
        cuecheck_stepped s = cuecheck_step(state, needed, forbidden, added, deleted);
        printf("%s,computed %u", s.applied ? "yes" : "no", (unsigned)s.computed);
        for (int word = 0; word < CUECHECK_WORDS; word++) {
            printf(",%" PRIu64, state[word]);
        }
        putchar('\n');
    }
    return 0;
}
