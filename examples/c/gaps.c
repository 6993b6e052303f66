/* The call that finds the gaps, on one case: prints `Y,k,n,tried` and, for each empty task, its node's number from 0 and the gap found, or
   `R,number,line,item`.
     gaps [FILE]
   Without FILE the case is read from standard input. */
#include <stdio.h>

#include "cuecheck.h"

/* One byte more than a case may have, so that a longer input is not cut to a fitting length. */
static uint8_t text[CUECHECK_TEXT + 1];
static uint64_t states[CUECHECK_STATES];
static cuecheck_node nodes[CUECHECK_NODES];
static uint32_t work[CUECHECK_WORK];

int main(int argc, char **argv)
{
    FILE *in = argc > 1 ? fopen(argv[1], "rb") : stdin;
    if (in == NULL) {
        perror(argv[1]);
        return 2;
    }
    size_t len = fread(text, 1, sizeof text, in);
    if (ferror(in)) {
        perror("read");
        return 2;
    }

    cuecheck_found f = cuecheck_find_gaps(text, len, states, CUECHECK_STATES, nodes, CUECHECK_NODES, work, CUECHECK_WORK);
    if (f.number != 0) {
        printf("R,%u,%u,%u\n", (unsigned)f.number, (unsigned)f.line, (unsigned)f.item);
        return 0;
    }
    printf("Y,%u,%u,%u\n", (unsigned)f.cues, (unsigned)f.nodes, (unsigned)f.tried);
    for (uint32_t i = 0; i < f.nodes; i++) {
        if (nodes[i].letter == 2) {
            printf("node %u: gap %u\n", (unsigned)i, (unsigned)nodes[i].place);
        }
    }
    return 0;
}
