/* The check call on one case: prints `Y,k,n` or `R,number,line,item`. Given `nodes`, prints the record of each node of an accepted case too.
     check [FILE [nodes]]
   Without FILE the case is read from standard input. */
#include <stdio.h>
#include <string.h>

#include "cuecheck.h"

/* One byte more than a case may have, so that a longer input is not cut to a fitting length. */
static uint8_t text[CUECHECK_TEXT + 1];
static uint64_t states[CUECHECK_STATES];
static cuecheck_node nodes[CUECHECK_NODES];
static uint32_t work[CUECHECK_WORK];

int main(int argc, char **argv)
{
    FILE *in = argc > 1 ? fopen(argv[1], "rb") : stdin;
    if (in == NULL) {
        perror(argv[1]);
        return 2;
    }
    size_t len = fread(text, 1, sizeof text, in);
    if (ferror(in)) {
        perror("read");
        return 2;
    }

    cuecheck_reply r = cuecheck_check(text, len, states, CUECHECK_STATES, nodes, CUECHECK_NODES, work, CUECHECK_WORK);
    if (r.number != 0) {
        printf("R,%u,%u,%u\n", (unsigned)r.number, (unsigned)r.line, (unsigned)r.item);
        return 0;
    }
    printf("Y,%u,%u\n", (unsigned)r.cues, (unsigned)r.nodes);
    if (argc > 2 && strcmp(argv[2], "nodes") == 0) {
        for (uint32_t i = 0; i < r.nodes; i++) {
            const cuecheck_node *n = &nodes[i];
            printf("%u,%u,%u,%u,%u\n", (unsigned)n->letter, (unsigned)n->label, (unsigned)n->place, (unsigned)n->start, (unsigned)n->end);
        }
    }
    return 0;
}
