/* The write call on one case: puts the tidy text out. A refused case gives `R,number,line,item` on standard error, and status 1.
     tidy [FILE]
   Without FILE the case is read from standard input. */
#include <stdio.h>

#include "cuecheck.h"

/* One byte more than a case may have, so that a longer input is not cut to a fitting length. */
static uint8_t text[CUECHECK_TEXT + 1];
static uint64_t states[CUECHECK_STATES];
static cuecheck_node nodes[CUECHECK_NODES];
static uint32_t work[CUECHECK_WORK];
/* The text put out is never longer than the one that came. */
static uint8_t output[CUECHECK_TEXT];

int main(int argc, char **argv)
{
    FILE *in = argc > 1 ? fopen(argv[1], "rb") : stdin;
    if (in == NULL) {
        perror(argv[1]);
        return 2;
    }
    size_t len = fread(text, 1, sizeof text, in);
    if (ferror(in)) {
        perror("read");
        return 2;
    }

    cuecheck_written w = cuecheck_write(text, len, states, CUECHECK_STATES, nodes, CUECHECK_NODES, work, CUECHECK_WORK,
                                        output, sizeof output);
    if (w.number != 0) {
        fprintf(stderr, "R,%u,%u,%u\n", (unsigned)w.number, (unsigned)w.line, (unsigned)w.item);
        return 1;
    }
    if (fwrite(output, 1, w.length, stdout) != w.length) {
        perror("write");
        return 2;
    }
    return 0;
}
