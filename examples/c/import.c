/* The import call, on a case, a name list and a plan in the planning competition's form: prints `Y,k,n,tried,length`, the case made, with gaps 0, and for
   each empty task its node's number from 0 and the gap found; or `R,number,line,item`.
     import CASE NAMES FORM */
#include <stdio.h>
#include <stdlib.h>

#include "cuecheck.h"

static uint64_t states[CUECHECK_STATES];
static cuecheck_node nodes[CUECHECK_NODES];
static uint32_t work[CUECHECK_WORK];
/* No longer text would be accepted: one is refused with 14, and its item is the length. */
static uint8_t output[CUECHECK_TEXT];

static void end(const char *name)
{
    perror(name);
    exit(2);
}

/* The whole of a file: a name list and a form may have any length. */
static uint8_t *contents(const char *name, size_t *len)
{
    FILE *in = fopen(name, "rb");
    if (in == NULL) {
        end(name);
    }
    uint8_t *bytes = NULL;
    size_t room = 0, more = 0;
    *len = 0;
    do {
        *len += more;
        if (*len == room) {
            room = 2 * room + CUECHECK_TEXT + 1;
            bytes = realloc(bytes, room);
            if (bytes == NULL) {
                end(name);
            }
        }
        more = fread(bytes + *len, 1, room - *len, in);
    } while (more > 0);
    if (ferror(in)) {
        end(name);
    }
    fclose(in);
    return bytes;
}

int main(int argc, char **argv)
{
    if (argc != 4) {
        fprintf(stderr, "arguments: CASE NAMES FORM\n");
        return 2;
    }
    size_t text_len, names_len, form_len;
    const uint8_t *text = contents(argv[1], &text_len);
    const uint8_t *names = contents(argv[2], &names_len);
    const uint8_t *form = contents(argv[3], &form_len);

    cuecheck_imported m = cuecheck_import(text, text_len, names, names_len, form, form_len, states, CUECHECK_STATES,
                                          nodes, CUECHECK_NODES, work, CUECHECK_WORK, output, sizeof output);
    if (m.number != 0) {
        printf("R,%u,%u,%u\n", (unsigned)m.number, (unsigned)m.line, (unsigned)m.item);
        return 0;
    }
    printf("Y,%u,%u,%u,%u\n", (unsigned)m.cues, (unsigned)m.nodes, (unsigned)m.tried, (unsigned)m.length);
    if (fwrite(output, 1, m.length, stdout) != m.length) {
        end("write");
    }
    for (uint32_t i = 0; i < m.nodes; i++) {
        if (nodes[i].letter == 2) {
            printf("node %u: gap %u\n", (unsigned)i, (unsigned)nodes[i].place);
        }
    }
    return 0;
}
