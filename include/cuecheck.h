/* The calls of libcapi.a (crate capi). The caller lends every list: the calls allocate nothing and keep nothing. */
#ifndef CUECHECK_H
#define CUECHECK_H

#include <stddef.h>
#include <stdint.h>

#ifdef __cplusplus
extern "C" {
#endif

/* How many words a set of propositions has: proposition p is bit p % 64 of word p / 64. A state is such a set. */
#define CUECHECK_WORDS 8

/* The least lengths, in elements, not bytes. A shorter list is refused with number 1, a longer one is filled to its end. */
#define CUECHECK_STATES 8008 /* states 0 to 1,000, eight words each */
#define CUECHECK_NODES 3000
#define CUECHECK_WORK 16384

/* The greatest length of a text. A buffer one byte longer tells a text that is too long from one that fits. */
#define CUECHECK_TEXT 65535

/* Accepted: number, line and item are 0. Refused: a row of the table in README.md, and cues and nodes are 0. */
typedef struct cuecheck_reply {
    uint32_t number, line, item;
    uint32_t cues, nodes; /* k and n */
} cuecheck_reply;

/* What the write call answers. Accepted: number, line and item are 0. Refused: a row of the table in README.md, and the rest is 0. */
typedef struct cuecheck_written {
    uint32_t number, line, item;
    uint32_t cues, nodes; /* k and n */
    uint32_t length;      /* of the text put out, in bytes */
} cuecheck_written;

/* What the call that finds the gaps answers. Accepted: number, line and item are 0. Refused: a row of the table in README.md, and the rest is 0. */
typedef struct cuecheck_found {
    uint32_t number, line, item;
    uint32_t cues, nodes; /* k and n */
    uint32_t tried;       /* one more than there are choices of gaps ahead of the one found */
} cuecheck_found;

/* What the import call answers. Accepted: number, line and item are 0. Refused: a row of the table in README.md, and the rest is 0. */
typedef struct cuecheck_imported {
    uint32_t number, line, item;
    uint32_t cues, nodes; /* k and n, of the case made */
    uint32_t tried;       /* as in cuecheck_found */
    uint32_t length;      /* of the text put out, in bytes */
} cuecheck_imported;

/* What the step call answers. */
typedef struct cuecheck_stepped {
    uint32_t applied;  /* 1: the action applies, 0: it doesn't */
    uint32_t computed; /* bit w for word w: the words of the next state that were computed; 0 if the action doesn't apply */
} cuecheck_stepped;

/* A node of the tree. */
typedef struct cuecheck_node {
    uint32_t letter; /* 1: D, 2: E, 3: L */
    uint32_t label;  /* the method of D and E, the action of L */
    uint32_t place;  /* 0 of D, the gap of E, the position of L */
    uint32_t start;  /* start and end are doubled, so that a gap has a whole number: 2 * gap + 1, 2 * position */
    uint32_t end;
} cuecheck_node;

/* Judges a case. The lists may hold anything, but must not overlap. Accepted, states has states 0 to k and nodes a record for each node, in the
   tree's order, and zero after; refused, both are zero. work is zero after each call. It needs 276 KiB of stack (measured). */
cuecheck_reply cuecheck_check(const uint8_t *text, size_t text_len,
                              uint64_t *states, size_t states_len,
                              cuecheck_node *nodes, size_t nodes_len,
                              uint32_t *work, size_t work_len);

/* Reads a case and runs its plan (numbers 1 to 5), without judging the tree or the constraints. The lists as for cuecheck_check. It needs 194
   KiB of stack. */
cuecheck_reply cuecheck_replay(const uint8_t *text, size_t text_len,
                               uint64_t *states, size_t states_len,
                               uint32_t *work, size_t work_len);

/* Judges a case and, accepted, puts it out with each method's constraints in order (O, B, b, F, f, W, w, then by their fields as numbers), lines
   that repeat another of the same method left out, and the method's count of them following; all else stays as it is. The text is never longer
   than the one that came, and output is zero after it. The lists as for cuecheck_check. Refused, output is zero too. An output that is too short
   is the last thing refused: number 14, item the bytes needed. It has no least length. The call needs 278 KiB of stack (measured). */
cuecheck_written cuecheck_write(const uint8_t *text, size_t text_len,
                                uint64_t *states, size_t states_len,
                                cuecheck_node *nodes, size_t nodes_len,
                                uint32_t *work, size_t work_len,
                                uint8_t *output, size_t output_len);

/* Looks for the gaps of the empty tasks. Those that the text claims must be readable and in range, and are set aside. Numbers 1 to 9 and 20 to 22 are refused as by
   cuecheck_check; then, with e empty tasks, number 15 if (k + 1) to the power e is over 1,000,000, item e. Else the choices of a gap (0 to k) for each
   empty task are tried in dictionary order, gaps compared as numbers, the first task in the tree's order slowest, and the first choice is taken with
   which the text would be accepted; a text that its gaps would make longer than CUECHECK_TEXT is not. The lists as by the check of that text: each gap is
   the place of its node's record. If there is none: number 16, item the number of choices. Both have line 0, and the lists are zero. Numbers 10 to 14
   are not answered. The call needs 377 KiB of stack (measured). */
cuecheck_found cuecheck_find_gaps(const uint8_t *text, size_t text_len,
                                  uint64_t *states, size_t states_len,
                                  cuecheck_node *nodes, size_t nodes_len,
                                  uint32_t *work, size_t work_len);

/* Takes a plan in the planning competition's form: text is a case, names the name list of its tasks and methods, form the plan (README.md has both). The
   case's plan and nodes are replaced by the form's, with gaps 0, and the gaps of the case so made are looked for as by cuecheck_find_gaps.
   Refused, in this order, are: number 1; 2, 3 and 4 of the case; 17 and 18 of the name list, line by line and 17 first on each, item 1; the same of the
   form, item 0; 19, item 0; an output that is too short, number 14, item the bytes needed, even if they are more than CUECHECK_TEXT; then what
   cuecheck_find_gaps refuses of the made text, with that text's lines (2, 4 with over 1,000 action lines, 5, 6, 7, 15 and 16 can occur).
   17: a line that is missing, surplus or of another shape; the 3,001st action or compound line too, both counted together.
   18: a name that isn't listed for that use, one listed again among the tasks or among the methods (the later line), or another task or another number of
   subtasks than the method's.
   19: the first line that defines an id defined twice, twice a subtask, the root under a parent or not reached from the root, or that uses an id never
   defined.
   Accepted, the lists are as by cuecheck_find_gaps, the gaps found in the records; output has the made text with gaps 0 whatever they are, and zero after.
   Refused, output is zero too. It has no least length, nor have names and form any limit. The three texts are only read and may overlap or be the same; a
   list that is written overlaps nothing. The call needs 493 KiB of stack (measured). */
cuecheck_imported cuecheck_import(const uint8_t *text, size_t text_len,
                                  const uint8_t *names, size_t names_len,
                                  const uint8_t *form, size_t form_len,
                                  uint64_t *states, size_t states_len,
                                  cuecheck_node *nodes, size_t nodes_len,
                                  uint32_t *work, size_t work_len,
                                  uint8_t *output, size_t output_len);

/* Applies one action. If it applies, the next state is written in place of state; if not, state is as it came. A word whose added and deleted words are
   both zero passes through untouched; the others are computed, also where one comes out as it was, and computed has their bits, none above bit 7. Needed and
   forbidden words don't count. state must not overlap the other four. */
cuecheck_stepped cuecheck_step(uint64_t state[CUECHECK_WORDS],
                               const uint64_t needed[CUECHECK_WORDS], const uint64_t forbidden[CUECHECK_WORDS],
                               const uint64_t added[CUECHECK_WORDS], const uint64_t deleted[CUECHECK_WORDS]);

#ifdef __cplusplus
}
#endif

#endif
