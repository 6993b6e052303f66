#!/usr/bin/env python3
"""Writes the stored cases of the step call to FILE. CARD is the folder of Card 5's worked cases. What is due is printed by the program
stored_steps.

    step_cases.py FILE CARD
"""

import re
import sys
from pathlib import Path

SETS = ("state", "needed", "forbidden", "added", "deleted")
WORDS = 8
FULL = 2**64 - 1
TOP = 2**63
NONE = [0] * WORDS
ALL = [FULL] * WORDS


def word(w, bits=1):
    """A set with members in one word."""
    return [bits if at == w else 0 for at in range(WORDS)]


def case(state=NONE, needed=NONE, forbidden=NONE, added=NONE, deleted=NONE):
    return [state, needed, forbidden, added, deleted]


def single_words(w):
    """What an action does in one word, the others quiet; and what it only asks of that word, with another one added to."""
    some, other = [3] * WORDS, (w + 3) % WORDS
    yield "added", case(some, added=word(w, 4))
    yield "deleted", case(some, deleted=word(w, 2))
    yield "both", case(some, added=word(w, 4), deleted=word(w, 2))
    yield "alike", case(some, added=word(w, 6), deleted=word(w, 6))
    yield "needed", case(some, needed=word(w, 2), added=word(other, 8))
    yield "forbidden", case(some, forbidden=word(w, 4), deleted=word(other, 1))
    yield "no-needed", case(some, needed=word(w, TOP), added=ALL)
    yield "no-forbidden", case(some, forbidden=word(w, 1), added=ALL, deleted=ALL)
    yield "added-is-there", case(some, added=word(w, 3))
    yield "deleted-is-not", case(some, deleted=word(w, 12))
    yield "as-it-was", case(some, added=word(w, 1), deleted=word(w, TOP))


def edges(w):
    """The first and the last bit of a word, and all of them."""
    for name, bits in (("0", 1), ("63", TOP), ("all", FULL)):
        yield f"{name}-added", case(added=word(w, bits))
        yield f"{name}-deleted", case(ALL, deleted=word(w, bits))
        yield f"{name}-no", case(NONE, needed=word(w, bits), added=word(w, bits))


def whole_states():
    """All words at once, and none."""
    for name, state in (("empty", NONE), ("full", ALL)):
        yield f"nothing-{name}", case(state)
        yield f"nothing-asked-{name}", case(state, needed=state, forbidden=[FULL - bits for bits in state])
        yield f"all-added-{name}", case(state, added=ALL)
        yield f"all-deleted-{name}", case(state, deleted=ALL)
        yield f"all-alike-{name}", case(state, added=ALL, deleted=ALL)
        yield f"one-bit-each-{name}", case(state, added=[1] * WORDS, deleted=[TOP] * WORDS)
    yield "no-nothing-needed", case(needed=word(7))
    yield "no-nothing-forbidden", case(ALL, forbidden=word(0, TOP))
    yield "no-all-needed", case(needed=ALL, added=ALL)
    yield "no-all-forbidden", case(ALL, forbidden=ALL, deleted=ALL)
    yield "no-needed-and-forbidden", case(word(3), needed=word(4), forbidden=word(3), added=word(5))
    yield "added-here-deleted-there", case(ALL, added=[5, 0, 5, 0, 5, 0, 5, 0], deleted=[0, 9, 0, 9, 0, 9, 0, 9])
    yield "even-words", case([6] * WORDS, [2] * WORDS, [8] * WORDS, [1, 0] * 4, [2, 0] * 4)
    yield "odd-words", case([6] * WORDS, [2] * WORDS, [8] * WORDS, [0, 1] * 4, [0, 2] * 4)
    yield "first-and-last", case(added=word(0), deleted=word(7, TOP))
    yield "all-but-the-first", case(added=[0] + [FULL] * 7)
    yield "all-but-the-last", case(ALL, deleted=[FULL] * 7 + [0])


def own():
    for w in range(WORDS):
        yield from ((f"word-{w}-{name}", sets) for name, sets in single_words(w))
    for w in (0, WORDS - 1):
        yield from ((f"bits-of-word-{w}-{name}", sets) for name, sets in edges(w))
    yield from whole_states()


def worked(card):
    """The card's own cases, their sets as they stand there."""
    for call in sorted(card.glob("*/call")):
        words = dict(line.split(" ", 1) for line in call.read_text().splitlines() if line[0] != "#")
        yield f"card05-{call.parent.name}", [words[name].split(",") for name in SETS]


def main():
    file, card = map(Path, sys.argv[1:])
    cases = list(worked(card)) + [(f"own-card05-{name}", sets) for name, sets in own()]
    names = [name for name, _ in cases]
    assert len(set(names)) == len(names) and all(re.fullmatch("[A-Za-z0-9-]{1,60}", name) for name in names), names
    lines = []
    for name, sets in cases:
        lines.append(f"case {name}")
        lines += [f"{label} {','.join(map(str, one))}" for label, one in zip(SETS, sets)]
    file.write_text("".join(line + "\n" for line in lines))
    print(f"{len(cases)} cases, {file.stat().st_size} bytes")


if __name__ == "__main__":
    main()
