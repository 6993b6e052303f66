#!/usr/bin/env python3
"""Writes the stored cases of the call that finds the gaps: FOLDER/data and FOLDER/args. Each CARD is the folder of a card's worked cases, of which
those of this call are taken: Card 4's, then Card 7's. What is due is printed by the program stored_gaps and goes to FOLDER/stdout.

    gap_cases.py FOLDER CARD...
"""

import sys
from pathlib import Path

LIMIT = 65535
ASKED = (8008, 3000, 16384)


class E:
    """An empty task of a kind, with the gap that is claimed."""

    def __init__(self, gap=0, kind=0):
        self.gap, self.kind = gap, kind


class L:
    """A leaf; without a position it has the next one."""

    def __init__(self, action=0, position=None):
        self.action, self.position = action, position


class D:
    """A task with subtasks and constraints; tasks with the same name share a method."""

    def __init__(self, subtasks, constraints=(), name=None):
        self.subtasks, self.constraints, self.name = subtasks, list(constraints), name


def line(letter, *numbers):
    return ",".join([letter] + [str(n) for n in numbers]) + "\n"


def counted(numbers):
    return [len(numbers), *numbers]


class Writer:
    """The text of a tree. Actions are (needed, forbidden, added, deleted); a kind is the constraints of its empty method. Propositions beyond those that
    come up, and methods that no node uses, may be asked for."""

    def __init__(self, root, actions=(), kinds=((),), initial=(), propositions=8, unused=()):
        self.actions, self.kinds, self.initial, self.propositions = list(actions), kinds, initial, propositions
        self.methods = [(kind, [], kinds[kind]) for kind in range(len(kinds))]
        self.plan, self.nodes, self.names = {}, [], {}
        self.next = 1
        goal = self.task(root)
        self.methods += [(goal, subtasks, constraints) for subtasks, constraints in unused]
        self.goal = goal
        self.compound = 1 + max(task for task, _, _ in self.methods)

    def task(self, node):
        """Numbers a task and writes its nodes; compound tasks count from 0 here, actions below 0."""
        if isinstance(node, L):
            position = node.position or self.next
            self.next = position + 1
            self.plan[position] = node.action
            self.nodes.append(("L", node.action, position))
            return -1 - node.action
        if isinstance(node, E):
            self.nodes.append(("E", node.kind, node.gap))
            return node.kind
        at = len(self.nodes)
        self.nodes.append(None)
        number = self.names.get(node.name) if node.name else None
        if number is None:
            number = len(self.methods)
            self.methods.append((number, None, node.constraints))
            if node.name:
                self.names[node.name] = number
        subtasks = [self.task(subtask) for subtask in node.subtasks]
        self.methods[number] = (number, subtasks, self.methods[number][2])
        self.nodes[at] = ("D", number)
        return number

    def text(self):
        a = len(self.actions)
        k = max(self.plan, default=0)
        plan = [self.plan.get(i, 0) for i in range(1, k + 1)]
        number = lambda task: a + task if task >= 0 else -1 - task
        out = line("N", self.propositions, a, self.compound, len(self.methods), number(self.goal), k, len(self.nodes))
        out += line("I", *counted(self.initial))
        for sets in self.actions:
            out += line("A", *[n for one in sets for n in counted(one)])
        for task, subtasks, constraints in self.methods:
            out += line("M", number(task), *counted([number(t) for t in subtasks]), len(constraints))
            out += "".join(constraint + "\n" for constraint in constraints)
        out += line("P", *plan)
        return out + "".join(line(*node) for node in self.nodes)


def ladder(k):
    """Action a makes proposition a true: in a plan 0, 1, .. it is true from state a + 1 on."""
    return [((), (), (a,), ()) for a in range(k)]


def row(k, e, constraints=(), gaps=None, kinds=((),)):
    """So many empty tasks, then so many cues, below one task."""
    gaps = gaps or [0] * e
    root = D([E(gap, n % len(kinds)) for n, gap in enumerate(gaps)] + [L(a) for a in range(k)], constraints)
    return Writer(root, ladder(k), kinds, propositions=max(8, k + 1)).text()


# Actions 0 and 1 in turn, and 2 for the last cue: proposition 2 is true in the last state only, 5 never.
TURNS = [((), (), (0,), ()), ((), (), (1,), (0,)), ((), (), (2,), ())]


def blocks(k, size=32):
    """So many cues of action 0, 1, 0, 1, .. and 2 in blocks."""
    leaves = [L(2 if i == k - 1 else i % 2) for i in range(k)]
    cut = [leaves[i : i + size] for i in range(0, k, size)]
    return [D(block) for block in cut] if len(cut) <= 20 else [D([D(block) for block in cut[i : i + 8]]) for i in range(0, len(cut), 8)]


def long_row(k, e, constraints=()):
    """Cues in blocks behind the empty tasks, which stand in tasks of their own if they are many."""
    empties = [E() for _ in range(e)]
    while len(empties) > 19:
        empties = [D(empties[i : i + 19]) for i in range(0, len(empties), 19)]
    return Writer(D(empties + blocks(k), constraints), TURNS).text()


def padded(make, length):
    """The text brought to a length by methods that no node uses; `make` takes them and gives a text."""
    unused = []
    wide = "W,4294967295,0,4294967295"
    while length - len(make(unused)) > 1400:
        unused.append(([0] * 32, [wide] * 32))
    lines = ["B,0,1"] * 10
    lacking = lambda: length - len(make(unused + [([0] * 32, lines)]))
    while lacking() >= 60:
        lines.append(wide)
    # Lines B,0,n have 6 to 15 bytes.
    left = lacking()
    count = -(-left // 15)
    sizes = [left // count + (n < left % count) for n in range(count)]
    assert all(6 <= size <= 15 for size in sizes) and len(lines) + count <= 64, (left, len(lines))
    lines += ["B,0," + "1" * (size - 5) for size in sizes]
    assert lacking() == 0
    return make(unused + [([0] * 32, lines)])


def long_text(length, gaps, constraints, k):
    """A text of just this length: empty tasks, 25 cues, and any others in blocks."""
    root = lambda: D([E(gap) for gap in gaps] + [L(a) for a in range(min(k, 25))] + blocks_of_last(k), constraints)
    return padded(lambda unused: Writer(root(), ladder(min(k, 25)) + [((), (), (), ())], unused=unused, propositions=30).text(), length)


def blocks_of_last(k):
    """Cues 26 and on in blocks of 25."""
    left = max(0, k - 25)
    return [D([L(25) for _ in range(min(25, left - i))]) for i in range(0, left, 25)]


def own():
    """Name, text, and the lengths if they are not those asked for."""
    exact = [ASKED]
    short = [(8007, 3000, 16384), (4004, 3000, 16384), (0, 3000, 16384), (8008, 2999, 16384), (8008, 0, 16384), (8008, 3000, 16383), (8008, 3000, 0),
             (8007, 2999, 16383), (8008, 2999, 16383)]
    more = [(8009, 3001, 16385), (8040, 3032, 16416)]
    late = row(3, 2, ["B,0,1", "B,1,2"])
    yield "1-accepted", late, exact + short + more
    yield "1-none", row(3, 2, ["B,0,1", "b,0,1"]), exact + short + more
    yield "1-too-many", row(9, 7), short[:1] + short[3:4] + short[5:6] + more
    yield "1-unreadable", "N\n", short
    yield "3-empty", "", exact
    yield "3-unended", late[:-1], exact
    yield "3-surplus-line", late + "\n", exact
    yield "3-gap-missing", late.replace("E,0,0\n", "E,0\n", 1), exact
    yield "3-gap-over", late.replace("E,0,0\n", "E,0,0,0\n", 1), exact
    yield "3-gap-leading-zero", late.replace("E,0,0\n", "E,0,00\n", 1), exact
    yield "3-gap-no-number", late.replace("E,0,0\n", "E,0,x\n", 1), exact
    yield "3-gap-4294967296", late.replace("E,0,0\n", "E,0,4294967296\n", 1), exact
    yield "4-gap-4294967295", late.replace("E,0,0\n", "E,0,4294967295\n", 1), exact
    yield "4-gap-k-plus-1", late.replace("E,0,0\n", "E,0,4\n", 1), exact
    yield "4-second-gap", row(3, 2, gaps=[3, 4]), exact
    yield "4-gap-1-without-cues", row(0, 1, gaps=[1]), exact
    yield "4-gap-of-7-empty-tasks", row(9, 7, gaps=[0, 0, 0, 0, 0, 0, 10]), exact
    yield "4-513-propositions", late.replace("N,8,", "N,513,", 1), exact
    never = [((7,), (), (), ())]
    yield "5-cue-1", Writer(D([E(), L()]), never).text(), exact
    yield "5-before-15", Writer(D([E()] * 20 + [L()]), never).text(), exact
    yield "5-before-16", Writer(D([E(), L()], ["B,0,1"]), never).text(), exact
    yield "6-leaf-for-an-empty-task", late.replace("E,0,0\n", "L,0,1\n", 1), exact
    yield "21-surplus-node", late.replace(",6\n", ",7\n", 1) + "E,0,0\n", exact
    yield "21-surplus-nodes-before-15", row(9, 6).replace(",16\n", ",17\n", 1) + "E,0,0\n", exact
    yield "22-over-too-soon", late.replace(",6\n", ",5\n", 1)[: late.rindex("L")], exact
    yield "20-d-for-an-empty-method", late.replace("E,0,0\n", "D,0\n", 1), exact
    yield "20-e-for-another-method", late.replace("D,1\n", "E,1,0\n", 1), exact
    yield "64-levels", Writer(nested(63, E()), ladder(1)).text(), exact
    yield "64-levels-late", Writer(D([nested(62, E()), L()], ["O,1,0"]), ladder(1)).text(), exact
    yield "7-level-65", Writer(nested(64, E()), ladder(1)).text(), exact
    yield "7-before-15", Writer(D([nested(64, E())] + [E()] * 19 + [L()]), ladder(1)).text(), exact
    yield "8-claimed-earlier", late.replace("L,1,2", "L,1,1"), exact
    yield "8-another-action", late.replace("L,0,1\nL,1,2", "L,0,2\nL,1,1"), exact
    yield "9-unclaimed", Writer(D([E(), L(0, 2)]), ladder(1)).text(), exact
    yield "9-before-15", Writer(D([E()] * 20 + [L(0, 2)]), ladder(1)).text(), exact
    yield "9-before-16", Writer(D([E(), L(0, 2)], ["B,0,1", "b,0,1"]), ladder(1)).text(), exact
    # Numbers of choices.
    for k, e in [(1, 19), (2, 12), (3, 9), (9, 6), (4, 8), (11, 5)]:
        yield f"k-{k}-e-{e}", row(k, e), exact
    for k, e in [(1, 20), (2, 13), (3, 10), (9, 7), (15, 5), (1, 31)]:
        yield f"15-k-{k}-e-{e}", row(k, e), exact
    for k, e in [(31, 4), (1, 32), (1, 33), (1, 64), (1, 65), (3, 16), (3, 32), (15, 8), (15, 16), (99, 4), (255, 4), (255, 8), (1000, 2), (100, 3), (1, 361)]:
        yield f"15-k-{k}-e-{e}", long_row(k, e), exact
    yield "15-whatever-is-broken", row(1, 20, ["O,1,0", "O,0,1", "b,0,0", "B,0,0"]), exact
    yield "15-whatever-is-claimed", row(1, 20, gaps=[1] * 20), exact
    for e in [1, 19, 20, 31]:
        yield f"k-0-e-{e}", row(0, e), exact
    yield "k-0-e-361", long_row(0, 361), exact
    yield "16-k-0-e-20", row(0, 20, ["B,0,0"]), exact
    yield "16-k-0-e-1", row(0, 1, kinds=(["F,0,0"],)), exact
    yield "k-0-both-ways", row(0, 2, ["O,0,1", "O,1,0"]), exact
    yield "e-0", row(3, 0, ["O,0,1", "W,1,0,4"]), exact
    yield "16-e-0", row(3, 0, ["O,1,0"]), exact
    yield "k-99-e-3", long_row(99, 3), exact
    yield "k-99-e-3-last", long_row(99, 3, ["B,2,7"]), exact
    yield "k-999-e-2-last", long_row(999, 2, ["B,2,3"]), exact
    yield "16-k-999-e-2", long_row(999, 2, ["O,0,1", "W,1,5,2"]), exact
    yield "k-1000-e-1-last", long_row(1000, 1, ["B,2,1"]), exact
    yield "16-k-1000-e-1", long_row(1000, 1, ["B,5,1"]), exact
    yield "k-1-e-19-last", row(1, 19, [f"B,0,{2**19 - 1}"]), exact
    yield "16-k-1-e-19", row(1, 19, [f"B,7,{2**19 - 1}"]), exact
    yield "k-1-e-19-first-but-one", row(1, 19, [f"F,0,{2**19 - 1}"]), exact
    yield "k-1-e-19-first-task-late", row(1, 19, ["B,0,1"]), exact
    yield "k-9-e-6-last", row(9, 6, ["B,8,63"]), exact
    yield "16-k-9-e-6", row(9, 6, ["B,9,63"]), exact
    yield "16-whatever-the-gaps", row(9, 6, ["O,7,6"]), exact
    # Dictionary order.
    yield "first-task-slowest", row(3, 3, ["B,0,1", "B,1,4"]), exact
    yield "last-task-fastest", row(3, 3, ["B,2,4"]), exact
    yield "all-at-last", row(3, 3, ["B,2,7"]), exact
    yield "first-of-two-ways", row(3, 2, ["O,0,1", "F,1,3"]), exact
    yield "second-of-two-ways", row(3, 2, ["O,1,0", "F,1,3"]), exact
    yield "9-before-10", row(12, 1, ["B,7,1", "O,0,10"]), exact
    yield "10-of-12", row(12, 1, ["B,9,1"]), exact
    yield "tree-order-not-plan-order", Writer(D([L(0, 2), D([E(), L(1, 3)], ["O,1,0"]), E(), L(2, 1)], ["O,2,3"]), ladder(3)).text(), exact
    yield "claimed-would-do", row(3, 2, ["B,0,1"], gaps=[2, 2]), exact
    yield "claimed-is-the-first", row(3, 2, ["B,0,1"], gaps=[1, 0]), exact
    yield "claimed-last", row(3, 2, gaps=[3, 3]), exact
    # Each letter.
    yield "order-after-a-cue", row(3, 1, ["O,2,0"]), exact
    yield "order-before-a-cue", row(3, 1, ["O,0,2", "F,0,1"]), exact
    yield "order-in-one-gap", row(3, 2, ["O,0,1", "O,1,0", "B,1,1"]), exact
    yield "before", row(3, 1, ["B,1,1"]), exact
    yield "before-small", Writer(D([E(), L(0), L(1)], ["b,0,1"]), [((), (), (), (0,)), ((), (), (), ())], initial=(0,)).text(), exact
    yield "after", row(3, 1, ["F,2,1"]), exact
    yield "after-small", Writer(D([E(), L(0), L(1)], ["f,0,1"]), [((), (), (), ()), ((), (), (), (0,))], initial=(0,)).text(), exact
    yield "between", row(3, 1, ["W,1,1,8"]), exact
    yield "between-small", Writer(D([E(), L(0), L(1)], ["w,1,0,4"]), [((), (), (), (0,)), ((), (), (), ())], initial=(0,)).text(), exact
    yield "between-the-other-way", row(3, 1, ["W,4,1,1", "O,2,0"]), exact
    yield "between-two-empty-tasks", row(3, 2, ["O,0,1", "W,1,1,2"]), exact
    yield "between-two-empty-tasks-small", row(3, 2, ["O,0,1", "w,1,1,2", "F,0,3"]), exact
    yield "between-itself", row(3, 1, ["W,1,1,1"]), exact
    yield "between-no-state", row(3, 2, ["W,1,7,2"]), exact
    dent = [((), (), (), ()), ((), (), (), (0,)), ((), (), (0,), ()), ((), (), (), ())]
    yield "between-dent", Writer(D([E(), L(0), L(1), L(2), L(3)], ["W,1,0,16"]), dent, initial=(0,)).text(), exact
    yield "16-before-both-signs", row(3, 1, ["B,0,1", "b,0,1"]), exact
    yield "16-after-both-signs", row(3, 1, ["F,0,1", "f,0,1"]), exact
    yield "16-orders", row(3, 1, ["O,0,1", "O,1,0"]), exact
    yield "16-order-and-between", row(3, 2, ["O,0,1", "W,1,7,2"]), exact
    yield "16-order-and-between-small", row(3, 2, ["O,0,1", "w,1,7,2", "W,1,7,2"]), exact
    # The empty method's own constraints.
    yield "own-before", row(3, 2, kinds=(["B,1,0"],)), exact
    yield "own-after-small", Writer(D([E(), L(0), E(), L(1)]), [((), (), (), ()), ((), (), (), (0,))], kinds=(["f,0,0"],), initial=(0,)).text(), exact
    yield "own-between", row(3, 1, kinds=(["W,0,2,0"],)), exact
    yield "own-of-two-kinds", row(3, 4, kinds=(["B,0,0"], ["b,2,0", "F,1,0"])), exact
    yield "own-at-the-root", Writer(E(0), (), kinds=(["b,0,0"],)).text(), exact
    # Sets with empty tasks and cues.
    yield "set-of-cue-and-empty", row(3, 2, ["F,1,5"]), exact
    yield "set-start-at-the-cue", row(3, 1, ["b,1,9", "B,0,1"]), exact
    yield "set-whole-task", Writer(D([D([E(), E()], ["F,1,0", "b,1,0"]), L(0), L(1)]), ladder(2)).text(), exact
    yield "set-of-three-empties", Writer(D([L(0), L(1), E(), E(), E()], ["B,1,28"]), ladder(2)).text(), exact
    yield "set-of-cues-and-eight-empties", Writer(D([L(0), L(1)] + [E() for _ in range(8)] + [D([L(0)])], ["F,1,1023", "O,10,9"]), ladder(2)).text(), exact
    yield "set-of-the-last-three-of-32", Writer(D([L(i % 2) for i in range(29)] + [E(), E(), E()], ["B,1,3758096384"]), ladder(2)).text(), exact
    yield "set-of-all-32", Writer(D([L(i % 2) for i in range(29)] + [E(), E(), E()], ["B,7,4294967295"]), ladder(2)).text(), exact
    yield "set-bit-31", Writer(D([L(i % 2) for i in range(31)] + [E()], ["O,30,31", "F,0,2147483648"]), ladder(2)).text(), exact
    # Empty tasks below others.
    inner = lambda *constraints: D([E(), L(0), E()], constraints)
    yield "nested", Writer(D([D([inner("O,1,0")]), L(1)], ["F,1,1"]), ladder(2)).text(), exact
    yield "nested-start", Writer(D([D([E(), L(1, 2), E()]), L(0, 1), L(2, 3)], ["B,0,1"]), ladder(3)).text(), exact
    yield "nested-end", Writer(D([inner(), L(1), L(2)], ["F,2,1"]), ladder(3)).text(), exact
    yield "nested-order", Writer(D([inner(), D([E(), L(1)])], ["O,0,1"]), ladder(2)).text(), exact
    yield "nested-empties-only", Writer(D([D([E(), D([E(), E()])]), L(0), L(1)], ["F,1,1", "b,0,1"]), ladder(2)).text(), exact
    yield "method-used-twice", Writer(D([D([E(), L(0, 1)], ["O,1,0"], name="x"), D([E(), L(0, 2)], ["O,1,0"], name="x")]), ladder(1)).text(), exact
    yield "16-method-used-twice", Writer(D([D([E(), L(0, 1)], ["B,0,1", "O,0,1"], name="x"), D([E(), L(0, 2)], name="x")]), ladder(1)).text(), exact
    yield "woven", Writer(D([D([L(0, 1), E(), L(2, 3)], ["O,0,1", "O,1,2"]), D([L(1, 2), E(), L(3, 4)], ["O,0,1", "O,1,2"])]), ladder(4)).text(), exact
    yield "woven-late", Writer(D([D([L(0, 1), E(), L(2, 3)], ["O,0,1"]), D([L(1, 2), E(), L(3, 4)], ["O,0,1", "W,2,2,4"])], ["F,3,1"]), ladder(4)).text(), exact
    # Texts about as long as they may be.
    yield "2-65536-bytes", long_text(LIMIT + 1, [12], [], 12), exact
    yield "65535-bytes-one-of-two", long_text(LIMIT, [10, 0], ["B,9,1", "F,10,3"], 12), exact
    yield "16-65535-bytes-100-too-long", long_text(LIMIT, [99], ["O,28,0"], 101), exact
    yield "65534-bytes-99-to-100", long_text(LIMIT - 1, [99], ["O,28,0"], 101), exact


def nested(levels, node):
    """A task within a task, so many of them."""
    for _ in range(levels):
        node = D([node])
    return node


def main():
    folder, *cards = map(Path, sys.argv[1:])
    data = folder / "data"
    data.mkdir(parents=True, exist_ok=True)
    for old in data.glob("*.case"):
        old.unlink()
    args = []
    for case in [case for card in cards for case in sorted(card.glob("*/call"))]:
        words = dict(entry.split(" ", 1) for entry in case.read_text().splitlines() if entry[0] != "#")
        if words["call"] != "gaps":
            continue
        # The folder of a card begins with its number.
        name = f"card{case.parent.parent.name[:2]}-{case.parent.name}.case"
        (data / name).write_bytes(case.with_name("case").read_bytes())
        args += [name] + [words.get(list_, str(asked)) for list_, asked in zip(("states", "nodes", "work"), ASKED)]
    seen = set()
    for name, text, lengths in own():
        name = f"own-card04-{name}.case"
        assert name not in seen, name
        seen.add(name)
        (data / name).write_bytes(text.encode())
        for three in lengths:
            args += [name] + [str(length) for length in three]
    (folder / "args").write_text("".join(word + "\n" for word in args))
    print(f"{len(list(data.glob('*.case')))} files, {len(args) // 4} cases, {sum(f.stat().st_size for f in data.glob('*.case'))} bytes")


if __name__ == "__main__":
    main()
