#!/usr/bin/env python3
"""Document 01, with Cards 1 to 7 of document 02, rendered a second time, as naively as it can be
said, to cross-check plain.rs.

Sets of ints, fractions for half indexes, the text cut at line feeds and commas, a tree of
objects, a regular expression for each sort of line of a plan form. It shares no code and no data
layout with the Rust renderings.

    naive.py cases FOLDER     every .case of the folder against its .expect
    naive.py cards FOLDER     the folders of a card's cases (call, case, names, form, expect,
                              expect.output): those that call check, replay, write, gaps, import or
                              step and hold now
    naive.py stored FOLDER    the stored cases of the write call (args, data, stdout)
    naive.py stored-gaps FOLDER    those of the call that finds the gaps
    naive.py stored-imports FOLDER    those of the import call
    naive.py stored-steps FILE STDOUT    those of the step call, and what is printed of them
    naive.py dump FILE        every record that the program `dump` wrote (texts, steps and plan forms
                              with the plain rendering's answers and lists)
"""

import itertools
import math
import re
import struct
import sys
from collections import Counter, defaultdict
from fractions import Fraction
from pathlib import Path

PLAIN = re.compile(rb"0|[1-9][0-9]*")

# How many cards have landed; a state's words and the most propositions; the most cues; what is asked
# of the lent lists.
LANDED = 7
WORDS = 8
PROPOSITIONS = 64 * WORDS
CUES = 1000
STATES = WORDS * (CUES + 1)
NODES = 3000
WORK = 16384


class Refused(Exception):
    def __init__(self, number, line, item):
        super().__init__(number, line, item)
        self.answer = (number, line, item, 0, 0)


# ------------------------------------------------------------------ reading


class Fields:
    """The fields of one line, taken from the left."""

    def __init__(self, line_number, line):
        self.line = line_number
        self.fields = line.split(b",")
        self.item = 0

    def refuse(self, number):
        raise Refused(number, self.line, self.item)

    def next(self):
        self.item += 1
        if self.item > len(self.fields):
            self.refuse(3)
        return self.fields[self.item - 1]

    def letter(self, due):
        field = self.next()
        if field not in [bytes([b]) for b in due]:
            self.refuse(3)
        return field.decode()

    def number(self, allowed):
        """A plain number for which allowed(number) is true."""
        field = self.next()
        if not PLAIN.fullmatch(field) or len(field) > 10 or int(field) > 4294967295:
            self.refuse(3)
        if not allowed(int(field)):
            self.refuse(4)
        return int(field)

    def set(self, propositions):
        count = self.number(lambda n: n <= propositions)
        members = []
        for _ in range(count):
            members.append(self.number(lambda n: n < propositions and all(n > m for m in members)))
        return set(members)

    def mask(self, subtasks):
        """A set of subtask numbers; None stands for the whole task."""
        mask = self.number(lambda n: all(j < subtasks for j in range(32) if n >> j & 1))
        return {j for j in range(32) if mask >> j & 1} or None

    def end(self):
        if len(self.fields) > self.item:
            self.item += 1
            self.refuse(3)


class Lines:
    def __init__(self, text):
        self.text = text
        self.at = 0
        self.line = 0

    def due(self):
        self.line += 1
        feed = self.text.find(b"\n", self.at)
        if feed < 0:
            raise Refused(3, self.line, 0)
        line = self.text[self.at : feed]
        self.at = feed + 1
        return Fields(self.line, line)

    def end(self):
        if self.at < len(self.text):
            raise Refused(3, self.line + 1, 1)


class Case:
    pass


def read(text):
    lines = Lines(text)
    case = Case()
    f = lines.due()
    f.letter(b"N")
    case.propositions = f.number(lambda n: n <= PROPOSITIONS)
    case.action_count = f.number(lambda n: n <= 1024)
    compound = f.number(lambda n: n <= 1024)
    case.tasks = case.action_count + compound
    case.is_compound = lambda t: case.action_count <= t < case.tasks
    method_count = f.number(lambda n: n <= 2048)
    case.goal = f.number(case.is_compound)
    case.k = f.number(lambda n: n <= CUES)
    case.n = f.number(lambda n: 1 <= n <= NODES)
    f.end()
    f = lines.due()
    f.letter(b"I")
    case.initial = f.set(case.propositions)
    f.end()
    case.actions = []
    for _ in range(case.action_count):
        f = lines.due()
        f.letter(b"A")
        case.actions.append([f.set(case.propositions) for _ in range(4)])
        f.end()
    case.methods = [read_method(lines, case) for _ in range(method_count)]
    f = lines.due()
    f.letter(b"P")
    case.plan = [f.number(lambda a: a < case.action_count) for _ in range(case.k)]
    f.end()
    case.plan_line = lines.line
    case.nodes = [read_node(lines, case, method_count) for _ in range(case.n)]
    lines.end()
    return case


def read_method(lines, case):
    f = lines.due()
    f.letter(b"M")
    task = f.number(case.is_compound)
    count = f.number(lambda n: n <= 32)
    subtasks = [f.number(lambda t: t < case.tasks) for _ in range(count)]
    constraint_count = f.number(lambda n: n <= 64)
    f.end()
    return task, subtasks, [read_constraint(lines, case, count) for _ in range(constraint_count)]


def read_constraint(lines, case, count):
    f = lines.due()
    letter = f.letter(b"OBbFfWw")
    proposition = lambda: f.number(lambda p: p < case.propositions)
    if letter == "O":
        i = f.number(lambda i: i < count)
        j = f.number(lambda j: j < count and j != i)
        constraint = ("O", {i}, None, {j})
    elif letter in "Ww":
        u = f.mask(count)
        p = proposition()
        constraint = (letter, u, p, f.mask(count))
    else:
        p = proposition()
        constraint = (letter, f.mask(count), p, None)
    f.end()
    return constraint


def read_node(lines, case, method_count):
    f = lines.due()
    letter = f.letter(b"DEL")
    if letter == "L":
        label = f.number(lambda a: a < case.action_count)
        place = f.number(lambda i: 1 <= i <= case.k)
    else:
        label = f.number(lambda m: m < method_count)
        place = f.number(lambda g: g <= case.k) if letter == "E" else 0
    f.end()
    return letter, label, place, lines.line


# ------------------------------------------------------------------ running


def step(state, needed, forbidden, added, deleted):
    """Whether an action applies, the state that is left, and the words computed: those that have a
    proposition which is added or deleted."""
    if not needed <= state or forbidden & state:
        return False, state, set()
    return True, (state - deleted) | added, {p // 64 for p in added | deleted}


def run(case):
    states = [case.initial]
    for i in range(1, case.k + 1):
        applies, after, _ = step(states[i - 1], *case.actions[case.plan[i - 1]])
        if not applies:
            raise Refused(5, case.plan_line, i)
        states.append(after)
    return states


# ------------------------------------------------------------------ walking


class Tree:
    """A node with its subtrees; start and end are fractions."""

    def __init__(self, node, line, subtrees):
        self.letter, self.label, self.place, _ = node
        self.line = line
        self.subtrees = subtrees
        if self.letter == "L":
            self.start = self.end = Fraction(self.place)
        elif self.letter == "E":
            self.start = self.end = self.place + Fraction(1, 2)
        else:
            self.start = min(t.start for t in subtrees)
            self.end = max(t.end for t in subtrees)

    def preorder(self):
        yield self
        for subtree in self.subtrees:
            yield from subtree.preorder()


def walk(case):
    left = list(case.nodes)
    claimed = set()

    def walk_node(task, level):
        # Nodes over too soon.
        if not left:
            raise Refused(22, case.nodes[-1][3] + 1, 0)
        node = left[0]
        letter, label, place, line = node
        # The node's own task, and the subtasks of its method, if it has one.
        own, subtasks = (label, None) if letter == "L" else case.methods[label][:2]
        if own != task:
            raise Refused(6, line, 0)
        # A D line with an empty method or an E line with one that isn't.
        if letter == "D" and subtasks == [] or letter == "E" and subtasks != []:
            raise Refused(20, line, 0)
        if level == 65:
            raise Refused(7, line, 0)
        if letter == "L":
            if case.plan[place - 1] != label or place in claimed:
                raise Refused(8, line, place)
            claimed.add(place)
        left.pop(0)
        return Tree(node, line, [walk_node(subtask, level + 1) for subtask in subtasks or []])

    root = walk_node(case.goal, 1)
    # A surplus node, whatever its line holds.
    if left:
        raise Refused(21, left[0][3], 0)
    unclaimed = set(range(1, case.k + 1)) - claimed
    if unclaimed:
        raise Refused(9, case.plan_line, min(unclaimed))
    return root


# ------------------------------------------------------------------ constraints


def holds(tree, constraint, states):
    letter, u, p, v = constraint
    members = lambda s: [tree] if s is None else [tree.subtrees[j] for j in s]
    c = lambda s: math.ceil(min(t.start for t in members(s)))
    f = lambda s: math.floor(max(t.end for t in members(s)))
    # A capital letter asks that p be true in a state, a small one that it be false.
    so = lambda state: (p in state) == letter.isupper()
    if letter == "O":
        return f(u) < c(v)
    if letter in "Bb":
        return so(states[c(u) - 1])
    if letter in "Ff":
        return so(states[f(u)])
    return all(so(state) for state in states[f(u) : max(f(u), c(v))])


NUMBER = {"O": 10, "B": 11, "b": 11, "F": 12, "f": 12, "W": 13, "w": 13}


def try_constraints(case, root, states):
    for tree in root.preorder():
        if tree.letter == "L":
            continue
        for item, constraint in enumerate(case.methods[tree.label][2]):
            if not holds(tree, constraint, states):
                raise Refused(NUMBER[constraint[0]], tree.line, item)


# ------------------------------------------------------------------ the calls


def words(state):
    return [sum(1 << (p % 64) for p in state if p // 64 == w) for w in range(WORDS)]


def propositions(words):
    return {64 * w + bit for w, word in enumerate(words) for bit in range(64) if word >> bit & 1}


def step_words(sets):
    """The step call on a state and four sets, given as words: answer, number for the trace, words."""
    applies, state, computed = step(*map(propositions, sets))
    return applies, sum(2**w for w in computed), words(state)


def record(tree):
    return [" DEL".index(tree.letter), tree.label, tree.place, int(2 * tree.start), int(2 * tree.end)]


def read_within(text, states_len, nodes_len, work_len, whole):
    """The case, if the lists that are lent and the text have the right lengths; without `whole` no
    node list is lent."""
    if states_len < STATES:
        raise Refused(1, 0, 1)
    if whole and nodes_len < NODES:
        raise Refused(1, 0, 2)
    if work_len < WORK:
        raise Refused(1, 0, 3)
    if len(text) > 65535:
        raise Refused(2, 0, 0)
    return read(text)


def call(text, states_len, nodes_len, work_len, whole):
    """The check call, or without `whole` the replay call: answer, states and nodes, flat."""
    try:
        case = read_within(text, states_len, nodes_len, work_len, whole)
        states = run(case)
        records = []
        if whole:
            root = walk(case)
            try_constraints(case, root, states)
            records = [number for tree in root.preorder() for number in record(tree)]
        return (0, 0, 0, case.k, case.n), [w for state in states for w in words(state)], records
    except Refused as refused:
        return refused.answer, [], []


def write(text, states_len, nodes_len, work_len, output_len):
    """The write call: answer, states and nodes, flat, and the whole output."""
    answer, states, records = call(text, states_len, nodes_len, work_len, True)
    if answer[0] != 0:
        return answer + (0,), [], [], bytes(output_len)
    put_out = tidy(text)
    if len(put_out) > output_len:
        return (14, 0, len(put_out), 0, 0, 0), [], [], bytes(output_len)
    return answer + (len(put_out),), states, records, put_out + bytes(output_len - len(put_out))


def tidy(text):
    """An accepted text, its constraint lines taken as many as each M line says, as numbers, and put
    out anew, the least of those left after the other."""
    lines = text.decode().split("\n")[:-1]
    done = []
    while lines:
        line = lines.pop(0)
        if line[0] != "M":
            done.append(line)
            continue
        *head, c = line.split(",")
        left = set()
        for _ in range(int(c)):
            letter, *fields = lines.pop(0).split(",")
            left.add(("O B b F f W w".split().index(letter), tuple(int(field) for field in fields)))
        done.append(",".join(head + [str(len(left))]))
        while left:
            least = min(left)
            left.remove(least)
            done.append(",".join(["OBbFfWw"[least[0]]] + [str(number) for number in least[1]]))
    return "".join(line + "\n" for line in done).encode()


def find_gaps(text, states_len, nodes_len, work_len):
    """The call that finds the gaps: answer, states and nodes, flat."""
    # 01's checks down to 9, with 20, 21 and 22: of the check's refusals all but those of the constraints.
    answer, _, _ = call(text, states_len, nodes_len, work_len, True)
    if answer[0] not in (0, 10, 11, 12, 13):
        return answer + (0,), [], []
    lines = text.decode().splitlines()
    empty = [i for i, line in enumerate(lines) if line.startswith("E")]
    k = int(lines[0].split(",")[6])
    if (k + 1) ** len(empty) > 1000000:
        return (15, 0, len(empty), 0, 0, 0), [], []
    tried = 0
    # Products come in dictionary order, the last place fastest.
    for gaps in itertools.product(range(k + 1), repeat=len(empty)):
        tried += 1
        for i, gap in zip(empty, gaps):
            letter, m, _ = lines[i].split(",")
            lines[i] = f"{letter},{m},{gap}"
        changed = "".join(line + "\n" for line in lines).encode()
        answer, states, records = call(changed, states_len, nodes_len, work_len, True)
        if answer[0] == 0:
            return answer + (tried,), states, records
    return (16, 0, tried, 0, 0, 0), [], []


# ------------------------------------------------------------------ the plan form


def pattern(line):
    """A line of the name list or of the form, with # for an id and @ for a name."""
    # A name has the bytes from 33 to 126 but for the comma, which is 44.
    return re.compile(line.replace("#", "(0|[1-9][0-9]*)").replace("@", r"([\x21-\x2b\x2d-\x7e]+)").encode())


LISTED = pattern("#,@")
ACTION = pattern("# @")
ROOT = pattern("root #")
COMPOUND = pattern("# @ -> @((?: (?:0|[1-9][0-9]*))*)")


class Sheet:
    """The lines of the name list or of the form, taken from the top."""

    def __init__(self, text, item):
        # What follows the last line feed is no line.
        *self.lines, self.rest = text.split(b"\n")
        self.item = item
        self.line = 0

    def refuse(self, number):
        raise Refused(number, self.line, self.item)

    def next(self):
        self.line += 1
        if self.line > len(self.lines):
            self.refuse(17)
        return self.lines[self.line - 1]

    def words(self, shape, line):
        """What stands for the ids and names in a line of this shape."""
        match = shape.fullmatch(line)
        if not match:
            self.refuse(17)
        return match.groups()

    def id(self, digits):
        if len(digits) > 10 or int(digits) > 4294967295:
            self.refuse(17)
        return int(digits)

    def end(self):
        if self.line < len(self.lines) or self.rest:
            self.line += 1
            self.refuse(17)


def read_names(text, case):
    """The numbers of the tasks by their names, and those of the methods."""
    sheet = Sheet(text, 1)
    both = []
    for count in (case.tasks, len(case.methods)):
        numbers = {}
        for number in range(count):
            digits, name = sheet.words(LISTED, sheet.next())
            if digits != str(number).encode():
                sheet.refuse(17)
            if name in numbers:
                sheet.refuse(18)
            numbers[name] = number
        both.append(numbers)
    sheet.end()
    return both


def read_form(text, case, tasks, methods):
    """The action lines as (line, id, action), the root line as (line, id), and the compound lines as
    (line, id, method, subtasks)."""
    sheet = Sheet(text, 0)
    if sheet.next() != b"==>":
        sheet.refuse(17)
    actions, compounds = [], []
    while (line := sheet.next()).split(b" ")[0] != b"root":
        digits, name = sheet.words(ACTION, line)
        number = sheet.id(digits)
        if len(actions) == 3000:
            sheet.refuse(17)
        if name not in tasks or case.is_compound(tasks[name]):
            sheet.refuse(18)
        actions.append((sheet.line, number, tasks[name]))
    root = sheet.line, sheet.id(*sheet.words(ROOT, line))
    while (line := sheet.next()) != b"<==":
        digits, task, method, behind = sheet.words(COMPOUND, line)
        number = sheet.id(digits)
        subtasks = [sheet.id(word) for word in behind.split()]
        if len(actions) + len(compounds) == 3000:
            sheet.refuse(17)
        if task not in tasks or not case.is_compound(tasks[task]) or method not in methods:
            sheet.refuse(18)
        owner, expected, _ = case.methods[methods[method]]
        if owner != tasks[task] or len(expected) != len(subtasks):
            sheet.refuse(18)
        compounds.append((sheet.line, number, methods[method], subtasks))
    sheet.end()
    return actions, root, compounds


def faulty_lines(actions, root, compounds):
    """All lines that have one of the faults of number 19."""
    root_line, root_id = root
    defining = defaultdict(set)
    for line, number, *_ in actions + compounds:
        defining[number].add(line)
    parents = Counter(subtask for *_, subtasks in compounds for subtask in subtasks)
    reached, more = set(), {root_id}
    while more:
        reached |= more
        more = {subtask for _, number, _, subtasks in compounds if number in reached for subtask in subtasks} - reached
    faulty = set()
    for number, lines in defining.items():
        if len(lines) > 1 or parents[number] > (0 if number == root_id else 1) or number not in reached:
            faulty |= lines
    for line, used in [(root_line, [root_id])] + [(line, subtasks) for line, _, _, subtasks in compounds]:
        if not set(used) <= set(defining):
            faulty.add(line)
    return faulty


def make(text, actions, root, compounds):
    """The case that a form without faults makes."""
    own = text.decode().split("\n")
    header = own[0].split(",")[:6] + [str(len(actions)), str(len(actions) + len(compounds))]
    plan_line = [line[:1] for line in own].index("P")
    made = [",".join(header)] + own[1:plan_line] + [",".join(["P"] + [str(action) for _, _, action in actions])]
    nodes = {}
    for position, (_, number, action) in enumerate(actions, 1):
        nodes[number] = f"L,{action},{position}", []
    for _, number, method, subtasks in compounds:
        nodes[number] = (f"D,{method}" if subtasks else f"E,{method},0"), subtasks
    left = [root[1]]
    while left:
        line, subtasks = nodes[left.pop(0)]
        made.append(line)
        left = subtasks + left
    return "".join(line + "\n" for line in made).encode()


def import_form(text, names, form, states_len, nodes_len, work_len, output_len):
    """The import call: answer, states and nodes, flat, and the whole output."""
    lengths = states_len, nodes_len, work_len
    try:
        case = read_within(text, *lengths, True)
        plan_form = read_form(form, case, *read_names(names, case))
        faulty = faulty_lines(*plan_form)
        if faulty:
            raise Refused(19, min(faulty), 0)
        made = make(text, *plan_form)
        if len(made) > output_len:
            raise Refused(14, 0, len(made))
    except Refused as refused:
        return refused.answer + (0, 0), [], [], bytes(output_len)
    answer, states, records = find_gaps(made, *lengths)
    if answer[0] != 0:
        return answer + (0,), [], [], bytes(output_len)
    return answer + (len(made),), states, records, made + bytes(output_len - len(made))


# ------------------------------------------------------------------ printing


def trimmed(numbers):
    """Without the zeros at the end."""
    while numbers and numbers[-1] == 0:
        numbers.pop()
    return numbers


def printed(answer):
    """As the programs print it; an accepted write call with its length, found gaps with the number tried,
    an import with both."""
    return "Y," + ",".join(map(str, answer[3:])) + "\n" if answer[0] == 0 else "R,%d,%d,%d\n" % answer[:3]


SETS = ("state", "needed", "forbidden", "added", "deleted")


def printed_step(sets):
    """What the step call tells of sets given in text: answer and words, then the number for the trace."""
    applies, mask, state = step_words([[int(word) for word in one.split(",")] for one in sets])
    return ",".join(["Y" if applies else "N"] + [str(word) for word in state]) + f"\nmask {mask}\n"


# ------------------------------------------------------------------ comparing


def compare_cases(folder):
    """The answers are 01's: what was 6 there may be 20, 21 or 22 since Card 7."""
    cases = sorted(Path(folder).glob("*.case"))
    differing = finer = 0
    for case in cases:
        answer = printed(call(case.read_bytes(), STATES, NODES, WORK, True)[0])
        expected = case.with_suffix(".expect").read_text()
        if answer == expected:
            continue
        print(f"{case.name}: {answer!r}, expected {expected!r}")
        if answer in [expected.replace("R,6,", f"R,{number},") for number in (20, 21, 22)]:
            finer += 1
        else:
            differing += 1
    print(f"{len(cases)} cases, {differing} differences, {finer} answers finer than 01's 6")
    return differing


def compare_cards(folder):
    """Answer, output, states and records of each case."""
    count = differing = 0
    for case in sorted(Path(folder).glob("*/call")):
        words = dict(line.split(" ", 1) for line in case.read_text().splitlines() if line[0] != "#")
        since, until = words["holds"].split("-")
        calls = ("check", "replay", "write", "gaps", "import", "step")
        if words["call"] not in calls or not int(since) <= LANDED <= int(until):
            continue
        count += 1
        told, output = told_of_step(words) if words["call"] == "step" else told_of_text(words, case)
        put_out = case.with_name("expect.output")
        expected = put_out.read_bytes() if put_out.exists() else b""
        if told != case.with_name("expect").read_text() or output != expected + bytes(len(output) - len(expected)):
            differing += 1
            print(f"{case.parent.name}: {told!r}")
    print(f"{count} cases, {differing} differences")
    return differing


def told_of_step(words):
    return printed_step([words[name] for name in SETS]), b""


def told_of_text(words, case):
    """What is told of the text beside the file `case`: answer, states and records; and the output."""
    lengths = [int(words.get(name, asked)) for name, asked in (("states", STATES), ("nodes", NODES), ("work", WORK))]
    text = case.with_name("case").read_bytes()
    output = b""
    if words["call"] == "write":
        answer, states, records, output = write(text, *lengths, int(words["output"]))
    elif words["call"] == "gaps":
        answer, states, records = find_gaps(text, *lengths)
    elif words["call"] == "import":
        beside = [case.with_name(name).read_bytes() for name in ("names", "form")]
        answer, states, records, output = import_form(text, *beside, *lengths, int(words["output"]))
    else:
        answer, states, records = call(text, *lengths, words["call"] == "check")
    told = printed(answer)
    for name, numbers, size in (("S", states, WORDS), ("T", records, 5)):
        for i in range(0, len(numbers), size):
            told += ",".join([name, str(i // size)] + [str(n) for n in trimmed(numbers[i : i + size])]) + "\n"
    return told, output


def compare_stored(folder):
    """Five words to a case: its file, the bytes of the output, the lengths of the three lists."""
    folder = Path(folder)
    words = (folder / "args").read_text().split()
    told = (folder / "stdout").read_bytes()
    count = differing = 0
    for i in range(0, len(words), 5):
        name, output_len, *lengths = words[i : i + 5]
        text = (folder / "data" / name).read_bytes()
        answer, _, _, output = write(text, *map(int, lengths), int(output_len))
        due = (" ".join(words[i : i + 5]) + " " + printed(answer)).encode() + output[: answer[5]]
        count += 1
        if not told.startswith(due):
            differing += 1
            print(f"{name}: {due[:200]!r}")
            break
        told = told[len(due) :]
    print(f"{count} cases, {differing} differences, {len(told)} bytes over")
    return differing + len(told)


# Stored cases with more choices tried are left out: each is a check.
PATIENCE = 3000


def compare_stored_gaps(folder):
    """Four words to a case: its file, the lengths of the three lists. An accepted one is followed by its node records."""
    folder = Path(folder)
    words = (folder / "args").read_text().split()
    told = (folder / "stdout").read_text().splitlines(keepends=True)
    count = differing = left_out = 0
    for i in range(0, len(words), 4):
        name, *lengths = words[i : i + 4]
        own = [told.pop(0)]
        while told and told[0].startswith("T,"):
            own.append(told.pop(0))
        count += 1
        letter, *numbers = own[0].split()[-1].split(",")
        if int(numbers[2]) > PATIENCE and (letter == "Y" or numbers[0] == "16"):
            left_out += 1
            continue
        answer, _, records = find_gaps((folder / "data" / name).read_bytes(), *map(int, lengths))
        due = [" ".join(words[i : i + 4]) + " " + printed(answer)]
        for node in range(0, len(records), 5):
            due.append("T," + ",".join(map(str, records[node : node + 5])) + "\n")
        if own != due:
            differing += 1
            print(f"{name}: {due[:3]!r}, stored {own[:3]!r}")
    print(f"{count} cases, {left_out} of them left out, {differing} differences, {len(told)} lines over")
    return differing + len(told)


def compare_stored_imports(folder):
    """Seven words to a case: its file, the name list's and the form's, the bytes of the output, the lengths of the three lists. An
    accepted one is followed by its node records and the text put out."""
    folder = Path(folder)
    words = (folder / "args").read_text().split()
    told = (folder / "stdout").read_bytes()
    count = differing = 0
    for i in range(0, len(words), 7):
        *files, output_len, states_len, nodes_len, work_len = words[i : i + 7]
        texts = [(folder / "data" / name).read_bytes() for name in files]
        answer, _, records, output = import_form(*texts, *map(int, (states_len, nodes_len, work_len, output_len)))
        due = " ".join(words[i : i + 7]) + " " + printed(answer)
        for node in range(0, len(records), 5):
            due += "T," + ",".join(map(str, records[node : node + 5])) + "\n"
        due = due.encode() + output[: answer[6]]
        count += 1
        if not told.startswith(due):
            differing += 1
            print(f"{files}: {due[:200]!r}")
            break
        told = told[len(due) :]
    print(f"{count} cases, {differing} differences, {len(told)} bytes over")
    return differing + len(told)


def compare_stored_steps(file, stdout):
    """Six lines to a case: its name, and a set on each of the others. Three lines are printed of it."""
    lines = Path(file).read_text().splitlines()
    told = Path(stdout).read_text().splitlines(keepends=True)
    count = differing = 0
    for i in range(0, len(lines), 6):
        assert [line.split(" ")[0] for line in lines[i : i + 6]] == ["case", *SETS], lines[i]
        due = lines[i] + "\n" + printed_step([line.split(" ")[1] for line in lines[i + 1 : i + 6]])
        own, told = "".join(told[:3]), told[3:]
        count += 1
        if own != due:
            differing += 1
            print(f"{due!r}, stored {own!r}")
    print(f"{count} cases, {differing} differences, {len(told)} lines over")
    return differing + len(told)


class Dump:
    def __init__(self, path):
        self.data = Path(path).read_bytes()
        self.at = 0

    def numbers(self, kind, count):
        found = struct.unpack_from(f"<{count}{kind}", self.data, self.at)
        self.at += struct.calcsize(f"<{count}{kind}")
        return list(found)

    def list(self, kind):
        return self.numbers(kind, self.numbers("I", 1)[0])

    def records(self):
        while self.at < len(self.data):
            text = bytes(self.list("B"))
            lengths = self.numbers("I", 3)
            check = tuple(self.numbers("I", 5)), self.list("Q"), self.list("I"), self.list("I")
            replay = tuple(self.numbers("I", 5)), self.list("Q"), [], self.list("I")
            output = self.numbers("I", 1)[0]
            written = tuple(self.numbers("I", 6)), self.list("Q"), self.list("I"), self.list("I"), bytes(self.list("B"))
            found = None
            if self.numbers("I", 1)[0]:
                found = tuple(self.numbers("I", 6)), self.list("Q"), self.list("I"), self.list("I")
            *sets, left = [self.numbers("Q", WORDS) for _ in range(6)]
            applied, computed = self.numbers("I", 2)
            step = sets, (applied == 1, computed, left)
            yield text, lengths, check, replay, output, written, found, step, self.imported()

    def imported(self):
        """The three texts, what is lent, and what the import call made of it."""
        texts = [bytes(self.list("B")) for _ in range(3)]
        lengths = self.numbers("I", 4)
        answer = tuple(self.numbers("I", 7))
        return texts, lengths, (answer, self.list("Q"), self.list("I"), self.list("I"), bytes(self.list("B")))


def compare_dump(path):
    count = differing = later = applied = 0
    numbers, writes, finds, imports = Counter(), Counter(), Counter(), Counter()

    def compare(name, given, naive, plain):
        nonlocal differing
        if naive == plain:
            return
        differing += 1
        if differing <= 10:
            print(f"input {count}, {name}, {given}: naive {str(naive)[:200]}, plain {str(plain)[:200]}")
            print(text[:2000])

    for text, lengths, check, replay, output_len, written, found, (sets, stepped), imported in Dump(path).records():
        for name, plain, whole in (("check", check, True), ("replay", replay, False)):
            answer, states, records = call(text, *lengths, whole)
            compare(name, lengths, (answer, trimmed(states), trimmed(records), []), plain)
            if whole:
                numbers[answer[0]] += 1
        answer, states, records, output = write(text, *lengths, output_len)
        compare("write", (lengths, output_len), (answer, trimmed(states), trimmed(records), [], output), written)
        writes[answer[0]] += 1
        if found:
            answer, states, records = find_gaps(text, *lengths)
            compare("gaps", lengths, (answer, trimmed(states), trimmed(records), []), found)
            finds[answer[0]] += 1
            later += answer[5] > 1
        compare("step", sets, step_words(sets), stepped)
        applied += stepped[0]
        texts, lent, plain = imported
        answer, states, records, output = import_form(*texts, *lent)
        compare("import", (texts, lent), (answer, trimmed(states), trimmed(records), [], output), plain)
        imports[answer[0]] += 1
        count += 1
    print("check answers by number:", dict(sorted(numbers.items())))
    print("write answers by number:", dict(sorted(writes.items())))
    print("gaps answers by number:", dict(sorted(finds.items())), "accepted not with the first choice:", later)
    print("import answers by number:", dict(sorted(imports.items())))
    print("steps that apply:", applied)
    print(f"{count} inputs, {differing} differences")
    return differing


if __name__ == "__main__":
    kind, *paths = sys.argv[1:]
    kinds = {
        "cases": compare_cases,
        "cards": compare_cards,
        "stored": compare_stored,
        "stored-gaps": compare_stored_gaps,
        "stored-imports": compare_stored_imports,
        "stored-steps": compare_stored_steps,
        "dump": compare_dump,
    }
    sys.exit(1 if kinds[kind](*paths) else 0)
