#!/usr/bin/env python3
"""Writes the stored cases of the import call: FOLDER/data and FOLDER/args. CARD is the folder of Card 6's worked cases. A text that several
cases have in common is stored once, under the first one's name. What is due is printed by the program stored_imports and goes to FOLDER/stdout.

    form_cases.py FOLDER CARD
"""

import sys
from pathlib import Path

from gap_cases import ASKED, LIMIT, D, E, L, Writer, ladder, nested, padded

ROOM = 400

# 01's panel: the case with another plan and other nodes, its name list and the form of its tree.
PANEL = """N,3,3,2,3,3,0,1
I,1,0
A,0,1,0,1,0,0
A,0,0,1,1,0
A,1,1,0,1,2,1,1
M,3,3,4,1,2,3
O,0,2
O,1,2
W,1,0,4
M,4,1,0,0
M,4,0,1
B,0,0
P
D,0
"""
NAMES = ["0,convert", "1,load", "2,take", "3,panel", "4,in-km/h", "0,whole", "1,by-convert", "2,as-is"]
FORM = ["==>", "1 load", "2 take", "root 0", "0 panel -> whole 3 1 2", "3 in-km/h -> as-is", "<=="]


def ended(lines):
    return "".join(line + "\n" for line in lines)


def put(lines, number, *new):
    """The lines with others, or none, in the place of one, by its number from 1."""
    return lines[: number - 1] + list(new) + lines[number:]


def of_panel(form=FORM, names=NAMES, case=PANEL, room=ROOM):
    """What is lent to a call: three texts and the bytes of the output. A text may come as its lines."""
    return [text if isinstance(text, str) else ended(text) for text in (case, names, form)] + [room]


class Planner(Writer):
    """A tree's form, its name list, and a case beside them that has its model alone."""

    def __init__(self, root, *args, **more):
        super().__init__(root, *args, **more)
        self.number = lambda task: len(self.actions) + task if task >= 0 else -1 - task

    def beside(self):
        """The case with no cue, and one node."""
        lines = self.text().split("\n")
        plan = [line[:1] for line in lines].index("P")
        header = lines[0].split(",")[:6] + ["0", "1"]
        return ended([",".join(header)] + lines[1:plan] + ["P", "D,0"])

    def listed(self, tasks=None, methods=None):
        """The lines of the name list; names are plain unless others are given."""
        tasks = tasks or [f"a{n}" for n in range(len(self.actions))] + [f"t{n}" for n in range(self.compound)]
        methods = methods or [f"m{n}" for n in range(len(self.methods))]
        return [f"{n},{name}" for listed in (tasks, methods) for n, name in enumerate(listed)]

    def form(self, ids=lambda node: node, order=lambda lines: lines, names=None):
        """The form; `ids` gives the id of each node, `order` the compound lines in their order."""
        every = [line.split(",", 1)[1] for line in names or self.listed()]
        tasks, methods = every[: len(self.actions) + self.compound], every[len(self.actions) + self.compound :]
        compounds, below, actions = [], self.below(), {}
        for node, (letter, label, *place) in enumerate(self.nodes):
            if letter == "L":
                actions[place[0]] = f"{ids(node)} {tasks[label]}"
                continue
            task = tasks[self.number(self.methods[label][0])]
            compounds.append(" ".join([str(ids(node)), task, "->", methods[label]] + [str(ids(child)) for child in below[node]]))
        return ["==>"] + [actions[place] for place in sorted(actions)] + [f"root {ids(0)}"] + order(compounds) + ["<=="]

    def below(self):
        """The nodes of each node's subtasks."""
        below = [[] for _ in self.nodes]
        open_nodes = []
        for node, (letter, label, *_) in enumerate(self.nodes):
            while open_nodes and len(below[open_nodes[-1]]) == len(self.methods[self.nodes[open_nodes[-1]][1]][1]):
                open_nodes.pop()
            if open_nodes:
                below[open_nodes[-1]].append(node)
            if letter == "D":
                open_nodes.append(node)
        return below

    def lent(self, room=None, **more):
        """As of_panel; the output is just long enough unless another is asked for."""
        return [self.beside(), ended(self.listed()), ended(self.form(**more)), len(self.text()) if room is None else room]


def row(k, e, constraints=()):
    """So many empty tasks, then so many cues, below one task."""
    return Planner(D([E() for _ in range(e)] + [L(a) for a in range(k)], constraints), ladder(k), propositions=max(8, k + 1))


EXACT = [ASKED]
SHORT = [(8007, 3000, 16384), (0, 3000, 16384), (8008, 2999, 16384), (8008, 0, 16384), (8008, 3000, 16383), (8008, 3000, 0), (8007, 2999, 16383), (8008, 2999, 16383)]
MORE = [(8009, 3001, 16385), (8040, 3032, 16416)]


def own():
    """Name, what is lent, and the lengths of the lists if they are not those asked for."""
    yield "panel", of_panel(), SHORT + MORE
    yield "1-before-all", of_panel(["x"], ["x"], "N\n", 0), SHORT[:5:2] + EXACT
    yield from ((name, lent, EXACT) for part in PARTS for name, lent in part())


# ---------------------------------------------------------------- the case, and the order of the refusals


def of_cases():
    """Refusals of the case, those that come before others, and 14."""
    yield "2-before-names", of_panel(names=["x"], case="N" * (LIMIT + 1))
    yield "3-case-empty", of_panel(names=["x"], case="")
    yield "3-own-node-line", of_panel(["x"], ["x"], PANEL.replace("D,0", "D"))
    yield "3-own-plan-line", of_panel(["x"], ["x"], PANEL.replace("P\n", "P,0\n"))
    yield "4-own-node-count", of_panel(["x"], ["x"], PANEL.replace(",0,1\n", ",0,3001\n", 1))
    yield "own-nodes-replaced", of_panel(case=PANEL.replace(",0,1\n", ",3,2\n", 1).replace("P\nD,0", "P,0,2,1\nL,0,2\nE,1,3"))
    yield "list-17-before-form", of_panel(["x"], put(NAMES, 8, "2 as-is"))
    yield "list-18-before-form", of_panel(["x"], put(NAMES, 8, "2,whole"))
    yield "form-17-before-14", of_panel(put(FORM, 2, "1  load"), room=0)
    yield "form-18-before-14", of_panel(put(FORM, 2, "1 unload"), room=0)
    yield "19-before-14", of_panel(put(FORM, 2, "9 load"), room=0)
    yield "14-one-byte-short", of_panel(room=149)
    yield "14-just-enough", of_panel(room=150)
    yield "14-no-byte", of_panel(room=0)


# ---------------------------------------------------------------- the name list


def of_list_shapes():
    """17 in the name list."""
    listed = lambda name, *lines: (f"17-list-{name}", of_panel(["x"], lines[0] if len(lines) == 1 else put(NAMES, *lines)))
    yield listed("empty", "")
    yield listed("line-missing", NAMES[:-1])
    yield listed("no-methods", NAMES[:5])
    yield listed("unended", ended(NAMES)[:-1])
    yield listed("surplus-line", NAMES + ["3,more"])
    yield listed("surplus-unended", ended(NAMES) + "3,more")
    yield listed("surplus-feed", ended(NAMES) + "\n")
    yield listed("number-next", 3, "3,take")
    yield listed("number-before", 3, "1,take")
    yield listed("number-leading-zero", 3, "02,take")
    yield listed("number-missing", 3, ",take")
    yield listed("number-4294967298", 3, "4294967298,take")
    yield listed("method-number-goes-on", 7, "6,by-convert")
    yield listed("blank-for-comma", 3, "2 take")
    yield listed("name-missing", 3, "2,")
    yield listed("name-with-comma", 3, "2,ta,ke")
    yield listed("name-ends-with-comma", 3, "2,take,")
    yield listed("blank-in-front", 3, " 2,take")
    yield listed("blank-behind", 3, "2,take ")
    yield listed("blank-after-comma", 3, "2, take")
    yield listed("tab", 3, "2,take\t")
    yield listed("carriage-return", 8, "2,as-is\r")
    for byte in (0, 31, 127, 128, 255):
        yield listed(f"byte-{byte}", 3, f"2,ta{chr(byte)}ke")


def of_list_names():
    """18 in the name list, and which of two lines or numbers comes first."""
    listed = lambda name, lines: (f"18-list-{name}", of_panel(["x"], lines))
    yield listed("task-again", put(NAMES, 2, "1,convert"))
    yield listed("compound-as-action", put(NAMES, 5, "4,convert"))
    yield listed("last-methods", put(NAMES, 8, "2,by-convert"))
    yield listed("before-17-on-the-next", put(put(NAMES, 3, "2,load"), 4, "3 panel"))
    yield listed("before-surplus", put(NAMES, 8, "2,whole", "3,more"))
    yield "17-list-before-18-on-the-next", of_panel(["x"], put(put(NAMES, 3, "2 take"), 4, "3,load"))
    yield "17-list-before-18-on-a-line", of_panel(["x"], put(NAMES, 3, "3,load"))
    yield "17-list-unended-before-18", of_panel(["x"], ended(put(NAMES, 8, "2,whole"))[:-1])
    both = ["0,panel", "1,load", "2,take", "3,whole", "4,as-is", "0,whole", "1,load", "2,as-is"]
    yield "names-of-task-and-method", of_panel(put(put(FORM, 5, "0 whole -> whole 3 1 2"), 6, "3 as-is -> as-is"), both)


# ---------------------------------------------------------------- the form's lines


def of_form_shapes():
    """17 by the number of lines, and by the lines that hold the form together."""
    shaped = lambda name, form: (f"17-form-{name}", of_panel(form))
    text = ended(FORM)
    yield shaped("empty", "")
    yield shaped("head-unended", "==>")
    yield shaped("head-missing", FORM[1:])
    yield shaped("head-blank", put(FORM, 1, "==> "))
    yield shaped("head-twice", put(FORM, 1, "==>", "==>"))
    yield shaped("unended-unlisted", "==>\n1 unload")
    yield shaped("tail-missing", FORM[:-1])
    yield shaped("tail-blank", put(FORM, 7, "<== "))
    yield shaped("tail-long", put(FORM, 7, "<==="))
    yield shaped("tail-before-root", put(FORM, 4, "<==", "root 0"))
    yield shaped("surplus-line", FORM + ["3 in-km/h -> as-is"])
    yield shaped("surplus-feed", text + "\n")
    yield shaped("surplus-byte", text + "x")
    yield shaped("line-empty", put(FORM, 3, "", "2 take"))
    yield shaped("surplus-before-19", put(FORM, 2, "9 load") + ["x"])
    yield "18-form-before-surplus", of_panel(put(FORM, 6, "3 in-km/h -> as-it-is") + ["x"])


def of_root_lines():
    """17 on the root line, and where it stands."""
    shaped = lambda name, *lines: (f"17-root-{name}", of_panel(put(FORM, 4, *lines)))
    yield shaped("without-id", "root")
    yield shaped("two-ids", "root 0 0")
    yield shaped("id-blank-behind", "root 0 ")
    yield shaped("name-for-id", "root panel")
    yield shaped("leading-zero", "root 00")
    yield shaped("4294967296", "root 4294967296")
    yield shaped("capital", "Root 0")
    yield shaped("longer-word", "roots 0")
    yield shaped("missing")
    yield shaped("twice", "root 0", "root 0")
    yield shaped("after-a-compound-line", "3 in-km/h -> as-is", "root 0")
    yield "root-4294967295", of_panel([line.replace("root 0", "root 4294967295").replace("0 panel", "4294967295 panel") for line in FORM])


def of_action_lines():
    """17 on an action line."""
    shaped = lambda name, line: (f"17-action-{name}", of_panel(put(FORM, 3, line)))
    yield shaped("two-blanks", "2  take")
    yield shaped("blank-in-front", " 2 take")
    yield shaped("blank-behind", "2 take ")
    yield shaped("tab", "2\ttake")
    yield shaped("carriage-return", "2 take\r")
    yield shaped("comma-in-name", "2 ta,ke")
    yield shaped("byte-127", "2 take\x7f")
    yield shaped("bytes-195-169", "2 tak\xc3\xa9")
    yield shaped("leading-zero", "02 take")
    yield shaped("plus", "+2 take")
    yield shaped("letter-in-id", "2a take")
    yield shaped("4294967296", "4294967296 take")
    yield shaped("id-alone", "2")
    yield shaped("three-words", "2 take take")
    yield shaped("compound-line", "2 in-km/h -> as-is")
    yield "action-4294967295", of_panel([line.replace("2 take", "4294967295 take").replace("3 1 2", "3 1 4294967295") for line in FORM])


def of_compound_lines():
    """17 on a compound line."""
    shaped = lambda name, line: (f"17-compound-{name}", of_panel(put(FORM, 5, line)))
    yield shaped("two-blanks-in-ids", "0 panel -> whole 3  1 2")
    yield shaped("blank-in-front", " 0 panel -> whole 3 1 2")
    yield shaped("blank-behind", "0 panel -> whole 3 1 2 ")
    yield shaped("tab", "0 panel -> whole 3\t1 2")
    yield shaped("carriage-return", "0 panel -> whole 3 1 2\r")
    yield shaped("comma-in-task", "0 pan,el -> whole 3 1 2")
    yield shaped("comma-in-method", "0 panel -> who,le 3 1 2")
    yield shaped("byte-127-in-method", "0 panel -> whole\x7f 3 1 2")
    yield shaped("leading-zero", "00 panel -> whole 3 1 2")
    yield shaped("id-4294967296", "4294967296 panel -> whole 3 1 2")
    yield shaped("subtask-leading-zero", "0 panel -> whole 3 01 2")
    yield shaped("subtask-4294967296", "0 panel -> whole 3 1 4294967296")
    yield shaped("subtask-name", "0 panel -> whole 3 load 2")
    yield shaped("arrow-missing", "0 panel whole 3 1 2")
    yield shaped("arrow-other", "0 panel => whole 3 1 2")
    yield shaped("method-missing", "0 panel ->")
    yield shaped("method-blank", "0 panel -> ")
    yield shaped("action-line", "1 load")


# ---------------------------------------------------------------- names in the form


def of_uses():
    """18 in the form."""
    action = lambda name, line: (f"18-action-{name}", of_panel(put(FORM, 3, line)))
    yield action("unlisted", "2 drop")
    yield action("compound-name", "2 in-km/h")
    yield action("method-name", "2 whole")
    yield action("capital", "2 Take")
    yield action("prefix", "2 tak")
    yield action("longer", "2 taken")
    compound = lambda name, *lines: (f"18-compound-{name}", of_panel(put(FORM, 5, *lines)))
    yield compound("unlisted", "0 panels -> whole 3 1 2")
    yield compound("action-name", "0 load -> whole 3 1 2")
    yield compound("method-unlisted", "0 panel -> part 3 1 2")
    yield compound("task-for-method", "0 panel -> panel 3 1 2")
    yield compound("other-tasks-method", "0 in-km/h -> whole 3 1 2")
    yield compound("method-of-another-task", "0 panel -> by-convert 3")
    yield compound("one-subtask-more", "0 panel -> whole 3 1 2 2")
    yield compound("subtask-for-empty", "0 panel -> whole 3 1 2", "3 in-km/h -> as-is 1")
    yield compound("none-for-one", "0 panel -> whole 3 1 2", "3 in-km/h -> by-convert")
    yield "18-line-3-before-17-line-4", of_panel(put(put(FORM, 3, "2 drop"), 4, "root"))
    yield "17-line-3-before-18-line-5", of_panel(put(put(FORM, 3, "2  take"), 5, "0 panel -> whole 3"))
    yield "17-before-18-action", of_panel(put(FORM, 3, "02 drop"))
    yield "17-before-18-compound", of_panel(put(FORM, 5, "0 drop -> part 3 1 x"))
    yield "17-before-18-count", of_panel(put(FORM, 5, "0 panel -> whole 3 1 2 2 "))
    yield "18-line-6-before-19-line-2", of_panel(put(put(FORM, 2, "9 load"), 6, "3 in-km/h -> by-convert"))


# ---------------------------------------------------------------- ids


LOAD, TAKE, WHOLE, EMPTY = FORM[1], FORM[2], FORM[4], FORM[5]
BOTH = [LOAD, TAKE]


def wrong(name, actions, root, *compounds):
    return f"19-{name}", of_panel(["==>", *actions, f"root {root}", *compounds, "<=="])


def of_twice():
    """19: an id defined twice, or twice a subtask, or the root's under a parent."""
    yield wrong("twice-two-actions", ["1 load", "2 take", "2 load"], 0, WHOLE, EMPTY)
    yield wrong("twice-action-and-compound", [LOAD, TAKE, "3 load"], 0, WHOLE, EMPTY)
    yield wrong("twice-two-compounds", BOTH, 0, WHOLE, EMPTY, EMPTY)
    yield wrong("twice-root", BOTH, 0, WHOLE, EMPTY, "0 in-km/h -> as-is")
    yield wrong("twice-root-an-action", [LOAD, TAKE, "0 load"], 0, WHOLE, EMPTY)
    # The second line of an id leads to line 2, or makes its id a subtask once more.
    yield wrong("twice-second-line-reaches", ["7 convert", LOAD, TAKE], 0, WHOLE, EMPTY, "3 in-km/h -> by-convert 7")
    yield wrong("twice-subtask-once-more", ["7 convert", LOAD, TAKE], 0, WHOLE, "3 in-km/h -> by-convert 7", "3 in-km/h -> by-convert 7")
    yield wrong("subtask-twice-on-a-line", [LOAD], 0, "0 panel -> whole 3 1 1", EMPTY)
    yield wrong("subtask-twice-definer-below", [TAKE], 0, "0 panel -> whole 3 3 2", EMPTY)
    yield wrong("subtask-twice-definer-above", [TAKE], 0, EMPTY, "0 panel -> whole 3 3 2")
    yield wrong("subtask-of-two-above-both", BOTH, 0, WHOLE, "3 in-km/h -> by-convert 1")
    yield wrong("subtask-of-two-between", [TAKE], 0, "0 panel -> whole 3 4 2", "4 in-km/h -> as-is", "3 in-km/h -> by-convert 4")
    yield wrong("subtask-of-two-below-both", [TAKE], 0, "0 panel -> whole 3 4 2", "3 in-km/h -> by-convert 4", "4 in-km/h -> as-is")
    yield wrong("root-under-parent-above", BOTH, 0, WHOLE, "3 in-km/h -> by-convert 0")
    yield wrong("root-under-parent-below", BOTH, 0, "3 in-km/h -> by-convert 0", WHOLE)
    yield wrong("root-under-itself", [], 0, "0 in-km/h -> by-convert 0")
    yield wrong("root-an-action-under-parent", [LOAD], 1, "3 in-km/h -> by-convert 1")
    yield wrong("root-of-a-ring-of-3", [], 4, "6 in-km/h -> by-convert 4", "5 in-km/h -> by-convert 6", "4 in-km/h -> by-convert 5")


def of_reach():
    """19: an id not reached, or never defined."""
    yield wrong("not-reached-action", [LOAD, "9 convert", TAKE], 0, WHOLE, EMPTY)
    yield wrong("not-reached-empty", BOTH, 0, WHOLE, "9 in-km/h -> as-is", EMPTY)
    yield wrong("not-reached-branch", [LOAD, TAKE, "8 convert"], 0, WHOLE, EMPTY, "9 in-km/h -> by-convert 8")
    yield wrong("not-reached-by-another-root", BOTH, 3, WHOLE, EMPTY)
    yield wrong("ring-of-1-apart", BOTH, 0, WHOLE, "9 in-km/h -> by-convert 9", EMPTY)
    yield wrong("ring-of-2-apart", BOTH, 0, WHOLE, EMPTY, "8 in-km/h -> by-convert 9", "9 in-km/h -> by-convert 8")
    yield wrong("ring-below-the-root", BOTH, 0, WHOLE, "3 in-km/h -> by-convert 4", "4 in-km/h -> by-convert 3")
    yield wrong("never-defined-on-the-last-line", BOTH, 0, WHOLE, "3 in-km/h -> by-convert 9")
    yield wrong("never-defined-last-subtask", [LOAD], 0, "0 panel -> whole 3 1 9", EMPTY)
    yield wrong("never-defined-first-subtask", BOTH, 0, "0 panel -> whole 9 1 2")
    yield wrong("never-defined-0", BOTH, 4, "4 panel -> whole 0 1 2")
    yield wrong("never-defined-4294967295", BOTH, 0, "0 panel -> whole 4294967295 1 2")
    yield wrong("never-defined-on-two-lines", [TAKE], 0, "3 in-km/h -> by-convert 9", "0 panel -> whole 3 9 2")
    yield wrong("root-never-defined", BOTH, 9, WHOLE, EMPTY)
    yield wrong("root-never-defined-no-action", [], 9, EMPTY)
    yield wrong("root-never-defined-no-line", [], 9)
    yield wrong("digits-apart", ["1 load", "12 take"], 0, "0 panel -> whole 3 1 2", EMPTY)


def of_least():
    """19: the least line of several faults."""
    yield wrong("least-not-reached", [LOAD, "8 load", TAKE], 0, "0 panel -> whole 3 1 9", EMPTY, EMPTY)
    yield wrong("least-twice", BOTH + ["2 load"], 0, "0 panel -> whole 3 1 9", "9 in-km/h -> by-convert 0", "8 in-km/h -> as-is")
    yield wrong("least-root-under-parent", BOTH, 0, "0 panel -> whole 3 1 2", "9 in-km/h -> as-is", "3 in-km/h -> by-convert 0")
    yield wrong("least-never-defined", BOTH, 0, "4 in-km/h -> by-convert 9", "0 panel -> whole 4 1 2", "3 in-km/h -> as-is", "3 in-km/h -> as-is")


# ---------------------------------------------------------------- forms that make a case


def of_trees():
    """Accepted, or refused by what finds the gaps: ids, the order of the lines, gaps."""
    yield "ids-descend", of_panel(["==>", "9 load", "5 take", "root 7", "7 panel -> whole 1 9 5", "1 in-km/h -> as-is", "<=="])
    yield "ids-in-no-order", of_panel(["==>", "3000000000 load", "0 take", "root 4294967295", "12 in-km/h -> as-is", "4294967295 panel -> whole 12 3000000000 0", "<=="])
    deep = Planner(D([D([L(0, 2), D([E(), L(1, 3)])]), D([L(2, 1), E(), D([L(3, 4)])], ["O,0,2"])]), ladder(4))
    yield "preorder", deep.lent()
    yield "compound-lines-reversed", deep.lent(order=lambda lines: lines[::-1])
    yield "compound-lines-sorted", deep.lent(ids=lambda node: 97 * node % 101, order=lambda lines: sorted(lines))
    yield "ids-from-4294967295-down", deep.lent(ids=lambda node: 4294967295 - node)
    yield "ids-of-one-slot", deep.lent(ids=lambda node: 65536 * node)
    yield "one-method-twice", Planner(D([D([L(0, 2), E()], ["O,1,0"], name="x"), D([L(0, 1), E()], ["O,0,1"], name="x")]), ladder(1)).lent()
    yield "k-0-one-node", Planner(E(), ()).lent()
    yield "k-0-empties", Planner(D([E(), D([E(), E()]), E()], ["O,0,1"]), ()).lent()
    yield "no-empty", row(3, 0).lent()
    yield "gaps-1-2", row(3, 2, ["B,0,1", "B,1,2"]).lent()
    yield "gaps-last", row(3, 3, ["B,2,7"]).lent()
    yield "gap-10-of-12", row(12, 1, ["B,9,1"]).lent()
    yield "gaps-in-line-order", Planner(D([L(0, 2), D([E(), L(1, 3)], ["O,1,0"]), E(), L(2, 1)], ["O,2,3"]), ladder(3)).lent(order=lambda lines: lines[::-1])
    yield "64-levels", Planner(nested(63, E()), ladder(1)).lent()
    yield "32-subtasks", Planner(D([L(i % 2) for i in range(31)] + [E()], ["O,30,31"]), ladder(2)).lent()


def of_found():
    """What finds the gaps refuses; with an output that is too short, 14 comes before it."""
    never = [((7,), (), (), ())]
    case, names, form, room = Planner(D([L(0), L(1), E()]), ladder(2)).lent()
    refused = {
        "5-cue-1": Planner(D([E(), L()]), never).lent(),
        "5-cue-2": Planner(D([L(0), L(1), E()], ["O,1,0"]), [((), (), (), ()), ((7,), (), (), ())]).lent(),
        "6-subtasks-swapped": of_panel(put(FORM, 5, "0 panel -> whole 3 2 1")),
        "6-action-for-compound": of_panel(put(FORM, 5, "0 panel -> whole 1 3 2")),
        "5-another-action": of_panel(put(FORM, 2, "1 convert")),
        "6-another-goal": of_panel(["==>", "root 3", "3 in-km/h -> as-is", "<=="]),
        "6-action-as-root": of_panel(["==>", "1 load", "root 1", "<=="]),
        "6-another-action": [case, names, form.replace("1 a0", "1 a1"), room],
        "6-compound-for-action": [case, names, form.replace("1 a0\n", "").replace("<==", "1 t0 -> m0\n<=="), room],
        "7-level-65": Planner(nested(64, E()), ladder(1)).lent(),
        "15-k-1-e-20": row(1, 20).lent(),
        "15-k-9-e-7": row(9, 7).lent(),
        "16-k-3-e-2": row(3, 2, ["B,0,1", "b,0,1"]).lent(),
        "16-e-0": row(3, 0, ["O,1,0"]).lent(),
    }
    for name, lent in refused.items():
        yield name, lent
    for name in ("5-cue-1", "6-subtasks-swapped", "7-level-65", "15-k-1-e-20", "16-k-3-e-2"):
        yield f"14-before-{name}", refused[name][:3] + [50]
    case, names, form, room = refused["5-cue-2"]
    yield "5-before-6", [case, names, form.replace("1 2 3", "3 2 1"), room]
    yield "15-just-not", row(9, 6).lent()
    yield "no-methods", of_panel(["==>", "0 a", "root 0", "<=="], ["0,a", "1,t"], "N,0,1,1,0,1,1,1\nI,0\nA,0,0,0,0\nP,0\nL,0,1\n")


# ---------------------------------------------------------------- names that look like other words, long ones, ones that are alike


def named(tasks, methods, planner=None):
    """A tree with these names: its actions', its compound tasks', its methods'."""
    planner = planner or Planner(D([E(), L(0), L(1)]), ladder(2))
    names = planner.listed(tasks, methods)
    return [planner.beside(), ended(names), ended(planner.form(names=names)), len(planner.text())]


def of_names():
    """Accepted, but for a name that is listed again or not at all."""
    yield "names-of-words", named(["root", "<==", "->", "==>"], ["->", "root"])
    yield "names-of-digits", named(["0", "1", "2", "3"], ["1", "0"])
    yield "names-of-long-digits", named(["4294967296", "00", "01", "18446744073709551616"], ["0", "00"])
    yield "names-of-a-byte", named(["!", "~", "+", "-"], ["~", "!"])
    yield "names-of-all-bytes", named(["".join(chr(b) for b in range(33, 127) if b != 44), "x", "y", "z"], ["m", "".join(chr(b) for b in range(126, 32, -1) if b != 44)])
    yield "names-last-byte", named(["load-aa", "load-ab", "load-ba", "load-bb"], ["m-1", "m-2"])
    yield "names-prefixes", named(["l", "lo", "loa", "load"], ["mm", "m"])
    yield "names-at-eight", named(["abcdefgh", "abcdefghi", "abcdefg", "abcdefghabcdefgh"], ["abcdefgh", "abcdefghi"])
    yield "names-small-and-capital", named(["load", "Load", "LOAD", "loaD"], ["m", "M"])
    yield "names-same-sum", named(["ab", "ba", "abba", "baab"], ["ab", "ba"])
    yield "names-300-bytes", named(["x" * 300 + end for end in "abcd"], ["x" * 300, "x" * 301])
    yield "names-5000-bytes", named([start + "x" * 5000 for start in "abcd"], ["x" * 4999 + "y", "x" * 5000])
    twice = named(["x" * 300 + end for end in "abca"], ["m", "n"])
    yield "18-list-300-bytes-again", twice
    long = named(["x" * 300 + end for end in "abcd"], ["m", "n"])
    yield "18-form-300-bytes", [long[0], long[1], long[2].replace("xa\n", "xe\n"), long[3]]
    many = Planner(D([L(a) for a in range(0, 200, 7)], ["O,0,1"]), [((), (), (), ())] * 200, unused=[([-1 - n], []) for n in range(200)])
    yield "400-names", many.lent()


# ---------------------------------------------------------------- limits


def thousand(cues, more=0, unused=()):
    """So many cues under tasks of their own, some of them under two, in groups of 32."""
    step = lambda i: D([D([L(i % 3)], name=f"one{i % 3}")], name=f"two{i % 3}") if i < more else D([L(i % 3)], name=f"one{i % 3}")
    leaves = [step(i) for i in range(cues)]
    return Planner(D([D(leaves[i : i + 32]) for i in range(0, cues, 32)]), [((), (), (), ())] * 3, unused=unused)


def empties(count):
    """A root and so many empty tasks below it, in groups of up to 32; no cue."""
    groups = -(-count // 32)
    tops = -(-groups // 32)
    left = count - groups - tops
    rows = [D([E() for _ in range(left // groups + (g < left % groups))]) for g in range(groups)]
    return Planner(D([D(rows[t::tops]) for t in range(tops)]), ())


def made_of(length, make):
    """A case that makes a text of just this length; `make` takes methods that no node uses."""
    found = []
    padded(lambda unused: found.append(make(unused)) or found[-1].text(), length)
    assert len(found[-1].text()) == length
    return found[-1]


def long_made(length, gap=9):
    """The same with 12 cues and an empty task, for which this gap is the first that would do."""
    root = lambda: D([E()] + [L(a) for a in range(12)], [f"B,{gap - 1},1"])
    return made_of(length, lambda unused: Planner(root(), ladder(12), propositions=30, unused=unused))


def of_limits():
    """Lines, actions and bytes at their limits."""
    full = empties(2999)
    assert len(full.nodes) == 3000, len(full.nodes)
    case, names, form, room = full.lent()
    yield "3000-lines-no-action", [case, names, form, room]
    lines = form.split("\n")[:-1]
    yield "17-3001-lines", [case, names, ended(lines[:-1] + [lines[-2], "<=="]), room]
    yield "17-3001-lines-before-18", [case, names, ended(lines[:-1] + ["0 x -> y", "<=="]), room]
    mixed = thousand(1000, 967)
    yield "3000-lines-1000-actions", mixed.lent()
    case, names, form, room = mixed.lent()
    yield "17-3001-lines-an-action-more", [case, names, form.replace("\nroot", "\n9999 a0\nroot"), room]
    yield "4-1001-actions", thousand(1001).lent()
    yield "14-before-4", thousand(1001).lent(room=1000)
    many = [f"{n} load" for n in range(3001)]
    yield "19-3000-actions", of_panel(["==>", *many[:3000], "root 3000", "<=="])
    yield "17-3001-actions", of_panel(["==>", *many, "root 3000", "<=="])
    yield "65535-bytes-made", long_made(LIMIT).lent()
    # The choice with a gap of two digits has a byte more.
    yield "65534-bytes-made-gap-10", long_made(LIMIT - 1, 10).lent()
    yield "16-65535-bytes-made-gap-10", long_made(LIMIT, 10).lent()
    yield "2-65536-bytes-made", long_made(LIMIT + 1).lent()
    yield "14-item-65536", long_made(LIMIT + 1).lent(room=LIMIT)
    yield "14-item-65535", long_made(LIMIT).lent(room=LIMIT - 1)
    longest = made_of(80000, lambda unused: thousand(1000, 967, unused))
    yield "2-80000-bytes-made", longest.lent()
    yield "14-item-80000", longest.lent(room=LIMIT)


PARTS = [of_cases, of_list_shapes, of_list_names, of_form_shapes, of_root_lines, of_action_lines, of_compound_lines, of_uses]
PARTS += [of_twice, of_reach, of_least, of_trees, of_found, of_names, of_limits]


# ---------------------------------------------------------------- files


# What each file is, by the end of its name.
KINDS = ("case", "names", "form")


class Store:
    """The files of the folder's data; a text that is there already is not stored again."""

    def __init__(self, data):
        self.data, self.files, self.names = data, {}, set()

    def words(self, name, texts):
        """Stores the three texts of a case, and names their files."""
        assert name not in self.names, name
        self.names.add(name)
        return [self.file(f"{name}.{kind}", text) for kind, text in zip(KINDS, texts)]

    def file(self, name, text):
        key = name.rsplit(".", 1)[1], text
        if key not in self.files:
            self.files[key] = name
            # A character is a byte.
            (self.data / name).write_bytes(text.encode("latin-1"))
        return self.files[key]


def main():
    folder, card = map(Path, sys.argv[1:])
    data = folder / "data"
    data.mkdir(parents=True, exist_ok=True)
    for kind in KINDS:
        for old in data.glob(f"*.{kind}"):
            old.unlink()
    store, args = Store(data), []
    for case in sorted(card.glob("*/call")):
        words = dict(entry.split(" ", 1) for entry in case.read_text().splitlines() if entry[0] != "#")
        since, until = words["holds"].split("-")
        assert int(since) <= 6 <= int(until), case
        texts = [case.with_name(kind).read_bytes().decode("latin-1") for kind in KINDS]
        args += store.words(f"card06-{case.parent.name}", texts) + [words["output"]]
        args += [words.get(list_, str(asked)) for list_, asked in zip(("states", "nodes", "work"), ASKED)]
    for name, (*texts, room), lengths in own():
        files = store.words(f"own-card06-{name}", texts)
        for three in lengths:
            args += files + [str(length) for length in (room, *three)]
    cases = [tuple(args[i : i + 7]) for i in range(0, len(args), 7)]
    assert len(set(cases)) == len(cases), [case for case in set(cases) if cases.count(case) > 1]
    (folder / "args").write_text("".join(word + "\n" for word in args))
    print(f"{len(store.files)} files, {len(cases)} cases, {sum(f.stat().st_size for f in data.iterdir())} bytes")


if __name__ == "__main__":
    main()
