#!/usr/bin/env python3
"""Brings the repository's own definitions, lemmas and fields to snake case (docs/PORT.md).

usage: python3 tools/respell.py [--write]     in the repository: lists old and new names, and with --write turns them in crates/

A name is turned if a file of specs/ or proofs/ declares it, or if it is a Rattle name in an older spelling with dashes. Names of the
library, of types and facts, and the papers' letters O B F W D E L stay. Where two names would fall together, the lemma gets `_lem`.
"""
import collections
import glob
import os
import re
import sys

TOKEN = re.compile(r"(?<![A-Za-z0-9_'◌-])[a-z][A-Za-z0-9_'₀-₉]*(?:-[A-Za-z0-9_'₀-₉]+)*(?![A-Za-z0-9_'◌-])")
DECLARED = re.compile(r"^\s*(?:(?:pub|abbrev|unfoldable|data|record) )*([a-z][A-Za-z0-9_'₀-₉-]*)(?: [^:=]*)? :(?: |$)")
LET = re.compile(r"\blet ([a-z][A-Za-z0-9_'₀-₉-]*)")
# Fields that would fall together with a definition.
CHOSEN = {"lists-long": "long_lists", "text-short": "short_text", "at-root": "root_there", "after_first": "past_first"}
RUST = re.compile(r"\b[a-z][a-z0-9]*(?:_[a-z0-9]+)+\b")


def snake(name):
    parts = []
    for part in name.split("-"):
        part = re.sub(r"(?<=[a-z0-9'])(?=[A-Z])", "_", part)
        parts.append("_".join(w if len(w) == 1 and w.isupper() else w[:1].lower() + w[1:] for w in part.split("_")))
    return "_".join(parts)


def odd(name):
    return "-" in name or bool(re.search(r"[a-z0-9'][A-Z]", name))


def read(path):
    with open(path, encoding="utf-8", newline="") as f:
        return f.read()


def main():
    antt = sorted(glob.glob("crates/*/specs/**/*.antt", recursive=True) + glob.glob("crates/*/proofs/**/*.antt", recursive=True))
    rt = sorted(glob.glob("crates/*/src/**/*.rt", recursive=True))
    crates = {p.split("/")[1] for p in rt}
    text = {p: read(p) for p in antt + rt}
    is_answer = lambda p: os.path.basename(p) == "Proof.antt"
    declared, foreign, rust, functions = collections.defaultdict(set), set(), set(), set()
    for p in antt:
        for line in text[p].splitlines():
            m = DECLARED.match(line)
            if m and not line.lstrip().startswith("--"):
                declared[m.group(1)].add(p)
            for name in LET.findall(line):
                declared[name].add(p)
    for p in antt + rt:
        for path, names in re.findall(r"^(?:pub |ghost )?use ([^\s{;]+)\.\{([^}]*)\}", text[p], re.M):
            own = re.match(r"Rattle\.(\w+)\.", path)
            if not (own and own.group(1) in crates):
                for name in names.split(","):
                    foreign |= set(name.strip().split(" as ")[:1])
    for p in rt:
        code = re.sub(r"//.*", "", text[p])
        rust |= set(RUST.findall(code))
        functions |= set(re.findall(r"\bfn (\w+)", code))
    by_kebab = {r.replace("_", "-"): r for r in rust}
    names = {n for n in declared if odd(n)} | {n for n in by_kebab if "-" in n}
    names -= foreign
    new = {n: snake(n) for n in names}
    # Names that fall together: a definition in camel case keeps the plain name, the lemma beside it gets `_lem`.
    taken = collections.defaultdict(set)
    for n, to in new.items():
        taken[to].add(n)
    said = []
    plain = {n for n in declared if not odd(n)}
    for to, olds in sorted(taken.items()):
        here = [n for n in olds if n in declared]
        public = [n for n in here if any(not is_answer(p) for p in declared[n])]
        clash = len(public) > 1 or (to in plain and public and any(not is_answer(p) for p in declared[to]))
        if to in foreign:
            clash = True
        if clash:
            for n in public + ([to] if to in plain and to not in foreign and not any("-" in n for n in public) else []):
                if "-" in n or n == to:
                    new[n] = to + "_lem"
                    said.append(f"{n} -> {new[n]} (beside {', '.join(sorted(o for o in olds | ({to} & plain) if o != n))})")
    new |= CHOSEN
    for p in antt + rt:
        code = re.sub(r"(?m)^\s*(?:--|//).*", "", text[p])
        found = set(TOKEN.findall(re.sub(r"\.[a-z][A-Za-z0-9_'-]*", " ", code))) if p.endswith("antt") else set(TOKEN.findall(code)) - functions
        per = collections.defaultdict(set)
        for t in found:
            per[new.get(t, t)].add(t)
        for to, olds in per.items():
            if len(olds) > 1:
                said.append(f"together in {p}: {', '.join(sorted(olds))} -> {to}")
    for line in said:
        print(line)

    def turn(m):
        name = m.group(0)
        # Behind a dot stands a field, or a step that is named after a Rattle function.
        if m.string[: m.start()].endswith("."):
            return CHOSEN.get(name) or (snake(name) if name in new and odd(name) else name)
        return new.get(name, name)

    needs = re.compile(r"\b(?:Need|After|invariant|decreases|Facts|Lts|then|else|in|loop)(?:-[A-Za-z0-9_']+)+")
    longest = sorted((k for k in by_kebab if "-" in k), key=len, reverse=True)
    inside = re.compile(r"(?<=-)(?:" + "|".join(map(re.escape, longest)) + r")(?![A-Za-z0-9_'])")
    changed = 0
    for p in antt + rt:
        out = []
        for line in text[p].split("\n"):
            if p.endswith(".rt") and not re.match(r"\s*(ghost |requires|ensures|//)", line) and not re.search(r"[λ≡→≤◌]", line):
                out.append(line)
                continue
            if is_answer(p):
                f = os.path.basename(os.path.dirname(p))
                line = re.sub(r"\b[a-z0-9'-]+-spec\b(?= [:𝓤=𝓛]| =|$)", f + "_spec", line)
                line = needs.sub(lambda m: inside.sub(lambda k: by_kebab[k.group(0)], m.group(0)), line)
            out.append(TOKEN.sub(turn, line))
        now = "\n".join(out)
        if now != text[p]:
            changed += 1
            if "--write" in sys.argv:
                with open(p, "w", encoding="utf-8", newline="") as f:
                    f.write(now)
    print(f"{len(new)} names, {changed} files")


if __name__ == "__main__":
    main()
