#!/usr/bin/env python3
"""Writes the lists that docs/DESIGN-PASS.md ends with: what changed between two trees, old and new side by side.

    python3 tools/design_lists.py CONTRACTS.json OLD NEW

CONTRACTS.json is what the kit's comparison of contracts says (`contracts.py OLD NEW --json`); OLD and NEW are two trees of this repository."""
import collections
import json
import os
import re
import sys

PROGRAMS = ("tool_", "try_")


def statements(top):
    """Gives the statement of each public lemma of proofs/, with the module parameters before it."""
    out = {}
    for crate in sorted(os.listdir(f"{top}/crates")):
        for at, _, names in os.walk(f"{top}/crates/{crate}/proofs"):
            for name in sorted(names):
                if not name.endswith(".antt") or name in ("Answers.antt", "Invariants.antt", "Proof.antt", "Lib.antt"):
                    continue
                lines = re.sub(r"--.*", "", open(f"{at}/{name}", encoding="utf-8").read()).split("\n")
                modules = []
                for i, line in enumerate(lines):
                    if line.strip():
                        while modules and modules[-1][0] >= len(line) - len(line.lstrip()):
                            modules.pop()
                    begun = re.match(r"^( *)module _ (.*?) where\s*$", line)
                    if begun:
                        modules.append((len(begun.group(1)), begun.group(2)))
                    lemma = re.match(r"^( *)pub ([^\s:]+) : (.*)$", line)
                    if lemma:
                        kind, j = lemma.group(3), i + 1
                        while j < len(lines) and re.match(f"^{lemma.group(1)} +\\S", lines[j]):
                            kind, j = f"{kind} {lines[j].strip()}", j + 1
                        before = " ".join(it for _, it in modules)
                        out.setdefault((crate, lemma.group(2)), []).append(" ".join(f"{before + ' → ' if before else ''}{kind}".split()))
    return out


def pair(title, old, new):
    print(f"- {title}\n  - `{old}`\n  - `{new}`")


def library(name):
    return not name.startswith(PROGRAMS)


def main():
    found = json.load(open(sys.argv[1], encoding="utf-8"))
    old, new = statements(sys.argv[2]), statements(sys.argv[3])

    print("### Signatures of the library's functions\n")
    for name, before, after in found["signatures changed"]:
        if library(name):
            pair(name, before, after)

    print("\n### Clauses\n")
    for name, asked, gave, asks, gives in found["contracts changed"]:
        if library(name):
            for sign, was, is_ in (("requires", asked, asks), ("ensures", gave, gives)):
                if was != is_:
                    pair(f"{name}, `{sign}`", " · ".join(f"{a} {b}".strip() for a, b in was), " · ".join(f"{a} {b}".strip() for a, b in is_))

    print("\n### Definitions\n")
    for crate, name, before, after in found["definitions"]["changed"]:
        pair(f"{crate}, `{name}`", " ".join(before), " ".join(after))

    print("\n### Lemmas and theorems\n")
    for key in sorted(old):
        if key in new and sorted(old[key]) != sorted(new[key]):
            pair(f"{key[0]}, `{key[1]}`", " · ".join(old[key]), " · ".join(new[key]))

    print("\n### Lemmas that are new\n")
    fresh = collections.defaultdict(list)
    for crate, name in sorted(new):
        if (crate, name) not in old:
            fresh[crate].append(f"`{name}`")
    for crate, names in fresh.items():
        print(f"- {crate}: {', '.join(names)}")


main()
