#!/usr/bin/env python3
"""Counts, in the src/ of every crate, the places of the points of docs/DESIGN-PASS.md.

    python3 tools/design_counts.py [--list POINT] [--at COMMIT]

A count by text finds what looks like a place; the page says of each whether it is one."""
import collections
import os
import re
import subprocess
import sys

TOP = os.path.dirname(os.path.dirname(os.path.abspath(__file__)))


def files(commit):
    """Gives the path and the text of each file of src/, of the checkout or of a commit."""
    if commit:
        names = subprocess.run(["git", "-C", TOP, "ls-tree", "-r", "--name-only", commit, "crates"], capture_output=True, text=True, check=True).stdout.split()
        for name in sorted(names):
            if "/src/" in name and name.endswith(".rt"):
                yield name, subprocess.run(["git", "-C", TOP, "show", f"{commit}:{name}"], capture_output=True, text=True, check=True).stdout
        return
    for at, folders, names in os.walk(f"{TOP}/crates"):
        folders[:] = sorted(it for it in folders if it != "out")
        for name in sorted(names):
            if name.endswith(".rt") and f"{os.sep}src" in at:
                path = f"{at}/{name}"
                yield os.path.relpath(path, TOP), open(path, encoding="utf-8").read()


def functions(text):
    """Gives the name, the parameters, what is returned, the clauses and the body of each function."""
    for found in re.finditer(r"\bfn (\w+)(?:<[^(]*>)?\(", text):
        at, depth = found.end(), 1
        while depth:
            depth += {"(": 1, ")": -1}.get(text[at], 0)
            at += 1
        params = text[found.end() : at - 1]
        rest = text[at:]
        end = re.search(r"\n *\{\n| \{\n|;\n", rest)
        head = rest[: end.start()] if end else rest
        gives = re.match(r"\s*->\s*([^\n{]+)", head)
        clauses = re.findall(r"(requires|ensures)\*?(?: \w+)? \{ (.*) \}", head)
        body = rest[end.end() :] if end else ""
        close = re.search(r"^ *\}$", body, re.M)
        yield found.group(1), params, gives.group(1).strip() if gives else "", clauses, body[: close.start()] if close else body


def split(params):
    """Gives the names and types of the parameters."""
    out, depth, word = [], 0, ""
    for c in params + ",":
        depth += c in "([<"
        depth -= c in ")]>"
        if c == "," and not depth:
            if ":" in word:
                name, kind = word.split(":", 1)
                out.append((name.strip(), " ".join(kind.split())))
            word = ""
        else:
            word += c
    return out


def facts(clause):
    """Gives the first words of the facts that a clause joins by ×."""
    clause = re.sub(r"[()]", " ", clause)
    for part in clause.split("×"):
        words = part.split()
        if words and re.match(r"^[A-Z]\w*$", words[0]):
            yield words[0]


def counted(commit):
    """Gives, for each point, the places of each sign of it."""
    found = collections.OrderedDict()

    def add(point, place):
        found.setdefault(point, []).append(place)

    for sign in SIGNS:
        found[sign] = []
    heads, groups = collections.defaultdict(set), collections.defaultdict(set)
    for name, text in files(commit):
        for number, line in enumerate(text.splitlines(), 1):
            place = f"{name}:{number}: {line.strip()[:100]}"
            if line.lstrip().startswith("//"):
                continue
            for sign, pattern in SIGNS.items():
                if pattern and re.search(pattern, line):
                    add(sign, place)
        for fn, params, gives, clauses, body in functions(text):
            here = f"{name}: {fn}"
            names = split(params)
            if len(names) == 1 and re.match(r"^(u|i)(8|16|32|64|size)$|^bool$", names[0][1]) and re.match(r"^(u|i)(8|16|32|64|size)$", gives) and re.match(r"^\s*\(?\w+(\.\w+)?[^\n]*\bas \w+\s*$", body.strip("\n")):
                add("4 functions of one cast", here)
            for kind, clause in clauses:
                if kind == "requires":
                    for head in facts(clause):
                        heads[head].add(here)
            for k in range(len(names) - 1):
                groups[(names[k], names[k + 1])].add(here)
    for head, places in sorted(heads.items(), key=lambda it: -len(it[1])):
        if len(places) >= 3:
            add("5 facts that three functions or more require", f"{head}: {len(places)}")
    for (a, b), places in sorted(groups.items(), key=lambda it: -len(it[1])):
        if len(places) >= 3:
            add("5 pairs of parameters side by side in three functions or more", f"{a[0]}: {a[1]}, {b[0]}: {b[1]}: {len(places)}")
    return found


SIGNS = collections.OrderedDict(
    [
        ("1 own enums", r"^ *(pub )?enum "),
        ("1 kinds as numbers", r"\b(kind|sort|command|fault|choice|ended): (u8|usize)\b|\b(kind|sort|command|fault|choice|ended) == \d"),
        ("1 constants that number kinds", r"^ *(pub )?const [A-Z_]+: (u8|usize) = \d+;"),
        ("1 flags in structs", r"^    (pub )?\w+: bool,$"),
        ("3 loops by hand", r"^ *while "),
        ("3 loops over a range or an iterator", r"^ *for "),
        ("4 equality by hand", r"fn same\(|\.same\("),
        ("4 codes by hand", r"fn \w+_(code|of)\(\w+: (u8|bool|Chirality|BinOp|IfSort|\w*Kind)\)"),
        ("4 functions of one cast", None),
        ("4 tests nested for want of &&", r"^ *(true|false)$|\{ (true|false) \}"),
        ("5 facts that three functions or more require", None),
        ("5 pairs of parameters side by side in three functions or more", None),
        ("6 arrays with a count", r"^ *(pub )?\w+: \[\w+; [\w:]+\],$"),
        ("6 a slice and how much of it counts", r"\b(\w+): &(mut )?\[\w+\], (n|k|len): usize"),
        ("7 a switch on a kind", r"match (kind|f\.kind|command)\b|if (\w+\.)?kind == Kind::"),
    ]
)


def main():
    words = sys.argv[1:]
    commit = words[words.index("--at") + 1] if "--at" in words else None
    found = counted(commit)
    if "--list" in words:
        wanted = words[words.index("--list") + 1]
        for sign, places in found.items():
            if sign.startswith(wanted):
                print(f"{sign}: {len(places)}")
                print("\n".join(f"    {it}" for it in places))
        return
    for sign, places in found.items():
        print(f"{len(places):5}  {sign}")


main()
