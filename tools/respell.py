#!/usr/bin/env python3
"""Brings this repository's own definitions and lemmas to the spelling of today's libraries: words in snake case, a dash between two names alone.

usage: tools/respell.py [ROOT]      once, right after the kit's script for older repositories, in the tree that it left
       tools/respell.py --by FILE ROOT      the same by a table that was printed
       tools/respell.py --table     prints the table, old name, tab, new name, and writes nothing

It goes by the declarations of specs/ and proofs/: a name that none of them declares stays, and so do the functions, types, fields and
variables of src/, the names that Rattle makes (behind `tie.`, `goal.`, and the goals that a Proof.antt answers), strings, inputs and outputs.
A name that would fall together with another of the repository or of src/ gets `_lem` behind it.
"""
import collections
import os
import re
import sys

WORD = re.compile(r'[^\s(){}.;,@"«»]+')
DECLARED = re.compile(r"^(\s*)(?:(?:pattern|unfoldable|abbrev|pub) )*(?:(?P<kind>data|record|module) )?(?P<name>[^\s(){}.;,@\"«»:]+)(?P<rest>(?:\s.*)?)$")
QUIET = re.compile(r'"(?:[^"\\\n]|\\.)*"|--[^\n]*')
CLAUSE = re.compile(r"\b(?:requires|ensures)\*?\s*(?:\w+\s*)?\{|\bghost\s+(?:\w+\s*(?::|=)\s*)?\{")
GHOST_USE = re.compile(r"ghost\s+use\b[^;]*;")
SPAN = re.compile(r"`[^`\n]+`")
KEYWORDS = {"use", "unfolding", "where", "let", "in", "module", "infix", "infixl", "infixr", "ruleset", "mutual", "open", "elim", "do", "|", "--"}
# two pairs that would fall together
APART = {"isCreate": "is_a_create", "isStatement": "is_a_statement"}
# names of the libraries that laws are named after
LIBRARY = set("length take drop append set get_or map elem concat filter reverse ids keys values sum min max suc add mul sub div mod mem all any lookup fold zip".split())


def files(root):
    for folder, dirs, names in os.walk(os.path.join(root, "crates")):
        dirs[:] = sorted(d for d in dirs if d not in ("out", ".git"))
        for name in sorted(names):
            yield os.path.join(folder, name)


def read(path):
    with open(path, encoding="utf-8") as f:
        return f.read()


def snake(word):
    word = re.sub(r"(?<=[a-z0-9])([A-Z])(?=[a-z0-9_₀-₉ⁿ']|$)", lambda m: "_" + m[1].lower(), word)
    return word


def declared(root):
    """Each name that a file of specs/ or proofs/ declares; those that one declares as a function into Type; those that stand in no record or block."""
    found, types, outer = collections.Counter(), set(), set()
    for path in files(root):
        if not path.endswith(".antt"):
            continue
        if os.path.basename(path) == "Proof.antt":
            continue
        for line in read(path).split("\n"):
            code = QUIET.sub("", line)
            m = DECLARED.match(code)
            if not m or m["name"] in KEYWORDS:
                continue
            rest = m["rest"].strip()
            if not m["kind"] and not re.match(r"(?:\{[^}]*\}\s*)?:(?:\s|$)|(?:\(|\{).*\s:\s", rest):
                continue
            if not m["kind"] and not re.match(r"(?:\{[\w,ℓ ]*\}\s*)?:(?:\s|$)", rest):
                continue
            if m["kind"] == "module":
                continue
            found[m["name"]] += 1
            if not m[1]:
                outer.add(m["name"])
            if m["kind"] or re.search(r"(?:^:|→)\s*Type 0\s*(?:where)?$", rest):
                types.add(m["name"])
    return found, types, outer


def imported(root):
    """The names that some file takes from a library that is not this repository's."""
    own = {f"Rattle.{c}" for c in os.listdir(os.path.join(root, "crates"))}
    names = set()
    for path in files(root):
        if path.endswith(".antt") or path.endswith(".rt"):
            for m in re.finditer(r"\buse ([\w.·+-]+)\.\{([^}]*)\}", read(path)):
                head = ".".join(m[1].split(".")[:2])
                if head not in own or ".declared." in m[1]:
                    names |= {x.split(" as ")[0].strip() for x in m[2].split(",")}
    return names


def words_of_src(root):
    """The identifiers of src/, outside clauses and ghost items."""
    words = set()
    for path in files(root):
        if path.endswith(".rt"):
            text = read(path)
            out, at = [], 0
            for a, b in ghost_parts(text):
                out.append(text[at:a])
                at = b
            out.append(text[at:])
            words |= set(re.findall(r"[A-Za-z_]\w*", re.sub(r"//[^\n]*", "", "".join(out))))
    return words


def ghost_parts(text):
    """The places of clauses, ghost blocks and ghost use items."""
    parts = [(m.start(), m.end()) for m in GHOST_USE.finditer(text)]
    for m in CLAUSE.finditer(text):
        depth, i = 1, m.end()
        while i < len(text) and depth:
            depth += {"{": 1, "}": -1}.get(text[i], 0)
            i += 1
        parts.append((m.end(), i))
    return sorted(parts)


def table(root):
    found, types, outer = declared(root)
    library, code = imported(root), words_of_src(root)
    every = set()
    for path in files(root):
        if path.endswith(".antt"):
            every |= set(WORD.findall(QUIET.sub("", read(path))))
    names = {n for n in found if n not in library}
    plain = {snake(n) for n in names if "-" not in n} | LIBRARY
    new = {}
    for n in sorted(names):
        if not re.search(r"[A-Za-z]", n) or n.startswith("◌") or "◌" in n:
            continue
        parts = [snake(p) if not re.match(r"[A-Z]", p) else p for p in n.split("-")]
        if n[:1].islower() and n in types and "-" not in n:
            parts = ["".join(w[:1].upper() + w[1:] for w in re.split(r"_", parts[0]))]
        if n in APART:
            new[n] = APART[n]
            continue
        text = parts[0]
        last = parts[0]
        for p in parts[1:]:
            keep = (re.match(r"[A-Z]", p) or p in plain) and (last in plain or re.match(r"[A-Z]", last)) or (re.match(r"[A-Z]", last) and last == parts[0]) or not re.match(r"[a-z0-9]", p) or not last or not p
            if keep:
                text += "-" + p
                last = p
            else:
                text += "_" + p
                last += "_" + p
        if text != n:
            new[n] = text
    taken = collections.Counter(new.values())
    result = {}
    for n, t in sorted(new.items()):
        while n in outer and (t in every or t in code) or taken[t] > 1 or t in library or t in result.values():
            if taken[t] > 1:
                taken[t] -= 1
            t += "_lem"
        result[n] = t
    return result


def turn_antt(text, new):
    def code(part):
        out, at = [], 0
        for m in WORD.finditer(part):
            before = part[max(0, m.start() - 6):m.start()]
            if m[0] in new and not re.search(r"(?:tie|goal)\.$", before):
                out.append(part[at:m.start()] + new[m[0]])
                at = m.end()
        return "".join(out) + part[at:]

    out, at = [], 0
    for m in QUIET.finditer(text):
        out.append(code(text[at:m.start()]))
        out.append(SPAN.sub(lambda s: code(s[0][1:-1]).join("``"), m[0]) if m[0].startswith("--") else m[0])
        at = m.end()
    return "".join(out) + code(text[at:])


def turn_rt(text, new):
    out, at = [], 0
    for a, b in ghost_parts(text):
        if a < at:
            continue
        out.append(SPAN.sub(lambda s: s[0], text[at:a]))
        out.append(turn_antt(text[a:b], new))
        at = b
    return "".join(out) + text[at:]


def turn_edit(text, new):
    kind = "rt" if re.search(r"^file: \S+\.rt$", text, re.M) else "antt"
    lines = []
    for line in text.split("\n"):
        m = re.match(r"(old: |new: )(.*)", line)
        lines.append(m[1] + turn_antt(m[2], new) if m else line)
    return "\n".join(lines)


def main(argv):
    only = "--table" in argv
    argv = [a for a in argv if a != "--table"]
    by = argv[1] if argv[:1] == ["--by"] else None
    argv = argv[2:] if by else argv
    root = argv[0] if argv else "."
    new = dict(line.split("\t") for line in read(by).split("\n") if line) if by else table(root)
    if only:
        print("\n".join(f"{a}\t{b}" for a, b in sorted(new.items())))
        return
    for path in files(root):
        turn = turn_antt if path.endswith(".antt") else turn_rt if path.endswith(".rt") else turn_edit if path.endswith(".edit") else None
        if turn:
            old = read(path)
            text = turn(old, new)
            if text != old:
                with open(path, "w", encoding="utf-8") as f:
                    f.write(text)
    print(f"respell: {len(new)} names")


main(sys.argv[1:])
