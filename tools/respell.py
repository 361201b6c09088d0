#!/usr/bin/env python3
"""Respells this repository's own definitions and lemmas in the spelling of today's Rattle.

usage: python3 tools/respell.py [--names FILE]     at the top of the repository, once, after the kit's port.py

A definition is in snake case (`asModel` becomes `as_model`); types, modules and facts keep their capitals. In a lemma's name a dash joins two
names (`length-drop`), and a plain word is added with an underscore (`new_below_old`). A name is a definition or a field of specs/, a function of
src/ or a word of the library; every other part of a lemma's name is a plain word. Names that a check makes for a function's proof (in proofs/FUNCTION/) stay.
Functions of src/, exported names, strings, inputs and outputs stay. It goes over specs/, proofs/, the clauses of src/, the edits in must-fail/ and
what stands as code in comments and pages. A definition that would get the name of a function of src/ gets the word of CHOSEN. --names writes the
table of what was respelled.
"""
import os
import re
import sys

SPLIT = re.compile(r"([\s(){}\[\];,.|\"`↦\\⟨⟩]+)")
WORD = r"[^\s(){}\[\];,.|\"`↦\\⟨⟩:λ]+"
LIBRARY = set("length append take drop map filter sum min max zero suc add sub mul div mod pow cond not and or true false nil cons get set ones eqb ltb leb "
              "count first reverse replicate head tail all any even odd lt le eq ne".split())


# a definition whose name in snake case is a function of src/ already, or a local of a proof
CHOSEN = {
    "coresOf": "cores_for", "edgesOf": "edges_said", "gainOf": "gain_found", "newOf": "new_found", "onesOf": "ones_among", "pathOf": "path_found",
    "recordOf": "record_for", "wcetOf": "wcet_said", "goesOn": "goes_on_next", "goesTo": "goes_to_next", "edgeIn": "edge_said", "noRoom": "no_room_left",
    "tooMany": "too_many_paths", "sameEnds": "has_same_ends",
}


def files(ending, top="crates"):
    for folder, dirs, names in os.walk(top):
        dirs[:] = sorted(d for d in dirs if d not in ("out", ".git", "target"))
        for n in sorted(names):
            if n.endswith(ending):
                yield os.path.join(folder, n)


def made(path):
    """Whether the file is a function's proof, whose names the check makes."""
    parts = path.split(os.sep)
    return "proofs" in parts and len(parts) - parts.index("proofs") > 2


def read(path):
    with open(path, encoding="utf-8") as f:
        return f.read()


def own_names():
    top, fields, every, specs = set(), set(), set(), set()  # fields: those of records and constructors in specs/
    for p in files(".antt"):
        for line in read(p).split("\n"):
            if line.startswith(("use ", "--")) or line.lstrip().startswith("--"):
                continue
            m = re.match(r"(\s*)((?:abbrev |unfoldable |pub |record |data |instance )*)(" + WORD + r")((?: " + WORD + r")*)\s*:(?!=)\s", line)
            if not m:
                continue
            inner = bool(m.group(1))
            for n in [m.group(3)] + (m.group(4).split() if not inner or "pub" in m.group(2) else []):
                every.add(n)
                if os.sep + "specs" + os.sep in p and ("pub" in m.group(2) or not inner):
                    specs.add(n)
                    if inner:
                        fields.add(n)
                elif os.sep + "specs" + os.sep in p:
                    fields.add(n)
                    top.add(n)
                if made(p):
                    continue
                if not inner or "pub " in m.group(2):
                    top.add(n)
    return top, fields, every, specs


def functions():
    out = set()
    for p in files(".rt"):
        out |= set(re.findall(r"\b(?:fn|struct|enum|const|mod)\s+(\w+)", read(p)))
    return out


def snake(name):
    return re.sub(r"(?<=[a-z0-9])([A-Z])", lambda m: "_" + m.group(1).lower(), name)


def code(text, table):
    return "".join(table.get(x, x) for x in SPLIT.split(text))


def quoted(text, table):
    """Text in which only what stands between backticks is code."""
    return re.sub(r"`[^`\n]+`", lambda m: code(m.group(0), table), text)


def respelled(text, path, table):
    if path.endswith(".md"):
        parts = re.split(r"(?ms)(^```.*?^```)", text)
        return "".join(code(x, table) if i % 2 else quoted(x, table) for i, x in enumerate(parts))
    if path.endswith(".edit"):
        return code(text, table)
    mark = "--" if path.endswith(".antt") else "//"
    out = []
    for line in text.split("\n"):
        m = re.search(r"(^|\s)" + mark + r"(\s|$)", line)
        at = m.start() if m else len(line)
        out.append(code(line[:at], table) + quoted(line[at:], table))
    return "\n".join(out)


def main(argv):
    top, fields, every, specs = own_names()
    rust = functions()
    tokens = set()
    for p in list(files(".antt")) + list(files(".rt")):
        tokens |= set(SPLIT.split(read(p)))
    in_proofs = set()
    for p in files(".antt"):
        if made(p):
            for line in read(p).split("\n"):
                m = re.match(r"(?:abbrev |unfoldable )?(?:pub )?(" + WORD + r")\s*:(?!=)\s", line)
                if m:
                    in_proofs.add(m.group(1))
    words = {n for n in specs | rust if "-" not in n} | LIBRARY
    words |= {snake(n) for n in words}
    table = {}
    for n in sorted(top):
        if not n[0].isalpha() or n in in_proofs and n not in fields:
            continue
        parts = n.split("-")
        if n[0].isupper():
            continue
        parts = [snake(x) if x[:1].islower() else x for x in parts]
        new = parts[0]
        for before, after in zip(parts, parts[1:]):
            joined = n not in fields and before in words and after in words and not after[:1].isdigit()
            new += ("-" if joined else "_") + after
        if new != n:
            table[n] = new
    taken, clash = {}, []
    for old, new in sorted(table.items()):
        if new in taken or new in tokens and old not in fields:
            clash.append((old, new))
        else:
            taken[new] = old
    for old, new in clash:
        other = old if not re.search("[a-z][A-Z]", old) else None
        if other:
            del table[old]
        else:
            at = CHOSEN.get(old, new + "_of")
            if at in tokens or at in taken:
                raise SystemExit(f"respell: {old} has no name: {at} is taken")
            table[old] = at
            taken[table[old]] = old
    table = {a: b for a, b in table.items() if a != b}
    if "--names" in argv:
        with open(argv[argv.index("--names") + 1], "w", encoding="utf-8") as f:
            f.writelines(f"{a}\t{b}\n" for a, b in sorted(table.items()))
    for p in list(files(".antt")) + list(files(".rt")) + list(files(".edit")) + list(files(".md", ".")):
        t = read(p)
        new = respelled(t, p, table)
        if new != t:
            with open(p, "w", encoding="utf-8") as f:
                f.write(new)
    print(f"respell: {len(table)} names; {len(clash)} fell together with another and were left or got a word more: " + ", ".join(f"{a} ({table.get(a, a)})" for a, b in clash))


if __name__ == "__main__":
    main(sys.argv[1:])
