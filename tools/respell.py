#!/usr/bin/env python3
"""Brings the repository's own definitions, lemmas, fields and constructors to snake case.

usage: python3 tools/respell.py            at the top of the repository, once, after the kit's port.py
       python3 tools/respell.py --table    writes tools/respell.tsv, the names and what they become, from the tree as it stands

A name is turned where it is a whole word: in the code of .antt files, in clauses and `ghost use` lines of .rt files, in
must-fail edits, and between back quotes in comments and pages. Functions of src/, exported names, strings, inputs and outputs
are not in the table. A lemma that would get the name of a definition gets `_lem` behind it.
"""

import collections
import os
import re
import sys

TABLE = os.path.join(os.path.dirname(os.path.realpath(__file__)), "respell.tsv")
WORD = re.compile(r"[^\W\d][\w'₀-₉-]*")
PAGES = ["README.md"] + ["docs/" + n + ".md" for n in "ARCHITECTURE COSTS DECISIONS PASSES PROMISES SPECIFICATION WALK".split()]
# names that the kit makes of the code, and asks for as they stand
MADE = re.compile(r"(Need|Lts|After|Then|Else)-|(invariant|decreases|loop|returns)(-|$)")
DECLARED = re.compile(r"^\s*(?:abbrev |unfoldable )?(?:pub )?(?:data |record |abbrev |unfoldable )?(?:pub )?([^\W\d][\w'-]*) :\s")
# fields beside a definition of that name
BETTER = {"all-bytes": "has_all_bytes", "answer-bytes": "answer_has_bytes", "state-bytes": "state_has_bytes"}
USE = re.compile(r"^\s*(?:pub )?use ([\w.·'+]+)(?:\.\{(.*)\})?(?: as (\S+))?$")


def files(*kinds):
    for folder, dirs, names in os.walk("crates"):
        dirs[:] = sorted(d for d in dirs if d != "out")
        for n in sorted(names):
            if n.endswith(kinds):
                yield os.path.join(folder, n)


def read(path):
    with open(path, encoding="utf-8") as f:
        return f.read()


def snake(name):
    parts = name.replace("-", "_").split("_")
    low = lambda m: "_" + m.group(1).lower() + m.group(2)
    return "_".join(re.sub(r"(?<=[a-z0-9'])([A-Z])([a-z0-9])", low, p) if p[:1].islower() else p for p in parts)


def table():
    crates = set(os.listdir("crates"))
    declared, kit, words = set(), set(), collections.Counter()
    for path in files(".antt"):
        for line in read(path).split("\n"):
            if line.lstrip().startswith("--"):
                continue
            use = USE.match(line)
            if use:
                root = use.group(1).split(".")
                if not (root[0] == "Rattle" and len(root) > 1 and root[1] in crates):
                    kit.update(n.split(" as ")[0].strip() for n in (use.group(2) or "").split(","))
            named = DECLARED.match(line)
            if named:
                declared.add(named.group(1))
            words.update(WORD.findall(line))
    rows = {}
    taken = {snake(n) for n in declared if "-" not in n}
    for name in sorted(words):
        if name in kit or MADE.match(name) or not ("-" in name or re.match(r"[a-z_]\w*[A-Z]", name)):
            continue
        new = snake(name)
        if name in BETTER:
            new = BETTER[name]
        elif "-" in name and name in declared and new in taken:
            new += "_lem"
        if new != name:
            rows[name] = new
    with open(TABLE, "w", encoding="utf-8") as f:
        f.writelines(f"{a}\t{b}\n" for a, b in rows.items())


def turned(text, rows):
    return WORD.sub(lambda m: rows.get(m.group(0), m.group(0)), text)


def quoted(text, rows):
    """Between back quotes alone."""
    return re.sub(r"`[^`\n]+`", lambda m: turned(m.group(0), rows), text)


def main():
    if sys.argv[1:] == ["--table"]:
        return table()
    rows = dict(line.rstrip("\n").split("\t") for line in open(TABLE, encoding="utf-8"))
    for path in files(".antt", ".rt", ".edit"):
        old = read(path)
        mark = "//" if path.endswith(".rt") else "--"
        lines = []
        for line in old.split("\n"):
            code, comment = line, ""
            if line.lstrip().startswith(mark):
                code, comment = "", line
            if '"' not in code:
                code = turned(code, rows)
            lines.append(code + quoted(comment, rows))
        new = "\n".join(lines)
        if new != old:
            with open(path, "w", encoding="utf-8") as f:
                f.write(new)
    for path in PAGES:
        old = read(path)
        new = quoted(old, rows)
        if new != old:
            with open(path, "w", encoding="utf-8") as f:
                f.write(new)


main()
