#!/usr/bin/env python3
"""Brings the names of this repository's own definitions and lemmas to one spelling: words in snake case, types and facts in camel case.

usage: tools/respell.py [--look] [FOLDER]     FOLDER is the repository, by default the current folder; --look lists the names and writes nothing

It goes over specs/, proofs/, the clauses of src/ and the must-fail edits. A name that a file brings in from a library stays there.
It was run when the repository came to a newer Rattle (docs/PORT.md).
"""
import os
import re
import sys

NAME = r"[^\s(){}\[\].;,@\"«»:]+"
TOKEN = re.compile(NAME)
HEAD = re.compile(rf"^ *(?:(?:pub|abbrev|unfoldable) +)*({NAME})((?: +(?:{NAME}|\{{[^{{}}\n]*\}}))*) +:(?: |$)", re.M)
USE = re.compile(r"^use ([^\s;{]+)(\{[^}]*\})?(?: as (\S+))?", re.M)
WORDS = {"pub", "abbrev", "unfoldable", "use", "where", "module", "record", "data", "let", "in", "elim", "unfolding", "mod", "open"}
# What Rattle itself names in a proof file keeps its spelling.
MADE = re.compile(r"(invariant|decreases|returns)-|.*-(spec|requires)$")
# Names whose words the rule does not tell.
SAID = {"isNaN": "is_nan"}


def snake(name):
    if name in SAID:
        return SAID[name]
    words = re.sub(r"(?<=[a-z0-9])[A-Z]", lambda m: "_" + m[0].lower(), name)
    return re.sub(r"(?<=[^\W_])-(?=[^\W_])", "_", words)


def files(root, *ends):
    for folder, dirs, names in os.walk(os.path.join(root, "crates")):
        dirs[:] = sorted(d for d in dirs if d != "out")
        for n in sorted(names):
            if n.endswith(ends):
                yield os.path.join(folder, n)


def read(path):
    with open(path, encoding="utf-8") as f:
        return f.read()


def quiet(text):
    return re.sub(r"--.*", "", text)


def is_own(path):
    steps = path.split(".")
    return steps[0] == "Rattle" and len(steps) > 1 and steps[1] in OWN or steps[0] not in ("Rattle", "Prim") and steps[0][:1].isupper()


def brought(text):
    """The names that a file brings in from libraries."""
    names = set()
    for path, items, _ in USE.findall(text):
        if not is_own(path):
            names.update(TOKEN.findall(items))
    return names


def declared(root):
    """Each name to respell, with its new spelling; a lemma that would meet a definition or another lemma gets _lem."""
    found, names = {}, set()
    for path in files(root, ".antt"):
        text = quiet(read(path))
        for m in HEAD.finditer(text):
            if re.match(r"\s*(tie|goal)\.", text[m.end():]):
                continue
            for name in [m[1], *(m[2].split() if "{" not in m[2] else [])]:
                if name in WORDS or MADE.match(name) or not re.match(r"[a-z]", name):
                    continue
                names.add(name)
                new = snake(name)
                if new != name:
                    found.setdefault(name, new)
    defined = names - set(found) | {found[n] for n in found if "-" not in n}
    return {o: n + "_lem" if "-" in o and n in defined else n for o, n in found.items()}


def turned(text, table, stays, pattern):
    return pattern.sub(lambda m: m[0] if m[0] in stays else table.get(m[0], m[0]), text)


def main(argv):
    look = "--look" in argv
    argv = [a for a in argv if a != "--look"]
    root = argv[0] if argv else "."
    global OWN
    OWN = set(os.listdir(os.path.join(root, "crates")))
    table = declared(root)
    if look:
        for old, new in sorted(table.items()):
            print(old, new)
        return 0
    for path in files(root, ".antt"):
        text = read(path)
        new = turned(text, table, brought(text), TOKEN)
        if new != text:
            with open(path, "w", encoding="utf-8") as f:
                f.write(new)
    in_clauses = {o: n for o, n in table.items() if "-" not in o}
    for path in files(root, ".rt", ".edit"):
        text = read(path)
        new = turned(text, table if path.endswith(".edit") else in_clauses, set(), TOKEN)
        if new != text:
            with open(path, "w", encoding="utf-8") as f:
                f.write(new)
    return 0


if __name__ == "__main__":
    raise SystemExit(main(sys.argv[1:]))
