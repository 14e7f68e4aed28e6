#!/usr/bin/env python3
"""Brings the names of this repository's own definitions, fields and lemmas to snake case, as the library spells its own.

Run once, at the top of the repository, after the kit's port.py and before any edit by hand. It reads which names the files of specs/ and
proofs/ declare, and writes each of them in snake case wherever it stands: in specs/, in proofs/, in the ghost lines and contracts of
src/, in must-fail edits, and in the pages. Types, facts and modules keep their capitals. Functions of src/, goals, exported C names and
names of the library stay. Prints how many names it turned, and every pair of names that would fall together (then it writes nothing).
"""
import collections
import glob
import re
import sys

EDGE_BEFORE = r"(?<![^\s(){}\[\],;.`'])"
EDGE_AFTER = r"(?![^\s(){}\[\],;.`:'])"
DECLARED = re.compile(r"^\s*(?:(?:unfoldable|abbrev|pub)\s+)*([^\s(){},;:=.]+) :(?:\s|$)")
# The library's getD is get_or today, and its boolAnd and the like are words of their own: laws about them follow.
WORDS = {"getD": "get_or"}


def code_of(line):
    return re.sub(r"--.*", "", line)


def snake(name):
    for old, new in WORDS.items():
        name = name.replace(old, new)
    name = re.sub(r"(?<=[a-z0-9])([A-Z])", lambda m: "_" + m.group(1).lower(), name)
    return name.replace("-", "_")


def is_own_word(name):
    return re.match(r"[a-z]", name) and (re.search(r"[A-Z]", name) or "-" in name)


def declared_names():
    """Each name that a file of specs/ or proofs/ declares; of a function's own proof, those that are no answer to a goal."""
    names = set()
    for path in glob.glob("crates/*/specs/*.antt") + glob.glob("crates/*/proofs/**/*.antt", recursive=True):
        for line in open(path, encoding="utf-8"):
            found = DECLARED.match(code_of(line))
            if found and " : tie." not in line and "statement M" not in line:
                names.add(found.group(1))
    return names


def library_names():
    """Each name that a file takes from the library."""
    names = set()
    for path in glob.glob("crates/*/**/*.antt", recursive=True) + glob.glob("crates/*/src/*.rt"):
        for line in open(path, encoding="utf-8"):
            found = re.match(r"(?:ghost )?use ([^\s{]+)\.\{(.*)\}", line)
            if found and not (found.group(1).startswith("Rattle.") and not re.match(r"Rattle\.(std|core)\b", found.group(1))):
                names.update(part.strip().split(" as ")[0] for part in found.group(2).split(","))
    return names


def turned_names():
    """Old name to new. A lemma that would have its function's name gets `_lem`, as in the library."""
    names = {name for name in declared_names() if is_own_word(name)} - library_names()
    functions = {snake(name) for name in names if "-" not in name} | {name for name in declared_names() if not is_own_word(name)}
    return {name: snake(name) + ("_lem" if "-" in name and snake(name) in functions else "") for name in names}


def clashes(turned):
    """Pairs of names that would fall together."""
    by_new = collections.defaultdict(set)
    for old, new in turned.items():
        by_new[new].add(old)
    for name in declared_names() | library_names():
        if name in by_new:
            by_new[name].add(name)
    return {new: olds for new, olds in by_new.items() if len(olds) > 1}


def replacer(turned):
    names = sorted(turned, key=len, reverse=True)
    pattern = re.compile(EDGE_BEFORE + "(" + "|".join(map(re.escape, names)) + ")" + EDGE_AFTER)
    return lambda text: pattern.sub(lambda m: turned[m.group(1)], text)


def main():
    turned = turned_names()
    fallen = clashes(turned)
    for new, olds in sorted(fallen.items()):
        print("falls together:", new, "from", ", ".join(sorted(olds)))
    if fallen and "--yes" not in sys.argv:
        return 1
    every = replacer(turned)
    camel = replacer({old: new for old, new in turned.items() if "-" not in old})
    # A name in camel case that no file declares is a variable: it follows too.
    local = re.compile(EDGE_BEFORE + r"([a-z][a-z0-9]*(?:[A-Z][a-z0-9]*)+)" + EDGE_AFTER)
    changed = 0
    for path in sorted(
        glob.glob("crates/*/specs/*.antt")
        + glob.glob("crates/*/proofs/**/*.antt", recursive=True)
        + glob.glob("crates/*/src/*.rt")
        + glob.glob("crates/*/must-fail/*.edit")
        + glob.glob("docs/*.md")
        + ["README.md"]
    ):
        text = open(path, encoding="utf-8").read()
        if path.endswith(".antt"):
            lines = []
            for line in text.split("\n"):
                code = code_of(line)
                lines.append(local.sub(lambda m: snake(m.group(1)), every(code)) + camel(line[len(code):]))
            new = "\n".join(lines)
        elif path.endswith(".md"):
            new = re.sub(r"`[^`\n]+`", lambda m: every(m.group(0)), camel(text))
        else:
            new = "\n".join(line if line.lstrip().startswith("//") else every(line) for line in text.split("\n"))
            new = camel(new)
        if new != text:
            open(path, "w", encoding="utf-8").write(new)
            changed += 1
    print("names:", len(turned), "files:", changed)
    return 0


sys.exit(main())
