#!/usr/bin/env python3
"""Brings the repository's own definitions and lemmas to the spelling of today's library: words in snake case, a dash between two names alone.
Run once, at the top, after the kit's port.py; a second run changes nothing. Types, modules and what stands in strings keep their names.

A name's humps become parts: `turnedTo` is `turned_to`. A dash stays where what stands on both sides of it is the name of a definition, as in
`length-turned`; where one side is a plain word it becomes `_`, as in `turned_back`. The functions of src/, exported names, labels of clauses and
files of input and output are not touched. Where two names would fall together, the script says so and writes nothing.
    tools/respell.py [--names]     --names: prints each old name and its new one, and writes nothing"""
import os
import re
import subprocess
import sys

ROOT = os.path.dirname(os.path.dirname(os.path.abspath(__file__)))
DECLARED = re.compile(r"^ *(?:(?:abbrev|unfoldable|pub|data|record) +)*([^\s(){}\[\].,;:]+) *(?:\{[^}]*\} *)*(?:\([^)]*\) *)*:(?= |$)")
WORD = re.compile(r"[^\s(){}\[\].,;`|]+")
# what std and the logic call so, in lemmas that begin or end with it
LIBRARY = set("length take drop replicate append map sum set sets get_or eqb ltb leb not min max mod div mul add sub reverse swap".split())


def texts(*endings):
    listed = subprocess.run(["git", "ls-files", "-z"], cwd=ROOT, capture_output=True, check=True).stdout.decode().split("\0")
    for path in sorted(p for p in listed if p.endswith(endings) and os.path.exists(os.path.join(ROOT, p))):
        with open(os.path.join(ROOT, path), encoding="utf-8") as file:
            yield path, file.read()


def declared():
    """The names that specs/ and the lemma files of proofs/ declare, with the files; and those among them that are definitions."""
    found, defined = {}, set(LIBRARY)
    for path, text in texts(".antt"):
        parts = path.split("/")
        if parts[0] == "crates" and (parts[2] == "specs" or parts[2] == "proofs" and len(parts) == 4):
            for line in text.split("\n"):
                it = DECLARED.match(line)
                if it and not line.lstrip().startswith(("--", "use ", "module ", "infix", "λ")):
                    found.setdefault(it.group(1), set()).add(path)
                    if re.match(r" *(pub )?(abbrev|unfoldable|data|record) ", line):
                        defined.add(it.group(1))
    return found, defined


def snake(word):
    return re.sub(r"(?<=[a-z0-9])([A-Z])", lambda it: "_" + it.group(1).lower(), word)


def respelled(name, known):
    if "◌" in name or name[0].isupper() and "-" not in name:
        return name
    parts = [part if part[:1].isupper() else snake(part) for part in name.split("-")]
    groups, i = [], 0
    while i < len(parts):
        j = next((j for j in range(len(parts), i, -1) if "_".join(parts[i:j]) in known and (i, j) != (0, len(parts))), None)
        groups.append(("_".join(parts[i:j]), True) if j else (parts[i], False))
        i = j or i + 1
    new = groups[0][0]
    for (_, left), (word, right) in zip(groups, groups[1:]):
        new += ("-" if left and right else "_") + word
    return new


def main():
    found, defined = declared()
    known = {name if name[0].isupper() else snake(name) for name in defined if "-" not in name and "◌" not in name}
    table = {name: respelled(name, known) for name in found}
    # what would have a definition's name, as a lemma or a case told of it, gets `_lem`
    taken = {table.get(name, name) for name in found if "-" not in name and (name in defined or name != snake(name))}
    table = {old: new + "_lem" if new in taken and ("-" in old or old not in defined and old == snake(old)) else new for old, new in table.items()}
    table = {old: new for old, new in table.items() if old != new}
    after = {}
    for name in found:
        after.setdefault(table.get(name, name), set()).add(name)
    together = {new: olds for new, olds in after.items() if len(olds) > 1}
    if "--names" in sys.argv:
        for old in sorted(table):
            print(old, table[old])
    for new, olds in sorted(together.items()):
        print("fall together:", new, "<-", ", ".join("%s (%s)" % (old, " ".join(sorted(found[old]))) for old in sorted(olds)))
    if together or "--names" in sys.argv:
        return 1 if together else 0
    changed = 0
    for path, text in texts(".antt", ".rt", ".edit", ".md"):
        if path.startswith("oracle/") or path == "docs/PORT.md":
            continue
        new = WORD.sub(lambda it: table.get(it.group(0), it.group(0)), text)
        if new != text:
            with open(os.path.join(ROOT, path), "w", encoding="utf-8") as file:
                file.write(new)
            changed += 1
    print("%d names, %d files" % (len(table), changed))
    return 0


sys.exit(main())
