#!/usr/bin/env python3
"""Brings the repository's own definitions and lemmas to snake case, once, after port.py: usage: tools/spelling.py [--list]

A name that specs/*.antt or proofs/*.antt declares (a definition, a lemma, a constructor, a field), or that a proof file of a function declares
for itself, and that has a capital inside a lower case word or a dash, is written in snake case wherever it stands as a whole word: in specs/, proofs/, src/,
must-fail/, edits/, docs/ and README.md. Types, modules and what begins with a capital stay, and so do the names that Rattle makes (goals, contexts).
--list only prints the names, and those that fall together."""

import collections
import os
import re
import subprocess
import sys

NAME = r"[^\s:(){}\[\],.=|;λ→\"']+[^\s:(){}\[\],.=|;λ→\"]*"
DECLARED = re.compile(r"( *)(?:(?:abbrev|opaque|unfoldable|pub|instance|ruleset)\s+)*(?:(?:record|data)\s+)?(" + NAME + r")(?:\s+[^=:]*?)?\s*:(?:\s|$)")
# definitions that were in snake case already and whose lemma was spelled with a dash, and a lemma that port.py turned
KEPT = {"part_at"}
LEMMAS = {"used_pair"}
KEEP = {"use", "mod", "open", "module", "infixl", "infixr", "infix", "prefix", "let", "--", "λ"}
# tokens of antt: what may stand in a name
TOKEN = re.compile(r"[^\s(){}\[\],;.=|\"`:/]+")


def snake(name):
    name = re.sub(r"(?<=[a-z0-9])([A-Z])", lambda m: "_" + m[1].lower(), name)
    return name.replace("-", "_")


def declared(path, whole):
    out = set()
    goal = re.compile(r"^(?:pub )?(\S+) : (?:tie|goal)\.")
    for line in open(path, encoding="utf-8"):
        line = re.sub(r"\s*--.*", "", line)
        m = DECLARED.match(line)
        if not m or m[2] in KEEP or goal.match(line):
            continue
        if m[1] and not whole:
            continue
        # inside a definition an indented 'x : T' is a let or a binder: only a field or a constructor, which stands alone before its colon
        if m[1] and not re.match(r" +(?:pub )?" + re.escape(m[2]) + r" :", line):
            continue
        out.add(m[2])
    return out


def files(root):
    for top in ("crates", "edits", "docs"):
        for folder, dirs, names in os.walk(os.path.join(root, top)):
            dirs[:] = sorted(d for d in dirs if d not in ("out", "target"))
            for f in sorted(names):
                if f.endswith((".antt", ".rt", ".edit", ".md")) and f not in ("PORT.md", "PORT-OTHER.md"):
                    yield os.path.join(folder, f)
    yield os.path.join(root, "README.md")


def main(argv):
    root = subprocess.run(["git", "rev-parse", "--show-toplevel"], capture_output=True, text=True, check=True).stdout.strip()
    old, where = set(), collections.defaultdict(set)
    for path in files(root):
        if not path.endswith(".antt"):
            continue
        parts = os.path.relpath(path, os.path.join(root, "crates")).split(os.sep)
        of_a_function = len(parts) > 3
        for name in declared(path, not of_a_function):
            if re.match(r"[a-z]", name) and snake(name) != name and not name.startswith(("invariant-", "decreases-")):
                old.add(name)
            where[name].add(os.path.relpath(path, root))
    turn = {name: snake(name) for name in old}
    # a lemma that would have its definition's name gets _lem
    for name in sorted(where):
        if turn.get(name, name) in {snake(d) for d in where if d != name and re.search(r"[a-z][A-Z]", d)} | KEPT and (("-" in name and name != snake(name)) or name in LEMMAS):
            turn[name] = snake(name) + "_lem"
    together = collections.defaultdict(set)
    for name in where:
        together[turn.get(name, name)].add(name)
    for new, names in sorted(together.items()):
        if len(names) > 1:
            print("falls together:", new, {n: sorted(where[n])[:6] for n in sorted(names)})
    if "--list" in argv:
        for name in sorted(turn):
            print(name, turn[name])
        return 0
    changed = 0
    for path in files(root):
        text = open(path, encoding="utf-8").read()
        # functions of src/ keep their names
        here = {n: t for n, t in turn.items() if not (path.endswith(".rt") and n in LEMMAS)}
        new = TOKEN.sub(lambda m: here.get(m[0], m[0]), text)
        if new != text:
            changed += 1
            open(path, "w", encoding="utf-8").write(new)
    print(f"{len(turn)} names, {changed} files")
    return 0


if __name__ == "__main__":
    sys.exit(main(sys.argv[1:]))
