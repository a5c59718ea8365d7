#!/usr/bin/env python3
"""Brings this repository's own definitions and lemmas to today's spelling: words in snake case.

usage: respell.py FOLDER          the repository's top, after the kit's port.py; run it once

    laneByte -> lane_byte, lane-byteAt -> lane-byte_at, rotatedCAt -> rotated_c_at

It renames what the repository declares in specs/ and proofs/ (definitions, lemmas, fields of records), wherever it is named: in
.antt files, in the clauses, ghost items and comments of .rt files, and in must-fail edits. Code of src/ has no such name, so exported
names, strings and functions stay as they are. Where a definition would get the name of a lemma, the lemma gets the ending `_lem`.
Documents (.md) follow where a name stands between backquotes.
"""

import collections
import os
import re
import sys

TOKEN = re.compile(r"[^\s(){}\[\];,.\"⌜⌝«»`|]+")
DECLARED = re.compile(r"^[ ]*((?:abbrev |unfoldable |pub )*)([^\s(){}:;,.\"]+) :(?=[ \n])", re.M)
DATA = re.compile(r"^[ ]*(?:abbrev |unfoldable |pub )*(?:record|data) ([^\s(){}:;,.\"]+)", re.M)


def snake(name):
    parts = []
    for part in re.split(r"(-)", name):
        if re.match(r"[a-z]", part):
            part = re.sub(r"(?<=[a-z0-9])([A-Z])", r"_\1", part)
            part = re.sub(r"(?<=[A-Z])([A-Z])(?=[a-z])", r"_\1", part)
            part = part.lower()
        parts.append(part)
    return "".join(parts)


def files(root, endings):
    for folder, dirs, names in os.walk(root):
        dirs[:] = sorted(d for d in dirs if d not in ("out", ".git", "target"))
        for name in sorted(names):
            if name.endswith(endings):
                yield os.path.join(folder, name)


def read(path):
    with open(path, encoding="utf-8", newline="") as f:
        return f.read()


def main(root):
    crates = os.path.join(root, "crates")
    declared = collections.defaultdict(set)
    for path in files(crates, ".antt"):
        text = read(path)
        for m in list(DECLARED.finditer(text)) + list(DATA.finditer(text)):
            declared[m.group(m.lastindex)].add(path)
    renamed = {n: snake(n) for n in declared if snake(n) != n}
    # A lemma whose name a definition would get. Only names that stand by themselves are turned: a path or a field may be a function's.
    fallen = {new: new + "_lem" for new in renamed.values() if new in declared}
    clash = [new for new in fallen.values() if new in declared or new in renamed.values()]
    twice = [n for n, k in collections.Counter(renamed.values()).items() if k > 1]
    if clash or twice:
        raise SystemExit(f"names fall together: {clash} {twice}")

    def turn(text, lemmas):
        out, at = [], 0
        for m in TOKEN.finditer(text):
            word = m.group()
            new = renamed.get(word)
            if new is None and lemmas and word in fallen and text[m.start() - 1 : m.start()] != ".":
                new = fallen[word]
            if new is not None:
                out += [text[at : m.start()], new]
                at = m.end()
        return "".join(out) + text[at:]

    changed = 0
    for path in files(crates, (".antt", ".rt", ".edit")):
        text = read(path)
        new = turn(text, path.endswith(".antt") or (path.endswith(".edit") and "file: src/" not in text))
        if new != text:
            changed += 1
            with open(path, "w", encoding="utf-8", newline="") as f:
                f.write(new)
    for path in list(files(os.path.join(root, "docs"), ".md")) + [os.path.join(root, "README.md")]:
        text = read(path)
        new = re.sub(r"`[^`\n]*`", lambda m: turn(m.group(), False), text)
        if new != text:
            changed += 1
            with open(path, "w", encoding="utf-8", newline="") as f:
                f.write(new)
    print(f"{len(renamed)} names, {len(fallen)} lemmas with the ending _lem, {changed} files")
    for old in sorted(fallen):
        print("lemma", old, "->", fallen[old])


if __name__ == "__main__":
    main(sys.argv[1])
