#!/usr/bin/env python3
"""Brings this repository's own definitions and lemmas to the spelling of today's Rattle: words in snake case, types in camel case.

usage: python3 tools/port/respell.py      at the top of the repository, once, directly after the kit's port.py

The names are the rows of names.tsv beside this script: old, new, and whether the name stands as an item (t), as a field
behind a dot (f), or as both (d). Two names that would fall together were told apart there: the lemma about a definition
ends in _lem. Turned are .antt files, the clauses and comments of .rt files, and the lines of .edit files; a string of
Rust and a name that Rust declares stay as they are.
"""

import os
import re
import sys

HERE = os.path.dirname(os.path.realpath(__file__))
WORD = re.compile(r"[^\s(){}.;,@\"«»\x60]+")
SPAN = re.compile(r"\x60[^\x60\n]*\x60")
QUOTED = re.compile(r'b?"(?:\\.|[^"\\])*"', re.S)
GOAL = re.compile(r"(?m)^(?:pub |abbrev )*([^\s(){}.;,:]+) :(?= tie\.| goal\.)")


def rows():
    with open(os.path.join(HERE, "names.tsv"), encoding="utf-8") as f:
        for line in f:
            if line.strip() and not line.startswith("#"):
                yield (line.rstrip("\n").split("\t") + [""])[:4]


TABLE = {old: (new, where, crate) for old, new, where, crate in rows()}


def code(text, crate, own=frozenset(), lemmas=False):
    """The text with each of its words turned; `own` has the names that a function's proof file gives to goals, and `lemmas`
    says that a name in snake case is a lemma's here, and not a function's of the code."""

    def one(m):
        word = m[0]
        row = TABLE.get(word)
        turned = "_" in word and "-" not in word
        if row is None or word in own or row[2] and row[2] != crate or turned and not lemmas:
            return word
        before, after = text[: m.start()], text[m.end() : m.end() + 1]
        if before.endswith("."):
            head = re.search(r"[^\s(){};,@\"«»\x60.]+\.$", before)
            alias = head is not None and (head[0][0].isupper() or head[0] in ("laws.", "both_ways."))
            if row[1] == "t" and not alias or turned:
                return word
        elif after == "." and turned:
            return word
        return row[0]

    return WORD.sub(one, text)


def antt(text, crate, infn):
    own = frozenset(GOAL.findall(text)) if infn else frozenset()
    out = []
    for line in text.split("\n"):
        at = re.search(r"(?:^|\s)--(?:\s|$)", line)
        at = at.start() if at else len(line)
        out.append(code(line[:at], crate, own, True) + SPAN.sub(lambda m: code(m[0], crate, lemmas=True), line[at:]))
    return "\n".join(out)


def rust(text, crate):
    """Clauses and imports alone have such names; of a comment its spans, of a string nothing."""
    out = []
    for line in text.split("\n"):
        at = re.search(r"//", line)
        at = at.start() if at and not QUOTED.search(line) else len(line)
        head, at_quote = [], 0
        for m in QUOTED.finditer(line[:at]):
            head += [code(line[at_quote : m.start()], crate), m[0]]
            at_quote = m.end()
        head.append(code(line[at_quote:at], crate))
        out.append("".join(head) + SPAN.sub(lambda m: code(m[0], crate), line[at:]))
    return "\n".join(out)


def main():
    count = 0
    for folder, dirs, files in os.walk("crates"):
        dirs[:] = sorted(d for d in dirs if d != "out")
        for name in sorted(files):
            path = os.path.join(folder, name)
            parts = path.split(os.sep)
            if not name.endswith((".antt", ".rt", ".edit")):
                continue
            with open(path, encoding="utf-8") as f:
                old = f.read()
            if name.endswith(".antt"):
                new = antt(old, parts[1], parts[2] == "proofs" and len(parts) > 4)
            elif name.endswith(".rt"):
                new = rust(old, parts[1])
            else:
                new = code(old, parts[1])
            if new != old:
                count += 1
                with open(path, "w", encoding="utf-8") as f:
                    f.write(new)
    print(f"respell: {count} files changed")


if __name__ == "__main__":
    sys.exit(main())
