#!/usr/bin/env python3
"""Brings the names of definitions and lemmas in the pages to the spelling that respell.py gave them.

usage: python3 tools/port/pages.py PAGE..      at the top of the repository

Turned are words inside code spans alone, by names.tsv, and where that has no row by the same rule (words in snake case);
a word turns only if no source of crates/ has it as it stands, and one has what it becomes. Each turn is printed.
"""

import glob
import re
import sys

SPAN = re.compile(r"`[^`\n]*`")
WORD = re.compile(r"[^\s(){}\[\].;:,@\"«»`|&=]+")
PLACE = re.compile(r"/|\.(md|rs|rt|txt|antt|edit|c|h|a|awk|py)\b")


def sources():
    found = set()
    for pattern in ("crates/*/src/**/*.rt", "crates/*/specs/**/*.antt", "crates/*/proofs/**/*.antt"):
        for path in glob.glob(pattern, recursive=True):
            with open(path, encoding="utf-8") as f:
                for line in f:
                    code = re.split(r"(?:^|\s)(?:--|//)(?:\s|$)", line)[0]
                    found.update(WORD.findall(code))
    return found


def rows():
    with open("tools/port/names.tsv", encoding="utf-8") as f:
        for line in f:
            if line.strip() and not line.startswith("#"):
                yield line.rstrip("\n").split("\t")[:2]


def snake(word):
    return re.sub(r"(?<=[a-z0-9])([A-Z])", lambda m: "_" + m[1].lower(), word).replace("-", "_")


def main(pages):
    known, table = sources(), dict(rows())
    turned, left = {}, {}
    for page in pages:
        with open(page, encoding="utf-8") as f:
            old = f.read()

        def one(m):
            word = m[0]
            if word in known or not re.fullmatch(r"[A-Za-z][A-Za-z0-9_'′-]*", word):
                return word
            new = table.get(word, snake(word))
            if new == word:
                return word
            if new not in known:
                left.setdefault(word, set()).add(page)
                return word
            turned.setdefault((word, new), set()).add(page)
            return new

        def span(m):
            return m[0] if PLACE.search(m[0]) else WORD.sub(one, m[0])

        new = SPAN.sub(span, old)
        if new != old:
            with open(page, "w", encoding="utf-8") as f:
                f.write(new)
    for (word, new), where in sorted(turned.items()):
        print(f"{word}\t{new}\t{' '.join(sorted(where))}")
    for word, where in sorted(left.items()):
        print(f"LEFT\t{word}\t{' '.join(sorted(where))}")


if __name__ == "__main__":
    main(sys.argv[1:])
