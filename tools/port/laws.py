#!/usr/bin/env python3
"""Lists the statements in crates/*/proofs/*.antt that differ from those of a commit: laws.py COMMIT.

A statement is a name, a colon and a type, up to the first line of its proof; the lines of the enclosing `module _` blocks belong to
it. Layout and comments are left aside. Of each: the same, changed (old and new), gone, or new.
"""
import re
import subprocess
import sys

HEAD = re.compile(r"^( *)(?:abbrev )?(?:unfoldable )?(?:pub )?([^\s:(){}]+) : (.*)$")
SKIP = ("use ", "pub use ", "mod ", "pub mod ", "unfolding ", "--", "ruleset", "pub ruleset", "record ", "pub record ", "data ", "pub data ")


def statements(text):
    """Yields name and type of each statement, with the binders of the blocks round it."""
    blocks, lines, at = [], text.split("\n"), 0
    while at < len(lines):
        line = lines[at]
        at += 1
        bare = line.strip()
        if not bare or bare.startswith(SKIP):
            continue
        deep = len(line) - len(line.lstrip())
        while blocks and deep <= blocks[-1][0]:
            blocks.pop()
        if bare.startswith("module _"):
            whole = bare
            while not whole.endswith("where") and at < len(lines):
                whole += " " + lines[at].strip()
                at += 1
            blocks.append((deep, whole))
            continue
        found = HEAD.match(line)
        if not found:
            continue
        kind, name = found.group(3), found.group(2)
        while at < len(lines):
            after = lines[at]
            shown = after.strip()
            if not shown or shown.startswith(SKIP) or len(after) - len(after.lstrip()) <= deep:
                break
            if re.match(r"^" + re.escape(name) + r"\b.* = ", shown) or HEAD.match(after) and len(after) - len(after.lstrip()) == deep:
                break
            kind += " " + shown
            at += 1
        yield name, " ".join((" ".join([it for _, it in blocks] + [kind])).split())


def all_of(read, files):
    found = {}
    for file in files:
        crate, name = file.split("/")[1], file.split("/")[3]
        for law, kind in statements(read(file)):
            found.setdefault((crate, law), []).append(kind)
    return {key: sorted(kinds) for key, kinds in found.items()}


def git(*words):
    return subprocess.run(["git", *words], check=True, capture_output=True, text=True).stdout


def main(commit):
    fits = re.compile(r"^crates/[^/]+/proofs/[^/]+\.antt$")
    before = [it for it in git("ls-tree", "-r", "--name-only", commit).split("\n") if fits.match(it)]
    now = [it for it in git("ls-files").split("\n") if fits.match(it)]
    old = all_of(lambda file: git("show", f"{commit}:{file}"), before)
    new = all_of(lambda file: open(file, encoding="utf-8").read(), now)
    same = sum(old[key] == new.get(key) for key in old)
    changed = [key for key in sorted(old) if key in new and old[key] != new[key]]
    gone, made = sorted(set(old) - set(new)), sorted(set(new) - set(old))
    print(f"statements {len(old)} -> {len(new)}: the same {same}, changed {len(changed)}, gone {len(gone)}, new {len(made)}")
    for crate, law in changed:
        print(f"changed: {crate} {law}")
        print("    - " + "\n    - ".join(old[crate, law]))
        print("    + " + "\n    + ".join(new[crate, law]))
    for crate, law in gone:
        print(f"gone: {crate} {law}")
        print("    - " + "\n    - ".join(old[crate, law]))
    for crate, law in made:
        print(f"new: {crate} {law}")


main(sys.argv[1])
