#!/usr/bin/env python3
"""Which must-fail edits do not apply.

    python3 tools/edits.py [CRATE..]

An edit (crates/C/must-fail/E.edit) is a line `file: PATH` and pairs of lines
`old: TEXT` and `new: TEXT`; a further `file:` may come between pairs. Each
pair is applied in memory to its file as the pairs before it left it: its old
text must stand there exactly once, and each file must end up changed. Other
lines are comments and begin with `#`. Nothing is written. Says which edits do
not apply and why, and how many there are; exit 1 if any does not.
"""
import os
import sys

ROOT = os.path.dirname(os.path.dirname(os.path.realpath(__file__)))


def applied(crate, edit):
    """What is wrong with the edit (None: nothing), and the texts of the files before and after, by path."""
    with open(edit, encoding="utf-8") as f:
        lines = f.read().split("\n")
    path, old, before, after = None, None, {}, {}
    for n, line in enumerate(lines, 1):
        if line.startswith("file: "):
            path = line[len("file: "):].strip()
            if old is not None:
                return f"line {n}: `file:` where `new:` is due", before, after
            if path in before:
                continue
            if os.path.normpath(path) != path or not path.startswith(("src/", "specs/", "proofs/")):
                return f"{path} is no path below src/, specs/ or proofs/", before, after
            if not os.path.isfile(os.path.join(crate, path)):
                return f"there is no file {path}", before, after
            with open(os.path.join(crate, path), encoding="utf-8") as f:
                before[path] = after[path] = f.read()
        elif line.startswith("old: "):
            if path is None or old is not None:
                return f"line {n}: `old:` where another line is due", before, after
            old = line[len("old: "):]
        elif line == "new:" or line.startswith("new: "):
            if old is None:
                return f"line {n}: `new:` without `old:`", before, after
            new = line[len("new: "):]
            if new == old:
                return f"the new text is the old one: {old}", before, after
            times = after[path].count(old)
            if times != 1:
                return f"stands {times} times in {path}: {old}", before, after
            after[path] = after[path].replace(old, new)
            old = None
        elif line.strip() and not line.startswith("#"):
            return f"line {n} is not read: {line}", before, after
    if old is not None:
        return "the last `old:` has no `new:`", before, after
    if not before:
        return "it names no file", before, after
    for path in before:
        if before[path] == after[path]:
            return f"it leaves {path} as it was", before, after
    return None, before, after


def main(names):
    crates = os.path.join(ROOT, "crates")
    total = bad = 0
    for name in names or sorted(os.listdir(crates)):
        folder = os.path.join(crates, name, "must-fail")
        if not os.path.isdir(folder):
            continue
        for it in sorted(os.listdir(folder)):
            total += 1
            if not it.endswith(".edit"):
                bad += 1
                print(f"{name}/{it}: its name does not end in .edit")
                continue
            wrong = applied(os.path.join(crates, name), os.path.join(folder, it))[0]
            if wrong:
                bad += 1
                print(f"{name}/{it}: {wrong}")
    print(f"{total} edits, {bad} do not apply")
    return 1 if bad else 0


if __name__ == "__main__":
    sys.exit(main(sys.argv[1:]))
