#!/usr/bin/env python3
"""Spells this repository's own definitions, lemmas, fields and aliases as today's Rattle does: words in snake case.

usage: python3 tools/respell.py [--list]      once, at the top, after the kit's port.py

In .antt files a name of this repository that is in camel case or has dashes gets underscores; so does a name that an import gives with a
middle dot, as `contains as Ellipse·contains`, which becomes `ellipse_contains`. Names of types and modules, of the kit, and those that
Rattle makes of the source (behind `c.` or `tie.`, and the answers named after them) stay. In .rt files, edits and pages the same names are
turned where they stand in camel case or with a middle dot. What two names would fall together is refused before anything is written.
"""
import os
import re
import sys

TOP = os.path.dirname(os.path.dirname(os.path.realpath(__file__)))
TOKEN = re.compile(r'[^\s(){}.;,@"«»]+')
CAMEL = re.compile(r"^[a-z][a-z0-9]*'*(?:[A-Z0-9][a-z0-9]*)*[A-Z]\w*'*$")
OWN = re.compile(r"^Rattle\.(\w+)\.")
IMPORT = re.compile(r"(?ms)^(?:pub |unfoldable pub )?(?:ghost )?use ([\w.+-]+?)\.\{(.*?)\}")
MODULE_AS = re.compile(r"(?m)^(?:pub )?(?:ghost )?use ([\w.+-]+) as (\S+?);?$")

# What would fall together: a definition beside a field of its name, or a lemma beside a definition of its name, in these crates.
QUADRANTS = {a + b: c + "_quadrant" for a, b, c in (("top", "Left", "top_left"), ("top", "Right", "top_right"), ("bottom", "Left", "bottom_left"), ("bottom", "Right", "bottom_right"))}
IN_CRATES = {
    "host_sheet_record": {"moved_down": "moved_down_lem"},
    "host_sheet_rules": {"one_more": "one_more_lem"},
    "netpbm_raster": {"one_more": "one_more_lem"},
    "sheet_calls": {"none_left": "none_left_lem"},
}


def special(path, text):
    """The names of a file that turn otherwise than by the rule."""
    names = {"nextRow": "next_row_of", "run-from": "run_from_lem"}
    if "Quadrants.{" in text or path.endswith("/Quadrants.antt"):
        names |= QUADRANTS
    crate = os.path.relpath(path, os.path.join(TOP, "crates")).split(os.sep)[0]
    return names | IN_CRATES.get(crate, {})


def walk(*suffixes):
    for folder, dirs, files in os.walk(os.path.join(TOP, "crates")):
        dirs[:] = sorted(d for d in dirs if d != "out")
        for f in sorted(files):
            if f.endswith(suffixes):
                yield os.path.join(folder, f)


def read(p):
    with open(p, encoding="utf-8") as f:
        return f.read()


def crates():
    return {c for c in os.listdir(os.path.join(TOP, "crates")) if os.path.isdir(os.path.join(TOP, "crates", c))}


def snake(name):
    """gap, wideSide, Ellipse·contains, square-le -> gap, wide_side, ellipse_contains, square_le"""
    name = name.replace("·", "_").replace("-", "_")
    name = re.sub(r"(?<=[a-z0-9])([A-Z])", lambda m: "_" + m[1], name)
    name = re.sub(r"(?<=[A-Z])([A-Z])(?=[a-z])", lambda m: "_" + m[1], name)
    return name.lower()


def code(text):
    """The text with comments blanked."""
    return re.sub(r"(?m)(^|\s)--(?:\s.*)?$", lambda m: m[0][: len(m[1])] + " " * (len(m[0]) - len(m[1])), text)


def turns(name):
    if name.startswith("-") or not re.match(r"^[A-Za-z]", name):
        return False
    if not re.match(r"^[\w·'-]+$", name):
        return False
    if "·" in name:
        return True
    if "-" in name:
        return name[0].islower()
    return bool(CAMEL.match(name))


def main(argv):
    own = crates()
    kit = set()          # names that files import from the kit
    seen = {}            # own names that turn, with a file each
    every = set()        # every token in code
    for p in walk(".antt"):
        t = code(read(p))
        for m in IMPORT.finditer(t):
            o = OWN.match(m[1] + ".")
            if not o or o[1] not in own:
                for item in m[2].split(","):
                    words = item.split()
                    if words:
                        kit.add(words[0])
    for p in walk(".antt"):
        t = code(read(p))
        for m in TOKEN.finditer(t):
            w = m[0]
            every.add(w)
            before = t[: m.start()]
            if before.endswith("."):
                # a name behind a dot: of a module or a field; turned only where it is declared somewhere too
                continue
            if turns(w) and w not in kit:
                seen.setdefault(w, p)
    for p in walk(".rt"):
        t = read(p)
        for m in re.finditer(r"[A-Za-z_]\w*(?:·\w+)?", t):
            every.add(m[0])
            if "·" in m[0]:
                seen.setdefault(m[0], p)
    # answers of functions and what Rattle makes: named after goals
    goals = set()
    for p in walk("Proof.antt", "Answers.antt", "Invariants.antt"):
        t = code(read(p))
        for m in re.finditer(r"(?m)^(?:abbrev )?(?:pub )?(\S+) : (?:\{[^}]*\} → )?(?:\([^)]*\) → )?(?:tie|goal)\.(\S+)$", t):
            goals.add(m[1])
        for m in re.finditer(r"(?m)^(?:pub )?(\S+-spec) :", t):
            goals.add(m[1])
    names = {w: snake(w) for w in seen if w not in goals}
    # A lemma that would have its function's name gets `_lem`, and an import of an enum's variants `_cases`.
    variants = {m[2] for p in walk(".antt", ".rt") for m in MODULE_AS.finditer(read(p)) if m[1].endswith("TheVariants")}
    declared = {m[1] for p in walk(".antt") if "/specs/" in p or re.search(r"/proofs/[^/]+\.antt$", p) for m in re.finditer(r"(?m)^ *(?:unfoldable |abbrev )*(?:pub )?(\S+)(?: \{[^{}\n]*\}| \([^()\n]*\))* :", code(read(p)))}
    for w in sorted(names):
        if w in variants:
            names[w] += "_cases"
    fall = {}
    for w, s in names.items():
        fall.setdefault(s, set()).add(w)
    for s, ws in sorted(fall.items()):
        if len(ws) > 1:
            for w in ws:
                if "-" in w:
                    names[w] += "_lem"
    fields = {m[1] for p in walk(".rt") for m in re.finditer(r"(?m)^    (?:pub )?(\w+): [^=\n]*,$", read(p))}
    for w, s in sorted(names.items()):
        if w in declared and s in fields:
            print(f"a field has this name: {w} -> {s} ({os.path.relpath(seen[w], TOP)})")
    fall = {}
    for w, s in names.items():
        fall.setdefault(s, set()).add(w)
    for s, ws in sorted(fall.items()):
        if len(ws) > 1:
            print("fall together: " + s + " <- " + ", ".join(sorted(ws)))
        elif s in every and s in declared and s not in names:
            print("declared already: " + s + " <- " + ", ".join(sorted(ws)))
    bad = 0
    if argv[:1] == ["--list"]:
        for w in sorted(names):
            print(w, names[w])
        return 0
    own_fields = set()
    for p in walk(".antt"):
        for m in re.finditer(r"(?m)^ +(?:pub )?(\S+)(?: \{[^{}\n]*\}| \([^()\n]*\))* :", code(read(p))):
            own_fields.add(m[1])
    n = 0
    for p in walk(".antt"):
        t = read(p)
        c = code(t)
        here = names | special(p, t)
        out, at = [], 0
        for m in TOKEN.finditer(t):
            w = m[0]
            if w not in here:
                continue
            commented = c[m.start():m.end()] != w
            if commented and "-" in w:
                continue
            if t[: m.start()].endswith(".") and "-" in w and w not in own_fields:
                continue
            out += [t[at:m.start()], here[w]]
            at = m.end()
        new = "".join(out) + t[at:]
        new = quoted(new, here)
        if new != t:
            n += 1
            with open(p, "w", encoding="utf-8") as f:
                f.write(new)
    others = list(walk(".rt", ".edit"))
    for folder in ("docs", "oracle", "hosts", "include", "tests", "."):
        for f in sorted(os.listdir(os.path.join(TOP, folder))):
            p = os.path.join(TOP, folder, f)
            if os.path.isfile(p) and f.endswith((".md", ".rs", ".c", ".h", ".py", ".sh")) and f != "respell.py":
                others.append(p)
    for p in others:
        t = read(p)
        here = names | special(p, t)
        whole = p.endswith((".rt", ".edit", ".md"))
        new = re.sub(r"(?<![\w·-])[a-zA-Z_]\w*(?:·\w+)?'*(?![\w·-])", lambda m: here.get(m[0], m[0]), t) if whole else t
        if p.endswith(".edit"):
            new = TOKEN.sub(lambda m: here.get(m[0], m[0]) if "-" in m[0] else m[0], new)
        new = quoted(new, here)
        if new != t:
            n += 1
            with open(p, "w", encoding="utf-8") as f:
                f.write(new)
    print(len(names), "names turned in", n, "files")
    return 0


def quoted(text, names):
    """Names between backticks."""
    return re.sub(r"`([^`\s]+)`", lambda m: "`" + names.get(m[1], m[1]) + "`", text)


if __name__ == "__main__":
    raise SystemExit(main(sys.argv[1:]))
