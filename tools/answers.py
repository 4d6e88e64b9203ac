#!/usr/bin/env python3
"""Turns a function's Proof.antt, which answers the older Rattle's needs, into Invariants.antt and Answers.antt.

usage: python3 tools/answers.py NAMES CRATE..     NAMES: a folder that `rt names` wrote; the older Proof.antt goes

An answer that is only `search rules` is left out: Rattle tries that itself. A line that begins 'look:' says what is left by hand.
"""
import json
import os
import re
import sys

TOP = os.path.dirname(os.path.dirname(os.path.realpath(__file__)))
PATH = r"(?:\.(?:«[^»]*»|[\w'⁰-⁹₀-₉-]+))"


def norm(name):
    return name.replace("_", "-")


def step_name(name):
    """A step's name as it was before port.py and respell.py turned what looked like a word of theirs."""
    n = norm(name).lower()
    n = n[:-len("-lem")] if n.endswith("-lem") else n
    n = n[:-len("-cases")] if n.endswith("-cases") else n
    for a, b in (("is-is", "is-"), ("isplace-in", "place-in"), ("type-size", "size-of")):
        if n.startswith(a):
            n = b + n[len(a):]
    return n


def read(p):
    with open(p, encoding="utf-8") as f:
        return f.read()


def mutables():
    """The &mut parameters of each function, by its path."""
    found = {}
    for crate in os.listdir(os.path.join(TOP, "crates")):
        for folder, dirs, files in os.walk(os.path.join(TOP, "crates", crate, "src")):
            for f in files:
                if not f.endswith(".rt"):
                    continue
                t = read(os.path.join(folder, f))
                for m in re.finditer(r"\bfn (\w+)(?:<[^>]*>)?\((.*?)\)\s*(?:->|requires|ensures|\{|\n)", t, re.S):
                    muts = re.findall(r"(\w+): &(?:'\w+ )?mut ", m[2])
                    found.setdefault((crate, m[1]), muts)
    return found


class Function:
    def __init__(self, crate, path, d, muts, say):
        self.crate, self.path, self.d, self.muts, self.say = crate, path, d, muts, say
        self.places = d["places"]
        self.index = {norm(p[0]): i for i, p in enumerate(self.places)}
        self.parent = [self.index.get(norm(p[1])) if p[1] else None for p in self.places]
        self.new = d["places_by_name"]
        self.needs = {norm(a): b for a, b in d["needs"]}
        self.asked = {norm(k): v for k, v in d["asked"].items()}
        self.asked_places = {norm(a) for a, b in d["asked_at"]}
        self.args = {a: b for a, b in d["args"]}
        self.pre = (d["pre"] or {}).get("fields")
        self.lts = set()
        self.typed = [bool(t) for t in d["typed"]]
        self.views = {}

    def up(self, i):
        while i is not None:
            yield i
            i = self.parent[i]

    def clause(self, fields, rest):
        """Numbers into a right-nested product of clauses, as the clause's name."""
        k, j, n = 0, 0, len(fields)
        while j < len(rest) and rest[j] == "1" and k < n - 1:
            k, j = k + 1, j + 1
        if k == n - 1:
            return [fields[k]] + rest[j:]
        if j < len(rest) and rest[j] == "0":
            return [fields[k]] + rest[j + 1:]
        return None

    def arm_of(self, i):
        a = self.d["arms"][i]
        return a if a and isinstance(a[0], str) else None

    def test_of(self, i):
        a = self.d["arms"][i]
        return dict(map(tuple, a)) if a and not isinstance(a[0], str) else None

    def chain(self, base, cur, to):
        """base.before.. from the place cur to the place `to`, as today's records nest."""
        n, i = 0, cur
        while i != to:
            if i is None:
                return None
            a = self.arm_of(i)
            if a and a[1] > 1:
                # the places of one arm stand in one record
                j = i
                for _ in range(a[1] - 1):
                    if j == to:
                        return None
                    j = self.parent[j]
                if j == to:
                    return None
                i = self.parent[j]
            else:
                i = self.parent[i]
            n += 1
        return base + ".before" * (n + self.views.get(base, False))

    def resolve(self, base, cur, fields):
        """What base.fields is today: ('place', index, text), ('step', index, rest, text) or ('text', text)"""
        i, at = 0, cur
        while i < len(fields) and fields[i] == "before":
            at = self.parent[at] if self.parent[at] is not None else at
            i += 1
        rest = fields[i:]
        if not rest:
            return ("place", at, base, cur)
        f = step_name(rest[0])
        if f == "pre":
            rest[0] = f = "requires"
        if f == "fits":
            rest[0] = f = "ranges"
        if f in ("args", "ranges", "requires", "well-formed", "good"):
            if f == "requires" and self.pre and len(rest) > 1:
                c = self.clause(self.pre, rest[1:])
                if c is None:
                    self.say(f"requires {rest}")
                    c = rest[1:]
                rest = ["requires"] + c
            for a, b in self.args.items():
                wa, wb = a.split(), b.split()
                if len(wa) == 2 and len(rest) > 1 and "." + rest[0] == wa[0] and rest[1] == wa[1].lstrip("."):
                    rest[1] = wb[1].lstrip(".")
            return ("text", base + "".join("." + x for x in rest))
        return self.resolve_from(base, cur, at, rest)

    def step(self, base, at, p, rest):
        old, new = self.places[p][2]
        arm, q = self.arm_of(p), None
        if arm:
            # the deepest place of this arm that is at `at` or above
            for i in self.up(at):
                a = self.arm_of(i)
                if a and a[0] == arm[0] and i >= p and p in self.group(i):
                    q = i
                    break
        if q is not None:
            a = self.arm_of(q)
            best = None
            for field, s, path in a[2]:
                if norm(s) == norm(old) and rest[: len(path)] == path and (best is None or len(path) > len(best[1])):
                    best = (field, path)
            if best:
                more = self.clauses(p, [best[0]] + rest[len(best[1]):], best[0])
                return ("step", p, rest, ".".join([base, a[0]] + more))
            if not rest or rest in (["given"], ["given", "0"]):
                return ("step", p, rest, None)
            self.say(f"arm {a[0]} lacks {old}.{'.'.join(rest)}")
            return ("text", ".".join([base, a[0]] + rest))
        t = self.test_of(p)
        if t and rest and rest[0] in t:
            rest = [t[rest[0]]] + rest[1:]
        return ("step", p, rest, ".".join([base, new] + self.clauses(p, rest, "")))

    def deepest(self, i):
        """The last place of the arm that the place i is in."""
        a = self.arm_of(i)
        if not a:
            return i
        best = i
        for j in range(len(self.places)):
            b = self.arm_of(j)
            if b and b[0] == a[0] and b[1] > self.arm_of(best)[1] and i in self.group(j):
                best = j
        return best

    def group(self, i):
        a, out = self.arm_of(i), [i]
        for _ in range(a[1] - 1):
            i = self.parent[i]
            out.append(i)
        return out

    def clauses(self, p, rest, _):
        c = self.d["clauses"][p]
        callee = self.places[p][3]
        rest = list(rest)
        for j, f in enumerate(rest):
            if f == "ensures" and c and c.get("fields") and j + 1 < len(rest):
                n = self.clause(c["fields"], rest[j + 1:])
                if n is None:
                    self.say(f"ensures of {self.places[p][0]}: {rest}")
                    return rest
                return rest[: j + 1] + n
            if f in ("new", "auto") and callee and j + 1 < len(rest) and rest[j + 1].isdigit():
                names, k, i = self.d["params"].get(callee) or [], 0, j + 1
                while i < len(rest) and rest[i] == "1":
                    k, i = k + 1, i + 1
                if i < len(rest) and rest[i] == "0":
                    i += 1
                if k < len(names):
                    return rest[: j + 1] + [names[k]] + rest[i:]
                self.say(f"new of {callee}: {rest} {names}")
                return rest
        return rest

    def new_place(self, i):
        i = self.deepest(i)
        n = norm(self.places[i][0])
        self.lts.add(i)
        return self.new[i]


def split(text):
    """The declarations of a file: (comment, signature, unfolding, equations)."""
    lines = text.split("\n")
    out, comment, i = [], [], 0
    uses = []
    while i < len(lines):
        l = lines[i]
        if l.startswith("--") or not l.strip():
            comment.append(l)
            i += 1
        elif l.startswith("use ") or l.startswith("pub use"):
            # a use list may go over lines
            block = [l]
            while block[-1].count("{") > block[-1].count("}") and "}" not in block[-1]:
                i += 1
                block.append(lines[i])
            uses.append(("\n".join(block), comment))
            comment = []
            i += 1
        else:
            m = re.match(r"^(?:unfoldable |abbrev |pub |record |data )*([^\s:]+)", l)
            name, block = m[1], [l]
            kind = "record" if re.match(r"^(pub )?record ", l) else "data" if re.match(r"^(pub )?data ", l) else "def"
            i += 1
            while i < len(lines):
                k = lines[i]
                if not k.strip():
                    # a blank line inside a record goes on where the next line is indented
                    j = i
                    while j < len(lines) and not lines[j].strip():
                        j += 1
                    if j < len(lines) and lines[j].startswith(" "):
                        block.append(k)
                        i += 1
                        continue
                    break
                if k.startswith((" ", ")")) or k.startswith("unfolding") or (kind == "def" and re.match(re.escape(name) + r"(?![\w'-])", k)):
                    block.append(k)
                    i += 1
                    continue
                break
            out.append({"comment": comment, "name": name, "kind": kind, "text": "\n".join(block)})
            comment = []
    return uses, out, comment


def sig_and_body(text, name):
    m = re.search(r"(?m)^(?:unfolding|" + re.escape(name) + r"(?![\w'-]) (?!:))", text)
    if not m:
        return text, ""
    return text[: m.start()].rstrip("\n"), text[m.start():]


def tokens_env(fn, body, env, funs):
    """Rewrites paths in a text. env: variable -> place index; funs: function -> result place."""
    out, at = [], 0
    steps = {}          # let-bound steps: name -> (base text, place cur, step place, rest)
    pat = re.compile(r"(?<![\w'.»\u0001-])(?:\((\w[\w'-]*) (\w[\w'-]*)((?:\.before)*)\)|(\w[\w'-]*))(" + PATH + r"*)")
    lets = re.compile(r"let (\w[\w'-]*) = $")
    pos = 0
    text = body
    result = []
    scan = 0
    while True:
        m = pat.search(text, scan)
        if not m:
            break
        scan = m.end() if m.end() > m.start() else m.end() + 1
        if m.start() < pos:
            scan = m.start() + 1
            continue
        if m[1] and m[1] not in funs:
            scan = m.start() + 1
            continue
        if m[4] and not m[5] and re.search(r"(?<![\w'-])let\s+$", text[: m.start()]):
            if m[4] not in fn.preset:
                env.pop(m[4], None)
            continue
        if m[4] and not m[5] and re.match(r"\s+=\s", text[m.end():]) and re.search(r"[{;]\s*$", text[: m.start()]):
            # a field of a record
            continue
        f, arg, befores, var, path = m[1], m[2], m[3], m[4], m[5] or ""
        fields = re.findall(r"\.(«[^»]*»|[\w'⁰-⁹₀-₉-]+)", path)
        fields = [x.strip("«»") if x.startswith("«") else x for x in fields]
        rep = None
        if f and f in funs and arg in env:
            cur = fn.wanted.get(f, env[arg]["place"])
            base = env[arg]["base"]
            at_place = cur
            for _ in re.findall("before", befores):
                at_place = fn.parent[at_place] if fn.parent[at_place] is not None else at_place
            # the function's own body says where it leads
            to = funs[f]
            if fields or True:
                r = fn.resolve_from(base, env[arg]["cur"], to, fields)
                rep = r
        elif var and var in env and (fields or True):
            e = env[var]
            if e["kind"] == "requires":
                rep = fn.resolve(e["base"], e["place"], ["requires"] + fields) if fields else None
            elif e["kind"] == "place":
                rep = fn.resolve_from(e["base"], e["cur"], e["place"], fields)
            else:
                r = fn.step(e["base"], e["at"], e["p"], e["rest"] + fields)
                rep = r
        if rep is None:
            continue
        before = text[: m.start()]
        after = text[m.end():]
        lm = re.search(r"let (\w[\w'-]*) =\s*$", before)
        whole_let = lm and re.match(r"\s+in\b", after)
        if rep[0] == "place":
            hm = re.search(r"(?<![\w'.-])(\w[\w'-]*)\s+$", before)
            to = fn.wanted.get(hm[1], rep[1]) if hm else rep[1]
            txt = fn.chain(rep[2], rep[3], fn.deepest(to))
            if txt is None:
                fn.say(f"a place within an arm: {m[0]}")
                txt = rep[2]
            if whole_let:
                env[lm[1]] = {"kind": "place", "place": rep[1], "base": rep[2], "cur": rep[3]}
            fm = re.search(r"let (\w[\w'-]*) =\s*(\w[\w'-]*)\s+$", before)
            if fm and fm[2] in funs and re.match(r"\s+in\b", after):
                env[fm[1]] = {"kind": "place", "place": funs[fm[2]], "base": rep[2], "cur": rep[3]}
            txt_final = txt
        elif rep[0] == "step":
            txt_final = rep[3]
            if whole_let and len(rep) > 4:
                env[lm[1]] = {"kind": "step", "base": rep[4], "at": rep[5], "p": rep[1], "rest": rep[2]}
            if txt_final is None and whole_let:
                # a step of an arm is no record of its own: its fields are named where they are used
                result.append(text[pos:lm.start()])
                pos = m.end() + re.match(r"\s+in\b\s*", after).end()
                continue
            if txt_final is None:
                fn.say(f"a whole step of an arm: {m[0]}")
                txt_final = m[0]
        else:
            txt_final = rep[1]
            if whole_let and lm[1] in env:
                del env[lm[1]]
            if whole_let and txt_final.endswith(".requires"):
                root = txt_final[: -len(".requires")]
                env[lm[1]] = {"kind": "requires", "base": root, "place": 0}
        result.append(text[pos:m.start()])
        result.append(txt_final)
        pos = m.end()
    result.append(text[pos:])
    return "".join(result)


def resolve_from(self, base, cur, place, fields):
    """Fields of a record of `place`, which is base (a record of cur, below it)."""
    i, at = 0, place
    while i < len(fields) and fields[i] == "before":
        at = self.parent[at] if self.parent[at] is not None else at
        i += 1
    rest = fields[i:]
    if not rest:
        return ("place", at, base, cur)
    f = step_name(rest[0])
    if f in ("args", "ranges", "requires", "well-formed", "good", "pre", "fits"):
        return self.resolve(base, at, rest)
    found = [p for k in (0, 1) for w in (at, cur) for p in self.up(w) if step_name(self.places[p][2][k]) == f]
    for p in found[:1]:
        if True:
            r = self.step(base, cur, p, rest[1:])
            if r[0] == "step":
                return ("step", p, rest[1:], r[3], base, cur)
            return r
    self.say(f"no step {rest[0]} at {self.places[at][0]}")
    return ("text", base + "".join("." + x for x in fields))


Function.resolve_from = resolve_from


def top_tuple(text):
    """The parts of a text that is one tuple in parentheses, or None."""
    t = text.strip()
    if not t.startswith("("):
        return None
    deep, cuts, quote = 0, [], None
    for i, ch in enumerate(t):
        if ch in "([{":
            deep += 1
        elif ch in ")]}":
            deep -= 1
            if deep == 0 and i < len(t) - 1:
                return None
        elif ch == "," and deep == 1:
            cuts.append(i)
    if not cuts:
        return None
    parts, at = [], 1
    for c in cuts + [len(t) - 1]:
        if t[at:c].strip():
            parts.append(t[at:c].strip())
        at = c + 1
    return parts if len(parts) > 1 else None


def last_in(body):
    """Where the value of a chain of lets begins: after the last `in` at depth 0."""
    deep, at = 0, 0
    for m in re.finditer(r"[(\[{]|[)\]}]|(?<=\s)in(?=\s)", body):
        if m[0] in "([{":
            deep += 1
        elif m[0] in ")]}":
            deep -= 1
        elif deep == 0:
            at = m.end()
    return at


def as_record(fn, body, clauses):
    """A nested tuple of so many clauses as a record by their names."""
    at = last_in(body)
    head, value = body[:at], body[at:]
    if value.strip() in ("search rules", "cc"):
        return body
    # the value may be what is left after `rw` and its like
    lead = ""
    if top_tuple(value) is None:
        v, deep = value.rstrip(), 0
        if v.endswith(")"):
            for i in range(len(v) - 1, -1, -1):
                deep += (v[i] == ")") - (v[i] == "(")
                if deep == 0:
                    break
            if top_tuple(v[i:]) is not None:
                lead, value = v[:i], v[i:]
    parts, rest = [], value
    for k in range(len(clauses) - 1):
        p = top_tuple(rest)
        if p is None or len(p) != 2:
            fn.say(f"no tuple for {clauses}")
            return body
        parts.append(p[0])
        rest = p[1]
    parts.append(rest.strip())
    made = "record { " + "; ".join(f"{c} = {v}" for c, v in zip(clauses, parts)) + " }"
    return head + (lead + "(" + made + ")" if lead else " " + made)


def turn(crate, folder, path, d, muts):
    said = []
    fn = Function(crate, path, d, muts, lambda s: said.append(f"look: {crate} {path}: {s}"))
    p = os.path.join(folder, "Proof.antt")
    uses, decls, tail = split(read(p))
    head = []
    if uses and uses[0][1]:
        head = uses[0][1]
    # kinds
    answers, helpers, invs, measures = [], [], [], []
    renames = {}
    for dcl in decls:
        sig, body = sig_and_body(dcl["text"], dcl["name"])
        dcl["sig"], dcl["body"] = sig, body
        m = re.search(r"tie\.Need-([\w-]+)", sig)
        if m and dcl["kind"] == "def" and re.match(r"^(?:abbrev |pub )*" + re.escape(dcl["name"]) + r" : tie\.Need-", sig):
            old = norm(m[1])
            for a, b in (("overflow-", ""), ("slice-bounds-", "part-"), ("nonzero-", "")):
                if old not in fn.needs and old.startswith(a):
                    old = b + old[len(a):]
            if old not in fn.needs:
                fn.say(f"no goal {m[1]}")
                new = m[1]
            else:
                new = fn.needs[old]
            dcl["new"], dcl["old"] = new, old
            renames[dcl["name"]] = new
            answers.append(dcl)
        elif re.search(r": tie\.invariant-", sig):
            invs.append(dcl)
        elif re.search(r": tie\.decreases-", sig):
            measures.append(dcl)
        elif re.search(r"-spec : .*statement", sig) or dcl["name"].endswith("-spec") or dcl["name"].endswith("_spec"):
            continue
        else:
            helpers.append(dcl)
    # functions from a place to a place
    funs = {}
    sigs = {}
    for h in helpers:
        s = re.sub(r"\s+", " ", h["sig"])
        m = re.search(r" : tie\.([\w-]+)[^→]*→ tie\.([\w-]+)", s)
        if m and norm(m[1]) in fn.index and norm(m[2]) in fn.index:
            funs[h["name"]] = fn.index[norm(m[2])]
            h["placefun"] = True
    def params(h):
        """place parameters of a helper: name -> place"""
        s = re.sub(r"\s+", " ", h["sig"])
        env = {}
        for m in re.finditer(r"\((\w[\w']*(?: \w[\w']*)*) : tie\.([\w-]+)", s):
            if norm(m[2]) in fn.index:
                for v in m[1].split():
                    env[v] = fn.index[norm(m[2])]
        # unnamed ones by position
        names = []
        eq = re.search(r"(?m)^" + re.escape(h["name"]) + r"((?: [^\s=]+)*) =", h["body"])
        pats = eq[1].split() if eq else []
        arrows = split_arrows(s.split(" : ", 1)[1]) if " : " in s else []
        for k, a in enumerate(arrows):
            m = re.match(r"^tie\.([\w-]+)", a.strip())
            if m and norm(m[1]) in fn.index and k < len(pats) and k < len(arrows) - 1:
                env[pats[k]] = fn.index[norm(m[1])]
        m2 = list(re.finditer(r"\(([^():]+) : tie\.([\w-]+)[^()]*\)", s))
        if m2 and pats:
            # the equation may name the binder otherwise
            k = 0
            for a in arrows[:-1]:
                for b in re.findall(r"\(([^():]+) : ([^()]*(?:\([^()]*\)[^()]*)*)\)", a):
                    for v in b[0].split():
                        mm = re.match(r"tie\.([\w-]+)", b[1])
                        if mm and k < len(pats) and norm(mm[1]) in fn.index:
                            env[pats[k]] = fn.index[norm(mm[1])]
                        k += 1
                if not re.match(r"^\s*\(", a):
                    k += 1
        return env
    fn.wanted = {}
    for h in helpers:
        env = params(h)
        if env:
            fn.wanted[h["name"]] = next(iter(env.values()))
    def place_types(t):
        def one(m):
            n = norm(m[1])
            if n not in fn.index:
                fn.say(f"no place {m[1]}")
                return m[0]
            return fn.new_place(fn.index[n])
        # invariants and measures are passed to place types
        t = re.sub(r"tie\.((?:Start|After-|At-|In-|Then|Else|Joined)[\w-]*)((?: (?:invariant|decreases)-[\w-]+)*)", one, t)
        return t
    def rewrite(t, env, last=False):
        e = {v: {"kind": "place", "place": i, "base": v, "cur": fn.deepest(i) if last else i} for v, i in env.items()}
        fn.preset = set()
        def applied(i):
            """F (G c.before) at i, of functions from a place to a place: the first function, the variable, the end."""
            m = re.compile(r"(\w[\w'-]*) ").match(t, i)
            if not m or m[1] not in funs:
                return None
            j = m.end()
            if t.startswith("(", j):
                inner = applied(j + 1)
                if not inner or not t.startswith(")", inner[2]):
                    return None
                return m[1], inner[1], inner[2] + 1
            v = re.compile(r"(\w[\w'-]*)(?:\.before)*(?![\w.'-])").match(t, j)
            return (m[1], v[1], v.end()) if v and v[1] in e else None
        for m in re.finditer(r"let (\w[\w'-]*) =\s+", t):
            g = applied(m.end())
            v = re.compile(r"(\w[\w'-]*)((?:\.before)+)\s+in\b").match(t, m.end())
            if v and v[1] in e and e[v[1]]["kind"] == "place":
                k = e[v[1]]["place"]
                for _ in re.findall("before", v[2]):
                    k = fn.parent[k] if fn.parent[k] is not None else k
                e[m[1]] = {"kind": "place", "place": k, "base": e[v[1]]["base"], "cur": e[v[1]]["cur"]}
                fn.preset.add(m[1])
            if g and re.match(r"\s+in\b", t[g[2]:]):
                e[m[1]] = {"kind": "place", "place": funs[g[0]], "base": e[g[1]]["base"], "cur": e[g[1]]["cur"]}
                fn.preset.add(m[1])
        # a field of what such functions lead to
        at = 0
        while funs:
            i = t.find("(", at)
            if i < 0:
                break
            at = i + 1
            g = applied(i + 1)
            if not g or not t.startswith(")", g[2]):
                continue
            m = re.compile(PATH + "+").match(t, g[2] + 1)
            if not m or e[g[1]]["kind"] != "place":
                continue
            fields = re.findall(r"\.(«[^»]*»|[\w'⁰-⁹₀-₉-]+)", m[0])
            if fields[-1] == "before":
                continue
            r = fn.resolve_from(e[g[1]]["base"], e[g[1]]["cur"], funs[g[0]], fields)
            x = r[1] if r[0] == "text" else r[3] if r[0] == "step" else None
            if x:
                # marked, so that it is not turned once more
                t = t[:i] + "\u0001" + x + t[m.end():]
        fn.views = {v: not last and fn.typed[i] for v, i in env.items()}
        t = tokens_env(fn, t, e, funs).replace("\u0001", "")
        # the test of `if !f(..)` is known of the call itself
        called = {norm(p[2][1]) for p in fn.places if p[3]} | {norm(p[2][0]) for p in fn.places if p[3]}
        def plain_test(m):
            step = m[2].rsplit(".", 1)[-1]
            n = norm(step)
            n = n[len("if-not-"):] if n.startswith("if-not-") else None
            if n and any(n == k or n.startswith(k + "-") for k in called):
                return f"{m[2]}.{m[3]}"
            return m[0]
        t = re.sub(r"not-(true|false) _\s+([\w.'-]+)\.(true|false)(?:-raw)?(?![\w-])", plain_test, t)
        if funs:
            # what a chain of such functions leads to
            def led(m):
                if m[2] not in e or e[m[2]]["kind"] != "place":
                    return m[0]
                fields = re.findall(r"\.(«[^»]*»|[\w'⁰-⁹₀-₉-]+)", m[3])
                r = fn.resolve_from(m[2], e[m[2]]["cur"], funs[m[1]], fields)
                return r[1] if r[0] == "text" else r[3] if r[0] == "step" and r[3] else m[0]
            one = re.compile(r"\((" + "|".join(map(re.escape, funs)) + r") (\w+)(?:\.before)*\)((?:\.before)*\.(?!before)(?:«[^»]*»|[\w'⁰-⁹₀-₉-]+)" + PATH + "*)")
            t = one.sub(led, t)
        # names of places that nothing uses now
        while True:
            for m in re.finditer(r"let (\w[\w'-]*) = ((?:\w[\w'-]* \(?)*)\w[\w'-]*(?:\.before)*\)* in\s*", t):
                if any(x not in funs for x in re.findall(r"\w[\w'-]*", m[2])):
                    continue
                if not used(m[1], t[m.end():]):
                    t = t[: m.start()] + t[m.end():]
                    break
            else:
                break
        for a, b in renames.items():
            t = re.sub(r"(?<![\w'.-])" + re.escape(a) + r"(?![\w'-])", b, t)
        t = re.sub(r"(?<=[ (])(\w[\w'-]*) κs", r"\1", t) if False else t
        return t
    used = lambda name, t: re.search(r"(?<![\w'.-])" + re.escape(name) + r"(?![\w'-])", t)
    # helpers that invariants use go with them
    inv_text = "\n".join(x["text"] for x in invs + measures)
    moved, changed = [], True
    while changed:
        changed = False
        for h in helpers:
            if h not in moved and used(h["name"], inv_text + "\n".join(x["text"] for x in moved)):
                moved.append(h)
                changed = True
    moved = [h for h in helpers if h in moved]
    out_inv, out_ans = [], []
    for h in moved:
        t = h["text"]
        if not re.match(r"^(?:unfoldable |abbrev )*pub ", t):
            t = re.sub(r"^((?:unfoldable |abbrev )*)", r"\1pub ", t)
            if h["kind"] in ("record",):
                t = re.sub(r"(?m)^(  )(?!pub |--)(\S+)((?: [^:\n]*)?) :", r"\1pub \2\3 :", t)
        out_inv.append("\n".join(h["comment"]).strip("\n") + "\n" * bool("".join(h["comment"]).strip()) + t)
    for x in invs + measures:
        m = re.match(r"^(?:abbrev |pub )*(invariant|decreases)-([\w-]+) : tie\.", x["sig"])
        old = norm(m[2])
        loop = None
        for k, (pair, vs) in enumerate(d["loops"]):
            if norm(pair[0]) == old or norm(pair[1]) == old:
                loop = (k, pair, vs)
        if loop is None:
            fn.say(f"no loop {old}")
            continue
        k, pair, vs = loop
        ch = d["changed"][k]
        eq = re.search(r"(?m)^(?:invariant|decreases)-[\w-]+((?:\s+[^\s=]+)*)\s+=(?!=)", x["body"])
        pats = eq[1].split()
        meaning = []
        for v, c in zip(vs, ch):
            meaning.append(("initial." if c else "") + v)
        meaning += [v for v, c in zip(vs, ch) if c]
        body = x["body"][eq.end():]
        if len(pats) != len(meaning):
            fn.say(f"the loop {old} has {len(meaning)} variables, and the older one {len(pats)}: {meaning} {pats}")
        table = {}
        for a, b in zip(pats, meaning):
            table[a] = "l." + b
        # arguments that are signed stand as their bits in older invariants
        for a in sorted(table, key=len, reverse=True):
            if a == "_":
                continue
            body = re.sub(r"(?<![\w'.₀«-])" + re.escape(a) + r"(?![\w'₀-])", table[a], body)
        # a signed number stands for itself in today's invariants
        body = re.sub(r"\(to_z w(?:8|16|32|64) (l\.[\w.]+)\)", r"\1", body)
        body = re.sub(r"(?<![\w'-])to_z w(?:8|16|32|64) (l\.[\w.]+)", r"\1", body)
        unf = re.match(r"(?s)^((?:unfolding[^\n]*\n)?)", x["body"])[1]
        name = f"{m[1]}-{pair[1]}"
        com = "\n".join(x["comment"]).strip("\n")
        out_inv.append((com + "\n" if com else "") + f"abbrev pub {name} : goal.{name}\n{unf}{name} l ={body.rstrip()}")
    for dcl in decls:
        if dcl in answers:
            env = {}
            eq = re.search(r"(?m)^" + re.escape(dcl["name"]) + r"((?: [^\s=]+)*) =", dcl["body"])
            pats = eq[1].split() if eq else ["c"]
            # the place where the goal is asked
            k = [norm(a) for a, b in d["needs"]].index(dcl["old"]) if dcl["old"] in fn.needs else None
            if k is None:
                continue
            place = fn.index[norm(d["asked_at"][k][0])]
            env[pats[0]] = place
            body = dcl["body"][eq.end():] if eq else ""
            unf = re.match(r"(?s)^((?:unfolding[^\n]*\n)*)", dcl["body"])[1]
            plain = re.sub(r"\s+", " ", body).strip()
            others = "\n".join(x["text"] for x in decls if x is not dcl and not x["name"].endswith("spec"))
            if plain in ("search rules", "search (rules)") and not unf and not used(dcl["name"], others):
                continue
            body = rewrite(body, env)
            cl = fn.asked.get(dcl["old"])
            if cl and len(cl) > 1:
                body = as_record(fn, body, cl)
            com = "\n".join(dcl["comment"]).strip("\n")
            args = " ".join([pats[0]] + [q for q in pats[1:] if q != "κs"])
            out_ans.append((com + "\n" if com else "") + f"pub {dcl['new']} : goal.{dcl['new']}\n{unf}{dcl['new']} {args} ={body.rstrip()}")
        elif dcl in helpers and dcl not in moved:
            env = params(dcl)
            t = dcl["sig"] + "\n" + dcl["body"] if dcl["body"] else dcl["sig"]
            if dcl.get("placefun"):
                # what it leads to is reached by the fields themselves; kept where a whole record is passed on
                pass
            t = rewrite(t, env, True)
            t = place_types(t)
            com = "\n".join(dcl["comment"]).strip("\n")
            out_ans.append((com + "\n" if com else "") + t.rstrip())
    module = f"Rattle.{crate}.proofs.{path}"
    lines = [u for u, c in uses if ".Statement." not in u and not u.endswith(" as tie")]
    headline = [l for l in head if l.strip() and "Assumes nothing" not in l]
    body_ans = "\n\n".join(out_ans)
    for h in helpers:
        if h.get("placefun") and h not in moved and not used(h["name"], re.sub(r"(?ms)^(?:-- [^\n]*\n)*abbrev " + re.escape(h["name"]) + r" :.*?(?=\n\n|\Z)", "", body_ans)):
            body_ans = re.sub(r"(?ms)^(?:-- [^\n]*\n)*(?:abbrev )?" + re.escape(h["name"]) + r" :.*?(?:\n\n|\Z)", "", body_ans, count=1)
    def kept(text):
        got = []
        for u in lines:
            m = re.match(r"(?s)^(pub )?use ([^\s{]+)\.\{(.*)\}$", u)
            if not m:
                got.append(u)
                continue
            items = [" ".join(i.split()) for i in m[3].split(",")]
            items = [i for i in items if i and needed(i.split()[-1], text)]
            if items:
                got.append(f"use {m[2]}.{{{', '.join(items)}}}")
        return got
    def needed(name, text):
        parts = [q for q in name.split("◌") if q]
        if not parts:
            return True
        if "◌" in name:
            return all(q in text for q in parts)
        return used(name, text) is not None or re.search(r"(?<![\w'-])" + re.escape(name) + r"(?![\w'-])", text) is not None
    if out_inv:
        text = "\n\n".join(out_inv)
        out = headline + kept(text) + [f"use {module}.Given as goal", "", text, ""]
        with open(os.path.join(folder, "Invariants.antt"), "w", encoding="utf-8") as f:
            f.write("\n".join(out))
    if out_ans and body_ans.strip():
        if fn.lts:
            fn.say("places that no goal has: " + ", ".join(sorted(fn.new[i] for i in fn.lts)))
        extra = []
        names = [re.match(r"^(?:unfoldable |abbrev |pub |record |data )*([^\s:]+)", h["text"])[1] for h in moved]
        names = [n for n in names if used(n, body_ans)]
        if names:
            extra.append(f"use {module}.Invariants.{{{', '.join(names)}}}")
        lts = []
        if fn.lts:
            loops = "".join(f" goal.the-invariant-{p[1]} goal.the-decreases-{p[1]}" for p, v in d["loops"])
            calls = any(p[3] for p in fn.places)
            handed = bool(d["pre"] or d["asked"] or any(x and x.get("fields") for x in d["clauses"]))
            extra += [f"use {module}.Lts", f"use {module}.Reads"] + [f"use {module}.Tie"] * (calls or handed)
            for i in sorted(fn.lts):
                past = "Past-" if fn.arm_of(i) else ""
                of = ("Tie.the-claims " if calls else "") + "Reads.Pre Reads.Post" + loops + (" Tie.handed_clauses" if handed else "")
                lts.append(f"abbrev {fn.new[i]} : Type 0\n{fn.new[i]} = Lts.{past}{fn.places[i][0]} {of}")
        out = headline + kept(body_ans) + extra + [f"use {module}.Goals as goal", ""]
        if lts:
            out += ["-- the facts known at these places", "\n\n".join(lts), ""]
        out += [body_ans.rstrip(), ""]
        with open(os.path.join(folder, "Answers.antt"), "w", encoding="utf-8") as f:
            f.write("\n".join(out))
    os.remove(p)
    return said


def split_arrows(s):
    out, deep, at, i = [], 0, 0, 0
    while i < len(s):
        ch = s[i]
        if ch in "([{":
            deep += 1
        elif ch in ")]}":
            deep -= 1
        elif ch == "→" and deep == 0:
            out.append(s[at:i].strip())
            at = i + 1
        i += 1
    out.append(s[at:].strip())
    return out


def main(argv):
    muts = mutables()
    for crate in argv[1:]:
        names = json.loads(read(os.path.join(argv[0], "crates", crate, "names.json")))
        root = os.path.join(TOP, "crates", crate, "proofs")
        for folder, dirs, files in os.walk(root):
            dirs.sort()
            if "Proof.antt" not in files:
                continue
            path = ".".join(os.path.relpath(folder, root).split(os.sep))
            d = names.get(f"Rattle-{crate}-proofs.{path}.Lts")
            if d is None:
                print(f"look: {crate} {path}: no names")
                continue
            try:
                for l in turn(crate, folder, path, d, muts):
                    print(l)
            except Exception as e:
                print(f"look: {crate} {path}: {type(e).__name__} {e}")
                raise
    return 0


if __name__ == "__main__":
    raise SystemExit(main(sys.argv[1:]))
