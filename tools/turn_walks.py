#!/usr/bin/env python3
"""Turns the proofs of a crate's functions, proofs/F/Proof.antt, to Invariants.antt and Answers.antt.

usage: turn_walks.py NAMES CRATE [F ..]

NAMES is the names.json that `rt check --generated DIR --old-names` writes for the crate in the folder CRATE, and the
environment's GEN names the folder that `rt check --generated DIR` writes. It takes Proof.antt away. It turns the
positional answers of `tie.spec` to answers by name, paths over `.before` to names of steps, places in a tuple of clauses to
the clauses' names, and the variables of an invariant to fields of `l`. An answer that only says `search rules` or
`omega arith` is left out, since the check finds it. It prints what it could not turn.
"""

import glob
import json
import os
import re
import sys

NAME = r"(?:«[^»]*»|[^\s(){}.;,@\"«»\[\]]+)"
OPEN, CLOSE = "([{", ")]}"


def snake(s):
    return s.strip("«»").replace("-", "_")


def norm(s):
    return re.sub(r"[-_«»]", "", s)


# ---- the sources: clauses and parameters of each function

class Fn:
    def __init__(self):
        self.requires, self.ensures, self.params = [], [], []

    def mut(self):
        return [n for n, t in self.params if t.startswith("&mut") or t.startswith("&'") and "mut" in t]

    def mut_slices(self):
        return [n for n, t in self.params if t.startswith("&mut [")]


def clause_names(text, kind):
    names = []
    for m in re.finditer(r"\b%s\*?(?: (\w+))? \{" % kind, text):
        names.append(m[1])
    return names


def functions(root):
    got = {}
    for f in glob.glob(os.path.join(root, "crates/*/src/**/*.rt"), recursive=True):
        crate = f.split("crates/")[-1].split("/")[0]
        text = re.sub(r"//[^\n]*", "", open(f, encoding="utf-8").read())
        impl = [(m.start(), m[1]) for m in re.finditer(r"(?m)^impl(?:<[^>]*>)? (?:\w+ for )?(\w+)", text)]
        ends = [m.start() for m in re.finditer(r"(?m)^\}", text)]
        for m in re.finditer(r"(?m)^( *)(?:pub(?:\(\w+\))? )?(?:unsafe )?(?:extern \"C\" )?fn (\w+)(?:<[^>]*>)?\(", text):
            depth, i = 1, m.end()
            while depth:
                depth += (text[i] == "(") - (text[i] == ")")
                i += 1
            params = text[m.end() : i - 1]
            rest = text[i:]
            # clauses up to the body: the first line that is `{` alone, or a `{` that is no clause's
            body = re.search(r"(?m)^%s\{|\)?[^\n]*\{\n" % m[1], rest)
            stop = re.search(r"(?m)^%s\{" % m[1], rest)
            end = stop.start() if stop else body.start() if body else 0
            nxt = re.search(r"\n%s(?:pub )?fn " % m[1], rest)
            if nxt and nxt.start() < end:
                end = 0
            clauses = rest[:end]
            fn = Fn()
            fn.params = [(p[1], p[2].strip()) for p in re.finditer(r"(?:mut )?(\w+): ((?:[^,\[]|\[[^\]]*\])+)", params)]
            fn.requires, fn.ensures = clause_names(clauses, "requires"), clause_names(clauses, "ensures")
            of = ""
            if m[1]:
                for at, name in impl:
                    if at < m.start():
                        of = name
            got[f"{crate}::{m[2]}"] = fn
            if of:
                got[f"{crate}::{of}::{m[2]}"] = fn
            mod = os.path.relpath(f, os.path.join(root, "crates", crate, "src"))[:-3]
            if mod not in ("lib", "main"):
                got[f"{crate}::{mod.replace('/', '::')}::{m[2]}"] = fn
    return got


# ---- terms

def split_top(text, sep):
    parts, depth, start, i = [], 0, 0, 0
    while i < len(text):
        ch = text[i]
        if ch in OPEN:
            depth += 1
        elif ch in CLOSE:
            depth -= 1
        elif ch == sep and not depth:
            parts.append(text[start:i])
            start = i + 1
        i += 1
    parts.append(text[start:])
    return parts


def arguments(text):
    """The arguments of an application, atoms and parenthesized terms."""
    args, i = [], 0
    while i < len(text):
        if text[i].isspace():
            i += 1
            continue
        j, depth = i, 0
        while j < len(text) and (depth or not text[j].isspace()):
            depth += (text[j] in OPEN) - (text[j] in CLOSE)
            j += 1
        args.append(text[i:j])
        i = j
    return args


def strip_parens(t):
    t = t.strip()
    while t.startswith("(") and matching(t, 0) == len(t) - 1:
        inner = t[1:-1].strip()
        if len(split_top(inner, ",")) > 1:
            return t
        t = inner
    return t


def matching(t, i):
    depth = 0
    for j in range(i, len(t)):
        depth += (t[j] in OPEN) - (t[j] in CLOSE)
        if not depth:
            return j
    return -1


def lets(t):
    """Leading `let .. in` of a term, and the rest."""
    i = 0
    while True:
        m = re.compile(r"\s*let\s").match(t, i)
        if not m:
            return t[:i], t[i:]
        depth, nest, j = 0, 1, m.end()
        while True:
            if t[j] in OPEN:
                depth += 1
            elif t[j] in CLOSE:
                depth -= 1
            elif not depth and re.compile(r"(?<![\w'-])let(?=\s)").match(t, j):
                nest += 1
            elif not depth and re.compile(r"(?<![\w'.-])in(?=[\s(])").match(t, j):
                nest -= 1
                if not nest:
                    break
            j += 1
        i = j + 2


def tuple_parts(t, n):
    """A nested pair as n parts, or nothing."""
    t = t.strip()
    if not (t.startswith("(") and matching(t, 0) == len(t) - 1):
        return None
    parts = [p.strip() for p in split_top(t[1:-1], ",")]
    parts = [p for p in parts if p]
    if len(parts) == 1 and n > 1:
        return tuple_parts(parts[0], n)
    if len(parts) == n:
        return parts
    if len(parts) < 2:
        return None
    while len(parts) < n:
        more = tuple_parts(parts[-1], n - len(parts) + 1)
        if not more:
            return None
        parts = parts[:-1] + more
    return parts if len(parts) == n else None


# ---- one function

class Turn:
    def __init__(self, lts, row, fns, crate, path, said):
        self.lts = lts
        self.row, self.fns, self.crate, self.path, self.said = row, fns, crate, path, said
        self.places, self.by_old = {}, {}
        for k, (old, parent, step, callee, *_more) in enumerate(row["places"]):
            new = row["places_by_name"][k]
            self.places[old] = dict(parent=parent, old=step[0], new=step[1], callee=callee, name=new, arm=row["arms"][k])
            self.by_old[norm(old)] = old
        parts = path.split(".")
        self.helpers, self.goal, self.bodies, self.inner = {}, None, {}, {}
        self.wants, self.startings = set(), {}
        self.own = fns.get(f"{crate}::" + "::".join(parts)) or Fn()

    def complain(self, text):
        self.said.append(f"{self.crate}/{self.path}: {text}")

    def place(self, name):
        got = self.by_old.get(norm(name))
        if not got:
            for old, p in self.places.items():
                if norm(p["name"]) == norm(name):
                    return old
        return got

    def step(self, place, name):
        got = self.step_named(place, name)
        return got or (self.step_named(place, name[:-4]) if name.endswith("_lem") else None)

    def step_named(self, place, name):
        p = place
        while p:
            if self.places[p]["old"] and norm(self.places[p]["old"]) == norm(name):
                return p
            p = self.places[p]["parent"]
        p = place
        while p:
            if self.places[p]["new"] and norm(self.places[p]["new"]) == norm(name):
                return p
            p = self.places[p]["parent"]
        return None

    def above(self, place, other):
        """How many places `other` stands above `place`."""
        n = 0
        while place and place != other:
            place = self.places[place]["parent"]
            n += 1
        return n if place else None

    def arm_field(self, place, comps):
        """The field of an arm that stands for a path to what a match told, and how long that path is."""
        p = place
        while p:
            arm = self.places[p]["arm"]
            if arm:
                for field, step, path in arm[2]:
                    for name in (comps[0], comps[0][:-4] if comps[0].endswith("_lem") else comps[0]):
                        if path and norm(step) == norm(name) and comps[1 : 1 + len(path)] == path and path[0] == "given":
                            return arm[0], field, 1 + len(path)
            p = self.places[p]["parent"]
        return None

    def listed(self, step, what):
        """The names of what a call gave back, as the generated text lists them, with a blank for what has none."""
        at = re.search(r"c\.%s\.%s\.\w" % (re.escape(step), what), self.lts)
        if not at:
            return []
        # the outermost pair that holds it, below the tuple of all that the call gave
        i, start, opened = at.start(), at.start(), 0
        while i > 0:
            i -= 1
            if self.lts[i] in CLOSE:
                break
            if self.lts[i] == "(":
                text = self.lts[i : matching(self.lts, i) + 1]
                if f"c.{step}.lifetimes" in text or f"c.{step}.result" in text or f"c.{step}.type_inv" in text:
                    break
                start = i
        text, got = self.lts[start : matching(self.lts, start) + 1], []
        while text.startswith("("):
            first, rest = split_top(text[1:-1], ",")[0].strip(), split_top(text[1:-1], ",")[1].strip()
            got.append(first.split(".")[-1] if first != "tt" else None)
            text = rest
        return got

    def follow(self, kind, comps):
        """The components of a path, turned, and what they lead to. A step is found by its name, whatever the count of `.before`."""
        out, i = [], 0
        while i < len(comps):
            c = comps[i]
            if kind[0] == "place":
                if c == "before":
                    i += 1
                    continue
                if c in ("args",):
                    out.append(c)
                    kind = ("args",)
                elif c == "requires" and len(self.own.requires) == 1 and self.own.requires[0]:
                    out += [c, self.own.requires[0]]
                    kind = ("other",)
                elif c == "requires":
                    out.append(c)
                    kind = ("clauses", self.own.requires)
                elif snake(c) in ("ranges", "lifetimes", "well_formed", "utf8"):
                    out.append(snake(c))
                    kind = ("args",)
                elif self.arm_field(kind[1], comps[i:]):
                    arm, field, n = self.arm_field(kind[1], comps[i:])
                    out += [arm, field]
                    kind = ("other",)
                    if field == "ensures":
                        kind = ("other",)
                    i += n - 1
                elif c == "pre" and not self.step(kind[1], c):
                    out.append("requires")
                    kind = ("clauses", self.own.requires)
                else:
                    at = self.step(kind[1], c)
                    if not at:
                        self.complain(f"no step {c} at {kind[1]}")
                        out.append(snake(c))
                        kind = ("other",)
                    else:
                        out.append(self.places[at]["new"])
                        kind = ("step", at)
                i += 1
            elif kind[0] == "args":
                out.append(snake(c))
                kind = ("other",)
                i += 1
            elif kind[0] == "step":
                callee = self.fns.get(self.places[kind[1]]["callee"] or "")
                out.append(snake(c) if not c[0].isdigit() else c)
                if c == "ensures":
                    kind = ("clauses", callee.ensures if callee else [])
                    if len(kind[1]) == 1 and kind[1][0]:
                        out.append(kind[1][0])
                        kind = ("other",)
                elif c == "new":
                    kind = ("tuple", self.listed(self.places[kind[1]]["new"], "new"))
                elif c == "auto":
                    kind = ("tuple", self.listed(self.places[kind[1]]["new"], "auto"))
                else:
                    kind = ("other",)
                i += 1
            elif kind[0] in ("clauses", "tuple"):
                names = kind[1]
                least = 2 if kind[0] == "clauses" else 1
                if len(names) < least or not re.match(r"\d+$", c):
                    out.append(c)
                    kind = ("other",)
                    i += 1
                    continue
                k = 0
                while i < len(comps) and comps[i] == "1" and (kind[0] == "tuple" or k < len(names) - 1):
                    k += 1
                    i += 1
                if kind[0] == "tuple" or k < len(names) - 1:
                    if i < len(comps) and comps[i] == "0":
                        i += 1
                    elif i >= len(comps):
                        return out, ("rest" if kind[0] == "clauses" else "tail", names[k:])
                    else:
                        self.complain(f"a path ends in a part of a tuple: {'.'.join(comps)}")
                out.append(names[k] if k < len(names) and names[k] else "UNNAMED")
                kind = ("other",)
            else:
                out.append(c)
                i += 1
        return out, kind

    def last_kind(self, text, var, place):
        """The names of the clauses that a whole term stands for, if it is a path to such."""
        core = lets(text)[1].strip()
        if re.match(r"%s\.[^\s()]*$" % re.escape(var), core):
            if core == var + ".requires":
                return self.own.requires
            m = re.match(r"%s\.(\S+)\.ensures$" % re.escape(var), core)
            for p in self.places.values() if m else ():
                if p["new"] == m[1] and p["callee"] in self.fns:
                    return self.fns[p["callee"]].ensures
        return None

    def is_all(self, text, m):
        """Whether a path is the whole of a term's last part."""
        return lets(text)[1].strip() == m[0]

    def turned(self, text, scope):
        """A term with its paths turned. scope: what each variable stands for."""
        scope = dict(scope)
        out, i = [], 0
        word = re.compile(r"(?<![\w'’.\-₀-₉])([a-zA-Z][\w'\-₀-₉]*)((?:\.%s)*)" % NAME)
        pos = 0
        while True:
            m = word.search(text, pos)
            if not m:
                out.append(text[pos:])
                break
            out.append(text[pos : m.start()])
            v, path = m[1], m[2]
            if v in scope:
                comps = path[1:].split(".") if path else []
                root, at = (scope[v][2], ("place", scope[v][1])) if scope[v][0] == "alias" else (v, scope[v])
                head = re.search(r"let ([\w'\-₀-₉]+) = $", "".join(out)[-80:])
                after = re.compile(r"\s+in(?=[\s(])").match(text, m.end())
                if at[0] == "place" and all(x == "before" for x in comps):
                    if head and after and comps:
                        # another name of a place above: its steps are steps of the variable itself
                        scope[head[1]] = ("alias", at[1], root)
                        joined = "".join(out)
                        out = [joined[: len(joined) - len(head[0])].rstrip(" ")]
                        pos = after.end()
                        continue
                    call = re.search(r"(?<![\w'.-])([\w'\-₀-₉]+) $", "".join(out)[-80:])
                    n = self.above(at[1], self.helpers[call[1]]) if call and call[1] in self.helpers else len(comps)
                    if n is None:
                        self.complain(f"{call[1]} is called at {at[1]}, which is not below {self.helpers[call[1]]}")
                        n = len(comps)
                    if call and call[1] in self.startings:
                        # what is said at the start is said of the variable itself
                        v, b = self.startings[call[1]]
                        joined = "".join(out)
                        cut = joined[: len(joined) - len(call[1]) - 1]
                        out = [cut, "(" + renamed(b, v, root) + ")"]
                    elif call and call[1] in self.helpers and self.helpers[call[1]] == "Start" and (self.goal or at[1] != "Start"):
                        out.append(".".join([root] + ["before"] * (n + 1)))
                    elif call and call[1] in self.bodies and not self.goal and n:
                        joined = "".join(out)
                        out = [joined[: len(joined) - 1]]
                        self.inner.setdefault(call[1], root)
                        pos = m.end()
                        continue
                    elif call and call[1] in self.helpers and self.goal:
                        self.wants.add(self.places[self.helpers[call[1]]]["name"])
                        out.append(f"(goal.at.{self.goal} {root}).{self.places[self.helpers[call[1]]]['name']}")
                    else:
                        if comps:
                            self.complain(f"{self.goal}: a place is passed on: {m[0]}")
                        out.append(".".join([root] + ["before"] * n))
                    pos = m.end()
                    continue
                new, kind = self.follow(at, comps)
                whole = ".".join([root] + new)
                is_let = head and after
                if kind[0] == "rest" and is_let:
                    kind = ("clauses", kind[1])
                if kind[0] == "tail":
                    if not is_let:
                        self.complain(f"a path ends in a part of a tuple: {m[0]}")
                    kind = ("tuple", kind[1])
                if kind[0] == "rest" and in_tactic(text, m.start()):
                    kind = ("other",)
                elif kind[0] == "rest" or kind[0] == "clauses" and len(kind[1]) > 1 and not is_let and not self.is_all(text, m) and not in_tactic(text, m.start()):
                    # the clauses, or the last of them, as the pairs that a lemma takes
                    names = kind[1]
                    term = f"{whole}.{names[-1]}"
                    for n in reversed(names[:-1]):
                        term = f"({whole}.{n}, {term})"
                    whole = term
                    kind = ("other",)
                out.append(whole)
                # an alias: `let x = PATH in`
                if head and after:
                    scope[head[1]] = kind
            else:
                out.append(m[0])
            pos = m.end()
        return "".join(out)


def declarations(text):
    """The top-level declarations: (comment lines, text)."""
    uses, decls, comment = [], [], []
    lines = text.split("\n")
    i = 0
    while i < len(lines):
        l = lines[i]
        if l.startswith("use "):
            uses.append(l)
        elif l.startswith("--"):
            comment.append(l)
        elif l and not l[0].isspace():
            block = [l]
            name = re.match(r"(?:(?:abbrev|unfoldable|pub) )*(%s)" % NAME, l)[1]
            j = i + 1
            while j < len(lines):
                n = lines[j]
                if n.startswith("use ") or n.startswith("--"):
                    break
                if n and not n[0].isspace() and n[0] not in CLOSE:
                    first = re.match(r"(%s)" % NAME, n)
                    if not (n.startswith("unfolding ") or first and first[1] == name):
                        break
                    if first and first[1] == name and re.match(r"%s :" % re.escape(name), n):
                        break
                block.append(n)
                j += 1
            decls.append((comment, name, "\n".join(block).rstrip()))
            comment = []
            i = j
            continue
        elif not l:
            if comment and i + 1 < len(lines) and not lines[i + 1].startswith("--"):
                decls.append((comment, None, ""))
                comment = []
        i += 1
    return uses, decls


def parts_of(name, text):
    """(marks, type, unfolding line or '', binders, body) of a declaration of one equation."""
    m = re.match(r"((?:(?:abbrev|unfoldable|pub) )*)%s :" % re.escape(name), text)
    rest = text[m.end() :]
    u = re.search(r"(?m)^unfolding [^\n]*$", rest)
    e = re.search(r"(?m)^%s((?: [^\n=]*)?) =" % re.escape(name), rest)
    if not e:
        return None
    sig = rest[: u.start() if u and u.start() < e.start() else e.start()]
    return m[1], sig.strip(), (u[0] if u and u.start() < e.start() else ""), e[1].split(), rest[e.end() :]


TRIVIAL = re.compile(r"^(search rules( depth \d+)?( fits \d+)?|omega arith|search \(rules, arith\))$")


def main(argv):
    names, crate_dir, only = argv[0], os.path.abspath(argv[1]), argv[2:]
    crate = os.path.basename(crate_dir)
    root = os.path.dirname(os.path.dirname(crate_dir))
    rows = json.load(open(names, encoding="utf-8"))
    fns = functions(root)
    said = []
    for f in sorted(glob.glob(os.path.join(crate_dir, "proofs/**/Proof.antt"), recursive=True)):
        folder = os.path.dirname(f)
        path = os.path.relpath(folder, os.path.join(crate_dir, "proofs")).replace("/", ".")
        if only and path not in only or "+" in path:
            continue
        row = rows.get(f"Rattle-{crate}-proofs.{path}.Lts")
        if not row:
            said.append(f"{crate}/{path}: no row in {names}")
            continue
        text = open(f, encoding="utf-8").read()
        if "tie.spec" not in text:
            said.append(f"{crate}/{path}: no tie.spec")
            continue
        try:
            turn_file(f, folder, path, row, fns, crate, text, said)
        except Exception as e:  # noqa: BLE001
            said.append(f"{crate}/{path}: {type(e).__name__} {e}")
            if os.environ.get("TRACE"):
                raise
    print("\n".join(said))
    return 0


def turn_file(f, folder, path, row, fns, crate, text, said):
    lts = os.path.join(os.environ.get("GEN", "/nowhere"), f"Rattle-{crate}-proofs", *path.split("."), "Lts.antt")
    t = Turn(open(lts, encoding="utf-8").read() if os.path.exists(lts) else "", row, fns, crate, path, said)
    uses, decls = declarations(text)
    byname = {n: (c, d) for c, n, d in decls if n}
    spec = [n for n in byname if n.endswith("_spec") and "tie.spec" in byname[n][1]][0]
    _, _, spec_unfolds, _, body = parts_of(spec, byname[spec][1])
    body = strip_parens(body)
    assert body.startswith("tie.close"), body[:40]
    inner = strip_parens(body[len("tie.close") :])
    assert inner.startswith("tie.spec"), inner[:40]
    args = arguments(inner[len("tie.spec") :])
    nloops = len(row["loops"])
    needs = row["needs"]
    loop_args, answers = args[: 2 * nloops], args[2 * nloops :]
    asked = row["asked_at"]
    if len(answers) != len(needs):
        # some goals are gone: each that an answer is named for keeps it
        named = {}
        for a in answers:
            m = re.search(r": *tie\.Need-(%s)" % NAME, byname[a][1].split("\n")[0]) if a in byname else None
            if m:
                named[norm(m[1])] = a
            elif not TRIVIAL.match(re.sub(r"^λ [^.]*\. ", "", strip_parens(a)).strip()):
                t.complain(f"an answer for a goal that may be gone: {a[:80]}")
        asked = [a for n, a in zip(needs, asked) if norm(n[0]) in named]
        needs = [n for n in needs if norm(n[0]) in named]
        answers = [named[norm(n[0])] for n in needs]
        if len(needs) < len(named):
            t.complain(f"of {list(named.values())} there are goals for {answers}")
    local = set(byname)
    inv_out, ans_out = [], []
    for _, n, d in decls:
        m = re.match(r"(?:(?:abbrev|unfoldable|pub) )*%s : (?:\(%s : )?tie\.(%s)" % (re.escape(n or "-"), NAME, NAME), d)
        if n and m and t.place(m[1]):
            t.helpers[n] = t.place(m[1])
        if n and m and t.place(m[1]) == "Start" and d.startswith("abbrev"):
            got = parts_of(n, d)
            if got and len(got[3]) == 1 and "\n" not in got[4].strip():
                t.startings[n] = (got[3][0], t.turned(got[4].strip(), {got[3][0]: ("place", "Start")}))
        m = re.match(r"module _ \((%s) : tie\.(%s)" % (NAME, NAME), d)
        if m and t.place(m[2]):
            for inner in re.findall(r"(?m)^  (?:(?:abbrev|unfoldable|pub) )*(%s) :" % NAME, d):
                t.helpers[inner] = t.place(m[2])
    for at, arg in zip(asked, answers):
        if arg in byname and t.place(at[0]):
            t.helpers.setdefault(arg, t.place(at[0]))
    # invariants and measures
    for k, ((old, new), variables) in enumerate(row["loops"]):
        changed = row["changed"][k]
        for what, arg in (("invariant", loop_args[2 * k]), ("decreases", loop_args[2 * k + 1])):
            if arg in byname:
                comment, d = byname[arg]
                _, _, unfolds, binders, b = parts_of(arg, d)
            else:
                m = re.match(r"λ ([^.]*)\.(.*)$", strip_parens(arg), re.S)
                comment, unfolds, binders, b = [], "", m[1].split(), m[2]
            terms = [("l.initial." if ch else "l.") + v for v, ch in zip(variables, changed)]
            terms += ["l." + v for v, ch in zip(variables, changed) if ch]
            if len(binders) != len(terms):
                t.complain(f"{what}-{new}: {len(binders)} variables for {terms}")
                continue
            sub = {x: y for x, y in zip(binders, terms) if x != "_"}
            b = substituted(b, sub)
            inv_out.append("\n".join(comment + [f"abbrev pub {what}-{new} : goal.{what}-{new}"] + ([unfolds] if unfolds else []) + [f"{what}-{new} l ={b}"]))
    # answers
    used = {}
    wants = t.wants
    order = []
    for (old, new), at, arg in zip(needs, asked, answers):
        comment = []
        unfolds = spec_unfolds
        if arg in byname:
            comment, d = byname[arg]
            got = parts_of(arg, d)
            if not got:
                t.complain(f"{arg}: no equation")
                continue
            _, _, unfolds, binders, b = got
            used[arg] = new
            if not binders and re.match(r"\s*λ", b):
                m = re.match(r"\s*λ ([^.]*)\.(.*)$", b, re.S)
                binders, b = m[1].split(), m[2]
        else:
            s = strip_parens(arg)
            m = re.match(r"λ ([^.]*)\.(.*)$", s, re.S)
            if not m:
                t.complain(f"{new}: the answer is {s[:60]}")
                continue
            binders, b = m[1].split(), m[2]
        if TRIVIAL.match(b.strip()) and not unfolds:
            continue
        if len(binders) > 2 or len(binders) == 2 and re.search(r"(?<![\w-])%s(?![\w-])" % re.escape(binders[1]), b):
            b = " λ " + " ".join(binders[1:]) + "." + (b if b[:1].isspace() else " " + b)
        place = t.place(at[0])
        var = binders[0]
        t.goal = new
        b = no_not(t.turned(b, {var: ("place", place)}))
        t.goal = None
        clauses = None
        m = re.match(r"(.*)-requires(-\d+)?$", old)
        if m:
            short = norm(m[1])
            for callee in row["params"]:
                if norm(callee.split("::")[-1]) == short and callee in fns:
                    clauses = fns[callee].requires
        elif re.match(r"returns(-\d+)?$", old):
            clauses = t.own.ensures
        if clauses and len(clauses) == 1 and clauses[0] and not TRIVIAL.match(b.strip()):
            pre, rest = lets(b)
            b = f"{pre} record {{ {clauses[0]} = {rest.strip()} }}"
        if clauses and len(clauses) > 1 and not TRIVIAL.match(b.strip()):
            b = by_clauses(b, clauses, t, new, t.last_kind(b, var, place))
        ans_out.append((new, "\n".join(comment + [f"pub {new} : goal.{new}"] + ([unfolds] if unfolds else []) + [f"{new} {var} ={b if b[:1].isspace() else ' ' + b}"])))
        order.append(new)
    # helpers, in their order among the answers
    helpers = []
    for comment, n, d in decls:
        if n is None:
            continue
        if n == spec or n in used or n in loop_args or n in t.startings:
            continue
        if re.search(r": *tie\.(Need-|invariant|decreases)", d.split("\n")[0]):
            continue
        m = re.search(r"tie\.(%s)" % NAME, d)
        new = d
        if m:
            def place_type(mm):
                p = t.place(mm[1])
                if not p:
                    t.complain(f"no place {mm[1]}")
                    return mm[0]
                wants.add(t.places[p]["name"])
                return t.places[p]["name"]
            bind = re.findall(r"\((%s) : tie\.(%s)" % (NAME, NAME), d)
            scope = {v: ("place", t.place(p)) for v, p in bind if t.place(p)}
            first = re.match(r"(?:(?:abbrev|unfoldable|pub) )*%s : tie\.(%s)" % (re.escape(n), NAME), d)
            if first and t.place(first[1]):
                e = re.search(r"(?m)^%s (%s)" % (re.escape(n), NAME), d)
                if e:
                    scope[e[1]] = ("place", t.place(first[1]))
            eq = re.search(r"(?m)^%s ((?:%s )*)=" % (re.escape(n), NAME), d)
            if eq and bind:
                for v, (_, p) in zip(eq[1].split(), bind):
                    if t.place(p):
                        scope[v] = ("place", t.place(p))
            # the type's arguments go: invariants and measures are known to Goals
            invs = [a for a in loop_args]
            tail = r"tie\.(%s)%s" % (NAME, "".join(r"\s+" + re.escape(a) for a in invs))
            d2 = re.sub(tail, place_type, d)
            d2 = re.sub(r"tie\.(%s)" % NAME, place_type, d2)
            t.inner = {}
            new = no_not(t.turned(d2, scope))
            got = parts_of(n, new) if n != "module" else None
            if got and bind + ([first] if first else []):
                marks, sig, unfolds, binders, b = got
                inner = dict(t.inner)
                pre = ""
                for other, root in inner.items():
                    v, ty, ob, ounf = t.bodies[other]
                    pre += f" let {other} : {renamed(ty, v, root)} = {renamed(ob, v, root).strip()} in"
                    if ounf:
                        names = sorted(set((unfolds + " " + ounf).replace("unfolding", "").split()))
                        unfolds = "unfolding " + " ".join(names)
                if inner:
                    b = pre + (b if b[:1].isspace() else " " + b)
                    new = f"{marks}{n} : {sig}\n" + (unfolds + "\n" if unfolds else "") + f"{n} {' '.join(binders)} =\n   {b}"
                ty = re.sub(r"^\(%s : [^()]*\) → " % NAME, "", sig) if sig.startswith("(") else re.sub(r"^%s → " % NAME, "", sig)
                if len(binders) == 1:
                    t.bodies[n] = (binders[0], ty, b, unfolds)
        helpers.append((n, "\n".join(comment + [new])))
    body_text = "\n\n".join(h for _, h in helpers) + ("\n\n" if helpers else "") + "\n\n".join(a for _, a in ans_out)
    inv_text = "\n\n".join(inv_out)
    for u in used:
        if re.search(r"(?<![\w'.-])%s(?![\w'-])" % re.escape(u), body_text.replace("goal." + u, "")) and u not in order:
            body_text = re.sub(r"(?<![\w'.-])%s(?![\w'-])" % re.escape(u), used[u], body_text)
    # helpers that only serve invariants
    inv_helpers = [h for n, h in helpers if re.search(r"(?<![\w'.-])%s(?![\w'-])" % re.escape(n), inv_text) and "tie" not in h]
    inv_names = [n for n, h in helpers if h in inv_helpers]
    head = [c for c, n, d in decls[:1]][0] if decls else []
    mod = f"Rattle.{crate}.proofs.{path}"

    def imports(for_text):
        got = []
        for u in uses:
            if ".Statement" in u or re.search(r"\.Tie as tie", u):
                continue
            m = re.match(r"use (\S+?)\.\{(.*)\}$", u)
            if m:
                keep = []
                for n in split_top(m[2], ","):
                    n = n.strip()
                    alias = n.split(" as ")[-1]
                    op = re.findall(r"[^◌]+", alias) if "◌" in alias else None
                    if op:
                        if all(o in for_text for o in op):
                            keep.append(n)
                    elif re.search(r"(?<![\w'.\-₀-₉])%s(?![\w'\-₀-₉])" % re.escape(alias), for_text):
                        keep.append(n)
                if keep:
                    got.append(f"use {m[1]}.{{{', '.join(keep)}}}")
            else:
                last = u.split()[-1].split(".")[-1]
                if re.search(r"(?<![\w'.-])%s\." % re.escape(last), for_text):
                    got.append(u)
        for name, home in (("ap", "mathlib.Core.Path"), ("not", "mathlib.Core.Bool")):
            if "(ap not " in for_text and not any(re.search(r"[{ ]%s[,}]" % name, g) for g in got):
                got.insert(0, f"use {home}.{{{name}}}")
        return got

    note = text.split("\n")[0] if text.startswith("--") else ""
    if inv_out:
        whole = ("\n\n".join(inv_helpers) + "\n\n" if inv_helpers else "") + inv_text
        with open(os.path.join(folder, "Invariants.antt"), "w", encoding="utf-8") as out:
            out.write("\n".join(([note] if note else []) + imports(whole) + [f"use {mod}.Given as goal", "", whole]) + "\n")
    if ans_out or [h for n, h in helpers if n not in inv_names]:
        if not ans_out:
            pass
        else:
            only_inv = [h for n, h in helpers if n in inv_names and not re.search(r"(?<![\w'.-])%s(?![\w'-])" % re.escape(n), "\n".join(a for _, a in ans_out) + "".join(h2 for n2, h2 in helpers if n2 != n))]
            for h in only_inv:
                body_text = body_text.replace(h + "\n\n", "")
            goal_line = f"use {mod}.Goals as goal"
            extra = [f"use {mod}.Goals.{{{', '.join(sorted(wants))}}}"] if wants else []
            with open(os.path.join(folder, "Answers.antt"), "w", encoding="utf-8") as out:
                out.write("\n".join(([note] if note else []) + imports(body_text) + [goal_line] + extra + ["", body_text]) + "\n")
    os.remove(f)


def renamed(text, a, b):
    return text if a == b else re.sub(r"(?<![\w'.-])%s(?=[\s.)])" % re.escape(a), b, text)


def in_tactic(text, at):
    """Whether a place stands in a tactic's list."""
    depth = 0
    for i in range(at - 1, -1, -1):
        if text[i] in CLOSE:
            depth += 1
        elif text[i] in OPEN:
            if not depth:
                return bool(re.search(r"(?<![\w'-])(?:omega|search|grind|cc|simp|rw) $", text[:i][-10:]))
            depth -= 1
    return False


def no_not(b):
    """A test of `!x` says what a test of x says."""
    b = re.sub(r"not-(true|false) (?:_|[\w.'-]+|\([^()]*\)) (\w+\.if-not-[\w.'-]+\.\1)", r"\2#", b)
    b = re.sub(r"(?<![\w.'-])(\w+\.if-not-[\w.'-]+\.(?:true|false))(?!#)(?![\w'-])", r"(ap not \1)", b)
    return b.replace("#", "")


def by_clauses(b, clauses, t, new, theirs):
    pre, rest = lets(b)
    core = rest.strip()
    if core.startswith("record {"):
        return b
    if theirs and len(theirs) == len(clauses):
        return pre + " record { " + " ".join(f"{n} = {core}.{m};" for n, m in zip(clauses, theirs)) + " }"
    got = tuple_parts(core, len(clauses))
    names = [c or "UNNAMED" for c in clauses]
    if got:
        rec = "record {\n" + "".join(f"      {n} = {p};\n" for n, p in zip(names, got)) + "    }"
        return pre + ("\n    " if pre else " ") + rec
    m = re.match(r"rw (\([^()]*\)|\S+) (\(.*\))$", core, re.S)
    if re.match(r"(cc|grind|simp|search|omega|\?)", core):
        return b
    whole = " ".join(core.split("\n")) if "\n" not in core else core
    n = len(clauses)
    sel = [".1" * k + (".0" if k < n - 1 else "") for k in range(n)]
    t.complain(f"{new}: the clauses {names} come from one term")
    return pre + f"\n    let all = {whole} in\n    record {{\n" + "".join(f"      {a} = all{s};\n" for a, s in zip(names, sel)) + "    }"


def substituted(text, sub):
    word = re.compile(r"(?<![\w'.\-₀-₉])([^\s(){}.;,@\"«»\[\]]+)")

    def one(m):
        if re.compile(r"\s*=\s").match(text, m.end()) and not re.search(r"let $", text[: m.start()][-4:]):
            return m[1]
        return sub.get(m[1], m[1])

    return word.sub(one, text)


if __name__ == "__main__":
    raise SystemExit(main(sys.argv[1:]))
