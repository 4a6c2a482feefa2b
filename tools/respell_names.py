#!/usr/bin/env python3
"""Brings the repository's own definitions, lemmas and record fields to the library's spelling: words in snake case.

usage: python3 tools/respell_names.py [--list] [REPOSITORY]

It is run once, right after the kit's port.py, and goes by spelling alone: `unitsOf` and `filled-all` become
`units_of` and `filled_all`. It turns each name that a file of specs/ or proofs/ declares, in these files, in the clauses
of src/ and in the texts of must-fail/. Types, modules and constructors in upper camel case stay, and so do names of the
libraries, of functions and of what Rattle generates. KEEP and OTHERWISE say what is spelled in another way, and why.
In a comment a name with a dash is turned only between backticks. --list prints the table and writes nothing.
It stops before it writes where two names of one file would fall together.
"""

import collections
import glob
import os
import re
import sys

TOKEN = r"[^\s(){}.;,@\"«»]+"
DECLARED = re.compile(r"(?m)^( {0,6})((?:pattern |unfoldable |abbrev |pub |ruleset )*)(%s)((?: \{[^{}\n]*\})*(?: \([^()\n]*\))*) :(?=\s)" % TOKEN)
RULESET = re.compile(r"(?m)^(?:pub )?ruleset (?:pub )?(%s)" % TOKEN)
USE = re.compile(r"(?m)^(?:ghost )?use (\S+?)\.\{([^}]*)\}")
# Names whose snake case a field or a parameter of src/ has, which a clause would read in their place.
OTHERWISE = {
    "linksAt": "links_at_of",
    "originsAt": "origins_at_of",
    "destinationsAt": "destinations_at_of",
    "legsAt": "legs_at_of",
    "samplesAt": "samples_at_of",
    "doneAt": "done_at_of",
    "gap-below-J": "gap_below_upper_j",
    "gap-of-J": "gap_of_upper_j",
}
# Spellings that also stand for a field of src/, behind a dot, or for a crate: no definition of a clause, so both may stand.
ALIKE = {"destinations_at", "samples_at", "origins_at", "legs_at", "nodes_at", "pairs_at", "offset_next", "grow_origins"}
# Names that have a new spelling already, by port.py, which a definition of the same file gets now.
FIRST = {
    "arcs_passes/proofs/Stores.antt": {"set_next": "set_next_lem"},
    "grow_events/proofs/Inserting.antt": {"has-split": "has_split"},
    "grow_events/proofs/Joining.antt": {"has-split": "has_split"},
    "grow_origins/proofs/OriginEvents.antt": {"has-split": "has_split"},
    "grow_state/proofs/TakingUp.antt": {"has-split": "has_split"},
}


def respelled(name):
    if name in OTHERWISE:
        return OTHERWISE[name]
    if re.match(r"[A-Z]", name):
        return name
    name = re.sub(r"(?<=[a-z0-9])([A-Z])", r"_\1", name)
    return re.sub(r"[A-Z]", lambda m: m[0].lower(), name).replace("-", "_")


def files(root, *patterns):
    found = []
    for p in patterns:
        found += glob.glob(os.path.join(root, p), recursive=True)
    return sorted(f for f in found if "/out/" not in f)


def is_walk(path):
    return path.endswith("/Proof.antt")


def table(root):
    """What each declared name becomes, of those that change."""
    names = collections.defaultdict(set)
    for f in files(root, "crates/*/specs/**/*.antt", "crates/*/proofs/**/*.antt"):
        if is_walk(f):
            continue
        text = open(f, encoding="utf-8").read()
        for m in DECLARED.finditer(text):
            names[m[3]].add(f)
        for m in RULESET.finditer(text):
            names[m[1]].add(f)
    becomes = {n: respelled(n) for n in names}
    taken = set()
    for f in files(root, "crates/*/specs/**/*.antt", "crates/*/proofs/**/*.antt"):
        text = open(f, encoding="utf-8").read()
        taken |= {w for n in foreign(text) for w in n.split(" as ")}
    groups = collections.defaultdict(set)
    for n, k in becomes.items():
        groups[k].add(n)
    for k, ns in groups.items():
        # A definition has the plain name, and a lemma that would have it too, or a library's, ends in `_lem`.
        first = sorted(ns, key=lambda n: (not any("/specs/" in f for f in names[n]), "-" in n, n == k))[0]
        for n in ns:
            if (len(ns) > 1 and n != first) or (k in taken and n != k):
                becomes[n] = k + "_lem"
    return {n: k for n, k in becomes.items() if n != k}, names


def foreign(text):
    """The names that a file takes from the libraries: they are not the repository's."""
    got = set()
    for m in USE.finditer(text):
        own = re.match(r"Rattle\.(?!std\b|core\b|io\b|libc\b)", m[1])
        if not own:
            got |= {n.strip() for n in m[2].split(",")}
    return got


def turned(text, becomes, path):
    stay = foreign(text) if path.endswith((".antt", ".rt")) else set()
    mark = "//" if path.endswith(".rt") else "--"

    # a name of src/ that is spelled so already is a function's or a variable's
    if path.endswith(".rt") or path.endswith(".edit") and re.search(r"(?m)^file: src/", text):
        becomes = {n: k for n, k in becomes.items() if not re.match(r"[a-z0-9_]+$", n)}

    def word(m):
        name = m[0]
        before = text_of[0][max(0, m.start() - 8) : m.start()]
        if name in stay and not before.endswith("."):
            return name
        if re.search(r"(?:^|[^\w-])(?:tie|goal)\.$", before):
            return name
        return becomes.get(name, name)

    out = []
    for line in text.split("\n"):
        at = line.find(mark + " ") if line.lstrip().startswith(mark) or (" " + mark + " ") in line else -1
        code, comment = (line, "") if at < 0 else (line[:at], line[at:])
        text_of = [code]
        code = re.sub(TOKEN, word, code)
        text_of = [comment]
        comment = re.sub(r"`[^`]*`", lambda m: re.sub(TOKEN, lambda w: becomes.get(w[0], w[0]), m[0][1:-1]).join("``"), comment)
        comment = re.sub(r"(?<![\w-])[a-z][a-z0-9]*[A-Z]\w*(?![\w-])", lambda w: becomes.get(w[0], w[0]), comment)
        out.append(code + comment)
    return "\n".join(out)


def own_spec(text):
    """The name by which a check finds a function's proof: `f_spec`."""
    return re.sub(r"(?m)^((?:pub )?)(\+?[\w-]+)-spec\b", lambda m: m[1] + m[2].replace("-", "_") + "_spec", text)


def main(argv):
    root = [a for a in argv if not a.startswith("--")]
    root = root[0] if root else "."
    becomes, names = table(root)
    if "--list" in argv:
        for n in sorted(becomes):
            print(n, becomes[n])
        return 0
    bad = []
    changes = {}
    for f in files(root, "crates/*/specs/**/*.antt", "crates/*/proofs/**/*.antt", "crates/*/src/**/*.rt", "crates/*/must-fail/*.edit"):
        text = open(f, encoding="utf-8").read()
        short = f.split("crates/")[-1]
        before = text
        for a, b in FIRST.get(short, {}).items():
            text = re.sub(r"(?<![^\s(){}.;,@\"«»])%s(?![^\s(){}.;,@\"«»])" % re.escape(a), b, text)
        aliases = {a: respelled(a) for a in re.findall(r" as (%s)" % TOKEN, text) if "-" in a and re.match(r"[a-z]", a)}
        aliases = {a: k + "_lem" if k in set(becomes.values()) or k in names else k for a, k in aliases.items()}
        new = turned(text, becomes | aliases, f)
        if is_walk(f):
            new = own_spec(new)
        tokens = set(re.findall(TOKEN, text))
        for n in tokens if f.endswith(".antt") and not is_walk(f) else ():
            if becomes.get(n, n) not in ALIKE | {n} and becomes[n] in tokens and becomes[n] not in becomes:
                bad.append((f, n, becomes[n]))
        got = collections.defaultdict(set)
        for n in tokens & set(becomes):
            got[becomes[n]].add(n)
        for k, v in got.items():
            if len(v) > 1:
                bad.append((f, " and ".join(sorted(v)), k))
        if new != before:
            changes[f] = new
    if bad:
        for f, n, k in bad:
            print(f"{f}: {n} would be {k}, which stands there already")
        return 1
    for f, new in changes.items():
        open(f, "w", encoding="utf-8").write(new)
    print(f"{len(becomes)} names, {len(changes)} files")
    return 0


if __name__ == "__main__":
    raise SystemExit(main(sys.argv[1:]))
