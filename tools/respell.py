#!/usr/bin/env python3
"""Brings this repository's own definitions and lemmas to the spelling of today's Rattle: words in snake case.

usage: tools/respell.py [--check]     at the top of the repository, once, right after port.py

A name is respelled if an .antt file of crates/*/specs or crates/*/proofs declares it (a definition, a lemma, a
field or a constructor), it begins with a small letter and it has a dash or a capital inside: `countBelow` is
`count_below`, `put-none` is `put_none`. Types, modules, functions of src/ and whatever Rattle makes keep their
names. Where a definition and a lemma would fall together, the lemma ends in `_lem`. Must-fail edits are respelled
by the same words. --check writes nothing and lists what falls together in a file.
"""
import collections
import os
import re
import sys

CHECK = "--check" in sys.argv
TOKEN = re.compile(r"(?<![\w'₀-₉-])[a-z][\w'₀-₉]*(?:-[\w'₀-₉]+)*(?![\w'₀-₉]|-[^\W\d_])")
DECL = re.compile(r"^(\s*)((?:(?:abbrev|unfoldable|pub|pattern|instance)\s+)*)([^\s(){}:.,;=]+)((?:\s+\{[^}]*\})*)\s+:\s")


def antt_files():
    for c in sorted(os.listdir("crates")):
        for part in ("specs", "proofs"):
            for d, dirs, fs in os.walk(os.path.join("crates", c, part)):
                dirs.sort()
                for f in sorted(fs):
                    if f.endswith(".antt"):
                        yield os.path.join(d, f)


def read(p):
    with open(p, encoding="utf-8") as f:
        return f.read()


def snake(n):
    n = re.sub(r"(?<=[a-z0-9₀-₉'])([A-Z])", lambda m: "_" + m.group(1).lower(), n)
    return n.replace("-", "_").lower()


def declared(text):
    """What a file declares: (name, whether it is a field or a constructor)."""
    inside = None
    for l in text.split("\n"):
        if not l.strip() or l.lstrip().startswith(("--", "use ", "pub use ")):
            continue
        indent = len(l) - len(l.lstrip())
        if inside is not None and indent <= inside:
            inside = None
        if re.match(r"\s*(pub\s+)?(record|data)\s", l):
            inside = indent
            continue
        m = DECL.match(l)
        if m:
            yield m.group(3), inside is not None


def module_of(p):
    parts = p[: -len(".antt")].split(os.sep)
    return "Rattle." + ".".join(parts[1:])


def imports(text):
    for m in re.finditer(r"^\s*(?:pub |ghost )?use ([\w.·+'₀-₉-]+?)\.\{([^}]*)\}", text, re.M):
        for n in m.group(2).split(","):
            if n.strip():
                yield m.group(1), n.split(" as ")[-1].strip()


lemmas, fields = collections.defaultdict(set), set()
for p in antt_files():
    if os.path.basename(p) != "Proof.antt":
        for n, field in declared(read(p)):
            if re.match(r"[a-z]", n):
                (fields.add(n) if field else lemmas[n].add(module_of(p)))

odd = lambda n: re.fullmatch(r"[\w'₀-₉-]+", n) and ("-" in n or re.search(r"[A-Z]", n))
names = {n: snake(n) for n in lemmas if odd(n)}
field_names = {n: snake(n) for n in fields if odd(n)}
# Those that fall together: a definition had capitals or, after port.py, has the name already; a lemma had a dash.
groups = collections.defaultdict(set)
for n in lemmas:
    groups[names.get(n, n)].add(n)
local = collections.defaultdict(dict)
for new, olds in groups.items():
    if len(olds) > 1:
        for n in olds:
            if "-" in n:
                names[n] = new + "_lem"
            elif n == new and any(re.search("[A-Z]", o) for o in olds):
                for m in lemmas[n]:
                    if ".proofs." in m:
                        local[m][n] = new + "_lem"


def respell(text, p):
    """text, and what p imports or declares that has its new name by the module that it is from."""
    mine = dict(local.get(module_of(p), {})) if p.endswith(".antt") else {}
    for m, n in imports(text):
        if n in local.get(m, {}):
            mine[n] = local[m][n]

    def turn(k):
        n = k.group(0)
        before = text[: k.start()].rstrip()
        field = (k.start() and text[k.start() - 1] == "." and k.start() > 1 and (text[k.start() - 2].isalnum() or text[k.start() - 2] in "_)'₀₁₂₃₄₅₆₇₈₉")) or (before.endswith((";", "{")) and re.match(r"\s*=\s", text[k.end() :]) and n in fields)
        at = text.rfind("\n", 0, k.start()) + 1
        if field or (k.start(), n) in decls:
            return field_names.get(n, names.get(n, n) if not field else snake(n) if n in names and "." == text[k.start() - 1] else names.get(n, n))
        return mine.get(n, names.get(n, field_names.get(n, n)))

    # where the fields of records are declared
    decls, inside, at = set(), None, 0
    if p.endswith(".antt"):
        for l in text.split("\n"):
            indent = len(l) - len(l.lstrip())
            if l.strip() and inside is not None and indent <= inside:
                inside = None
            if re.match(r"\s*(pub\s+)?(record|data)\s", l):
                inside = indent
            elif inside is not None:
                m = DECL.match(l)
                if m:
                    decls.add((at + m.start(3), m.group(3)))
            at += len(l) + 1
    return TOKEN.sub(turn, text)


def of_clauses(l):
    return re.search(r"^\s*(ghost use|requires|ensures|ghost|where)\b|[≡≤×→λ∷≢⊎]", l) and not re.match(r"\s*//", l)


spelled = set(names.values()) | set(field_names.values()) | set(lemmas) | fields


def of_edit(l):
    """A line of an edit, which port.py did not turn: names of ours, paths, operators and projections."""
    l = re.sub(r"Rattle·(\w+)·(specs|proofs)\.\2\b", r"Rattle.\1.\2", l)
    l = re.sub(r"Rattle·(\w+)", r"Rattle.\1", l)
    l = re.sub(r"(?<=[{, ])_([^\w\s,]+)_(?=[,}])", r"◌\1◌", l)
    l = re.sub(r"(?<=[\w')]) \.(?=[a-z0-9])", ".", l)
    l = re.sub(r"(?<![\w'])\(([a-z][\w']*(?:\.[\w'-]+)+)\)", r"\1", l)
    return TOKEN.sub(lambda k: snake(k.group(0)) if odd(k.group(0)) and snake(k.group(0)) in spelled else k.group(0), l)


todo = list(antt_files())
for c in sorted(os.listdir("crates")):
    for part in ("src", "must-fail"):
        for d, dirs, fs in os.walk(os.path.join("crates", c, part)):
            todo += [os.path.join(d, f) for f in sorted(fs)]
bad = changed = 0
for p in todo:
    text = read(p)
    if p.endswith(".rt"):
        new = "\n".join(respell(l, p) if of_clauses(l) else l for l in text.split("\n"))
    elif p.endswith(".edit"):
        new = "\n".join(of_edit(respell(l, p)) if re.match("(old|new):", l) else l for l in text.split("\n"))
    else:
        new = respell(text, p)
    if CHECK:
        scope = collections.defaultdict(set)
        for m, n in imports(new):
            scope[n].add(m)
        if p.endswith(".antt"):
            for n, field in declared(new):
                if not field:
                    scope[n].add("here")
        old = collections.defaultdict(set)
        for m, n in imports(text):
            old[n].add(m)
        if p.endswith(".antt"):
            for n, field in declared(text):
                if not field:
                    old[n].add("here")
        for n, ms in scope.items():
            if len(ms) > 1 and len(old.get(n, ())) < len(ms):
                bad += 1
                print(f"{p}: {n}: {sorted(ms)}")
    elif new != text:
        with open(p, "w", encoding="utf-8") as f:
            f.write(new)
        changed += 1
print(len(names) + len(field_names), "names;", f"{bad} fall together" if CHECK else f"{changed} files")
