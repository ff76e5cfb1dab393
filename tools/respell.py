#!/usr/bin/env python3
"""Brings the repository's own definitions and lemmas to one spelling.

usage: python3 tools/respell.py [--list]     at the top of the repository

Types and facts are in upper camel case (Sheet-of is SheetOf), every other definition, field, constructor and lemma in
snake case (numberIn is number_in, cut-back is cut_back). A lemma that would then have the name of a definition gets
`_lem` behind it. Names of src/, goals and steps of a proof, strings, and whatever is imported from elsewhere keep
their names. With --list it writes nothing and prints what would be renamed.
"""

import collections
import os
import re
import sys

# A name that would fall together with another, or with a name of src/, by what it is called instead.
CHOSEN = {
    "Returns-in-order": "ReturnsStandInOrder",
    "One-evaluation": "HasOneEvaluation",
    "Visits-in-order": "VisitsStandInOrder",
    "Inherited-before-visit": "InheritedStandBeforeVisit",
    "Synthesized-before-return": "SynthesizedStandBeforeReturn",
    "Arguments-first": "ArgumentsStandFirst",
    "Taken-at": "IsTakenIn",
    "no_place": "no_place_lem",
    "cell_in": "cell_in_lem",
    "row_fits": "row_fits_lem",
}

TOKEN = re.compile(r"[^\s(){}.;,\[\]|]+|[\s(){}.;,\[\]|]+")
DECLARED = re.compile(r"(?m)^([ ]*)(?:(?:pub|abbrev|unfoldable)[ ]+)*(?:(data|record)[ ]+(?:pub[ ]+)?([^\s:(){}.;,]+)|([^\s:(){}.;,λ]+)[ ]+:[ \n][ ]*(.*))")
USE = re.compile(r"(?m)^\s*(?:pub )?(?:ghost )?use ([^\s{;]+)(?:\{([^}]*)\})?")


def words(name):
    """The words that a name is made of."""
    out = []
    for part in re.split(r"[-_]", name):
        out += re.findall(r"[A-Z]+(?![a-z])|[A-Z]?[^A-Z]+", part) or [part]
    return out


def respelled(name):
    name = name.replace("′", "'")
    if name[0].isupper():
        return "".join(p[:1].upper() + p[1:] for p in name.split("-"))
    if "-" in name or re.search(r"[a-z0-9][A-Z]", name):
        return "_".join(w.lower() if len(w) > 1 or w.isalpha() and w.isupper() else w for w in words(name))
    return name


def files(root, ends):
    for folder, dirs, names in os.walk(os.path.join(root, "crates")):
        dirs[:] = sorted(d for d in dirs if d != "out")
        for name in sorted(names):
            if name.endswith(ends):
                yield os.path.join(folder, name)


def plain(text):
    """The text without comments."""
    return re.sub(r"(?m)--.*$", "", text)


def declared(text):
    """The names that a file declares: definitions and lemmas, and fields and constructors."""
    tops, inner, within = set(), set(), None
    for m in DECLARED.finditer(plain(text)):
        deep, kind, one, other, of = m.groups()
        if within is not None and len(deep) <= within:
            within = None
        if other is not None and re.match(r"goal\.", of or ""):
            continue
        (inner if within is not None else tops).add(one or other)
        if kind:
            within = len(deep)
    return tops, inner


def imported(text, own):
    """Names that a file imports from a crate of this repository, by their name there; and those from elsewhere."""
    ours, others = {}, set()
    for path, items in USE.findall(text):
        parts = [p for p in path.split(".") if p]
        mine = len(parts) > 1 and parts[0] == "Rattle" and parts[1] in own
        for item in items.split(","):
            m = re.match(r"\s*(\S+)(?:\s+as\s+(\S+))?\s*$", item)
            if not m:
                continue
            if mine:
                ours[m.group(1)] = m.group(2)
            else:
                others.add(m.group(2) or m.group(1))
    return ours, others


def main(argv):
    own = {c for c in os.listdir("crates") if os.path.isdir(os.path.join("crates", c))}
    texts = {p: open(p, encoding="utf-8").read() for p in files(".", (".antt", ".rt"))}
    tops, inner = set(), set()
    for p, t in texts.items():
        if p.endswith(".antt"):
            a, b = declared(t)
            tops |= a
            inner |= b
    rust = set()
    for p, t in texts.items():
        if p.endswith(".rt"):
            rust |= set(re.findall(r"\b(?:fn|mod|const|struct|enum|trait|ghost) ([A-Za-z_][A-Za-z_0-9]*)", t))
            rust |= set(re.findall(r"(?m)^\s*(?:pub )?([a-z_][a-z_0-9]*):", t))
    new = {}
    for name in sorted(tops | inner):
        to = CHOSEN.get(name, respelled(name))
        if to != name:
            new[name] = to
    taken = collections.defaultdict(set)
    for name in tops | inner:
        taken[new.get(name, name)].add(name)
    clash = {to: froms for to, froms in taken.items() if len(froms) > 1}
    for to, froms in sorted(clash.items()):
        lemmas = sorted(f for f in froms if "-" in f)
        keep = sorted(f for f in froms if "-" not in f)
        if len(lemmas) == 1 and keep:
            new[lemmas[0]] = to + "_lem"
        if "--list" in argv:
            print("falls together:", to, sorted(froms), "->", {f: new.get(f, f) for f in froms})
    if "--list" in argv:
        for name, to in sorted(new.items()):
            if to in rust:
                print("as in src/:", name, to)
    changed = 0
    for p, t in texts.items():
        ours, others = imported(t, own)
        mine = set(tops_of(p, t)) if p.endswith(".antt") else set()
        scope = {n for n in new if n in mine or n in ours}
        fields = {n for n in new if n in inner}
        before = {m for m in TOKEN.findall(t)}
        for n in sorted(scope | fields):
            if n in before and new[n] in before and "--list" in argv:
                print("already a name in", p, ":", n, new[n])
        out, last, word = [], "", ""
        pieces = TOKEN.findall(t)
        for i, w in enumerate(pieces):
            core = w.strip("`'\"")
            if core in new:
                dotted = i > 0 and pieces[i - 1] == "." and i > 1 and pieces[i - 2].strip() != ""
                if core in others and not dotted:
                    pass
                elif dotted:
                    left = pieces[i - 2]
                    if core in inner or (left[0].isupper() and left not in ("Goals", "Given")):
                        w = w.replace(core, new[core])
                elif core in scope or core in fields:
                    w = w.replace(core, new[core])
            out.append(w)
        made = "".join(out)
        if p.endswith(".rt"):
            # strings keep their words
            a, b = re.findall(r'"(?:[^"\\\n]|\\.)*"', t), re.findall(r'"(?:[^"\\\n]|\\.)*"', made)
            if a != b:
                print("look: a string changed in", p)
        if made != t:
            changed += 1
            if "--list" not in argv:
                with open(p, "w", encoding="utf-8") as f:
                    f.write(made)
    print(f"respell: {len(new)} names, {changed} files")
    if "--list" in argv:
        for name, to in sorted(new.items()):
            print(name, to)
    return 0


def tops_of(path, text):
    a, b = declared(text)
    return set(a) | b


if __name__ == "__main__":
    raise SystemExit(main(sys.argv[1:]))
