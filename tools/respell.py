#!/usr/bin/env python3
"""Brings the repository's own names to the spelling of its words: `wordOf-nonneg` becomes `word_of-nonneg`.

usage: tools/respell.py        at the top of the repository, once, after the kit's port.py
       tools/respell.py --try  writes nothing, and says which names would fall together

A definition, a lemma and a variable of specs/, proofs/ and of a clause is in snake case. A dash still joins the parts of a lemma's name.
Types and modules keep their capital. What it reads: crates/*/specs, crates/*/proofs, the clauses and comments of crates/*/src, the
must-fail edits, and in README, CONTRIBUTING and docs/ (docs/landings aside) what stands between backquotes.
"""
import glob
import re
import sys

WORD = re.compile(r"[A-Za-z_][A-Za-z0-9_'\-₀-₉]*")
STRING = re.compile(r'b?"(?:[^"\\]|\\.)*"')
# The library's own spelling where a name begins with one of its words.
FIRST = {"getD": "get_or", "eqZ": "eq_z", "ltZ": "lt_z"}
# Names with a middle dot, which port.py made from the library's.
DOTTED = {
    "Memᴰ as List-as-Memᴰ": "Memᴰ",
    "get_or-append as List·getD-append": "get_or-append",
    "get_or-eq_default as List·getD-eq-default": "get_or-eq_default",
    "List-as-Memᴰ": "Memᴰ",
    "List·Memᴰ·head": "mem-head",
    "List·Memᴰ·tail": "mem-tail",
    "List·Memᴰ·not-nil": "mem-not_nil",
    "List·Memᴰ·append-cases": "mem-append_cases",
    "List·Memᴰ·eq-of-singleton": "mem-of_singleton",
    "List·Memᴰ·cases-cons": "mem-cases_cons",
    "Memᴰ·append-left": "mem-append_left",
    "Memᴰ·append-right": "mem-append_right",
    "Memᴰ·map": "mem-map",
    "Memᴰ·of-map": "mem-of_map",
    "List·getD-append": "get_or-append",
    "List·getD-eq-default": "get_or-eq_default",
}
# Lemmas that would fall together with the definition that they speak of: these keep the dash that they had.
APART = {
    "in_cell": ("in-cell", ("crates/tell/",)),
    "joins_of": ("joins-of", ("crates/tell/",)),
    "stands_by": ("stands-by", ("crates/held/",)),
    "pair_row": ("pair-row", ("crates/tally/", "crates/row_tally/")),
}


def snake(name):
    if not re.match(r"[a-z]", name):
        return name
    parts = []
    for part in name.split("-"):
        if part and part[0].islower():
            part = FIRST.get(part, part)
            part = re.sub(r"([a-z0-9₀-₉])([A-Z])(?![a-z]*ᴰ)", lambda m: m.group(1) + "_" + m.group(2).lower(), part)
        parts.append(part)
    return "-".join(parts)


def turned(text):
    return WORD.sub(lambda m: snake(m.group(0)), text)


def apart(path, text):
    """A proof file before it is turned: no middle dots, and the lemmas that keep their dash."""
    for old, new in DOTTED.items():
        text = text.replace(old, new)
    for old, (new, where) in APART.items():
        if path.startswith(where):
            text = re.sub(r"(?<![\w.'-])" + old + r"(?![\w'-])", new, text)
    return text


def turned_code(text):
    """A source file: all but its strings. (Rattle's own names have no capital inside a word that begins small.)"""
    out, at = [], 0
    for m in STRING.finditer(text):
        out += [turned(text[at : m.start()]), m.group(0)]
        at = m.end()
    return "".join(out + [turned(text[at:])])


def turned_page(text, known):
    """A page: the names of specs/ and proofs/ between backquotes."""
    inside = lambda m: WORD.sub(lambda w: snake(w.group(0)) if w.group(0) in known else w.group(0), m.group(0))
    return re.sub(r"`[^`\n]*`", inside, text)


def files(*patterns):
    return sorted({f for p in patterns for f in glob.glob(p, recursive=True) if "/out/" not in f})


def main():
    dry = sys.argv[1:] == ["--try"]
    proofs = files("crates/*/specs/**/*.antt", "crates/*/proofs/**/*.antt")
    code = files("crates/*/src/**/*.rt")
    edits = files("crates/*/must-fail/*.edit")
    pages = [f for f in files("*.md", "docs/**/*.md") if not f.startswith(("docs/landings", "docs/PORT", "CHANGELOG"))]
    known = set()
    for f in proofs:
        with open(f, encoding="utf-8") as it:
            words = set(WORD.findall(apart(f, it.read())))
        known |= words
        new = {}
        for w in sorted(words):
            new.setdefault(snake(w), []).append(w)
        for n, olds in new.items():
            if len(olds) > 1:
                print(f"fall together: {f}: {', '.join(olds)} are {n}")
    if dry:
        return
    for f in proofs + code + edits + pages:
        with open(f, encoding="utf-8") as it:
            text = it.read()
        before = apart(f, text) if f.endswith(".antt") else text
        now = turned(before) if f.endswith((".antt", ".edit")) else turned_code(before) if f.endswith(".rt") else turned_page(before, known)
        if now != text:
            with open(f, "w", encoding="utf-8") as it:
                it.write(now)


if __name__ == "__main__":
    main()
