#!/usr/bin/env python3
"""Respells the repository's own definitions, lemmas, fields and variables in snake case, as the installed Rattle's libraries do.

usage: python3 tools/respell.py [--list]      at the top of the repository

A name with dashes or in mixed case turns if it is declared or bound in this repository and comes from no library. Names that Rattle
makes for proofs (goals, loops, steps) stay, and so do types, modules, functions of src/, strings, inputs and outputs. --list only prints
the table, and the names that would fall together.
"""
import collections
import glob
import re
import sys

NAME = r"[^\s(){}.;,@\"«»\[\]|\\]+"
QUIET = re.compile(r'"(?:[^"\\\n]|\\.)*"|(?<![^\s(){}.;,@"«»])--[^\n]*|//[^\n]*')
MADE = re.compile(r"^(Need|After|Else|Then|Start|returns|loop|invariant|decreases|overflow|index|If|Lts|cast|div|rem|range|shr|shl)(-|$)"
                  r"|-(requires|again|spec|preserved|bounds|smaller|holds)(-\d+)?$")
OWN_USE = re.compile(r"\buse (Rattle\.([a-z_0-9]+)\.[\w.+]*)\.\{([^}]*)\}", re.S)
ANY_USE = re.compile(r"\buse ([\w.+·]+)\.\{([^}]*)\}", re.S)
DECLARED = re.compile(r"(?m)^\s*(?:(?:pub|abbrev|unfoldable|pattern|record|data) )*(%s(?: %s)*)(?: \{[^{}\n]*\})* :(?=\s)" % (NAME, NAME))
BOUND = re.compile(r"[({]((?:%s )+): |\blet (%s) |λ ((?:%s ?)+)\.|\((?:λ )?(%s(?:, %s)+)\) =" % (NAME, NAME, NAME, NAME, NAME))
ANY = re.compile(NAME)
# Words of the library within names of ours, in its spelling.
PARTS = [("toZ", "to_z"), ("ofZ", "of_z"), ("eqZ", "eq_z"), ("leZ", "le_z"), ("ltZ", "lt_z"), ("getD", "get_or"), ("isNull", "is_null")]


def files():
    return sorted(p for e in ("antt", "rt") for p in glob.glob("crates/**/*." + e, recursive=True) if "/out/" not in p)


def crates():
    return {p.split("/")[1] for p in glob.glob("crates/*/src")}


def code_of(text):
    return QUIET.sub(lambda m: " " * len(m[0]), text)


def snake(name):
    if re.search(r"(^|-)[^\w'-]+(-|$)", name) and not re.search(r"[A-Za-z]{2}", name):
        return name                                     # a name of operators alone
    for old, new in PARTS:
        name = re.sub(r"(?<![a-z])%s(?![a-z])" % old, new, name)
    words = re.sub(r"(?<=[a-z0-9])([A-Z])(?=[a-z])", lambda m: "_" + m[1].lower(), name) if name[:1].islower() else name
    return words.replace("-", "_")


def table():
    own, library = set(), set()
    mine = crates()
    for p in files():
        code = code_of(open(p, encoding="utf-8").read())
        for m in ANY_USE.finditer(code):
            head = m[1].split(".")
            if head[0] != "Rattle" or len(head) < 2 or head[1] not in mine:
                library |= {w.split(" as ")[0].strip() for w in m[2].split(",")}
                own |= {w.split(" as ")[1].strip() for w in m[2].split(",") if " as " in w}
            else:
                own |= {w.split(" as ")[1].strip() for w in m[2].split(",") if " as " in w}
        if not p.endswith(".antt"):
            continue
        for m in DECLARED.finditer(code):
            own |= set(m[1].split())
        for m in BOUND.finditer(code):
            for g in m.groups():
                own |= set(re.split(r"[ ,]+", g)) if g else set()
        # the variables of a definition by cases
        for m in re.finditer(r"(?m)^\s*(%s) ([^=\n:]*?) =(?=\s)" % NAME, code):
            own |= set(ANY.findall(m[2]))
    own = {n for n in own if ("-" in n.strip("-") or re.match(r"[a-z][a-z0-9]*[A-Z][a-z]", n)) and n not in library
           and re.search(r"[A-Za-z]", n) and not MADE.search(n) and not n.startswith("-")}
    return {n: snake(n) for n in own if snake(n) != n}


def together(rows):
    """Names of one file that would be one name."""
    for p in files():
        code = code_of(open(p, encoding="utf-8").read())
        seen = collections.defaultdict(set)
        for w in ANY.findall(code):
            seen[rows.get(w, w)].add(w)
        for new, olds in seen.items():
            if len(olds) > 1:
                yield p, new, sorted(olds)


def turned(text, rows, rt):
    def word(m):
        return rows.get(m[0], m[0])

    out, at = [], 0
    for m in QUIET.finditer(text):
        out += [ANY.sub(word, text[at:m.start()]), comment(m[0], rows)]
        at = m.end()
    return "".join(out + [ANY.sub(word, text[at:])])


def comment(text, rows):
    """A list of names at the head of a file, and code in a comment."""
    if text.startswith('"'):
        return text
    if re.match(r"--   \S", text):
        return re.sub(r"(?<![\w-])[\w₀-₉ℤℚ→≤<'*+-]+", lambda m: rows.get(m[0], m[0]) if m[0] in rows else m[0], text)
    return re.sub(r"`[^`]*`", lambda m: ANY.sub(lambda w: rows.get(w[0], w[0]), m[0].strip("`")).join("``"), text)


def main():
    rows = table()
    if "--list" in sys.argv:
        for a, b in sorted(rows.items()):
            print(a, b)
        for p, new, olds in together(rows):
            print("together:", p, new, *olds)
        return
    for p in files():
        text = open(p, encoding="utf-8").read()
        new = turned(text, rows, p.endswith(".rt"))
        if new != text:
            open(p, "w", encoding="utf-8").write(new)


if __name__ == "__main__":
    main()
