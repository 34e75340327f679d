#!/usr/bin/env python3
"""Spells the repository's own names as today's Rattle does: words and lemmas in snake case.

usage: tools/respell/respell.py --make     writes names.tsv beside this file: each old name, a tab, the new one
       tools/respell/respell.py [FOLDER]   turns the names of names.tsv in FOLDER, or else in this repository

Run it once, after port.py: the rows of one file alone would turn again. A name that a file of specs/ or proofs/ declares loses its
humps and dashes: soundIn becomes sound_in, length-bytes becomes length_bytes. Types, facts and modules keep their capitals. Where a
lemma would get the name of a definition it gets _lem at its end; a third word on a row of names.tsv is the one file where the row
holds. Functions of src/, exported names, strings, inputs and outputs are left alone.
"""

import collections
import pathlib
import re
import sys

HERE = pathlib.Path(__file__).resolve().parent
NAMES = HERE / "names.tsv"
WORD = re.compile(r'[^\s(){}.;,@"«»`]+')
QUIET = re.compile(r'"(?:[^"\\\n]|\\.)*"|(?<![^\s(){}.;,@"«»])--[^\n]*|\{-.*?-\}', re.S)
RUST_QUIET = re.compile(r'"(?:[^"\\\n]|\\.)*"|//[^\n]*', re.S)
SPAN = re.compile(r"`[^`\n]+`")
DECLARED = re.compile(r"(?m)^\s*(?:(?:pub|abbrev|unfoldable) )*((?:[\w'-]+ )+)(?:\{[^{}\n]*\} )*:(?=[ \n])")
# what a function's own proof file declares is named after what Rattle makes
OF_A_FUNCTION = ("Proof.antt", "Answers.antt", "Invariants.antt")


def snake(name):
    return re.sub(r"(?<=[a-z0-9])[A-Z]", lambda m: "_" + m[0].lower(), name).replace("-", "_")


def of_a_function(path):
    return path.name in OF_A_FUNCTION and "specs" not in path.parts


def files(root, *kinds):
    for kind in kinds:
        for path in sorted((root / "crates").rglob("*" + kind)):
            if "out" not in path.relative_to(root).parts:
                yield path


def make(root):
    declared, tokens = collections.defaultdict(set), collections.defaultdict(set)
    for path in files(root, ".antt"):
        code = QUIET.sub(" ", path.read_text(encoding="utf-8"))
        if not of_a_function(path):
            for names in DECLARED.findall(code):
                for name in names.split():
                    declared[name].add(path)
        if not of_a_function(path):
            for name in WORD.findall(code):
                tokens[name].add(path)
        for name in re.findall(r"\bas ([a-z][\w-]*)", code):
            declared[name].add(path)
    old = sorted(n for n in declared if n[0].islower() and snake(n) != n)
    humps = {snake(n) for n in old if "-" not in n}
    table, taken, alone = {}, collections.Counter(), []
    for name in sorted(old, key=lambda n: ("-" in n, n)):
        new = snake(name)
        if "-" in name and (new in humps or new in tokens):
            new += "_lem"
        else:
            alone += [(new, p.relative_to(root)) for p in tokens[new] & tokens[name] & declared[new]]
            for path in tokens[new] & tokens[name] - declared[new]:
                print(f"look: {name} becomes {new}, which stands in {path}")
        table[name] = new
        taken[new] += 1
    for name, new in table.items():
        if taken[new] > 1:
            print(f"look: {name} becomes {new}, and so does another")
    rows = [f"{o}\t{n}\n" for o, n in sorted(table.items())] + [f"{o}\t{o}_lem\t{p}\n" for o, p in sorted(alone)]
    NAMES.write_text("".join(rows), encoding="utf-8")
    print(f"{len(table)} names")


def turned(table, text, may=lambda w: True):
    return WORD.sub(lambda m: table[m[0]] if m[0] in table and may(m[0]) else m[0], text)


def between(pattern, text, inside, outside):
    out, at = [], 0
    for m in pattern.finditer(text):
        out += [outside(text[at : m.start()]), inside(m[0])]
        at = m.end()
    return "".join(out + [outside(text[at:])])


def turn(root):
    rows = [line.split("\t") for line in NAMES.read_text(encoding="utf-8").splitlines()]
    table, alone = {r[0]: r[1] for r in rows if len(r) == 2}, collections.defaultdict(dict)
    for old, new, path in (r for r in rows if len(r) == 3):
        alone[path][old] = new
    changed = 0

    def write(path, old, new):
        nonlocal changed
        if new != old:
            path.write_text(new, encoding="utf-8")
            changed += 1

    def hump(w):
        return "-" not in w

    for path in files(root, ".antt"):
        text = path.read_text(encoding="utf-8")
        used = set(WORD.findall(QUIET.sub(" ", text)))
        comment = lambda w: hump(w) or w in used
        quiet = lambda t: t if t[0] == '"' else turned(table, t, comment)
        here = table | alone[str(path.relative_to(root))]
        write(path, text, between(QUIET, text, quiet, lambda t: turned(here, t)))
    for path in files(root, ".rt"):
        text = path.read_text(encoding="utf-8")
        quiet = lambda t: t if t[0] == '"' else turned(table, t, hump)
        write(path, text, between(RUST_QUIET, text, quiet, lambda t: turned(table, t)))
    for path in files(root, ".edit"):
        lines = path.read_text(encoding="utf-8").split("\n")
        new = [turned(table, l) if re.match(r"(?:old|new): ?", l) else turned(table, l, hump) for l in lines]
        write(path, "\n".join(lines), "\n".join(new))
    for path in sorted(root.glob("*.md")) + sorted((root / "docs").rglob("*.md")):
        text = path.read_text(encoding="utf-8")
        write(path, text, SPAN.sub(lambda m: turned(table, m[0]), text))
    print(f"{changed} files changed")


if __name__ == "__main__":
    if sys.argv[1:] == ["--make"]:
        make(HERE.parent.parent)
    else:
        turn(pathlib.Path(sys.argv[1]) if sys.argv[1:] else HERE.parent.parent)
