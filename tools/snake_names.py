#!/usr/bin/env python3
"""Brings the names of this repository's own definitions and lemmas to Rattle's spelling.

usage: python3 tools/snake_names.py [--list]      at the top of the repository, once, right after port.py

Words (functions, lemmas, constructors, fields) are in snake case, facts and types in camel case: symOf becomes sym_of,
after-same after_same, Faults-refuse FaultsRefuse. Names that Rattle makes (goals, invariants, steps of a proof) keep
their dashes, names of the library stay, and so do functions of src/, strings and all that programs read and print.
Where two names would fall together, OWN says what one of them is called instead. --list prints the table and writes nothing.
"""
import os
import re
import sys

TOKEN = re.compile(r"[^\s(){}\[\],;:.\"`←λ⌜⌝]+")
# A definition of these crates has the name of a lemma of others.
THERE = {c: {"formals-of": "procedure_formals", "to-index": "to_index"} for c in ("program", "meaning", "machine", "worked")}
DECLARED = re.compile(r"\s*(?:abbrev |unfoldable )?(?:pub )?(?:record |data )?([^\s:(){},.;]+)\s+(?:\{[^}]*\}\s*|\([^)]*\)\s*)*:")
# Several constructors of one type, on one line.
SEVERAL = re.compile(r"  +((?!let |pub |module |abbrev |unfoldable )[^\s:(){},.;=→]+(?: [^\s:(){},.;=→]+)+) :")
# Where the plain spelling is taken: by a function of the crate, or by another definition.
OWN = {
    "isMark": "sym_is_mark",
    "isWord": "sym_is_word",
    "isName": "sym_is_name",
    "isEnding": "sym_is_ending",
    "characterValue": "character_value_of",
    "numberValue": "number_value_of",
    "digitsValue": "digits_value_of",
    "ordinalValue": "ordinal_value_of",
    "quotedValue": "quoted_value_of",
    "typeExpr": "type_expr_of",
    "goesOn": "next_place",
    "cell-of": "cell_of_name",
    # a fact and lemmas, which port.py had in snake case already
    "Goes_on": "GoesOn",
    "name_in": "name_in_lem",
    "number-in": "number_in_lem",
    "with_cell": "with_cell_lem",
}
# What stands behind a dot in a proof and is a name that Rattle made: left as it is, and told at the end.
KEPT = []


def folders(root, ends):
    for folder, dirs, files in os.walk(root):
        dirs[:] = sorted(d for d in dirs if d not in ("out", ".git"))
        for f in sorted(files):
            if f.endswith(ends):
                yield os.path.join(folder, f)


def read(path):
    with open(path, encoding="utf-8") as f:
        return f.read()


def turned(name):
    if name in OWN:
        return OWN[name]
    if name[0].isupper():
        return re.sub(r"-([a-z0-9])", lambda m: m.group(1).upper(), name)
    name = re.sub(r"(?<=[a-z0-9])([A-Z])", lambda m: "_" + m.group(1).lower(), name)
    return name.replace("-", "_")


def answers(path):
    return os.path.basename(path) in ("Answers.antt", "Invariants.antt", "Choices.antt", "Proof.antt")


def own_names():
    """The table from old to new, the names that Rattle makes, those taken from the library, and all words that occur."""
    declared, made, library = set(), set(), set()
    for path in folders("crates", ".antt"):
        text = read(path)
        for line in text.splitlines():
            m = DECLARED.match(line)
            several = SEVERAL.match(line)
            for name in several.group(1).split() if several else [m.group(1)] if m else []:
                if answers(path) and re.search(r":\s*(goal|given|need)\.", line):
                    made.add(name)
                else:
                    declared.add(name)
        for m in re.finditer(r"use (?:Rattle\.std|borrow|denote|mathlib|native|lib|Prim|Rattle\.core)[\w.'+-]*\.\{([^}]*)\}", text):
            library |= {n.strip().split(" as ")[0] for n in m.group(1).split(",")}
    odd = {n for n in declared if re.match(r"[a-z]", n) and re.search(r"[A-Z]|[a-z0-9]-[a-z0-9]", n)}
    odd |= {n for n in declared if re.match(r"[A-Z]\w*-", n)}
    odd |= {n for n in OWN if n in declared}
    table = {n: turned(n) for n in sorted(odd)}
    # A lemma that would have its function's or its definition's name ends in _lem.
    words = set()
    for path in folders("crates", (".antt", ".rt")):
        words |= set(TOKEN.findall(read(path)))
    for n in table:
        if n not in OWN and n[0].islower() and "-" in n:
            if table[n] in words or any(m != n and table[m] == table[n] for m in table):
                table[n] += "_lem"
    return table, made, library, words


def rewritten(path, text, table):
    """The text with its names turned: all in code, between backticks in prose, none in strings of sources."""
    there = THERE.get(path.split(os.sep)[1] if path.startswith("crates") else "", {})
    edit = path.endswith(".edit")
    source = path.endswith(".rt")

    def name(m):
        old = m.group(0)
        if old not in table:
            return old
        before = m.string[: m.start()]
        if answers(path) and before.endswith("."):
            head = re.search(r"([^\s(){}\[\],;]*)\.$", before).group(1)
            if head.split(".")[0] in ("c", "l", "w", "goal", "given", "need"):
                KEPT.append(f"{path}: {head}.{old}")
                return old
        return there.get(old, table[old])

    def plain(m):
        """In prose a word with a dash may be English, so only names that show themselves are turned."""
        return table.get(m.group(0), m.group(0)) if re.search(r"[a-z][A-Z]", m.group(0)) else m.group(0)

    def marked(part):
        """Prose, with names between backticks."""
        pieces = part.split("`")
        return "`".join(TOKEN.sub(name if i % 2 else plain, p) for i, p in enumerate(pieces))

    if path.endswith(".md"):
        return marked(text)
    lines = []
    for line in text.split("\n"):
        at = None if edit else re.search(r"(?:^|\s)(--|//)(?:\s|$)", line)
        code, comment = (line[: at.start(1)], line[at.start(1) :]) if at else (line, "")
        if source:
            parts = re.split(r'("(?:[^"\\]|\\.)*")', code)
            code = "".join(p if p.startswith('"') else TOKEN.sub(name, p) for p in parts)
        else:
            code = TOKEN.sub(name, code)
        lines.append(code + marked(comment))
    return "\n".join(lines)


def main(argv):
    table, made, library, words = own_names()
    new = {}
    for old, to in table.items():
        new.setdefault(to, []).append(old)
    for to, olds in new.items():
        if len(olds) > 1:
            print("fall together:", to, olds)
        if to in words:
            print("taken:", to, olds)
    for n in table:
        if n in library:
            print("of the library too:", n)
        if n in made:
            print("made by Rattle too:", n)
    if argv == ["--list"]:
        for old, to in table.items():
            print(old, to)
        return 0
    n = 0
    for path in [*folders("crates", (".antt", ".rt", ".edit")), *folders("docs", ".md"), "README.md"]:
        text = read(path)
        out = rewritten(path, text, table)
        if out != text:
            with open(path, "w", encoding="utf-8") as f:
                f.write(out)
            n += 1
    print("\n".join(KEPT))
    print(f"{len(table)} names, {n} files")
    return 0


if __name__ == "__main__":
    raise SystemExit(main(sys.argv[1:]))
