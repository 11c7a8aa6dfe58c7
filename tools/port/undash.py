#!/usr/bin/env python3
"""Respells the names of this repository that still join plain words with a dash, once, after respell.py: `other-ports` becomes `other_ports`.

usage: python3 tools/port/undash.py            at the top of the repository
       python3 tools/port/undash.py --list     the names, old and new; nothing is written

A name is respelled if a file specs/NAME.antt or proofs/NAME.antt defines it, as a definition, a lemma, a field or a constructor. A dash of a
lemma stays where it joins two names, as in `drop-replicate`: where the word before it and the word after it are each a definition of the
repository or of the library. Where the new name is that of a definition, or a lemma's is that of a function, it gets `_lem`. Names that Rattle
makes and names of the library keep their dashes.
"""
import os
import re
import sys

sys.dont_write_bytecode = True
from respell import NAME, files, read

DEFINED = re.compile(r"^( *)((?:abbrev |unfoldable )*)(?:pub )?([a-z][\w'-]*) :(?= |$)", re.M)
IMPORTED = re.compile(r"^use ([\w.·+-]+)\.\{([^}]*)\}", re.M)
FUNCTION = re.compile(r"^\s*(?:pub )?(?:extern \"C\" )?fn (\w+)", re.M)
LEMMAS = re.compile(r"/proofs/[A-Z]\w*\.antt$")
SPECS = re.compile(r"/specs/[A-Z]\w*\.antt$")

# What the library defines, of the words that begin or end a lemma's name here.
LIBRARY = {"length", "take", "drop", "append", "replicate", "map", "set", "get_or", "min", "max", "not", "cond", "sum", "sub", "add", "mul"}

# In a comment, a page or a string only what stands in backticks is code; a string of a program stays.
QUOTED = re.compile(r"`[^`\n]*`")
APART = {".antt": re.compile(r"--.*"), ".rt": re.compile(r"//.*|b?\"(?:[^\"\\]|\\.)*\""), ".md": re.compile(r".+")}

PAGES = ["docs/ARCHITECTURE.md", "docs/CHANGING.md", "docs/DECISIONS.md", "docs/PROMISES.md", "docs/READING.md", "docs/SPEED.md", "README.md",
         "tests/constants_table.py", "tests/pins_planted.py", "tests/pins.py"]


def renamed(names, definitions, taken, functions):
    """The new name of each: a lemma's dash between two definitions stays, and a name that is taken is left to what has it."""
    new = {}
    for name, field in names.items():
        parts = name.split("-")
        told = parts[0]
        for before, after in zip(parts, parts[1:]):
            joins = not field and before in definitions and after in definitions
            told += ("-" if joins else "_") + after
        if told != name:
            new[name] = told + "_lem" if told in taken or (not field and told in functions) else told
    return new


def turned(path, text, turn):
    """The text with each name of its code turned."""
    def code(part):
        return NAME.sub(turn, part)

    apart = APART.get(os.path.splitext(path)[1])
    if apart is None:
        return code(text)
    told, at = "", 0
    for m in apart.finditer(text):
        kept = m.group() if m.group().endswith('"') else QUOTED.sub(lambda q: code(q.group()), m.group())
        told += code(text[at:m.start()]) + kept
        at = m.end()
    return told + code(text[at:])


def main(argv):
    own = {c for c in os.listdir("crates")}
    names, definitions, foreign, taken, functions = {}, set(LIBRARY), set(), set(), set()
    for path in files():
        text = read(path)
        for module, items in IMPORTED.findall(text):
            words = module.split(".")
            if not (words[0] == "Rattle" and words[1] in own):
                foreign |= {i.split(" as ")[0].strip() for i in items.split(",")}
        if path.endswith(".rt"):
            functions |= set(FUNCTION.findall(text))
        if not (SPECS.search(path) or LEMMAS.search(path)):
            continue
        for indent, mark, name in DEFINED.findall(text):
            if "-" in name:
                field = bool(indent) or bool(SPECS.search(path))
                names[name] = names.get(name, False) or field
            else:
                taken.add(name)
                if mark and not indent:
                    definitions.add(name)
    for name in sorted(set(names) & foreign):
        print("of the library too, left alone:", name)
        del names[name]
    new = renamed(names, definitions, taken, functions)
    if argv == ["--list"]:
        for n in sorted(new):
            print(n, new[n])
        return 0
    count = 0
    for path in list(files()) + PAGES:
        text = read(path)
        made = path.endswith(("Answers.antt", "Invariants.antt"))

        def turn(m):
            return m.group() if made and m.string[:m.start()].endswith("c.") else new.get(m.group(), m.group())

        told = turned(path, text, turn)
        if told != text:
            with open(path, "w", encoding="utf-8") as f:
                f.write(told)
            count += 1
    print(f"{len(new)} names, {count} files")
    return 0


if __name__ == "__main__":
    raise SystemExit(main(sys.argv[1:]))
