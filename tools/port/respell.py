#!/usr/bin/env python3
"""Respells the definitions and lemmas of this repository in snake case, once, after port.py: `payloadOf` becomes `payload_of`.

usage: python3 tools/port/respell.py            at the top of the repository, right after port.py
       python3 tools/port/respell.py --list     the names, old and new; nothing is written

A name is respelled if a file of specs/ or proofs/ defines it, as a definition, a lemma, a field or a constructor, and it has a capital
inside a word that begins small. What src/ names keeps its spelling: it was in snake case before. Where the new name would fall together
with another of the same file, that other, a lemma or a field, gets `_lem` first (TOGETHER).
"""
import os
import re
import sys

NAME = re.compile(r"[^\W\d][\w'-]*")
CAMEL = re.compile(r"^[a-z]\w*[a-z0-9][A-Z]|^[a-z][A-Z]|-[a-z]+[A-Z]")
DEFINED = re.compile(r"^\s*(?:abbrev |unfoldable )?(?:pub )?([a-z][\w'-]*) :", re.M)

# Names that are given where they are imported (`as`), and so are defined nowhere.
GIVEN = ["writtenBytes", "kindTagged", "isCompletes"]

# Lemmas and fields whose names the respelled definition would take: the file of each, and the name.
TOGETHER = [
    ("crates/replay/proofs/Replays.antt", "by_value"),
    ("crates/translator/proofs/Kept.antt", "clear_at"),
    ("crates/runs/proofs/OrderRefuted.antt", "first_alone"),
    ("crates/runs/specs/OrderMistakes.antt", "first_alone"),
    ("crates/isolation/proofs/Cases.antt", "high_byte"),
    ("crates/isolation/specs/Cases.antt", "high_byte"),
    ("crates/grimholdi/proofs/Refuted.antt", "no_length"),
    ("crates/grimholdi/specs/Mistakes.antt", "no_length"),
    ("crates/isolation/proofs/Refuted.antt", "reads_first"),
    ("crates/isolation/specs/Disturbances.antt", "reads_first"),
    ("crates/grimholdi_replay/proofs/Entry.antt", "written_over"),
    ("crates/grimholdi_replay/proofs/Kept.antt", "written_over"),
]

# Pages and tables that name them; docs/LANDINGS.md is a log, and keeps the names of its day.
PAGES = ["docs/ARCHITECTURE.md", "docs/CHANGING.md", "docs/DECISIONS.md", "docs/PROMISES.md", "docs/READING.md", "README.md",
         "tests/constants_table.py", "tests/pins_planted.py"]


def snake(part):
    part = re.sub(r"(?<=[a-z0-9'])([A-Z])(?=[a-z0-9'_]|$)", lambda m: "_" + m.group(1).lower(), part)
    return re.sub(r"(?<=[a-z0-9])([A-Z]{2,})", lambda m: "_" + m.group(1).lower(), part)


def respelled(name):
    return "-".join(snake(p) if p[:1].islower() else p for p in name.split("-"))


def files():
    for folder, dirs, names in os.walk("crates"):
        dirs[:] = sorted(d for d in dirs if d != "out")
        for name in sorted(names):
            if name.endswith((".antt", ".rt")):
                yield os.path.join(folder, name)


def read(path):
    with open(path, encoding="utf-8") as f:
        return f.read()


def main(argv):
    names = set(GIVEN)
    for path in files():
        if path.endswith(".antt"):
            names |= {n for n in DEFINED.findall(read(path)) if CAMEL.search(n)}
    new = {n: respelled(n) for n in names}
    if argv == ["--list"]:
        for n in sorted(new):
            print(n, new[n])
        return 0
    moved = {}
    for path, name in TOGETHER:
        moved.setdefault(path, {})[name] = name + "_lem"
    count = 0
    for path in list(files()) + PAGES:
        text = read(path)
        away = moved.get(path, {})
        told = NAME.sub(lambda m: away.get(m.group(), m.group()), text)
        told = NAME.sub(lambda m: new.get(m.group(), m.group()), told)
        if told != text:
            with open(path, "w", encoding="utf-8") as f:
                f.write(told)
            count += 1
    print(f"{len(new)} names, {count} files")
    return 0


if __name__ == "__main__":
    raise SystemExit(main(sys.argv[1:]))
