#!/usr/bin/env python3
"""Compares the claims of docs/PROMISES.md with the functions that ensure them.

pins.py              says what is missing, and fails then
pins.py --table      prints the table "Pinned claims" from the code
pins.py --self-test  plants faults and fails unless each is found

A pin is a function of crates/*/src with an empty body and the contract
    ensures { CLAIM }
alone: it proves the claim and does nothing else.  Or it hands out a constant,
takes and requires nothing, and its contract is that alone, where CLAIM names
its `result`.  Demanded is that
- the table has a row for each pin, with exactly its statement, and no other;
- the claim is explained: a line elsewhere in docs/PROMISES.md names it and
  its crate;
- what docs/PROMISES.md names in backticks, `Claim` or `Claim.field` (and
  `.field` behind it), is in specs/, and a pin reaches it;
- the claim is defined in the specs/ that the pin's file imports it from;
- every capitalised definition in specs/ is reached from a contract.  One that
  takes nothing, so that it is a whole claim, has to be reached from a pin or
  from what another function ensures; a `requires` shows nothing of it;
- every public function has an `ensures`;
- a crate NAME_c, which exports the functions of crate NAME to C, gives each
  the same arguments and the same clauses.

What is reached is found by names alone: a contract reaches each definition
that its text names, and a definition those that its own text names, comments
left out.  A name means the definition of the same crate, else those of the
crates below it (crates.txt).  So a claim that something mentions counts as
reached, even if it isn't stated there; one that nothing mentions does not.
"""

import os
import re
import sys
from typing import NamedTuple

sys.dont_write_bytecode = True
from pins_planted import PLANTS

ROOT = os.path.join(os.path.dirname(os.path.abspath(__file__)), "..")
PROMISES = "docs/PROMISES.md"
CRATES = "crates.txt"
HEADING = "## Pinned claims"
COLUMNS = ["| Claim | Function | Crate |", "|---|---|---|"]

FUNCTION = re.compile(r'((?:#\[[^]]*\]\s*)*)(pub\s+)?(?:extern\s+"C"\s+)?'
                      r"fn\s+(\w+)")
CLAUSE = re.compile(r"\b(requires|ensures)\b[^{]*$")
STATED = re.compile(r"(?!.*\bresult\b)([A-Z].*)")
STATED_OF_RESULT = re.compile(r"([A-Z].*\bresult\b.*)")
DEFINITION = re.compile(r"(?:pub )?(?:abbrev|unfoldable|opaque|record|data) "
                        r"(?:pub )?([^\s:]+)(.*)")
TAKES_NOTHING = re.compile(r"\s*:\s*Type \d+(?: where)?")
FIELD = re.compile(r"^ +(?:pub )?([\w'-]+) :", re.M)
WORD = re.compile(r"[^\W\d][\w'-]*")
# In backticks: a claim, a field of it, a field alone, a claim with arguments.
NAMED = re.compile(r"([A-Z]\w*[a-z]\w*)?(?:\.([\w'-]+))?(?: .*)?")


class Function(NamedTuple):
    file: str
    crate: str
    name: str
    is_public: bool
    takes: str
    requires: list
    ensures: list
    body: str


class Pin(NamedTuple):
    crate: str
    function: str
    claim: str

    def row(self):
        return "| `%s` | `%s` | `%s` |" % (self.claim, self.function,
                                           self.crate)

    def claim_name(self):
        return self.claim.split()[0]


class Definition(NamedTuple):
    file: str
    text: str
    takes_nothing: bool


# Reading the files.

def read_texts(root):
    """The files that are compared, by their paths."""
    paths = [CRATES, PROMISES]
    for crate in sorted(os.listdir(os.path.join(root, "crates"))):
        for folder, ending in (("src", ".rt"), ("specs", ".antt")):
            inside = os.path.join("crates", crate, folder)
            if os.path.isdir(os.path.join(root, inside)):
                paths += [inside + "/" + name for name
                          in sorted(os.listdir(os.path.join(root, inside)))
                          if name.endswith(ending)]
    texts = {}
    for path in paths:
        with open(os.path.join(root, path), encoding="utf-8") as file:
            texts[path] = file.read()
    return texts


def crates_of(texts):
    """The crates in their order, each with those that it builds on."""
    lines = [line for line in texts[CRATES].splitlines()
             if ":" in line and not line.startswith("#")]
    return {line.split(":")[0].split()[0]: line.split(":")[1].split()
            for line in lines}


def in_folder(texts, crate, folder):
    start = "crates/%s/%s/" % (crate, folder)
    return [path for path in texts if path.startswith(start)]


def closing(code, opening):
    """The place behind the bracket that closes the one at `opening`."""
    pair = {"(": "()", "{": "{}"}[code[opening]]
    depth = 0
    for place in range(opening, len(code)):
        depth += (code[place] == pair[0]) - (code[place] == pair[1])
        if depth == 0:
            return place + 1
    raise ValueError("a bracket is not closed")


def functions_of(texts, crate):
    return [function for file in in_folder(texts, crate, "src")
            for function in functions_in(file, crate, texts[file])]


def functions_in(file, crate, text):
    code = re.sub(r"//[^\n]*", "", text)
    for head in FUNCTION.finditer(code):
        opening = code.index("(", head.end())
        place = closing(code, opening)
        takes = code[opening + 1:place - 1].strip()
        clauses = {"requires": [], "ensures": []}
        while True:
            brace = code.index("{", place)
            clause = CLAUSE.search(code[place:brace])
            place = closing(code, brace)
            inside = " ".join(code[brace + 1:place - 1].split())
            if clause is None:
                break
            clauses[clause.group(1)].append(inside)
        is_public = bool(head.group(2)) or "no_mangle" in head.group(1)
        yield Function(file, crate, head.group(3), is_public, takes,
                       clauses["requires"], clauses["ensures"], inside)


def definitions_of(texts, crates):
    """The definitions in specs/, by crate and name."""
    found = {}
    for crate in crates:
        for file in in_folder(texts, crate, "specs"):
            current = None
            for line in texts[file].splitlines():
                line = line.split("--")[0].rstrip()
                head = DEFINITION.match(line)
                if head:
                    current = crate, head.group(1)
                    found[current] = Definition(
                        file, "", bool(TAKES_NOTHING.fullmatch(head.group(2))))
                if current:
                    old = found[current]
                    found[current] = old._replace(
                        text=old.text + line + "\n")
    return found


def table_of(texts):
    """The table's section of docs/PROMISES.md, and the other lines."""
    section, others = [], []
    inside = False
    for line in texts[PROMISES].splitlines():
        if line.startswith("## "):
            inside = line == HEADING
        (section if inside else others).append(line)
    return section, others


# What is compared.

class Project:
    """The texts, taken apart; `faults` collects what is wrong."""

    def __init__(self, texts):
        self.texts = texts
        self.faults = []
        self.crates = crates_of(texts)
        self.functions = [function for crate in self.crates
                          for function in functions_of(texts, crate)]
        self.definitions = definitions_of(texts, self.crates)
        self.section, self.others = table_of(texts)
        self.pins = [pin for function in self.functions
                     for pin in self.pins_in(function)]
        self.pinned = self.reached([(pin.crate, pin.claim)
                                    for pin in self.pins])

    def fault(self, words, *given):
        self.faults.append(words % given)

    def pins_in(self, function):
        """The function as a pin, if it is one."""
        if function.body:
            return self.pins_of_result(function)
        if not function.ensures:
            return []
        stated = STATED.fullmatch(function.ensures[0])
        if stated is None or len(function.ensures) != 1:
            self.fault("%s: fn %s has an empty body, and its contract is not "
                       "one `ensures { CLAIM }`", function.file,
                       function.name)
            return []
        if function.requires or function.takes:
            self.fault("%s: fn %s has an empty body and takes or requires "
                       "something, so that it does not show %s",
                       function.file, function.name, stated.group(1))
            return []
        return [Pin(function.crate, function.name, stated.group(1))]

    def pins_of_result(self, function):
        if function.requires or function.takes or len(function.ensures) != 1:
            return []
        stated = STATED_OF_RESULT.fullmatch(function.ensures[0])
        return [] if stated is None else [
            Pin(function.crate, function.name, stated.group(1))]

    # Names.

    def meant(self, crate, name):
        if (crate, name) in self.definitions:
            return [(crate, name)]
        return [(below, name) for below in self.crates.get(crate, [])
                if (below, name) in self.definitions]

    def reached(self, texts):
        """The definitions that texts, each of a crate, reach by names."""
        found = set()
        texts = list(texts)
        while texts:
            crate, text = texts.pop()
            for word in set(WORD.findall(text)):
                for key in self.meant(crate, word):
                    if key not in found:
                        found.add(key)
                        texts.append((key[0], self.definitions[key].text))
        return found

    # The demands.

    def check(self):
        self.check_crates()
        self.check_rows()
        self.check_explained()
        self.check_named()
        self.check_defined()
        self.check_reached()
        self.check_ensured()
        self.check_exported()
        return self.faults

    def check_crates(self):
        for path in self.texts:
            found = re.match(r"crates/(\w+)/", path)
            if found and found.group(1) not in self.crates:
                self.fault("%s: crate %s is not in %s", path, found.group(1),
                           CRATES)

    def check_rows(self):
        rows = [line for line in self.section if line.startswith("| `")]
        due = [pin.row() for pin in self.pins]
        for pin in self.pins:
            if pin.row() not in rows:
                self.fault("%s: the table lacks `%s`, which fn %s of crate %s "
                           "ensures", PROMISES, pin.claim, pin.function,
                           pin.crate)
        for row in rows:
            if row not in due:
                self.row_fault(row)
        for row in set(rows):
            if rows.count(row) > 1:
                self.fault("%s: a row stands twice: %s", PROMISES, row)
        if rows != due and sorted(rows) == sorted(due):
            self.fault("%s: the rows are not in the order of %s and of the "
                       "functions; tests/pins.py --table prints them",
                       PROMISES, CRATES)
        if COLUMNS != [line for line in self.section
                       if line.startswith("|")][:2]:
            self.fault("%s: no table under '%s'", PROMISES, HEADING)

    def row_fault(self, row):
        """No pin has this row."""
        cells = [cell.strip(" `") for cell in row.strip("|").split("|")]
        if len(cells) != 3:
            self.fault("%s: no row of three columns: %s", PROMISES, row)
            return
        claim, name, crate = cells
        ensured = [pin.claim for pin in self.pins
                   if (pin.crate, pin.function) == (crate, name)]
        if ensured:
            self.fault("crates/%s/src: fn %s ensures `%s`; the table of %s "
                       "says `%s`", crate, name, ensured[0], PROMISES, claim)
        else:
            self.fault("crates/%s/src: no fn %s pins `%s`, as the table of "
                       "%s says", crate, name, claim, PROMISES)

    def check_explained(self):
        for pin in self.pins:
            name = re.compile("`%s[`. ]" % pin.claim_name())
            if not any(name.search(line) and "`%s`" % pin.crate in line
                       for line in self.others):
                self.fault("%s: `%s` of crate `%s` is pinned; no line outside "
                           "the table names both", PROMISES, pin.claim_name(),
                           pin.crate)

    def check_named(self):
        for line in self.others:
            keys = None
            for words in re.findall("`([^`]*)`", line):
                named = NAMED.fullmatch(words)
                if named and named.group(1):
                    keys = self.check_name(named.group(1))
                if named and named.group(2) and keys:
                    self.check_field(keys, named.group(2))

    def check_name(self, name):
        """The definitions with this name."""
        keys = [key for key in self.definitions if key[1] == name]
        if not keys:
            self.fault("%s: `%s` is in no crate's specs/", PROMISES, name)
        elif not self.pinned.intersection(keys):
            self.fault("%s: `%s` of %s is named, and no pin reaches it",
                       PROMISES, name, self.definitions[keys[0]].file)
        return keys

    def check_field(self, keys, field):
        if not any(field in FIELD.findall(self.definitions[key].text)
                   for key in keys):
            self.fault("%s: `%s.%s` is named, and `%s` in %s has no such "
                       "field", PROMISES, keys[0][1], field, keys[0][1],
                       self.definitions[keys[0]].file)

    def check_defined(self):
        for pin in self.pins:
            crate = self.imported_from(pin)
            if crate is None or (crate, pin.claim_name()) \
                    not in self.definitions:
                self.fault("crates/%s/specs: no definition of `%s`, which fn "
                           "%s of crate %s ensures", crate or pin.crate,
                           pin.claim_name(), pin.function, pin.crate)

    def imported_from(self, pin):
        """The crate whose specs/ the pin's file takes the claim from."""
        line = re.compile(r"ghost use Rattle\.(\w+)\.specs\.[\w.]*"
                          r"\.\{[^}]*\b%s\b" % pin.claim_name())
        crates = {found.group(1)
                  for file in in_folder(self.texts, pin.crate, "src")
                  for found in line.finditer(self.texts[file])}
        below = [pin.crate] + self.crates[pin.crate]
        crates.intersection_update(below)
        return crates.pop() if len(crates) == 1 else None

    def check_reached(self):
        ensured = self.reached(
            [(function.crate, text) for function in self.functions
             for text in function.ensures])
        required = self.reached(
            [(function.crate, text) for function in self.functions
             for text in function.requires])
        for key, definition in self.definitions.items():
            reached = key in self.pinned or key in ensured
            if definition.takes_nothing and not reached:
                self.fault("%s: no pin reaches `%s`, and no function ensures "
                           "it", definition.file, key[1])
            elif key[1][0].isupper() and not (reached or key in required):
                self.fault("%s: no pin reaches `%s`, and no contract names it",
                           definition.file, key[1])

    def check_ensured(self):
        for function in self.functions:
            if function.is_public and not function.ensures:
                self.fault("%s: fn %s is public and ensures nothing",
                           function.file, function.name)

    def check_exported(self):
        promised = {(function.crate + "_c", function.name): asked_of(function)
                    for function in self.functions}
        for function in self.functions:
            if function.crate.endswith("_c") and function.is_public \
                    and promised.get((function.crate, function.name)) \
                    != asked_of(function):
                self.fault("%s: fn %s has not the arguments and clauses of "
                           "crate %s's", function.file, function.name,
                           function.crate[:-2])


def asked_of(function):
    """What a function takes, requires and ensures, however it is laid out."""
    takes = " ".join(function.takes.split()).rstrip(",")
    return takes, function.requires, function.ensures


def faults_of(texts):
    return Project(texts).check()


def table(texts):
    return "\n".join(COLUMNS + [pin.row() for pin in Project(texts).pins])


# The self-test.

def self_test(texts):
    """Plants each fault in a copy of the texts; how many are not found."""
    missed = 0
    for name, plant, expected in PLANTS:
        copy = dict(texts)
        plant(copy)
        found = faults_of(copy)
        if expected not in found:
            missed += 1
            print("pins: planted: %s\n  not found: %s" % (name, expected))
            for fault in found:
                print("  found: " + fault)
    return missed


def main():
    texts = read_texts(ROOT)
    if sys.argv[1:] == ["--table"]:
        print(table(texts))
        return 0
    if sys.argv[1:] not in ([], ["--self-test"]):
        sys.exit("usage: pins.py [--table | --self-test]")
    faults = faults_of(texts)
    for fault in faults:
        print("pins: " + fault)
    if faults:
        print("pins: FAILED, %d faults" % len(faults))
        return 1
    if sys.argv[1:]:
        missed = self_test(texts)
        print("pins: self-test %s, %d of %d planted faults found" % (
            "FAILED" if missed else "passed", len(PLANTS) - missed,
            len(PLANTS)))
        return missed != 0
    project = Project(texts)
    print("pins: passed, %d claims pinned, %d definitions in specs/" % (
        len(project.pins), len(project.definitions)))
    return 0


if __name__ == "__main__":
    sys.exit(main())
