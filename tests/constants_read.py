"""Reads the headers and the specs, and compares them (constants.py)."""

import functools
import glob
import os
import re
from typing import NamedTuple

from constants_table import (AREA_PARTS, COMPARED, UNCOMPARED, Bits, Cases,
                             Count, Place, Said, Shape, To)

PREFIX = "GRIMHOLDI_"


# Reading the files.

def read_texts(root):
    """The headers and the specs that are compared, by their paths."""
    paths = sorted(glob.glob(os.path.join(root, "include", "*.h")))
    paths += sorted({os.path.join(root, way.place.file())
                     for way in COMPARED + [AREA_PARTS]})
    texts = {}
    for path in paths:
        if os.path.exists(path):
            with open(path, encoding="utf-8") as file:
                texts[os.path.relpath(path, root)] = file.read()
    return texts


def blanked(comment, text):
    """The text with spaces for its comments."""
    return re.sub(comment, lambda found: re.sub(r"[^\n]", " ", found.group()),
                  text, flags=re.S)


class Fault(Exception):
    """The texts are not as expected here."""


# Headers.

DEFINE = re.compile(r"^#define[ \t]+GRIMHOLDI_(\w+)(?:\((\w+)\))?"
                    r"[ \t]+((?:[^\n\\]|\\\n)*[^\s\\])", re.M)
CALCULATED = re.compile(r"[0-9a-fA-Fx+*<|() -]+")


class Defined(NamedTuple):
    name: str
    file: str
    start: int
    end: int
    parameter: str
    text: str

    def is_text(self):
        return self.text.startswith('"')


@functools.lru_cache(maxsize=None)
def defined_in(path, text):
    """The constants of a header; include guards are none."""
    return [Defined(define.group(1), path, define.start(3), define.end(3),
                    define.group(2), define.group(3))
            for define in DEFINE.finditer(blanked(r"/\*.*?\*/", text))]


def constants_of(texts):
    """The constants of the headers, by their names."""
    found = {}
    for path, text in texts.items():
        if path.startswith("include"):
            for defined in defined_in(path, text):
                if defined.name in found:
                    raise Fault("%s%s is defined twice" % (PREFIX,
                                                           defined.name))
                found[defined.name] = defined
    return found


def value_of(text, constants):
    """The number of an expression of numbers and constants."""
    def named(name):
        if name.group(1) not in constants:
            raise Fault("%s is not defined" % name.group())
        return "(%d)" % value_of(constants[name.group(1)].text, constants)

    plain = re.sub(r"\\\n", " ", text)
    plain = re.sub(r"\(\w+_t\)", "", plain)
    plain = re.sub(r"\b(0x[0-9A-Fa-f]+|\d+)[uUlL]+\b", r"\1", plain)
    plain = re.sub(PREFIX + r"(\w+)", named, plain)
    if not CALCULATED.fullmatch(plain):
        raise Fault("'%s' is no number" % text)
    return eval(plain, {"__builtins__": {}})


# Specs.

HEAD = re.compile(r"^(?:pub )?(?:abbrev|unfoldable|opaque|record|data) "
                  r"(?:pub )?([^\s:]+)", re.M)
NUMBER = r"(0x[0-9A-Fa-f]+|\d+)(?![\w.])"


@functools.lru_cache(maxsize=None)
def definitions_in(text):
    """Names and places of the definitions; comments are blanked."""
    text = blanked(r"--[^\n]*", text)
    heads = list(HEAD.finditer(text))
    ends = [head.start() for head in heads[1:]] + [len(text)]
    return text, [(head.group(1), head.start(), end)
                  for head, end in zip(heads, ends)]


SIGNS = {"#": NUMBER, "?": r"[\w'.-]+", "..": r".*"}


@functools.lru_cache(maxsize=None)
def expression(text):
    """A text with #, ? and .. as a regular expression."""
    words = [SIGNS.get(word) or "".join(
        SIGNS.get(sign) or re.escape(sign) for sign in word)
        for word in text.split()]
    return re.compile(r"\s+".join(words), re.S)


class Found(NamedTuple):
    """Something of the specs, and its place in the file."""
    text: str
    start: int
    end: int

    def number(self):
        return int(self.text, 0)


def definition_of(texts, place):
    """The text of the file, comments blanked, and where the definition is."""
    if place.file() not in texts:
        raise Fault("%s is not there" % place.file())
    text, definitions = definitions_in(texts[place.file()])
    found = [(start, end) for name, start, end in definitions
             if name == place.definition]
    if len(found) != 1:
        raise Fault("%s is defined %d times" % (place, len(found)))
    return text, found[0][0], found[0][1]


def numbers_in(match, start):
    """The numbers of a match, as Found; `start` is where the text begins."""
    return [Found(match.group(i), start + match.start(i), start + match.end(i))
            for i in range(1, match.re.groups + 1)]


def match_in(texts, shape):
    """The match of the shape, and where the text that it is in begins."""
    text, start, end = definition_of(texts, shape.place)
    found = list(expression(shape.text).finditer(text[start:end].rstrip()))
    if shape.text.startswith("="):
        found = [match for match in found
                 if match.end() == len(match.string)]
    if len(found) != 1:
        raise Fault("%s has '%s' %d times" % (shape.place, shape.text,
                                              len(found)))
    return found[0], start


def case_in(pattern):
    """The name of the case: its variant, after Err or Ok that it is in."""
    names = [word.rpartition(".")[2]
             for word in re.findall(r"\w+(?:\.\w+)*", pattern)]
    inside = names[0] in ("Err", "Ok") and names[1:] and names[1][0].isupper()
    return " ".join(names[:2 if inside else 1])


def cases_in(texts, cases):
    """What the definition says in each case, as Found."""
    text, start, end = definition_of(texts, cases.place)
    words = [cases.place.definition] + cases.before.split()
    clause = re.compile(r"^%s +(\(?\w[^=\n]*)=\s*"
                        % " +".join(map(re.escape, words)), re.M)
    heads = list(clause.finditer(text, start, end))
    ends = [head.start() for head in heads[1:]] + [end]
    found = {}
    for head, limit in zip(heads, ends):
        name = case_in(head.group(1))
        if name in found:
            raise Fault("%s has the case %s twice" % (cases.place, name))
        said = text[head.end():limit].rstrip()
        found[name] = Found(said, head.end(), head.end() + len(said))
    return found


def list_in(texts, place):
    """The elements of the list that the definition is, as Found."""
    text, start, end = definition_of(texts, place)
    equals = re.search(r"^%s\b[^=]*=" % re.escape(place.definition),
                       text[start:end], re.M)
    if not equals:
        raise Fault("%s is no list" % str(place))
    elements, at = [], start + equals.end()
    for part in text[at:end].split("∷"):
        word = part.strip()
        place_of = at + part.index(word)
        elements.append(Found(word, place_of, place_of + len(word)))
        at += len(part) + 1
    if elements[-1].text != "[]":
        raise Fault("%s is no list" % str(place))
    return elements[:-1]


# What is compared.

class Comparison(NamedTuple):
    """A constant, or None, and what it has to be by the specs; how a wrong
    text is planted there."""
    constant: object
    value: object
    place: Place
    start: int
    end: int
    wrong: str


def other(number):
    return str(number + 1)


class Project:
    """The texts, taken apart; `faults` collects what is wrong."""

    def __init__(self, texts):
        self.texts = texts
        self.faults = []
        self.constants = {}
        self.numbers = {}
        self.comparisons = []
        self.attempt(self.headers, texts)
        ways = {Shape: self.shape, Cases: self.cases, Bits: self.bits,
                Count: self.count}
        for way in COMPARED:
            self.attempt(ways[type(way)], way)
        self.attempt(self.area, AREA_PARTS)

    def fault(self, words, *given):
        self.faults.append(words % given)

    def attempt(self, method, way):
        try:
            method(way)
        except Fault as fault:
            self.fault("%s", fault)

    def headers(self, texts):
        self.constants = constants_of(texts)
        for defined in self.constants.values():
            self.attempt(self.define, defined)

    def define(self, defined):
        name = PREFIX + defined.name
        if defined.parameter:
            raise Fault("%s(%s) can't be compared" % (name,
                                                      defined.parameter))
        try:
            if not defined.is_text():
                self.numbers[defined.name] = value_of(defined.text,
                                                      self.constants)
        except Fault as fault:
            raise Fault("%s: %s" % (name, fault)) from fault

    def compare(self, constant, value, place, found, wrong):
        self.comparisons.append(Comparison(constant, value, place,
                                           found.start, found.end, wrong))

    def shape(self, shape):
        match, start = match_in(self.texts, shape)
        self.numbers_are(shape.place, numbers_in(match, start),
                         shape.constants)
        if not shape.constants:
            self.text_is(shape.place, Found(
                match.group(), start + match.start(), start + match.end()))

    def text_is(self, place, found):
        """A text without numbers, found as it has to be."""
        self.compare(None, None, place, found, "99")

    def numbers_are(self, place, numbers, constants):
        if len(numbers) != len(constants):
            raise Fault("%s has %d numbers, and %d constants" % (
                place, len(numbers), len(constants)))
        for found, to in zip(numbers, constants):
            number = found.number()
            constant, value = to if isinstance(to, To) else (
                to, lambda same: same)
            self.compare(constant, value(number), place, found, other(number))

    def cases(self, cases):
        found = cases_in(self.texts, cases)
        self.both_ways(cases, found, "case")
        for name in cases.rows:
            if name in found:
                self.case(cases, name, found[name])

    def case(self, cases, name, found):
        row = cases.rows[name]
        if isinstance(row, str) and row.startswith("= "):
            row = Said(row[2:], [])
            self.text_is(cases.place, found)
        elif not isinstance(row, Said):
            row = Said(cases.text, [row])
        match = expression(row.text).fullmatch(found.text)
        if match:
            self.numbers_are(cases.place, numbers_in(match, found.start),
                             row.constants)
        else:
            self.fault("%s %s is '%s', not '%s'", cases.place, name,
                       " ".join(found.text.split()), row.text)

    def bits(self, bits):
        elements = list_in(self.texts, bits.place)
        found = {element.text: (i, element) for i, element
                 in enumerate(elements) if element.text != "false"}
        self.both_ways(bits, found, "bit")
        for name, constant in bits.rows.items():
            if name in found:
                i, element = found[name]
                self.compare(constant, 1 << bits.lowest + i, bits.place,
                             element, "false ∷ " + name)

    def count(self, count):
        elements = list_in(self.texts, count.place)
        self.compare(count.constant, len(elements), count.place, elements[-1],
                     "0 ∷ " + elements[-1].text)

    def area(self, parts):
        found = numbers_in(*match_in(self.texts, parts))
        head, port, buffer = (part.number() for part in found)
        most = self.numbers.get("PORTS_MAX"), self.numbers.get("BUFFERS_MAX")
        if None in most:
            raise Fault("%s: the headers lack a limit" % str(parts.place))
        for part in found:
            self.compare("AREA_LENGTH_MAX",
                         head + port * most[0] + buffer * most[1],
                         parts.place, part, other(part.number()))

    def both_ways(self, table, found, what):
        for name in found:
            if name not in table.rows:
                self.fault("%s has the %s %s, which has no constant here",
                           table.place, what, name)
        for name in table.rows:
            if name not in found:
                self.fault("%s has no %s %s", table.place, what, name)

    def check(self):
        for comparison in self.comparisons:
            self.check_comparison(comparison)
        self.check_compared()
        self.check_version()
        return self.faults

    def check_comparison(self, comparison):
        constant, value, place = comparison[:3]
        if isinstance(constant, int) and constant != value:
            self.fault("%s says %s where it said %s", place, value, constant)
        elif isinstance(constant, str) and constant not in self.numbers:
            self.fault("%s has a number for %s%s, which no header defines",
                       place, PREFIX, constant)
        elif isinstance(constant, str) and self.numbers[constant] != value:
            self.fault("%s%s is %s; %s says %s", PREFIX, constant,
                       self.numbers[constant], place, value)

    def check_compared(self):
        compared = {comparison.constant for comparison in self.comparisons}
        for name in self.numbers:
            if (name in compared) == (name in UNCOMPARED):
                self.fault("%s%s is %s", PREFIX, name,
                           "compared and listed as not compared"
                           if name in compared else
                           "neither compared nor listed with a reason")
        for name in UNCOMPARED:
            if name not in self.numbers:
                self.fault("%s%s is listed and not defined", PREFIX, name)

    def check_version(self):
        names = "VERSION_MAJOR", "VERSION_MINOR", "VERSION_PATCH"
        numbers = [self.numbers.get(name) for name in names]
        if None in numbers or "VERSION" not in self.constants:
            self.fault("%sVERSION lacks a part", PREFIX)
            return
        text = '"%d.%d.%d"' % tuple(numbers)
        if self.constants["VERSION"].text != text:
            self.fault("%sVERSION is %s; its numbers say %s", PREFIX,
                       self.constants["VERSION"].text, text)
        number = numbers[0] * 10000 + numbers[1] * 100 + numbers[2]
        if self.numbers.get("VERSION_NUMBER") != number:
            self.fault("%sVERSION_NUMBER is %s; its parts say %d", PREFIX,
                       self.numbers.get("VERSION_NUMBER"), number)
