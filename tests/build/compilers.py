#!/usr/bin/env python3
"""Builds the headers and tests/build/returned.c with each compiler.

compilers.py LIBRARY FOLDER GCC G++ CLANG CLANG++

For each compiler, two standards, -O0 and -O3, all warnings as errors:
- each header of include/ compiles alone, included twice;
- returned.c compiles, links with LIBRARY (and with LDLIBS) and passes: it
  compares all bytes of each struct that the library returns.

Then faults are planted in copies of the headers, and the compilers of the
standards that have to notice must refuse them, the others must not.  And
returned.c must fail with a library that returns structs another way: the C in
place, built by GCC with -fpcc-struct-return.

What is built goes to FOLDER.
"""

import os
import shutil
import subprocess
import sys
from typing import NamedTuple

ROOT = os.path.join(os.path.dirname(os.path.abspath(__file__)), "..", "..")
INCLUDE = os.path.join(ROOT, "include")
RETURNED = os.path.join(ROOT, "tests", "build", "returned.c")
IN_PLACE = os.path.join(ROOT, "tests", "inplace")
WARNINGS = ["-Wall", "-Wextra", "-Werror", "-pedantic", "-Wconversion"]
C, CXX = ("c99", "c11"), ("c++11", "c++17")
OPTIMIZATIONS = ("-O0", "-O3")


class Build(NamedTuple):
    compiler: str
    standard: str
    optimization: str

    def __str__(self):
        return "%s -std=%s %s" % self

    def command(self, source, include):
        language = "c++" if self.standard in CXX else "c"
        return self.compiler.split() + [
            "-std=" + self.standard, self.optimization, *WARNINGS,
            "-I" + include, "-x", language, source, "-x", "none"]


def builds_of(compilers):
    """All builds; `compilers` are GCC, G++, CLANG and CLANG++."""
    return [Build(compiler, standard, optimization)
            for compiler, standards in zip(compilers, (C, CXX, C, CXX))
            for standard in standards for optimization in OPTIMIZATIONS]


def ran(command):
    """Whether the command succeeds, and what it prints."""
    done = subprocess.run(command, stdout=subprocess.PIPE,
                          stderr=subprocess.STDOUT, text=True, check=False)
    return done.returncode == 0, done.stdout


def headers_of(include):
    return sorted(name for name in os.listdir(include) if name.endswith(".h"))


class Runs:
    """Compiles and runs in a folder; `faults` collects what failed."""

    def __init__(self, folder, linked):
        self.folder = folder
        self.linked = linked
        self.faults = []
        self.last = ""  # what returned.c printed

    def path(self, name):
        return os.path.join(self.folder, name)

    def succeeds(self, build, what, command):
        holds, said = ran(command)
        if not holds:
            self.faults.append("%s: %s\n%s" % (build, what, said))
        self.last = said
        return holds

    def header(self, build, name, include=INCLUDE):
        source = self.path("alone.c")
        with open(source, "w", encoding="utf-8") as file:
            file.write('#include "%s"\n' % name * 2)
            file.write("extern int alone;\nint alone;\n")
        self.succeeds(build, name + " does not compile alone",
                      build.command(source, include)
                      + ["-c", "-o", self.path("alone.o")])

    def returned(self, build, include=INCLUDE):
        program = self.path("returned")
        if self.succeeds(build, "returned.c is not built",
                         build.command(RETURNED, include) + self.linked
                         + ["-o", program]):
            self.succeeds(build, "returned.c fails", [program])


# Faults, each with the standards whose compilers must refuse it.

class Plant(NamedTuple):
    name: str
    header: str
    old: str
    new: str
    refused: tuple
    is_returned: bool = False  # noticed by returned.c, not by the header alone


EITHER = C + CXX
PLANTS = [
    Plant("two fields exchanged", "grimholdi.h",
          "    uint8_t endpoint;\n    uint8_t direction;\n",
          "    uint8_t direction;\n    uint8_t endpoint;\n", EITHER, True),
    Plant("a field of two bytes", "grimholdi.h", "    uint8_t endpoint;\n",
          "    uint16_t endpoint;\n", EITHER, True),
    Plant("a field too many", "grimholdi.h", "} grimholdi_reason;",
          "    uint8_t spare;\n} grimholdi_reason;", EITHER, True),
    Plant("another version", "grimholdi.h", "GRIMHOLDI_VERSION_PATCH     ",
          "GRIMHOLDI_VERSION_PATCH     1", EITHER, True),
    Plant('extern "C" lost', "grimholdi.h", 'extern "C" {',
          "namespace spare {", CXX, True),
    Plant("a guard lost", "grimholdi_port.h", "#define GRIMHOLDI_PORT_H", "",
          EITHER),
    Plant("an include lost", "grimholdi_setup.h", '#include "grimholdi.h"',
          "#include <stdint.h>", EITHER),
    Plant("C11 in a header", "grimholdi_setup.h", '#include "grimholdi.h"',
          '#include "grimholdi.h"\n#ifndef __cplusplus\n'
          'typedef struct { union { int a, b; }; } spare;\n#endif',
          ("c99",)),
    Plant("C++17 in a header", "grimholdi_names.h", '#include "grimholdi.h"',
          '#include "grimholdi.h"\n#ifdef __cplusplus\n'
          'static_assert(true);\n#endif', ("c++11",)),
    Plant("a name that C++ reserves", "grimholdi_setup.h",
          '#include "grimholdi.h"',
          '#include "grimholdi.h"\nextern int new;', CXX),
    Plant("a cast lost", "grimholdi_record.h",
          "const uint16_t count = (uint16_t)bytes_len;",
          "const uint16_t count = bytes_len;", EITHER),
]


def planted(plant, folder):
    """A copy of include/ with the fault."""
    include = os.path.join(folder, "planted")
    shutil.rmtree(include, ignore_errors=True)
    shutil.copytree(INCLUDE, include)
    path = os.path.join(include, plant.header)
    with open(path, encoding="utf-8") as file:
        text = file.read()
    if text.count(plant.old) != 1:
        sys.exit("compilers: %s has %r %d times" % (
            plant.header, plant.old, text.count(plant.old)))
    with open(path, "w", encoding="utf-8") as file:
        file.write(text.replace(plant.old, plant.new))
    return include


def other_convention(gcc, folder):
    """Objects of the C in place that return structs in memory."""
    objects = []
    for name in sorted(os.listdir(IN_PLACE)):
        if name.endswith(".c"):
            objects.append(os.path.join(folder, name[:-1] + "o"))
            holds, said = ran(gcc.split() + [
                "-std=c99", "-fpcc-struct-return", "-DINPLACE_AS_LIBRARY",
                "-I" + INCLUDE, "-c", os.path.join(IN_PLACE, name), "-o",
                objects[-1]])
            if not holds:
                sys.exit("compilers: %s does not build %s\n%s" % (gcc, name,
                                                                  said))
    return objects


def self_test(builds, folder, linked):
    """How many are not refused where they have to be, or are elsewhere."""
    missed = 0
    other = other_convention(builds[0].compiler, folder)
    for build in builds:
        runs = Runs(folder, other)
        runs.returned(build)
        if not runs.faults or "is not built" in runs.faults[0]:
            missed += 1
            print("compilers: planted: structs returned another way, not "
                  "found by %s" % (build,))
    for plant in PLANTS:
        include = planted(plant, folder)
        for build in builds:
            runs = Runs(folder, linked)
            if plant.is_returned:
                runs.returned(build, include)
            else:
                runs.header(build, plant.header, include)
            if bool(runs.faults) != (build.standard in plant.refused):
                missed += 1
                print("compilers: planted: %s, %s by %s" % (
                    plant.name, "refused" if runs.faults else "not refused",
                    build))
                print("".join(runs.faults))
    return missed


def main():
    if len(sys.argv) != 7:
        sys.exit("usage: compilers.py LIBRARY FOLDER GCC G++ CLANG CLANG++")
    library, folder, *compilers = sys.argv[1:]
    for compiler in compilers:
        if shutil.which(compiler.split()[0]) is None:
            sys.exit("compilers: FAILED, there is no %s here; README.md lists "
                     "the packages that the tests need" % compiler)
    os.makedirs(folder, exist_ok=True)
    builds = builds_of(compilers)
    linked = [library] + os.environ.get("LDLIBS", "").split()
    runs = Runs(folder, linked)
    headers = headers_of(INCLUDE)
    for build in builds:
        for name in headers:
            runs.header(build, name)
        runs.returned(build)
    for fault in runs.faults:
        print("compilers: " + fault)
    if runs.faults:
        print("compilers: FAILED, %d faults" % len(runs.faults))
        return 1
    print(runs.last, end="")
    plain = [build for build in builds if build.optimization == "-O0"]
    missed = self_test(plain, folder, linked)
    print("compilers: %s, %d builds, %d headers alone in each, %d planted "
          "faults" % ("FAILED" if missed else "passed", len(builds),
                      len(headers), len(PLANTS) + 1))
    return missed != 0


if __name__ == "__main__":
    sys.exit(main())
