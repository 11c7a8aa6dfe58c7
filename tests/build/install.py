#!/usr/bin/env python3
"""Installs, builds a program with what is installed, and uninstalls.

install.py LIBRARY TARGET CC CXX

First with PREFIX, a folder under TARGET, then staged: DESTDIR, a folder under
TARGET, and PREFIX=/usr.  Each time:
- what is installed is EXPECTED, with its modes, and nothing else;
- pkg-config gives the version of the header and the flags;
- tests/build/installed.c, copied out of the source tree, is built by CC and
  CXX with those flags alone, and runs;
- grimholdi-why and grimholdi-replay run on what it wrote;
- make uninstall leaves no file but one that was there before.

Then faults are planted in what is installed, and each must be found.
"""

import os
import re
import shutil
import stat
import subprocess
import sys
from typing import NamedTuple

ROOT = os.path.join(os.path.dirname(os.path.abspath(__file__)), "..", "..")
HEADER = os.path.join(ROOT, "include", "grimholdi.h")
SOURCE = os.path.join(ROOT, "tests", "build", "installed.c")
PC = "lib/pkgconfig/grimholdi.pc"
EXPECTED = {
    "bin/grimholdi-replay": 0o755,
    "bin/grimholdi-why": 0o755,
    "include/grimholdi.h": 0o644,
    "include/grimholdi_names.h": 0o644,
    "include/grimholdi_port.h": 0o644,
    "include/grimholdi_record.h": 0o644,
    "include/grimholdi_setup.h": 0o644,
    "lib/libgrimholdi.a": 0o644,
    PC: 0o644,
}
STRANGER = "include/stranger.h"  # is there before, and stays
WARNINGS = ["-Wall", "-Wextra", "-Werror", "-pedantic"]
PRINTED = "%s: port 1 is Disabled, full speed\n"

# Words for an installed program; its exit status; a line that it prints.
PROGRAMS = [
    ("grimholdi-why", ["AREA", "poll", "0"], 0,
     r"DATA: port 1: C_PORT_CONNECTION"),
    ("grimholdi-why", ["--raw", "AREA", "poll", "0"], 0,
     r"1 7 0 1 0 0 0 0 0 0"),
    ("grimholdi-why", ["--help"], 0, r"why \[OPTIONS\] FILE CALL"),
    ("grimholdi-replay", ["RECORDING", "2", "2", "0", "0", "0"], 0,
     r"1\.4 poll 0: DATA, 1 byte 02"),
    ("grimholdi-replay", ["RECORDING"], 2,
     r"replay: five numbers are needed, .*"),
]


class Names(NamedTuple):
    library: str
    target: str
    cc: str
    cxx: str


class Layout(NamedTuple):
    """Where make installs."""
    destdir: str
    prefix: str

    def top(self):
        return self.destdir + self.prefix

    def path(self, name):
        return os.path.join(self.top(), name)

    def variables(self):
        return ["DESTDIR=" + self.destdir, "PREFIX=" + self.prefix]

    def environment(self):
        """For pkg-config: this folder alone, and where it is staged."""
        return dict(os.environ, PKG_CONFIG_PATH="",
                    PKG_CONFIG_LIBDIR=self.path("lib/pkgconfig"),
                    PKG_CONFIG_SYSROOT_DIR=self.destdir)

    def written_prefix(self):
        """What the pkg-config file has."""
        with open(self.path(PC), encoding="utf-8") as file:
            return re.findall(r"^prefix=(.*)$", file.read(), re.M)


def ran(command, **more):
    """Exit status and what is printed."""
    try:
        done = subprocess.run(command, stdout=subprocess.PIPE,
                              stderr=subprocess.STDOUT, text=True,
                              check=False, **more)
    except OSError as error:
        return -1, str(error)
    return done.returncode, done.stdout


def make(names, layout, goal):
    """Runs make for the goal; what went wrong, or nothing."""
    environment = {name: value for name, value in os.environ.items()
                   if name not in ("MAKEFLAGS", "MFLAGS", "MAKELEVEL")}
    status, said = ran(["make", "-s", "-C", ROOT, goal, "CC=" + names.cc,
                        "LIBRARY=" + names.library, "TARGET=" + names.target]
                       + layout.variables(), env=environment)
    return [] if status == 0 else ["make %s fails\n%s" % (goal, said)]


def installed(layout):
    """The files below PREFIX, and the modes."""
    found = {}
    for folder, _, files in os.walk(layout.destdir or layout.prefix):
        for name in files:
            path = os.path.join(folder, name)
            found[os.path.relpath(path, layout.top())] = stat.S_IMODE(
                os.lstat(path).st_mode)
    return found


def listed(layout):
    found = installed(layout)
    found.pop(STRANGER, None)
    faults = ["%s is not installed" % name for name in EXPECTED
              if name not in found]
    faults += ["%s is installed and not expected" % name for name in found
               if name not in EXPECTED]
    faults += ["%s has mode %o, not %o" % (name, found[name], mode)
               for name, mode in EXPECTED.items()
               if found.get(name, mode) != mode]
    return faults


def header_version():
    with open(HEADER, encoding="utf-8") as file:
        return re.search(r'^#define GRIMHOLDI_VERSION +"(.*)"', file.read(),
                         re.M).group(1)


def asked(layout, *options):
    """What pkg-config says."""
    return ran(["pkg-config", *options, "grimholdi"],
               env=layout.environment())[1].split()


def flags(layout):
    """What pkg-config says wrong."""
    folder = layout.top()
    include, library = "-I%s/include" % folder, "-L%s/lib" % folder
    faults = []
    for options, expected in (
            (["--modversion"], [header_version()]),
            (["--cflags"], [include]),
            (["--libs"], [library, "-lgrimholdi"]),
            (["--libs", "--static"], [library, "-lgrimholdi"])):
        found = asked(layout, *options)
        if found != expected:
            faults.append("pkg-config %s says %s, not %s" % (
                options[-1], " ".join(found), " ".join(expected)))
    if layout.written_prefix() != [layout.prefix]:
        faults.append("%s has the prefix %s, not %s" % (
            PC, " ".join(layout.written_prefix()), layout.prefix))
    return faults


def built(names, layout, user):
    """Builds and runs the program in the folder `user`, as C and as C++."""
    faults = []
    for compiler, language in ((names.cc, ["-x", "c", "-std=c99"]),
                               (names.cxx, ["-x", "c++", "-std=c++11"])):
        status, said = ran(
            [*compiler.split(), *language, *WARNINGS,
             *asked(layout, "--cflags"), "installed.c", "-x", "none",
             *asked(layout, "--libs"), "-o", "installed"], cwd=user)
        if status != 0:
            faults.append("%s does not build the program\n%s" % (
                compiler, said))
            continue
        status, said = ran([os.path.join(user, "installed"), "AREA",
                            "RECORDING"], cwd=user)
        if (status, said) != (0, PRINTED % header_version()):
            faults.append("the program of %s says\n%s" % (compiler, said))
    return faults


def programs(layout, user):
    faults = []
    for name, words, expected, line in PROGRAMS:
        status, said = ran([layout.path("bin/" + name), *words], cwd=user)
        if status != expected or not re.search("^%s$" % line, said, re.M):
            faults.append("%s %s: exit status %d, not %d, or no line '%s'\n%s"
                          % (name, " ".join(words), status, expected, line,
                             said))
    return faults


def left(layout):
    found = installed(layout)
    faults = [] if found.pop(STRANGER, None) else [
        "make uninstall removes %s, which was there before" % STRANGER]
    return faults + ["make uninstall leaves %s" % name for name in found]


def fresh(names, layout):
    """A folder with a stranger's file, and one for the program."""
    user = os.path.join(os.path.abspath(names.target), "install", "user")
    for folder in (layout.destdir or layout.prefix, user):
        shutil.rmtree(folder, ignore_errors=True)
    for path in (layout.path(STRANGER), os.path.join(user, "installed.c")):
        os.makedirs(os.path.dirname(path), exist_ok=True)
        shutil.copyfile(SOURCE, path)
    return user


def faults_of(names, layout, spoil=None, uninstalls=make):
    """The whole, in fresh folders.  `spoil` changes what is installed."""
    user = fresh(names, layout)
    faults = make(names, layout, "install")
    if faults:
        return faults
    if spoil:
        spoil(layout)
    faults = (listed(layout) + flags(layout) + built(names, layout, user)
              + programs(layout, user))
    return faults + (uninstalls(names, layout, "uninstall") or left(layout))


# The self-test.

def changed(name, old, new):
    """Puts `new` for what the expression `old` finds in a file."""
    def spoil(layout):
        with open(layout.path(name), encoding="utf-8") as file:
            text, count = re.subn(old, new, file.read())
        if count != 1:
            raise ValueError("%s has %r %d times" % (name, old, count))
        with open(layout.path(name), "w", encoding="utf-8") as file:
            file.write(text)
    return spoil


def removed(name):
    return lambda layout: os.remove(layout.path(name))


def added(name):
    return lambda layout: shutil.copyfile(SOURCE, layout.path(name))


def with_mode(name, mode):
    return lambda layout: os.chmod(layout.path(name), mode)


def without_object(name):
    return lambda layout: subprocess.run(
        ["ar", "d", layout.path("lib/libgrimholdi.a"), name], check=True)


def uninstalls_nothing(_names, _layout, _goal):
    return []


def uninstalls_all(_names, layout, _goal):
    shutil.rmtree(layout.path("include"))
    return []


# What is planted, and the start of a fault that has to be found.
PLANTS = [
    ("a header lost", removed("include/grimholdi_setup.h"),
     "include/grimholdi_setup.h is not installed"),
    ("a file too many", added("lib/spare"),
     "lib/spare is installed and not expected"),
    ("a program that can't be run", with_mode("bin/grimholdi-why", 0o644),
     "bin/grimholdi-why has mode 644, not 755"),
    ("another program", added("bin/grimholdi-replay"), "grimholdi-replay "),
    ("another version in the file", changed(PC, "Version: .*", "Version: 9"),
     "pkg-config --modversion says 9, not "),
    ("no version in the file", changed(PC, "Version: .*", "Version: "),
     "pkg-config --modversion says "),
    ("another folder of headers", changed(PC, "/include", "/included"),
     "pkg-config --cflags says "),
    ("another prefix", changed(PC, "(?m)^prefix=.*", "prefix=/spare"),
     PC + " has the prefix /spare, not "),
    ("no library in the file", changed(PC, " -lgrimholdi", ""),
     "pkg-config --libs says "),
    ("the header of another version", changed(
        "include/grimholdi.h", r"(GRIMHOLDI_VERSION_MAJOR +)\d", r"\g<1>9"),
     "the program of "),
]
UNINSTALLS = [
    ("make uninstall does nothing", uninstalls_nothing,
     "make uninstall leaves include/grimholdi.h"),
    ("make uninstall removes a folder", uninstalls_all,
     "make uninstall removes include/stranger.h"),
]


def objects(library):
    return ran(["ar", "t", library])[1].split()


def self_test(names, layout):
    """How many plants there are, and how many are not found."""
    plants = [(name, spoil, make, expected)
              for name, spoil, expected in PLANTS]
    plants += [("%s lost from the library" % name, without_object(name), make,
                "%s does not build the program" % names.cc)
               for name in objects(names.library)]
    plants += [(name, None, uninstalls, expected)
               for name, uninstalls, expected in UNINSTALLS]
    missed = 0
    for name, spoil, uninstalls, expected in plants:
        found = faults_of(names, layout, spoil, uninstalls)
        if not any(fault.startswith(expected) for fault in found):
            missed += 1
            print("install: planted: %s\n  not found: %s" % (name, expected))
            for fault in found:
                print("  found: " + fault)
    return len(plants), missed


def main():
    if len(sys.argv) != 5:
        sys.exit("usage: install.py LIBRARY TARGET CC CXX")
    names = Names(*sys.argv[1:])
    if shutil.which("pkg-config") is None:
        sys.exit("install: FAILED, there is no pkg-config here; README.md "
                 "lists the packages that the tests need")
    folder = os.path.join(os.path.abspath(names.target), "install")
    layouts = [Layout("", os.path.join(folder, "prefix")),
               Layout(os.path.join(folder, "stage"), "/usr")]
    faults = [fault for layout in layouts
              for fault in faults_of(names, layout)]
    for fault in faults:
        print("install: " + fault)
    if faults:
        print("install: FAILED, %d faults" % len(faults))
        return 1
    plants, missed = self_test(names, layouts[0])
    print("install: %s, %d files with PREFIX and staged, %d of %d planted "
          "faults found" % ("FAILED" if missed else "passed", len(EXPECTED),
                            plants - missed, plants))
    return missed != 0


if __name__ == "__main__":
    sys.exit(main())
