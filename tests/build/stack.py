#!/usr/bin/env python3
"""The stack that each call needs, computed from the library's machine code.

stack.py LIBRARY FOLDER CC

A function needs what it pushes and reserves, what it uses below the stack
pointer, and the most that a function it calls needs behind the return
address.  One that it ends in by a jump has its place: that needs its own alone.
There is no recursion and no call through a pointer; what would make the sum
wrong is a fault.  memcpy, memmove and memset are the C library's: only their
return address is counted.

The header says how much is needed at most ("Interrupt handlers"); more is a
fault.  And tests/build/stack.c makes each call on a stack that was painted: a
call that touches more than was computed is a fault.  Prints the table of
docs/SPEED.md.
"""

import os
import re
import subprocess
import sys

ROOT = os.path.join(os.path.dirname(os.path.abspath(__file__)), "..", "..")
HEADER = os.path.join(ROOT, "include", "grimholdi.h")
SEEN = os.path.join(ROOT, "tests", "build", "stack.c")
OUTSIDE = {"memcpy", "memmove", "memset"}

# What stack.c's own function takes below the painted stack's top beside the
# call, more than around grimholdi_version: its arguments on the stack.
AROUND = 128

# Pushes and reservations, then any number of ways out that take them back.
SHAPE = re.compile(r"[ps]*(a?o*)*$")


class Function:
    """What one function does to the stack."""

    def __init__(self):
        self.own = 0        # bytes pushed and reserved
        self.below = 0      # bytes used below the stack pointer
        self.calls = []
        self.jumps = []     # functions that it ends in
        self.last = ""      # the instruction before
        self.shape = ""
        self.faults = []

    def instruction(self, text, name, operands):
        self.last = name
        if name.startswith("push"):
            self.own += 8
            self.shape += "p"
        elif name.startswith("pop"):
            self.shape += "o"
        elif operands.endswith(",%rsp") or name in ("leave", "enter"):
            reserved = re.match(r"\$(0x[0-9a-f]+),%rsp$", operands)
            if name.startswith("sub") and reserved:
                self.own += int(reserved.group(1), 16)
                self.shape += "s"
            elif name.startswith("add") and reserved:
                self.shape += "a"
            else:
                self.faults.append(text)
        if re.match(r"call\S*$", name) and operands.startswith("*"):
            self.faults.append(text)
        for below in re.findall(r"-0x([0-9a-f]+)\(%rsp", operands):
            self.below = max(self.below, int(below, 16))


def functions_of(library):
    """The functions of the library's objects, by object and name."""
    code = subprocess.run(["objdump", "-dr", "--no-show-raw-insn", library],
                          stdout=subprocess.PIPE, text=True, check=True).stdout
    functions, member, function = {}, None, None
    for line in code.splitlines():
        named = re.match(r"(\S+\.o): +file format", line)
        started = re.match(r"[0-9a-f]+ <(.*)>:$", line)
        moved = re.match(r"\s+[0-9a-f]+: R_X86_64_PLT32\s+(.*)-0x4$", line)
        text = re.match(r"\s+[0-9a-f]+:\s+(\S+)\s*(.*)$", line)
        if named:
            member = named.group(1)
        elif started:
            function = functions[member, started.group(1)] = Function()
        elif moved:
            called = re.sub(r"^\.text\.", "", moved.group(1))
            (function.jumps if function.last.startswith("j")
             else function.calls).append(called)
        elif text and not text.group(1).startswith("R_X86_64"):
            function.instruction(line.strip(), *text.groups())
    return functions


def needed(functions, member, name, above=()):
    """The stack that a function needs; exits where it can't be told."""
    function = functions.get((member, name))
    if function is None or name in above:
        sys.exit("stack: FAILED, %s: %s calls %s" % (
            member, above[-1], name))
    if function.faults or not SHAPE.match(function.shape):
        sys.exit("stack: FAILED, %s: %s: %s" % (
            member, name, (function.faults + [function.shape])[0]))
    def of(called):
        return 0 if called in OUTSIDE else needed(functions, member, called,
                                                  above + (name,))

    deepest = max((8 + of(called) for called in function.calls), default=0)
    return max([function.own + max(function.below, deepest)]
               + [of(called) for called in function.jumps])


def seen_by(library, folder, compiler):
    """What stack.c saw of each call."""
    os.makedirs(folder, exist_ok=True)
    program = os.path.join(folder, "stack")
    subprocess.run(compiler.split() + [
        "-std=c99", "-O1", "-Wall", "-Wextra", "-Werror",
        "-I" + os.path.join(ROOT, "include"), SEEN, library,
        *os.environ.get("LDLIBS", "").split(), "-Wl,-z,now", "-o", program],
        check=True)
    lines = subprocess.run([program], stdout=subprocess.PIPE, text=True,
                           check=True).stdout.split()
    return {name: int(number) for name, number in zip(lines[::2], lines[1::2])}


def stated(header):
    """The most that the header names: of all calls, of a replayed block."""
    with open(header, encoding="utf-8") as file:
        text = re.sub(r"\s*\n \*\s*", " ", file.read())
    found = re.search(r"at most ([\d,]+) bytes of stack on x86-64, "
                      r"grimholdi_replay_block at most ([\d,]+)", text)
    if found is None:
        sys.exit("stack: FAILED, the header names no bytes of stack")
    return [int(number.replace(",", "")) for number in found.groups()]


def more_than(seen, computed):
    return sorted(name for name in seen
                  if seen[name] > computed[name] + AROUND)


def main():
    if len(sys.argv) != 4:
        sys.exit("usage: stack.py LIBRARY FOLDER CC")
    library, folder, compiler = sys.argv[1:]
    functions = functions_of(library)
    computed = {name: needed(functions, member, name)
                for member, name in functions if name.startswith("grimholdi_")}
    seen = seen_by(library, folder, compiler)
    most, replayed = stated(HEADER)
    faults = ["%s is never called by stack.c" % name
              for name in sorted(set(computed) - set(seen))]
    faults += ["%s was seen to use more than computed" % name
               for name in more_than(seen, computed)]
    for name in sorted(computed):
        limit = replayed if name == "grimholdi_replay_block" else most
        print("| `%s` | %s |" % (name, format(computed[name], ",")))
        if computed[name] > limit:
            faults.append("%s needs more than the %d of the header"
                          % (name, limit))
    # Frames of the entries alone: that calls are left out must be noticed.
    alone = {name: functions[member, name].own
             for member, name in functions if name in computed}
    if not more_than(seen, alone):
        faults.append("a sum without the functions called is not noticed")
    for fault in faults:
        print("stack: " + fault)
    print("stack: %s, %d calls" % ("FAILED" if faults else "passed",
                                   len(computed)))
    return 1 if faults else 0


if __name__ == "__main__":
    sys.exit(main())
