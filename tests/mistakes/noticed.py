#!/usr/bin/env python3
"""Runs the demo with each of document 01's five errors that look right.

noticed.py FOLDER

FOLDER has the demo linked with the C in place: `right` as it is, and one
program for each edit of this folder, with that mistake.  The first must pass.
Each other must fail by itself, with exit status 1, and the first thing that it
finds unexpected must be in the scene that is meant for the mistake.
"""

import glob
import os
import subprocess
import sys

from edits import read_edit

ERRORS = 5  # in document 01
HERE = os.path.dirname(os.path.abspath(__file__))


def run(path):
    """The exit status, or why there is none, and the lines."""
    try:
        done = subprocess.run([path], stdout=subprocess.PIPE, timeout=60,
                              check=False)
    except subprocess.TimeoutExpired:
        return "no end after 60 s", []
    return done.returncode, done.stdout.decode().splitlines()


def fault_of(status, lines, scene):
    """What is wrong with a run that has to notice a mistake, or None."""
    noticed = [line for line in lines if "UNEXPECTED" in line]
    if status == 0:
        return "not noticed"
    if status != 1 or lines[-1:] != ["FAILED"] or not noticed:
        return "exit status %s, %d lines with UNEXPECTED, last line %s" % (
            status, len(noticed), lines[-1:])
    if 'UNEXPECTED in "%s"' % scene not in noticed[0]:
        return "noticed elsewhere than in \"%s\": %s" % (scene, noticed[0])
    return None


def main():
    if len(sys.argv) != 2:
        sys.exit(__doc__)
    folder = sys.argv[1]
    paths = sorted(glob.glob(os.path.join(HERE, "*.edit")))
    failed = 0
    if len(paths) != ERRORS:
        failed += 1
        print("FAILED: %d mistakes; document 01 names %d" % (
            len(paths), ERRORS))
    status, lines = run(os.path.join(folder, "right"))
    if status != 0 or lines[-1:] != ["passed"]:
        failed += 1
        print("FAILED: without a mistake, exit status %s" % status)
    for path in paths:
        edit = read_edit(path)
        name = os.path.splitext(os.path.basename(path))[0]
        status, lines = run(os.path.join(folder, name))
        fault = fault_of(status, lines, edit.scene)
        if fault:
            failed += 1
            print("FAILED: %s: %s" % (edit.mistake, fault))
        else:
            line = next(line for line in lines if "UNEXPECTED" in line)
            print("%s: %s" % (edit.mistake, line.strip()))
    print("demo-mistakes: %s, %d mistakes, %d failed" % (
        "FAILED" if failed else "passed", len(paths), failed))
    return failed != 0


if __name__ == "__main__":
    sys.exit(main())
