#!/usr/bin/env python3
"""Prints the C in place with one mistake.

edits.py EDIT INPLACE

EDIT is a file of this folder, INPLACE the folder of the C in place.  The lines
of an edit are: a comment, which is the mistake in document 01's words; the
scene of the demo that has to notice it; the file; and, for each place, the old
text and the new one.  The old text must stand in the file exactly once.
"""

import os
import sys
from typing import NamedTuple


class Edit(NamedTuple):
    mistake: str
    scene: str
    file: str
    places: list  # pairs of old and new text


def read_edit(path):
    with open(path) as file:
        lines = [line.partition(" ") for line in file.read().splitlines()]
    words = [word for word, _, _ in lines]
    texts = [text for _, _, text in lines]
    pairs = (len(lines) - 3) // 2
    if pairs < 1 or words != ["#", "scene:", "file:"] + ["old:",
                                                         "new:"] * pairs:
        sys.exit("%s: its lines are #, scene:, file:, and old: and new: for "
                 "each place" % path)
    return Edit(*texts[:3], list(zip(texts[3::2], texts[4::2])))


def edited(path, folder):
    edit = read_edit(path)
    source = os.path.join(folder, edit.file)
    with open(source) as file:
        text = file.read()
    for old, new in edit.places:
        if text.count(old) != 1:
            sys.exit("%s: %s has this %d times: %s" % (
                path, source, text.count(old), old))
        text = text.replace(old, new)
    return text


if __name__ == "__main__":
    if len(sys.argv) != 3:
        sys.exit(__doc__)
    sys.stdout.write(edited(*sys.argv[1:]))
