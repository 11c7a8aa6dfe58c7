"""Faults for the self-test of architecture.py, and what it says of each.

A plant changes the texts, which are given by their paths.
"""

from pins_planted import added, changed

CRATES = "crates.txt"
PICTURE = "docs/ARCHITECTURE.svg"
DOCUMENT = "docs/ARCHITECTURE.md"
CHANGING = "docs/CHANGING.md"
OLD_PICTURE = PICTURE + " is not what tests/architecture.py makes"


def left_out(texts):
    texts[CRATES] = "\n".join(line for line in texts[CRATES].splitlines()
                              if not line.startswith("isolation:"))


def uncalled(texts):
    path = "crates/grimholdi_why/src/lib.rt"
    texts[path] = texts[path].replace("why::", "spare::")


def exchanged(texts):
    """Two rows of the table of crates."""
    lines = texts[DOCUMENT].splitlines()
    rows = [place for place, line in enumerate(lines)
            if line.startswith("| `")]
    lines[rows[0]], lines[rows[1]] = lines[rows[1]], lines[rows[0]]
    texts[DOCUMENT] = "\n".join(lines)


# What is planted, and a fault that has to be found.
PLANTS = [
    ("a crate more", added(CRATES, "spare: hub\n"),
     "crate `spare` of crates.txt is missing"),
    ("a crate less", left_out, "crate `isolation` is not in crates.txt"),
    ("a crate renamed", changed(CRATES, "\nbench_cases:", "\nbench:"),
     "crate `bench` of crates.txt is missing"),
    ("a crate that builds on one more", changed(CRATES, "port_table: chart ",
                                                "port_table: hub chart "),
     "`port_table` builds on `hub` and stands neither above nor beside it"),
    ("a crate that builds on one less", changed(CRATES, "isolation: runs ",
                                                "isolation: "), OLD_PICTURE),
    ("code that calls one more", added("crates/area_check/src/lib.rt",
                                       "fn spare() -> u8\n{\n    "
                                       "hub::first_refusal()\n}\n"),
     OLD_PICTURE),
    ("code among claims", added("crates/isolation/src/lib.rt",
                                "fn spare() -> u8\n{\n    0\n}\n"),
     OLD_PICTURE),
    ("code that calls one less", uncalled, OLD_PICTURE),
    ("a function of a step renamed",
     changed("crates/hub/src/lib.rt", "pub fn first_refusal(",
             "pub fn refusal_of("),
     "crates/hub/src has no fn first_refusal"),
    ("an entry renamed",
     changed("crates/grimholdi/src/lib.rt", "fn grimholdi_control(",
             "fn grimholdi_request("),
     "crates/grimholdi/src has no fn grimholdi_control"),
    ("the picture changed by hand", changed(PICTURE, ">hub<", ">Hub<"),
     OLD_PICTURE),
    ("no picture", lambda texts: texts.update({PICTURE: ""}), OLD_PICTURE),
    ("two rows of the table exchanged", exchanged,
     DOCUMENT + ": the table of crates has"),
    ("a function that is not there", added(DOCUMENT, "`hub::refusal`\n"),
     DOCUMENT + ": crates/hub/src has no fn refusal"),
    ("a path that is not there",
     added(CHANGING, "`crates/hub/specs/Steps.antt`\n"),
     CHANGING + ": crates/hub/specs/Steps.antt is not there"),
]
