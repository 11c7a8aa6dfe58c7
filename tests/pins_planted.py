"""Faults for the self-test of pins.py, and what it has to say of each.

A plant changes the texts, which are given by their paths.
"""

PROMISES = "docs/PROMISES.md"
HEADING = "## Pinned claims"
CHART = "crates/chart/src/lib.rt"
RUNS = "crates/runs/src/lib.rt"
ENTRIES = "crates/grimholdi/src/lib.rt"
EXPORTS = "crates/grimholdi_c/src/lib.rt"
LAUNCHED = ("    ensures reply { reply.new ≡ (gives area.old "
            "(launch reply.old)).reply }\n")
DEMAND_3 = "| `Demand3 rules` | `demand_3` | `runs` |\n"


def changed(path, old, new):
    """Puts `new` for the one place of `old`."""
    def plant(texts):
        if texts[path].count(old) != 1:
            raise ValueError("%s has %r %d times" % (
                path, old, texts[path].count(old)))
        texts[path] = texts[path].replace(old, new)
    return plant


def unexplained(texts):
    """Leaves LaunchOrder of crate runs in the table alone."""
    texts[PROMISES] = "\n".join(
        line if line.startswith("| `LaunchOrder rules`")
        else line.replace("`LaunchOrder`", "the launch order")
        for line in texts[PROMISES].splitlines())


def exchanged(texts):
    lines = texts[PROMISES].splitlines()
    at = lines.index(DEMAND_3.strip())
    lines[at], lines[at + 1] = lines[at + 1], lines[at]
    texts[PROMISES] = "\n".join(lines)


def added(path, text):
    def plant(texts):
        texts[path] += text
    return plant


def left_out_of_crates(texts):
    texts["crates/spare/src/lib.rt"] = ""


PIN = "fn demand_3()\n    ensures { Demand3 rules }\n{}\n"

# What is planted, and a fault that has to be found.
PLANTS = [
    ("a pin dropped from the code", changed(RUNS, PIN, ""),
     "crates/runs/src: no fn demand_3 pins `Demand3 rules`, as the table of "
     "docs/PROMISES.md says"),
    ("a pin commented out", changed(
        RUNS, PIN, "".join("// " + line + "\n" for line in PIN.splitlines())),
     "crates/runs/src: no fn demand_3 pins `Demand3 rules`, as the table of "
     "docs/PROMISES.md says"),
    ("a pin that says less", changed(RUNS, "{ Demand3 rules }",
                                     "{ Demand2 rules }"),
     "crates/runs/src: fn demand_3 ensures `Demand2 rules`; the table of "
     "docs/PROMISES.md says `Demand3 rules`"),
    ("a pin of another machine", changed(RUNS, "{ Demand3 rules }",
                                         "{ Demand3 other }"),
     "crates/runs/src: fn demand_3 ensures `Demand3 other`; the table of "
     "docs/PROMISES.md says `Demand3 rules`"),
    ("a pin that requires its claim", changed(
        RUNS, "fn demand_3()\n",
        "fn demand_3()\n    requires { Demand3 rules }\n"),
     "crates/runs/src/lib.rt: fn demand_3 has an empty body and takes or "
     "requires something, so that it does not show Demand3 rules"),
    ("a pin for every argument alone", changed(
        RUNS, "fn demand_3()", "fn demand_3(never: Never)"),
     "crates/runs/src/lib.rt: fn demand_3 has an empty body and takes or "
     "requires something, so that it does not show Demand3 rules"),
    ("a pin with two clauses", changed(
        RUNS, "    ensures { Demand3 rules }\n",
        "    ensures { Demand3 rules }\n"
        "    ensures more { Reached }\n"),
     "crates/runs/src/lib.rt: fn demand_3 has an empty body, and its contract "
     "is not one `ensures { CLAIM }`"),
    ("a claim of a result dropped", changed(
        CHART, "EnginesAgree (looked_up result)", "result ≡ result"),
     "crates/chart/src: no fn chart pins `EnginesAgree (looked_up result)`, as the "
     "table of docs/PROMISES.md says"),
    ("a claim of a result for every argument alone", changed(
        CHART, "pub fn chart()", "pub fn chart(never: Never)"),
     "crates/chart/src: no fn chart pins `EnginesAgree (looked_up result)`, as the "
     "table of docs/PROMISES.md says"),
    ("a pin that the table lacks", changed(PROMISES, DEMAND_3, ""),
     "docs/PROMISES.md: the table lacks `Demand3 rules`, which fn demand_3 of "
     "crate runs ensures"),
    ("a row without a pin", changed(
        PROMISES, DEMAND_3,
        DEMAND_3 + "| `Demand4 rules` | `demand_4` | `runs` |\n"),
     "crates/runs/src: no fn demand_4 pins `Demand4 rules`, as the table of "
     "docs/PROMISES.md says"),
    ("a row of another crate", changed(
        PROMISES, DEMAND_3, DEMAND_3.replace("`runs`", "`hub`")),
     "crates/hub/src: no fn demand_3 pins `Demand3 rules`, as the table of "
     "docs/PROMISES.md says"),
    ("a row twice", changed(PROMISES, DEMAND_3, DEMAND_3 + DEMAND_3),
     "docs/PROMISES.md: a row stands twice: " + DEMAND_3.strip()),
    ("two rows exchanged", exchanged,
     "docs/PROMISES.md: the rows are not in the order of crates.txt and of "
     "the functions; tests/pins.py --table prints them"),
    ("the table's heading lost", changed(PROMISES, HEADING, "## Claims"),
     "docs/PROMISES.md: no table under '## Pinned claims'"),
    ("a pinned claim that no row explains", unexplained,
     "docs/PROMISES.md: `LaunchOrder` of crate `runs` is pinned; no line "
     "outside the table names both"),
    ("a row that names what is nowhere", added(
        PROMISES, "\n## More\n\n| crate `runs` has `Demand4` |\n"),
     "docs/PROMISES.md: `Demand4` is in no crate's specs/"),
    ("a row that names what no pin reaches", lambda texts: (
        added(PROMISES, "\n## More\n\n| crate `runs` has `Spare` |\n")(texts),
        added("crates/runs/specs/Demand3.antt",
              "\nabbrev pub Spare : Type 0\nSpare = Reached\n")(texts)),
     "docs/PROMISES.md: `Spare` of crates/runs/specs/Demand3.antt is named, "
     "and no pin reaches it"),
    ("a field dropped from a claim", changed(
        "crates/grimholdi/specs/Claims.antt",
        "  pub lane_share : LaneShare entries\n", ""),
     "docs/PROMISES.md: `EntryClaims.lane_share` is named, and `EntryClaims` "
     "in crates/grimholdi/specs/Claims.antt has no such field"),
    ("a claim's definition dropped", changed(
        "crates/runs/specs/Demand3.antt", "pub record Demand3 ",
        "pub record Demand "),
     "crates/runs/specs: no definition of `Demand3`, which fn demand_3 of "
     "crate runs ensures"),
    ("a claim from a crate that is not below", changed(
        RUNS, "ghost use Rattle.runs.specs.Demand3.{Demand3};",
        "ghost use Rattle.why.specs.Demand3.{Demand3};"),
     "crates/runs/specs: no definition of `Demand3`, which fn demand_3 of "
     "crate runs ensures"),
    ("a claim dropped from the one that held it", changed(
        "crates/grimholdi/specs/Claims.antt",
        "  pub isolation : EntryIsolation\n", ""),
     "crates/grimholdi/specs/Isolation.antt: no pin reaches `EntryIsolation`, "
     "and no function ensures it"),
    ("a record of claims that nothing pins", added(
        "crates/runs/specs/Demand3.antt", "\npub record SpareClaims : Type 0 "
        "where\n  pub demand_3 : Demand3 rules\n"),
     "crates/runs/specs/Demand3.antt: no pin reaches `SpareClaims`, and no "
     "function ensures it"),
    ("a claim that is only required", lambda texts: (
        added("crates/runs/specs/Demand3.antt",
              "\nabbrev pub Spare : Type 0\nSpare = Reached\n")(texts),
        added(RUNS, "\nfn spare()\n    requires { Spare }\n    ensures "
              "{ result ≡ 0 }\n{\n    0\n}\n")(texts)),
     "crates/runs/specs/Demand3.antt: no pin reaches `Spare`, and no function "
     "ensures it"),
    ("a claim about a machine that nothing states", added(
        "crates/runs/specs/Demand3.antt",
        "\nabbrev pub SpareExact : Machine → Type 0\nSpareExact w = Reached\n"
    ),
     "crates/runs/specs/Demand3.antt: no pin reaches `SpareExact`, and no "
     "contract names it"),
    ("an entry that ensures nothing", added(
        ENTRIES, '\n#[unsafe(no_mangle)]\npub extern "C" fn grimholdi_spare(n: u32) '
        "-> u32\n{\n    n\n}\n"),
     "crates/grimholdi/src/lib.rt: fn grimholdi_spare is public and ensures "
     "nothing"),
    ("an entry that only requires", added(
        ENTRIES, '\n#[unsafe(no_mangle)]\npub extern "C" fn grimholdi_spare(n: u32) '
        "-> u32\n    requires { n ≤ 1 }\n{\n    n\n}\n"),
     "crates/grimholdi/src/lib.rt: fn grimholdi_spare is public and ensures "
     "nothing"),
    ("an export that says less", changed(EXPORTS, LAUNCHED, ""),
     "crates/grimholdi_c/src/lib.rt: fn grimholdi_launch has not the "
     "arguments and clauses of crate grimholdi's"),
    ("an export of another length", changed(
        EXPORTS, "grimholdi_tick(area: &mut [u8])",
        "grimholdi_tick(area: &mut [u8], ticks: u32)"),
     "crates/grimholdi_c/src/lib.rt: fn grimholdi_tick has not the "
     "arguments and clauses of crate grimholdi's"),
    ("a crate that crates.txt lacks", left_out_of_crates,
     "crates/spare/src/lib.rt: crate spare is not in crates.txt"),
]
