"""What docs/ARCHITECTURE.svg shows: the crates, the C side, two calls.

Rows are counted from the bottom, columns from the left.  architecture.py
compares CRATES with crates.txt and the steps with the functions in src/.
"""

from typing import NamedTuple


class Part(NamedTuple):
    """A box: a crate, or a part of the C side."""
    name: str
    row: int
    columns: tuple      # the first and the last
    lines: tuple        # what it holds


class Layer(NamedTuple):
    label: tuple        # lines; none where its crates stand beside others
    parts: tuple


class Step(NamedTuple):
    """What a call does next."""
    crate: str
    functions: tuple    # "name", or "Type::name"
    says: str
    leaves: tuple       # where the call may end here: lines, with the answer


class Flow(NamedTuple):
    entry: str
    says: str
    starts: str
    steps: tuple
    ends: str


COLUMNS = 5

# From the bottom, which is the order of the table in docs/ARCHITECTURE.md.
LAYERS = (
    Layer(("Foundations",), (
        Part("bools", 1, (3, 3), ("tests as numbers",)),
        Part("payload", 1, (4, 4), ("at most 64 bytes,", "zeros behind them")),
    )),
    Layer(("Ports,", "buffers,", "translator"), (
        Part("port", 2, (2, 2), ("one downstream port:",
                                 "states, events, timers")),
        Part("ports", 3, (2, 2), ("the first N ports:",
                                  "sweep, one, bitmap")),
        Part("chart", 3, (1, 1), ("a port's rules as a",
                                  "table, looked up")),
        Part("buffer", 2, (4, 4), ("keys, start-splits,",
                                   "results, one buffer")),
        Part("translator", 3, (4, 4), ("search, order, low",
                                       "side; calls by value")),
    )),
    Layer(("Requests,", "numbers"), (
        Part("request", 4, (3, 3), ("eight setup bytes",
                                    "to a request")),
        Part("numbers", 4, (4, 4), ("C's numbers to typed",
                                    "values and back")),
    )),
    Layer(("The hub", "by value"), (
        Part("hub", 5, (2, 4), ("every call as a method: a hub goes in, the "
                                "next hub and", "the answer come out; the "
                                "order of checks stands here")),
    )),
    Layer(("Claims", "over runs"), (
        Part("runs", 6, (2, 2), ("claims over whole", "runs of calls")),
        Part("hub_chart", 6, (3, 3), ("each port of the hub",
                                      "follows the chart")),
        Part("isolation", 6, (1, 1), ("one port cannot", "disturb another")),
    )),
    Layer(("Written", "forms"), (
        Part("area_check", 7, (4, 4), ("test of an area's", "bytes, no hub built")),
        Part("area", 7, (3, 3), ("the hub as bytes:", "read, written")),
        Part("area_parts", 8, (3, 3), ("head, slots, one",
                                  "buffer of an area")),
        Part("call_bytes", 7, (5, 5), ("a call as bytes:", "one record")),
        Part("recording", 8, (5, 5), ("a block: number,",
                                      "count, records, check")),
    )),
    Layer(("Tools", "by value"), (
        Part("why", 9, (2, 2), ("the reason of an", "answer; no call made")),
        Part("replay", 9, (4, 4), ("the calls of a block,",
                                   "answers, tally")),
    )),
    Layer(("C entries",), (
        Part("grimholdi", 10, (3, 3), ("the calls, on a",
                                       "lent area")),
        Part("grimholdi_c", 11, (3, 3), ("the calls' C functions,",
                                         "nothing else")),
        Part("grimholdi_why", 10, (2, 2), ("explains a call;",
                                           "the area is only read")),
        Part("grimholdi_block", 10, (5, 5), ("writes a block in",
                                             "lent memory")),
        Part("grimholdi_replay", 10, (4, 4), ("replays a block on",
                                              "an area's hub")),
    )),
    Layer((), (
        Part("port_table", 4, (2, 2), ("prints the whole",
                                       "port machine")),
        Part("port_chart", 4, (1, 1), ("prints the chart for",
                                       "people")),
        Part("port_engines", 5, (1, 1), ("steps by rules or",
                                         "chart, to be counted")),
        Part("bench_cases", 5, (5, 5), ("runs bench cases",
                                        "that are not proved")),
    )),
)

# The C side, above the crates; the header lies on the entries.
HEADER = Part("include/", 12, (1, 5), (
    "the header, with each call's contract in plain words, and header-only C",
))
C_SIDE = (
    Layer(("C interface",), (HEADER,)),
    Layer(("C programs",), (
        Part("examples/", 13, (2, 2), ("an example firmware,", "in scenes")),
        Part("tools/why", 13, (3, 3), ("tells why a call got",
                                       "its answer")),
        Part("tools/replay", 13, (4, 4), ("replays a recorded",
                                          "session")),
        Part("tests/", 13, (5, 5), ("C and C++ tests,",
                                    "model in Rust")),
    )),
)

FLOWS = (
    Flow("grimholdi_start_split", "no hub is built, one buffer is written",
         "in: area, seven numbers, payload", (
        Step("area_check", ("is_area",),
             "the area's bytes are tested", ("no valid hub: 6",)),
        Step("numbers", ("split_of", "split_named"),
             "the numbers are read as a start-split", ()),
        Step("area_parts", ("head_at",),
             "the head is read: N, B, configured, low side", ()),
        Step("hub", ("first_refusal",),
             "the first that is due of 6, 7, 5, 8",
             ("outside the rules: 6", "unconfigured: 5")),
        Step("area_parts", ("slots_at",),
             "the slots are read: 8 bytes of each buffer", ()),
        Step("translator", ("choose",),
             "one pass over the slots chooses a buffer",
             ("repeat: 0", "limit, no room: 3")),
        Step("area_parts", ("store",),
             "that buffer is written, and others' places", ()),
    ), "out: the answer struct, 0 (ACK)"),
    Flow("grimholdi_control", "here SetPortFeature: a hub by value",
         "in: area, lane, setup bytes, reply space", (
        Step("area", ("read_area",),
             "the bytes are tested and read into a hub", ("no valid hub: 6",)),
        Step("hub", ("Hub::control", "first_refusal"),
             "the first that is due of 6, 7, 5, 8",
             ("lane, setup length: 6", "reply space: 7")),
        Step("request", ("read",),
             "the setup bytes are read as a request", ()),
        Step("hub", ("Hub::serve",),
             "the request's rule; unconfigured, three only",
             ("wrong, not served: 2",)),
        Step("port", ("Port::set_feature",),
             "the port's step gives the next port", ()),
        Step("area", ("write_area",),
             "the next hub is written to the area", ()),
        Step("payload", ("Payload::give",),
             "the reply's n bytes go to the reply space", ()),
    ), "out: the answer struct, 0; with data 1 and n"),
)
