//! What the coverage tables tell of explained calls.

use crate::coverage::{call_name, CALLS, PORT_COUNTS, REQUESTS};
use crate::hub::{Call, Hub};
use crate::lanes;
use crate::port::Change;
use crate::reason::{self, Reason, Wrong};
use crate::table::{Table, Unreachable, ANSWERS};
use crate::translator::{Buffer, Lane, Translator};

pub struct Explained {
    calls: Table,
    buffers: Table,
    no_buffer: Table,
    changes: Table,
    polls: Table,
    wrong: Table,
    numbers: Table,
}

/// A refused area is `area`, a number or length outside the rules 6.
const REASONS: [&str; 17] = [
    "none", "5", "6", "area", "7", "8", "held", "reused", "took", "limit", "no room", "changes",
    "type", "unconf", "value", "index", "length",
];

/// The named buffer, by its status and the start-split's lane.
const BUFFERS: [&str; 12] = [
    "held, pending, lane 0",
    "held, pending, lane 1",
    "held, ready, lane 0",
    "held, ready, lane 1",
    "reused, lane 0",
    "reused, lane 1",
    "took empty, lane 0",
    "took empty, lane 1",
    "took own old, lane 0",
    "took own old, lane 1",
    "took other's old, lane 0",
    "took other's old, lane 1",
];

const BUFFER_NUMBERS: [&str; 9] =
    ["0 of 2", "1 of 2", "0 of 3", "1 of 3", "2 of 3", "0 of 4", "1 of 4", "2 of 4", "3 of 4"];

/// The one buffer that a lane at its limit doesn't hold: its own old one with
/// the key, another free one, or one that the other lane holds.
const NO_BUFFER: [&str; 4] = ["lim-own", "lim-free", "lim-full", "no room"];

const PORTS: [&str; 7] = ["port 1", "port 2", "port 3", "port 4", "port 5", "port 6", "port 7"];

/// The change bits, several or all at the port, and bits of other ports too.
const CHANGES: [&str; 8] =
    ["connect", "enable", "suspend", "over-cur", "reset", "several", "all five", "others"];

const POLLS: [&str; 2] = ["last port", "all ports"];

/// The first thing that is wrong, and another.
const WRONG_PAIRS: [&str; 7] = [
    "type+unconf",
    "unconf+value",
    "unconf+index",
    "unconf+length",
    "value+index",
    "value+length",
    "index+length",
];

const NUMBERED: [&str; 7] =
    ["control", "poll", "start-split", "complete-split", "launch", "deliver", "line event"];

/// The number answered, and another that applies.
const NUMBER_PAIRS: [&str; 7] = ["6+7", "6+5", "6+8", "7+5", "7+8", "5+8", "area+7"];

const SERVED_UNCONFIGURED: &[&str] = &["SetConfiguration", "GetConfiguration", "GetHubDescriptor"];

const NAMED_REQUESTS: &[&str] = match REQUESTS.split_last() {
    Some((_other, named)) => named,
    None => &[],
};

const UNREACHABLE_REASONS: [Unreachable; 13] = [
    Unreachable {
        rows: REQUESTS,
        columns: &["5", "8", "held", "reused", "took", "limit", "no room", "changes"],
        reason: "a control request is done, gives data or is stalled, in every state",
    },
    Unreachable { rows: NAMED_REQUESTS, columns: &["type"], reason: "the table has type and code" },
    Unreachable {
        rows: SERVED_UNCONFIGURED,
        columns: &["unconf"],
        reason: "served while unconfigured",
    },
    Unreachable {
        rows: &["GetHubDescriptor"],
        columns: &["length"],
        reason: "any length is right",
    },
    Unreachable {
        rows: &["other setup bytes"],
        columns: &["none", "unconf", "value", "index", "length"],
        reason: "type and code are wrong",
    },
    Unreachable {
        rows: &["poll", "start-split", "complete-split", "launch", "deliver", "line event"],
        columns: &["type", "unconf", "value", "index", "length"],
        reason: "the call has no fields",
    },
    Unreachable {
        rows: &["poll", "complete-split", "launch", "deliver", "line event"],
        columns: &["held", "reused", "took", "limit", "no room"],
        reason: "the call looks for no buffer to store in",
    },
    Unreachable {
        rows: &["start-split", "complete-split", "launch", "deliver", "line event"],
        columns: &["changes"],
        reason: "the call gives no change bits",
    },
    Unreachable { rows: &["start-split"], columns: &["none"], reason: "each answer has a reason" },
    Unreachable {
        rows: &["start-split", "deliver", "line event"],
        columns: &["7"],
        reason: "the call takes no reply space",
    },
    Unreachable {
        rows: &["poll", "start-split", "complete-split"],
        columns: &["8"],
        reason: "answered in every state",
    },
    Unreachable {
        rows: &["launch"],
        columns: &["6"],
        reason: "the call takes no number but its reply space's length",
    },
    Unreachable { rows: &["line event"], columns: &["5"], reason: "unconfigured, it is 8" },
];

const UNREACHABLE_FOR_DONE: Unreachable = Unreachable {
    rows: &["tick", "bus reset"],
    columns: &[
        "5", "6", "7", "8", "held", "reused", "took", "limit", "no room", "changes", "type",
        "unconf", "value", "index", "length",
    ],
    reason: "done in every state",
};

const UNREACHABLE_NO_BUFFER: Unreachable = Unreachable {
    rows: &["lane 0, 2 buf", "lane 1, 2 buf"],
    columns: &["no room"],
    reason: "below the limit a lane holds none, and the other at most one",
};

const UNREACHABLE_WRONG: [Unreachable; 4] = [
    Unreachable {
        rows: &["other setup bytes"],
        columns: &[
            "unconf+value",
            "unconf+index",
            "unconf+length",
            "value+index",
            "value+length",
            "index+length",
        ],
        reason: "type and code are wrong, and no fields are right with them",
    },
    Unreachable {
        rows: NAMED_REQUESTS,
        columns: &["type+unconf"],
        reason: "the table has type and code",
    },
    Unreachable {
        rows: SERVED_UNCONFIGURED,
        columns: &["unconf+value", "unconf+index", "unconf+length"],
        reason: "served while unconfigured",
    },
    Unreachable {
        rows: &["GetHubDescriptor"],
        columns: &["value+length", "index+length"],
        reason: "any length is right",
    },
];

const UNREACHABLE_NUMBERS: [Unreachable; 4] = [
    Unreachable {
        rows: &["start-split", "deliver", "line event"],
        columns: &["6+7", "7+5", "7+8", "area+7"],
        reason: "the call takes no reply space",
    },
    Unreachable {
        rows: &["control", "line event"],
        columns: &["6+5", "7+5", "5+8"],
        reason: "never silent",
    },
    Unreachable {
        rows: &["control", "poll", "start-split", "complete-split"],
        columns: &["6+8", "7+8", "5+8"],
        reason: "answered in every state",
    },
    Unreachable {
        rows: &["launch"],
        columns: &["6+7", "6+5", "6+8"],
        reason: "the call takes no number but its reply space's length",
    },
];

impl Explained {
    pub fn new() -> Explained {
        let calls = CALLS.into_iter().filter(|&call| call != "new");
        Explained {
            calls: Table::new("Reasons by call", calls, REASONS)
                .showing_visits()
                .without(UNREACHABLE_REASONS.into_iter().chain([UNREACHABLE_FOR_DONE])),
            buffers: Table::new("Reasons that name a buffer", BUFFERS, BUFFER_NUMBERS)
                .showing_visits(),
            no_buffer: Table::new("Limit and no room", lanes::START_SPLITS, NO_BUFFER)
                .showing_visits()
                .without([UNREACHABLE_NO_BUFFER]),
            changes: Table::new("Change bits named", PORTS, CHANGES).showing_visits(),
            polls: Table::new("Ports named by size of the hub", PORT_COUNTS, POLLS)
                .showing_visits(),
            wrong: Table::new(
                "Requests with two things wrong",
                REQUESTS.iter().copied(),
                WRONG_PAIRS,
            )
            .showing_visits()
            .without(UNREACHABLE_WRONG),
            numbers: Table::new("Calls that two numbers apply to", NUMBERED, NUMBER_PAIRS)
                .showing_visits()
                .without(UNREACHABLE_NUMBERS),
        }
    }

    pub fn tables(&self) -> [&Table; 7] {
        let Explained { calls, buffers, no_buffer, changes, polls, wrong, numbers } = self;
        [calls, buffers, no_buffer, changes, polls, wrong, numbers]
    }

    /// The calls counted.
    pub fn calls(&self) -> u64 {
        self.calls.total()
    }

    /// A call on the hub, or on an area that holds none, with its answer.
    pub fn count(&mut self, hub: Option<&Hub>, call: &Call, reason: &Reason, answer: u8) {
        self.calls.visit(call_name(call), name(hub, reason), answer);
        let hub = match hub {
            Some(hub) => hub,
            None => {
                if call.space().map_or(false, |space| space < 64) {
                    self.numbers.visit(numbered(call), "area+7", answer);
                }
                return;
            }
        };
        match (reason, call) {
            (Reason::Number(_), _) => self.number(hub, call, answer),
            (Reason::Changes(changes), _) => self.changes(hub, changes, answer),
            (Reason::Wrong(_), Call::Control { setup, .. }) => self.wrong(hub, call, setup, answer),
            (_, Call::StartSplit { .. }) => self.start_split(&hub.translator, call, reason, answer),
            _ => {}
        }
    }

    fn number(&mut self, hub: &Hub, call: &Call, answer: u8) {
        for later in reason::numbers(hub, call).skip(1) {
            self.numbers.visit(numbered(call), &format!("{answer}+{later}"), answer);
        }
    }

    fn changes(&mut self, hub: &Hub, changes: &[(usize, Change)], answer: u8) {
        let mut named = 0;
        for port in 1..=hub.ports.len() {
            let bits = changes.iter().filter(|(at, _)| *at == port).map(|(_, change)| *change);
            let bits: Vec<_> = bits.collect();
            let marks =
                [(5, bits.len() > 1), (6, bits.len() == 5), (7, changes.len() > bits.len())];
            let columns = marks.into_iter().filter(|(_, met)| *met && !bits.is_empty());
            let columns = columns.map(|(column, _)| column);
            for column in bits.iter().map(|change| *change as usize).chain(columns) {
                self.changes.count(port - 1, column, answer);
            }
            named += usize::from(!bits.is_empty());
        }
        let last = changes.last().map(|(port, _)| *port) == Some(hub.ports.len());
        let marks = [(0, last), (1, named == hub.ports.len())];
        for (column, _) in marks.into_iter().filter(|(_, met)| *met) {
            self.polls.count(hub.ports.len() - 1, column, answer);
        }
    }

    fn wrong(&mut self, hub: &Hub, call: &Call, setup: &[u8], answer: u8) {
        let things = reason::wrong_things(hub, setup);
        for later in &things[1..] {
            let pair = format!("{}+{}", wrong_name(things[0]), wrong_name(*later));
            self.wrong.visit(call_name(call), &pair, answer);
        }
    }

    fn start_split(&mut self, translator: &Translator, call: &Call, reason: &Reason, answer: u8) {
        let lane = lanes::carried(call).expect("the lane is permitted");
        let buffers = &translator.buffers;
        match *reason {
            Reason::Held(number) | Reason::Reused(number) | Reason::TookFree(number) => {
                let row = buffer_row(reason, &buffers[number], lane);
                let column = [0, 2, 5][buffers.len() - 2] + number;
                self.buffers.count(2 * row + lane as usize, column, answer);
            }
            _ => {
                let column = no_buffer(translator, call, reason);
                self.no_buffer.visit(lanes::start_split(translator, lane), column, answer);
            }
        }
    }
}

/// The column of `REASONS`.
fn name(hub: Option<&Hub>, reason: &Reason) -> &'static str {
    match reason {
        _ if hub.is_none() => "area",
        Reason::None => "none",
        Reason::Number(number) => ANSWERS[usize::from(*number)],
        Reason::Held(_) => "held",
        Reason::Reused(_) => "reused",
        Reason::TookFree(_) => "took",
        Reason::Limit => "limit",
        Reason::NoRoom => "no room",
        Reason::Changes(_) => "changes",
        Reason::Wrong(wrong) => wrong_name(*wrong),
    }
}

fn wrong_name(wrong: Wrong) -> &'static str {
    match wrong {
        Wrong::TypeOrCode => "type",
        Wrong::Unconfigured => "unconf",
        Wrong::Value => "value",
        Wrong::Index => "index",
        Wrong::Length => "length",
    }
}

/// The row of `NUMBERED`.
fn numbered(call: &Call) -> &'static str {
    match call {
        Call::Control { .. } => "control",
        _ => call_name(call),
    }
}

/// The first of two rows of `BUFFERS`, halved.
fn buffer_row(reason: &Reason, buffer: &Buffer, lane: Lane) -> usize {
    match (reason, buffer) {
        (Reason::Held(_), Buffer::Pending { .. }) => 0,
        (Reason::Held(_), _) => 1,
        (Reason::Reused(_), _) => 2,
        (_, Buffer::Empty) => 3,
        (_, _) => 4 + usize::from(buffer.lane() != Some(lane)),
    }
}

/// The column of `NO_BUFFER`.
fn no_buffer(translator: &Translator, call: &Call, reason: &Reason) -> &'static str {
    let numbers = match call {
        Call::StartSplit { numbers, .. } => numbers,
        _ => unreachable!("{call:?}"),
    };
    let key = numbers.understand().map(|start| start.key());
    let free = translator.buffers.iter().find(|buffer| buffer.is_free());
    match free {
        _ if *reason == Reason::NoRoom => "no room",
        None => "lim-full",
        Some(buffer) if buffer.key() == key => "lim-own",
        Some(_) => "lim-free",
    }
}
