//! Which situations the calls met.  A cell is one combination of a situation
//! and a call; each must be visited or be listed as unreachable.

use crate::answer::{self, Answer};
use crate::damage::{Damage, FIELDS};
use crate::explained::Explained;
use crate::hub::{Call, Hub};
use crate::lanes;
use crate::port::{ClearFeature, Port, SetFeature, State};
use crate::reason::Reason;
use crate::recordings::Recordings;
use crate::request::Request;
use crate::situations::SITUATIONS;
use crate::table::{Table, Unreachable, ANSWERS};
use crate::translator::{Buffer, Direction, Key, LowSide, Outcome, Toggle, Token};

/// One call of a session: the hub before and after it.
pub struct Step<'a> {
    pub before: &'a Hub,
    pub call: &'a Call,
    pub reason: &'a Reason,
    pub answer: &'a Answer,
    pub after: &'a Hub,
}

pub struct Coverage {
    hubs: Table,
    ports: Table,
    translator: Table,
    keys: Table,
    results: Table,
    answers: Table,
    damage: Table,
    carriers: Table,
    outside: Table,
    requests: Table,
    lanes: Table,
    choices: Table,
    searches: Table,
    crowded: Table,
    situations: Table,
    explained: Explained,
    pub recordings: Recordings,
}

pub const PORT_COUNTS: [&str; 7] =
    ["1 port", "2 ports", "3 ports", "4 ports", "5 ports", "6 ports", "7 ports"];
const BUFFER_COUNTS: [&str; 3] = ["2 buf", "3 buf", "4 buf"];

const PORT_INPUTS: [&str; 20] = [
    "attach low",
    "attach full",
    "detach",
    "chirp",
    "wake",
    "port error",
    "over-current on",
    "over-current off",
    "tick",
    "set PORT_SUSPEND",
    "set PORT_RESET",
    "set PORT_POWER",
    "clear PORT_ENABLE",
    "clear PORT_SUSPEND",
    "clear PORT_POWER",
    "clear C_PORT_CONNECTION",
    "clear C_PORT_ENABLE",
    "clear C_PORT_SUSPEND",
    "clear C_PORT_OVER_CURRENT",
    "clear C_PORT_RESET",
];

/// States with the speed's first letter; Off! is Powered-off under
/// over-current.
const PORT_STATES: [&str; 19] = [
    "NotC", "Off", "Off!", "Disc", "DisaL", "DisaF", "DisaH", "RsetL", "RsetF", "RsetH", "EnabL",
    "EnabF", "EnabH", "SuspL", "SuspF", "SuspH", "RsumL", "RsumF", "RsumH",
];

pub const CALLS: [&str; 20] = [
    "SetConfiguration",
    "GetConfiguration",
    "GetHubDescriptor",
    "GetHubStatus",
    "GetPortStatus",
    "ClearHubFeature",
    "ClearPortFeature",
    "SetPortFeature",
    "ClearTTBuffer",
    "ResetTT",
    "other setup bytes",
    "poll",
    "start-split",
    "complete-split",
    "launch",
    "deliver",
    "line event",
    "tick",
    "bus reset",
    "new",
];

pub const REQUESTS: &[&str] = &[
    "SetConfiguration",
    "GetConfiguration",
    "GetHubDescriptor",
    "GetHubStatus",
    "GetPortStatus",
    "ClearHubFeature",
    "ClearPortFeature",
    "SetPortFeature",
    "ClearTTBuffer",
    "ResetTT",
    "other setup bytes",
];

const UNREACHABLE_BY_LANE: [Unreachable; 5] = [
    Unreachable {
        rows: &["control, lane 0", "control, lane 1"],
        columns: &["3", "4", "5", "8", "9"],
        reason: "a control request is done, gives data or is stalled, in every state",
    },
    Unreachable {
        rows: &["poll, lane 0", "poll, lane 1"],
        columns: &["0", "2", "4", "8", "9"],
        reason: "a poll gives a bitmap or NAK",
    },
    Unreachable {
        rows: &["start-split, lane 0", "start-split, lane 1"],
        columns: &["1", "2", "4", "7", "8", "9"],
        reason: "a start-split is acknowledged or gets NAK, and takes no reply space",
    },
    Unreachable {
        rows: &["complete-split, lane 0", "complete-split, lane 1"],
        columns: &["0", "3", "8"],
        reason: "a complete-split gives STALL, NYET, data or a handshake",
    },
    Unreachable {
        rows: &[
            "control, no lane",
            "poll, no lane",
            "start-split, no lane",
            "complete-split, no lane",
        ],
        columns: &["0", "1", "2", "3", "4", "5", "7", "8", "9"],
        reason: "a lane outside 0 and 1 comes first",
    },
];

const UNREACHABLE_LANE_STATES: [Unreachable; 2] = [
    Unreachable {
        rows: &["launch, lane 0", "launch, lane 1"],
        columns: &["runs", "o-runs", "abandon"],
        reason: "nothing is launched while the low side is occupied",
    },
    Unreachable {
        rows: &["deliver, lane 0", "deliver, lane 1"],
        columns: &["idle", "o-runs", "abandon"],
        reason: "the lane is that of the running transaction",
    },
];

const UNREACHABLE_CHOICES: [Unreachable; 2] = [
    Unreachable {
        rows: &["lane 0, 2 buf", "lane 1, 2 buf"],
        columns: &["repeat"],
        reason: "a lane with one buffer is at the limit",
    },
    Unreachable {
        rows: &["lane 0, 2 buf", "lane 1, 2 buf"],
        columns: &["full"],
        reason: "below the limit a lane holds none, and the other at most one",
    },
];

pub const UNREACHABLE_ANSWERS: [Unreachable; 12] = [
    Unreachable {
        rows: REQUESTS,
        columns: &["3", "4", "5", "8", "9"],
        reason: "a control request is done, gives data or is stalled, in every state",
    },
    Unreachable {
        rows: &["GetConfiguration", "GetHubDescriptor", "GetHubStatus", "GetPortStatus"],
        columns: &["0"],
        reason: "a Get request gives data",
    },
    Unreachable {
        rows: &[
            "SetConfiguration",
            "ClearHubFeature",
            "ClearPortFeature",
            "SetPortFeature",
            "ClearTTBuffer",
            "ResetTT",
        ],
        columns: &["1"],
        reason: "the request gives no data",
    },
    Unreachable {
        rows: &["other setup bytes"],
        columns: &["0", "1"],
        reason: "bytes that are no request are stalled",
    },
    Unreachable {
        rows: &["poll"],
        columns: &["0", "2", "4", "8", "9"],
        reason: "a poll gives a bitmap or NAK",
    },
    Unreachable {
        rows: &["start-split"],
        columns: &["1", "2", "4", "8", "9"],
        reason: "a start-split is acknowledged or gets NAK",
    },
    Unreachable {
        rows: &["start-split", "deliver", "line event", "tick", "bus reset", "new"],
        columns: &["7"],
        reason: "the call takes no reply space",
    },
    Unreachable {
        rows: &["complete-split"],
        columns: &["0", "3", "8"],
        reason: "a complete-split gives STALL, NYET, data or a handshake",
    },
    Unreachable {
        rows: &["launch"],
        columns: &["0", "2", "4", "9"],
        reason: "a launch gives a transaction, NAK, or finds the low side occupied",
    },
    Unreachable {
        rows: &["deliver"],
        columns: &["1", "2", "3", "4", "9"],
        reason: "a delivery is taken or not in this state",
    },
    Unreachable {
        rows: &["line event"],
        columns: &["1", "2", "3", "4", "5", "9"],
        reason: "an event took place or not in this state; unconfigured, it is 8",
    },
    Unreachable {
        rows: &["tick", "bus reset", "new"],
        columns: &["1", "2", "3", "4", "5", "8", "9"],
        reason: "done in every state",
    },
];

/// The hub's configuration, the low side, and the statuses that buffers have.
const TRANSLATOR_STATES: [&str; 8] =
    ["unconf", "idle", "running", "abandon", "empty", "pending", "ready", "old"];

/// By call, PID or direction, and lane.
const KEY_CALLS: [[&str; 2]; 7] = [
    ["start-split IN, lane 0", "start-split IN, lane 1"],
    ["start-split OUT, lane 0", "start-split OUT, lane 1"],
    ["start-split SETUP, lane 0", "start-split SETUP, lane 1"],
    ["complete-split IN, lane 0", "complete-split IN, lane 1"],
    ["complete-split OUT, lane 0", "complete-split OUT, lane 1"],
    ["ClearTTBuffer IN, lane 0", "ClearTTBuffer IN, lane 1"],
    ["ClearTTBuffer OUT, lane 0", "ClearTTBuffer OUT, lane 1"],
];

/// The buffer with the call's key: none but the other lane's, none though one
/// is free, none and none free, waiting to be launched, running, ready, old.
const KEY_STATES: [&str; 7] = ["other's", "none", "full", "waiting", "running", "ready", "old"];

/// The buffer that a start-split finds, and another that is free: below one
/// with its key, above one that it takes.
const SEARCHES: [[&str; 2]; 4] = [
    ["held, a lower one empty", "held, a lower one old"],
    ["reused, a lower one empty", "reused, a lower one old"],
    ["took empty, a higher one empty", "took empty, a higher one old"],
    ["took old, a higher one empty", "took old, a higher one old"],
];

/// A buffer with a result, by its status and PID.  Sessions reach the results
/// that suit the PID; areas hold the others too.
const FINISHED: [[&str; 3]; 2] =
    [["ready IN", "ready OUT", "ready SETUP"], ["old IN", "old OUT", "old SETUP"]];
const RESULTS: [&str; 6] = ["failure", "ACK", "DATA0", "NAK", "DATA1", "STALL"];

const DAMAGE_ENDS: [&str; 2] = ["refused", "taken"];
const SEVERAL: &str = "several bytes";
const LENGTH: &str = "length";
const UNREACHED: &str = "permitted, not reached";
const LANE: &str = "lane bit, room in the lane";
const TWIN: &str = "lane bit, key held twice";
const CROWDED: &str = "lane bit, lane crowded";

const UNREACHABLE_DAMAGE: [Unreachable; 9] = [
    Unreachable {
        rows: &[LANE],
        columns: &["refused"],
        reason: "the lane may hold one more buffer of a key of its own",
    },
    Unreachable {
        rows: &[TWIN, CROWDED],
        columns: &["taken"],
        reason: "no key is held twice, and no lane holds all buffers",
    },
    Unreachable {
        rows: &["ports", "buffers", LENGTH],
        columns: &["taken"],
        reason: "the length no longer fits the numbers",
    },
    Unreachable {
        rows: &["power-good", "current"],
        columns: &["refused"],
        reason: "every byte is permitted",
    },
    Unreachable {
        rows: &["configured"],
        columns: &["taken"],
        reason: "the ports no longer fit it",
    },
    Unreachable {
        rows: &["byte of the payload"],
        columns: &["refused"],
        reason: "every byte is permitted",
    },
    Unreachable {
        rows: &["byte behind the payload"],
        columns: &["taken"],
        reason: "bytes behind the payload are zero",
    },
    Unreachable {
        rows: &["byte of an empty buffer"],
        columns: &["taken"],
        reason: "an empty buffer is all zero, and PID 0 is none",
    },
    Unreachable {
        rows: &[UNREACHED],
        columns: &["refused"],
        reason: "every permitted hub is taken",
    },
];

impl Coverage {
    pub fn new() -> Coverage {
        let damage_rows =
            FIELDS.iter().copied().chain([LANE, TWIN, CROWDED, SEVERAL, LENGTH, UNREACHED]);
        let situation_rows = SITUATIONS.iter().map(|(name, _)| *name);
        Coverage {
            hubs: Table::new("Session calls by size of the hub", PORT_COUNTS, BUFFER_COUNTS)
                .showing_visits(),
            ports: Table::new("Ports: answers by input and state", PORT_INPUTS, PORT_STATES),
            translator: translator_table(),
            keys: Table::new(
                "Keys: answers by call and the key's buffer",
                KEY_CALLS.into_iter().flatten(),
                KEY_STATES,
            ),
            results: Table::new(
                "Complete-splits: answers by the buffer and its result",
                FINISHED.into_iter().flatten(),
                RESULTS,
            ),
            answers: Table::new("Calls by answer", CALLS, ANSWERS)
                .showing_visits()
                .without(UNREACHABLE_ANSWERS),
            damage: Table::new("Changed areas", damage_rows, DAMAGE_ENDS)
                .showing_visits()
                .without(UNREACHABLE_DAMAGE),
            carriers: Table::new("Calls by lane and answer", lanes::CARRIERS_BY_LANE, ANSWERS)
                .showing_visits()
                .without(UNREACHABLE_BY_LANE),
            outside: Table::new("Lanes outside 0 and 1", lanes::CARRIERS, lanes::OUTSIDE),
            requests: Table::new(
                "Requests: answers by lane",
                REQUESTS.iter().copied(),
                lanes::LANE_NUMBERS,
            ),
            lanes: lane_table(),
            choices: choice_table(),
            searches: Table::new(
                "Start-splits: what the search passes over",
                SEARCHES.into_iter().flatten(),
                BUFFER_COUNTS,
            )
            .showing_visits(),
            crowded: Table::new("Crowded areas", lanes::LANES, BUFFER_COUNTS).showing_visits(),
            situations: Table::new("Situations", situation_rows, ["visits"]).showing_visits(),
            explained: Explained::new(),
            recordings: Recordings::new(),
        }
    }

    pub fn session_call(&mut self, step: &Step) {
        let number = step.answer.number;
        let (ports, buffers) = (step.before.ports.len(), step.before.translator.buffers.len());
        self.hubs.visit(PORT_COUNTS[ports - 1], BUFFER_COUNTS[buffers - 2], number);
        self.separate_call(Some(step.before), step.call, step.reason, step.answer);
        self.situations(step);
        if matches!(number, answer::OUTSIDE | answer::NO_SPACE) {
            return;
        }
        for (input, port) in port_inputs(step) {
            self.ports.count(input, port_state(port), number);
        }
        let row = self.translator.row(call_name(step.call));
        for column in translator_states(step.before) {
            self.translator.count(row, column, number);
        }
        if step.before.configured {
            self.lanes(step);
        }
    }

    fn lanes(&mut self, step: &Step) {
        let (hub, number) = (step.before, step.answer.number);
        if let Some((call, key)) = key_call(step) {
            self.keys.visit(call, key_state(hub, key), number);
            if matches!(step.call, Call::StartSplit { .. }) {
                let row = lanes::start_split(&hub.translator, key.lane);
                self.choices.visit(row, lanes::choice(&hub.translator, key), number);
                for row in searches(&hub.translator.buffers, step.reason) {
                    self.searches.count(row, hub.translator.buffers.len() - 2, number);
                }
            }
        }
        if let Some((row, lane)) = lanes::lane_call(step) {
            for column in lanes::lane_states(hub, lane) {
                self.lanes.count(row, column, number);
            }
        }
    }

    fn situations(&mut self, step: &Step) {
        for (row, (_, met)) in SITUATIONS.iter().enumerate() {
            if met(step) {
                self.situations.count(row, 0, step.answer.number);
            }
        }
    }

    /// A call on the hub, or on an area that holds none.
    pub fn separate_call(
        &mut self,
        hub: Option<&Hub>,
        call: &Call,
        reason: &Reason,
        answer: &Answer,
    ) {
        self.answer(call, answer);
        self.explained.count(hub, call, reason, answer.number);
        if matches!(answer.number, answer::DATA | answer::HANDSHAKE) {
            if let Some((row, column)) = hub.and_then(|hub| completed(hub, call)) {
                self.results.visit(row, column, answer.number);
            }
        }
    }

    fn answer(&mut self, call: &Call, answer: &Answer) {
        let (name, number) = (call_name(call), answer.number);
        self.answers.visit(name, ANSWERS[usize::from(number)], number);
        let (carrier, lane) = match lanes::carrier(call) {
            Some(found) => found,
            None => return,
        };
        let place = lanes::lane_number(lane);
        self.carriers.count(3 * carrier + place, number.into(), number);
        if let Some(outside) = lanes::outside(lane) {
            self.outside.count(carrier, outside, number);
        }
        if matches!(call, Call::Control { .. }) {
            self.requests.visit(name, lanes::LANE_NUMBERS[place], number);
        }
    }

    pub fn new_hub(&mut self, answer: &Answer) {
        self.answers.visit("new", ANSWERS[usize::from(answer.number)], answer.number);
    }

    pub fn damage(&mut self, damage: &Damage, taken: bool) {
        let row = match damage {
            Damage::None => return,
            Damage::Byte(field) => FIELDS[*field],
            Damage::Lane => LANE,
            Damage::Twin => TWIN,
            Damage::Crowded(lane, buffers) => {
                self.crowded.visit(lanes::LANES[*lane as usize], BUFFER_COUNTS[buffers - 2], 0);
                CROWDED
            }
            Damage::Several => SEVERAL,
            Damage::Length => LENGTH,
        };
        self.damage.visit(row, DAMAGE_ENDS[usize::from(taken)], 0);
    }

    pub fn unreached(&mut self, taken: bool) {
        self.damage.visit(UNREACHED, DAMAGE_ENDS[usize::from(taken)], 0);
    }

    fn tables(&self) -> Vec<&Table> {
        let tables = [
            &self.hubs,
            &self.ports,
            &self.translator,
            &self.keys,
            &self.results,
            &self.answers,
            &self.damage,
            &self.carriers,
            &self.outside,
            &self.requests,
            &self.lanes,
            &self.choices,
            &self.searches,
            &self.crowded,
            &self.situations,
        ];
        let recordings = self.recordings.tables();
        tables.into_iter().chain(self.explained.tables()).chain(recordings).collect()
    }

    /// The calls that were explained.
    pub fn explained(&self) -> u64 {
        self.explained.calls()
    }

    pub fn print(&self) {
        self.tables().into_iter().for_each(Table::print);
    }

    /// The reachable cells, and those of them that were visited.
    pub fn cells(&self) -> (usize, usize) {
        let reachable = self.tables().iter().map(|table| table.reachable().count()).sum();
        let gaps = self.tables().iter().map(|table| table.gaps().len()).sum::<usize>();
        (reachable, reachable - gaps)
    }

    /// What was never visited, and what was visited though listed as
    /// unreachable.
    pub fn faults(&self) -> Vec<String> {
        self.tables().iter().flat_map(|table| [table.gaps(), table.surprises()].concat()).collect()
    }
}

fn translator_table() -> Table {
    Table::new(
        "Translator: answers by call and state of low side and buffers",
        CALLS.into_iter().filter(|&call| call != "new"),
        TRANSLATOR_STATES,
    )
}

fn lane_table() -> Table {
    Table::new(
        "Lanes: answers by call and state of the lane and the other (o-)",
        lanes::LANE_CALLS,
        lanes::LANE_STATES,
    )
    .without(UNREACHABLE_LANE_STATES)
}

fn choice_table() -> Table {
    Table::new("Start-splits: answers by lane and choice", lanes::START_SPLITS, lanes::CHOICES)
        .without(UNREACHABLE_CHOICES)
}

/// The eight setup bytes of a control request.
pub fn setup(call: &Call) -> Option<&[u8; 8]> {
    match call {
        Call::Control { setup, .. } => setup.as_slice().try_into().ok(),
        _ => None,
    }
}

/// The request, whether the hub serves it or not.
pub fn request(call: &Call) -> Option<Request> {
    Request::read(lanes::carried(call)?, setup(call)?)
}

pub fn call_name(call: &Call) -> &'static str {
    match call {
        Call::Control { .. } => match setup(call).map(|setup| (setup[0], setup[1])) {
            Some((0x00, 0x09)) => "SetConfiguration",
            Some((0x80, 0x08)) => "GetConfiguration",
            Some((0xA0, 0x06)) => "GetHubDescriptor",
            Some((0xA0, 0x00)) => "GetHubStatus",
            Some((0xA3, 0x00)) => "GetPortStatus",
            Some((0x20, 0x01)) => "ClearHubFeature",
            Some((0x23, 0x01)) => "ClearPortFeature",
            Some((0x23, 0x03)) => "SetPortFeature",
            Some((0x23, 0x08)) => "ClearTTBuffer",
            Some((0x23, 0x09)) => "ResetTT",
            _ => "other setup bytes",
        },
        Call::Poll { .. } => "poll",
        Call::StartSplit { .. } => "start-split",
        Call::CompleteSplit { .. } => "complete-split",
        Call::Launch { .. } => "launch",
        Call::Deliver { .. } => "deliver",
        Call::LineEvent { .. } => "line event",
        Call::Tick => "tick",
        Call::BusReset => "bus reset",
    }
}

/// The inputs that the call gives to ports, as places in `PORT_INPUTS`.
fn port_inputs<'a>(step: &Step<'a>) -> Vec<(usize, &'a Port)> {
    let ports = &step.before.ports;
    let named = |input: usize, port: usize| {
        port.checked_sub(1)
            .and_then(|place| ports.get(place))
            .map(|port| (input, port))
            .into_iter()
            .collect()
    };
    match step.call {
        Call::Tick => ports.iter().map(|port| (8, port)).collect(),
        Call::LineEvent { event, port } => named(*event as usize, *port as usize),
        _ => match request(step.call) {
            Some(Request::SetPortFeature(feature, port)) => {
                let input = match feature {
                    SetFeature::Suspend => 9,
                    SetFeature::Reset => 10,
                    SetFeature::Power => 11,
                };
                named(input, port.into())
            }
            Some(Request::ClearPortFeature(feature, port)) => {
                let input = match feature {
                    ClearFeature::Enable => 12,
                    ClearFeature::Suspend => 13,
                    ClearFeature::Power => 14,
                    ClearFeature::Change(change) => 15 + change as usize,
                };
                named(input, port.into())
            }
            _ => Vec::new(),
        },
    }
}

/// The port's place in `PORT_STATES`.
fn port_state(port: &Port) -> usize {
    let first = match port.state {
        State::NotConfigured => 0,
        State::PoweredOff => 1 + usize::from(port.over_current),
        State::Disconnected => 3,
        State::Disabled(_) => 4,
        State::Resetting(..) => 7,
        State::Enabled(_) => 10,
        State::Suspended(_) => 13,
        State::Resuming(..) => 16,
    };
    first + port.state.speed().map_or(0, |speed| speed as usize)
}

/// The places in `TRANSLATOR_STATES` of what holds.
fn translator_states(hub: &Hub) -> impl Iterator<Item = usize> + '_ {
    let low_side = match hub.translator.low_side {
        _ if !hub.configured => 0,
        LowSide::Idle => 1,
        LowSide::Running(_) => 2,
        LowSide::Abandoned => 3,
    };
    let statuses = hub.translator.buffers.iter().map(|buffer| match buffer {
        Buffer::Empty => 4,
        Buffer::Pending { .. } => 5,
        Buffer::Ready(..) => 6,
        Buffer::Old(..) => 7,
    });
    [low_side].into_iter().chain(statuses.filter(|_| hub.configured))
}

fn key_call(step: &Step) -> Option<(&'static str, Key)> {
    let (row, key) = match step.call {
        Call::StartSplit { numbers, .. } => {
            let start = numbers.understand()?;
            let row = match start.token {
                Token::In => 0,
                Token::Out => 1,
                Token::Setup => 2,
            };
            (row, start.key())
        }
        Call::CompleteSplit { lane, address, endpoint, direction, .. } => {
            let key = Key::from_numbers(*lane, *address, *endpoint, *direction)?;
            (if key.direction == Direction::In { 3 } else { 4 }, key)
        }
        _ => match request(step.call)? {
            Request::ClearTtBuffer(key) => {
                (if key.direction == Direction::In { 5 } else { 6 }, key)
            }
            _ => return None,
        },
    };
    Some((KEY_CALLS[row][key.lane as usize], key))
}

/// The places in `SEARCHES` of what a start-split with this reason met.
fn searches(buffers: &[Buffer], reason: &Reason) -> impl Iterator<Item = usize> {
    let is_empty = |buffer: &Buffer| matches!(buffer, Buffer::Empty);
    let is_old = |buffer: &Buffer| matches!(buffer, Buffer::Old(..));
    let (first, others) = match *reason {
        Reason::Held(number) => (0, &buffers[..number]),
        Reason::Reused(number) => (2, &buffers[..number]),
        Reason::TookFree(number) if is_empty(&buffers[number]) => (4, &buffers[number + 1..]),
        Reason::TookFree(number) => (6, &buffers[number + 1..]),
        _ => (0, &buffers[..0]),
    };
    let marks = [(first, others.iter().any(is_empty)), (first + 1, others.iter().any(is_old))];
    marks.into_iter().filter(|(_, met)| *met).map(|(row, _)| row)
}

/// Status and PID of the buffer that a complete-split is for, and its result.
fn completed(hub: &Hub, call: &Call) -> Option<(&'static str, &'static str)> {
    let key = match *call {
        Call::CompleteSplit { lane, address, endpoint, direction, .. } => {
            Key::from_numbers(lane, address, endpoint, direction)?
        }
        _ => return None,
    };
    let buffer = &hub.translator.buffers[hub.translator.find(key)?];
    let row = match buffer.start()?.token {
        Token::In => 0,
        Token::Out => 1,
        Token::Setup => 2,
    };
    let column = match buffer.outcome()? {
        Outcome::Failure => 0,
        Outcome::Ack => 1,
        Outcome::Data(Toggle::Data0, _) => 2,
        Outcome::Nak => 3,
        Outcome::Data(Toggle::Data1, _) => 4,
        Outcome::Stall => 5,
    };
    Some((FINISHED[usize::from(buffer.is_free())][row], RESULTS[column]))
}

fn key_state(hub: &Hub, key: Key) -> &'static str {
    let translator = &hub.translator;
    match translator.find(key) {
        None if translator.find(key.twin()).is_some() => "other's",
        None if translator.buffers.iter().any(Buffer::is_free) => "none",
        None => "full",
        Some(number) => match translator.buffers[number] {
            Buffer::Pending { .. } if translator.low_side == LowSide::Running(number) => "running",
            Buffer::Pending { .. } => "waiting",
            Buffer::Ready(..) => "ready",
            Buffer::Old(..) => "old",
            Buffer::Empty => unreachable!("an empty buffer has no key"),
        },
    }
}
