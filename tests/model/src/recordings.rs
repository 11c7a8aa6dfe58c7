//! What the coverage tables tell of recordings.

use crate::answer;
use crate::block::{self, Refusal, CHECK, RECORDS};
use crate::coverage::{call_name, CALLS, UNREACHABLE_ANSWERS};
use crate::hub::{Call, Hub, StartNumbers};
use crate::port::Event;
use crate::record;
use crate::replay::{History, Made};
use crate::table::{Table, Unreachable, ANSWERS};
use crate::translator::{flag, Buffer, Key, Lane, LowSide, Outcome, Token, Transfer};

pub struct Recordings {
    refused: Table,
    lent: Table,
    changed: Table,
    writing: Table,
    replayed: Table,
    outside: Table,
    spaces: Table,
    fates: Table,
    /// The calls replayed.
    pub calls: u64,
}

pub const WORDS: [&str; 5] = ["length", "check", "number", "count", "record"];

/// What is wrong besides the word told.
const BESIDES: [&str; 5] = ["alone", "check", "number", "count", "record"];

const UNREACHABLE_BESIDES: [Unreachable; 4] = [
    Unreachable { rows: &["check"], columns: &["check"], reason: "it is the word told" },
    Unreachable {
        rows: &["number"],
        columns: &["check", "number"],
        reason: "a wrong check is told first",
    },
    Unreachable {
        rows: &["count"],
        columns: &["check", "number", "count"],
        reason: "a wrong check or number is told first",
    },
    Unreachable {
        rows: &["record"],
        columns: &["check", "number", "count", "record"],
        reason: "it is told last",
    },
];

/// What the replay of a block is lent.
pub const AREA: &str = "area refused";
pub const SHORT: &str = "answers' space too short";
pub const BOTH: &str = "area refused, answers' space too short";
pub const ROOM: &str = "area taken, answers' space enough";
const LENT: [&str; 4] = [AREA, SHORT, BOTH, ROOM];
const BLOCKS: [&str; 2] = ["good", "refused"];

/// The bytes of a good block.
const FIELDS: [&str; 8] = [
    "number",
    "count",
    "tag",
    "number of a call",
    "count of setup or payload bytes",
    "setup or payload byte",
    "unused byte",
    "check",
];

/// What a block with a changed byte is: as it stands, and with the check made
/// right.
const CHANGED: [&str; 5] = ["as it is", "good", "number", "count", "record"];

const UNREACHABLE_CHANGED: [Unreachable; 6] = [
    Unreachable {
        rows: &["number"],
        columns: &["good", "count", "record"],
        reason: "the place has one number, told before count and record",
    },
    Unreachable {
        rows: &["count"],
        columns: &["good", "number"],
        reason: "no record is a zero, or zeros alone",
    },
    Unreachable {
        rows: &["tag", "count of setup or payload bytes"],
        columns: &["number", "count"],
        reason: "the byte is a used one",
    },
    Unreachable {
        rows: &["number of a call", "setup or payload byte"],
        columns: &["number", "count", "record"],
        reason: "any byte is right",
    },
    Unreachable {
        rows: &["unused byte"],
        columns: &["good", "number", "record"],
        reason: "unused bytes are zero, told before the records",
    },
    Unreachable {
        rows: &["check"],
        columns: &["number", "count", "record"],
        reason: "the right check is the block's own",
    },
];

const UNREACHABLE_REPLAYED: Unreachable = Unreachable {
    rows: &["launch", "tick", "bus reset"],
    columns: &["6"],
    reason: "the call takes no number but a length, and its area is taken",
};

/// Numbers and lengths outside the rules.
const OUTSIDE: [&str; 19] = [
    "control: lane",
    "control: setup length",
    "poll: lane",
    "start-split: lane",
    "start-split: pid",
    "start-split: transfer",
    "start-split: low_speed",
    "start-split: toggle",
    "start-split: address",
    "start-split: endpoint",
    "start-split: payload length",
    "complete-split: lane",
    "complete-split: address",
    "complete-split: endpoint",
    "complete-split: direction",
    "deliver: result",
    "deliver: payload length",
    "line event: event",
    "line event: port",
];

const SIZES: [&str; 3] = ["< 2^8", "< 2^16", ">= 2^16"];

const UNREACHABLE_SIZES: Unreachable = Unreachable {
    rows: &["control: setup length", "start-split: payload length", "deliver: payload length"],
    columns: &[">= 2^16"],
    reason: "a record holds at most 506 bytes",
};

const SPACED: [&str; 4] = ["control", "poll", "complete-split", "launch"];
const SPACES: [&str; 7] = ["0", "1..63", "64", "65..255", "256..", "2^32-1", "more"];

/// What becomes of stored start-splits, old ones too.
const ANSWERED: [&str; 4] = ["answered 1", "answered 9", "old, asked again", "old, stored over"];
const EMPTYING: [&str; 4] = ["ClearTTBuffer", "ResetTT", "SetConfiguration", "bus reset"];
const EMPTIED: [[&str; 4]; 4] = [
    [
        "pending, ClearTTBuffer",
        "running, ClearTTBuffer",
        "ready, ClearTTBuffer",
        "old, ClearTTBuffer",
    ],
    ["pending, ResetTT", "running, ResetTT", "ready, ResetTT", "old, ResetTT"],
    [
        "pending, SetConfiguration",
        "running, SetConfiguration",
        "ready, SetConfiguration",
        "old, SetConfiguration",
    ],
    ["pending, bus reset", "running, bus reset", "ready, bus reset", "old, bus reset"],
];

/// The block that stored it.
const STORED: [&str; 2] = ["same", "earlier"];

/// What is asked of the memory of a block under way.
pub const WRITING: [&str; 28] = [
    "start",
    "start, length wrong",
    "start, number 0",
    "start, number above 65535",
    "start, length and number wrong",
    "add",
    "add, the block is full then",
    "add, length wrong",
    "add, head not zero",
    "add, tail zero",
    "add, count above 506",
    "add, tag of no call",
    "add, record short",
    "add, record long",
    "add, no bytes",
    "add, one byte too many",
    "add, does not fit",
    "add, fits no block",
    "add, not under way and no call",
    "add, not under way and does not fit",
    "add, no call and does not fit",
    "finish",
    "finish, length wrong",
    "finish, head not zero",
    "finish, tail zero",
    "finish, count above 506",
    "finish, no records",
    "finish, not zero behind",
];

impl Recordings {
    pub fn new() -> Recordings {
        let calls = CALLS.into_iter().filter(|&call| call != "new");
        let fates = ANSWERED.into_iter().chain(EMPTIED.into_iter().flatten());
        Recordings {
            refused: Table::new("Refused blocks: the word told and others", WORDS, BESIDES)
                .showing_visits()
                .without(UNREACHABLE_BESIDES),
            lent: Table::new("Replays by what is lent and the block", LENT, BLOCKS)
                .showing_visits(),
            changed: Table::new("Blocks with a byte changed", FIELDS, CHANGED)
                .showing_visits()
                .without(UNREACHABLE_CHANGED),
            writing: Table::new("Blocks under way", WRITING, ["answers"]),
            replayed: Table::new("Replayed calls by answer", calls, ANSWERS)
                .showing_visits()
                .without(UNREACHABLE_ANSWERS.into_iter().chain([UNREACHABLE_REPLAYED])),
            outside: Table::new("Recorded numbers outside the rules", OUTSIDE, SIZES)
                .showing_visits()
                .without([UNREACHABLE_SIZES]),
            spaces: Table::new("Recorded reply spaces", SPACED, SPACES).showing_visits(),
            fates: Table::new("Start-splits by fate and the block that stored them", fates, STORED)
                .showing_visits(),
            calls: 0,
        }
    }

    pub fn tables(&self) -> [&Table; 8] {
        let Recordings {
            refused, lent, changed, writing, replayed, outside, spaces, fates, ..
        } = self;
        [refused, lent, changed, writing, replayed, outside, spaces, fates]
    }

    /// The blocks that were handed over for a replay, good or not.
    pub fn blocks(&self) -> u64 {
        self.lent.total()
    }

    /// A replay with all that is wrong with the block.
    pub fn replay(&mut self, lent: &str, faults: &[Refusal]) {
        self.lent.visit(lent, BLOCKS[usize::from(!faults.is_empty())], 0);
        let (told, others) = match faults.split_first() {
            Some(found) if lent == ROOM => found,
            _ => return,
        };
        let row = WORDS[*told as usize - 1];
        if others.is_empty() {
            self.refused.visit(row, "alone", 0);
        }
        for other in others {
            self.refused.visit(row, WORDS[*other as usize - 1], 0);
        }
    }

    /// A good block with the byte `at` changed, with the check made right if
    /// `sealed`, and what it is refused for.
    pub fn changed(&mut self, good: &[u8], at: usize, sealed: bool, refusal: Option<Refusal>) {
        let column = match refusal {
            _ if !sealed => CHANGED[0],
            None => CHANGED[1],
            Some(refusal) => WORDS[refusal as usize - 1],
        };
        self.changed.visit(field(good, at), column, 0);
    }

    pub fn writing(&mut self, row: &str, answer: u8) {
        self.writing.visit(row, "answers", answer);
    }

    /// A call that was recorded.
    pub fn recorded(&mut self, hub: &Hub, call: &Call) {
        for (row, number) in outside(hub, call) {
            let column = SIZES[usize::from(number >= 1 << 8) + usize::from(number >= 1 << 16)];
            self.outside.visit(row, column, 0);
        }
        if let Some(space) = call.space() {
            let row = match call {
                Call::Control { .. } => "control",
                _ => call_name(call),
            };
            let column = match space {
                0 => 0,
                1..=63 => 1,
                64 => 2,
                65..=255 => 3,
                _ if space < record::SPACE_MAX => 4,
                record::SPACE_MAX => 5,
                _ => 6,
            };
            self.spaces.visit(row, SPACES[column], 0);
        }
    }

    /// The calls of a block at this place, with the history before it.
    pub fn made(&mut self, mut history: History, made: &[Made], place: u32) {
        history.begin(place);
        for made in made {
            let number = made.answer.number;
            self.replayed.visit(call_name(&made.call), ANSWERS[usize::from(number)], number);
            for (row, key) in fates(made) {
                let stored = history.last(key).map(|stored| stored.place);
                self.fates.visit(row, STORED[usize::from(stored != Some(place))], number);
            }
            history.note(&made.call, &made.answer);
        }
    }
}

/// The name of the byte in a good block.
fn field(block: &[u8], at: usize) -> &'static str {
    match at {
        0..=1 => return "number",
        _ if at < RECORDS => return "count",
        CHECK.. => return "check",
        _ => {}
    }
    let mut rest = block::used(block);
    let mut at = at - RECORDS;
    while let Some((call, behind)) = record::read_first(rest) {
        let length = rest.len() - behind.len();
        if at < length {
            let numbers = record::numbers_end(&call);
            return match at {
                0 => "tag",
                _ if at < numbers => "number of a call",
                _ if at < numbers + 2 => "count of setup or payload bytes",
                _ => "setup or payload byte",
            };
        }
        at -= length;
        rest = behind;
    }
    "unused byte"
}

/// The rows of `OUTSIDE` of the call's numbers and lengths that are outside
/// the rules, each by itself, with the number or length.
fn outside(hub: &Hub, call: &Call) -> Vec<(&'static str, u32)> {
    let lane = |number: u32| (number, Lane::from_number(number).is_some());
    let (first, given) = match *call {
        Call::Control { lane: given, ref setup, .. } => {
            (0, vec![lane(given), (setup.len() as u32, setup.len() == 8)])
        }
        Call::Poll { lane: given, .. } => (2, vec![lane(given)]),
        Call::StartSplit { ref numbers, ref payload } => (3, start_split(numbers, payload)),
        Call::CompleteSplit { lane: given, address, endpoint, direction, .. } => {
            let (address, endpoint) = ((address, address <= 127), (endpoint, endpoint <= 15));
            (11, vec![lane(given), address, endpoint, (direction, direction <= 1)])
        }
        Call::Deliver { result, ref payload } => {
            let named = Outcome::from_number(result, &[]);
            let length = match named {
                Some(Outcome::Data(..)) | None => payload.len() <= 64,
                Some(_) => payload.is_empty(),
            };
            (15, vec![(result, named.is_some()), (payload.len() as u32, length)])
        }
        Call::LineEvent { event, port } => {
            let named = (event as usize) < Event::ALL.len();
            let exists = (1..=hub.ports.len()).contains(&(port as usize));
            (17, vec![(event, named), (port, exists)])
        }
        Call::Launch { .. } | Call::Tick | Call::BusReset => return Vec::new(),
    };
    let rows = OUTSIDE[first..].iter().zip(given);
    rows.filter(|(_, (_, right))| !right).map(|(row, (number, _))| (*row, number)).collect()
}

/// The numbers and the length of a start-split, each with whether it is
/// permitted by itself.
fn start_split(numbers: &StartNumbers, payload: &[u8]) -> Vec<(u32, bool)> {
    let token = Token::from_number(numbers.pid);
    let length = match token {
        Some(Token::In) => payload.is_empty(),
        Some(Token::Setup) => payload.len() == 8,
        Some(Token::Out) | None => payload.len() <= 64,
    };
    vec![
        (numbers.lane, Lane::from_number(numbers.lane).is_some()),
        (numbers.pid, token.is_some()),
        (numbers.transfer, Transfer::from_number(numbers.transfer).is_some()),
        (numbers.low_speed, flag(numbers.low_speed).is_some()),
        (numbers.toggle, flag(numbers.toggle).is_some()),
        (numbers.address, numbers.address <= 127),
        (numbers.endpoint, numbers.endpoint <= 15),
        (payload.len() as u32, length),
    ]
}

/// The rows of `fates` for the start-splits that the call concerned, with
/// their keys.
fn fates(made: &Made) -> Vec<(&'static str, Key)> {
    let before = &made.before.translator;
    let pairs = before.buffers.iter().zip(&made.after.translator.buffers).enumerate();
    pairs
        .filter_map(|(number, (old, new))| {
            let running = before.low_side == LowSide::Running(number);
            Some((fate(made, old, new, running)?, old.key()?))
        })
        .collect()
}

/// What the call did to one buffer.
fn fate(made: &Made, old: &Buffer, new: &Buffer, running: bool) -> Option<&'static str> {
    match (&made.call, old, new) {
        (Call::CompleteSplit { .. }, Buffer::Ready(..), Buffer::Old(..)) => {
            Some(ANSWERED[usize::from(made.answer.number == answer::HANDSHAKE)])
        }
        (&Call::CompleteSplit { lane, address, endpoint, direction, .. }, Buffer::Old(..), _)
            if !answer::is_refusal(made.answer.number) =>
        {
            let asked = Key::from_numbers(lane, address, endpoint, direction);
            (old.key() == asked).then_some(ANSWERED[2])
        }
        (Call::StartSplit { .. }, Buffer::Old(..), Buffer::Pending { .. }) => Some(ANSWERED[3]),
        (call, _, Buffer::Empty) => {
            let name = call_name(call);
            let row = EMPTYING.iter().position(|&emptying| emptying == name)?;
            let column = match old {
                Buffer::Empty => return None,
                Buffer::Pending { .. } => usize::from(running),
                Buffer::Ready(..) => 2,
                Buffer::Old(..) => 3,
            };
            Some(EMPTIED[row][column])
        }
        _ => None,
    }
}
