//! What the coverage tables tell of lanes.

use crate::answer;
use crate::coverage::{request, Step};
use crate::hub::{Call, Hub};
use crate::request::Request;
use crate::translator::{Buffer, Key, Lane, Translator};

pub const LANES: [&str; 2] = ["lane 0", "lane 1"];

/// A number outside 0 and 1 is no lane.
pub const LANE_NUMBERS: [&str; 3] = ["lane 0", "lane 1", "no lane"];

/// The calls that carry a lane.
pub const CARRIERS: [&str; 4] = ["control", "poll", "start-split", "complete-split"];

pub const CARRIERS_BY_LANE: [&str; 12] = [
    "control, lane 0",
    "control, lane 1",
    "control, no lane",
    "poll, lane 0",
    "poll, lane 1",
    "poll, no lane",
    "start-split, lane 0",
    "start-split, lane 1",
    "start-split, no lane",
    "complete-split, lane 0",
    "complete-split, lane 1",
    "complete-split, no lane",
];

/// Some numbers outside 0 and 1.
pub const OUTSIDE: [&str; 5] = ["2", "255", "256", "2^31+1", "2^32-1"];
const OUTSIDE_NUMBERS: [u32; 5] = [2, 255, 256, 0x8000_0001, 0xFFFF_FFFF];

/// Calls for the translator, by their lane or that of the transaction.
pub const LANE_CALLS: [&str; 14] = [
    "SetConfiguration, lane 0",
    "SetConfiguration, lane 1",
    "ClearTTBuffer, lane 0",
    "ClearTTBuffer, lane 1",
    "ResetTT, lane 0",
    "ResetTT, lane 1",
    "start-split, lane 0",
    "start-split, lane 1",
    "complete-split, lane 0",
    "complete-split, lane 1",
    "launch, lane 0",
    "launch, lane 1",
    "deliver, lane 0",
    "deliver, lane 1",
];

/// What runs, the statuses of the lane's buffers and of the other lane's, and
/// whether both lanes hold an address, endpoint and direction.
pub const LANE_STATES: [&str; 11] = [
    "idle", "runs", "o-runs", "abandon", "pend", "ready", "old", "o-pend", "o-ready", "o-old",
    "twins",
];

pub const START_SPLITS: [&str; 6] = [
    "lane 0, 2 buf",
    "lane 0, 3 buf",
    "lane 0, 4 buf",
    "lane 1, 2 buf",
    "lane 1, 3 buf",
    "lane 1, 4 buf",
];

/// What a start-split meets: a repeat, below the lane's limit or at it; the
/// lane's own old buffer with its key, an empty one, another old one of the
/// lane or of the other lane is taken; at the limit, its own old buffer, a free
/// one or none is there; below the limit, none is there.
pub const CHOICES: [&str; 10] = [
    "repeat", "rep-lim", "own old", "empty", "old", "o-old", "lim-own", "lim-free", "lim-full",
    "full",
];

/// The call's place in `CARRIERS`, and the number it gives as a lane.
pub fn carrier(call: &Call) -> Option<(usize, u32)> {
    match call {
        Call::Control { lane, .. } => Some((0, *lane)),
        Call::Poll { lane, .. } => Some((1, *lane)),
        Call::StartSplit { numbers, .. } => Some((2, numbers.lane)),
        Call::CompleteSplit { lane, .. } => Some((3, *lane)),
        _ => None,
    }
}

/// The lane that the call carries.
pub fn carried(call: &Call) -> Option<Lane> {
    carrier(call).and_then(|(_, number)| Lane::from_number(number))
}

/// The number's place in `LANE_NUMBERS`.
pub fn lane_number(number: u32) -> usize {
    number.min(2) as usize
}

/// The number's place in `OUTSIDE`.
pub fn outside(number: u32) -> Option<usize> {
    OUTSIDE_NUMBERS.iter().position(|&outside| outside == number)
}

/// The call's place in `LANE_CALLS`, with its lane.  The call's numbers and
/// lengths are permitted and the hub is configured.
pub fn lane_call(step: &Step) -> Option<(usize, Lane)> {
    let (row, lane) = match step.call {
        Call::StartSplit { .. } => (6, carried(step.call)?),
        Call::CompleteSplit { .. } => (8, carried(step.call)?),
        Call::Launch { .. } if step.answer.number == answer::DATA => {
            (10, Lane::from_number(step.answer.lane.into())?)
        }
        Call::Deliver { .. } if step.answer.number == answer::DONE => {
            (12, step.before.translator.running()?.lane)
        }
        _ => match request(step.call)? {
            Request::SetConfiguration(_) => (0, carried(step.call)?),
            Request::ClearTtBuffer(key) => (2, key.lane),
            Request::ResetTt(lane) => (4, lane),
            _ => return None,
        },
    };
    Some((row + lane as usize, lane))
}

/// The places in `LANE_STATES` of what holds, seen from the lane.
pub fn lane_states(hub: &Hub, lane: Lane) -> impl Iterator<Item = usize> + '_ {
    let translator = &hub.translator;
    let low_side = match translator.running() {
        None if translator.is_idle() => 0,
        Some(start) if start.lane == lane => 1,
        Some(_) => 2,
        None => 3,
    };
    let statuses = translator.buffers.iter().filter_map(move |buffer| {
        let first = if buffer.lane()? == lane { 4 } else { 7 };
        Some(match buffer {
            Buffer::Pending { .. } => first,
            Buffer::Ready(..) => first + 1,
            Buffer::Empty | Buffer::Old(..) => first + 2,
        })
    });
    [low_side].into_iter().chain(statuses).chain(has_twins(translator).then_some(10))
}

/// Both lanes hold an address, endpoint and direction.
pub fn has_twins(translator: &Translator) -> bool {
    let mut keys = translator.buffers.iter().filter_map(Buffer::key);
    keys.any(|key| translator.find(key.twin()).is_some())
}

/// The row of `START_SPLITS`.
pub fn start_split(translator: &Translator, lane: Lane) -> &'static str {
    START_SPLITS[3 * lane as usize + translator.buffers.len() - 2]
}

/// The column of `CHOICES` for a start-split with this key.
pub fn choice(translator: &Translator, key: Key) -> &'static str {
    let buffers = &translator.buffers;
    let at_limit = translator.held(key.lane) == translator.limit();
    match translator.find(key) {
        Some(number) if buffers[number].is_free() => pick(at_limit, "lim-own", "own old"),
        Some(_) => pick(at_limit, "rep-lim", "repeat"),
        None => match buffers.iter().find(|buffer| buffer.is_free()) {
            None => pick(at_limit, "lim-full", "full"),
            Some(_) if at_limit => "lim-free",
            Some(buffer) => match buffer.lane() {
                None => "empty",
                Some(lane) => pick(lane == key.lane, "old", "o-old"),
            },
        },
    }
}

fn pick(first: bool, yes: &'static str, no: &'static str) -> &'static str {
    if first {
        yes
    } else {
        no
    }
}
