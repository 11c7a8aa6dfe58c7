//! Mistakes that concern the lanes, for the list in `mistakes`.

use std::ops::Range;

use crate::answer;
use crate::damage::{self, Damage};
use crate::form;
use crate::hub::{Call, Hub};
use crate::lanes;
use crate::library::{Lent, Library, Linked, RawAnswer};
use crate::mistakes::matched_by;
use crate::request::Request;
use crate::translator::{Buffer, Lane, LowSide, Start, Translator};

const REFUSED: RawAnswer = RawAnswer {
    number: answer::OUTSIDE,
    length: 0,
    pid: 0,
    transfer: 0,
    lane: 0,
    address: 0,
    endpoint: 0,
    direction: 0,
    low_speed: 0,
    toggle: 0,
};

pub fn read(lent: &Lent) -> Option<Hub> {
    form::read(lent.area.bytes())
}

/// The place of the buffer in the area.
pub fn row(hub: &Hub, number: usize) -> Range<usize> {
    let start = form::length(hub.ports.len(), number);
    start..start + form::BUFFER
}

/// The hub before a start-split that the translator answered.
pub fn answered_start(call: &Call, before: &Lent, answer: RawAnswer) -> Option<(Hub, Start)> {
    match call {
        Call::StartSplit { numbers, .. } if matches!(answer.number, answer::DONE | answer::NAK) => {
            Some((read(before)?, numbers.understand()?))
        }
        _ => None,
    }
}

/// Makes the call.  If it was a start-split with this answer, 0 or 3, and `met`
/// says so of the translator before it, the answer is the other one and the
/// area is left alone.
fn start_turned(
    call: &Call,
    lent: &mut Lent,
    number: u8,
    met: fn(&Translator, &Start) -> bool,
) -> RawAnswer {
    let before = lent.clone();
    let answer = Linked.call(call, lent);
    let (hub, start) = match answered_start(call, &before, answer) {
        Some(found) => found,
        None => return answer,
    };
    if answer.number != number || !met(&hub.translator, &start) {
        return answer;
    }
    *lent = before;
    let turned = if number == answer::DONE { answer::NAK } else { answer::DONE };
    RawAnswer { number: turned, ..answer }
}

fn is_repeat(translator: &Translator, start: &Start) -> bool {
    translator.find(start.key()).map_or(false, |number| !translator.buffers[number].is_free())
}

fn at_limit(translator: &Translator, start: &Start) -> bool {
    translator.held(start.lane) == translator.limit()
}

fn has_free(translator: &Translator) -> bool {
    translator.buffers.iter().any(Buffer::is_free)
}

pub fn limit_first(call: &Call, lent: &mut Lent) -> RawAnswer {
    start_turned(call, lent, answer::DONE, |translator, start| {
        is_repeat(translator, start) && at_limit(translator, start)
    })
}

pub fn limit_with_old(call: &Call, lent: &mut Lent) -> RawAnswer {
    start_turned(call, lent, answer::DONE, |translator, start| {
        let own = |buffer: &&Buffer| buffer.lane() == Some(start.lane);
        !is_repeat(translator, start)
            && translator.buffers.iter().filter(own).count() >= translator.limit()
    })
}

pub fn limit_too_low(call: &Call, lent: &mut Lent) -> RawAnswer {
    start_turned(call, lent, answer::DONE, |translator, start| {
        translator.buffers.len() == 4
            && !is_repeat(translator, start)
            && translator.held(start.lane) + 1 == translator.limit()
    })
}

pub fn limit_too_high(call: &Call, lent: &mut Lent) -> RawAnswer {
    start_turned(call, lent, answer::NAK, |translator, start| {
        at_limit(translator, start) && has_free(translator)
    })
}

pub fn limit_of_both(call: &Call, lent: &mut Lent) -> RawAnswer {
    start_turned(call, lent, answer::DONE, |translator, start| {
        let held: usize = Lane::ALL.into_iter().map(|lane| translator.held(lane)).sum();
        !is_repeat(translator, start) && held >= translator.limit()
    })
}

pub fn own_old_passes(call: &Call, lent: &mut Lent) -> RawAnswer {
    start_turned(call, lent, answer::NAK, |translator, start| {
        translator.find(start.key()).is_some()
    })
}

pub fn other_old_kept(call: &Call, lent: &mut Lent) -> RawAnswer {
    start_turned(call, lent, answer::DONE, |translator, start| {
        lanes::choice(translator, start.key()) == "o-old"
    })
}

/// A buffer of the other lane makes it a repeat.
pub fn repeat_without_lane(call: &Call, lent: &mut Lent) -> RawAnswer {
    let before = lent.clone();
    let answer = Linked.call(call, lent);
    let (hub, start) = match answered_start(call, &before, answer) {
        Some(found) => found,
        None => return answer,
    };
    let twin = hub.translator.find(start.key().twin());
    if twin.map_or(false, |number| !hub.translator.buffers[number].is_free()) {
        *lent = before;
        return RawAnswer { number: answer::DONE, ..answer };
    }
    answer
}

/// What the call stored in one free buffer, moved to another.
pub fn moved(hub: &Hub, before: &Lent, lent: &mut Lent, from: usize, to: usize) {
    let new = lent.area.bytes()[row(hub, from)].to_vec();
    let old = before.area.bytes()[row(hub, from)].to_vec();
    lent.area.bytes_mut()[row(hub, from)].copy_from_slice(&old);
    lent.area.bytes_mut()[row(hub, to)].copy_from_slice(&new);
}

/// The other lane's old buffer is reused before a lower one.
pub fn reuse_without_lane(call: &Call, lent: &mut Lent) -> RawAnswer {
    let before = lent.clone();
    let answer = Linked.call(call, lent);
    let (hub, start) = match answered_start(call, &before, answer) {
        Some(found) => found,
        None => return answer,
    };
    let stored = read(lent).and_then(|hub| hub.translator.find(start.key()));
    let twin = hub.translator.find(start.key().twin());
    let own = hub.translator.find(start.key());
    if let (Some(stored), Some(twin), None) = (stored, twin, own) {
        if hub.translator.buffers[twin].is_free() {
            moved(&hub, &before, lent, stored, twin);
        }
    }
    answer
}

pub fn complete_without_lane(call: &Call, lent: &mut Lent) -> RawAnswer {
    matched_by(call, lent, |lane, _| *lane = 1 - *lane)
}

/// The hub before a request that was done, and the request.
fn done(call: &Call, before: &Lent, answer: RawAnswer) -> Option<(Hub, Request)> {
    let setup = match call {
        Call::Control { setup, .. } => setup,
        _ => return None,
    };
    if answer.number != answer::DONE {
        return None;
    }
    let request = Request::read(lanes::carried(call)?, setup.as_slice().try_into().ok()?)?;
    Some((read(before)?, request))
}

/// Makes the call.  If it was a request that is done, `mistake` changes the
/// area after it; it is given the hub before the call.
fn after_request(
    call: &Call,
    lent: &mut Lent,
    mistake: fn(&Request, &Hub, &mut Lent),
) -> RawAnswer {
    let before = lent.clone();
    let answer = Linked.call(call, lent);
    if let Some((hub, request)) = done(call, &before, answer) {
        mistake(&request, &hub, lent);
    }
    answer
}

/// The request once more, from the other lane.
fn from_other_lane(call: &Call, lent: &mut Lent, met: fn(&Request, &Hub) -> bool) -> RawAnswer {
    let before = lent.clone();
    let answer = Linked.call(call, lent);
    if let (Some((hub, request)), Call::Control { lane, setup, space }) =
        (done(call, &before, answer), call)
    {
        if met(&request, &hub) {
            let again = Call::Control { lane: 1 - lane, setup: setup.clone(), space: *space };
            Linked.call(&again, lent);
        }
    }
    answer
}

pub fn clear_without_lane(call: &Call, lent: &mut Lent) -> RawAnswer {
    from_other_lane(call, lent, |request, hub| match request {
        Request::ClearTtBuffer(key) => hub.translator.find(*key).is_none(),
        _ => false,
    })
}

pub fn reset_of_both(call: &Call, lent: &mut Lent) -> RawAnswer {
    from_other_lane(call, lent, |request, _| matches!(request, Request::ResetTt(_)))
}

/// The two bytes of the low side.
fn set_low_side(lent: &mut Lent, low_side: u8) {
    lent.area.bytes_mut()[6..8].copy_from_slice(&[low_side, 0]);
}

pub fn other_abandoned(call: &Call, lent: &mut Lent) -> RawAnswer {
    after_request(call, lent, |request, hub, lent| {
        let running = hub.translator.running().map(|start| start.lane);
        if matches!(request, Request::ResetTt(lane) if running == Some(lane.other())) {
            set_low_side(lent, 2);
        }
    })
}

pub fn own_stopped(call: &Call, lent: &mut Lent) -> RawAnswer {
    after_request(call, lent, |request, hub, lent| {
        let running = hub.translator.running().map(|start| start.lane);
        if matches!(request, Request::ResetTt(lane) if running == Some(*lane)) {
            set_low_side(lent, 0);
        }
    })
}

pub fn abandoned_freed(call: &Call, lent: &mut Lent) -> RawAnswer {
    after_request(call, lent, |request, hub, lent| {
        let abandoned = hub.translator.low_side == LowSide::Abandoned;
        if matches!(request, Request::ResetTt(_)) && abandoned {
            set_low_side(lent, 0);
        }
    })
}

pub fn configured_abandoned(call: &Call, lent: &mut Lent) -> RawAnswer {
    after_request(call, lent, |request, hub, lent| {
        let runs = hub.translator.running().is_some();
        if matches!(request, Request::SetConfiguration(true)) && runs {
            set_low_side(lent, 2);
        }
    })
}

/// Gives the buffers that `met` names what they held before.
fn keep(hub: &Hub, lent: &mut Lent, met: impl Fn(&Buffer) -> bool) {
    let before = form::write(hub);
    for (number, _) in hub.translator.buffers.iter().enumerate().filter(|(_, buffer)| met(buffer)) {
        lent.area.bytes_mut()[row(hub, number)].copy_from_slice(&before[row(hub, number)]);
    }
}

pub fn reset_keeps_old(call: &Call, lent: &mut Lent) -> RawAnswer {
    after_request(call, lent, |request, hub, lent| {
        if matches!(request, Request::ResetTt(_)) {
            keep(hub, lent, |buffer| matches!(buffer, Buffer::Old(..)));
        }
    })
}

pub fn configured_keeps_lane(call: &Call, lent: &mut Lent) -> RawAnswer {
    let before = lent.clone();
    let answer = Linked.call(call, lent);
    if let Some((hub, Request::SetConfiguration(_))) = done(call, &before, answer) {
        let other = lanes::carried(call).map(Lane::other);
        keep(&hub, lent, |buffer| buffer.lane() == other);
    }
    answer
}

pub fn bus_reset_keeps_lane(call: &Call, lent: &mut Lent) -> RawAnswer {
    let hub = read(lent);
    let answer = Linked.call(call, lent);
    if let (Some(hub), Call::BusReset) = (hub, call) {
        keep(&hub, lent, |buffer| buffer.lane() == Some(Lane::One));
    }
    answer
}

pub fn reset_closes_gaps(call: &Call, lent: &mut Lent) -> RawAnswer {
    after_request(call, lent, |request, hub, lent| {
        let places = |number: &usize| form::length(hub.ports.len(), *number) + 6;
        let after = match (read(lent), request) {
            (Some(after), Request::ResetTt(_)) => after,
            _ => return,
        };
        let buffers = &after.translator.buffers;
        let mut pending: Vec<usize> =
            (0..buffers.len()).filter(|&number| buffers[number].place().is_some()).collect();
        pending.sort_by_key(|&number| buffers[number].place());
        for (place, number) in pending.iter().enumerate() {
            lent.area.bytes_mut()[places(number)] = place as u8;
        }
    })
}

pub fn launch_without_lane(call: &Call, lent: &mut Lent) -> RawAnswer {
    let answer = Linked.call(call, lent);
    match call {
        Call::Launch { .. } => RawAnswer { lane: 0, ..answer },
        _ => answer,
    }
}

pub fn lane_given(call: &Call, lent: &mut Lent) -> RawAnswer {
    let answer = Linked.call(call, lent);
    match lanes::carried(call) {
        Some(lane) if answer.number == answer::HANDSHAKE => {
            RawAnswer { lane: lane as u8, ..answer }
        }
        _ => answer,
    }
}

/// The call with the lane that `change` makes of its own.
pub fn with_lane(call: &Call, change: impl Fn(u32) -> u32) -> Call {
    let mut call = call.clone();
    match &mut call {
        Call::Control { lane, .. } | Call::Poll { lane, .. } | Call::CompleteSplit { lane, .. } => {
            *lane = change(*lane);
        }
        Call::StartSplit { numbers, .. } => numbers.lane = change(numbers.lane),
        _ => {}
    }
    call
}

pub fn lane_cut(call: &Call, lent: &mut Lent) -> RawAnswer {
    Linked.call(&with_lane(call, |lane| lane & 0xFF), lent)
}

pub fn lane_of_poll_free(call: &Call, lent: &mut Lent) -> RawAnswer {
    match call {
        Call::Poll { space, .. } => Linked.call(&Call::Poll { lane: 0, space: *space }, lent),
        _ => Linked.call(call, lent),
    }
}

/// A call with a lane outside 0 and 1 gets this answer, where lane 0 would.
fn before_lane(call: &Call, lent: &mut Lent, number: u8) -> RawAnswer {
    let inside = Linked.call(&with_lane(call, |_| 0), &mut lent.clone());
    let answer = Linked.call(call, lent);
    match lanes::carrier(call) {
        Some((_, 2..)) if inside.number == number => inside,
        _ => answer,
    }
}

pub fn space_before_lane(call: &Call, lent: &mut Lent) -> RawAnswer {
    before_lane(call, lent, answer::NO_SPACE)
}

pub fn silence_before_lane(call: &Call, lent: &mut Lent) -> RawAnswer {
    before_lane(call, lent, answer::SILENT)
}

pub fn fields_before_lane(call: &Call, lent: &mut Lent) -> RawAnswer {
    match call {
        Call::Control { .. } => before_lane(call, lent, answer::STALL),
        _ => Linked.call(call, lent),
    }
}

/// The places of the buffers in an area with a hub's length.
fn buffers(lent: &Lent) -> impl Iterator<Item = usize> {
    let area = lent.area.bytes();
    let (ports, buffers) = match *area {
        [ports, buffers, ..] => (ports.into(), buffers.into()),
        _ => (0, 0),
    };
    let fits = area.len() == form::length(ports, buffers);
    (0..buffers).filter(move |_| fits).map(move |number| form::length(ports, number))
}

/// The last buffer of a crowded area is seen in the other lane.
pub fn crowded_taken(call: &Call, lent: &mut Lent) -> RawAnswer {
    let last = match buffers(lent).last() {
        Some(last) => last,
        None => return Linked.call(call, lent),
    };
    let mut seen = lent.clone();
    seen.area.bytes_mut()[last + 3] ^= form::LANE_BIT;
    let is_crowded = |hub: Hub| {
        let last = hub.translator.limit();
        matches!(damage::lane_flip(&hub, last), Damage::Crowded(..))
    };
    let crowded = read(&seen).map_or(false, is_crowded);
    Linked.call(call, if crowded { &mut seen } else { lent })
}

/// Refuses the area of a hub that `met` names.
pub fn refusing(call: &Call, lent: &mut Lent, met: fn(&Translator) -> bool) -> RawAnswer {
    match read(lent) {
        Some(hub) if met(&hub.translator) => REFUSED,
        _ => Linked.call(call, lent),
    }
}

pub fn old_crowds(call: &Call, lent: &mut Lent) -> RawAnswer {
    refusing(call, lent, |translator| {
        let mut lanes = Lane::ALL.into_iter();
        lanes.any(|lane| translator.buffers.iter().all(|buffer| buffer.lane() == Some(lane)))
    })
}

pub fn twins_refused(call: &Call, lent: &mut Lent) -> RawAnswer {
    refusing(call, lent, lanes::has_twins)
}

/// Makes the call on an area whose buffers `mend` has changed.
pub fn mended(call: &Call, lent: &mut Lent, mend: fn(&mut [u8])) -> RawAnswer {
    let mut seen = lent.clone();
    for place in buffers(lent) {
        mend(&mut seen.area.bytes_mut()[place..place + form::BUFFER]);
    }
    let answer = Linked.call(call, &mut seen);
    if !answer::is_refusal(answer.number) {
        *lent = seen;
    }
    answer
}

/// Bit 3 of the flags.
pub fn flag_ignored(call: &Call, lent: &mut Lent) -> RawAnswer {
    mended(call, lent, |buffer| buffer[3] &= !8)
}

pub fn empty_lane_ignored(call: &Call, lent: &mut Lent) -> RawAnswer {
    mended(call, lent, |buffer| {
        if buffer[0] == 0 {
            buffer[3] &= !form::LANE_BIT;
        }
    })
}
