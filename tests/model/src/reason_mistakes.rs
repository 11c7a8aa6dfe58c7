//! Mistakes in the explaining of calls, which are themselves made as linked.

use crate::answer;
use crate::form;
use crate::hub::{Call, Hub};
use crate::lane_mistakes::with_lane;
use crate::library::{Guarded, Lent, Library, Linked, RawReason};
use crate::port::Change;
use crate::reason::{self, Reason, Wrong};
use crate::translator::{Buffer, Key, Translator};

/// Explains the call on the linked library, with the mistake.
type Told = fn(&Call, &mut Lent) -> RawReason;

/// The reason that is told instead of one, of a call on a permitted hub.
type Misread = fn(&Hub, &Call, Reason) -> Reason;

struct Mistaken(Told);

/// Model and library share the mistake, so that only the answer contradicts.
struct Shared(Misread);

const MISTAKES: &[(&str, Mistaken)] = &[
    ("type and code told after the unconfigured hub", Mistaken(unconfigured_first)),
    ("value told before the unconfigured hub", Mistaken(value_before_unconfigured)),
    ("index told before the value", Mistaken(index_before_value)),
    ("length told before the index", Mistaken(length_before_index)),
    ("the last wrong thing told", Mistaken(last_wrong)),
    ("unconfigured hub told of GetHubDescriptor", Mistaken(descriptor_unserved)),
    ("port above the last told as the value", Mistaken(port_as_value)),
    ("high byte of the index not tested", Mistaken(high_byte_ignored)),
    ("transfer type of ClearTTBuffer told as type and code", Mistaken(transfer_as_type)),
    ("limit told as no room", Mistaken(limit_as_no_room)),
    ("no room told before the limit", Mistaken(no_room_first)),
    ("limit told as no room in the own old buffer", Mistaken(own_old_no_room)),
    ("limit told before the repeat", Mistaken(limit_before_held)),
    ("reuse told as held", Mistaken(reused_as_held)),
    ("reuse told as taken free", Mistaken(reused_as_taken)),
    ("another key's old buffer told as reused", Mistaken(old_as_reused)),
    ("a ready buffer told as reused", Mistaken(ready_as_reused)),
    ("held names the lowest buffer", Mistaken(held_lowest)),
    ("held found in the other lane", Mistaken(held_without_lane)),
    ("taken free names another buffer", Mistaken(took_highest)),
    ("taken free names an empty buffer above an old one", Mistaken(took_empty_first)),
    ("a bit of a port above the last", Mistaken(port_above)),
    ("change bits shifted by one port", Mistaken(ports_shifted)),
    ("change bits shifted by one bit", Mistaken(bits_shifted)),
    ("one change bit of each port", Mistaken(lowest_bits)),
    ("over-current told as a change bit", Mistaken(level_told)),
    ("a poll answered 3 gets a reason", Mistaken(no_changes_told)),
    ("5 told before 7", Mistaken(silent_before_space)),
    ("8 told before 5", Mistaken(not_now_before_silent)),
    ("7 told before 6", Mistaken(space_before_outside)),
    ("a line event on an unconfigured hub told as 5", Mistaken(event_silent)),
    ("a request on an unconfigured hub told as 5", Mistaken(request_silent)),
    ("lane of an explained call cut to eight bits", Mistaken(lane_cut)),
    ("reply space not tested", Mistaken(any_space)),
    ("refused area not told", Mistaken(any_area)),
    ("a complete-split answered 2 gets a reason", Mistaken(stall_explained)),
    ("a complete-split answered 4 gets a reason", Mistaken(nyet_explained)),
    ("a launch answered 3 gets a reason", Mistaken(launch_explained)),
    ("answer 0 of a request told", Mistaken(done_told)),
    ("a value given that does not apply", Mistaken(value_given)),
    ("the explained call is made", Mistaken(made)),
    ("a byte behind the explained area written", Mistaken(guard_overwritten)),
];

const SHARED: &[(&str, Shared)] = &[
    ("shared: limit told as taken free", Shared(shared_limit)),
    ("shared: no room told as held", Shared(shared_no_room)),
    ("shared: reuse told as held", Shared(shared_reuse)),
    ("shared: a repeat told as reuse", Shared(shared_repeat)),
    ("shared: taken free names another buffer", Shared(shared_place)),
    ("shared: a port's change bits left out", Shared(shared_port)),
    ("shared: wrong length not told", Shared(shared_length)),
    ("shared: wrong index told of any port", Shared(shared_index)),
    ("shared: 8 not told", Shared(shared_not_now)),
    ("shared: 5 told as 8", Shared(shared_silent)),
];

pub fn all() -> impl Iterator<Item = (&'static str, &'static dyn Library)> {
    let mistakes = MISTAKES.iter().map(|(name, library)| (*name, library as &dyn Library));
    mistakes.chain(SHARED.iter().map(|(name, library)| (*name, library as &dyn Library)))
}

impl Library for Mistaken {
    fn explain(&self, call: &Call, lent: &mut Lent) -> RawReason {
        (self.0)(call, lent)
    }
}

impl Library for Shared {
    fn explain(&self, call: &Call, lent: &mut Lent) -> RawReason {
        self.expected_reason(read(lent).as_ref(), call).raw()
    }

    fn expected_reason(&self, hub: Option<&Hub>, call: &Call) -> Reason {
        let reason = Reason::of(hub, call);
        match hub {
            Some(hub) => (self.0)(hub, call, reason),
            None => reason,
        }
    }
}

fn read(lent: &Lent) -> Option<Hub> {
    form::read(lent.area.bytes())
}

const NONE: RawReason = RawReason { kind: 0, value: 0, changes: [0; 7] };
const NUMBER: u8 = 1;
const HELD: u8 = 2;
const REUSED: u8 = 3;
const TOOK_FREE: u8 = 4;
const LIMIT: u8 = 5;
const NO_ROOM: u8 = 6;
const CHANGES: u8 = 7;
const WRONG: u8 = 8;

fn told(kind: u8, value: u8) -> RawReason {
    RawReason { kind, value, ..NONE }
}

/// Explains the call.  If a request is refused, `choose` tells what is named
/// of all that is wrong.
fn of_wrong(call: &Call, lent: &mut Lent, choose: fn(&[Wrong]) -> Wrong) -> RawReason {
    let reason = Linked.explain(call, lent);
    match (call, read(lent)) {
        (Call::Control { setup, .. }, Some(hub)) if reason.kind == WRONG => {
            told(WRONG, choose(&reason::wrong_things(&hub, setup)) as u8)
        }
        _ => reason,
    }
}

/// The second thing where the first one is wrong too.
fn turned(things: &[Wrong], first: Wrong, second: Wrong) -> Wrong {
    if things[0] == first && things.contains(&second) {
        second
    } else {
        things[0]
    }
}

fn unconfigured_first(call: &Call, lent: &mut Lent) -> RawReason {
    of_wrong(call, lent, |things| turned(things, Wrong::TypeOrCode, Wrong::Unconfigured))
}

fn value_before_unconfigured(call: &Call, lent: &mut Lent) -> RawReason {
    of_wrong(call, lent, |things| turned(things, Wrong::Unconfigured, Wrong::Value))
}

fn index_before_value(call: &Call, lent: &mut Lent) -> RawReason {
    of_wrong(call, lent, |things| turned(things, Wrong::Value, Wrong::Index))
}

fn length_before_index(call: &Call, lent: &mut Lent) -> RawReason {
    of_wrong(call, lent, |things| turned(things, Wrong::Index, Wrong::Length))
}

fn last_wrong(call: &Call, lent: &mut Lent) -> RawReason {
    of_wrong(call, lent, |things| things[things.len() - 1])
}

fn descriptor_unserved(call: &Call, lent: &mut Lent) -> RawReason {
    let reason = Linked.explain(call, lent);
    let unconfigured = read(lent).map_or(false, |hub| !hub.configured);
    match call {
        Call::Control { setup, .. } if setup.starts_with(&[0xA0, 0x06]) && unconfigured => {
            match reason.kind {
                WRONG => told(WRONG, Wrong::Unconfigured as u8),
                _ => reason,
            }
        }
        _ => reason,
    }
}

fn port_as_value(call: &Call, lent: &mut Lent) -> RawReason {
    let reason = Linked.explain(call, lent);
    match (call, read(lent)) {
        (Call::Control { setup, .. }, Some(hub)) if reason == told(WRONG, Wrong::Index as u8) => {
            let above = usize::from(setup[4]) > hub.ports.len() && setup[5] == 0;
            let wrong = if above { Wrong::Value } else { Wrong::Index };
            told(WRONG, wrong as u8)
        }
        _ => reason,
    }
}

fn high_byte_ignored(call: &Call, lent: &mut Lent) -> RawReason {
    let mut low = call.clone();
    let mut seen = lent.clone();
    if let Call::Control { setup, .. } = &mut low {
        if let Some(high) = setup.get_mut(5) {
            *high = 0;
        }
        seen.input = Guarded::new(setup);
    }
    Linked.explain(&low, &mut seen)
}

fn transfer_as_type(call: &Call, lent: &mut Lent) -> RawReason {
    let reason = Linked.explain(call, lent);
    match call {
        Call::Control { setup, .. }
            if reason == told(WRONG, Wrong::Value as u8) && setup[..2] == [0x23, 0x08] =>
        {
            told(WRONG, Wrong::TypeOrCode as u8)
        }
        _ => reason,
    }
}

/// Explains the call.  If it is a start-split with a reason of this kind, the
/// mistake may give another one.
fn of_start(
    call: &Call,
    lent: &mut Lent,
    kind: u8,
    mistake: fn(&Translator, Key) -> Option<RawReason>,
) -> RawReason {
    let reason = Linked.explain(call, lent);
    let numbers = match call {
        Call::StartSplit { numbers, .. } => numbers,
        _ => return reason,
    };
    match (read(lent), numbers.understand()) {
        (Some(hub), Some(start)) if reason.kind == kind => {
            mistake(&hub.translator, start.key()).unwrap_or(reason)
        }
        _ => reason,
    }
}

fn limit_as_no_room(call: &Call, lent: &mut Lent) -> RawReason {
    of_start(call, lent, LIMIT, |_, _| Some(told(NO_ROOM, 0)))
}

fn no_room_first(call: &Call, lent: &mut Lent) -> RawReason {
    of_start(call, lent, LIMIT, |translator, _| {
        let full = !translator.buffers.iter().any(Buffer::is_free);
        full.then_some(told(NO_ROOM, 0))
    })
}

fn own_old_no_room(call: &Call, lent: &mut Lent) -> RawReason {
    of_start(call, lent, LIMIT, |translator, key| translator.find(key).map(|_| told(NO_ROOM, 0)))
}

fn limit_before_held(call: &Call, lent: &mut Lent) -> RawReason {
    of_start(call, lent, HELD, |translator, key| {
        (translator.held(key.lane) == translator.limit()).then_some(told(LIMIT, 0))
    })
}

fn reused_as_held(call: &Call, lent: &mut Lent) -> RawReason {
    of_start(call, lent, REUSED, |translator, key| place(HELD, translator.find(key)))
}

fn reused_as_taken(call: &Call, lent: &mut Lent) -> RawReason {
    of_start(call, lent, REUSED, |translator, key| place(TOOK_FREE, translator.find(key)))
}

fn old_as_reused(call: &Call, lent: &mut Lent) -> RawReason {
    of_start(call, lent, TOOK_FREE, |translator, _| {
        let number = translator.buffers.iter().position(Buffer::is_free);
        place(REUSED, number.filter(|&number| translator.buffers[number].key().is_some()))
    })
}

fn ready_as_reused(call: &Call, lent: &mut Lent) -> RawReason {
    of_start(call, lent, HELD, |translator, key| {
        let number = translator.find(key);
        place(REUSED, number.filter(|&number| translator.buffers[number].place().is_none()))
    })
}

fn held_lowest(call: &Call, lent: &mut Lent) -> RawReason {
    of_start(call, lent, HELD, |translator, key| {
        let of_lane = |buffer: &Buffer| buffer.lane() == Some(key.lane) && !buffer.is_free();
        place(HELD, translator.buffers.iter().position(of_lane))
    })
}

fn held_without_lane(call: &Call, lent: &mut Lent) -> RawReason {
    of_start(call, lent, TOOK_FREE, |translator, key| {
        let number = translator.find(key.twin());
        place(HELD, number.filter(|&number| !translator.buffers[number].is_free()))
    })
}

fn took_highest(call: &Call, lent: &mut Lent) -> RawReason {
    of_start(call, lent, TOOK_FREE, |translator, _| {
        place(TOOK_FREE, translator.buffers.iter().rposition(Buffer::is_free))
    })
}

fn took_empty_first(call: &Call, lent: &mut Lent) -> RawReason {
    of_start(call, lent, TOOK_FREE, |translator, _| {
        let is_empty = |buffer: &Buffer| matches!(buffer, Buffer::Empty);
        place(TOOK_FREE, translator.buffers.iter().position(is_empty))
    })
}

fn place(kind: u8, number: Option<usize>) -> Option<RawReason> {
    number.map(|number| told(kind, number as u8))
}

/// Explains the call.  If it is a poll answered 1, the mistake changes the
/// bits.
fn of_poll(call: &Call, lent: &mut Lent, mistake: fn(&Hub, &mut [u8; 7])) -> RawReason {
    let mut reason = Linked.explain(call, lent);
    if let Some(hub) = read(lent).filter(|_| reason.kind == CHANGES) {
        mistake(&hub, &mut reason.changes);
    }
    reason
}

fn port_above(call: &Call, lent: &mut Lent) -> RawReason {
    of_poll(call, lent, |hub, changes| {
        if let Some(above) = changes.get_mut(hub.ports.len()) {
            *above = 1;
        }
    })
}

fn ports_shifted(call: &Call, lent: &mut Lent) -> RawReason {
    of_poll(call, lent, |_, changes| changes.rotate_right(1))
}

fn bits_shifted(call: &Call, lent: &mut Lent) -> RawReason {
    of_poll(call, lent, |_, changes| changes.iter_mut().for_each(|bits| *bits <<= 1))
}

fn lowest_bits(call: &Call, lent: &mut Lent) -> RawReason {
    of_poll(call, lent, |_, changes| {
        changes.iter_mut().for_each(|bits| *bits &= bits.wrapping_neg());
    })
}

fn level_told(call: &Call, lent: &mut Lent) -> RawReason {
    of_poll(call, lent, |hub, changes| {
        for (bits, port) in changes.iter_mut().zip(&hub.ports) {
            *bits |= u8::from(port.over_current) << 5;
        }
    })
}

/// Explains the call.  Where `met` says so of a call on a permitted hub, this
/// is told instead of that.
fn instead(
    call: &Call,
    lent: &mut Lent,
    [new, old]: [RawReason; 2],
    met: fn(&Hub, &Call) -> bool,
) -> RawReason {
    let reason = Linked.explain(call, lent);
    match read(lent) {
        Some(hub) if reason == old && met(&hub, call) => new,
        _ => reason,
    }
}

fn no_changes_told(call: &Call, lent: &mut Lent) -> RawReason {
    instead(call, lent, [told(CHANGES, 0), NONE], |_, call| matches!(call, Call::Poll { .. }))
}

/// Tells the later of two numbers where both apply.
fn number_turned(call: &Call, lent: &mut Lent, later: u8, first: u8) -> RawReason {
    let reason = Linked.explain(call, lent);
    let applies = |hub: &Hub| reason::numbers(hub, call).any(|number| number == later);
    match read(lent) {
        Some(hub) if reason == told(NUMBER, first) && applies(&hub) => told(NUMBER, later),
        _ => reason,
    }
}

fn silent_before_space(call: &Call, lent: &mut Lent) -> RawReason {
    number_turned(call, lent, answer::SILENT, answer::NO_SPACE)
}

fn not_now_before_silent(call: &Call, lent: &mut Lent) -> RawReason {
    number_turned(call, lent, answer::NOT_NOW, answer::SILENT)
}

fn space_before_outside(call: &Call, lent: &mut Lent) -> RawReason {
    number_turned(call, lent, answer::NO_SPACE, answer::OUTSIDE)
}

fn event_silent(call: &Call, lent: &mut Lent) -> RawReason {
    let numbers = [answer::SILENT, answer::NOT_NOW].map(|number| told(NUMBER, number));
    instead(call, lent, numbers, |hub, call| {
        !hub.configured && matches!(call, Call::LineEvent { .. })
    })
}

fn request_silent(call: &Call, lent: &mut Lent) -> RawReason {
    let reasons = [told(NUMBER, answer::SILENT), told(WRONG, Wrong::Unconfigured as u8)];
    instead(call, lent, reasons, |_, _| true)
}

fn lane_cut(call: &Call, lent: &mut Lent) -> RawReason {
    Linked.explain(&with_lane(call, |lane| lane & 0xFF), lent)
}

fn any_space(call: &Call, lent: &mut Lent) -> RawReason {
    let reply = Guarded::new(&[0; 64]);
    let mut seen = Lent { reply, ..lent.clone() };
    Linked.explain(call, &mut seen)
}

fn any_area(call: &Call, lent: &mut Lent) -> RawReason {
    let reason = Linked.explain(call, lent);
    if read(lent).is_none() {
        NONE
    } else {
        reason
    }
}

/// Explains the call.  A call that `met` names gets this reason where it has
/// none and the answer is this one.
fn explained(
    call: &Call,
    lent: &mut Lent,
    number: u8,
    new: RawReason,
    met: fn(&Call) -> bool,
) -> RawReason {
    let reason = Linked.explain(call, lent);
    if met(call) && reason == NONE && Linked.call(call, &mut lent.clone()).number == number {
        new
    } else {
        reason
    }
}

fn stall_explained(call: &Call, lent: &mut Lent) -> RawReason {
    let value = told(WRONG, Wrong::Value as u8);
    explained(call, lent, answer::STALL, value, |call| matches!(call, Call::CompleteSplit { .. }))
}

fn nyet_explained(call: &Call, lent: &mut Lent) -> RawReason {
    let number = told(NUMBER, answer::NYET);
    explained(call, lent, answer::NYET, number, |call| matches!(call, Call::CompleteSplit { .. }))
}

fn launch_explained(call: &Call, lent: &mut Lent) -> RawReason {
    let number = told(NUMBER, answer::NAK);
    explained(call, lent, answer::NAK, number, |call| matches!(call, Call::Launch { .. }))
}

fn done_told(call: &Call, lent: &mut Lent) -> RawReason {
    let number = told(NUMBER, answer::DONE);
    explained(call, lent, answer::DONE, number, |call| matches!(call, Call::Control { .. }))
}

fn value_given(call: &Call, lent: &mut Lent) -> RawReason {
    of_start(call, lent, LIMIT, |translator, _| Some(told(LIMIT, translator.limit() as u8)))
}

fn made(call: &Call, lent: &mut Lent) -> RawReason {
    let reason = Linked.explain(call, lent);
    if matches!(call, Call::StartSplit { .. }) {
        Linked.call(call, lent);
    }
    reason
}

fn guard_overwritten(call: &Call, lent: &mut Lent) -> RawReason {
    if matches!(call, Call::Poll { .. }) {
        lent.area.break_guard();
    }
    Linked.explain(call, lent)
}

fn shared_limit(_: &Hub, _: &Call, reason: Reason) -> Reason {
    match reason {
        Reason::Limit => Reason::TookFree(0),
        _ => reason,
    }
}

fn shared_no_room(_: &Hub, _: &Call, reason: Reason) -> Reason {
    match reason {
        Reason::NoRoom => Reason::Held(0),
        _ => reason,
    }
}

fn shared_reuse(_: &Hub, _: &Call, reason: Reason) -> Reason {
    match reason {
        Reason::Reused(number) => Reason::Held(number),
        _ => reason,
    }
}

fn shared_repeat(_: &Hub, _: &Call, reason: Reason) -> Reason {
    match reason {
        Reason::Held(number) => Reason::Reused(number),
        _ => reason,
    }
}

fn shared_place(hub: &Hub, _: &Call, reason: Reason) -> Reason {
    match reason {
        Reason::TookFree(_) => {
            let number = hub.translator.buffers.iter().rposition(Buffer::is_free);
            number.map_or(reason, Reason::TookFree)
        }
        _ => reason,
    }
}

fn shared_port(_: &Hub, _: &Call, reason: Reason) -> Reason {
    match reason {
        Reason::Changes(mut changes) => {
            let is_kept = |&(port, _): &(usize, Change)| port != 2;
            changes.retain(is_kept);
            Reason::Changes(changes)
        }
        _ => reason,
    }
}

fn shared_length(_: &Hub, _: &Call, reason: Reason) -> Reason {
    match reason {
        Reason::Wrong(Wrong::Length) => Reason::None,
        _ => reason,
    }
}

fn shared_index(hub: &Hub, call: &Call, reason: Reason) -> Reason {
    match call {
        Call::Control { setup, .. }
            if setup.starts_with(&[0xA3, 0x00]) && reason == Reason::None && hub.configured =>
        {
            Reason::Wrong(Wrong::Index)
        }
        _ => reason,
    }
}

fn shared_not_now(_: &Hub, _: &Call, reason: Reason) -> Reason {
    match reason {
        Reason::Number(answer::NOT_NOW) => Reason::None,
        _ => reason,
    }
}

fn shared_silent(_: &Hub, _: &Call, reason: Reason) -> Reason {
    match reason {
        Reason::Number(answer::SILENT) => Reason::Number(answer::NOT_NOW),
        _ => reason,
    }
}
