//! The library with one mistake each, to show that the comparison finds it.

use crate::answer;
use crate::form;
use crate::hub::Call;
use crate::lane_mistakes as lanes;
use crate::library::{Lent, Library, Linked, RawAnswer};
use crate::search_mistakes as search;
use crate::translator::Buffer;

/// Makes the call on the linked library, with the mistake.
type Wrong = fn(&Call, &mut Lent) -> RawAnswer;

pub struct Mistaken(Wrong);

const MISTAKES: &[(&str, Mistaken)] = &[
    ("keys matched without direction", Mistaken(without_direction)),
    ("a result longer than delivered", Mistaken(older_tail)),
    ("late result given to a refilled buffer", Mistaken(late_result)),
    ("reset timer restarted by a second PORT_RESET", Mistaken(timer_restarted)),
    ("change bits dropped when power goes off", Mistaken(changes_dropped)),
    ("C_PORT_ENABLE set by a detach", Mistaken(detach_reported)),
    ("C_PORT_ENABLE set by an over-current in Resuming", Mistaken(over_current_reported)),
    ("C_PORT_ENABLE not set by a port error", Mistaken(error_unreported)),
    ("reply space checked before the numbers", Mistaken(space_first)),
    ("a refused call changes the area", Mistaken(refusal_changes)),
    ("a reply byte behind the data written", Mistaken(reply_overwritten)),
    ("a byte behind the area written", Mistaken(guard_overwritten)),
    ("an unused mark ignored", Mistaken(mark_ignored)),
    ("area with a result that does not suit its PID refused", Mistaken(unsuited_refused)),
    ("area with a payload on a handshake taken", Mistaken(payload_passed_over)),
    ("a field given that does not apply", Mistaken(field_given)),
    ("a failure not shown as STALL", Mistaken(failure_shown)),
    ("lane ignored by a complete-split's key", Mistaken(lanes::complete_without_lane)),
    ("lane ignored by a start-split's repeat", Mistaken(lanes::repeat_without_lane)),
    ("lane ignored by a start-split's old buffer", Mistaken(lanes::reuse_without_lane)),
    ("lane ignored by a ClearTTBuffer's key", Mistaken(lanes::clear_without_lane)),
    ("limit tested before the repeat", Mistaken(lanes::limit_first)),
    ("limit counts old buffers", Mistaken(lanes::limit_with_old)),
    ("limit of B - 2 with four buffers", Mistaken(lanes::limit_too_low)),
    ("limit of B", Mistaken(lanes::limit_too_high)),
    ("limit counts both lanes", Mistaken(lanes::limit_of_both)),
    ("own old buffer passes the limit", Mistaken(lanes::own_old_passes)),
    ("old buffer of the other lane not taken", Mistaken(lanes::other_old_kept)),
    ("ResetTT empties both lanes", Mistaken(lanes::reset_of_both)),
    ("ResetTT keeps old buffers", Mistaken(lanes::reset_keeps_old)),
    ("ResetTT abandons the other lane's transaction", Mistaken(lanes::other_abandoned)),
    ("ResetTT stops the low side at once", Mistaken(lanes::own_stopped)),
    ("ResetTT frees an abandoned low side", Mistaken(lanes::abandoned_freed)),
    ("ResetTT closes gaps in the places", Mistaken(lanes::reset_closes_gaps)),
    ("SetConfiguration empties its own lane", Mistaken(lanes::configured_keeps_lane)),
    ("SetConfiguration abandons the transaction", Mistaken(lanes::configured_abandoned)),
    ("bus reset empties lane 0", Mistaken(lanes::bus_reset_keeps_lane)),
    ("launch without its lane", Mistaken(lanes::launch_without_lane)),
    ("lane given by a complete-split", Mistaken(lanes::lane_given)),
    ("lane cut to eight bits", Mistaken(lanes::lane_cut)),
    ("lane of a poll not tested", Mistaken(lanes::lane_of_poll_free)),
    ("reply space tested before the lane", Mistaken(lanes::space_before_lane)),
    ("unconfigured hub silent before the lane", Mistaken(lanes::silence_before_lane)),
    ("setup fields tested before the lane", Mistaken(lanes::fields_before_lane)),
    ("crowded area taken", Mistaken(lanes::crowded_taken)),
    ("old buffers crowd an area", Mistaken(lanes::old_crowds)),
    ("area with a key in both lanes refused", Mistaken(lanes::twins_refused)),
    ("a flag behind the lane ignored", Mistaken(lanes::flag_ignored)),
    ("lane of an empty buffer ignored", Mistaken(lanes::empty_lane_ignored)),
    ("highest free buffer taken", Mistaken(search::highest_taken)),
    ("buffer 0 not looked at", Mistaken(search::first_passed_over)),
    ("search ends at the first free buffer", Mistaken(search::ends_at_free)),
    ("repeat behind a free buffer not seen", Mistaken(search::repeat_unseen)),
    ("own old buffer not preferred", Mistaken(search::own_old_not_preferred)),
    ("empty buffer preferred to a lower old one", Mistaken(search::empty_preferred)),
    ("last buffer not looked at", Mistaken(search::last_passed_over)),
];

pub fn all() -> impl Iterator<Item = (&'static str, &'static dyn Library)> {
    MISTAKES.iter().map(|(name, library)| (*name, library as &dyn Library))
}

impl Library for Mistaken {
    fn call(&self, call: &Call, lent: &mut Lent) -> RawAnswer {
        (self.0)(call, lent)
    }
}

/// A complete-split without a match is asked again, with the change to its
/// lane and direction.
pub fn matched_by(call: &Call, lent: &mut Lent, change: fn(&mut u32, &mut u32)) -> RawAnswer {
    let answer = Linked.call(call, lent);
    let mut again = call.clone();
    match &mut again {
        Call::CompleteSplit { lane, direction, .. } if answer.number == answer::STALL => {
            change(lane, direction);
            Linked.call(&again, lent)
        }
        _ => answer,
    }
}

fn without_direction(call: &Call, lent: &mut Lent) -> RawAnswer {
    matched_by(call, lent, |_, direction| *direction = 1 - *direction)
}

fn older_tail(call: &Call, lent: &mut Lent) -> RawAnswer {
    let mut answer = Linked.call(call, lent);
    if matches!(call, Call::CompleteSplit { .. }) && answer.number == answer::DATA {
        answer.length = 64;
    }
    answer
}

fn late_result(call: &Call, lent: &mut Lent) -> RawAnswer {
    let area = lent.area.bytes();
    if matches!(call, Call::Deliver { .. }) && area.len() > form::HEADER && area[6] == 2 {
        let first = form::length(area[0].into(), 0);
        let refilled = (0..area[1])
            .find(|&number| area.get(first + form::BUFFER * usize::from(number)) == Some(&1));
        if let Some(number) = refilled {
            lent.area.bytes_mut()[6..8].copy_from_slice(&[1, number]);
        }
    }
    Linked.call(call, lent)
}

/// The port record that a done port feature request was for.
fn port_of<'a>(
    call: &Call,
    lent: &'a mut Lent,
    answer: RawAnswer,
    code: u8,
    feature: u8,
) -> Option<&'a mut [u8]> {
    match call {
        Call::Control { setup, .. }
            if answer.number == answer::DONE && setup[..3] == [0x23, code, feature] =>
        {
            let start = form::length(usize::from(setup[4]) - 1, 0);
            Some(&mut lent.area.bytes_mut()[start..start + form::PORT])
        }
        _ => None,
    }
}

fn timer_restarted(call: &Call, lent: &mut Lent) -> RawAnswer {
    let answer = Linked.call(call, lent);
    if let Some(port) = port_of(call, lent, answer, 3, 4) {
        port[2] = 0;
    }
    answer
}

fn changes_dropped(call: &Call, lent: &mut Lent) -> RawAnswer {
    let answer = Linked.call(call, lent);
    if let Some(port) = port_of(call, lent, answer, 1, 8) {
        port[3] &= 0x20;
    }
    answer
}

/// Makes the call.  If it was this event and is done, at a port in one of these
/// states, the port's mark byte is made anew from those before and after it.
fn after_event(
    call: &Call,
    lent: &mut Lent,
    number: u32,
    states: &[u8],
    marked: fn(u8, u8) -> u8,
) -> RawAnswer {
    let port = match *call {
        Call::LineEvent { event, port } if event == number && port > 0 => {
            form::length(port as usize - 1, 0)
        }
        _ => return Linked.call(call, lent),
    };
    let before = lent.area.bytes().get(port..port + form::PORT).map(<[u8]>::to_vec);
    let answer = Linked.call(call, lent);
    if let Some(before) = before.filter(|before| states.contains(&before[0])) {
        if answer.number == answer::DONE {
            let marks = &mut lent.area.bytes_mut()[port + 3];
            *marks = marked(before[3], *marks);
        }
    }
    answer
}

/// C_PORT_ENABLE in a port's mark byte.
const ENABLE: u8 = 1 << 1;

/// Detach is 2; Enabled is 5, Suspended 6.
fn detach_reported(call: &Call, lent: &mut Lent) -> RawAnswer {
    after_event(call, lent, 2, &[5, 6], |_, marks| marks | ENABLE)
}

/// Over-current on is 6; Resuming is 7.
fn over_current_reported(call: &Call, lent: &mut Lent) -> RawAnswer {
    after_event(call, lent, 6, &[7], |_, marks| marks | ENABLE)
}

/// A port error is 5; Enabled is 5.
fn error_unreported(call: &Call, lent: &mut Lent) -> RawAnswer {
    after_event(call, lent, 5, &[5], |before, marks| marks & (before | !ENABLE))
}

fn space_first(call: &Call, lent: &mut Lent) -> RawAnswer {
    let mut answer = Linked.call(call, lent);
    if call.space().map_or(false, |space| space < 64) {
        answer.number = answer::NO_SPACE;
    }
    answer
}

fn refusal_changes(call: &Call, lent: &mut Lent) -> RawAnswer {
    let answer = Linked.call(call, lent);
    if answer.number == answer::NYET {
        lent.area.bytes_mut()[2] ^= 1;
    }
    answer
}

fn reply_overwritten(call: &Call, lent: &mut Lent) -> RawAnswer {
    let answer = Linked.call(call, lent);
    if answer.number == answer::DATA {
        if let Some(byte) = lent.reply.bytes_mut().get_mut(usize::from(answer.length)) {
            *byte ^= 1;
        }
    }
    answer
}

fn guard_overwritten(call: &Call, lent: &mut Lent) -> RawAnswer {
    if matches!(call, Call::Launch { .. }) {
        lent.area.break_guard();
    }
    Linked.call(call, lent)
}

fn mark_ignored(call: &Call, lent: &mut Lent) -> RawAnswer {
    if let Some(marks) = lent.area.bytes_mut().get_mut(form::HEADER + 3) {
        *marks &= 0x7F;
    }
    Linked.call(call, lent)
}

fn unsuited_refused(call: &Call, lent: &mut Lent) -> RawAnswer {
    lanes::refusing(call, lent, |translator| {
        translator.buffers.iter().any(|buffer| match buffer {
            Buffer::Ready(start, outcome) | Buffer::Old(start, outcome) => {
                !outcome.suits(start.token)
            }
            _ => false,
        })
    })
}

/// A result without data that has a payload is read as DATA0.
fn payload_passed_over(call: &Call, lent: &mut Lent) -> RawAnswer {
    lanes::mended(call, lent, |buffer| {
        if matches!(buffer[..form::BUFFER_HEAD], [2 | 3, .., 0 | 2 | 10 | 14, 1..=64]) {
            buffer[6] = 3;
        }
    })
}

fn field_given(call: &Call, lent: &mut Lent) -> RawAnswer {
    let mut answer = Linked.call(call, lent);
    if let Call::CompleteSplit { address, .. } = call {
        answer.address = *address as u8;
    }
    answer
}

fn failure_shown(call: &Call, lent: &mut Lent) -> RawAnswer {
    let mut answer = Linked.call(call, lent);
    if answer.number == answer::HANDSHAKE && answer.pid == 14 {
        answer.pid = 0;
    }
    answer
}
