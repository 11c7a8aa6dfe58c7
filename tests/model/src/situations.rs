//! Single situations that the calls of the sessions must meet.

use crate::answer;
use crate::coverage::{request, setup, Step};
use crate::hub::{Call, Hub};
use crate::lanes;
use crate::port::{Change, ClearFeature, Event, Port, SetFeature, Speed, State};
use crate::reason::{self, Reason, Wrong};
use crate::request::Request;
use crate::translator::{Buffer, Direction, Key, Lane, LowSide, Outcome, Token, Translator};

type Met = fn(&Step) -> bool;

pub const SITUATIONS: &[(&str, Met)] = &[
    ("a tick ends a reset", |step| {
        ticked(step, |before, after| {
            matches!((before, after), (State::Resetting(..), State::Enabled(_)))
        })
    }),
    ("a tick ends a resume", |step| {
        ticked(step, |before, after| {
            matches!((before, after), (State::Resuming(..), State::Enabled(_)))
        })
    }),
    ("PORT_RESET again, timer running", |step| {
        set_on(step, SetFeature::Reset)
            .map_or(false, |port| matches!(port.state, State::Resetting(_, 1..)))
    }),
    ("PORT_RESET again at high speed", |step| {
        set_on(step, SetFeature::Reset)
            .map_or(false, |port| matches!(port.state, State::Resetting(..)) && is_high(port))
    }),
    ("PORT_RESET makes high speed full speed", |step| {
        set_on(step, SetFeature::Reset)
            .map_or(false, |port| !matches!(port.state, State::Resetting(..)) && is_high(port))
    }),
    ("PORT_POWER under over-current", |step| {
        set_on(step, SetFeature::Power).map_or(false, |port| port.over_current)
    }),
    ("power goes off, change bits stay", |step| {
        clear_on(step, ClearFeature::Power)
            .map_or(false, |port| has_change(port) && port.state != State::PoweredOff)
    }),
    ("detach in Enabled, C_PORT_ENABLE 0", |step| {
        event_in(step, Event::Detach, false, |state| matches!(state, State::Enabled(_)))
    }),
    ("detach in Suspended, C_PORT_ENABLE 0", |step| {
        event_in(step, Event::Detach, false, |state| matches!(state, State::Suspended(_)))
    }),
    ("over-current in Enabled, C_PORT_ENABLE 0", |step| {
        event_in(step, Event::OverCurrentOn, false, |state| matches!(state, State::Enabled(_)))
    }),
    ("over-current in Suspended, C_PORT_ENABLE 0", |step| {
        event_in(step, Event::OverCurrentOn, false, |state| matches!(state, State::Suspended(_)))
    }),
    ("over-current in Resuming, C_PORT_ENABLE 0", |step| {
        event_in(step, Event::OverCurrentOn, false, |state| matches!(state, State::Resuming(..)))
    }),
    ("port error, C_PORT_ENABLE 0", |step| event_in(step, Event::PortError, false, |_| true)),
    ("port error, C_PORT_ENABLE 1", |step| event_in(step, Event::PortError, true, |_| true)),
    ("detach, C_PORT_ENABLE 1", |step| event_in(step, Event::Detach, true, |_| true)),
    ("over-current, C_PORT_ENABLE 1", |step| event_in(step, Event::OverCurrentOn, true, |_| true)),
    ("over-current ends a reset", |step| {
        event(step).map_or(false, |(event, port)| {
            event == Event::OverCurrentOn && matches!(port.state, State::Resetting(..))
        })
    }),
    ("over-current on again", |step| {
        event(step)
            .map_or(false, |(event, port)| event == Event::OverCurrentOn && port.over_current)
    }),
    ("over-current off again", |step| {
        event(step)
            .map_or(false, |(event, port)| event == Event::OverCurrentOff && !port.over_current)
    }),
    ("SetConfiguration 0 drops a level", |step| {
        configures(step, false) && step.before.ports.iter().any(|port| port.over_current)
    }),
    ("SetConfiguration 1 keeps a level", |step| {
        configures(step, true) && step.before.ports.iter().any(|port| port.over_current)
    }),
    ("SetConfiguration 0 keeps change bits", |step| {
        configures(step, false) && step.before.ports.iter().any(has_change)
    }),
    ("SetConfiguration 1 keeps change bits", |step| {
        configures(step, true) && step.before.ports.iter().any(has_change)
    }),
    ("SetConfiguration 0 stops the low side", |step| configures(step, false) && occupied(step)),
    ("SetConfiguration 1 stops the low side", |step| configures(step, true) && occupied(step)),
    ("SetConfiguration 0 empties both lanes", |step| configures(step, false) && both_lanes(step)),
    ("SetConfiguration 1 empties both lanes", |step| configures(step, true) && both_lanes(step)),
    ("bus reset empties both lanes", |step| {
        matches!(step.call, Call::BusReset) && both_lanes(step)
    }),
    ("ResetTT leaves a gap in the places", |step| {
        matches!(requested(step), Some(Request::ResetTt(_)))
            && has_gap(&step.after.translator)
            && !has_gap(translator(step))
    }),
    ("bus reset stops the low side", |step| matches!(step.call, Call::BusReset) && occupied(step)),
    ("bus reset clears change bits", |step| {
        matches!(step.call, Call::BusReset) && step.before.ports.iter().any(has_change)
    }),
    ("all buffers pending", |step| {
        translator(step).buffers.iter().all(|buffer| buffer.place().is_some())
    }),
    ("start-split repeated with another PID", |step| {
        start(step).map_or(false, |(token, key)| {
            held(step, key).map_or(false, |buffer| {
                !buffer.is_free() && buffer.start().map_or(false, |start| start.token != token)
            })
        })
    }),
    ("own old buffer reused, a lower one free", |step| {
        start(step).and_then(|(_, key)| translator(step).find(key)).map_or(false, |number| {
            let buffers = &translator(step).buffers;
            step.answer.number == answer::DONE
                && buffers[number].is_free()
                && buffers[..number].iter().any(Buffer::is_free)
        })
    }),
    ("old buffer of another key reused", |step| {
        start(step).map_or(false, |(_, key)| {
            step.answer.number == answer::DONE
                && translator(step).find(key).is_none()
                && translator(step)
                    .buffers
                    .iter()
                    .find(|buffer| buffer.is_free())
                    .map_or(false, |buffer| matches!(buffer, Buffer::Old(..)))
        })
    }),
    ("shorter payload over a longer result", |step| {
        start(step).is_some() && step.answer.number == answer::DONE && shortened(step)
    }),
    ("shorter result over a longer payload", |step| {
        matches!(step.call, Call::Deliver { .. })
            && step.answer.number == answer::DONE
            && shortened(step)
    }),
    ("gap in the places closed", |step| {
        let places = |translator: &Translator| {
            translator.buffers.iter().map(Buffer::place).collect::<Vec<_>>()
        };
        let (before, after) = (places(translator(step)), places(&step.after.translator));
        before.iter().zip(&after).any(|pair| matches!(pair, (Some(old), Some(new)) if old != new))
    }),
    ("launch out of the buffers' order", |step| {
        matches!(step.call, Call::Launch { .. })
            && step.answer.number == answer::DATA
            && translator(step).earliest()
                != translator(step).buffers.iter().position(|buffer| buffer.place().is_some())
    }),
    ("64 bytes launched", |step| {
        matches!(step.call, Call::Launch { .. }) && step.answer.bytes.len() == 64
    }),
    ("64 bytes answered", |step| {
        matches!(step.call, Call::CompleteSplit { .. }) && step.answer.bytes.len() == 64
    }),
    ("no bytes answered as data", |step| {
        matches!(step.call, Call::CompleteSplit { .. })
            && step.answer.number == answer::DATA
            && step.answer.bytes.is_empty()
    }),
    ("failure shown as STALL", |step| {
        completed(step).map_or(false, |(_, outcome)| *outcome == Outcome::Failure)
    }),
    ("STALL of the device", |step| {
        completed(step).map_or(false, |(_, outcome)| *outcome == Outcome::Stall)
    }),
    ("complete-split, other direction held", |step| match *step.call {
        Call::CompleteSplit { lane, address, endpoint, direction, .. }
            if step.answer.number == answer::STALL =>
        {
            Key::from_numbers(lane, address, endpoint, 1 - direction)
                .map_or(false, |key| held(step, key).is_some())
        }
        _ => false,
    }),
    ("both directions of an endpoint held", |step| {
        translator(step).buffers.iter().filter_map(Buffer::key).any(|key| {
            key.direction == Direction::In
                && held(step, Key { direction: Direction::Out, ..key }).is_some()
        })
    }),
    ("both lanes have data under one key", |step| {
        completed(step).map_or(false, |(key, outcome)| {
            held(step, key.twin()).and_then(Buffer::outcome).map_or(false, |twin| {
                matches!((outcome, twin), (Outcome::Data(..), Outcome::Data(..)))
                    && outcome.bytes() != twin.bytes()
            })
        })
    }),
    ("result does not suit IN", |step| unsuited(step, Token::In)),
    ("result does not suit OUT", |step| unsuited(step, Token::Out)),
    ("result does not suit SETUP", |step| unsuited(step, Token::Setup)),
    ("running transaction abandoned", |step| {
        matches!(translator(step).low_side, LowSide::Running(_))
            && step.after.translator.low_side == LowSide::Abandoned
    }),
    ("clear while abandoned", |step| {
        abandoned(step)
            && matches!(requested(step), Some(Request::ClearTtBuffer(key)) if held(step, key).is_some())
    }),
    ("late delivery thrown away, buffer refilled", |step| {
        abandoned(step)
            && matches!(step.call, Call::Deliver { .. })
            && step.answer.number == answer::DONE
            && translator(step).earliest().is_some()
    }),
    ("late delivery of data", |step| late(step, |result| matches!(result, 3 | 11))),
    ("late delivery of an ACK", |step| late(step, |result| result == 2)),
    ("late delivery outside the rules", |step| {
        abandoned(step)
            && matches!(step.call, Call::Deliver { .. })
            && step.answer.number == answer::OUTSIDE
    }),
    ("start-split stored while abandoned", |step| {
        abandoned(step) && start(step).is_some() && pending(step.after) > pending(step.before)
    }),
    ("descriptor of no bytes", |step| {
        matches!(requested(step), Some(Request::GetHubDescriptor(0)))
    }),
    ("descriptor cut", |step| matches!(requested(step), Some(Request::GetHubDescriptor(1..=8)))),
    ("descriptor, more than 255 asked", |step| {
        matches!(requested(step), Some(Request::GetHubDescriptor(256..)))
    }),
    ("port 0 in a request", |step| names_port(step, |port, _| port == 0)),
    ("a port above the last in a request", |step| names_port(step, |port, last| port > last)),
    ("no lane, reply space too short", |step| {
        no_lane(step) && step.call.space().map_or(false, |space| space < 64)
    }),
    ("no lane, hub unconfigured", |step| {
        no_lane(step) && !step.before.configured && !matches!(step.call, Call::Control { .. })
    }),
    ("no lane, setup fields wrong", |step| {
        no_lane(step)
            && setup(step.call).map_or(false, |setup| Request::read(Lane::Zero, setup).is_none())
    }),
    ("no lane, length of the setup bytes wrong", |step| {
        no_lane(step) && matches!(step.call, Call::Control { setup, .. } if setup.len() != 8)
    }),
    ("held by a buffer above a free one", |step| {
        matches!(*step.reason, Reason::Held(number)
            if translator(step).buffers[..number].iter().any(Buffer::is_free))
    }),
    ("took free, the other lane has the key", |step| {
        matches!(step.reason, Reason::TookFree(_)) && twin_held(step)
    }),
    ("limit, the other lane has the key", |step| *step.reason == Reason::Limit && twin_held(step)),
    ("no room, the other lane has the key", |step| {
        *step.reason == Reason::NoRoom && twin_held(step)
    }),
    ("silent poll, change bits set", |step| {
        matches!(step.call, Call::Poll { .. })
            && *step.reason == Reason::Number(answer::SILENT)
            && step.before.ports.iter().any(has_change)
    }),
    ("value, index and length wrong", |step| {
        wrong_things(step) == [Wrong::Value, Wrong::Index, Wrong::Length]
    }),
    ("hub unconfigured, value, index and length wrong", |step| {
        wrong_things(step) == [Wrong::Unconfigured, Wrong::Value, Wrong::Index, Wrong::Length]
    }),
    ("reply space too short, setup fields wrong", |step| {
        *step.reason == Reason::Number(answer::NO_SPACE)
            && setup(step.call).map_or(false, |setup| Request::read(Lane::Zero, setup).is_none())
    }),
    ("port right but for the index's high byte", |step| {
        let right = |setup: &[u8; 8]| {
            matches!(setup[..2], [0xA3, 0x00] | [0x23, 0x01 | 0x03])
                && (1..=step.before.ports.len()).contains(&setup[4].into())
        };
        wrong_things(step) == [Wrong::Index] && setup(step.call).map_or(false, right)
    }),
    ("ClearTTBuffer of another transfer type", |step| clear_value(step, 0x0800)),
    ("ClearTTBuffer with a bit that stands for nothing", |step| clear_value(step, 0x6000)),
];

fn translator<'a>(step: &Step<'a>) -> &'a Translator {
    &step.before.translator
}

/// The event that took place, and the port before it.
fn event<'a>(step: &Step<'a>) -> Option<(Event, &'a Port)> {
    match step.call {
        Call::LineEvent { event, port } if step.answer.number == answer::DONE => {
            Some((Event::ALL[*event as usize], &step.before.ports[*port as usize - 1]))
        }
        _ => None,
    }
}

fn has_change(port: &Port) -> bool {
    !port.changes.is_empty()
}

fn is_high(port: &Port) -> bool {
    port.state.speed() == Some(Speed::High)
}

fn ticked(step: &Step, met: fn(State, State) -> bool) -> bool {
    let pairs = step.before.ports.iter().zip(&step.after.ports);
    matches!(step.call, Call::Tick) && pairs.into_iter().any(|(old, new)| met(old.state, new.state))
}

/// The request, if it was done or gave data.
fn requested(step: &Step) -> Option<Request> {
    request(step.call).filter(|_| !answer::is_refusal(step.answer.number))
}

fn set_on<'a>(step: &Step<'a>, feature: SetFeature) -> Option<&'a Port> {
    match requested(step) {
        Some(Request::SetPortFeature(given, port)) if given == feature => {
            step.before.ports.get(usize::from(port) - 1)
        }
        _ => None,
    }
}

fn clear_on<'a>(step: &Step<'a>, feature: ClearFeature) -> Option<&'a Port> {
    match requested(step) {
        Some(Request::ClearPortFeature(given, port)) if given == feature => {
            step.before.ports.get(usize::from(port) - 1)
        }
        _ => None,
    }
}

fn names_port(step: &Step, met: fn(usize, usize) -> bool) -> bool {
    step.answer.number == answer::STALL
        && step.before.configured
        && request(step.call)
            .and_then(|request| request.port())
            .map_or(false, |port| met(port.into(), step.before.ports.len()))
}

/// The event took place in such a state, where C_PORT_ENABLE read this before.
fn event_in(step: &Step, wanted: Event, enable_change: bool, met: fn(State) -> bool) -> bool {
    event(step).map_or(false, |(event, port)| {
        event == wanted
            && met(port.state)
            && port.changed(Change::Enable) == enable_change
            && !port.over_current
    })
}

fn configures(step: &Step, value: bool) -> bool {
    step.before.configured && requested(step) == Some(Request::SetConfiguration(value))
}

fn occupied(step: &Step) -> bool {
    translator(step).low_side != LowSide::Idle
}

/// The call gives a lane outside 0 and 1.
fn no_lane(step: &Step) -> bool {
    lanes::carrier(step.call).map_or(false, |(_, number)| number > 1)
}

/// Each lane has a buffer that isn't empty.
fn both_lanes(step: &Step) -> bool {
    let has = |lane| translator(step).buffers.iter().any(|buffer| buffer.lane() == Some(lane));
    Lane::ALL.into_iter().all(has)
}

/// The places of the pending buffers aren't 0, 1, ..
fn has_gap(translator: &Translator) -> bool {
    let places = || translator.buffers.iter().filter_map(Buffer::place);
    places().max().map_or(false, |last| usize::from(last) >= places().count())
}

fn abandoned(step: &Step) -> bool {
    translator(step).low_side == LowSide::Abandoned
}

/// A delivery thrown away.
fn late(step: &Step, met: fn(u32) -> bool) -> bool {
    matches!(step.call, Call::Deliver { result, .. } if met(*result))
        && abandoned(step)
        && step.answer.number == answer::DONE
}

fn pending(hub: &Hub) -> usize {
    hub.translator.buffers.iter().filter(|buffer| buffer.place().is_some()).count()
}

fn held<'a>(step: &Step<'a>, key: Key) -> Option<&'a Buffer> {
    let translator = translator(step);
    translator.find(key).map(|number| &translator.buffers[number])
}

/// A start-split that is answered by the translator.
fn start(step: &Step) -> Option<(Token, Key)> {
    match step.call {
        Call::StartSplit { numbers, .. }
            if matches!(step.answer.number, answer::DONE | answer::NAK) =>
        {
            numbers.understand().map(|start| (start.token, start.key()))
        }
        _ => None,
    }
}

/// The key of a complete-split and the result that it gave.
fn completed<'a>(step: &Step<'a>) -> Option<(Key, &'a Outcome)> {
    match *step.call {
        Call::CompleteSplit { lane, address, endpoint, direction, .. }
            if !answer::is_refusal(step.answer.number) =>
        {
            let key = Key::from_numbers(lane, address, endpoint, direction)?;
            Some((key, held(step, key)?.outcome()?))
        }
        _ => None,
    }
}

/// The other lane's buffer has the start-split's key.
fn twin_held(step: &Step) -> bool {
    start(step).map_or(false, |(_, key)| held(step, key.twin()).is_some())
}

/// All that is wrong with a refused request.
fn wrong_things(step: &Step) -> Vec<Wrong> {
    match (step.reason, setup(step.call)) {
        (Reason::Wrong(_), Some(setup)) => reason::wrong_things(step.before, setup),
        _ => Vec::new(),
    }
}

/// ClearTTBuffer is refused for its value alone, of whose wrong bits these are
/// the only ones set.
fn clear_value(step: &Step, bits: u16) -> bool {
    let set = |setup: &[u8; 8]| u16::from_le_bytes([setup[2], setup[3]]) & 0x6800;
    wrong_things(step) == [Wrong::Value]
        && setup(step.call).map_or(false, |setup| {
            setup[..2] == [0x23, 0x08] && set(setup) & bits != 0 && set(setup) & !bits == 0
        })
}

fn unsuited(step: &Step, token: Token) -> bool {
    matches!(step.call, Call::Deliver { .. })
        && step.answer.number == answer::NOT_NOW
        && translator(step).running().map_or(false, |start| start.token == token)
}

/// A buffer holds fewer bytes than before, but isn't empty.
fn shortened(step: &Step) -> bool {
    let length = |buffer: &Buffer| match buffer {
        Buffer::Empty => None,
        Buffer::Pending { payload, .. } => Some(payload.len()),
        Buffer::Ready(_, outcome) | Buffer::Old(_, outcome) => Some(outcome.bytes().len()),
    };
    let pairs = translator(step).buffers.iter().zip(&step.after.translator.buffers);
    pairs
        .into_iter()
        .any(|(old, new)| matches!((length(old), length(new)), (Some(old), Some(new)) if new < old))
}
