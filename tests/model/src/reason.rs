//! Why a call is answered as it is (C-15), told from the hub before the call.
//!
//! The rules stand here once more, as statements about a hub and a call; none
//! of them asks what `Hub::step` would do.

use crate::answer::{self, Answer};
use crate::form;
use crate::hub::{Call, Hub, StartNumbers};
use crate::library::RawReason;
use crate::port::{Change, Port, Speed, State};
use crate::translator::{Buffer, Key, LowSide, Start, Token, Translator};

#[derive(Clone, Debug, PartialEq, Eq)]
pub enum Reason {
    /// The answer gets no reason.
    None,
    /// One of the answers 5 to 8.
    Number(u8),
    Held(usize),
    Reused(usize),
    TookFree(usize),
    Limit,
    NoRoom,
    /// The ports, from 1, and change bits behind a poll's byte, by port, then
    /// by bit.
    Changes(Vec<(usize, Change)>),
    Wrong(Wrong),
}

/// What can be wrong with a refused request, in the order of telling.
#[derive(Clone, Copy, Debug, PartialEq, Eq)]
pub enum Wrong {
    TypeOrCode,
    Unconfigured,
    Value,
    Index,
    Length,
}

/// In the order of checks.
pub const NUMBERS: [u8; 4] = [answer::OUTSIDE, answer::NO_SPACE, answer::SILENT, answer::NOT_NOW];

/// The row of a request in document 01's table.
struct Row {
    type_and_code: [u8; 2],
    served_unconfigured: bool,
    value: fn(u16) -> bool,
    index: Index,
    /// None permits any length.
    length: Option<u16>,
}

enum Index {
    Is(u16),
    Port,
}

#[rustfmt::skip]
const ROWS: [Row; 10] = [
    row([0x00, 0x09], true, |value| value < 2, Index::Is(0), Some(0)),
    row([0x80, 0x08], true, |value| value == 0, Index::Is(0), Some(1)),
    row([0xA0, 0x06], true, |value| value == 0x2900, Index::Is(0), None),
    row([0xA0, 0x00], false, |value| value == 0, Index::Is(0), Some(4)),
    row([0xA3, 0x00], false, |value| value == 0, Index::Port, Some(4)),
    row([0x20, 0x01], false, |value| value < 2, Index::Is(0), Some(0)),
    row([0x23, 0x01], false, |value| matches!(value, 1 | 2 | 8 | 16..=20), Index::Port, Some(0)),
    row([0x23, 0x03], false, |value| matches!(value, 2 | 4 | 8), Index::Port, Some(0)),
    // Bit 11 is zero in the types 0 and 2; bits 13 and 14 stand for nothing.
    row([0x23, 0x08], false, |value| value & 0x6800 == 0, Index::Is(1), Some(0)),
    row([0x23, 0x09], false, |value| value == 0, Index::Is(1), Some(0)),
];

const fn row(
    type_and_code: [u8; 2],
    served_unconfigured: bool,
    value: fn(u16) -> bool,
    index: Index,
    length: Option<u16>,
) -> Row {
    Row { type_and_code, served_unconfigured, value, index, length }
}

impl Reason {
    /// An area that holds no permitted hub is None.
    pub fn of(hub: Option<&Hub>, call: &Call) -> Reason {
        let hub = match hub {
            Some(hub) => hub,
            None => return Reason::Number(answer::OUTSIDE),
        };
        if let Some(number) = numbers(hub, call).next() {
            return Reason::Number(number);
        }
        match call {
            Call::Control { setup, .. } => {
                wrong_things(hub, setup).first().copied().map_or(Reason::None, Reason::Wrong)
            }
            Call::Poll { .. } => match changes(hub) {
                changes if changes.is_empty() => Reason::None,
                changes => Reason::Changes(changes),
            },
            Call::StartSplit { numbers, .. } => {
                let start = numbers.understand().expect("the numbers are permitted");
                Reason::of_start(&hub.translator, start.key())
            }
            _ => Reason::None,
        }
    }

    /// The only reason that is true of a start-split with this key.
    fn of_start(translator: &Translator, key: Key) -> Reason {
        let of_buffer =
            |number| [Reason::Held, Reason::Reused, Reason::TookFree].map(|of| of(number));
        let mut reasons = (0..translator.buffers.len())
            .flat_map(of_buffer)
            .chain([Reason::Limit, Reason::NoRoom])
            .filter(|reason| reason.is_true_of_start(translator, key));
        let reason = reasons.next().expect("a reason is true");
        assert_eq!(reasons.next(), None, "true as {reason:?} is");
        reason
    }

    fn is_true_of_start(&self, translator: &Translator, key: Key) -> bool {
        let buffers = &translator.buffers;
        let waits = |buffer: &Buffer| matches!(buffer, Buffer::Pending { .. } | Buffer::Ready(..));
        let has_key = |buffer: &Buffer| buffer.key() == Some(key);
        let of_lane = |buffer: &&Buffer| waits(buffer) && buffer.lane() == Some(key.lane);
        let below_limit = buffers.iter().filter(of_lane).count() + 1 < buffers.len();
        match *self {
            Reason::Held(number) => waits(&buffers[number]) && has_key(&buffers[number]),
            Reason::Reused(number) => {
                below_limit && !waits(&buffers[number]) && has_key(&buffers[number])
            }
            Reason::TookFree(number) => {
                below_limit
                    && !buffers.iter().any(has_key)
                    && buffers.iter().position(|buffer| !waits(buffer)) == Some(number)
            }
            Reason::Limit => {
                !below_limit && !buffers.iter().any(|buffer| waits(buffer) && has_key(buffer))
            }
            Reason::NoRoom => {
                below_limit && buffers.iter().all(|buffer| waits(buffer) && !has_key(buffer))
            }
            _ => false,
        }
    }

    /// Whether the reason is enough for this answer to this call.
    pub fn gives(&self, call: &Call, answer: &Answer) -> bool {
        let plain = |number: u8| *answer == Answer::plain(number);
        let is_start = matches!(call, Call::StartSplit { .. });
        match self {
            Reason::None => gets_none(call, answer.number),
            Reason::Number(number) => NUMBERS.contains(number) && plain(*number),
            Reason::Held(_) | Reason::Reused(_) | Reason::TookFree(_) => {
                is_start && plain(answer::DONE)
            }
            Reason::Limit | Reason::NoRoom => is_start && plain(answer::NAK),
            Reason::Changes(changes) => {
                let byte = changes.iter().fold(0, |byte, (port, _)| byte | 1 << port);
                matches!(call, Call::Poll { .. }) && *answer == Answer::data(&[byte])
            }
            Reason::Wrong(_) => matches!(call, Call::Control { .. }) && plain(answer::STALL),
        }
    }

    /// Whether a start-split for this reason leaves such a hub.
    pub fn leaves(&self, call: &Call, before: &Hub, after: &Hub) -> bool {
        let numbers = match call {
            Call::StartSplit { numbers, .. } => numbers,
            _ => return true,
        };
        let kept = form::write(before) == form::write(after);
        let places = |start: Start| [before, after].map(|hub| hub.translator.find(start.key()));
        let places = numbers.understand().map(places);
        match *self {
            Reason::Held(number) => places == Some([Some(number); 2]) && kept,
            Reason::Reused(number) => places == Some([Some(number); 2]) && !kept,
            Reason::TookFree(number) => places == Some([None, Some(number)]),
            _ => kept,
        }
    }

    /// The bytes of `grimholdi_reason`.
    pub fn raw(&self) -> RawReason {
        let mut ports = [0; 7];
        let (kind, value) = match self {
            Reason::None => (0, 0),
            Reason::Number(number) => (1, *number),
            Reason::Held(number) => (2, *number as u8),
            Reason::Reused(number) => (3, *number as u8),
            Reason::TookFree(number) => (4, *number as u8),
            Reason::Limit => (5, 0),
            Reason::NoRoom => (6, 0),
            Reason::Changes(changes) => {
                for (port, change) in changes {
                    ports[port - 1] |= 1 << *change as u8;
                }
                (7, 0)
            }
            Reason::Wrong(wrong) => (8, *wrong as u8),
        };
        RawReason { kind, value, changes: ports }
    }
}

/// The numbers of 5 to 8 that apply, first the one that is answered.
pub fn numbers<'a>(hub: &'a Hub, call: &'a Call) -> impl Iterator<Item = u8> + 'a {
    NUMBERS.into_iter().filter(|&number| match number {
        answer::OUTSIDE => is_outside(hub, call),
        answer::NO_SPACE => call.space().map_or(false, |space| space < 64),
        answer::SILENT => !hub.configured && is_silenced(call),
        _ => is_not_now(hub, call),
    })
}

fn is_outside(hub: &Hub, call: &Call) -> bool {
    match call {
        Call::Control { lane, setup, .. } => *lane > 1 || setup.len() != 8,
        Call::Poll { lane, .. } => *lane > 1,
        Call::StartSplit { numbers, payload } => start_is_outside(numbers, payload.len()),
        Call::CompleteSplit { lane, address, endpoint, direction, .. } => {
            *lane > 1 || *address > 127 || *endpoint > 15 || *direction > 1
        }
        Call::Deliver { result, payload } => match result {
            3 | 11 => payload.len() > 64,
            0 | 2 | 10 | 14 => !payload.is_empty(),
            _ => true,
        },
        Call::LineEvent { event, port } => *event > 7 || port_of(hub, *port).is_none(),
        Call::Launch { .. } | Call::Tick | Call::BusReset => false,
    }
}

fn start_is_outside(numbers: &StartNumbers, length: usize) -> bool {
    let payload_fits = match numbers.pid {
        1 => length <= 64,
        9 => length == 0,
        13 => length == 8 && numbers.transfer == 0,
        _ => false,
    };
    !payload_fits
        || ![0, 2].contains(&numbers.transfer)
        || [numbers.lane, numbers.low_speed, numbers.toggle].iter().any(|&number| number > 1)
        || numbers.address > 127
        || numbers.endpoint > 15
}

fn is_silenced(call: &Call) -> bool {
    match call {
        Call::Poll { .. } | Call::Launch { .. } | Call::Deliver { .. } => true,
        Call::StartSplit { .. } | Call::CompleteSplit { .. } => true,
        Call::Control { .. } | Call::LineEvent { .. } | Call::Tick | Call::BusReset => false,
    }
}

fn is_not_now(hub: &Hub, call: &Call) -> bool {
    match call {
        Call::Launch { .. } => hub.translator.low_side != LowSide::Idle,
        Call::Deliver { result, .. } => match hub.translator.running().map(|start| start.token) {
            Some(Token::In) => ![3, 11, 10, 14, 0].contains(result),
            Some(Token::Out) => ![2, 10, 14, 0].contains(result),
            Some(Token::Setup) => ![2, 0].contains(result),
            None => hub.translator.low_side == LowSide::Idle,
        },
        Call::LineEvent { event, port } => {
            let elsewhere = |port: &Port| !is_named_for(*event, port.state);
            !hub.configured || port_of(hub, *port).map_or(false, elsewhere)
        }
        _ => false,
    }
}

/// Whether a configured port in this state takes the event.
fn is_named_for(event: u32, state: State) -> bool {
    match event {
        0 | 1 => state == State::Disconnected,
        2 => matches!(state, State::Disabled(_) | State::Enabled(_) | State::Suspended(_)),
        3 => matches!(state, State::Resetting(Speed::Full, _)),
        4 => matches!(state, State::Suspended(_)),
        5 => matches!(state, State::Enabled(_)),
        _ => true,
    }
}

fn port_of(hub: &Hub, number: u32) -> Option<&Port> {
    hub.ports.get((number as usize).checked_sub(1)?)
}

/// All that is wrong with the eight setup bytes, in the order of telling.
pub fn wrong_things(hub: &Hub, setup: &[u8]) -> Vec<Wrong> {
    let row = ROWS.iter().find(|row| row.type_and_code == setup[..2]);
    let word = |at: usize| u16::from(setup[at]) + 256 * u16::from(setup[at + 1]);
    let serves = hub.configured || row.map_or(false, |row| row.served_unconfigured);
    let index = |row: &Row| match row.index {
        Index::Is(index) => word(4) == index,
        Index::Port => port_of(hub, word(4).into()).is_some(),
    };
    let things = [
        (Wrong::TypeOrCode, row.is_none()),
        (Wrong::Unconfigured, !serves),
        (Wrong::Value, row.map_or(false, |row| !(row.value)(word(2)))),
        (Wrong::Index, row.map_or(false, |row| !index(row))),
        (Wrong::Length, row.and_then(|row| row.length).map_or(false, |length| word(6) != length)),
    ];
    things.into_iter().filter(|(_, is_wrong)| *is_wrong).map(|(thing, _)| thing).collect()
}

fn changes(hub: &Hub) -> Vec<(usize, Change)> {
    let at = |(number, port): (usize, &Port)| {
        let set = port.changes.clone();
        let is_set = move |change: &Change| set.contains(change);
        Change::ALL.into_iter().filter(is_set).map(move |change| (number, change))
    };
    (1..).zip(&hub.ports).flat_map(at).collect()
}

/// The answers without a reason.
fn gets_none(call: &Call, number: u8) -> bool {
    let answers: &[u8] = match call {
        Call::Control { .. } => &[answer::DONE, answer::DATA],
        Call::Poll { .. } => &[answer::NAK],
        Call::StartSplit { .. } => &[],
        Call::CompleteSplit { .. } => {
            &[answer::DATA, answer::STALL, answer::NYET, answer::HANDSHAKE]
        }
        Call::Launch { .. } => &[answer::DATA, answer::NAK],
        Call::Deliver { .. } | Call::LineEvent { .. } | Call::Tick | Call::BusReset => {
            &[answer::DONE]
        }
    };
    answers.contains(&number)
}
