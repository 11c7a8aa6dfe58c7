//! What a damaged byte of the area stands for.

use crate::form;
use crate::hub::Hub;
use crate::translator::{Buffer, Key, Lane};

pub enum Damage {
    /// The area is as it was.
    None,
    /// One byte of this field, see `FIELDS`.
    Byte(usize),
    /// A lane bit; the key's other lane has room for the buffer.
    Lane,
    /// A lane bit; both lanes held the buffer's address, endpoint and
    /// direction.
    Twin,
    /// A lane bit; the lane given holds all buffers of the hub then, so many,
    /// pending or ready.
    Crowded(Lane, usize),
    Several,
    Length,
}

/// The bytes of the header, of a port, and of a buffer.
pub const FIELDS: [&str; 24] = [
    "ports",
    "buffers",
    "power-good",
    "current",
    "removable",
    "configured",
    "low side",
    "running buffer",
    "port state",
    "port speed",
    "port ticks",
    "port marks",
    "buffer status",
    "buffer PID",
    "buffer type",
    "buffer flags",
    "buffer address",
    "buffer endpoint",
    "buffer place",
    "buffer result",
    "buffer length",
    "byte of the payload",
    "byte behind the payload",
    "byte of an empty buffer",
];

/// What a change of the buffer's lane bit does.  An empty buffer has none.
pub fn lane_flip(hub: &Hub, number: usize) -> Damage {
    let translator = &hub.translator;
    let buffer = &translator.buffers[number];
    let twin = match buffer.key().map(Key::twin) {
        Some(twin) => twin,
        None => return Damage::None,
    };
    if translator.find(twin).is_some() {
        Damage::Twin
    } else if !buffer.is_free() && translator.held(twin.lane) == translator.limit() {
        Damage::Crowded(twin.lane, translator.buffers.len())
    } else {
        Damage::Lane
    }
}

/// The field that the byte at `place` in the hub's written form belongs to.
pub fn field(hub: &Hub, place: usize) -> usize {
    let name = name(hub, place);
    FIELDS.iter().position(|&field| field == name).expect("a field's name")
}

fn name(hub: &Hub, place: usize) -> &'static str {
    let buffers = form::length(hub.ports.len(), 0);
    if place < form::HEADER {
        return FIELDS[place];
    }
    if place < buffers {
        return FIELDS[form::HEADER + (place - form::HEADER) % form::PORT];
    }
    let buffer = &hub.translator.buffers[(place - buffers) / form::BUFFER];
    let length = match buffer {
        Buffer::Empty => return "byte of an empty buffer",
        Buffer::Pending { payload, .. } => payload.len(),
        Buffer::Ready(_, outcome) | Buffer::Old(_, outcome) => outcome.bytes().len(),
    };
    match (place - buffers) % form::BUFFER {
        byte @ 0..=5 => FIELDS[form::HEADER + form::PORT + byte],
        6 if buffer.place().is_some() => "buffer place",
        6 => "buffer result",
        7 => "buffer length",
        byte if byte - form::BUFFER_HEAD < length => "byte of the payload",
        _ => "byte behind the payload",
    }
}
