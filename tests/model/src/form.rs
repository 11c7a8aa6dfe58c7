//! The written form of a hub in the lent area.

use crate::hub::{Hub, StartNumbers};
use crate::port::{Change, Port, Speed, State, RESET_END, RESUME_END};
use crate::translator::{Buffer, LowSide, Outcome, Translator};

pub const HEADER: usize = 8;
pub const PORT: usize = 4;
pub const BUFFER: usize = 72;
pub const BUFFER_HEAD: usize = 8;

/// The lane's bit in a buffer's flags.
pub const LANE_BIT: u8 = 4;

pub fn length(ports: usize, buffers: usize) -> usize {
    HEADER + PORT * ports + BUFFER * buffers
}

/// The place of the buffer's flags in the hub's written form.
pub fn flags(hub: &Hub, number: usize) -> usize {
    length(hub.ports.len(), number) + 3
}

pub fn write(hub: &Hub) -> Vec<u8> {
    let translator = &hub.translator;
    let (low_side, running) = match translator.low_side {
        LowSide::Idle => (0, 0),
        LowSide::Running(number) => (1, number as u8),
        LowSide::Abandoned => (2, 0),
    };
    let mut area = Vec::with_capacity(length(hub.ports.len(), translator.buffers.len()));
    area.extend_from_slice(&[hub.ports.len() as u8, translator.buffers.len() as u8]);
    area.extend_from_slice(&[hub.power_good, hub.current, hub.removable]);
    area.extend_from_slice(&[hub.configured.into(), low_side, running]);
    for port in &hub.ports {
        area.extend_from_slice(&write_port(port));
    }
    for buffer in &translator.buffers {
        write_buffer(buffer, &mut area);
    }
    area
}

fn write_port(port: &Port) -> [u8; PORT] {
    let (state, ticks) = match port.state {
        State::NotConfigured => (0, 0),
        State::PoweredOff => (1, 0),
        State::Disconnected => (2, 0),
        State::Disabled(_) => (3, 0),
        State::Resetting(_, ticks) => (4, ticks),
        State::Enabled(_) => (5, 0),
        State::Suspended(_) => (6, 0),
        State::Resuming(_, ticks) => (7, ticks),
    };
    let speed = port.state.speed().map_or(0, |speed| speed as u8);
    [state, speed, ticks, port.change_bits() | u8::from(port.over_current) << 5]
}

fn write_buffer(buffer: &Buffer, area: &mut Vec<u8>) {
    let end = area.len() + BUFFER;
    let (status, start, last, bytes) = match buffer {
        Buffer::Empty => {
            area.resize(end, 0);
            return;
        }
        Buffer::Pending { start, payload, place } => (1, start, *place, payload.as_slice()),
        Buffer::Ready(start, outcome) => (2, start, outcome.number(), outcome.bytes()),
        Buffer::Old(start, outcome) => (3, start, outcome.number(), outcome.bytes()),
    };
    let flags =
        u8::from(start.low_speed) + 2 * u8::from(start.toggle) + LANE_BIT * start.lane as u8;
    area.extend_from_slice(&[status, start.token.number(), start.transfer.number(), flags]);
    area.extend_from_slice(&[start.address, start.endpoint, last, bytes.len() as u8]);
    area.extend_from_slice(bytes);
    area.resize(end, 0);
}

/// The permitted hub whose written form the area is, if there is one.
pub fn read(area: &[u8]) -> Option<Hub> {
    let header = <[u8; HEADER]>::try_from(area.get(..HEADER)?).ok()?;
    let [ports, buffers, power_good, current, removable, configured, low_side, running] = header;
    let rest = &area[HEADER..];
    let new = Hub::new(
        ports.into(),
        buffers.into(),
        power_good.into(),
        current.into(),
        removable.into(),
    )?;
    if area.len() != length(ports.into(), buffers.into()) {
        return None;
    }
    let (ports, buffers) = rest.split_at(PORT * usize::from(ports));
    let hub = Hub {
        configured: configured != 0,
        ports: ports.chunks(PORT).map(read_port).collect::<Option<_>>()?,
        translator: Translator {
            buffers: buffers.chunks(BUFFER).map(read_buffer).collect::<Option<_>>()?,
            low_side: match low_side {
                0 => LowSide::Idle,
                1 => LowSide::Running(running.into()),
                _ => LowSide::Abandoned,
            },
        },
        ..new
    };
    // Bytes that the reading passed over show in the second writing.
    (hub.is_permitted() && write(&hub) == area).then_some(hub)
}

fn read_port(bytes: &[u8]) -> Option<Port> {
    let [state, speed, ticks, marks] = <[u8; 4]>::try_from(bytes).ok()?;
    let speed = *[Speed::Low, Speed::Full, Speed::High].get(usize::from(speed))?;
    let state = match state {
        0 => State::NotConfigured,
        1 => State::PoweredOff,
        2 => State::Disconnected,
        3 => State::Disabled(speed),
        4 if ticks < RESET_END => State::Resetting(speed, ticks),
        5 => State::Enabled(speed),
        6 => State::Suspended(speed),
        7 if ticks < RESUME_END => State::Resuming(speed, ticks),
        _ => return None,
    };
    let set = |change: &Change| marks >> *change as u8 & 1 == 1;
    Some(Port {
        state,
        over_current: marks >> 5 & 1 == 1,
        changes: Change::ALL.into_iter().filter(set).collect(),
    })
}

fn read_buffer(bytes: &[u8]) -> Option<Buffer> {
    let head = <[u8; BUFFER_HEAD]>::try_from(bytes.get(..BUFFER_HEAD)?).ok()?;
    let [status, pid, transfer, flags, address, endpoint, last, length] = head;
    let bytes = &bytes[BUFFER_HEAD..];
    if status == 0 {
        return Some(Buffer::Empty);
    }
    let start = StartNumbers {
        lane: (flags & LANE_BIT != 0).into(),
        pid: pid.into(),
        transfer: transfer.into(),
        low_speed: (flags & 1).into(),
        toggle: (flags >> 1 & 1).into(),
        address: address.into(),
        endpoint: endpoint.into(),
    }
    .understand()?;
    let payload = bytes.get(..usize::from(length))?;
    // A result has to suit the PID when it is delivered; no number or length
    // of the area depends on that.
    let outcome = || Outcome::from_number(last.into(), payload);
    match status {
        1 if start.permits_payload(payload.len()) => {
            Some(Buffer::Pending { start, payload: payload.to_vec(), place: last })
        }
        2 => outcome().map(|outcome| Buffer::Ready(start, outcome)),
        3 => outcome().map(|outcome| Buffer::Old(start, outcome)),
        _ => None,
    }
}
