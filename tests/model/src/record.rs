//! A call as bytes: docs/CALLS.md, "A record".

use crate::hub::{Call, StartNumbers};

/// The longest reply space that a record can tell of.
pub const SPACE_MAX: usize = u32::MAX as usize;

/// The tag, the numbers, and the setup or payload bytes if the call has any.
fn parts(call: &Call) -> (u8, Vec<u32>, Option<&[u8]>) {
    match call {
        Call::Control { lane, setup, space } => (1, vec![*lane, told(*space)], Some(setup)),
        Call::Poll { lane, space } => (2, vec![*lane, told(*space)], None),
        Call::StartSplit { numbers, payload } => {
            let StartNumbers { lane, pid, transfer, low_speed, toggle, address, endpoint } =
                *numbers;
            let numbers = vec![lane, pid, transfer, low_speed, toggle, address, endpoint];
            (3, numbers, Some(payload))
        }
        Call::CompleteSplit { lane, address, endpoint, direction, space } => {
            (4, vec![*lane, *address, *endpoint, *direction, told(*space)], None)
        }
        Call::Launch { space } => (5, vec![told(*space)], None),
        Call::Deliver { result, payload } => (6, vec![*result], Some(payload)),
        Call::LineEvent { event, port } => (7, vec![*event, *port], None),
        Call::Tick => (8, Vec::new(), None),
        Call::BusReset => (9, Vec::new(), None),
    }
}

fn told(space: usize) -> u32 {
    space.min(SPACE_MAX) as u32
}

/// The length of the record's part up to the numbers' end.
pub fn numbers_end(call: &Call) -> usize {
    let (_, numbers, _) = parts(call);
    1 + 4 * numbers.len()
}

/// The call's record.  Its setup or payload bytes have a count of 16 bits.
pub fn write(call: &Call) -> Vec<u8> {
    let (tag, numbers, bytes) = parts(call);
    let mut record = vec![tag];
    for number in numbers {
        record.extend_from_slice(&number.to_le_bytes());
    }
    if let Some(bytes) = bytes {
        let count = u16::try_from(bytes.len()).expect("a count of 16 bits");
        record.extend_from_slice(&count.to_le_bytes());
        record.extend_from_slice(bytes);
    }
    record
}

/// The call whose record the bytes are, if they are one.
pub fn read(bytes: &[u8]) -> Option<Call> {
    read_first(bytes).filter(|(_, rest)| rest.is_empty()).map(|(call, _)| call)
}

/// The calls whose records the bytes are, one behind the other.
pub fn read_all(mut bytes: &[u8]) -> Option<Vec<Call>> {
    let mut calls = Vec::new();
    while !bytes.is_empty() {
        let (call, rest) = read_first(bytes)?;
        calls.push(call);
        bytes = rest;
    }
    Some(calls)
}

/// The call of the first record, and the bytes behind it.
pub fn read_first(bytes: &[u8]) -> Option<(Call, &[u8])> {
    let (tag, rest) = bytes.split_first()?;
    let mut rest = Rest(rest);
    let call = match tag {
        1 => Call::Control { lane: rest.number()?, space: rest.space()?, setup: rest.counted()? },
        2 => Call::Poll { lane: rest.number()?, space: rest.space()? },
        3 => Call::StartSplit { numbers: rest.start_numbers()?, payload: rest.counted()? },
        4 => Call::CompleteSplit {
            lane: rest.number()?,
            address: rest.number()?,
            endpoint: rest.number()?,
            direction: rest.number()?,
            space: rest.space()?,
        },
        5 => Call::Launch { space: rest.space()? },
        6 => Call::Deliver { result: rest.number()?, payload: rest.counted()? },
        7 => Call::LineEvent { event: rest.number()?, port: rest.number()? },
        8 => Call::Tick,
        9 => Call::BusReset,
        _ => return None,
    };
    Some((call, rest.0))
}

/// The bytes of a record that are still to be read.  Fields are read in the
/// order in which they are named.
struct Rest<'a>(&'a [u8]);

impl<'a> Rest<'a> {
    fn take(&mut self, length: usize) -> Option<&'a [u8]> {
        let taken = self.0.get(..length)?;
        self.0 = &self.0[length..];
        Some(taken)
    }

    fn number(&mut self) -> Option<u32> {
        self.take(4)?.try_into().ok().map(u32::from_le_bytes)
    }

    fn space(&mut self) -> Option<usize> {
        self.number().map(|number| number as usize)
    }

    fn counted(&mut self) -> Option<Vec<u8>> {
        let count = self.take(2)?.try_into().ok().map(u16::from_le_bytes)?;
        self.take(count.into()).map(<[u8]>::to_vec)
    }

    fn start_numbers(&mut self) -> Option<StartNumbers> {
        Some(StartNumbers {
            lane: self.number()?,
            pid: self.number()?,
            transfer: self.number()?,
            low_speed: self.number()?,
            toggle: self.number()?,
            address: self.number()?,
            endpoint: self.number()?,
        })
    }
}
