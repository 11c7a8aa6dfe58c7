//! Control requests as eight setup bytes.

use crate::port::{Change, ClearFeature, SetFeature};
use crate::translator::{Direction, Key, Lane};

#[derive(Clone, Debug, PartialEq, Eq)]
pub enum Request {
    SetConfiguration(bool),
    GetConfiguration,
    GetHubDescriptor(u16),
    GetHubStatus,
    GetPortStatus(u16),
    ClearHubFeature,
    ClearPortFeature(ClearFeature, u16),
    SetPortFeature(SetFeature, u16),
    ClearTtBuffer(Key),
    ResetTt(Lane),
}

impl Request {
    /// None if the bytes are no request of the table.  Whether the port exists
    /// isn't tested here.  The lane is the caller's.
    pub fn read(lane: Lane, setup: &[u8; 8]) -> Option<Request> {
        let word = |at: usize| u16::from_le_bytes([setup[at], setup[at + 1]]);
        let (value, index, length) = (word(2), word(4), word(6));
        match (setup[0], setup[1], value, index, length) {
            (0x00, 0x09, 0 | 1, 0, 0) => Some(Request::SetConfiguration(value == 1)),
            (0x80, 0x08, 0, 0, 1) => Some(Request::GetConfiguration),
            (0xA0, 0x06, 0x2900, 0, _) => Some(Request::GetHubDescriptor(length)),
            (0xA0, 0x00, 0, 0, 4) => Some(Request::GetHubStatus),
            (0xA3, 0x00, 0, port, 4) => Some(Request::GetPortStatus(port)),
            (0x20, 0x01, 0 | 1, 0, 0) => Some(Request::ClearHubFeature),
            (0x23, 0x01, _, port, 0) => {
                clear_feature(value).map(|feature| Request::ClearPortFeature(feature, port))
            }
            (0x23, 0x03, _, port, 0) => {
                set_feature(value).map(|feature| Request::SetPortFeature(feature, port))
            }
            (0x23, 0x08, _, 1, 0) => buffer_key(lane, value).map(Request::ClearTtBuffer),
            (0x23, 0x09, 0, 1, 0) => Some(Request::ResetTt(lane)),
            _ => None,
        }
    }

    /// The port that the request names.
    pub fn port(&self) -> Option<u16> {
        match *self {
            Request::GetPortStatus(port)
            | Request::ClearPortFeature(_, port)
            | Request::SetPortFeature(_, port) => Some(port),
            _ => None,
        }
    }

    pub fn served_unconfigured(&self) -> bool {
        matches!(
            self,
            Request::SetConfiguration(_) | Request::GetConfiguration | Request::GetHubDescriptor(_)
        )
    }
}

fn set_feature(value: u16) -> Option<SetFeature> {
    match value {
        2 => Some(SetFeature::Suspend),
        4 => Some(SetFeature::Reset),
        8 => Some(SetFeature::Power),
        _ => None,
    }
}

fn clear_feature(value: u16) -> Option<ClearFeature> {
    match value {
        1 => Some(ClearFeature::Enable),
        2 => Some(ClearFeature::Suspend),
        8 => Some(ClearFeature::Power),
        16..=20 => Some(ClearFeature::Change(Change::ALL[usize::from(value) - 16])),
        _ => None,
    }
}

/// wValue of ClearTTBuffer.
fn buffer_key(lane: Lane, value: u16) -> Option<Key> {
    let [low, high] = value.to_le_bytes();
    let kind = high >> 3 & 0b11;
    if kind % 2 == 1 || high & 0b0110_0000 != 0 {
        return None;
    }
    Some(Key {
        lane,
        endpoint: low % 16,
        address: low / 16 + (high % 8) * 16,
        direction: if high >= 128 { Direction::In } else { Direction::Out },
    })
}
