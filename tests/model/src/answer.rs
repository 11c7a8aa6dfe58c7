//! What a call answers.

pub const DONE: u8 = 0;
pub const DATA: u8 = 1;
pub const STALL: u8 = 2;
pub const NAK: u8 = 3;
pub const NYET: u8 = 4;
pub const SILENT: u8 = 5;
pub const OUTSIDE: u8 = 6;
pub const NO_SPACE: u8 = 7;
pub const NOT_NOW: u8 = 8;
pub const HANDSHAKE: u8 = 9;

pub const COUNT: usize = 10;

pub fn is_refusal(number: u8) -> bool {
    (STALL..=NOT_NOW).contains(&number)
}

/// Fields that don't apply are 0 or empty.
#[derive(Clone, Debug, Default, PartialEq, Eq)]
pub struct Answer {
    pub number: u8,
    pub bytes: Vec<u8>,
    pub pid: u8,
    pub transfer: u8,
    pub lane: u8,
    pub address: u8,
    pub endpoint: u8,
    pub direction: u8,
    pub low_speed: u8,
    pub toggle: u8,
}

impl Answer {
    pub fn plain(number: u8) -> Answer {
        Answer { number, ..Answer::default() }
    }

    pub fn data(bytes: &[u8]) -> Answer {
        Answer { number: DATA, bytes: bytes.to_vec(), ..Answer::default() }
    }

    /// The answer as bytes: docs/CALLS.md, "An answer".
    pub fn written(&self) -> Vec<u8> {
        let head = [
            self.number,
            self.bytes.len() as u8,
            self.pid,
            self.transfer,
            self.lane,
            self.address,
            self.endpoint,
            self.direction,
            self.low_speed,
            self.toggle,
        ];
        [&head, self.bytes.as_slice()].concat()
    }
}
