//! The transaction translator: keys, buffers and the low side.

use crate::answer::{self, Answer};

#[derive(Clone, Copy, Debug, PartialEq, Eq)]
pub enum Direction {
    Out,
    In,
}

/// The upstream lane of one computer.
#[derive(Clone, Copy, Debug, PartialEq, Eq)]
pub enum Lane {
    Zero,
    One,
}

#[derive(Clone, Copy, Debug, PartialEq, Eq)]
pub struct Key {
    pub lane: Lane,
    pub address: u8,
    pub endpoint: u8,
    pub direction: Direction,
}

#[derive(Clone, Copy, Debug, PartialEq, Eq)]
pub enum Token {
    Out,
    In,
    Setup,
}

#[derive(Clone, Copy, Debug, PartialEq, Eq)]
pub enum Transfer {
    Control,
    Bulk,
}

#[derive(Clone, Copy, Debug, PartialEq, Eq)]
pub enum Toggle {
    Data0,
    Data1,
}

#[derive(Clone, Debug, PartialEq, Eq)]
pub struct Start {
    pub lane: Lane,
    pub token: Token,
    pub transfer: Transfer,
    pub low_speed: bool,
    pub toggle: bool,
    pub address: u8,
    pub endpoint: u8,
}

#[derive(Clone, Debug, PartialEq, Eq)]
pub enum Outcome {
    Failure,
    Ack,
    Nak,
    Stall,
    Data(Toggle, Vec<u8>),
}

#[derive(Clone, Debug)]
pub enum Buffer {
    Empty,
    Pending { start: Start, payload: Vec<u8>, place: u8 },
    Ready(Start, Outcome),
    Old(Start, Outcome),
}

#[derive(Clone, Copy, Debug, PartialEq, Eq)]
pub enum LowSide {
    Idle,
    Running(usize),
    Abandoned,
}

#[derive(Clone, Debug)]
pub struct Translator {
    pub buffers: Vec<Buffer>,
    pub low_side: LowSide,
}

impl Lane {
    pub const ALL: [Lane; 2] = [Lane::Zero, Lane::One];

    pub fn from_number(number: u32) -> Option<Lane> {
        match number {
            0 => Some(Lane::Zero),
            1 => Some(Lane::One),
            _ => None,
        }
    }

    pub fn other(self) -> Lane {
        match self {
            Lane::Zero => Lane::One,
            Lane::One => Lane::Zero,
        }
    }
}

impl Token {
    pub fn direction(self) -> Direction {
        match self {
            Token::In => Direction::In,
            Token::Out | Token::Setup => Direction::Out,
        }
    }

    pub fn from_number(number: u32) -> Option<Token> {
        match number {
            1 => Some(Token::Out),
            9 => Some(Token::In),
            13 => Some(Token::Setup),
            _ => None,
        }
    }

    pub fn number(self) -> u8 {
        match self {
            Token::Out => 1,
            Token::In => 9,
            Token::Setup => 13,
        }
    }
}

impl Transfer {
    pub fn from_number(number: u32) -> Option<Transfer> {
        match number {
            0 => Some(Transfer::Control),
            2 => Some(Transfer::Bulk),
            _ => None,
        }
    }

    pub fn number(self) -> u8 {
        match self {
            Transfer::Control => 0,
            Transfer::Bulk => 2,
        }
    }
}

impl Key {
    pub fn from_numbers(lane: u32, address: u32, endpoint: u32, direction: u32) -> Option<Key> {
        let lane = Lane::from_number(lane)?;
        let direction = match direction {
            0 => Direction::Out,
            1 => Direction::In,
            _ => return None,
        };
        if address > 127 || endpoint > 15 {
            return None;
        }
        Some(Key { lane, address: address as u8, endpoint: endpoint as u8, direction })
    }

    /// The same key in the other lane.
    pub fn twin(self) -> Key {
        Key { lane: self.lane.other(), ..self }
    }
}

pub fn flag(number: u32) -> Option<bool> {
    match number {
        0 => Some(false),
        1 => Some(true),
        _ => None,
    }
}

impl Start {
    pub fn key(&self) -> Key {
        let direction = self.token.direction();
        Key { lane: self.lane, address: self.address, endpoint: self.endpoint, direction }
    }

    /// SETUP is control.
    pub fn is_permitted(&self) -> bool {
        let setup_bulk = self.token == Token::Setup && self.transfer == Transfer::Bulk;
        !setup_bulk && self.address <= 127 && self.endpoint <= 15
    }

    pub fn permits_payload(&self, length: usize) -> bool {
        match self.token {
            Token::In => length == 0,
            Token::Setup => length == 8,
            Token::Out => length <= 64,
        }
    }
}

impl Outcome {
    /// None if the number isn't named, or the payload doesn't fit it.
    pub fn from_number(number: u32, payload: &[u8]) -> Option<Outcome> {
        let outcome = match number {
            0 => Outcome::Failure,
            2 => Outcome::Ack,
            3 => Outcome::Data(Toggle::Data0, payload.to_vec()),
            10 => Outcome::Nak,
            11 => Outcome::Data(Toggle::Data1, payload.to_vec()),
            14 => Outcome::Stall,
            _ => return None,
        };
        let most = if matches!(outcome, Outcome::Data(..)) { 64 } else { 0 };
        (payload.len() <= most).then_some(outcome)
    }

    pub fn number(&self) -> u8 {
        match self {
            Outcome::Failure => 0,
            Outcome::Ack => 2,
            Outcome::Data(Toggle::Data0, _) => 3,
            Outcome::Nak => 10,
            Outcome::Data(Toggle::Data1, _) => 11,
            Outcome::Stall => 14,
        }
    }

    pub fn bytes(&self) -> &[u8] {
        match self {
            Outcome::Data(_, bytes) => bytes,
            _ => &[],
        }
    }

    pub fn suits(&self, token: Token) -> bool {
        use Outcome::*;
        match token {
            Token::In => matches!(self, Data(..) | Nak | Stall | Failure),
            Token::Out => matches!(self, Ack | Nak | Stall | Failure),
            Token::Setup => matches!(self, Ack | Failure),
        }
    }

    /// What a complete-split answers; a failure shows as STALL.
    fn answer(&self) -> Answer {
        match self {
            Outcome::Data(_, bytes) => Answer { pid: self.number(), ..Answer::data(bytes) },
            Outcome::Failure => Outcome::Stall.answer(),
            _ => Answer { pid: self.number(), ..Answer::plain(answer::HANDSHAKE) },
        }
    }
}

impl Buffer {
    pub fn start(&self) -> Option<&Start> {
        match self {
            Buffer::Empty => None,
            Buffer::Pending { start, .. } => Some(start),
            Buffer::Ready(start, _) | Buffer::Old(start, _) => Some(start),
        }
    }

    pub fn key(&self) -> Option<Key> {
        self.start().map(Start::key)
    }

    pub fn lane(&self) -> Option<Lane> {
        self.start().map(|start| start.lane)
    }

    pub fn place(&self) -> Option<u8> {
        match self {
            Buffer::Pending { place, .. } => Some(*place),
            _ => None,
        }
    }

    /// The result of a ready or old buffer.
    pub fn outcome(&self) -> Option<&Outcome> {
        match self {
            Buffer::Ready(_, outcome) | Buffer::Old(_, outcome) => Some(outcome),
            _ => None,
        }
    }

    pub fn is_free(&self) -> bool {
        matches!(self, Buffer::Empty | Buffer::Old(..))
    }
}

impl Translator {
    pub fn new(buffers: usize) -> Translator {
        Translator { buffers: vec![Buffer::Empty; buffers], low_side: LowSide::Idle }
    }

    /// Empties the translator and stops the low side.
    pub fn stop(&mut self) {
        *self = Translator::new(self.buffers.len());
    }

    pub fn find(&self, key: Key) -> Option<usize> {
        self.buffers.iter().position(|buffer| buffer.key() == Some(key))
    }

    /// The most buffers that a lane may hold.
    pub fn limit(&self) -> usize {
        self.buffers.len() - 1
    }

    /// The buffers that the lane holds, pending or ready.
    pub fn held(&self, lane: Lane) -> usize {
        let holds = |buffer: &&Buffer| buffer.lane() == Some(lane) && !buffer.is_free();
        self.buffers.iter().filter(holds).count()
    }

    pub fn start(&mut self, start: Start, payload: Vec<u8>) -> Answer {
        let number = match self.find(start.key()) {
            Some(number) if !self.buffers[number].is_free() => return Answer::plain(answer::DONE),
            _ if self.held(start.lane) + 1 > self.limit() => return Answer::plain(answer::NAK),
            Some(number) => Some(number),
            None => self.buffers.iter().position(Buffer::is_free),
        };
        let number = match number {
            Some(number) => number,
            None => return Answer::plain(answer::NAK),
        };
        let place = self.close_gaps();
        self.buffers[number] = Buffer::Pending { start, payload, place };
        Answer::plain(answer::DONE)
    }

    /// Gives the pending buffers the places 0, 1, .. in their order and
    /// returns the next place.
    fn close_gaps(&mut self) -> u8 {
        let mut pending: Vec<(&mut u8, u8)> = self
            .buffers
            .iter_mut()
            .filter_map(|buffer| match buffer {
                Buffer::Pending { place, .. } => {
                    let old = *place;
                    Some((place, old))
                }
                _ => None,
            })
            .collect();
        pending.sort_by_key(|(_, old)| *old);
        let mut next = 0;
        for (place, _) in pending {
            *place = next;
            next += 1;
        }
        next
    }

    pub fn complete(&mut self, key: Key) -> Answer {
        let number = match self.find(key) {
            Some(number) => number,
            None => return Answer::plain(answer::STALL),
        };
        let (start, outcome) = match &self.buffers[number] {
            Buffer::Ready(start, outcome) | Buffer::Old(start, outcome) => {
                (start.clone(), outcome.clone())
            }
            _ => return Answer::plain(answer::NYET),
        };
        let answer = outcome.answer();
        self.buffers[number] = Buffer::Old(start, outcome);
        answer
    }

    pub fn earliest(&self) -> Option<usize> {
        let pending = |&number: &usize| self.buffers[number].place().is_some();
        (0..self.buffers.len()).filter(pending).min_by_key(|&number| self.buffers[number].place())
    }

    /// The low side is idle.
    pub fn launch(&mut self) -> Answer {
        let number = match self.earliest() {
            Some(number) => number,
            None => return Answer::plain(answer::NAK),
        };
        let (start, payload) = match &self.buffers[number] {
            Buffer::Pending { start, payload, .. } => (start, payload),
            _ => unreachable!(),
        };
        self.low_side = LowSide::Running(number);
        Answer {
            pid: start.token.number(),
            transfer: start.transfer.number(),
            lane: start.lane as u8,
            address: start.address,
            endpoint: start.endpoint,
            direction: start.token.direction() as u8,
            low_speed: start.low_speed.into(),
            toggle: start.toggle.into(),
            ..Answer::data(payload)
        }
    }

    pub fn is_idle(&self) -> bool {
        self.low_side == LowSide::Idle
    }

    /// The running transaction.
    pub fn running(&self) -> Option<&Start> {
        match self.low_side {
            LowSide::Running(number) => self.buffers[number].start(),
            _ => None,
        }
    }

    pub fn permits_delivery(&self, outcome: &Outcome) -> bool {
        match self.low_side {
            LowSide::Idle => false,
            LowSide::Running(_) => self.running().map_or(false, |start| outcome.suits(start.token)),
            LowSide::Abandoned => true,
        }
    }

    /// A permitted delivery.
    pub fn deliver(&mut self, outcome: Outcome) -> Answer {
        if let LowSide::Running(number) = self.low_side {
            let start = self.buffers[number].start().cloned().expect("a running buffer is pending");
            self.buffers[number] = Buffer::Ready(start, outcome);
        }
        self.low_side = LowSide::Idle;
        Answer::plain(answer::DONE)
    }

    /// ClearTTBuffer.
    pub fn clear(&mut self, key: Key) {
        if let Some(number) = self.find(key) {
            self.empty(number);
        }
    }

    /// ResetTT from the lane.
    pub fn reset(&mut self, lane: Lane) {
        for number in 0..self.buffers.len() {
            if self.buffers[number].lane() == Some(lane) {
                self.empty(number);
            }
        }
    }

    /// Empties the buffer; its transaction, if it runs, is abandoned.
    fn empty(&mut self, number: usize) {
        self.buffers[number] = Buffer::Empty;
        if self.low_side == LowSide::Running(number) {
            self.low_side = LowSide::Abandoned;
        }
    }
}
