//! The C library behind its header, and the memory lent to it.

use std::ptr;

use crate::answer::Answer;
use crate::hub::{Call, Hub, StartNumbers};
use crate::reason::Reason;
use crate::replay::History;

/// `grimholdi_answer`.
#[repr(C)]
#[derive(Clone, Copy, Debug, PartialEq, Eq)]
pub struct RawAnswer {
    pub number: u8,
    pub length: u8,
    pub pid: u8,
    pub transfer: u8,
    pub lane: u8,
    pub address: u8,
    pub endpoint: u8,
    pub direction: u8,
    pub low_speed: u8,
    pub toggle: u8,
}

/// `grimholdi_reason`.
#[repr(C)]
#[derive(Clone, Copy, Debug, PartialEq, Eq)]
pub struct RawReason {
    pub kind: u8,
    pub value: u8,
    pub changes: [u8; 7],
}

/// `grimholdi_replayed`.
#[repr(C)]
#[derive(Clone, Copy, Debug, Default, PartialEq, Eq)]
pub struct RawReplayed {
    pub number: u8,
    pub refusal: u8,
    pub active: u8,
    pub stored: u32,
    pub answered: u32,
    pub emptied: u32,
    pub length: u32,
}

#[rustfmt::skip]
extern "C" {
    fn grimholdi_area_length(ports: u32, buffers: u32) -> usize;
    fn grimholdi_new(area: *mut u8, area_len: usize, ports: u32, buffers: u32, power_good: u32, current: u32, removable: u32) -> RawAnswer;
    fn grimholdi_control(area: *mut u8, area_len: usize, lane: u32, setup: *const u8, setup_len: usize, reply: *mut u8, reply_len: usize) -> RawAnswer;
    fn grimholdi_poll(area: *const u8, area_len: usize, lane: u32, reply: *mut u8, reply_len: usize) -> RawAnswer;
    fn grimholdi_start_split(area: *mut u8, area_len: usize, lane: u32, pid: u32, transfer: u32, low_speed: u32, toggle: u32, address: u32, endpoint: u32, payload: *const u8, payload_len: usize) -> RawAnswer;
    fn grimholdi_complete_split(area: *mut u8, area_len: usize, lane: u32, address: u32, endpoint: u32, direction: u32, reply: *mut u8, reply_len: usize) -> RawAnswer;
    fn grimholdi_launch(area: *mut u8, area_len: usize, reply: *mut u8, reply_len: usize) -> RawAnswer;
    fn grimholdi_deliver(area: *mut u8, area_len: usize, result: u32, payload: *const u8, payload_len: usize) -> RawAnswer;
    fn grimholdi_line_event(area: *mut u8, area_len: usize, event: u32, port: u32) -> RawAnswer;
    fn grimholdi_tick(area: *mut u8, area_len: usize) -> RawAnswer;
    fn grimholdi_bus_reset(area: *mut u8, area_len: usize) -> RawAnswer;
    fn grimholdi_why_control(area: *const u8, area_len: usize, lane: u32, setup: *const u8, setup_len: usize, reply_len: usize) -> RawReason;
    fn grimholdi_why_poll(area: *const u8, area_len: usize, lane: u32, reply_len: usize) -> RawReason;
    fn grimholdi_why_start_split(area: *const u8, area_len: usize, lane: u32, pid: u32, transfer: u32, low_speed: u32, toggle: u32, address: u32, endpoint: u32, payload: *const u8, payload_len: usize) -> RawReason;
    fn grimholdi_why_complete_split(area: *const u8, area_len: usize, lane: u32, address: u32, endpoint: u32, direction: u32, reply_len: usize) -> RawReason;
    fn grimholdi_why_launch(area: *const u8, area_len: usize, reply_len: usize) -> RawReason;
    fn grimholdi_why_deliver(area: *const u8, area_len: usize, result: u32, payload: *const u8, payload_len: usize) -> RawReason;
    fn grimholdi_why_line_event(area: *const u8, area_len: usize, event: u32, port: u32) -> RawReason;
    fn grimholdi_why_tick(area: *const u8, area_len: usize) -> RawReason;
    fn grimholdi_why_bus_reset(area: *const u8, area_len: usize) -> RawReason;
    fn grimholdi_block_start(block: *mut u8, block_len: usize, number: u32) -> u8;
    fn grimholdi_block_add(block: *mut u8, block_len: usize, record: *const u8, record_len: usize) -> u8;
    fn grimholdi_block_finish(block: *mut u8, block_len: usize) -> u8;
    fn grimholdi_replay_block(area: *mut u8, area_len: usize, place: u32, block: *const u8, block_len: usize, answers: *mut u8, answers_len: usize) -> RawReplayed;
}

const GUARD: [u8; 16] = *b"\xA5\x5A\xC3\x3C\x96\x69\xF0\x0F\x1E\xE1\x2D\xD2\x4B\xB4\x87\x78";

/// Bytes to lend, with guard bytes on both sides.
#[derive(Clone, PartialEq)]
pub struct Guarded {
    memory: Vec<u8>,
}

impl Guarded {
    pub fn new(bytes: &[u8]) -> Guarded {
        Guarded { memory: [&GUARD, bytes, &GUARD].concat() }
    }

    pub fn bytes(&self) -> &[u8] {
        &self.memory[GUARD.len()..self.memory.len() - GUARD.len()]
    }

    pub fn bytes_mut(&mut self) -> &mut [u8] {
        let end = self.memory.len() - GUARD.len();
        &mut self.memory[GUARD.len()..end]
    }

    pub fn guards_are_whole(&self) -> bool {
        self.memory.starts_with(&GUARD) && self.memory.ends_with(&GUARD)
    }

    /// Changes the first byte behind the lent ones.
    pub fn break_guard(&mut self) {
        let end = self.memory.len() - GUARD.len();
        self.memory[end] ^= 1;
    }

    /// (NULL, 0) if there are no bytes.
    fn lend(&mut self) -> (*mut u8, usize) {
        let length = self.bytes().len();
        let start = self.bytes_mut().as_mut_ptr();
        (if length == 0 { ptr::null_mut() } else { start }, length)
    }
}

/// All memory that a call is lent.  `input` holds setup bytes or a payload.
#[derive(Clone, PartialEq)]
pub struct Lent {
    pub area: Guarded,
    pub reply: Guarded,
    pub input: Guarded,
}

/// All memory that the replay of a block is lent.
#[derive(Clone, PartialEq)]
pub struct LentReplay {
    pub area: Guarded,
    pub block: Guarded,
    pub answers: Guarded,
}

/// The numbers given to `grimholdi_new`.
#[derive(Clone, Copy, Debug)]
pub struct NewNumbers {
    pub ports: u32,
    pub buffers: u32,
    pub power_good: u32,
    pub current: u32,
    pub removable: u32,
}

/// The library as it was linked, but for what a mistake replaces.
pub trait Library {
    fn area_length(&self, ports: u32, buffers: u32) -> usize {
        unsafe { grimholdi_area_length(ports, buffers) }
    }

    fn new_hub(&self, area: &mut Guarded, numbers: NewNumbers) -> RawAnswer {
        let NewNumbers { ports, buffers, power_good, current, removable } = numbers;
        let (area, area_len) = area.lend();
        unsafe { grimholdi_new(area, area_len, ports, buffers, power_good, current, removable) }
    }

    /// Setup bytes and payloads are taken from `lent`, not from `call`.
    fn call(&self, call: &Call, lent: &mut Lent) -> RawAnswer {
        let (area, area_len) = lent.area.lend();
        let (reply, reply_len) = lent.reply.lend();
        let (input, input_len) = lent.input.lend();
        unsafe {
            match *call {
                Call::Control { lane, .. } => {
                    grimholdi_control(area, area_len, lane, input, input_len, reply, reply_len)
                }
                Call::Poll { lane, .. } => grimholdi_poll(area, area_len, lane, reply, reply_len),
                Call::StartSplit { ref numbers, .. } => {
                    start_split((area, area_len), numbers, (input, input_len))
                }
                Call::CompleteSplit { lane, address, endpoint, direction, .. } => {
                    grimholdi_complete_split(
                        area, area_len, lane, address, endpoint, direction, reply, reply_len,
                    )
                }
                Call::Launch { .. } => grimholdi_launch(area, area_len, reply, reply_len),
                Call::Deliver { result, .. } => {
                    grimholdi_deliver(area, area_len, result, input, input_len)
                }
                Call::LineEvent { event, port } => {
                    grimholdi_line_event(area, area_len, event, port)
                }
                Call::Tick => grimholdi_tick(area, area_len),
                Call::BusReset => grimholdi_bus_reset(area, area_len),
            }
        }
    }

    /// Explains the call, without making it.  Of the reply space only the
    /// length is given.
    fn explain(&self, call: &Call, lent: &mut Lent) -> RawReason {
        let (area, area_len) = lent.area.lend();
        let reply_len = lent.reply.bytes().len();
        let (input, input_len) = lent.input.lend();
        unsafe {
            match *call {
                Call::Control { lane, .. } => {
                    grimholdi_why_control(area, area_len, lane, input, input_len, reply_len)
                }
                Call::Poll { lane, .. } => grimholdi_why_poll(area, area_len, lane, reply_len),
                Call::StartSplit { ref numbers, .. } => {
                    explain_start_split((area, area_len), numbers, (input, input_len))
                }
                Call::CompleteSplit { lane, address, endpoint, direction, .. } => {
                    grimholdi_why_complete_split(
                        area, area_len, lane, address, endpoint, direction, reply_len,
                    )
                }
                Call::Launch { .. } => grimholdi_why_launch(area, area_len, reply_len),
                Call::Deliver { result, .. } => {
                    grimholdi_why_deliver(area, area_len, result, input, input_len)
                }
                Call::LineEvent { event, port } => {
                    grimholdi_why_line_event(area, area_len, event, port)
                }
                Call::Tick => grimholdi_why_tick(area, area_len),
                Call::BusReset => grimholdi_why_bus_reset(area, area_len),
            }
        }
    }

    fn block_start(&self, block: &mut Guarded, number: u32) -> u8 {
        let (block, block_len) = block.lend();
        unsafe { grimholdi_block_start(block, block_len, number) }
    }

    fn block_add(&self, block: &mut Guarded, record: &mut Guarded) -> u8 {
        let (block, block_len) = block.lend();
        let (record, record_len) = record.lend();
        unsafe { grimholdi_block_add(block, block_len, record, record_len) }
    }

    fn block_finish(&self, block: &mut Guarded) -> u8 {
        let (block, block_len) = block.lend();
        unsafe { grimholdi_block_finish(block, block_len) }
    }

    fn replay_block(&self, lent: &mut LentReplay, place: u32) -> RawReplayed {
        let (area, area_len) = lent.area.lend();
        let (block, block_len) = lent.block.lend();
        let (answers, answers_len) = lent.answers.lend();
        unsafe {
            grimholdi_replay_block(area, area_len, place, block, block_len, answers, answers_len)
        }
    }

    /// The reason that the model gives.  None is an area without a permitted
    /// hub.
    fn expected_reason(&self, hub: Option<&Hub>, call: &Call) -> Reason {
        Reason::of(hub, call)
    }

    /// What the model writes into the history of a replay.
    fn note(&self, history: &mut History, call: &Call, answer: &Answer) {
        history.note(call, answer);
    }
}

pub struct Linked;

impl Library for Linked {}

unsafe fn start_split(
    (area, area_len): (*mut u8, usize),
    numbers: &StartNumbers,
    (payload, payload_len): (*const u8, usize),
) -> RawAnswer {
    grimholdi_start_split(
        area,
        area_len,
        numbers.lane,
        numbers.pid,
        numbers.transfer,
        numbers.low_speed,
        numbers.toggle,
        numbers.address,
        numbers.endpoint,
        payload,
        payload_len,
    )
}

unsafe fn explain_start_split(
    (area, area_len): (*const u8, usize),
    numbers: &StartNumbers,
    (payload, payload_len): (*const u8, usize),
) -> RawReason {
    grimholdi_why_start_split(
        area,
        area_len,
        numbers.lane,
        numbers.pid,
        numbers.transfer,
        numbers.low_speed,
        numbers.toggle,
        numbers.address,
        numbers.endpoint,
        payload,
        payload_len,
    )
}
