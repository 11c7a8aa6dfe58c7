//! Random calls for recordings, and damage to records, blocks and memory.

use crate::block::{self, CHECK, LENGTH, RECORDS, USED_MAX};
use crate::choose::Chooser;
use crate::hub::{Call, Hub};
use crate::random::Random;
use crate::record;
use crate::translator::{Buffer, Key};
use crate::under_way;

const LENGTHS: [usize; 19] =
    [0, 1, 7, 9, 64, 65, 66, 255, 256, 257, 300, 475, 476, 495, 496, 499, 500, 600, 65_535];

const SPACES: [usize; 15] = [
    0,
    1,
    63,
    64,
    65,
    255,
    256,
    257,
    65_535,
    65_536,
    65_599,
    1 << 31,
    record::SPACE_MAX,
    record::SPACE_MAX + 1,
    usize::MAX,
];

/// A call to record, sometimes with a length far from the usual, or one of
/// those with the shortest records.
pub fn call(chooser: &mut Chooser, hub: &Hub, short: bool) -> Call {
    if short {
        return chooser.random.pick(&[Call::Tick, Call::Tick, Call::Tick, Call::BusReset]);
    }
    let mut call = match chooser.random.below(12) {
        0 => chooser.any_call(hub),
        1..=3 => leading_on(chooser, hub).unwrap_or(Call::Tick),
        _ => chooser.call(hub),
    };
    if chooser.random.one_in(15) {
        stretch(&mut chooser.random, &mut call);
    }
    call
}

/// What brings the transaction of a buffer further, or clears it.
fn leading_on(chooser: &mut Chooser, hub: &Hub) -> Option<Call> {
    let translator = &hub.translator;
    let buffer = &translator.buffers[chooser.random.below(translator.buffers.len())];
    let Key { lane, address, endpoint, direction } = buffer.key()?;
    let (lane, direction) = (lane as u32, direction as u32);
    let (address, endpoint) = (u32::from(address), u32::from(endpoint));
    Some(match buffer {
        _ if chooser.random.one_in(8) => {
            let [low, high, ..] = (endpoint | address << 4 | direction << 15).to_le_bytes();
            Call::Control { lane, setup: vec![0x23, 0x08, low, high, 1, 0, 0, 0], space: 64 }
        }
        Buffer::Pending { .. } if translator.is_idle() => Call::Launch { space: 64 },
        Buffer::Pending { .. } => chooser.deliver(hub),
        _ => Call::CompleteSplit { lane, address, endpoint, direction, space: 64 },
    })
}

fn stretch(random: &mut Random, call: &mut Call) {
    let other = random.one_in(2);
    match call {
        Call::Control { setup: bytes, .. } if other => *bytes = any_bytes(random),
        Call::StartSplit { payload: bytes, .. } | Call::Deliver { payload: bytes, .. } => {
            *bytes = any_bytes(random);
        }
        Call::Control { space, .. }
        | Call::Poll { space, .. }
        | Call::CompleteSplit { space, .. }
        | Call::Launch { space } => *space = random.pick(&SPACES),
        Call::LineEvent { .. } | Call::Tick | Call::BusReset => {}
    }
}

fn any_bytes(random: &mut Random) -> Vec<u8> {
    let length = random.pick(&LENGTHS);
    random.bytes(length)
}

/// The record, damaged.  It may be that of another call.
pub fn record(random: &mut Random, record: &[u8]) -> Vec<u8> {
    let mut record = record.to_vec();
    match random.below(6) {
        0 => record[0] = random.pick(&[0, 10, 11, 16, 128 + record[0], 255]),
        1 => record.truncate(random.below(record.len())),
        2 => record.truncate(record.len() - 1),
        3 => record.push(random.pick(&[0, 8, 255])),
        4 => {
            let place = random.below(record.len());
            record[place] = random.byte();
        }
        _ => record.clear(),
    }
    record
}

/// A record to add to the memory: that of a call, one that fills the block, is
/// one byte longer, or fits none, or a damaged one.
pub fn record_for(chooser: &mut Chooser, hub: &Hub, memory: &[u8]) -> Vec<u8> {
    let call = call(chooser, hub, false);
    let random = &mut chooser.random;
    let count = if memory.len() == LENGTH { block::count(memory) } else { 0 };
    let room = USED_MAX.saturating_sub(count);
    let given = match random.below(6) {
        0 => record_of(random, room),
        1 => record_of(random, room + 1),
        2 => record_of(random, USED_MAX),
        3 => record_of(random, USED_MAX + 1),
        _ => record::write(&call),
    };
    match random.below(3) {
        0 => record(random, &given),
        _ => given,
    }
}

/// A record of this length, or the shortest if there is none.
fn record_of(random: &mut Random, length: usize) -> Vec<u8> {
    let call = match length.checked_sub(7) {
        Some(bytes) => Call::Deliver { result: 3, payload: random.bytes(bytes) },
        None => Call::Tick,
    };
    record::write(&call)
}

/// Memory for a block under way, mostly with something wrong.
pub fn memory(chooser: &mut Chooser, hub: &Hub) -> Vec<u8> {
    let mut memory = vec![0; LENGTH];
    under_way::start(&mut memory, chooser.random.within(1..=65_535) as u32);
    for _ in 0..chooser.random.pick(&[0, 1, 3, 30]) {
        let call = call(chooser, hub, false);
        under_way::add(&mut memory, &record::write(&call));
    }
    let random = &mut chooser.random;
    for _ in 0..random.pick(&[0, 1, 1, 1, 2]) {
        if memory.len() != LENGTH {
            break;
        }
        let byte = random.byte() | 1;
        let pair = random.pick(&[[0, byte], [byte, 0], [byte, byte]]);
        match random.below(8) {
            0 => memory[..2].copy_from_slice(&pair),
            1 => memory[CHECK..].fill(0),
            2 => memory[CHECK..].copy_from_slice(&pair),
            3 => change_count(random, &mut memory),
            4 => memory.resize(other_length(random), byte),
            5 => set_unused(random, &mut memory),
            6 => memory[RECORDS + random.below(USED_MAX)] = byte,
            _ => memory = random.bytes(LENGTH),
        }
    }
    memory
}

fn change_count(random: &mut Random, block: &mut [u8]) {
    let count = block::count(block);
    let near = [count.wrapping_sub(1), count + 1, random.below(600)];
    let far = [0, 505, 506, 507, 508, 511, 512, 32_768, 65_535];
    let count = if random.one_in(2) { random.pick(&near) } else { random.pick(&far) };
    block[2..RECORDS].copy_from_slice(&(count as u16).to_le_bytes());
}

/// Sets the byte behind the used ones, the last one, or one between.
fn set_unused(random: &mut Random, block: &mut [u8]) {
    let first = RECORDS + block::used(block).len();
    if first < CHECK {
        let between = random.within(first..=CHECK - 1);
        block[random.pick(&[first, CHECK - 1, between])] = random.pick(&[1, 8, 255]);
    }
}

fn other_length(random: &mut Random) -> usize {
    random.pick(&[0, 1, 2, 4, 510, 511, 511, 513, 513, 514, 1024])
}

/// Damages a good block, or gives it another place.  Its check is mostly right.
pub fn block(random: &mut Random, block: &mut Vec<u8>, place: &mut u32) {
    for _ in 0..random.within(1..=3) {
        let at = random.below(LENGTH);
        match random.below(8) {
            0 => block[at] = random.byte(),
            1 => swap_words(block, at / 2, random.below(LENGTH / 2)),
            2 => change_count(random, block),
            3 => set_unused(random, block),
            4 => block[RECORDS] = random.pick(&[0, 10, 255, 8, 9]),
            5 => *place = other_place(random, *place),
            6 => block[at % 2] = random.byte(),
            _ => block[RECORDS + at % 40] = random.byte(),
        }
    }
    if !random.one_in(4) {
        block::seal(block);
    }
    if random.one_in(10) {
        block.resize(other_length(random), 0);
    }
}

/// The sum stays as it is.
fn swap_words(block: &mut [u8], one: usize, other: usize) {
    for byte in 0..2 {
        block.swap(2 * one + byte, 2 * other + byte);
    }
}

/// Places other than the block's, and some that are none.
pub fn other_places(place: u32) -> Vec<u32> {
    let near = [place.wrapping_sub(1), place.wrapping_add(1), place ^ 0x100, place ^ 0x8000];
    let cut = [place | 1 << 16, place | 1 << 24, place | 1 << 31];
    [&near[..], &cut, &[0, 65_536, 131_072, u32::MAX]].concat()
}

fn other_place(random: &mut Random, place: u32) -> u32 {
    random.pick(&other_places(place))
}
