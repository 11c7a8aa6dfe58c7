//! Mistakes in the writing and the reading of blocks.

use std::mem;

use crate::answer;
use crate::block::{self, Refusal, CHECK, LENGTH, RECORDS, USED_MAX};
use crate::hub::Call;
use crate::library::{Guarded, LentReplay, Library, Linked, RawReplayed};
use crate::record;
use crate::replay_mistakes::Mistaken::{self, Add, Finish, Replay, Start};
use crate::under_way::{self, Fault};

pub const MISTAKES: &[(&str, Mistaken)] = &[
    ("check told before the length", Replay(check_first)),
    ("number told before the length", Replay(number_before_length)),
    ("number told before the check", Replay(number_first)),
    ("count told before the number", Replay(count_first)),
    ("record told before the count", Replay(record_first)),
    ("record told before the check", Replay(record_before_check)),
    ("unused bytes told as a record", Replay(unused_as_record)),
    ("a longer block cut to 512 bytes", Replay(longer_cut)),
    ("a shorter block filled with zeros", Replay(shorter_filled)),
    ("check not tested", Replay(check_free)),
    ("check tested in its low byte", Replay(check_low)),
    ("check modulo 65,535", Replay(check_modulo)),
    ("check over words with the high byte first", Replay(check_turned)),
    ("number compared in its low byte", Replay(number_low)),
    ("place cut to 16 bits", Replay(place_cut)),
    ("place 0 right for the number 0", Replay(place_zero)),
    ("a place above 65,535 right for the number 0", Replay(place_above)),
    ("number not tested", Replay(number_free)),
    ("a count of 507 taken", Replay(count_507)),
    ("a count of 506 refused", Replay(count_506)),
    ("a count above 506 read as 506", Replay(count_cut)),
    ("count's high byte ignored", Replay(count_low)),
    ("unused bytes ignored", Replay(unused_ignored)),
    ("first unused byte ignored", Replay(first_unused_ignored)),
    ("last unused byte ignored", Replay(last_unused_ignored)),
    ("a record read past the count", Replay(past_count)),
    ("bytes behind the last whole record ignored", Replay(tail_ignored)),
    ("zeros among the records passed over", Replay(zeros_passed)),
    ("tag 10 taken for a tick", Replay(tag_ten)),
    ("an empty block refused", Replay(empty_refused)),
    ("numbers cut to 8 bits", Replay(numbers_8)),
    ("numbers cut to 16 bits", Replay(numbers_16)),
    ("count of payload bytes cut to 8 bits", Replay(payload_count_8)),
    ("address and endpoint exchanged", Replay(fields_exchanged)),
    ("every reply space taken as 64 bytes", Replay(space_64)),
    ("reply space cut to 8 bits", Replay(space_8)),
    ("a payload cut to 64 bytes", Replay(payload_64)),
    ("start takes the number 0", Start(start_zero)),
    ("start cuts the number to 16 bits", Start(start_cut)),
    ("start keeps the memory's bytes", Start(start_keeps)),
    ("start writes the number at once", Start(start_numbered)),
    ("the last byte of a block not given away", Add(add_not_full)),
    ("a record that fits no block is 6", Add(add_long)),
    ("room tested before the record", Add(add_room_first)),
    ("count above 506 told as no room", Add(add_count)),
    ("a record not tested", Add(add_untested)),
    ("two records added at once", Add(add_two)),
    ("added to a finished block", Add(add_finished)),
    ("added without a number waiting", Add(add_numberless)),
    ("a record without room counted", Add(add_counted)),
    ("count written with the high byte first", Add(add_turned)),
    ("finish does not test the records", Finish(finish_untested)),
    ("finish does not test the unused bytes", Finish(finish_unused)),
    ("check made with the number waiting", Finish(finish_check)),
    ("finish leaves the first bytes zero", Finish(finish_numberless)),
];

fn tell(refusal: Refusal) -> u8 {
    refusal as u8
}

/// Replays another block instead.
pub fn instead(lent: &mut LentReplay, place: u32, block: &[u8]) -> RawReplayed {
    let kept = mem::replace(&mut lent.block, Guarded::new(block));
    let replayed = Linked.replay_block(lent, place);
    lent.block = kept;
    replayed
}

/// Replays the block with a change, if it has 512 bytes.  Its check stays right
/// or wrong.
fn with(lent: &mut LentReplay, place: u32, change: impl Fn(&mut [u8])) -> RawReplayed {
    let mut block = lent.block.bytes().to_vec();
    if block.len() == LENGTH {
        let wrong = block::faults(&block, place).contains(&Refusal::Check);
        change(&mut block);
        block::seal(&mut block);
        block[CHECK] ^= u8::from(wrong);
    }
    instead(lent, place, &block)
}

/// Refuses the block where it is refused for nothing that is told earlier.
fn refuse(
    lent: &mut LentReplay,
    place: u32,
    refusal: Refusal,
    met: fn(&[u8]) -> bool,
) -> RawReplayed {
    let earlier = |fault: &Refusal| tell(*fault) < tell(refusal);
    let block = lent.block.bytes().to_vec();
    if block::faults(&block, place).iter().any(earlier) || !met(&block) {
        return Linked.replay_block(lent, place);
    }
    let replayed = instead(lent, place, &[]);
    RawReplayed { refusal: replayed.refusal.min(1) * tell(refusal), ..replayed }
}

/// The later word where the earlier one is told and both are wrong.
fn swapped(lent: &mut LentReplay, place: u32, earlier: Refusal, later: Refusal) -> RawReplayed {
    let mut replayed = Linked.replay_block(lent, place);
    let both = block::faults(lent.block.bytes(), place).contains(&later);
    if replayed.refusal == tell(earlier) && both {
        replayed.refusal = tell(later);
    }
    replayed
}

fn check_first(lent: &mut LentReplay, place: u32) -> RawReplayed {
    swapped(lent, place, Refusal::Length, Refusal::Check)
}

fn number_before_length(lent: &mut LentReplay, place: u32) -> RawReplayed {
    swapped(lent, place, Refusal::Length, Refusal::Number)
}

fn number_first(lent: &mut LentReplay, place: u32) -> RawReplayed {
    swapped(lent, place, Refusal::Check, Refusal::Number)
}

fn count_first(lent: &mut LentReplay, place: u32) -> RawReplayed {
    swapped(lent, place, Refusal::Number, Refusal::Count)
}

fn record_first(lent: &mut LentReplay, place: u32) -> RawReplayed {
    swapped(lent, place, Refusal::Count, Refusal::Record)
}

fn record_before_check(lent: &mut LentReplay, place: u32) -> RawReplayed {
    swapped(lent, place, Refusal::Check, Refusal::Record)
}

fn unused_as_record(lent: &mut LentReplay, place: u32) -> RawReplayed {
    let mut replayed = Linked.replay_block(lent, place);
    if replayed.refusal == tell(Refusal::Count) && block::count(lent.block.bytes()) <= USED_MAX {
        replayed.refusal = tell(Refusal::Record);
    }
    replayed
}

fn longer_cut(lent: &mut LentReplay, place: u32) -> RawReplayed {
    let mut block = lent.block.bytes().to_vec();
    block.truncate(LENGTH);
    instead(lent, place, &block)
}

fn shorter_filled(lent: &mut LentReplay, place: u32) -> RawReplayed {
    let mut block = lent.block.bytes().to_vec();
    block.resize(block.len().max(LENGTH), 0);
    instead(lent, place, &block)
}

/// Replays the block with a right check where `met`, else with a wrong one.
fn checked(lent: &mut LentReplay, place: u32, met: fn(&[u8]) -> bool) -> RawReplayed {
    let mut block = lent.block.bytes().to_vec();
    if block.len() == LENGTH {
        let right = met(&block);
        block::seal(&mut block);
        block[CHECK] ^= u8::from(!right);
    }
    instead(lent, place, &block)
}

fn sum(block: &[u8], word: fn([u8; 2]) -> u16) -> u32 {
    block.chunks(2).map(|pair| u32::from(word([pair[0], pair[1]]))).sum()
}

fn check_free(lent: &mut LentReplay, place: u32) -> RawReplayed {
    checked(lent, place, |_| true)
}

fn check_low(lent: &mut LentReplay, place: u32) -> RawReplayed {
    checked(lent, place, |block| sum(block, u16::from_le_bytes) % 256 == 0)
}

fn check_modulo(lent: &mut LentReplay, place: u32) -> RawReplayed {
    checked(lent, place, |block| sum(block, u16::from_le_bytes) % 65_535 == 0)
}

fn check_turned(lent: &mut LentReplay, place: u32) -> RawReplayed {
    checked(lent, place, |block| sum(block, u16::from_be_bytes) % 65_536 == 0)
}

fn number_low(lent: &mut LentReplay, place: u32) -> RawReplayed {
    with(lent, place, |block| block[1] = (place >> 8) as u8)
}

fn place_cut(lent: &mut LentReplay, place: u32) -> RawReplayed {
    Linked.replay_block(lent, place & 0xFFFF)
}

/// A block with the number 0 is replayed as block 1.
fn as_one(lent: &mut LentReplay, place: u32) -> RawReplayed {
    if lent.block.bytes().starts_with(&[0, 0]) {
        return with(lent, 1, |block| block[0] = 1);
    }
    Linked.replay_block(lent, place)
}

fn place_zero(lent: &mut LentReplay, place: u32) -> RawReplayed {
    match place {
        0 => as_one(lent, place),
        _ => Linked.replay_block(lent, place),
    }
}

fn place_above(lent: &mut LentReplay, place: u32) -> RawReplayed {
    match place {
        65_536.. => as_one(lent, place),
        _ => Linked.replay_block(lent, place),
    }
}

fn number_free(lent: &mut LentReplay, place: u32) -> RawReplayed {
    match lent.block.bytes() {
        &[low, high, ..] if low > 0 || high > 0 => {
            Linked.replay_block(lent, u16::from_le_bytes([low, high]).into())
        }
        _ => Linked.replay_block(lent, place),
    }
}

/// The check's first byte is read as the last of the records.
fn count_507(lent: &mut LentReplay, place: u32) -> RawReplayed {
    let mut replayed = Linked.replay_block(lent, place);
    let block = lent.block.bytes();
    let taken = replayed.refusal == tell(Refusal::Count) && block::count(block) == USED_MAX + 1;
    if taken && record::read_all(&block[RECORDS..=CHECK]).is_none() {
        replayed.refusal = tell(Refusal::Record);
    }
    replayed
}

fn count_506(lent: &mut LentReplay, place: u32) -> RawReplayed {
    refuse(lent, place, Refusal::Count, |block| block::count(block) == USED_MAX)
}

fn count_cut(lent: &mut LentReplay, place: u32) -> RawReplayed {
    with(lent, place, |block| {
        let count = block::count(block).min(USED_MAX) as u16;
        block[2..RECORDS].copy_from_slice(&count.to_le_bytes());
    })
}

fn count_low(lent: &mut LentReplay, place: u32) -> RawReplayed {
    with(lent, place, |block| block[3] = 0)
}

fn unused_ignored(lent: &mut LentReplay, place: u32) -> RawReplayed {
    with(lent, place, |block| {
        let end = RECORDS + block::used(block).len();
        block[end..CHECK].fill(0);
    })
}

fn first_unused_ignored(lent: &mut LentReplay, place: u32) -> RawReplayed {
    with(lent, place, |block| {
        let end = RECORDS + block::used(block).len();
        if end < CHECK {
            block[end] = 0;
        }
    })
}

fn last_unused_ignored(lent: &mut LentReplay, place: u32) -> RawReplayed {
    with(lent, place, |block| {
        if block::count(block) < USED_MAX {
            block[CHECK - 1] = 0;
        }
    })
}

/// The count is made larger until it holds records, with zeros behind.
fn past_count(lent: &mut LentReplay, place: u32) -> RawReplayed {
    with(lent, place, |block| {
        let holds = |count: &usize| record::read_all(&block[RECORDS..RECORDS + count]).is_some();
        let count = (block::count(block)..=USED_MAX).find(holds);
        if let Some(count) = count.filter(|_| unused_are_zero(block)) {
            block[2..RECORDS].copy_from_slice(&(count as u16).to_le_bytes());
        }
    })
}

/// The bytes that are no record are made unused, and zero.
fn tail_ignored(lent: &mut LentReplay, place: u32) -> RawReplayed {
    with(lent, place, |block| {
        if block::count(block) > USED_MAX {
            return;
        }
        let mut rest = block::used(block);
        while let Some((_, behind)) = record::read_first(rest) {
            rest = behind;
        }
        let (used, tail) = (block::count(block), rest.len());
        block[2..RECORDS].copy_from_slice(&((used - tail) as u16).to_le_bytes());
        block[RECORDS + used - tail..RECORDS + used].fill(0);
    })
}

/// The used zeros at the end are made unused.
fn zeros_passed(lent: &mut LentReplay, place: u32) -> RawReplayed {
    with(lent, place, |block| {
        if record::read_all(block::used(block)).is_none() && block::count(block) <= USED_MAX {
            let used = block::used(block);
            let zeros = used.iter().rev().take_while(|&&byte| byte == 0).count();
            let count = (used.len() - zeros) as u16;
            block[2..RECORDS].copy_from_slice(&count.to_le_bytes());
        }
    })
}

/// Of the first record alone.
fn tag_ten(lent: &mut LentReplay, place: u32) -> RawReplayed {
    with(lent, place, |block| {
        if block::count(block) > 0 && block[RECORDS] == 10 {
            block[RECORDS] = 8;
        }
    })
}

fn empty_refused(lent: &mut LentReplay, place: u32) -> RawReplayed {
    refuse(lent, place, Refusal::Count, |block| block::count(block) == 0)
}

/// Replays the calls of a good block with a change.
fn with_calls(lent: &mut LentReplay, place: u32, change: fn(&mut Call)) -> RawReplayed {
    let mut calls = match block::read(lent.block.bytes(), place) {
        Ok(calls) => calls,
        Err(_) => return Linked.replay_block(lent, place),
    };
    calls.iter_mut().for_each(change);
    let records: Vec<u8> = calls.iter().flat_map(record::write).collect();
    let block = block::write(place as u16, &records).expect("the records are no longer");
    instead(lent, place, &block)
}

/// Replays the calls with each number of four bytes cut.
fn numbers_cut(lent: &mut LentReplay, place: u32, bytes: usize) -> RawReplayed {
    let block = lent.block.bytes();
    let calls = match block::read(block, place) {
        Ok(calls) => calls,
        Err(_) => return Linked.replay_block(lent, place),
    };
    let mut records = Vec::new();
    for call in &calls {
        let mut record = record::write(call);
        for number in record[1..record::numbers_end(call)].chunks_mut(4) {
            number[bytes..].fill(0);
        }
        records.extend(record);
    }
    let block = block::write(place as u16, &records).expect("the records are no longer");
    instead(lent, place, &block)
}

fn numbers_8(lent: &mut LentReplay, place: u32) -> RawReplayed {
    numbers_cut(lent, place, 1)
}

fn numbers_16(lent: &mut LentReplay, place: u32) -> RawReplayed {
    numbers_cut(lent, place, 2)
}

fn payload_count_8(lent: &mut LentReplay, place: u32) -> RawReplayed {
    refuse(lent, place, Refusal::Record, |block| {
        let long = |call: &Call| match call {
            Call::Control { setup: bytes, .. }
            | Call::StartSplit { payload: bytes, .. }
            | Call::Deliver { payload: bytes, .. } => bytes.len() > 255,
            _ => false,
        };
        record::read_all(block::used(block)).map_or(false, |calls| calls.iter().any(long))
    })
}

fn fields_exchanged(lent: &mut LentReplay, place: u32) -> RawReplayed {
    with_calls(lent, place, |call| {
        if let Call::CompleteSplit { address, endpoint, .. } = call {
            mem::swap(address, endpoint);
        }
    })
}

fn change_space(call: &mut Call, change: fn(usize) -> usize) {
    match call {
        Call::Control { space, .. }
        | Call::Poll { space, .. }
        | Call::CompleteSplit { space, .. }
        | Call::Launch { space } => *space = change(*space),
        _ => {}
    }
}

fn space_64(lent: &mut LentReplay, place: u32) -> RawReplayed {
    with_calls(lent, place, |call| change_space(call, |_| 64))
}

fn space_8(lent: &mut LentReplay, place: u32) -> RawReplayed {
    with_calls(lent, place, |call| change_space(call, |space| space % 256))
}

fn payload_64(lent: &mut LentReplay, place: u32) -> RawReplayed {
    with_calls(lent, place, |call| {
        if let Call::StartSplit { payload, .. } | Call::Deliver { payload, .. } = call {
            payload.truncate(64);
        }
    })
}

fn start_zero(block: &mut Guarded, number: u32) -> u8 {
    match number {
        0 => {
            let answer = Linked.block_start(block, 1);
            if answer == answer::DONE {
                block.bytes_mut()[CHECK] = 0;
            }
            answer
        }
        _ => Linked.block_start(block, number),
    }
}

fn start_cut(block: &mut Guarded, number: u32) -> u8 {
    Linked.block_start(block, number & 0xFFFF)
}

fn start_keeps(block: &mut Guarded, number: u32) -> u8 {
    let before = block.bytes().to_vec();
    let answer = Linked.block_start(block, number);
    if answer == answer::DONE {
        block.bytes_mut()[CHECK - 1] = before[CHECK - 1];
    }
    answer
}

fn start_numbered(block: &mut Guarded, number: u32) -> u8 {
    let answer = Linked.block_start(block, number);
    if answer == answer::DONE {
        block.bytes_mut().rotate_right(2);
    }
    answer
}

/// Adds the record.  If `met` says so of the memory before, the record and the
/// answer, the answer is another and the memory is left alone.
fn add_answered(
    block: &mut Guarded,
    record: &mut Guarded,
    met: fn(&[u8], &[u8], u8) -> Option<u8>,
) -> u8 {
    let before = block.clone();
    let answer = Linked.block_add(block, record);
    match met(before.bytes(), record.bytes(), answer) {
        Some(other) => {
            *block = before;
            other
        }
        None => answer,
    }
}

fn end(block: &[u8], record: &[u8]) -> usize {
    block::count(block) + record.len()
}

fn add_not_full(block: &mut Guarded, record: &mut Guarded) -> u8 {
    add_answered(block, record, |block, record, answer| {
        (answer == answer::DONE && end(block, record) == USED_MAX).then_some(answer::NAK)
    })
}

fn add_long(block: &mut Guarded, record: &mut Guarded) -> u8 {
    add_answered(block, record, |_, record, answer| {
        (answer == answer::NAK && record.len() > USED_MAX).then_some(answer::OUTSIDE)
    })
}

fn add_room_first(block: &mut Guarded, record: &mut Guarded) -> u8 {
    add_answered(block, record, |block, record, answer| {
        let under_way = under_way::fault(block).is_none();
        (answer == answer::OUTSIDE && under_way && end(block, record) > USED_MAX)
            .then_some(answer::NAK)
    })
}

fn add_count(block: &mut Guarded, record: &mut Guarded) -> u8 {
    add_answered(block, record, |block, record, answer| {
        let count = under_way::fault(block) == Some(Fault::Count);
        (answer == answer::OUTSIDE && count && record::read(record).is_some())
            .then_some(answer::NAK)
    })
}

/// Adds what is refused, where `met` says so of it and there is room.
fn added(block: &mut Guarded, record: &mut Guarded, met: fn(&[u8]) -> bool) -> u8 {
    let bytes = record.bytes().to_vec();
    let answer = Linked.block_add(block, record);
    let memory = block.bytes_mut();
    let under_way = under_way::fault(memory).is_none();
    if answer != answer::OUTSIDE || !under_way || !met(&bytes) || end(memory, &bytes) > USED_MAX {
        return answer;
    }
    let (count, end) = (block::count(memory), end(memory, &bytes));
    memory[RECORDS + count..RECORDS + end].copy_from_slice(&bytes);
    memory[2..RECORDS].copy_from_slice(&(end as u16).to_le_bytes());
    answer::DONE
}

fn add_untested(block: &mut Guarded, record: &mut Guarded) -> u8 {
    added(block, record, |_| true)
}

fn add_two(block: &mut Guarded, record: &mut Guarded) -> u8 {
    added(block, record, |bytes| !bytes.is_empty() && record::read_all(bytes).is_some())
}

/// Adds with other bytes at `at`, which are put back.
fn add_past(block: &mut Guarded, record: &mut Guarded, at: usize, other: [u8; 2]) -> u8 {
    if block.bytes().len() != LENGTH {
        return Linked.block_add(block, record);
    }
    let kept = [block.bytes()[at], block.bytes()[at + 1]];
    block.bytes_mut()[at..at + 2].copy_from_slice(&other);
    let answer = Linked.block_add(block, record);
    block.bytes_mut()[at..at + 2].copy_from_slice(&kept);
    answer
}

fn add_finished(block: &mut Guarded, record: &mut Guarded) -> u8 {
    add_past(block, record, 0, [0, 0])
}

fn add_numberless(block: &mut Guarded, record: &mut Guarded) -> u8 {
    add_past(block, record, CHECK, [1, 0])
}

fn add_counted(block: &mut Guarded, record: &mut Guarded) -> u8 {
    let answer = Linked.block_add(block, record);
    if answer == answer::NAK {
        block.bytes_mut()[2] ^= 1;
    }
    answer
}

fn add_turned(block: &mut Guarded, record: &mut Guarded) -> u8 {
    let answer = Linked.block_add(block, record);
    if answer == answer::DONE {
        block.bytes_mut().swap(2, 3);
    }
    answer
}

/// Finishes what is refused, though under way, where `met`.
fn finished(block: &mut Guarded, met: fn(&[u8]) -> bool) -> u8 {
    let answer = Linked.block_finish(block);
    let memory = block.bytes_mut();
    let under_way = under_way::fault(memory).is_none();
    if answer != answer::OUTSIDE || !under_way || !met(memory) {
        return answer;
    }
    memory.copy_within(CHECK.., 0);
    block::seal(memory);
    answer::DONE
}

fn unused_are_zero(block: &[u8]) -> bool {
    block[RECORDS + block::count(block)..CHECK].iter().all(|&byte| byte == 0)
}

fn finish_untested(block: &mut Guarded) -> u8 {
    finished(block, unused_are_zero)
}

fn finish_unused(block: &mut Guarded) -> u8 {
    finished(block, |block| record::read_all(block::used(block)).is_some())
}

fn finish_check(block: &mut Guarded) -> u8 {
    let answer = Linked.block_finish(block);
    if answer == answer::DONE {
        let memory = block.bytes_mut();
        let check = u16::from_le_bytes([memory[CHECK], memory[CHECK + 1]]);
        let check = check.wrapping_sub(block::number(memory));
        memory[CHECK..].copy_from_slice(&check.to_le_bytes());
    }
    answer
}

fn finish_numberless(block: &mut Guarded) -> u8 {
    let answer = Linked.block_finish(block);
    if answer == answer::DONE {
        let memory = block.bytes_mut();
        memory[..2].fill(0);
        block::seal(memory);
    }
    answer
}
