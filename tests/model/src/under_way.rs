//! A block under way: what the header says of starting it, adding to it and
//! finishing it, in any memory.

use crate::answer;
use crate::block::{self, CHECK, LENGTH, RECORDS, USED_MAX};
use crate::record;

/// Why no block is under way in the memory.
#[derive(Clone, Copy, Debug, PartialEq, Eq)]
pub enum Fault {
    Length,
    Head,
    Tail,
    Count,
}

pub fn fault(memory: &[u8]) -> Option<Fault> {
    if memory.len() != LENGTH {
        Some(Fault::Length)
    } else if memory[..2] != [0, 0] {
        Some(Fault::Head)
    } else if memory[CHECK..] == [0, 0] {
        Some(Fault::Tail)
    } else if block::count(memory) > USED_MAX {
        Some(Fault::Count)
    } else {
        None
    }
}

pub fn start(memory: &mut [u8], number: u32) -> u8 {
    match u16::try_from(number) {
        Ok(number @ 1..) if memory.len() == LENGTH => {
            memory.fill(0);
            memory[CHECK..].copy_from_slice(&number.to_le_bytes());
            answer::DONE
        }
        _ => answer::OUTSIDE,
    }
}

pub fn add(memory: &mut [u8], record: &[u8]) -> u8 {
    if fault(memory).is_some() || record::read(record).is_none() {
        return answer::OUTSIDE;
    }
    let count = block::count(memory);
    let end = count + record.len();
    if end > USED_MAX {
        return answer::NAK;
    }
    memory[2..RECORDS].copy_from_slice(&(end as u16).to_le_bytes());
    memory[RECORDS + count..RECORDS + end].copy_from_slice(record);
    answer::DONE
}

pub fn finish(memory: &mut [u8]) -> u8 {
    if fault(memory).is_some() {
        return answer::OUTSIDE;
    }
    let number = u16::from_le_bytes([memory[CHECK], memory[CHECK + 1]]);
    let records = block::used(memory);
    let written = block::write(number, records).filter(|written| {
        record::read_all(records).is_some() && written[RECORDS..CHECK] == memory[RECORDS..CHECK]
    });
    match written {
        Some(written) => {
            memory.copy_from_slice(&written);
            answer::DONE
        }
        None => answer::OUTSIDE,
    }
}
