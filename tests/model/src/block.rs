//! A block of a recording: docs/CALLS.md, "A block".

use crate::hub::Call;
use crate::record;

pub const LENGTH: usize = 512;

/// Where the records begin, and where the check stands.
pub const RECORDS: usize = 4;
pub const CHECK: usize = 510;

/// The most bytes of records.
pub const USED_MAX: usize = 506;

/// What is wrong with a block, in the order in which it is told.
#[derive(Clone, Copy, Debug, PartialEq, Eq)]
pub enum Refusal {
    Length = 1,
    Check,
    Number,
    Count,
    Record,
}

impl Refusal {
    pub const ALL: [Refusal; 5] =
        [Refusal::Length, Refusal::Check, Refusal::Number, Refusal::Count, Refusal::Record];
}

fn word(block: &[u8], at: usize) -> u16 {
    u16::from_le_bytes([block[at], block[at + 1]])
}

pub fn number(block: &[u8]) -> u16 {
    word(block, 0)
}

pub fn count(block: &[u8]) -> usize {
    word(block, 2).into()
}

/// The sum of all words but the check.
fn sum(block: &[u8]) -> u32 {
    (0..CHECK).step_by(2).map(|at| u32::from(word(block, at))).sum()
}

/// Makes the check right.
pub fn seal(block: &mut [u8]) {
    let check = (65_536 - sum(block) % 65_536) % 65_536;
    block[CHECK..].copy_from_slice(&(check as u16).to_le_bytes());
}

/// The block of these records, with any number.  None if they are too long.
pub fn write(number: u16, records: &[u8]) -> Option<Vec<u8>> {
    if records.len() > USED_MAX {
        return None;
    }
    let mut block = Vec::with_capacity(LENGTH);
    block.extend_from_slice(&number.to_le_bytes());
    block.extend_from_slice(&(records.len() as u16).to_le_bytes());
    block.extend_from_slice(records);
    block.resize(LENGTH, 0);
    seal(&mut block);
    Some(block)
}

/// The bytes of records, as far as there is room for them.
pub fn used(block: &[u8]) -> &[u8] {
    &block[RECORDS..RECORDS + count(block).min(USED_MAX)]
}

/// All that is wrong with the block at its place.  One of another length is
/// judged further as if zeros were added to it, or bytes taken off its end.
pub fn faults(block: &[u8], place: u32) -> Vec<Refusal> {
    let mut whole = block.to_vec();
    whole.resize(LENGTH, 0);
    let used = used(&whole);
    let unused = &whole[RECORDS + used.len()..CHECK];
    let wrong = |refusal: &Refusal| match refusal {
        Refusal::Length => block.len() != LENGTH,
        Refusal::Check => (sum(&whole) + u32::from(word(&whole, CHECK))) % 65_536 != 0,
        Refusal::Number => place == 0 || u32::from(number(&whole)) != place,
        Refusal::Count => count(&whole) > USED_MAX || unused.iter().any(|&byte| byte != 0),
        Refusal::Record => record::read_all(used).is_none(),
    };
    Refusal::ALL.into_iter().filter(wrong).collect()
}

/// The calls of the block at its place, or what it is refused for.
pub fn read(block: &[u8], place: u32) -> Result<Vec<Call>, Refusal> {
    match faults(block, place).first() {
        Some(&refusal) => Err(refusal),
        None => record::read_all(used(block)).ok_or(Refusal::Record),
    }
}
