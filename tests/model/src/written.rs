//! Blocks under way, written by the model and the library.

use crate::answer;
use crate::block::{self, CHECK, LENGTH, RECORDS, USED_MAX};
use crate::compare::equal;
use crate::hub::{Call, Hub};
use crate::library::Guarded;
use crate::record;
use crate::recorded::{equal_bytes, Run};
use crate::spoil;
use crate::under_way::{self, Fault};

/// The same memory for the model and the library.
pub struct Memory {
    model: Vec<u8>,
    library: Guarded,
}

impl Memory {
    fn new(bytes: &[u8]) -> Memory {
        Memory { model: bytes.to_vec(), library: Guarded::new(bytes) }
    }

    fn compare(&self, model: u8, library: u8) -> Result<(), String> {
        equal("answer", model, library)?;
        equal_bytes("block", &self.model, self.library.bytes())?;
        equal("block's guards", true, self.library.guards_are_whole())
    }
}

impl Run<'_> {
    /// A block of calls on the hub, written by both.
    pub fn written(&mut self, hub: &Hub, number: u16) -> Result<Vec<u8>, String> {
        let mut hub = hub.clone();
        let mut calls = Vec::new();
        let mut memory = Memory::new(&self.chooser.random.bytes(LENGTH));
        self.start(&mut memory, number.into())?;
        let most = self.chooser.random.pick(&[0, 1, 2, 5, 20, 506, 506, 506]);
        let short = self.chooser.random.one_in(40);
        while calls.len() < most {
            let left = self.left.take();
            let call = left.unwrap_or_else(|| spoil::call(&mut self.chooser, &hub, short));
            let record = record::write(&call);
            if self.chooser.random.one_in(8) {
                self.add_damaged(&mut memory, &record)?;
            }
            if self.add(&mut memory, &record)? == answer::DONE {
                self.coverage.recorded(&hub, &call);
                hub.step(&call);
                calls.push(call);
            } else if record.len() <= USED_MAX {
                self.left = Some(call);
                self.fill_up(&mut memory, &mut calls)?;
                break;
            }
        }
        self.finish(&mut memory)?;
        let records: Vec<u8> = calls.iter().flat_map(record::write).collect();
        let whole = block::write(number, &records).expect("the records fit");
        equal_bytes("block, written whole", &whole, memory.library.bytes())?;
        Ok(whole)
    }

    /// Sometimes adds ticks until the block is full.
    fn fill_up(&mut self, memory: &mut Memory, calls: &mut Vec<Call>) -> Result<(), String> {
        if self.chooser.random.one_in(3) {
            while self.add(memory, &record::write(&Call::Tick))? == answer::DONE {
                calls.push(Call::Tick);
            }
        }
        Ok(())
    }

    /// Adds what is no record.
    fn add_damaged(&mut self, memory: &mut Memory, record: &[u8]) -> Result<(), String> {
        let damaged = spoil::record(&mut self.chooser.random, record);
        if record::read(&damaged).is_none() {
            self.add(memory, &damaged)?;
        }
        Ok(())
    }

    /// Any memory, mostly without a block under way.
    pub fn odd_memory(&mut self, hub: &Hub) -> Result<(), String> {
        let bytes = spoil::memory(&mut self.chooser, hub);
        let mut memory = Memory::new(&bytes);
        match self.chooser.random.below(4) {
            0 => {
                let numbers = [0, 1, 255, 256, 65_535, 65_536, 65_537, 1 << 24, 1 << 31, u32::MAX];
                let number = self.chooser.random.pick(&numbers);
                self.start(&mut memory, number)
            }
            1 => self.finish(&mut memory),
            _ => {
                let record = spoil::record_for(&mut self.chooser, hub, &bytes);
                self.add(&mut memory, &record)
            }
        }
        .map(|_| ())
        .map_err(|text| format!("{text}\n  memory {bytes:02X?}"))
    }

    fn start(&mut self, memory: &mut Memory, number: u32) -> Result<u8, String> {
        let row = match (memory.model.len() == LENGTH, number) {
            (true, 0) => "start, number 0",
            (true, 1..=65_535) => "start",
            (true, _) => "start, number above 65535",
            (false, 1..=65_535) => "start, length wrong",
            (false, _) => "start, length and number wrong",
        };
        let answer = under_way::start(&mut memory.model, number);
        let given = self.library.block_start(&mut memory.library, number);
        memory.compare(answer, given).map_err(|text| format!("start of block {number}\n{text}"))?;
        self.coverage.writing(row, answer);
        Ok(answer)
    }

    fn add(&mut self, memory: &mut Memory, record: &[u8]) -> Result<u8, String> {
        let row = add_row(&memory.model, record);
        let answer = under_way::add(&mut memory.model, record);
        let mut lent = Guarded::new(record);
        let given = self.library.block_add(&mut memory.library, &mut lent);
        memory
            .compare(answer, given)
            .and_then(|()| equal("record kept", true, lent == Guarded::new(record)))
            .map_err(|text| format!("adding {record:02X?}\n{text}"))?;
        self.coverage.writing(row, answer);
        Ok(answer)
    }

    fn finish(&mut self, memory: &mut Memory) -> Result<u8, String> {
        let row = finish_row(&memory.model);
        let answer = under_way::finish(&mut memory.model);
        let given = self.library.block_finish(&mut memory.library);
        memory.compare(answer, given).map_err(|text| format!("finishing\n{text}"))?;
        self.coverage.writing(row, answer);
        Ok(answer)
    }
}

/// The row of the coverage table.
fn add_row(memory: &[u8], record: &[u8]) -> &'static str {
    let no_call = record::read(record).is_none();
    let count = if memory.len() == LENGTH { block::count(memory) } else { 0 };
    let end = count + record.len();
    match under_way::fault(memory) {
        Some(_) if no_call => "add, not under way and no call",
        Some(Fault::Count) => "add, count above 506",
        Some(_) if end > USED_MAX => "add, not under way and does not fit",
        Some(Fault::Length) => "add, length wrong",
        Some(Fault::Head) => "add, head not zero",
        Some(Fault::Tail) => "add, tail zero",
        None if no_call && end > USED_MAX => "add, no call and does not fit",
        None if no_call => match record.first() {
            None => "add, no bytes",
            Some(0 | 10..) => "add, tag of no call",
            Some(_) if record::read_first(record).is_some() => "add, record long",
            Some(_) => "add, record short",
        },
        None if record.len() > USED_MAX => "add, fits no block",
        None if end == USED_MAX + 1 => "add, one byte too many",
        None if end > USED_MAX => "add, does not fit",
        None if end == USED_MAX => "add, the block is full then",
        None => "add",
    }
}

/// The row of the coverage table.
fn finish_row(memory: &[u8]) -> &'static str {
    match under_way::fault(memory) {
        Some(Fault::Length) => "finish, length wrong",
        Some(Fault::Head) => "finish, head not zero",
        Some(Fault::Tail) => "finish, tail zero",
        Some(Fault::Count) => "finish, count above 506",
        None if record::read_all(block::used(memory)).is_none() => "finish, no records",
        None if memory[RECORDS + block::count(memory)..CHECK].iter().any(|&byte| byte != 0) => {
            "finish, not zero behind"
        }
        None => "finish",
    }
}
