//! Some blocks with every byte changed in turn, and with other counts,
//! places and lengths.

use crate::block::{self, Refusal, CHECK, LENGTH, RECORDS, USED_MAX};
use crate::compare::equal;
use crate::form;
use crate::hub::{Call, Hub, StartNumbers};
use crate::library::Guarded;
use crate::record;
use crate::recorded::{equal_bytes, Run, Trial, ANSWERS};
use crate::replay::Replay;
use crate::spoil;

struct Good {
    name: &'static str,
    place: u32,
    records: Vec<u8>,
    /// Every other value is given to each byte, else some.
    all_values: bool,
}

pub fn run(run: &mut Run) -> Result<(), String> {
    documented()?;
    let hub = Hub::new(4, 3, 0x32, 0x64, 0).expect("permitted numbers");
    for good in goods() {
        let number = u16::try_from(good.place).expect("a block's number");
        let block = block::write(number, &good.records).expect("the records fit");
        let mut spoiled = Spoiled { run, hub: &hub, place: good.place, block: &block };
        spoiled.all(good.all_values).map_err(|text| format!("block \"{}\", {text}", good.name))?;
    }
    Ok(())
}

/// The bytes that docs/CALLS.md gives.
fn documented() -> Result<(), String> {
    let numbers = StartNumbers {
        lane: 1,
        pid: 9,
        transfer: 2,
        low_speed: 0,
        toggle: 0,
        address: 5,
        endpoint: 1,
    };
    let start = Call::StartSplit { numbers, payload: Vec::new() };
    let start_bytes = [
        3, 1, 0, 0, 0, 9, 0, 0, 0, 2, 0, 0, 0, 0, 0, 0, 0, 0, 0, 0, 0, 5, 0, 0, 0, 1, 0, 0, 0, 0, 0,
    ];
    equal_bytes("documented start-split", &record::write(&start), &start_bytes)?;
    let control = Call::Control { lane: 0, setup: vec![0, 9, 1, 0, 0, 0, 0, 0], space: 64 };
    let control_bytes = [1, 0, 0, 0, 0, 64, 0, 0, 0, 8, 0, 0, 9, 1, 0, 0, 0, 0, 0];
    equal_bytes("documented request", &record::write(&control), &control_bytes)?;
    let mut tick = vec![0; LENGTH];
    (tick[0], tick[2], tick[4]) = (1, 1, 8);
    tick[CHECK..].copy_from_slice(&[0xF6, 0xFF]);
    equal("documented block", block::write(1, &record::write(&Call::Tick)), Some(tick))
}

fn goods() -> Vec<Good> {
    let every: Vec<u8> = every_call().iter().flat_map(record::write).collect();
    let mut full = every.repeat(2);
    full.extend(record::write(&Call::Deliver {
        result: 11,
        payload: vec![0xA7; USED_MAX - full.len() - 7],
    }));
    let mut short_calls = [8; USED_MAX];
    short_calls.iter_mut().step_by(7).for_each(|tag| *tag = 9);
    // Another count of the payload ends at a record too.
    let mut swallowing = record::write(&Call::Deliver { result: 3, payload: vec![1, 9, 8] });
    swallowing.extend([8, 9, 8]);
    let good = |name, place, records, all_values| Good { name, place, records, all_values };
    vec![
        good("every call", 0x0102, every, true),
        good("a tick", 1, vec![8], false),
        good("empty", 300, Vec::new(), false),
        good("full", 65_535, full, false),
        good("506 calls", 256, short_calls.to_vec(), false),
        good("payload before ticks", 2, swallowing, true),
    ]
}

/// Calls of every kind, which fill at most half a block.
fn every_call() -> Vec<Call> {
    let request = |setup: [u8; 8]| Call::Control { lane: 0, setup: setup.to_vec(), space: 64 };
    let numbers = StartNumbers {
        lane: 1,
        pid: 1,
        transfer: 2,
        low_speed: 0,
        toggle: 1,
        address: 5,
        endpoint: 1,
    };
    vec![
        request([0x00, 0x09, 1, 0, 0, 0, 0, 0]),
        request([0x23, 0x03, 8, 0, 2, 0, 0, 0]),
        Call::LineEvent { event: 1, port: 2 },
        Call::Poll { lane: 0, space: 64 },
        Call::StartSplit { numbers, payload: vec![0x41, 0x42] },
        Call::Launch { space: 64 },
        Call::Deliver { result: 2, payload: Vec::new() },
        Call::CompleteSplit { lane: 1, address: 5, endpoint: 1, direction: 0, space: 64 },
        Call::Deliver { result: 3, payload: vec![9; 3] },
        Call::Tick,
        Call::BusReset,
        // A record that ends with zeros.
        request([0x23, 0x09, 0, 0, 1, 0, 0, 0]),
    ]
}

/// A good block at its place, and the hub on which it is replayed.
struct Spoiled<'a, 'b> {
    run: &'a mut Run<'b>,
    hub: &'a Hub,
    place: u32,
    block: &'a [u8],
}

impl Spoiled<'_, '_> {
    fn all(&mut self, all_values: bool) -> Result<(), String> {
        self.expect(self.block, self.place, &[]).map_err(|text| format!("as it is: {text}"))?;
        for at in 0..LENGTH {
            for value in self.values(at, all_values) {
                self.changed(at, value)
                    .map_err(|text| format!("byte {at} made {value:02X}, {text}"))?;
            }
        }
        self.counts()?;
        self.places()?;
        self.lengths()?;
        self.several()
    }

    /// Other values for the byte.
    fn values(&mut self, at: usize, all: bool) -> Vec<u8> {
        let old = self.block[at];
        let near = [old ^ 1, old ^ 0x80, old.wrapping_add(1), old.wrapping_sub(1)];
        let some = [&near[..], &[0, 1, 255, self.run.chooser.random.byte()]].concat();
        let mut values = if all { (0..=255).collect() } else { some };
        values.sort_unstable();
        values.dedup();
        values.retain(|&value| value != old);
        values
    }

    /// A changed byte, with the check as it stands and with a right one.
    fn changed(&mut self, at: usize, value: u8) -> Result<(), String> {
        let mut block = self.block.to_vec();
        block[at] = value;
        for sealed in [false, true] {
            let name = if sealed { "check made right" } else { "check as it stands" };
            if sealed {
                block::seal(&mut block);
            }
            let told = self.told(&block, self.place).map_err(|text| format!("{name}: {text}"))?;
            self.run.coverage.changed(self.block, at, sealed, told);
            if !sealed {
                let told = equal("changed byte", Some(Refusal::Check), told);
                told.map_err(|text| format!("{name}: {text}"))?;
            }
        }
        Ok(())
    }

    /// Other counts, with a right check.
    fn counts(&mut self) -> Result<(), String> {
        for count in (0..=520).chain([1023, 1024, 32_767, 32_768, 65_030, 65_534, 65_535]) {
            let mut block = self.block.to_vec();
            block[2..RECORDS].copy_from_slice(&(count as u16).to_le_bytes());
            block::seal(&mut block);
            self.told(&block, self.place).map_err(|text| format!("count {count}: {text}"))?;
        }
        Ok(())
    }

    /// Other places, also of a block with the number 0.
    fn places(&mut self) -> Result<(), String> {
        let mut zero = self.block.to_vec();
        zero[..2].fill(0);
        block::seal(&mut zero);
        for place in spoil::other_places(self.place) {
            for block in [self.block, &zero] {
                let number = block::number(block);
                self.expect(block, place, &[Refusal::Number])
                    .map_err(|text| format!("number {number}, place {place}: {text}"))?;
            }
        }
        Ok(())
    }

    /// Other lengths: bytes taken off the end, zeros or the block itself added.
    fn lengths(&mut self) -> Result<(), String> {
        for length in [0, 1, 2, 3, 4, 255, 256, 510, 511, 513, 514, 768, 1023, 1024] {
            for added in [&[0; LENGTH], self.block] {
                let mut block = [self.block, added].concat();
                block.truncate(length);
                let told = self
                    .told(&block, self.place)
                    .and_then(|told| equal("block of another length", Some(Refusal::Length), told));
                told.map_err(|text| format!("length {length}: {text}"))?;
            }
        }
        Ok(())
    }

    /// Every set of things that are wrong.  Without records none is wrong.
    fn several(&mut self) -> Result<(), String> {
        for bits in 1..1 << Refusal::ALL.len() {
            let wrong: Vec<_> = Refusal::ALL
                .into_iter()
                .filter(|&word| bits >> (word as u8 - 1) & 1 == 1)
                .collect();
            if wrong.contains(&Refusal::Record) && block::count(self.block) == 0 {
                continue;
            }
            let (block, place) = self.with(&wrong);
            self.expect(&block, place, &wrong).map_err(|text| format!("{wrong:?}: {text}"))?;
        }
        Ok(())
    }

    /// The block with just this wrong, and its place.
    fn with(&self, wrong: &[Refusal]) -> (Vec<u8>, u32) {
        let mut block = self.block.to_vec();
        if wrong.contains(&Refusal::Record) {
            block[RECORDS] = 0xFF;
        }
        if wrong.contains(&Refusal::Count) {
            match block::count(&block) {
                USED_MAX => block[2] += 1,
                _ => block[CHECK - 1] = 1,
            }
        }
        block::seal(&mut block);
        if wrong.contains(&Refusal::Check) {
            block[CHECK] ^= 1;
        }
        if wrong.contains(&Refusal::Length) {
            block.push(0);
        }
        (block, self.place - u32::from(wrong.contains(&Refusal::Number)))
    }

    /// The block has just this wrong.
    fn expect(&mut self, block: &[u8], place: u32, wrong: &[Refusal]) -> Result<(), String> {
        equal("wrong", wrong, &block::faults(block, place))?;
        self.told(block, place).map(|_| ())
    }

    /// What the block is refused for.
    fn told(&mut self, block: &[u8], place: u32) -> Result<Option<Refusal>, String> {
        let mut replay = Replay::new(self.hub.clone());
        let mut area = Guarded::new(&form::write(self.hub));
        let trial = Trial { block, place, space: ANSWERS };
        self.run.replay(Some(&mut replay), &mut area, &trial)?;
        replay.balance()?;
        Ok(block::faults(block, place).first().copied())
    }
}
