//! Sessions of random calls, each explained and made on the model and on the
//! library.

use std::fmt::Debug;

use crate::answer::{self, Answer};
use crate::choose::Chooser;
use crate::coverage::{Coverage, Step};
use crate::form;
use crate::hub::{Call, Hub};
use crate::library::{Guarded, Lent, Library, NewNumbers, RawAnswer};
use crate::reason::Reason;

/// Calls in a session.
const SESSION: u64 = 2000;

/// Makes that many calls.  The error tells the first difference.
pub fn run(
    library: &dyn Library,
    calls: u64,
    seed: u64,
    coverage: &mut Coverage,
) -> Result<(), String> {
    area_lengths(library)?;
    let mut run = Run { library, chooser: Chooser::new(seed), coverage, made: 0, calls };
    while run.made < calls {
        run.session().map_err(|text| format!("seed {seed}, call {}: {text}", run.made))?;
    }
    Ok(())
}

fn area_lengths(library: &dyn Library) -> Result<(), String> {
    let numbers = [0, 1, 2, 3, 4, 5, 6, 7, 8, 255, 257, 258, 1 << 31, u32::MAX];
    for ports in numbers {
        for buffers in numbers {
            let expected = match Hub::new(ports, buffers, 0, 0, 0) {
                Some(_) => form::length(ports as usize, buffers as usize),
                None => 0,
            };
            let length = library.area_length(ports, buffers);
            if length != expected {
                return Err(format!(
                    "area_length({ports}, {buffers}): model {expected}, library {length}"
                ));
            }
        }
    }
    Ok(())
}

/// What the model tells of a call.
struct Expected {
    reason: Reason,
    answer: Answer,
    area: Vec<u8>,
}

impl Expected {
    /// Fails unless the reason is enough for the answer, and for what the call
    /// left.
    fn checked(self, call: &Call, left: bool) -> Result<Expected, String> {
        if left && self.reason.gives(call, &self.answer) {
            return Ok(self);
        }
        let Expected { reason, answer, .. } = self;
        Err(format!("{call:?}: {reason:?} is not enough for {answer:?} and what it left"))
    }
}

struct Run<'a> {
    library: &'a dyn Library,
    chooser: Chooser,
    coverage: &'a mut Coverage,
    made: u64,
    calls: u64,
}

impl Run<'_> {
    fn session(&mut self) -> Result<(), String> {
        let numbers = self.chooser.session();
        let length = form::length(numbers.ports as usize, numbers.buffers as usize);
        let mut area = self.guarded(length);
        let mut hub = self.new_hub(&mut area, numbers)?.expect("a session's numbers are permitted");

        let end = self.calls.min(self.made + SESSION);
        while self.made < end {
            match self.chooser.random.below(100) {
                0..=11 => self.damaged_call(&hub)?,
                12..=15 => self.unreached_call()?,
                16 => self.odd_new(&area)?,
                _ => {
                    let call = self.chooser.call(&hub);
                    area = self.call(&mut hub, area, &call)?;
                }
            }
        }
        Ok(())
    }

    /// A call of the session.
    fn call(&mut self, hub: &mut Hub, area: Guarded, call: &Call) -> Result<Guarded, String> {
        let before = hub.clone();
        let expected = self.expected(Some(hub), area.bytes(), call)?;
        if form::read(&expected.area).is_none() {
            return Err(format!("{call:?}: the model reached a hub that it refuses: {hub:?}"));
        }
        let area = self.compare(area, call, &expected)?;
        let Expected { reason, answer, .. } = &expected;
        self.coverage.session_call(&Step { before: &before, call, reason, answer, after: hub });
        Ok(area)
    }

    /// A call on a damaged copy of the area, or of an area that the session
    /// didn't reach.
    fn damaged_call(&mut self, hub: &Hub) -> Result<(), String> {
        let unreached = self.chooser.random.one_in(4).then(|| self.chooser.hub());
        let hub = unreached.as_ref().unwrap_or(hub);
        let (area, damage) = self.chooser.damaged(hub);
        let call = self.chooser.any_call(hub);
        let taken = self.separate_call(&area, &call)?;
        self.coverage.damage(&damage, taken);
        Ok(())
    }

    /// A call on a permitted hub that the session didn't reach.
    fn unreached_call(&mut self) -> Result<(), String> {
        let hub = self.chooser.hub();
        let call = self.chooser.any_call(&hub);
        let taken = self.separate_call(&form::write(&hub), &call)?;
        self.coverage.unreached(taken);
        Ok(())
    }

    /// Returns whether the area is taken.
    fn separate_call(&mut self, area: &[u8], call: &Call) -> Result<bool, String> {
        let before = form::read(area);
        let expected = self.expected(before.clone().as_mut(), area, call)?;
        self.compare(Guarded::new(area), call, &expected)?;
        self.coverage.separate_call(before.as_ref(), call, &expected.reason, &expected.answer);
        Ok(before.is_some())
    }

    /// Makes the call on the model.  None is an area without a permitted hub.
    fn expected(
        &self,
        hub: Option<&mut Hub>,
        area: &[u8],
        call: &Call,
    ) -> Result<Expected, String> {
        let reason = self.library.expected_reason(hub.as_deref(), call);
        let hub = match hub {
            Some(hub) => hub,
            None => {
                let answer = Answer::plain(answer::OUTSIDE);
                return Expected { reason, answer, area: area.to_vec() }.checked(call, true);
            }
        };
        let before = hub.clone();
        let answer = hub.step(call);
        let left = reason.leaves(call, &before, hub);
        Expected { reason, answer, area: form::write(hub) }.checked(call, left)
    }

    /// A new hub with odd numbers or in an area of the wrong length.
    fn odd_new(&mut self, area: &Guarded) -> Result<(), String> {
        let numbers = self.chooser.odd_new_numbers();
        let mut area = match self.chooser.random.below(4) {
            0 => area.clone(),
            1 => self.guarded(0),
            roll => {
                let (ports, buffers) = (numbers.ports.min(8), numbers.buffers.min(5));
                let fitting = form::length(ports as usize, buffers as usize);
                self.guarded(if roll == 2 { fitting } else { fitting - 1 })
            }
        };
        self.new_hub(&mut area, numbers).map(|_| ())
    }

    fn new_hub(&mut self, area: &mut Guarded, numbers: NewNumbers) -> Result<Option<Hub>, String> {
        self.made += 1;
        let NewNumbers { ports, buffers, power_good, current, removable } = numbers;
        let hub = Hub::new(ports, buffers, power_good, current, removable)
            .filter(|hub| form::write(hub).len() == area.bytes().len());
        let (number, expected) = match &hub {
            Some(hub) => (answer::DONE, form::write(hub)),
            None => (answer::OUTSIDE, area.bytes().to_vec()),
        };
        let answer = Answer::plain(number);
        let given = self.library.new_hub(area, numbers);
        equal("answer", raw(&answer), given)
            .and_then(|()| equal("area", expected.as_slice(), area.bytes()))
            .and_then(|()| equal("area's guards", true, area.guards_are_whole()))
            .map_err(|text| format!("new {numbers:?} in {} bytes\n{text}", expected.len()))?;
        self.coverage.new_hub(&answer);
        Ok(hub)
    }

    /// Has the library explain the call and make it.  Returns the area.
    fn compare(
        &mut self,
        area: Guarded,
        call: &Call,
        expected: &Expected,
    ) -> Result<Guarded, String> {
        self.made += 1;
        let input = match call {
            Call::Control { setup, .. } => setup.as_slice(),
            Call::StartSplit { payload, .. } | Call::Deliver { payload, .. } => payload,
            _ => &[],
        };
        let reply = self.guarded(call.space().unwrap_or(0));
        let mut lent = Lent { area, reply, input: Guarded::new(input) };
        let before = lent.clone();
        let told = self.library.explain(call, &mut lent);
        equal("reason", expected.reason.raw(), told)
            .and_then(|()| equal("lent memory kept by the explaining", true, lent == before))
            .and_then(|()| {
                equal("answer", raw(&expected.answer), self.library.call(call, &mut lent))
            })
            .and_then(|()| equal("area", expected.area.as_slice(), lent.area.bytes()))
            .and_then(|()| compare_lent(&expected.answer, &before, &lent))
            .map_err(|text| format!("{call:?} on {:?}\n{text}", before.area.bytes()))?;
        Ok(lent.area)
    }

    fn guarded(&mut self, length: usize) -> Guarded {
        Guarded::new(&self.chooser.random.bytes(length))
    }
}

/// What a call with this answer leaves of the lent memory.
fn compare_lent(answer: &Answer, before: &Lent, after: &Lent) -> Result<(), String> {
    let mut reply = before.reply.bytes().to_vec();
    reply[..answer.bytes.len()].copy_from_slice(&answer.bytes);
    equal("reply space", reply.as_slice(), after.reply.bytes())?;
    equal("setup bytes or payload", before.input.bytes(), after.input.bytes())?;
    if answer::is_refusal(answer.number) {
        equal("area after a refusal", before.area.bytes(), after.area.bytes())?;
        equal("reply space after a refusal", before.reply.bytes(), after.reply.bytes())?;
    }
    equal("area's guards", true, after.area.guards_are_whole())?;
    equal("reply space's guards", true, after.reply.guards_are_whole())?;
    equal("guards of setup bytes or payload", true, after.input.guards_are_whole())
}

fn raw(answer: &Answer) -> RawAnswer {
    RawAnswer {
        number: answer.number,
        length: answer.bytes.len() as u8,
        pid: answer.pid,
        transfer: answer.transfer,
        lane: answer.lane,
        address: answer.address,
        endpoint: answer.endpoint,
        direction: answer.direction,
        low_speed: answer.low_speed,
        toggle: answer.toggle,
    }
}

pub fn equal<T: PartialEq + Debug>(part: &str, model: T, library: T) -> Result<(), String> {
    if model == library {
        return Ok(());
    }
    Err(format!("  {part}: model   {model:?}\n  {part}: library {library:?}"))
}
