//! The replay of a recording, and what became of its start-splits.

use crate::answer::{self, Answer};
use crate::block::{self, Refusal};
use crate::coverage::request;
use crate::hub::{Call, Hub};
use crate::request::Request;
use crate::translator::{Buffer, Key};

#[derive(Clone, Copy, Debug, PartialEq, Eq)]
pub enum Fate {
    /// A complete-split answered 1 or 9 gave its result.
    Answered,
    /// Taken out of its buffer before that.
    Emptied,
}

/// A stored start-split.  Its number in the history tells it from others of
/// the same key.
#[derive(Clone, Debug)]
pub struct Stored {
    pub key: Key,
    pub fate: Option<Fate>,
    /// The place of the block that stored it.
    pub place: u32,
}

/// The stored start-splits, told from calls and answers alone: by document 01
/// a start-split answered 0 is stored unless its key is open.
#[derive(Clone, Debug)]
pub struct History {
    stored: Vec<Stored>,
    /// The numbers of those without a fate.
    open: Vec<usize>,
    place: u32,
}

/// The counts over a history.
#[derive(Clone, Copy, Debug, Default, PartialEq, Eq)]
pub struct Tally {
    pub stored: u32,
    pub answered: u32,
    pub emptied: u32,
}

/// A hub under replay.
#[derive(Clone, Debug)]
pub struct Replay {
    pub hub: Hub,
    pub history: History,
}

/// One call of a replay: the hub before and after it.
pub struct Made {
    pub before: Hub,
    pub call: Call,
    pub answer: Answer,
    pub after: Hub,
}

impl History {
    /// What a hub holds pending or ready was stored before the first block.
    fn of(hub: &Hub) -> History {
        let mut history = History { stored: Vec::new(), open: Vec::new(), place: 0 };
        held(hub).for_each(|key| history.store(key));
        history
    }

    /// What follows is stored by the block at this place.
    pub fn begin(&mut self, place: u32) {
        self.place = place;
    }

    fn store(&mut self, key: Key) {
        self.open.push(self.stored.len());
        self.stored.push(Stored { key, fate: None, place: self.place });
    }

    pub fn is_open(&self, key: Key) -> bool {
        self.open.iter().any(|&number| self.stored[number].key == key)
    }

    /// The one stored last under the key.
    pub fn last(&self, key: Key) -> Option<&Stored> {
        self.stored.iter().rev().find(|stored| stored.key == key)
    }

    /// Those of the open ones with such a key meet this fate.
    pub fn end(&mut self, fate: Fate, with: impl Fn(Key) -> bool) {
        let stored = &mut self.stored;
        self.open.retain(|&number| {
            let met = with(stored[number].key);
            if met {
                stored[number].fate = Some(fate);
            }
            !met
        });
    }

    pub fn note(&mut self, call: &Call, answer: &Answer) {
        match (call, answer.number) {
            (Call::StartSplit { numbers, .. }, answer::DONE) => {
                let start = numbers.understand().expect("its numbers are permitted");
                if !self.is_open(start.key()) {
                    self.store(start.key());
                }
            }
            (
                &Call::CompleteSplit { lane, address, endpoint, direction, .. },
                answer::DATA | answer::HANDSHAKE,
            ) => {
                let asked = Key::from_numbers(lane, address, endpoint, direction);
                self.end(Fate::Answered, |key| asked == Some(key));
            }
            (Call::BusReset, answer::DONE) => self.end(Fate::Emptied, |_| true),
            (Call::Control { .. }, answer::DONE) => match request(call) {
                Some(Request::SetConfiguration(_)) => self.end(Fate::Emptied, |_| true),
                Some(Request::ResetTt(lane)) => self.end(Fate::Emptied, |key| key.lane == lane),
                Some(Request::ClearTtBuffer(named)) => {
                    self.end(Fate::Emptied, |key| key == named);
                }
                _ => {}
            },
            _ => {}
        }
    }

    pub fn tally(&self) -> Tally {
        let met = |fate| self.stored.iter().filter(|stored| stored.fate == Some(fate)).count();
        Tally {
            stored: self.stored.len() as u32,
            answered: met(Fate::Answered) as u32,
            emptied: met(Fate::Emptied) as u32,
        }
    }
}

impl Tally {
    pub fn since(self, before: Tally) -> Tally {
        Tally {
            stored: self.stored - before.stored,
            answered: self.answered - before.answered,
            emptied: self.emptied - before.emptied,
        }
    }
}

impl Replay {
    pub fn new(hub: Hub) -> Replay {
        let history = History::of(&hub);
        Replay { hub, history }
    }

    /// Makes the calls of the block, or tells what it is refused for.  `note`
    /// is `History::note`, but for a mistake.
    pub fn block(
        &mut self,
        block: &[u8],
        place: u32,
        note: impl Fn(&mut History, &Call, &Answer),
    ) -> Result<Vec<Made>, Refusal> {
        let calls = block::read(block, place)?;
        self.history.begin(place);
        let mut make = |call| {
            let before = self.hub.clone();
            let answer = self.hub.step(&call);
            note(&mut self.history, &call, &answer);
            Made { before, call, answer, after: self.hub.clone() }
        };
        Ok(calls.into_iter().map(&mut make).collect())
    }

    /// The buffers pending or ready now.
    pub fn active(&self) -> usize {
        held(&self.hub).count()
    }

    /// Fails unless each start-split stored was answered, emptied, or is
    /// pending or ready now.
    pub fn balance(&self) -> Result<(), String> {
        let Tally { stored, answered, emptied } = self.history.tally();
        let active = self.active() as u32;
        if stored == answered + emptied + active
            && held(&self.hub).all(|key| self.history.is_open(key))
        {
            return Ok(());
        }
        Err(format!(
            "the tally does not balance: {stored} stored, {answered} answered, {emptied} \
             emptied, {active} pending or ready in {:?}",
            self.hub.translator
        ))
    }
}

/// The keys of the buffers pending or ready.
fn held(hub: &Hub) -> impl Iterator<Item = Key> + '_ {
    let active = |buffer: &&Buffer| matches!(buffer, Buffer::Pending { .. } | Buffer::Ready(..));
    hub.translator.buffers.iter().filter(active).filter_map(Buffer::key)
}
