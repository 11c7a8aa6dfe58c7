//! Recordings of random calls: blocks written by the model and the library,
//! and replayed on both.

use crate::answer;
use crate::block::{self, USED_MAX};
use crate::choose::Chooser;
use crate::compare::equal;
use crate::coverage::Coverage;
use crate::form;
use crate::hub::{Call, Hub};
use crate::library::{Guarded, LentReplay, Library, NewNumbers, RawReplayed};
use crate::record;
use crate::recordings::{self, Recordings};
use crate::replay::{Made, Replay, Tally};
use crate::spoil;
use crate::spoiled;

/// Blocks of a recording.
const RECORDING: u32 = 20;

/// The least space for the answers of a block: 506 records of one byte, and 74
/// bytes for each answer.
pub const ANSWERS: usize = USED_MAX * 74;

/// One block of a recording is replayed for so many calls.
const CALLS_PER_BLOCK: u64 = 40;

/// The recordings before the damaged blocks.
const FIRST: u64 = 50;

/// Replays a block of random recordings for each 40 calls, and damaged blocks.
/// The error tells the first difference.
pub fn run(
    library: &dyn Library,
    calls: u64,
    seed: u64,
    coverage: &mut Coverage,
) -> Result<(), String> {
    let mut chooser = Chooser::new(seed);
    let fill = chooser.random.bytes(ANSWERS + 1000);
    let coverage = &mut coverage.recordings;
    let mut run = Run { library, chooser, coverage, fill, left: None };
    let (blocks, each) = (calls / CALLS_PER_BLOCK, u64::from(RECORDING));
    let recordings = (blocks + each - 1) / each;
    for recording in 1..=recordings.max(FIRST) {
        run.recording().map_err(|text| format!("seed {seed}, recording {recording}, {text}"))?;
        if recording == FIRST {
            spoiled::run(&mut run).map_err(|text| format!("seed {seed}, {text}"))?;
        }
    }
    Ok(())
}

pub struct Run<'a> {
    pub library: &'a dyn Library,
    pub chooser: Chooser,
    pub coverage: &'a mut Recordings,
    /// Random bytes for the answers' space.
    fill: Vec<u8>,
    /// A call that the last block had no room for.
    pub left: Option<Call>,
}

/// What the replay of a block is given, but for the area.
pub struct Trial<'a> {
    pub block: &'a [u8],
    pub place: u32,
    /// The length of the answers' space.
    pub space: usize,
}

impl Run<'_> {
    fn recording(&mut self) -> Result<(), String> {
        let (mut replay, mut area) = self.new_hub()?;
        let first = self.chooser.random.pick(&[1, 1, 1, 250, 65_520]);
        self.left = None;
        for place in first..first + RECORDING {
            self.block(&mut replay, &mut area, place)
                .map_err(|text| format!("block {place}: {text}"))?;
        }
        Ok(())
    }

    /// A new hub of the model, and its area made by the library.
    fn new_hub(&mut self) -> Result<(Replay, Guarded), String> {
        let numbers = self.chooser.session();
        let NewNumbers { ports, buffers, power_good, current, removable } = numbers;
        let hub = Hub::new(ports, buffers, power_good, current, removable)
            .expect("a session's numbers are permitted");
        let mut area = Guarded::new(&self.chooser.random.bytes(form::write(&hub).len()));
        equal("answer of new", answer::DONE, self.library.new_hub(&mut area, numbers).number)?;
        equal_bytes("new area", &form::write(&hub), area.bytes())?;
        Ok((Replay::new(hub), area))
    }

    /// Writes a block and replays it, after odd attempts.
    fn block(&mut self, replay: &mut Replay, area: &mut Guarded, place: u32) -> Result<(), String> {
        // No number is right above 65,535.
        let number = u16::try_from(place).unwrap_or(place as u16 | 1);
        let block = self.written(&replay.hub, number)?;
        if self.chooser.random.one_in(2) {
            self.odd_memory(&replay.hub)?;
        }
        if self.chooser.random.one_in(2) {
            self.odd_replay(&replay.hub, &block, place)?;
        }
        let before = replay.history.clone();
        let trial = Trial { block: &block, place, space: ANSWERS };
        let made = self.replay(Some(replay), area, &trial)?;
        self.coverage.made(before, &made, place);
        replay.balance()
    }

    /// A replay of the block with something wrong, or on another hub.
    fn odd_replay(&mut self, hub: &Hub, block: &[u8], place: u32) -> Result<(), String> {
        let (mut block, mut place, mut space) = (block.to_vec(), place, ANSWERS);
        if self.chooser.random.one_in(2) {
            spoil::block(&mut self.chooser.random, &mut block, &mut place);
        }
        if self.chooser.random.one_in(4) {
            let spaces = [0, 1, 10, ANSWERS - 1, ANSWERS - 1, ANSWERS + 1, ANSWERS + 900];
            space = self.chooser.random.pick(&spaces);
        }
        let area = match self.chooser.random.below(4) {
            0 => self.chooser.damaged(hub).0,
            1 => form::write(&self.chooser.hub()),
            _ => form::write(hub),
        };
        let mut replay = form::read(&area).map(Replay::new);
        let trial = Trial { block: &block, place, space };
        self.replay(replay.as_mut(), &mut Guarded::new(&area), &trial)
            .and_then(|_| replay.map_or(Ok(()), |replay| replay.balance()))
            .map_err(|text| {
                format!(
                    "odd replay at place {place}, {space} bytes for answers, on {area:?}\n{text}"
                )
            })
    }

    /// Replays the block on the model and the library.  None is an area
    /// without a permitted hub.
    pub fn replay(
        &mut self,
        replay: Option<&mut Replay>,
        area: &mut Guarded,
        trial: &Trial,
    ) -> Result<Vec<Made>, String> {
        let faults = block::faults(trial.block, trial.place);
        self.coverage.replay(lent_name(replay.is_some(), trial), &faults);
        let mut left = area.bytes().to_vec();
        let (expected, made) = match replay {
            None => (refused(answer::OUTSIDE), Vec::new()),
            Some(_) if trial.space < ANSWERS => (refused(answer::NO_SPACE), Vec::new()),
            Some(replay) => {
                let expected = self.expected(replay, trial)?;
                left = form::write(&replay.hub);
                expected
            }
        };
        let start = self.chooser.random.below(self.fill.len() - trial.space + 1);
        let fill = &self.fill[start..start + trial.space];
        let mut lent = LentReplay {
            area: area.clone(),
            block: Guarded::new(trial.block),
            answers: Guarded::new(fill),
        };
        let given = self.library.replay_block(&mut lent, trial.place);
        equal("replayed", expected, given)
            .and_then(|()| compare_answers(&made, fill, lent.answers.bytes()))
            .and_then(|()| equal_bytes("area", &left, lent.area.bytes()))
            .and_then(|()| equal_bytes("lent block", trial.block, lent.block.bytes()))
            .and_then(|()| equal("area's guards", true, lent.area.guards_are_whole()))
            .and_then(|()| equal("block's guards", true, lent.block.guards_are_whole()))
            .and_then(|()| equal("answers' guards", true, lent.answers.guards_are_whole()))
            .map_err(|text| format!("{text}\n  block {:02X?}", trial.block))?;
        *area = lent.area;
        self.coverage.calls += made.len() as u64;
        Ok(made)
    }

    /// The model's replay, with space enough for the answers.
    fn expected(
        &self,
        replay: &mut Replay,
        trial: &Trial,
    ) -> Result<(RawReplayed, Vec<Made>), String> {
        let before = replay.history.tally();
        let note = |history: &mut _, call: &_, answer: &_| self.library.note(history, call, answer);
        let (refusal, made) = match replay.block(trial.block, trial.place, note) {
            Ok(made) => {
                let records: Vec<u8> =
                    made.iter().flat_map(|made| record::write(&made.call)).collect();
                let written = block::write(trial.place as u16, &records).unwrap_or_default();
                equal_bytes("good block, written again", trial.block, &written)?;
                (0, made)
            }
            Err(refusal) => (refusal as u8, Vec::new()),
        };
        let Tally { stored, answered, emptied } = replay.history.tally().since(before);
        let replayed = RawReplayed {
            number: answer::DONE,
            refusal,
            active: replay.active() as u8,
            stored,
            answered,
            emptied,
            length: made.iter().map(|made| made.answer.written().len() as u32).sum(),
        };
        Ok((replayed, made))
    }
}

fn refused(number: u8) -> RawReplayed {
    RawReplayed { number, ..RawReplayed::default() }
}

fn lent_name(area_taken: bool, trial: &Trial) -> &'static str {
    match (area_taken, trial.space < ANSWERS) {
        (false, false) => recordings::AREA,
        (false, true) => recordings::BOTH,
        (true, true) => recordings::SHORT,
        (true, false) => recordings::ROOM,
    }
}

/// The answers one by one, and the bytes behind them.
fn compare_answers(made: &[Made], before: &[u8], after: &[u8]) -> Result<(), String> {
    let mut start = 0;
    for (record, made) in (1..).zip(made) {
        let expected = made.answer.written();
        let given = &after[start..start + expected.len()];
        equal("answer", expected.as_slice(), given)
            .map_err(|text| format!("record {record}, {:?}\n{text}", made.call))?;
        start += expected.len();
    }
    equal_bytes("bytes behind the answers", &before[start..], &after[start..])
}

/// Tells the first byte that differs.
pub fn equal_bytes(part: &str, model: &[u8], library: &[u8]) -> Result<(), String> {
    if model == library {
        return Ok(());
    }
    equal(&format!("{part}, length"), model.len(), library.len())?;
    match (0..model.len()).find(|&at| model[at] != library[at]) {
        Some(at) => equal(&format!("{part}, byte {at}"), model[at], library[at]),
        None => Ok(()),
    }
}
