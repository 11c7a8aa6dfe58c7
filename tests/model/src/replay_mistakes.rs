//! Mistakes in what a replay leaves, and the list of all mistakes in blocks
//! and their replay.

use crate::answer::{self, Answer};
use crate::block::{self, Refusal};
use crate::block_mistakes::{self, instead};
use crate::coverage::request;
use crate::form;
use crate::hub::Call;
use crate::library::{Guarded, LentReplay, Library, Linked, RawReplayed};
use crate::record;
use crate::recorded::ANSWERS;
use crate::replay::{self, Fate, History, Made};
use crate::request::Request;
use crate::translator::{Buffer, LowSide};

/// What is replaced of the linked library.
pub enum Mistaken {
    Start(fn(&mut Guarded, u32) -> u8),
    Add(fn(&mut Guarded, &mut Guarded) -> u8),
    Finish(fn(&mut Guarded) -> u8),
    Replay(fn(&mut LentReplay, u32) -> RawReplayed),
    /// Model and library share the mistake, so that only the balance of the
    /// tally contradicts.
    Shared(fn(&mut History, &Call, &Answer)),
}

use Mistaken::{Replay, Shared};

const MISTAKES: &[(&str, Mistaken)] = &[
    ("lane left out of an answer", Replay(answer_without_lane)),
    ("fields of an answer in another order", Replay(answer_turned)),
    ("length of an answer in two bytes", Replay(answer_length_16)),
    ("reply left out of an answer", Replay(answer_without_reply)),
    ("reply always of 64 bytes", Replay(answer_of_64)),
    ("refused calls not answered", Replay(refused_unanswered)),
    ("refused calls end the block", Replay(refused_ends)),
    ("bytes behind the answers written", Replay(behind_written)),
    ("a byte behind the answers' space written", Replay(guard_overwritten)),
    ("area left as it was", Replay(area_left)),
    ("calls before a bad record made", Replay(made_up_to_record)),
    ("answers written for a refused block", Replay(refused_written)),
    ("answers' space of 37,444 bytes refused", Replay(space_refused)),
    ("answers' space of 37,443 bytes taken", Replay(space_taken)),
    ("answers' space tested before the area", Replay(space_first)),
    ("block tested before the answers' space", Replay(block_first)),
    ("block told of a refused area", Replay(block_of_no_hub)),
    ("buffers told where the answers' space is too short", Replay(active_told)),
    ("answered and emptied exchanged", Replay(counters_exchanged)),
    ("stored counted as answered", Replay(stored_as_answered)),
    ("a repeat counted as stored", Replay(repeat_stored)),
    ("a start-split answered 3 counted as stored", Replay(nak_stored)),
    ("an old buffer reused counted as stored in no block", Replay(reuse_not_stored)),
    ("an old result counted again", Replay(answered_again)),
    ("only data counted as answered", Replay(data_alone)),
    ("only handshakes counted as answered", Replay(handshake_alone)),
    ("NYET counted as answered", Replay(nyet_counted)),
    ("a delivery counted as answered", Replay(delivery_counted)),
    ("old ones counted as emptied", Replay(old_emptied)),
    ("an old buffer reused counted as emptied", Replay(reuse_emptied)),
    ("ready ones not counted as emptied", Replay(ready_not_emptied)),
    ("a running one not counted as emptied", Replay(running_not_emptied)),
    ("emptied by a bus reset not counted", Replay(bus_reset_uncounted)),
    ("emptied by SetConfiguration not counted", Replay(configuration_uncounted)),
    ("emptied by ResetTT counted once", Replay(reset_counted_once)),
    ("ready buffers not active", Replay(pending_alone)),
    ("old buffers active", Replay(old_active)),
    ("active before the block", Replay(active_before)),
    ("active before the block counted as stored", Replay(earlier_stored)),
    ("no active buffers with a refused block", Replay(refused_inactive)),
];

const SHARED: &[(&str, Mistaken)] = &[
    ("shared: bus reset empties nothing", Shared(shared_bus_reset)),
    ("shared: ResetTT empties both lanes", Shared(shared_reset)),
    ("shared: ClearTTBuffer empties nothing", Shared(shared_clear)),
    ("shared: a delivery answers", Shared(shared_delivery)),
    ("shared: handshakes do not answer", Shared(shared_handshake)),
];

pub fn all() -> impl Iterator<Item = (&'static str, &'static dyn Library)> {
    let mistakes = block_mistakes::MISTAKES.iter().chain(MISTAKES).chain(SHARED);
    mistakes.map(|(name, library)| (*name, library as &dyn Library))
}

impl Library for Mistaken {
    fn block_start(&self, block: &mut Guarded, number: u32) -> u8 {
        match self {
            Mistaken::Start(wrong) => wrong(block, number),
            _ => Linked.block_start(block, number),
        }
    }

    fn block_add(&self, block: &mut Guarded, record: &mut Guarded) -> u8 {
        match self {
            Mistaken::Add(wrong) => wrong(block, record),
            _ => Linked.block_add(block, record),
        }
    }

    fn block_finish(&self, block: &mut Guarded) -> u8 {
        match self {
            Mistaken::Finish(wrong) => wrong(block),
            _ => Linked.block_finish(block),
        }
    }

    fn replay_block(&self, lent: &mut LentReplay, place: u32) -> RawReplayed {
        match self {
            Replay(wrong) => wrong(lent, place),
            Shared(wrong) => noted(lent, place, wrong),
            _ => Linked.replay_block(lent, place),
        }
    }

    fn note(&self, history: &mut History, call: &Call, answer: &Answer) {
        match self {
            Shared(wrong) => wrong(history, call, answer),
            _ => history.note(call, answer),
        }
    }
}

/// Replays the block.  If it was taken, the calls made are told.
fn replayed(lent: &mut LentReplay, place: u32) -> (RawReplayed, Option<Vec<Made>>) {
    let hub = form::read(lent.area.bytes());
    let replayed = Linked.replay_block(lent, place);
    let taken = hub.filter(|_| replayed.number == answer::DONE);
    let made = taken.and_then(|hub| {
        replay::Replay::new(hub).block(lent.block.bytes(), place, History::note).ok()
    });
    (replayed, made)
}

/// Replays the block, with the tally of a history that is noted otherwise.
fn noted(
    lent: &mut LentReplay,
    place: u32,
    note: &fn(&mut History, &Call, &Answer),
) -> RawReplayed {
    let hub = form::read(lent.area.bytes());
    let given = Linked.replay_block(lent, place);
    let hub = match hub {
        Some(hub) if given.number == answer::DONE => hub,
        _ => return given,
    };
    let mut replay = replay::Replay::new(hub);
    let before = replay.history.tally();
    let _ = replay.block(lent.block.bytes(), place, note);
    let tally = replay.history.tally().since(before);
    RawReplayed { stored: tally.stored, answered: tally.answered, emptied: tally.emptied, ..given }
}

/// Replays the block, with the answers' bytes made by `write`, as far as there
/// is room.
fn answered_as(
    lent: &mut LentReplay,
    place: u32,
    write: impl Fn(&Answer) -> Vec<u8>,
) -> RawReplayed {
    let before = lent.answers.clone();
    let (mut given, made) = replayed(lent, place);
    if let Some(made) = made {
        let mut bytes: Vec<u8> = made.iter().flat_map(|made| write(&made.answer)).collect();
        bytes.truncate(before.bytes().len());
        lent.answers = before;
        lent.answers.bytes_mut()[..bytes.len()].copy_from_slice(&bytes);
        given.length = bytes.len() as u32;
    }
    given
}

fn answer_without_lane(lent: &mut LentReplay, place: u32) -> RawReplayed {
    answered_as(lent, place, |answer| {
        let mut bytes = answer.written();
        bytes.remove(4);
        bytes
    })
}

fn answer_turned(lent: &mut LentReplay, place: u32) -> RawReplayed {
    answered_as(lent, place, |answer| {
        let mut bytes = answer.written();
        bytes.swap(4, 7);
        bytes
    })
}

fn answer_length_16(lent: &mut LentReplay, place: u32) -> RawReplayed {
    answered_as(lent, place, |answer| {
        let mut bytes = answer.written();
        bytes.insert(2, 0);
        bytes
    })
}

fn answer_without_reply(lent: &mut LentReplay, place: u32) -> RawReplayed {
    answered_as(lent, place, |answer| answer.written()[..10].to_vec())
}

fn answer_of_64(lent: &mut LentReplay, place: u32) -> RawReplayed {
    answered_as(lent, place, |answer| {
        let mut bytes = answer.written();
        bytes.resize(74, 0);
        bytes
    })
}

fn refused_unanswered(lent: &mut LentReplay, place: u32) -> RawReplayed {
    answered_as(lent, place, |answer| match answer::is_refusal(answer.number) {
        true => Vec::new(),
        false => answer.written(),
    })
}

/// The calls behind the first refused one are not made.
fn refused_ends(lent: &mut LentReplay, place: u32) -> RawReplayed {
    let (_, made) = replayed(&mut lent.clone(), place);
    let made = match made {
        Some(made) => made,
        None => return Linked.replay_block(lent, place),
    };
    let refused = |made: &Made| answer::is_refusal(made.answer.number);
    let end = made.iter().position(refused).map_or(made.len(), |place| place + 1);
    let records: Vec<u8> = made[..end].iter().flat_map(|made| record::write(&made.call)).collect();
    instead(lent, place, &block::write(place as u16, &records).expect("fewer records"))
}

fn behind_written(lent: &mut LentReplay, place: u32) -> RawReplayed {
    let given = Linked.replay_block(lent, place);
    if given.number == answer::DONE && given.refusal == 0 {
        let end = lent.answers.bytes().len();
        lent.answers.bytes_mut()[end - 1] ^= 1;
    }
    given
}

fn guard_overwritten(lent: &mut LentReplay, place: u32) -> RawReplayed {
    lent.answers.break_guard();
    Linked.replay_block(lent, place)
}

fn area_left(lent: &mut LentReplay, place: u32) -> RawReplayed {
    let before = lent.area.clone();
    let given = Linked.replay_block(lent, place);
    lent.area = before;
    given
}

/// The block of the records before the first bad one.
fn up_to_record(block: &[u8], place: u32) -> Vec<u8> {
    let used = block::used(block);
    let mut rest = used;
    while let Some((_, behind)) = record::read_first(rest) {
        rest = behind;
    }
    block::write(place as u16, &used[..used.len() - rest.len()]).expect("fewer records")
}

fn made_up_to_record(lent: &mut LentReplay, place: u32) -> RawReplayed {
    let given = Linked.replay_block(lent, place);
    if given.refusal != Refusal::Record as u8 {
        return given;
    }
    let good = up_to_record(lent.block.bytes(), place);
    RawReplayed { refusal: given.refusal, ..instead(lent, place, &good) }
}

fn refused_written(lent: &mut LentReplay, place: u32) -> RawReplayed {
    let given = Linked.replay_block(lent, place);
    if given.refusal == Refusal::Record as u8 {
        let good = up_to_record(lent.block.bytes(), place);
        let mut copy = lent.clone();
        instead(&mut copy, place, &good);
        lent.answers = copy.answers;
    }
    given
}

/// Nothing but a number.
fn number_alone(number: u8) -> RawReplayed {
    RawReplayed { number, ..RawReplayed::default() }
}

fn space_refused(lent: &mut LentReplay, place: u32) -> RawReplayed {
    match lent.answers.bytes().len() {
        ANSWERS if form::read(lent.area.bytes()).is_some() => number_alone(answer::NO_SPACE),
        _ => Linked.replay_block(lent, place),
    }
}

fn space_taken(lent: &mut LentReplay, place: u32) -> RawReplayed {
    let length = lent.answers.bytes().len();
    if length != ANSWERS - 1 {
        return Linked.replay_block(lent, place);
    }
    let mut bytes = lent.answers.bytes().to_vec();
    bytes.push(0);
    lent.answers = Guarded::new(&bytes);
    let given = Linked.replay_block(lent, place);
    lent.answers = Guarded::new(&lent.answers.bytes()[..length]);
    given
}

fn space_first(lent: &mut LentReplay, place: u32) -> RawReplayed {
    if lent.answers.bytes().len() < ANSWERS {
        number_alone(answer::NO_SPACE)
    } else {
        Linked.replay_block(lent, place)
    }
}

fn block_first(lent: &mut LentReplay, place: u32) -> RawReplayed {
    let given = Linked.replay_block(lent, place);
    if given.number != answer::NO_SPACE {
        return given;
    }
    let kept = std::mem::replace(&mut lent.answers, Guarded::new(&[0; ANSWERS]));
    let judged = Linked.replay_block(&mut lent.clone(), place);
    lent.answers = kept;
    if judged.refusal == 0 {
        given
    } else {
        judged
    }
}

fn block_of_no_hub(lent: &mut LentReplay, place: u32) -> RawReplayed {
    let mut given = Linked.replay_block(lent, place);
    if given.number == answer::OUTSIDE {
        let refusal = block::read(lent.block.bytes(), place).err();
        given.refusal = refusal.map_or(0, |refusal| refusal as u8);
    }
    given
}

fn active_told(lent: &mut LentReplay, place: u32) -> RawReplayed {
    let mut given = Linked.replay_block(lent, place);
    if let Some(hub) = form::read(lent.area.bytes()) {
        given.active = replay::Replay::new(hub).active() as u8;
    }
    given
}

/// Replays the block, with the numbers of a good one changed.
fn tallied(
    lent: &mut LentReplay,
    place: u32,
    change: impl Fn(&mut RawReplayed, &[Made]),
) -> RawReplayed {
    let (mut given, made) = replayed(lent, place);
    if let Some(made) = made {
        change(&mut given, &made);
    }
    given
}

/// How many of the calls are so.
fn count(made: &[Made], met: fn(&Made) -> bool) -> u32 {
    made.iter().filter(|made| met(made)).count() as u32
}

/// How many buffers the calls changed so: before, after, and whether it ran.
fn changes(made: &[Made], met: fn(&Made, &Buffer, &Buffer, bool) -> bool) -> u32 {
    let of = |made: &Made| {
        let translator = &made.before.translator;
        let pairs = translator.buffers.iter().zip(&made.after.translator.buffers).enumerate();
        let met = |&(number, (before, after)): &(usize, (&Buffer, &Buffer))| {
            met(made, before, after, translator.low_side == LowSide::Running(number))
        };
        pairs.filter(met).count() as u32
    };
    made.iter().map(of).sum()
}

fn counters_exchanged(lent: &mut LentReplay, place: u32) -> RawReplayed {
    tallied(lent, place, |given, _| std::mem::swap(&mut given.answered, &mut given.emptied))
}

fn stored_as_answered(lent: &mut LentReplay, place: u32) -> RawReplayed {
    tallied(lent, place, |given, _| std::mem::swap(&mut given.stored, &mut given.answered))
}

/// A start-split with this answer that stored nothing.
fn stored_nothing(made: &Made, number: u8) -> bool {
    matches!(made.call, Call::StartSplit { .. })
        && made.answer.number == number
        && form::write(&made.before) == form::write(&made.after)
}

fn repeat_stored(lent: &mut LentReplay, place: u32) -> RawReplayed {
    tallied(lent, place, |given, made| {
        given.stored += count(made, |made| stored_nothing(made, answer::DONE));
    })
}

fn nak_stored(lent: &mut LentReplay, place: u32) -> RawReplayed {
    tallied(lent, place, |given, made| {
        given.stored += count(made, |made| stored_nothing(made, answer::NAK));
    })
}

/// An old buffer became pending.
fn reused(_: &Made, before: &Buffer, after: &Buffer, _: bool) -> bool {
    matches!((before, after), (Buffer::Old(..), Buffer::Pending { .. }))
}

fn reuse_not_stored(lent: &mut LentReplay, place: u32) -> RawReplayed {
    tallied(lent, place, |given, made| given.stored -= changes(made, reused))
}

fn reuse_emptied(lent: &mut LentReplay, place: u32) -> RawReplayed {
    tallied(lent, place, |given, made| given.emptied += changes(made, reused))
}

fn answered_again(lent: &mut LentReplay, place: u32) -> RawReplayed {
    tallied(lent, place, |given, made| {
        given.answered = count(made, |made| {
            matches!(made.call, Call::CompleteSplit { .. })
                && matches!(made.answer.number, answer::DATA | answer::HANDSHAKE)
        });
    })
}

/// A buffer became old by a call with this answer.
fn became_old(made: &Made, before: &Buffer, after: &Buffer, number: u8) -> bool {
    made.answer.number == number && matches!((before, after), (Buffer::Ready(..), Buffer::Old(..)))
}

fn data_alone(lent: &mut LentReplay, place: u32) -> RawReplayed {
    tallied(lent, place, |given, made| {
        given.answered -= changes(made, |made, before, after, _| {
            became_old(made, before, after, answer::HANDSHAKE)
        });
    })
}

fn handshake_alone(lent: &mut LentReplay, place: u32) -> RawReplayed {
    tallied(lent, place, |given, made| {
        given.answered -=
            changes(made, |made, before, after, _| became_old(made, before, after, answer::DATA));
    })
}

fn nyet_counted(lent: &mut LentReplay, place: u32) -> RawReplayed {
    tallied(lent, place, |given, made| {
        given.answered += count(made, |made| made.answer.number == answer::NYET);
    })
}

fn delivery_counted(lent: &mut LentReplay, place: u32) -> RawReplayed {
    tallied(lent, place, |given, made| {
        given.answered = changes(made, |_, before, after, _| {
            matches!((before, after), (Buffer::Pending { .. }, Buffer::Ready(..)))
        });
    })
}

fn old_emptied(lent: &mut LentReplay, place: u32) -> RawReplayed {
    tallied(lent, place, |given, made| {
        given.emptied += changes(made, |_, before, after, _| {
            matches!((before, after), (Buffer::Old(..), Buffer::Empty))
        });
    })
}

fn ready_not_emptied(lent: &mut LentReplay, place: u32) -> RawReplayed {
    tallied(lent, place, |given, made| {
        given.emptied -= changes(made, |_, before, after, _| {
            matches!((before, after), (Buffer::Ready(..), Buffer::Empty))
        });
    })
}

fn running_not_emptied(lent: &mut LentReplay, place: u32) -> RawReplayed {
    tallied(lent, place, |given, made| {
        given.emptied -=
            changes(made, |_, _, after, running| running && matches!(after, Buffer::Empty));
    })
}

/// A pending or ready buffer was emptied.
fn emptied(before: &Buffer, after: &Buffer) -> bool {
    !before.is_free() && matches!(after, Buffer::Empty)
}

fn bus_reset_uncounted(lent: &mut LentReplay, place: u32) -> RawReplayed {
    tallied(lent, place, |given, made| {
        given.emptied -= changes(made, |made, before, after, _| {
            matches!(made.call, Call::BusReset) && emptied(before, after)
        });
    })
}

fn configuration_uncounted(lent: &mut LentReplay, place: u32) -> RawReplayed {
    tallied(lent, place, |given, made| {
        given.emptied -= changes(made, |made, before, after, _| {
            matches!(request(&made.call), Some(Request::SetConfiguration(_)))
                && emptied(before, after)
        });
    })
}

fn reset_counted_once(lent: &mut LentReplay, place: u32) -> RawReplayed {
    tallied(lent, place, |given, made| {
        let is_reset = |made: &&Made| matches!(request(&made.call), Some(Request::ResetTt(_)));
        for reset in made.iter().filter(is_reset) {
            let emptied =
                changes(std::slice::from_ref(reset), |_, before, after, _| emptied(before, after));
            given.emptied -= emptied.saturating_sub(1);
        }
    })
}

/// Replays the block, and counts the active buffers of the area, before or
/// after it, otherwise.
fn active_as(
    lent: &mut LentReplay,
    place: u32,
    after: bool,
    met: fn(&Buffer) -> bool,
) -> RawReplayed {
    let before = lent.area.clone();
    let mut given = Linked.replay_block(lent, place);
    let area = if after { &lent.area } else { &before };
    if let Some(hub) = form::read(area.bytes()).filter(|_| given.number == answer::DONE) {
        given.active = hub.translator.buffers.iter().filter(|buffer| met(buffer)).count() as u8;
    }
    given
}

fn pending_alone(lent: &mut LentReplay, place: u32) -> RawReplayed {
    active_as(lent, place, true, |buffer| buffer.place().is_some())
}

fn old_active(lent: &mut LentReplay, place: u32) -> RawReplayed {
    active_as(lent, place, true, |buffer| buffer.key().is_some())
}

fn active_before(lent: &mut LentReplay, place: u32) -> RawReplayed {
    active_as(lent, place, false, |buffer| !buffer.is_free())
}

fn earlier_stored(lent: &mut LentReplay, place: u32) -> RawReplayed {
    let before = active_before(&mut lent.clone(), place).active;
    tallied(lent, place, |given, _| given.stored += u32::from(before))
}

fn refused_inactive(lent: &mut LentReplay, place: u32) -> RawReplayed {
    let given = Linked.replay_block(lent, place);
    let active = if given.refusal == 0 { given.active } else { 0 };
    RawReplayed { active, ..given }
}

fn shared_bus_reset(history: &mut History, call: &Call, answer: &Answer) {
    if !matches!(call, Call::BusReset) {
        history.note(call, answer);
    }
}

fn shared_reset(history: &mut History, call: &Call, answer: &Answer) {
    match request(call) {
        Some(Request::ResetTt(_)) if answer.number == answer::DONE => {
            history.end(Fate::Emptied, |_| true);
        }
        _ => history.note(call, answer),
    }
}

fn shared_clear(history: &mut History, call: &Call, answer: &Answer) {
    if !matches!(request(call), Some(Request::ClearTtBuffer(_))) {
        history.note(call, answer);
    }
}

fn shared_delivery(history: &mut History, call: &Call, answer: &Answer) {
    history.note(call, answer);
    if matches!(call, Call::Deliver { .. }) && answer.number == answer::DONE {
        history.end(Fate::Answered, |_| true);
    }
}

fn shared_handshake(history: &mut History, call: &Call, answer: &Answer) {
    if answer.number != answer::HANDSHAKE {
        history.note(call, answer);
    }
}
