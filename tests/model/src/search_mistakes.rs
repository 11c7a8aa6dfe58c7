//! Mistakes in the search of a start-split, for the list in `mistakes`.

use std::ops::Range;

use crate::answer;
use crate::hub::Call;
use crate::lane_mistakes::{answered_start, moved, read, row};
use crate::library::{Lent, Library, Linked, RawAnswer};
use crate::translator::{Buffer, Key, Translator};

/// The buffer that a search for the key finds: one that has it, or a free one
/// to store in.
type Search = fn(&Translator, Key) -> Option<usize>;

/// Makes the call.  A start-split gets the buffer that `search` finds; repeat
/// and limit are as linked.  A key that is held but not found is held twice, if
/// it is stored.
fn searched(call: &Call, lent: &mut Lent, search: Search) -> RawAnswer {
    let before = lent.clone();
    let answer = Linked.call(call, lent);
    let (hub, start) = match answered_start(call, &before, answer) {
        Some(found) => found,
        None => return answer,
    };
    let (translator, key) = (&hub.translator, start.key());
    let (found, holder) = (search(translator, key), translator.find(key));
    if found.is_some() && found == holder {
        return answer;
    }
    *lent = before.clone();
    // With another address in it, the library doesn't find the holder either.
    let address = holder.map(|holder| row(&hub, holder).start + 4);
    if let Some(address) = address {
        lent.area.bytes_mut()[address] = unused_address(translator);
    }
    let answer = Linked.call(call, lent);
    let stored = read(lent).and_then(|hub| hub.translator.find(key));
    let (stored, found) = match (stored, found) {
        (Some(stored), Some(found)) => (stored, found),
        _ => {
            *lent = before;
            return RawAnswer { number: answer::NAK, ..answer };
        }
    };
    if let Some(address) = address {
        lent.area.bytes_mut()[address] = key.address;
    }
    moved(&hub, &before, lent, stored, found);
    answer
}

fn unused_address(translator: &Translator) -> u8 {
    let used: Vec<_> = translator.buffers.iter().filter_map(Buffer::key).collect();
    let is_unused = |address: &u8| used.iter().all(|key| key.address != *address);
    (0..=127).find(is_unused).expect("more addresses than buffers")
}

fn lowest_free(translator: &Translator) -> Option<usize> {
    translator.buffers.iter().position(Buffer::is_free)
}

/// The right search, in these buffers only.
fn within(translator: &Translator, key: Key, looked_at: Range<usize>) -> Option<usize> {
    let buffers = &translator.buffers;
    let has_key = |&number: &usize| buffers[number].key() == Some(key);
    let is_free = |&number: &usize| buffers[number].is_free();
    looked_at.clone().find(has_key).or_else(|| looked_at.clone().find(is_free))
}

/// No key is seen behind a free buffer.
fn up_to_free(translator: &Translator, key: Key) -> Option<usize> {
    let ends = |buffer: &Buffer| buffer.is_free() || buffer.key() == Some(key);
    translator.buffers.iter().position(ends)
}

pub fn highest_taken(call: &Call, lent: &mut Lent) -> RawAnswer {
    searched(call, lent, |translator, key| {
        let highest = || translator.buffers.iter().rposition(Buffer::is_free);
        translator.find(key).or_else(highest)
    })
}

pub fn first_passed_over(call: &Call, lent: &mut Lent) -> RawAnswer {
    searched(call, lent, |translator, key| within(translator, key, 1..translator.buffers.len()))
}

pub fn last_passed_over(call: &Call, lent: &mut Lent) -> RawAnswer {
    searched(call, lent, |translator, key| {
        let last = translator.buffers.len() - 1;
        within(translator, key, 0..last)
    })
}

pub fn ends_at_free(call: &Call, lent: &mut Lent) -> RawAnswer {
    searched(call, lent, up_to_free)
}

/// A pending or ready buffer's key isn't seen behind a free buffer; an old
/// one's is.
pub fn repeat_unseen(call: &Call, lent: &mut Lent) -> RawAnswer {
    searched(call, lent, |translator, key| {
        let is_old = |number: &usize| translator.buffers[*number].is_free();
        translator.find(key).filter(is_old).or_else(|| up_to_free(translator, key))
    })
}

/// An old buffer's key isn't seen.
pub fn own_old_not_preferred(call: &Call, lent: &mut Lent) -> RawAnswer {
    searched(call, lent, |translator, key| {
        let is_held = |number: &usize| !translator.buffers[*number].is_free();
        translator.find(key).filter(is_held).or_else(|| lowest_free(translator))
    })
}

pub fn empty_preferred(call: &Call, lent: &mut Lent) -> RawAnswer {
    searched(call, lent, |translator, key| {
        let is_empty = |buffer: &Buffer| matches!(buffer, Buffer::Empty);
        let empty = || translator.buffers.iter().position(is_empty);
        translator.find(key).or_else(empty).or_else(|| lowest_free(translator))
    })
}
