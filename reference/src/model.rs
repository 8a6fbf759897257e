//! The calls, the load choice and the functions of the index, answered in the words of the
//! C interface.

use crate::calls::{
    Answer, Call, Request, BLOCK, CONTROL, FUNCTION, NOT_EMPTY, NOT_IMPLEMENTED, PRESENCE, READ,
    READ_FAILURE, SUCCESS, UPDATE_NUM_INVALID, WRITE,
};
use crate::index::{built, carried, Index, ALL_UNUSED};
use crate::store::Store;
use crate::write::write;

/// The cases in word 4 of an update call's answer.
const PRESENCE_CASE: u32 = 0;
const WRITTEN_CASE: u32 = 1;
const CONTROL_CASE: u32 = 2;
const READ_CASE: u32 = 3;
const REFUSED_CASE: u32 = 4;

/// The cases in word 4 of the load choice's answer.
const NOTHING_CASE: u32 = 0;
const CHOSEN_CASE: u32 = 1;
const LOAD_REFUSED_CASE: u32 = 2;

/// The cases in word 4 of the answer of the functions that make an index.
const MADE_CASE: u32 = 0;
const NOT_MADE_CASE: u32 = 1;

/// What a call answers and leaves behind.
pub fn answer(call: &Call) -> Answer {
    match call.request {
        Request::Update {
            function,
            sub_function,
            task,
            block,
            read_back,
        } => match (function, sub_function) {
            (FUNCTION, PRESENCE) => presence(call),
            (FUNCTION, WRITE) => written(call, read_back),
            (FUNCTION, CONTROL) => control(call, task),
            (FUNCTION, READ) => read(call, block),
            _ => refused(call, NOT_IMPLEMENTED, 0),
        },
        Request::Load {
            signature,
            platform,
        } => load(call, signature, platform),
        Request::Index => index(call),
        Request::IndexAfter {
            ref old,
            emptied,
            start,
            revision,
            size,
        } => made(call, carried(old, emptied, start, revision, size)),
        Request::ReadIndexed { ref index, .. } if !is_own(call, index) => {
            refused(call, READ_FAILURE, 1)
        }
        Request::ReadIndexed { block, .. } => read(call, block),
        Request::LoadIndexed { ref index, .. } if !is_own(call, index) => {
            plain(call, READ_FAILURE, 1, LOAD_REFUSED_CASE, &[])
        }
        Request::LoadIndexed {
            signature,
            platform,
            ..
        } => load(call, signature, platform),
    }
}

/// An answer that leaves store, destination and loading as they stood.
fn plain(call: &Call, ah: u32, al: u32, case: u32, numbers: &[u32]) -> Answer {
    let mut words = [0; 16];
    words[0] = ah;
    words[1] = al;
    words[2] = u32::from(ah != 0);
    words[3] = u32::from(call.loading && call.request.takes_loading());
    words[4] = case;
    words[5..5 + numbers.len()].copy_from_slice(numbers);
    Answer {
        ax: ah * 256 + al,
        words,
        store: call.store.clone(),
        destination: call.destination.clone(),
        index: None,
    }
}

fn refused(call: &Call, ah: u32, al: u32) -> Answer {
    plain(call, ah, al, REFUSED_CASE, &[0])
}

fn presence(call: &Call) -> Answer {
    let Some(store) = Store::parse(&call.store) else {
        return refused(call, READ_FAILURE, 1);
    };
    let mut numbers: Vec<u32> = b"INTELPEP".iter().map(|&byte| u32::from(byte)).collect();
    numbers.push(1);
    numbers.push(store.blocks as u32);
    plain(call, SUCCESS, 0, PRESENCE_CASE, &numbers)
}

fn written(call: &Call, read_back: u32) -> Answer {
    match write(call, read_back) {
        Err((ah, al)) => refused(call, ah, al),
        Ok(written) => {
            let numbers = [
                written.start as u32,
                written.emptied_count,
                written.emptied_blocks,
            ];
            let mut answer = plain(call, SUCCESS, 0, WRITTEN_CASE, &numbers);
            answer.store = written.bytes;
            answer
        }
    }
}

fn control(call: &Call, task: u32) -> Answer {
    let loading = match task {
        1 => true,
        2 => call.loading,
        _ => return plain(call, NOT_IMPLEMENTED, 0, REFUSED_CASE, &[0xFF]),
    };
    let mut answer = plain(call, SUCCESS, 0, CONTROL_CASE, &[u32::from(loading)]);
    answer.words[3] = u32::from(loading);
    answer
}

fn read(call: &Call, block: u32) -> Answer {
    let Some(store) = Store::parse(&call.store) else {
        return refused(call, READ_FAILURE, 1);
    };
    if u64::from(block) >= store.blocks as u64 {
        return refused(call, UPDATE_NUM_INVALID, 0);
    }
    let block = block as usize;
    let blocks = match store.owner(block) {
        None => 1,
        Some(index) if store.held[index].first == block => store.held[index].blocks,
        Some(_) => return refused(call, NOT_EMPTY, 0),
    };
    if call.destination.len() < blocks * BLOCK {
        return refused(call, READ_FAILURE, 3);
    }
    let mut answer = plain(call, SUCCESS, 0, READ_CASE, &[blocks as u32]);
    answer.destination[..blocks * BLOCK]
        .copy_from_slice(&call.store[block * BLOCK..(block + blocks) * BLOCK]);
    answer
}

fn load(call: &Call, signature: u32, platform: u32) -> Answer {
    let Some(store) = Store::parse(&call.store) else {
        return plain(call, READ_FAILURE, 1, LOAD_REFUSED_CASE, &[]);
    };
    if platform > 7 {
        return plain(call, READ_FAILURE, 2, LOAD_REFUSED_CASE, &[]);
    }
    let mut held = store.held.iter();
    let chosen = held.find(|held| held.update.covers((signature, platform)));
    match chosen {
        Some(held) if call.loading => {
            let numbers = [
                held.first as u32,
                held.update.revision,
                (held.first * BLOCK + 48) as u32,
                held.update.sizes.data as u32,
            ];
            plain(call, SUCCESS, 0, CHOSEN_CASE, &numbers)
        }
        _ => plain(call, SUCCESS, 0, NOTHING_CASE, &[]),
    }
}

/// Whether the store is valid and the index is its own.
fn is_own(call: &Call, index: &Index) -> bool {
    Store::parse(&call.store).is_some_and(|store| built(&store) == *index)
}

fn made(call: &Call, index: Index) -> Answer {
    let mut answer = plain(call, SUCCESS, 0, MADE_CASE, &[]);
    answer.index = Some(index);
    answer
}

fn index(call: &Call) -> Answer {
    match Store::parse(&call.store) {
        Some(store) => made(call, built(&store)),
        None => {
            let mut answer = plain(call, READ_FAILURE, 1, NOT_MADE_CASE, &[]);
            answer.index = Some(ALL_UNUSED);
            answer
        }
    }
}
