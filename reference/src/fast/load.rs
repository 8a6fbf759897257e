//! The load choice.

use super::directory::Directory;
use super::{lay_refusal, Refusal, BAD_LIST, BAD_STORE, BLOCK, HEADER};

/// The load choice, as in the C interface.
#[inline(never)]
pub fn load(
    loading: bool,
    store: &[u8],
    signature: u32,
    platform: u32,
    answer: &mut [u32; 16],
) -> u32 {
    let chosen = choose(loading, store, signature, platform);
    lay_choice(loading, chosen, answer)
}

/// The chosen update's start block, revision and number of data bytes.
pub struct Choice {
    pub start: usize,
    pub revision: u32,
    pub data: usize,
}

/// Lays what was chosen out in the answer words.
pub fn lay_choice(
    loading: bool,
    chosen: Result<Option<Choice>, Refusal>,
    answer: &mut [u32; 16],
) -> u32 {
    *answer = [0; 16];
    answer[3] = u32::from(loading);
    match chosen {
        Err(refusal) => lay_refusal(refusal, 2, answer),
        Ok(None) => 0,
        Ok(Some(choice)) => {
            answer[4] = 1;
            answer[5] = choice.start as u32;
            answer[6] = choice.revision;
            answer[7] = (choice.start * BLOCK + HEADER) as u32;
            answer[8] = choice.data as u32;
            0
        }
    }
}

fn choose(
    loading: bool,
    store: &[u8],
    signature: u32,
    platform: u32,
) -> Result<Option<Choice>, Refusal> {
    let directory = Directory::scan(store).ok_or(BAD_STORE)?;
    if platform > 7 {
        return Err(BAD_LIST);
    }
    if !loading {
        return Ok(None);
    }
    let found = directory
        .held()
        .zip(directory.places)
        .find(|(update, _)| update.covers(signature, 1 << platform));
    Ok(found.map(|(update, place)| Choice {
        start: usize::from(place.start),
        revision: update.revision(),
        data: update.data,
    }))
}
