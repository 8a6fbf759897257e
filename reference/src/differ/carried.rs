//! After an accepted write, the index carried over it is the one built from the store after
//! it, on both sides.

use super::loan::differs;
use crate::board;
use crate::calls::{Answer, Call};
use crate::index::{carried, own, Index, ALL_UNUSED};
use crate::update::{number, Update};

/// The library's index of a store.
fn library_index(store: &[u8]) -> Index {
    let mut index = ALL_UNUSED;
    board::index(store, &mut index, &mut [0; 16]);
    index
}

/// What differs after an accepted write, which both sides have answered: the words and the
/// store are the library's.
pub fn differences(call: &Call, right: &Answer, words: &[u32; 16], store: &[u8]) -> Vec<String> {
    let candidate = Update::parse(&call.candidate).expect("the candidate was accepted");
    let revision = number(&call.candidate, 4);
    let size = candidate.blocks() as u32;

    let built = own(&right.store);
    let model = carried(
        &own(&call.store),
        right.words[7],
        right.words[5],
        revision,
        size,
    );
    let library_built = library_index(store);
    let mut library = ALL_UNUSED;
    board::index_after(
        &library_index(&call.store),
        words[7],
        words[5],
        revision,
        size,
        &mut library,
        &mut [0; 16],
    );
    [
        differs("words of the model's carried index", &model, &built),
        differs("words of the library's built index", &library_built, &built),
        differs("words of the carried index", &library, &library_built),
    ]
    .into_iter()
    .flatten()
    .collect()
}
