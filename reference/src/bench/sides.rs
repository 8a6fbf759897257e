//! The two sides that are timed: the library and the plain Rust form.

use crate::board;
use crate::calls::{Call, Request};
use crate::fast;
use crate::index::{Index, ALL_UNUSED};

/// What a call writes beside the store and the destination.
#[derive(PartialEq)]
pub struct Output {
    pub words: [u32; 16],
    pub index: Index,
}

impl Output {
    pub fn new() -> Output {
        Output {
            words: [0; 16],
            index: ALL_UNUSED,
        }
    }
}

/// Runs a call on one of the two sides.
macro_rules! side {
    ($name:ident, $form:ident) => {
        pub fn $name(call: &mut Call, output: &mut Output) -> u32 {
            let words = &mut output.words;
            match call.request {
                Request::Update {
                    function,
                    sub_function,
                    task,
                    block,
                    read_back,
                } => $form::call(
                    function,
                    sub_function,
                    task,
                    block,
                    call.loading,
                    &mut call.store,
                    &call.signatures,
                    &call.platforms,
                    &call.candidate,
                    read_back,
                    &mut call.destination,
                    words,
                ),
                Request::Load {
                    signature,
                    platform,
                } => $form::load(call.loading, &call.store, signature, platform, words),
                Request::Index => $form::index(&call.store, &mut output.index, words),
                Request::IndexAfter {
                    ref old,
                    emptied,
                    start,
                    revision,
                    size,
                } => {
                    let index = &mut output.index;
                    $form::index_after(old, emptied, start, revision, size, index, words)
                }
                Request::ReadIndexed { ref index, block } => {
                    $form::read_indexed(index, block, &call.store, &mut call.destination, words)
                }
                Request::LoadIndexed {
                    ref index,
                    signature,
                    platform,
                } => {
                    let store = &call.store;
                    $form::load_indexed(call.loading, index, store, signature, platform, words)
                }
            }
        }
    };
}

side!(library, board);
side!(rust, fast);

/// No call at all: what is left is the copy that puts the store back.
pub fn nothing(_: &mut Call, _: &mut Output) -> u32 {
    0
}
