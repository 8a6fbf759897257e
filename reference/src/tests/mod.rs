//! Tests of the model, of the plain form beside it, of the vectors and of the random calls.

mod calls;
mod easy_errors;
mod examples;
mod index;
mod indexed;
mod off_kilobyte;
mod outcomes;
mod plain_form;
mod random_calls;
mod replay;
mod stores;
mod sums;
mod updates;
mod vectors;
mod writes;

use crate::calls::{Answer, Call, Request, BLOCK};
use crate::edges::{base, writing};
use crate::index::Index;
use crate::make;
use crate::model;
use crate::store::Store;
use crate::update::number;
use std::fs;
use std::path::Path;

/// What a candidate alone gets, in unused blocks with (650h, 1) listed.
fn verdict(candidate: &[u8]) -> u32 {
    model::answer(&writing(&make::unused(16), &[(0x650, 1)], candidate)).ax
}

/// The answer to a write with the right read-back.
fn write(store: &[u8], listed: &[(u32, u8)], candidate: &[u8]) -> Answer {
    let call = writing(store, listed, candidate);
    let answer = model::answer(&call);
    if answer.ax != 0 {
        refused(&call, &answer, answer.ax, 0);
    }
    answer
}

/// Start block and emptied count of an accepted write.
fn written(store: &[u8], listed: &[(u32, u8)], candidate: &[u8]) -> (u32, u32) {
    let answer = write(store, listed, candidate);
    assert_eq!(answer.ax, 0);
    assert_eq!(answer.words[..5], [0, 0, 0, 0, 1]);
    assert_eq!(answer.words[8..], [0; 8]);
    let after = Store::parse(&answer.store).expect("an accepted write leaves a valid store");
    let start = answer.words[5] as usize;
    let held = after.held.iter().find(|held| held.first == start);
    assert_eq!(held.unwrap().update.revision, number(candidate, 4));
    (answer.words[5], answer.words[6])
}

/// The answer to a request on a store, with loading on and 4 blocks of destination.
fn ask(store: &[u8], request: Request) -> Answer {
    let call = Call {
        loading: true,
        store: store.to_vec(),
        destination: vec![0xA5; 4 * BLOCK],
        ..base(request)
    };
    let answer = model::answer(&call);
    assert!(answer.store == store);
    answer
}

/// The index that a valid store gives.
fn index_of(store: &[u8]) -> Index {
    let answer = ask(store, Request::Index);
    assert_eq!((answer.ax, answer.words), (0, [0; 16]));
    answer.index.expect("the function makes an index")
}

/// A refusal has nothing but its codes, and changes nothing.
fn refused(call: &Call, answer: &Answer, ax: u32, status: u32) {
    let mut words = [0; 16];
    words[0] = ax >> 8;
    words[1] = ax & 0xFF;
    words[2] = 1;
    words[3] = u32::from(call.loading && call.request.takes_loading());
    words[4] = 4;
    words[5] = status;
    assert_eq!((answer.ax, answer.words), (ax, words));
    assert!(answer.store == call.store && answer.destination == call.destination);
}

/// A file that one of the proved programs reads, or that it has to write.
fn published(program: &str, name: &str) -> Vec<u8> {
    let crates = Path::new(env!("CARGO_MANIFEST_DIR")).join("../crates");
    let path = crates.join(program).join(name);
    fs::read(&path).unwrap_or_else(|error| panic!("{}: {error}", path.display()))
}
