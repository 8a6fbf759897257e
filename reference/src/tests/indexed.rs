//! Tests of the read and the load choice through an index.

use super::{ask, index_of, refused, write};
use crate::calls::{Answer, Call, Request, BLOCK};
use crate::edges::base;
use crate::generate::{Generator, Style};
use crate::index::{built, Index, ALL_UNUSED};
use crate::make::{self, p};
use crate::model;
use crate::store::Store;

/// What a read and a load through an index answer, on one store.
fn through(store: &[u8], index: Index) -> (Answer, Answer) {
    let load = Request::LoadIndexed {
        index,
        signature: 0x650,
        platform: 2,
    };
    let read = Request::ReadIndexed { index, block: 1 };
    (ask(store, read), ask(store, load))
}

#[test]
fn the_own_index_answers_as_none_does() {
    let store = make::store(4, &[(1, &p(7))]);
    let (read, load) = through(&store, index_of(&store));
    let mut words = [0; 16];
    // The read takes no loading state, and so gives none.
    words[4..6].copy_from_slice(&[3, 1]);
    assert_eq!((read.ax, read.words), (0, words));
    assert!(read.destination[..BLOCK] == p(7));
    assert!(read.destination[BLOCK..].iter().all(|&byte| byte == 0xA5));
    words[3..9].copy_from_slice(&[1, 1, 1, 7, 2096, 2000]);
    assert_eq!((load.ax, load.words), (0, words));
}

#[test]
fn any_other_number_makes_an_index_not_the_stores_own() {
    let store = make::store(4, &[(1, &p(7))]);
    let mut index = index_of(&store);
    for place in 0..128 {
        for change in [1, 2, 3, 0x8000_0000] {
            index[place] ^= change;
            let (read, load) = through(&store, index);
            index[place] ^= change;
            let mut words = [0; 16];
            words[..5].copy_from_slice(&[0x92, 1, 1, 0, 4]);
            assert_eq!((read.ax, read.words), (0x9201, words), "place {place}");
            assert!(read.destination.iter().all(|&byte| byte == 0xA5));
            words[3..5].copy_from_slice(&[1, 2]);
            assert_eq!((load.ax, load.words), (0x9201, words), "place {place}");
        }
    }
    // The index before a write is not the one after it.
    let after = write(&store, &[(0x650, 1)], &p(8)).store;
    assert_eq!(through(&after, index).0.ax, 0x9201);
    assert_eq!(through(&after, index_of(&after)).1.ax, 0);
}

#[test]
fn the_index_is_judged_right_after_the_store() {
    let store = make::store(4, &[(1, &p(7))]);
    let own = index_of(&store);
    let read = |store: &[u8], index, block, length| {
        let call = Call {
            store: store.to_vec(),
            destination: vec![0xA5; length],
            ..base(Request::ReadIndexed { index, block })
        };
        let answer = model::answer(&call);
        if answer.ax != 0 {
            refused(&call, &answer, answer.ax, 0);
        }
        answer.ax
    };
    assert_eq!(read(&[], ALL_UNUSED, 4, 0), 0x9201);
    assert_eq!(read(&store, ALL_UNUSED, 4, 0), 0x9201);
    assert_eq!(read(&store, own, 4, 0), 0x9900);
    assert_eq!(read(&store, own, 3, 2047), 0x9203);
    let load = |store: &[u8], index, platform| {
        let request = Request::LoadIndexed {
            index,
            signature: 0x650,
            platform,
        };
        ask(store, request).ax
    };
    assert_eq!(load(&[], ALL_UNUSED, 8), 0x9201);
    assert_eq!(load(&store, ALL_UNUSED, 8), 0x9201);
    assert_eq!(load(&store, own, 8), 0x9202);
}

#[test]
fn random_calls_through_the_own_index_answer_as_those_without() {
    let mut generator = Generator::new(9, Style::Wide);
    let mut compared = [0; 3];
    for _ in 0..20_000 {
        let call = generator.draw();
        let answer = model::answer(call);
        let plain = match call.request {
            Request::ReadIndexed { block, .. } => Some(Request::read(block)),
            Request::LoadIndexed {
                signature,
                platform,
                ..
            } => Some(Request::Load {
                signature,
                platform,
            }),
            _ => None,
        };
        if let (Some(request), Some(store)) = (plain, Store::parse(&call.store)) {
            let plain = model::answer(&Call {
                request,
                loading: call.loading && call.request.takes_loading(),
                ..call.clone()
            });
            let own = call.request.index() == Some(&built(&store));
            if own {
                assert_eq!((plain.ax, plain.words), (answer.ax, answer.words));
                assert!(plain.destination == answer.destination);
            } else {
                assert_eq!(answer.ax, 0x9201);
            }
            compared[usize::from(own)] += 1;
            compared[2] += usize::from(own && plain.ax == 0);
        }
        generator.answered(answer);
    }
    assert!(compared.iter().all(|&count| count > 500), "{compared:?}");
}
