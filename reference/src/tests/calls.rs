//! Tests of the calls that change no store: unknown ones, control, presence, read, and
//! the load choice.

use super::refused;
use crate::calls::{Call, Request, BLOCK, FUNCTION, PRESENCE};
use crate::edges::base;
use crate::make::{self, p, Recipe};
use crate::model;

#[test]
fn unknown_calls_do_nothing() {
    for (function, sub_function) in [
        (0x1D042, 0),
        (0, 1),
        (FUNCTION, 4),
        (FUNCTION, 0x100),
        (FUNCTION, 0x10001),
        (FUNCTION, u32::MAX),
    ] {
        for loading in [false, true] {
            let call = Call {
                loading,
                ..base(Request::Update {
                    function,
                    sub_function,
                    task: 1,
                    block: 0,
                    read_back: 8,
                })
            };
            refused(&call, &model::answer(&call), 0x8600, 0);
        }
    }
    // A wrong function with sub-function 2 and a bad task has status 0.
    let call = base(Request::Update {
        function: 0xD043,
        sub_function: 2,
        task: 9,
        block: 0,
        read_back: 0,
    });
    refused(&call, &model::answer(&call), 0x8600, 0);
}

#[test]
fn control_never_looks_at_the_store() {
    for store in [Vec::new(), vec![0; 5], make::unused(1)] {
        for (task, loading, after) in [(1, false, 1), (1, true, 1), (2, false, 0), (2, true, 1)] {
            let call = Call {
                loading,
                store: store.clone(),
                ..base(Request::control(task))
            };
            let answer = model::answer(&call);
            assert_eq!(answer.ax, 0);
            assert_eq!(answer.words[..6], [0, 0, 0, after, 2, after]);
            assert_eq!(answer.words[6..], [0; 10]);
        }
        for task in [0, 3, 0x101, 0xFFFF_FFFF] {
            let call = Call {
                store: store.clone(),
                ..base(Request::control(task))
            };
            refused(&call, &model::answer(&call), 0x8600, 0xFF);
        }
    }
}

#[test]
fn presence_gives_letters_version_and_blocks() {
    for blocks in [1, 32] {
        let answer = model::answer(&Call {
            loading: true,
            store: make::unused(blocks),
            ..base(Request::update(PRESENCE))
        });
        let n = blocks as u32;
        let words = [
            0, 0, 0, 1, 0, 0x49, 0x4E, 0x54, 0x45, 0x4C, 0x50, 0x45, 0x50, 1, n, 0,
        ];
        assert_eq!((answer.ax, answer.words), (0, words));
    }
    for length in [0, 1, 2047, 2049, 33 * 2048] {
        let call = Call {
            store: vec![0xFF; length],
            ..base(Request::update(PRESENCE))
        };
        refused(&call, &model::answer(&call), 0x9201, 0);
    }
}

#[test]
fn reads() {
    let three = Recipe::new(3, &[(0x700, 1)], 5120).build();
    let store = make::store(6, &[(0, &p(7)), (2, &three)]);
    let read = |block, length| {
        let call = Call {
            store: store.clone(),
            destination: vec![0xA5; length],
            ..base(Request::read(block))
        };
        let answer = model::answer(&call);
        if answer.ax != 0 {
            refused(&call, &answer, answer.ax, 0);
        } else {
            let count = answer.words[5] as usize * BLOCK;
            let from = block as usize * BLOCK;
            assert_eq!(answer.destination[..count], store[from..from + count]);
            assert!(answer.destination[count..].iter().all(|&byte| byte == 0xA5));
            assert_eq!(answer.words[4], 3);
            assert_eq!(answer.words[6..], [0; 10]);
        }
        (answer.ax, answer.words[5])
    };
    assert_eq!(read(0, 2048), (0, 1));
    assert_eq!(read(1, 2048), (0, 1));
    assert_eq!(read(1, 2047), (0x9203, 0));
    assert_eq!(read(2, 6144), (0, 3));
    assert_eq!(read(2, 6143), (0x9203, 0));
    assert_eq!(read(2, 9000), (0, 3));
    assert_eq!(read(3, 0), (0x9A00, 0));
    assert_eq!(read(4, 6144), (0x9A00, 0));
    assert_eq!(read(5, 2048), (0, 1));
    assert_eq!(read(6, 2048), (0x9900, 0));
    assert_eq!(read(6, 0), (0x9900, 0));
    assert_eq!(read(u32::MAX, 2048), (0x9900, 0));
}

#[test]
fn load_choices() {
    let table = Recipe::new(9, &[(0x700, 0), (0x701, 0x80)], 3072).build();
    let store = make::store(4, &[(0, &p(7)), (2, &table)]);
    let load = |store: &[u8], loading, signature, platform| {
        let call = Call {
            loading,
            store: store.to_vec(),
            ..base(Request::Load {
                signature,
                platform,
            })
        };
        let answer = model::answer(&call);
        assert_eq!(answer.words[3], u32::from(loading));
        assert_eq!(answer.words[9..], [0; 7]);
        assert_eq!(answer.words[2], u32::from(answer.ax != 0));
        assert_eq!(answer.ax, answer.words[0] * 256 + answer.words[1]);
        let mut numbers = [0; 5];
        numbers.copy_from_slice(&answer.words[4..9]);
        (answer.ax, numbers)
    };
    assert_eq!(load(&store, true, 0x650, 2), (0, [1, 0, 7, 48, 2000]));
    let data = 3072 - 48 - 32;
    assert_eq!(load(&store, true, 0x701, 7), (0, [1, 2, 9, 4144, data]));
    assert_eq!(load(&store, true, 0x700, 0), (0, [0; 5]));
    assert_eq!(load(&store, true, 0x650, 0), (0, [0; 5]));
    assert_eq!(load(&store, false, 0x650, 2), (0, [0; 5]));
    assert_eq!(load(&store, false, 0x650, 8), (0x9202, [2, 0, 0, 0, 0]));
    assert_eq!(load(&store, true, 0x650, 257), (0x9202, [2, 0, 0, 0, 0]));
    assert_eq!(load(&[], true, 0x650, 8), (0x9201, [2, 0, 0, 0, 0]));
    assert_eq!(load(&[0; 2048], false, 0x650, 1), (0x9201, [2, 0, 0, 0, 0]));
}
