//! Tests of the write: its processor list, the order of its checks, and revisions.

use super::{refused, write};
use crate::calls::{Call, Request, BLOCK};
use crate::edges::{base, writing};
use crate::make::{self, p, Recipe};
use crate::model;

#[test]
fn processor_lists() {
    let store = make::unused(1);
    let ax = |count, platform| write(&store, &vec![(0x650, platform); count], &p(8)).ax;
    assert_eq!(ax(0, 1), 0x9202);
    assert_eq!(ax(1, 1), 0);
    assert_eq!(ax(8, 1), 0);
    assert_eq!(ax(9, 1), 0x9202);
    assert_eq!(ax(1, 7), 0x9400);
    assert_eq!(ax(1, 8), 0x9202);
    let call = Call {
        platforms: vec![1, 1],
        ..base(Request::write(8))
    };
    refused(&call, &model::answer(&call), 0x9202, 0);
    let late = [(0x650, 1), (0x650, 1), (0x999, 8)];
    assert_eq!(write(&store, &late, &p(8)).ax, 0x9202);
    assert_eq!(write(&[], &[], &[]).ax, 0x9201);
    assert_eq!(write(&store, &[], &[]).ax, 0x9202);
}

/// A write with everything wrong, mended check by check: each refusal comes although
/// all later checks would refuse too.
#[test]
fn the_checks_come_in_document_01s_order() {
    let (a, b) = ((0xA00, 0), (0xB00, 0));
    let needed = Recipe::new(5, &[(0xA00, 1), (0xB00, 1)], 2048).build();
    let equal = Recipe::short(8, 0xD00, 1).build();
    let mut recipe = Recipe::new(8, &[(0xA00, 1), (0xD00, 1)], 6144);
    recipe.version = 2;
    recipe.total_field = 6145;
    recipe.wrong.total = 1;
    let mut call = Call {
        request: Request::write(7),
        ..writing(&[0; 2048], &[], &recipe.build())
    };
    let refuses = |call: &Call, ax| refused(call, &model::answer(call), ax, 0);
    refuses(&call, 0x9201);
    call.store = [&needed[..], &equal].concat();
    refuses(&call, 0x9202);
    // Neither of these two is covered.
    call.signatures = vec![0xA01, 0xB00];
    call.platforms = vec![0, 0];
    refuses(&call, 0x9500);
    recipe.version = 1;
    call.candidate = recipe.build();
    refuses(&call, 0x9500);
    recipe.total_field = 6144;
    call.candidate = recipe.build();
    refuses(&call, 0x9600);
    recipe.wrong.total = 0;
    call.candidate = recipe.build();
    refuses(&call, 0x9400);
    call.signatures = vec![a.0, b.0];
    refuses(&call, 0x9800);
    call.candidate = Recipe {
        revision: 9,
        ..recipe
    }
    .build();
    refuses(&call, 0x9304);
    call.signatures = vec![a.0, a.0];
    refuses(&call, 0x9305);
    call.store.resize(3 * BLOCK, 0xFF);
    refuses(&call, 0x9700);
    call.request = Request::write(9);
    let answer = model::answer(&call);
    assert_eq!((answer.ax, &answer.words[5..8]), (0, &[0, 2, 0b11][..]));
    assert!(answer.store == call.candidate);
}

/// 98 is judged over all that share before 93, AL 4, is judged over any.
#[test]
fn an_equal_revision_comes_before_a_needed_update() {
    let list = [(0xA00, 0), (0xB00, 0)];
    let candidate = Recipe::new(8, &[(0xA00, 1), (0xD00, 1)], 2048).build();
    let needed = Recipe::new(5, &[(0xA00, 1), (0xB00, 1)], 2048).build();
    for (revision, ax) in [(7, 0x9304), (8, 0x9800), (9, 0x9800)] {
        let other = Recipe::short(revision, 0xD00, 1).build();
        for (one, two) in [(&needed, &other), (&other, &needed)] {
            let store = make::store(2, &[(0, one), (1, two)]);
            assert_eq!(write(&store, &list, &candidate).ax, ax);
        }
    }
}

#[test]
fn revisions_compare_unsigned() {
    for (old, new, ax) in [
        (0x7FFF_FFFF, 0x8000_0000, 0),
        (0x8000_0000, 0x7FFF_FFFF, 0x9800),
        (0xFFFF_FFFF, 0xFFFF_FFFF, 0x9800),
        (0, 0, 0x9800),
        (0, 1, 0),
    ] {
        let store = make::store(1, &[(0, &p(old))]);
        assert_eq!(write(&store, &[(0x650, 1)], &p(new)).ax, ax);
    }
    // The sharing update need not cover a listed processor.
    let store = make::store(2, &[(0, &p(9))]);
    let candidate = Recipe::new(8, &[(0x700, 1), (0x650, 4)], 2048).build();
    assert_eq!(write(&store, &[(0x700, 0)], &candidate).ax, 0x9800);
}
