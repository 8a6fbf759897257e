//! Document 01, "Easy errors": none of them is made.

use super::{refused, verdict, write, written};
use crate::calls::{Call, Request};
use crate::edges::base;
use crate::make::{self, p, Recipe};
use crate::model;
use crate::store::Store;
use crate::update::sizes;

#[test]
fn an_unknown_control_task_turns_nothing_on() {
    for task in [0, 3, 4, 0x101, 0x102, 0x8000_0001, 0xFFFF_FFFF] {
        for loading in [false, true] {
            let call = Call {
                loading,
                ..base(Request::control(task))
            };
            refused(&call, &model::answer(&call), 0x8600, 0xFF);
        }
    }
}

#[test]
fn a_processor_of_a_table_entry_is_not_covered_twice() {
    // Two stored updates that share by an entry of one, and by entries of both.
    let entry = Recipe::new(7, &[(0x700, 1), (0x650, 4)], 2048).build();
    let entries = Recipe::new(7, &[(0x701, 1), (0x702, 1), (0x650, 6)], 2048).build();
    for (one, two) in [(&p(7), &entry), (&entry, &p(7)), (&entry, &entries)] {
        assert!(Store::parse(&make::store(2, &[(0, one), (1, two)])).is_none());
    }
    // A write of one beside the other empties it.
    for (stored, candidate) in [(p(6), &entry), (p(6), &entries)] {
        let store = make::store(3, &[(2, &stored)]);
        let list = [(0x700, 0), (0x701, 0)];
        assert_eq!(written(&store, &list, candidate), (0, 1));
    }
}

#[test]
fn sharing_updates_are_emptied_wherever_they_lie() {
    let one = Recipe::new(1, &[(0x700, 1), (0x701, 1)], 4096).build();
    let two = Recipe::new(1, &[(0x702, 1), (0x703, 1)], 2048).build();
    let stale = Recipe::short(1, 0x900, 1).build();
    let store = make::store(6, &[(1, &one), (4, &stale), (5, &two)]);
    let pairs = [(0x650, 1), (0x701, 1), (0x703, 1)];
    let candidate = Recipe::new(8, &pairs, 1024).build();
    let answer = write(&store, &[(0x650, 0)], &candidate);
    assert_eq!(answer.words[5..8], [0, 2, 0b10_0110]);
    assert!(answer.store == make::store(6, &[(0, &candidate), (4, &stale)]));
}

#[test]
fn updates_lost_are_counted_and_not_blocks() {
    let stale = |signature, total| Recipe::new(1, &[(signature, 1)], total).build();
    let (a, b, two) = (stale(0x700, 2048), stale(0x701, 2048), stale(0x702, 4096));
    let candidate = Recipe::new(8, &[(0x650, 2)], 4096).build();
    // Two updates of one block each, or one of two blocks.
    let store = make::store(4, &[(0, &a), (1, &b), (2, &two)]);
    assert_eq!(written(&store, &[(0x650, 1)], &candidate), (2, 1));
}

#[test]
fn a_huge_data_size_does_not_look_small() {
    for n in 0..=64u32 {
        let table = if n == 0 { 0 } else { 20 + 12 * n };
        assert_eq!(sizes(0u32.wrapping_sub(48 + table), 0), None);
    }
    assert_eq!(sizes(0xFFFF_FFFC, 1024), None);
    let mut recipe = Recipe::new(1, &[(0x650, 2)], 2048);
    recipe.data_field = 0xFFFF_FFD0;
    recipe.total_field = 0;
    assert_eq!(verdict(&recipe.build()), 0x9500);
}
