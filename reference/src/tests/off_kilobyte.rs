//! Tests of updates with a table, whose T needs only be a multiple of 4.

use super::{ask, index_of, verdict, write, written};
use crate::calls::{Request, BLOCK, PRESENCE};
use crate::catalogue::catalogue;
use crate::make::{self, p, Recipe};
use crate::store::Store;
use crate::update::{sizes, Sizes, Update};

/// An update for (650h, 1) with so many entries.
fn tabled(revision: u32, entries: usize, total: usize) -> Recipe {
    let mut pairs = vec![(0x650, 2)];
    pairs.resize(entries + 1, (0x651, 2));
    Recipe::new(revision, &pairs, total)
}

/// With one entry: T, D and the blocks taken, of the least, both sides of 2,048, and
/// the greatest.
const ONE_ENTRY: [(usize, u64, usize); 6] = [
    (84, 4, 1),
    (2044, 1964, 1),
    (2048, 1968, 1),
    (2052, 1972, 2),
    (32_764, 32_684, 16),
    (32_768, 32_688, 16),
];

#[test]
fn one_entry() {
    for (total, data, blocks) in ONE_ENTRY {
        let good = Sizes {
            data,
            total: total as u64,
            entries: 1,
        };
        assert_eq!(sizes(data as u32, total as u32), Some(good));
        let candidate = tabled(8, 1, total).build();
        let update = Update::parse(&candidate).unwrap();
        assert_eq!((update.sizes, update.blocks()), (good, blocks));
        assert!(update.covers((0x650, 1)) && update.covers((0x651, 1)));
        assert_eq!(verdict(&candidate), 0);
        assert_eq!(verdict(&candidate[..total - 1]), 0x9500);
    }
}

#[test]
fn without_a_table_only_the_kilobyte() {
    for total in [52, 80, 84, 1020, 1028, 2044, 2052, 32_764] {
        assert_eq!(sizes(total - 48, total), None);
        let candidate = Recipe::new(8, &[(0x650, 2)], total as usize).build();
        assert_eq!(verdict(&candidate), 0x9500, "{total}");
    }
    assert_eq!(verdict(&Recipe::new(8, &[(0x650, 2)], 1024).build()), 0);
}

#[test]
fn more_than_32768_bytes() {
    for entries in [1, 64] {
        let table = 20 + 12 * entries as u32;
        assert_eq!(sizes(32_772 - 48 - table, 32_772), None);
        assert_eq!(verdict(&tabled(8, entries, 32_768).build()), 0);
        assert_eq!(verdict(&tabled(8, entries, 32_772).build()), 0x9500);
    }
}

#[test]
fn no_multiple_of_4() {
    for total in [81, 82, 83, 2045, 2046, 2047, 2049] {
        assert_eq!(sizes(total - 80, total), None);
        assert_eq!(verdict(&tabled(8, 1, total as usize).build()), 0x9500);
    }
    // T alone, and D alone.
    assert_eq!(sizes(1964, 2046), None);
    assert_eq!(sizes(1966, 2044), None);
}

#[test]
fn data_size_0_is_no_table_behind_empty_data() {
    let mut candidate = tabled(8, 1, 80).build();
    assert_eq!(verdict(&candidate), 0x9500);
    candidate.resize(2048, 0);
    let update = Update::parse(&candidate).unwrap();
    assert_eq!((update.sizes.total, update.sizes.entries), (2048, 0));
    assert!(!update.covers((0x651, 1)));
}

#[test]
fn tables_of_64_entries() {
    assert_eq!(verdict(&tabled(8, 64, 840).build()), 0);
    assert_eq!(verdict(&tabled(8, 64, 2052).build()), 0);
    assert_eq!(verdict(&tabled(8, 65, 852).build()), 0x9500);
    assert_eq!(verdict(&tabled(8, 65, 2052).build()), 0x9500);
}

#[test]
fn the_count_field_and_each_sum() {
    for total in [84, 2044, 2052] {
        let recipe = tabled(8, 1, total);
        let mut count = recipe.clone();
        count.count = 2;
        assert_eq!(verdict(&count.build()), 0x9500);
        let mut sums = [(); 3].map(|()| recipe.clone());
        sums[0].wrong.total = 1;
        sums[1].wrong.table = 1;
        sums[2].wrong.entry = Some((0, 1));
        for recipe in sums {
            assert_eq!(verdict(&recipe.build()), 0x9600);
        }
    }
}

/// The write puts the T bytes down and FFh behind them, and the read gives both back.
#[test]
fn written_and_read_back() {
    for (total, _, width) in ONE_ENTRY {
        let candidate = tabled(8, 1, total).build();
        let blocks = width + 1;
        let mut stale = make::unused(blocks);
        for block in 0..blocks {
            let update = Recipe::short(1, 0x700 + block as u32, 1).build();
            make::place(&mut stale, block, &update);
        }
        for (store, emptied) in [(make::unused(blocks), 0), (stale, width)] {
            let listed = [(0x650, 1)];
            assert_eq!(written(&store, &listed, &candidate), (0, emptied as u32));
            let after = write(&store, &listed, &candidate).store;
            assert!(after[..total] == candidate);
            assert!(after[total..width * BLOCK].iter().all(|&byte| byte == 0xFF));
            assert!(after[width * BLOCK..] == store[width * BLOCK..]);
            let index = index_of(&after);
            assert_eq!((index[0], index[64], index[96]), (1, 8, width as u32));
            if width <= 4 {
                let read = ask(&after, Request::read(0));
                assert_eq!((read.ax, read.words[5]), (0, width as u32));
                let (copied, behind) = read.destination.split_at(width * BLOCK);
                assert!(*copied == after[..width * BLOCK]);
                assert!(behind.iter().all(|&byte| byte == 0xA5));
            }
        }
    }
}

#[test]
fn t_2052_takes_two_blocks_and_leaves_ffh_to_byte_4095() {
    let candidate = tabled(8, 1, 2052).build();
    let answer = write(&make::store(2, &[(1, &p(7))]), &[(0x650, 1)], &candidate);
    assert_eq!((answer.ax, &answer.words[5..8]), (0, &[0, 1, 0b10][..]));
    assert!(answer.store[..2052] == candidate);
    assert_eq!(answer.store[2052..], [0xFF; 2044]);
    assert_eq!(
        catalogue(&answer.store),
        "blocks 2\n0 2 00000008 1 1\nfree 0\n"
    );
    assert_eq!(ask(&answer.store, Request::read(1)).ax, 0x9A00);
    let load = Request::Load {
        signature: 0x651,
        platform: 1,
    };
    assert_eq!(ask(&answer.store, load).words[4], 1);
    // One block is not enough.
    let one = make::store(1, &[(0, &p(7))]);
    assert_eq!(write(&one, &[(0x650, 1)], &candidate).ax, 0x9305);
}

/// A byte behind T that isn't FFh makes the store bad, wherever it stands.
#[test]
fn a_rest_that_begins_late_is_a_bad_store() {
    for (total, _, width) in ONE_ENTRY {
        let store = make::store(width + 1, &[(0, &tabled(7, 1, total).build())]);
        assert_eq!(ask(&store, Request::update(PRESENCE)).ax, 0);
        for at in total..width * BLOCK {
            let mut late = store.clone();
            late[at] = 0xFE;
            assert!(Store::parse(&late).is_none(), "byte {at} behind {total}");
            if at == total {
                assert_eq!(ask(&late, Request::update(PRESENCE)).ax, 0x9201);
            }
        }
    }
}

#[test]
fn stored_without_a_table_or_cut_off() {
    for total in [1028, 2044, 2052] {
        let update = Recipe::new(7, &[(0x650, 2)], total).build();
        assert!(Store::parse(&make::store(2, &[(0, &update)])).is_none());
    }
    let two = make::store(2, &[(0, &tabled(7, 1, 2052).build())]);
    assert!(Store::parse(&two).is_some());
    assert!(Store::parse(&two[..BLOCK]).is_none());
}
