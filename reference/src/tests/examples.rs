//! Document 01, "Examples at the edges", all of them and in its order.

use super::{verdict, write, written};
use crate::catalogue::catalogue;
use crate::make::{self, p, Recipe};
use crate::store::Store;
use crate::update::{sizes, Sizes, Update};

/// P, field by field as document 01 gives it, with a revision and a checksum.
fn p_by_fields(revision: u32, checksum: u32) -> Vec<u8> {
    let mut bytes = vec![0; 2048];
    for (at, field) in [
        (0, 1),
        (4, revision),
        (8, 0x0718_1998),
        (12, 0x0000_0650),
        (16, checksum),
        (20, 1),
        (24, 0x06),
    ] {
        bytes[at..at + 4].copy_from_slice(&u32::to_le_bytes(field));
    }
    bytes
}

#[test]
fn p_is_valid_with_its_checksum_only() {
    assert_eq!(verdict(&p_by_fields(7, 0xF8E7_E009)), 0);
    assert_eq!(verdict(&p_by_fields(7, 0xF8E7_E00A)), 0x9600);
    assert_eq!(verdict(&p_by_fields(8, 0xF8E7_E008)), 0);
    assert_eq!(verdict(&p_by_fields(8, 0xF8E7_E009)), 0x9600);
    assert!(p(7) == p_by_fields(7, 0xF8E7_E009));
    assert!(p(8) == p_by_fields(8, 0xF8E7_E008));
}

#[test]
fn p_covers_two_processors() {
    let update = Update::parse(&p(7)).unwrap();
    assert!(update.covers((0x650, 1)) && update.covers((0x650, 2)));
    assert!(!update.covers((0x650, 0)));
    assert_eq!(update.covered.len(), 2);
}

/// What becomes of an update with these size fields and a table of n entries: the
/// blocks that it takes once it is written, or AX of the refusal.
fn blocks_taken(data: u32, total: u32, n: usize) -> Result<usize, u32> {
    let mut recipe = Recipe::new(1, &vec![(0x650, 2); n + 1], total as usize);
    recipe.data_field = data;
    let answer = write(&make::unused(16), &[(0x650, 1)], &recipe.build());
    if answer.ax != 0 {
        return Err(answer.ax);
    }
    Ok(Store::parse(&answer.store).unwrap().held[0].blocks)
}

fn good(data: u64, total: u64, entries: u64) -> Option<Sizes> {
    Some(Sizes {
        data,
        total,
        entries,
    })
}

#[test]
fn sizes_with_and_without_a_table() {
    assert_eq!(sizes(976, 1024), good(976, 1024, 0));
    assert_eq!(sizes(1968, 2048), good(1968, 2048, 1));
    assert_eq!(sizes(1212, 2048), good(1212, 2048, 64));
    assert_eq!(sizes(1200, 2048), None);
    assert_eq!(blocks_taken(976, 1024, 0), Ok(1));
    assert_eq!(blocks_taken(1968, 2048, 1), Ok(1));
    assert_eq!(blocks_taken(1212, 2048, 64), Ok(1));
    assert_eq!(blocks_taken(1200, 2048, 65), Err(0x9500));
}

#[test]
fn twelve_bytes_are_no_table_and_32768_bytes_are_the_most() {
    assert_eq!(sizes(964, 1024), None);
    assert_eq!(sizes(32_720, 32_768), good(32_720, 32_768, 0));
    assert_eq!(sizes(33_744, 33_792), None);
    assert_eq!(blocks_taken(964, 1024, 0), Err(0x9500));
    assert_eq!(blocks_taken(32_720, 32_768, 0), Ok(16));
    assert_eq!(blocks_taken(33_744, 33_792, 0), Err(0x9500));
}

#[test]
fn catalogue_of_p_in_block_1_of_four() {
    let store = make::store(4, &[(1, &p(7))]);
    assert_eq!(catalogue(&store), "blocks 4\n1 1 00000007 2 1\nfree 3\n");
}

#[test]
fn p_written_again_and_with_revision_8() {
    let store = make::store(4, &[(1, &p(7))]);
    assert_eq!(write(&store, &[(0x650, 1)], &p(7)).ax, 0x9800);
    assert_eq!(written(&store, &[(0x650, 1)], &p(8)), (0, 1));
    let after = write(&store, &[(0x650, 1)], &p(8)).store;
    assert!(after == make::store(4, &[(0, &p(8))]));
}

/// A candidate of two blocks for (650h, 1).
fn two_wanted() -> Vec<u8> {
    Recipe::new(8, &[(0x650, 2)], 4096).build()
}

/// An update for one other processor.
fn other(signature: u32, total: usize) -> Vec<u8> {
    Recipe::new(1, &[(signature, 1)], total).build()
}

#[test]
fn stale_and_three_unused() {
    let stale = other(0x700, 2048);
    let store = make::store(4, &[(0, &stale)]);
    assert_eq!(written(&store, &[(0x650, 1)], &two_wanted()), (1, 0));
    let after = write(&store, &[(0x650, 1)], &two_wanted()).store;
    assert!(after == make::store(4, &[(0, &stale), (1, &two_wanted())]));
}

#[test]
fn stale_of_two_then_stale_of_one_then_unused() {
    let (two, one) = (other(0x700, 4096), other(0x701, 2048));
    let store = make::store(4, &[(0, &two), (2, &one)]);
    assert_eq!(written(&store, &[(0x650, 1)], &two_wanted()), (0, 1));
    let after = write(&store, &[(0x650, 1)], &two_wanted()).store;
    assert!(after == make::store(4, &[(0, &two_wanted()), (2, &one)]));
}

#[test]
fn needed_stale_needed_stale() {
    let updates = [0x800, 0x700, 0x801, 0x701].map(|signature| other(signature, 2048));
    let store = updates.concat();
    let needed = [(0x650, 1), (0x800, 0), (0x801, 0)];
    assert_eq!(write(&store, &needed, &two_wanted()).ax, 0x9305);
}

#[test]
fn stored_e_covers_a_and_b() {
    let (a, b) = ((0xA00, 0), (0xB00, 0));
    let e = Recipe::new(5, &[(0xA00, 1), (0xB00, 1)], 2048).build();
    let candidate = Recipe::short(6, 0xA00, 1).build();
    for blocks in [1, 3] {
        let store = make::store(blocks, &[(blocks - 1, &e)]);
        assert_eq!(write(&store, &[a, b], &candidate).ax, 0x9304);
        assert_eq!(written(&store, &[a], &candidate), (0, 1));
        let after = write(&store, &[a], &candidate).store;
        assert!(after == make::store(blocks, &[(0, &candidate)]));
    }
}
