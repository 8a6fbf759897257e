//! Tests of a store: good ones, bad ones, and their catalogues.

use super::published;
use crate::calls::BLOCK;
use crate::catalogue::catalogue;
use crate::make::{self, p, Recipe};
use crate::store::Store;

#[test]
fn data_may_look_like_unused_blocks_or_updates() {
    let mut unused = Recipe::new(7, &[(0x650, 2)], 6144);
    unused.data = vec![0xFF];
    let mut update = Recipe::new(7, &[(0x650, 2)], 4096);
    update.data = vec![0; BLOCK - 48];
    update.data.extend(p(7));
    for recipe in [unused, update] {
        let bytes = recipe.build();
        let store = Store::parse(&make::store(4, &[(0, &bytes)])).unwrap();
        assert_eq!(store.held.len(), 1);
        assert_eq!(store.held[0].blocks, bytes.len() / BLOCK);
    }
}

#[test]
fn bad_stores() {
    let half = Recipe::new(7, &[(0x650, 2)], 1024).build();
    assert!(Store::parse(&make::store(1, &[(0, &half)])).is_some());
    for at in [1024, 2047] {
        let mut store = make::store(1, &[(0, &half)]);
        store[at] = 0xFE;
        assert!(Store::parse(&store).is_none());
    }
    let two = Recipe::new(7, &[(0x650, 2)], 4096).build();
    assert!(Store::parse(&two[..2048]).is_none());
    assert!(Store::parse(&make::store(2, &[(0, &p(7)), (1, &p(8))])).is_none());
    let by_entry = Recipe::new(7, &[(0x700, 1), (0x650, 4)], 2048).build();
    assert!(Store::parse(&make::store(2, &[(0, &p(7)), (1, &by_entry)])).is_none());
    let beside = Recipe::new(7, &[(0x650, 0xFFFF_FFF9), (0x650, 1)], 2048).build();
    assert!(Store::parse(&make::store(2, &[(0, &p(7)), (1, &beside)])).is_some());
}

#[test]
fn catalogues() {
    assert_eq!(catalogue(&[]), "bad store\n");
    assert_eq!(catalogue(&make::unused(33)), "bad store\n");
    assert_eq!(catalogue(&make::unused(32)), "blocks 32\nfree 32\n");
    let nobody = Recipe::new(0xABC, &[(0x700, 0xF00), (0x701, 1)], 4096).build();
    let last = Recipe::short(1, 0x702, 0x80).build();
    let store = make::store(4, &[(0, &nobody), (3, &last)]);
    assert_eq!(
        catalogue(&store),
        "blocks 4\n0 2 00000ABC 0 8\n3 1 00000001 1 7\nfree 1\n"
    );
}

#[test]
fn the_catalogue_of_the_store_that_ships() {
    let text = catalogue(&published("catalogue", "stdin"));
    assert_eq!(text.as_bytes(), published("catalogue", "stdout"));
}
