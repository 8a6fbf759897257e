//! Reads and loads through the store's own index and through others, at each code.

use super::{base, Edges};
use crate::calls::{Call, Request, BLOCK};
use crate::index::{own, Index, ALL_UNUSED, FIRST, LATER, LINES};
use crate::make::{self, p, Recipe};

/// Eight blocks: P, an unused one, two of one update, an unused one, three of another.
fn eight_blocks() -> Vec<u8> {
    let two = Recipe::new(3, &[(0x700, 1)], 3072).build();
    let three = Recipe::new(4, &[(0x701, 1), (0x702, 4)], 6144).build();
    make::store(8, &[(0, &p(7)), (2, &two), (5, &three)])
}

/// The own index with some numbers set: column, block and number.
fn with(mut index: Index, numbers: &[(usize, usize, u32)]) -> Index {
    for &(column, block, number) in numbers {
        index[column * LINES + block] = number;
    }
    index
}

/// Indexes that are not the store's own.
fn other_indexes(own_index: Index) -> Vec<Index> {
    let moved = make::store(8, &[(1, &p(7))]);
    vec![
        // A revision, of one line and of all lines of an update.
        with(own_index, &[(2, 0, 8)]),
        with(own_index, &[(2, 5, 5), (2, 6, 5), (2, 7, 5)]),
        // A size, a first block.
        with(own_index, &[(3, 2, 1), (3, 3, 1)]),
        with(own_index, &[(1, 3, 3)]),
        // Kinds: none, first and later exchanged, unused, used.
        with(own_index, &[(0, 1, 3)]),
        with(own_index, &[(0, 2, LATER), (0, 3, FIRST)]),
        with(own_index, &[(0, 0, 0), (1, 0, 0), (2, 0, 0), (3, 0, 0)]),
        with(own_index, &[(0, 4, FIRST), (1, 4, 4), (2, 4, 9), (3, 4, 1)]),
        with(own_index, &[(0, 0, 0x101)]),
        // Behind N only.
        with(own_index, &[(0, 8, FIRST)]),
        with(own_index, &[(1, 31, 1)]),
        with(own_index, &[(2, 8, 0xFFFF_FFFF)]),
        with(own_index, &[(3, 31, 0x8000_0000)]),
        own(&moved),
        ALL_UNUSED,
        [0xFFFF_FFFF; 4 * LINES],
    ]
}

impl Edges {
    /// Each code of the read and of the load, through the own index and through others.
    pub(super) fn indexed_codes(&mut self) {
        let store = eight_blocks();
        let own = own(&store);
        let mut indexes = vec![own];
        indexes.extend(other_indexes(own));
        for index in indexes {
            for (block, length) in [
                (8, 0),
                (3, 0),
                (2, BLOCK),
                (0, BLOCK),
                (4, BLOCK),
                (5, 3 * BLOCK),
            ] {
                self.push(Call {
                    store: store.clone(),
                    destination: vec![0xA5; length],
                    ..base(Request::ReadIndexed { index, block })
                });
            }
            for (signature, platform, loading) in [
                (0x650, 8, true),
                (0x650, 1, false),
                (0x650, 0, true),
                (0x650, 1, true),
                (0x702, 2, true),
            ] {
                self.push(Call {
                    loading,
                    store: store.clone(),
                    ..base(Request::LoadIndexed {
                        index,
                        signature,
                        platform,
                    })
                });
            }
        }
    }

    /// Each of the 128 numbers changed by itself.
    pub(super) fn indexed_numbers(&mut self) {
        let store = eight_blocks();
        let own = own(&store);
        for place in 0..own.len() {
            let mut index = own;
            index[place] ^= 1 << (place % 32);
            self.push_on(&store, Request::ReadIndexed { index, block: 0 });
            self.push_on(
                &store,
                Request::LoadIndexed {
                    index,
                    signature: 0x650,
                    platform: 1,
                },
            );
        }
    }

    /// Reads of every block, and loads for many processors, through the own index.
    pub(super) fn indexed_own(&mut self) {
        let store = eight_blocks();
        let index = own(&store);
        for block in (0..10).chain([32, 0x100, 0x8000_0000, 0xFFFF_FFFF]) {
            for length in [0, 2047, 2048, 4095, 4096, 6143, 9000] {
                self.push(Call {
                    store: store.clone(),
                    destination: vec![0xA5; length],
                    ..base(Request::ReadIndexed { index, block })
                });
            }
        }
        for signature in [0x64F, 0x650, 0x700, 0x701, 0x702, 0x10650] {
            for platform in (0..9).chain([33, 0x101, 0xFFFF_FFFF]) {
                let request = Request::LoadIndexed {
                    index,
                    signature,
                    platform,
                };
                self.push_on(&store, request);
            }
        }
    }

    /// Bad stores with the index of zeros and with the one that was theirs, and stores
    /// whose index is that of another one too.
    pub(super) fn indexed_stores(&mut self) {
        let good = eight_blocks();
        let mut damaged = good.clone();
        damaged[100] ^= 1;
        let mut data = good.clone();
        make::set(&mut data, 100, 5);
        make::set(&mut data, 200, 0xFFFF_FFFB);
        let longer = [&good[..], &make::unused(3)].concat();
        let shorter = &good[..7 * BLOCK];
        let stores = [
            &damaged[..],
            &data,
            &longer,
            shorter,
            &good[..8 * BLOCK - 1],
            &[],
        ];
        for store in stores {
            for index in [own(&good), ALL_UNUSED] {
                for block in [1, 0, 10, 0xFFFF_FFFF] {
                    self.push_on(store, Request::ReadIndexed { index, block });
                }
                for platform in [1, 8] {
                    let request = Request::LoadIndexed {
                        index,
                        signature: 0x650,
                        platform,
                    };
                    self.push_on(store, request);
                }
            }
        }
        for blocks in [1, 31, 32, 33] {
            let index = ALL_UNUSED;
            for block in [0, 30, 31, 32] {
                self.push_on(&make::unused(blocks), Request::ReadIndexed { index, block });
            }
        }
    }
}
