//! The run of blocks that a write takes, in small and in large stores.

use super::Edges;
use crate::calls::BLOCK;
use crate::make::{self, Recipe};

impl Edges {
    /// Every store of four blocks made of unused blocks and of stale, needed and
    /// sharing updates of one and two blocks, with one to three blocks wanted.
    pub(super) fn all_small_stores(&mut self) {
        let mut candidate = vec![(0xA00, 1)];
        let mut listed = vec![(0xA00, 0)];
        for block in 0..4 {
            candidate.push((0x700 + block, 1));
            listed.push((0x800 + block, 0));
        }
        let candidates: Vec<Vec<u8>> = [2048, 3072, 6144]
            .iter()
            .map(|&total| Recipe::new(8, &candidate, total).build())
            .collect();
        let mut stores = Vec::new();
        small_stores(&mut make::unused(4), 0, &mut stores);
        for candidate in candidates {
            for store in &stores {
                self.push_writing(store, &listed, &candidate);
            }
        }
    }

    pub(super) fn large_stores(&mut self) {
        // 32 updates of one block, stale, one by one less to be had.
        let mut full = make::unused(32);
        for block in 0..32 {
            let update = Recipe::short(1, 0x700 + block as u32, 1).build();
            make::place(&mut full, block, &update);
        }
        let listed = [(0x650, 1)];
        for width in [1, 2, 15, 16] {
            let candidate = Recipe::new(8, &[(0x650, 2)], width * BLOCK).build();
            self.push_writing(&full, &listed, &candidate);
            // The last run is the only one, and then there is none.
            for needed in [31 - width, 32 - width] {
                let mut list = vec![(0x650, 1)];
                for block in (0..=needed).rev().step_by(width).take(7) {
                    list.push((0x700 + block as u32, 0));
                }
                self.push_writing(&full, &list, &candidate);
            }
            // An unused tail.
            let mut tail = full.clone();
            tail[(32 - width) * BLOCK..].fill(0xFF);
            self.push_writing(&tail, &listed, &candidate);
            tail[31 * BLOCK] = 0;
            self.push_writing(&tail, &listed, &candidate);
        }
        // Two updates of 16 blocks with full tables.
        let mut pairs = vec![(0x700, 1); 65];
        let one = Recipe::new(1, &pairs, 32_768).build();
        pairs.fill((0x701, 1));
        let two = Recipe::new(1, &pairs, 32_768).build();
        let store = make::store(32, &[(0, &one), (16, &two)]);
        for listed in [
            &[(0x650, 1)][..],
            &[(0x650, 1), (0x700, 0)],
            &[(0x650, 1), (0x701, 0)],
            &[(0x650, 1), (0x701, 0), (0x700, 0)],
        ] {
            for total in [2048, 32_768] {
                let candidate = Recipe::new(8, &[(0x650, 2)], total).build();
                self.push_writing(&store, listed, &candidate);
            }
        }
        // More blocks wanted than there are.
        for blocks in [1, 2, 15, 16] {
            for total in [2048, 4096, 31_744, 32_768] {
                let candidate = Recipe::new(8, &[(0x650, 2)], total).build();
                self.push_writing(&make::unused(blocks), &listed, &candidate);
            }
        }
        // Document 01's three cases of stale and needed updates, and ties.
        let stale = |index: u32, total| Recipe::new(1, &[(0x700 + index, 1)], total).build();
        let two_wanted = Recipe::new(8, &[(0x650, 2)], 4096).build();
        let list = [(0x650, 1), (0x800, 0), (0x801, 0)];
        let needed = |index: u32| Recipe::new(1, &[(0x800 + index, 1)], 2048).build();
        let mut stores = vec![
            make::store(4, &[(0, &stale(0, 2048))]),
            make::store(4, &[(0, &stale(0, 4096)), (2, &stale(1, 2048))]),
        ];
        let cases = [
            (0, needed(0)),
            (1, stale(0, 2048)),
            (2, needed(1)),
            (3, stale(1, 2048)),
        ];
        let cases: Vec<(usize, &[u8])> = cases
            .iter()
            .map(|(at, update)| (*at, &update[..]))
            .collect();
        stores.push(make::store(4, &cases));
        for at in 0..6 {
            stores.push(make::store(6, &[(at, &needed(0))]));
            stores.push(make::store(6, &[(at, &stale(0, 2048))]));
        }
        for store in stores {
            self.push_writing(&store, &list, &two_wanted);
        }
    }
}

/// Adds every filling of the blocks from one block on.
fn small_stores(store: &mut Vec<u8>, block: usize, found: &mut Vec<Vec<u8>>) {
    let blocks = store.len() / BLOCK;
    if block == blocks {
        found.push(store.clone());
        return;
    }
    small_stores(store, block + 1, found);
    for width in [1, 2] {
        if block + width > blocks {
            continue;
        }
        // Sharing, needed, stale.
        for signature in [0x700, 0x800, 0x900] {
            let pair = (signature + block as u32, 1);
            let update = Recipe::new(1, &[pair], width * BLOCK).build();
            make::place(store, block, &update);
            small_stores(store, block + width, found);
            store[block * BLOCK..(block + width) * BLOCK].fill(0xFF);
        }
    }
}
