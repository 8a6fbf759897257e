//! The index of a store, and the index carried over accepted writes.

use super::{base, writing, Edges};
use crate::calls::{Call, Request, BLOCK};
use crate::index::{own, LINES};
use crate::make::{self, p, Recipe};
use crate::model;
use crate::update::number;

impl Edges {
    pub(super) fn indexes(&mut self) {
        let one = |block: u32| Recipe::short(0x1_0001 * block, 0x700 + block, 1).build();
        let mut full = make::unused(32);
        for block in 0..32 {
            make::place(&mut full, block, &one(block as u32));
        }
        let sixteen = Recipe::new(0xFFFF_FFFF, &[(0x900, 1)], 32_768).build();
        let fifteen = Recipe::new(0, &[(0x901, 1)], 29_696).build();
        let nobody = Recipe::new(0x8000_0000, &[(0x902, 0)], 3072).build();
        let stores = [
            make::store(1, &[(0, &one(1))]),
            make::store(32, &[(0, &sixteen), (16, &fifteen)]),
            make::store(32, &[(17, &fifteen)]),
            make::store(31, &[(1, &nobody), (15, &sixteen)]),
            make::store(5, &[(0, &nobody), (2, &p(0)), (3, &nobody)]),
            full,
        ];
        for store in &stores {
            self.push_on(store, Request::Index);
            let index = own(store);
            for block in (0..store.len() / BLOCK).step_by(3) {
                let block = block as u32;
                self.push_on(store, Request::ReadIndexed { index, block });
            }
        }
        // The last block of the full store with another revision, and damaged.
        let mut last = stores[5].clone();
        make::place(&mut last, 31, &Recipe::short(5, 0x71F, 1).build());
        self.push_on(&last, Request::Index);
        last[31 * BLOCK + 100] ^= 1;
        self.push_on(&last, Request::Index);
    }

    /// The index before a write, the write, the index carried over it and the one of the
    /// store after it, and a read and a load through that one.
    fn push_carried(&mut self, call: Call) {
        let old = own(&call.store);
        self.push_on(&call.store, Request::Index);
        let answer = model::answer(&call);
        assert_eq!(answer.ax, 0, "an accepted write");
        let start = answer.words[5];
        let index = own(&answer.store);
        let carried = Request::IndexAfter {
            old,
            emptied: answer.words[7],
            start,
            revision: number(&call.candidate, 4),
            size: index[3 * LINES + start as usize],
        };
        let signature = call.signatures[0];
        let platform = u32::from(call.platforms[0]);
        self.push(call);
        for request in [
            carried,
            Request::Index,
            Request::ReadIndexed { index, block: 31 },
            Request::LoadIndexed {
                index,
                signature,
                platform,
            },
            Request::LoadIndexed {
                index: old,
                signature,
                platform,
            },
        ] {
            self.push_on(&answer.store, request);
        }
    }

    /// The index carried over accepted writes.
    pub(super) fn carried_writes(&mut self) {
        self.push_carried(base(Request::write(8)));
        let update = |signature, width| Recipe::new(1, &[(signature, 1)], width * BLOCK).build();
        let mut full = make::unused(32);
        for block in 0..16 {
            let width = 1 + block % 3;
            if block % 3 != 2 {
                let update = update(0x700 + block as u32, width);
                make::place(&mut full, 2 * block, &update);
            }
        }
        // Candidates that share with none, with a few, and with all.
        let all: Vec<(u32, u32)> = (0..16).map(|block| (0x700 + block, 1)).collect();
        for pairs in [&all[..0], &all[1..2], &all[4..8], &all[15..], &all] {
            let mut pairs = pairs.to_vec();
            pairs.insert(0, (0x650, 2));
            for width in [1, 3, 16] {
                let candidate = Recipe::new(8, &pairs, width * BLOCK).build();
                self.push_carried(writing(&full, &[(0x650, 1)], &candidate));
            }
        }
        // In the last blocks, and over all of a store.
        let tail = make::store(32, &[(0, &update(0x700, 16)), (30, &update(0x701, 2))]);
        let listed = [(0x650, 1), (0x700, 0)];
        for width in [14, 16] {
            let candidate = Recipe::new(8, &[(0x650, 2)], width * BLOCK - 1024).build();
            self.push_carried(writing(&tail, &listed, &candidate));
        }
        let two = make::store(2, &[(0, &update(0x700, 2))]);
        self.push_carried(writing(&two, &[(0x650, 1)], &p(8)));
    }
}
