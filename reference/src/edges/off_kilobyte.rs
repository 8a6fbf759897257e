//! Updates with a table, whose T needs only be a multiple of 4.

use super::{base, writing, Edges};
use crate::calls::{Call, Request, BLOCK};
use crate::index::own;
use crate::make::{self, Recipe};
use crate::model;

/// Total sizes with one entry that are good: the least, both sides of 2,048, and the
/// greatest.
const TOTALS: [usize; 6] = [84, 2044, 2048, 2052, 32_764, 32_768];

/// An update for (650h, 1) with so many entries.
fn tabled(revision: u32, entries: usize, total: usize) -> Recipe {
    let mut pairs = vec![(0x650, 2)];
    pairs.resize(entries + 1, (0x651, 2));
    Recipe::new(revision, &pairs, total)
}

impl Edges {
    pub(super) fn off_kilobyte_candidates(&mut self) {
        for total in TOTALS {
            let update = tabled(8, 1, total).build();
            for length in [total - 4, total - 1, total, total + 1, total + 2048] {
                let mut candidate = update.clone();
                candidate.resize(length, 0x77);
                self.push_candidate(&candidate);
            }
        }
        for (entries, total) in [
            (1, 32_772),
            (1, 33_792),
            (2, 2044),
            (63, 828),
            (64, 840),
            (64, 2044),
            (64, 2052),
            (64, 32_768),
            (64, 32_772),
            (65, 852),
            (65, 2052),
        ] {
            self.push_candidate(&tabled(8, entries, total).build());
        }
        // D is no multiple of 4.
        for total in [81, 82, 83, 2045, 2046, 2047, 2049] {
            self.push_candidate(&tabled(8, 1, total).build());
        }
        // No table.
        for total in [52, 80, 1028, 2040, 3068, 32_764, 32_772] {
            self.push_candidate(&Recipe::new(8, &[(0x650, 2)], total).build());
        }
        // D = 0 is no table behind empty data.
        let mut empty = tabled(8, 1, 80).build();
        self.push_candidate(&empty);
        empty.resize(2048, 0);
        self.push_candidate(&empty);
        for total in [84, 2044, 2052] {
            // The count field, and each sum.
            for count in [0, 2] {
                let mut recipe = tabled(8, 1, total);
                recipe.count = count;
                self.push_candidate(&recipe.build());
            }
            let mut sums = [(); 3].map(|()| tabled(8, 1, total));
            sums[0].wrong.total = 1;
            sums[1].wrong.table = 1;
            sums[2].wrong.entry = Some((0, 1));
            for recipe in sums {
                self.push_candidate(&recipe.build());
            }
        }
    }

    /// Writes into unused blocks and over stale updates, and what is read back.
    pub(super) fn off_kilobyte_writes(&mut self) {
        for total in TOTALS {
            let candidate = tabled(8, 1, total).build();
            let blocks = total.div_ceil(BLOCK) + 1;
            let mut stale = make::unused(blocks);
            for block in 0..blocks {
                let update = Recipe::short(1, 0x700 + block as u32, 1).build();
                make::place(&mut stale, block, &update);
            }
            for store in [make::unused(blocks), stale] {
                self.push_read_back(writing(&store, &[(0x650, 1)], &candidate));
            }
        }
    }

    /// A write that is accepted, then reads and loads of what it leaves.
    fn push_read_back(&mut self, call: Call) {
        let answer = model::answer(&call);
        assert_eq!(answer.ax, 0, "an accepted write");
        let room = call.store.len();
        self.push(call);
        let index = own(&answer.store);
        let block = answer.words[5];
        for request in [
            Request::Index,
            Request::read(block),
            Request::read(block + 1),
            Request::ReadIndexed { index, block },
            Request::Load {
                signature: 0x651,
                platform: 1,
            },
            Request::LoadIndexed {
                index,
                signature: 0x651,
                platform: 1,
            },
        ] {
            self.push(Call {
                loading: true,
                store: answer.store.clone(),
                destination: vec![0x11; room],
                ..base(request)
            });
        }
    }

    /// The rest of a last block: FFh, or one byte of it not.
    pub(super) fn off_kilobyte_stores(&mut self) {
        for total in TOTALS {
            let update = tabled(7, 1, total).build();
            let width = total.div_ceil(BLOCK);
            let end = width * BLOCK;
            let store = make::store(width + 1, &[(0, &update)]);
            self.push_each(&store);
            if width > 1 {
                self.push_each(&store[..(width - 1) * BLOCK]);
            }
            for at in [total, total + 1, total + 2, end - 1] {
                if (total..end).contains(&at) {
                    let mut late = store.clone();
                    late[at] = 0xFE;
                    self.push_each(&late);
                }
            }
        }
        // No table, D no multiple of 4, and more than the greatest T.
        for recipe in [
            Recipe::new(7, &[(0x650, 2)], 1028),
            Recipe::new(7, &[(0x650, 2)], 2044),
            Recipe::new(7, &[(0x650, 2)], 2052),
            tabled(7, 1, 2046),
            tabled(7, 1, 32_772),
        ] {
            let update = recipe.build();
            let width = update.len().div_ceil(BLOCK);
            self.push_each(&make::store(width + 1, &[(1, &update)]));
        }
        // Updates of several kinds, each with its rest, and one that shares by an entry.
        let other = |signature, total| {
            let pairs = [(signature, 1), (signature + 1, 1), (signature + 2, 1)];
            Recipe::new(7, &pairs, total).build()
        };
        let updates = [
            other(0x710, 1000),
            other(0x720, 2060),
            tabled(7, 1, 2044).build(),
            other(0x730, 4100),
        ];
        let places = [0, 1, 4, 5].into_iter().zip(&updates);
        let places: Vec<(usize, &[u8])> = places.map(|(at, bytes)| (at, &bytes[..])).collect();
        let mut store = make::store(9, &places);
        self.push_each(&store);
        make::place(&mut store, 8, &other(0x732, 96));
        self.push_each(&store);
    }
}
