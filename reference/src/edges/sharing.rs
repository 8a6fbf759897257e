//! Stored updates that share a processor with the candidate.

use super::{writing, Edges};
use crate::calls::{Call, Request};
use crate::make::{self, Recipe};
use crate::update::Pair;

impl Edges {
    /// Updates that share with the candidate: 98, AL 4, and what is emptied.
    pub(super) fn sharing(&mut self) {
        let a = (0xA00, 1);
        let b = (0xB00, 2);
        let lists: [&[(u32, u8)]; 5] = [&[a, b], &[b, a], &[a], &[a, a], &[a, b, b, a]];
        // Stored E covers A and B, by flags, by entries, or by entries only.
        let shapes: [&[Pair]; 4] = [
            &[(0xA00, 2), (0xB00, 4)],
            &[(0xB00, 4), (0xA00, 2)],
            &[(0xC00, 1), (0xB00, 4), (0xA00, 2)],
            &[(0xC00, 0), (0xA00, 0xFF), (0xB00, 0xFF)],
        ];
        for pairs in shapes {
            let e = Recipe::new(5, pairs, 2048).build();
            for blocks in [1, 2] {
                let store = make::store(blocks, &[(blocks - 1, &e)]);
                for revision in [4, 5, 6] {
                    let candidates: [&[Pair]; 4] = [
                        &[(0xA00, 2)],
                        &[(0xD00, 1), (0xA00, 2)],
                        &[(0xA00, 2), (0xB00, 4)],
                        &[(0xA00, 0xFFFF_FF02), (0xB00, 0xFFFF_FF00)],
                    ];
                    for candidate in candidates {
                        let candidate = Recipe::new(revision, candidate, 2048).build();
                        for list in lists {
                            self.push_writing(&store, list, &candidate);
                        }
                    }
                }
            }
        }
        // One that shares has an equal revision, another one is needed: 98 comes first.
        let candidate = Recipe::new(8, &[(0xA00, 2), (0xD00, 1)], 2048).build();
        let needed = Recipe::new(5, &[(0xA00, 2), (0xB00, 4)], 2048).build();
        for revision in [7, 8, 9] {
            let equal = Recipe::short(revision, 0xD00, 1).build();
            for (one, two) in [(&needed, &equal), (&equal, &needed)] {
                let store = make::store(2, &[(0, one), (1, two)]);
                self.push_writing(&store, &[a, b], &candidate);
                self.push_writing(&store, &[a], &candidate);
            }
        }
        // AL 4 before AL 5, and both before 97.
        let wide = Recipe::new(8, &[(0xA00, 2)], 4096).build();
        let tight = make::store(1, &[(0, &needed)]);
        for list in [&[a, b][..], &[a]] {
            self.push_writing(&tight, list, &wide);
            self.push(Call {
                request: Request::write(7),
                ..writing(&tight, list, &wide)
            });
            self.push(Call {
                request: Request::write(7),
                ..writing(&make::store(2, &[(0, &needed)]), list, &wide)
            });
        }
        // Sharing updates far from the run are emptied too, all of them.
        let mut pairs = vec![(0xA00, 2)];
        let mut updates = Vec::new();
        for index in 0..6 {
            pairs.push((0xE00 + index, 1));
            let two = [(0xF00 + index, 1), (0xE00 + index, 3)];
            updates.push(Recipe::new(index, &two, 2048).build());
        }
        let candidate = Recipe::new(8, &pairs, 4096).build();
        for count in 0..=6 {
            let mut store = make::unused(10);
            for (index, update) in updates[..count].iter().enumerate() {
                make::place(&mut store, 9 - index, update);
            }
            self.push_writing(&store, &[a], &candidate);
            self.push_writing(&store, &[a, (0xF00, 0)], &candidate);
            self.push_writing(&store, &[a, (0xE00, 0), (0xE01, 0)], &candidate);
            self.push_writing(&store, &[a, (0xE00, 1), (0xE01, 0)], &candidate);
        }
    }
}
