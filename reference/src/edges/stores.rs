//! Stores: their lengths, bad ones, and ones that look bad and are not.

use super::{base, Edges};
use crate::calls::{Call, Request, BLOCK, PRESENCE};
use crate::make::{self, p, Recipe};

impl Edges {
    pub(super) fn store_lengths(&mut self) {
        for blocks in 0..=34 {
            for request in [Request::update(PRESENCE), Request::Index] {
                self.push(Call {
                    store: make::unused(blocks),
                    ..base(request)
                });
            }
        }
        for blocks in [0, 1, 31, 32, 33, 34] {
            self.push_each(&make::unused(blocks));
        }
        for length in [1, 47, 48, 2047, 2049, 3072, 4095, 65_535, 65_537, 67_583] {
            self.push_each(&vec![0xFF; length]);
        }
        for length in [2047, 2049, 4095] {
            let mut store = make::store(2, &[(0, &p(7))]);
            store.resize(length, 0xFF);
            self.push_each(&store);
        }
    }

    /// Each total size in a store that is just large enough, one block too small, and
    /// one block larger.
    pub(super) fn one_update_stores(&mut self) {
        for total in (1024..=32_768).step_by(1024) {
            let update = Recipe::new(3, &[(0x650, 2)], total).build();
            let width = total.div_ceil(BLOCK);
            for blocks in [width, width + 1] {
                let store = make::store(blocks, &[(blocks - width, &update)]);
                for request in [
                    Request::update(PRESENCE),
                    Request::Index,
                    Request::read((blocks - width) as u32),
                    Request::read((blocks - 1) as u32),
                    Request::Load {
                        signature: 0x650,
                        platform: 1,
                    },
                ] {
                    self.push(Call {
                        loading: true,
                        store: store.clone(),
                        destination: vec![0x11; width * BLOCK],
                        ..base(request)
                    });
                }
            }
            let mut cut = make::store(width, &[(0, &update)]);
            cut.truncate((width - 1) * BLOCK);
            self.push_each(&cut);
        }
    }

    pub(super) fn bad_stores(&mut self) {
        let good = make::store(4, &[(1, &p(7))]);
        for at in [0, BLOCK - 1, 2 * BLOCK, 4 * BLOCK - 1] {
            for byte in [0x00, 0xFE, 0x7F] {
                let mut store = good.clone();
                store[at] = byte;
                self.push_each(&store);
            }
        }
        // Bytes behind T.
        let half = Recipe::new(7, &[(0x650, 2)], 1024).build();
        let three = Recipe::new(7, &[(0x650, 2)], 3072).build();
        for (update, ats) in [
            (&half, [1024, 1025, 1500, 2047]),
            (&three, [3072, 3073, 4000, 4095]),
        ] {
            for at in ats {
                let mut store = make::store(2, &[(0, update)]);
                store[at] = 0;
                self.push_each(&store);
            }
        }
        for recipe in faulty_recipes() {
            let update = recipe.build();
            let mut store = make::unused(update.len().div_ceil(BLOCK) + 1);
            make::place(&mut store, 1, &update);
            self.push_each(&store);
        }
        // A two-block update whose second block is not there.
        let two = Recipe::new(7, &[(0x650, 2)], 4096).build();
        let mut store = make::unused(3);
        store[2 * BLOCK..].copy_from_slice(&two[..BLOCK]);
        self.push_each(&store);
        // Updates that share: header and header, header and entry, entry and entry.
        let one = Recipe::new(7, &[(0x650, 2), (0x651, 4)], 2048).build();
        for pairs in [
            vec![(0x650, 2)],
            vec![(0x650, 0xFF)],
            vec![(0x651, 4)],
            vec![(0x777, 1), (0x650, 2)],
            vec![(0x777, 1), (0x651, 6)],
            vec![(0x777, 0), (0x778, 0), (0x651, 4)],
        ] {
            let other = Recipe::new(9, &pairs, 2048).build();
            self.push_each(&make::store(4, &[(0, &one), (3, &other)]));
            self.push_each(&make::store(4, &[(1, &other), (2, &one)]));
        }
        // The last of three shares with the first.
        let far = Recipe::new(1, &[(0x888, 1)], 2048).build();
        self.push_each(&make::store(3, &[(0, &one), (1, &far), (2, &p(9))]));
    }

    /// Stores that look bad and are not.
    pub(super) fn good_stores(&mut self) {
        let one = Recipe::new(7, &[(0x650, 2), (0x651, 4)], 2048).build();
        for pairs in [
            vec![(0x650, 4)],
            vec![(0x651, 2)],
            vec![(0x652, 2)],
            vec![(0x650, 0xFFFF_FF00)],
            vec![(0x650, 0xFFFF_FFFD), (0x651, 0xFFFF_FFFB)],
            vec![(0x650, 0), (0x651, 0)],
            vec![(0x777, 1), (0x777, 1), (0x777, 1)],
        ] {
            let other = Recipe::new(9, &pairs, 2048).build();
            self.push_each(&make::store(4, &[(0, &one), (2, &other)]));
        }
        // Data that looks like an unused block, and like another update.
        let mut unused_inside = Recipe::new(7, &[(0x650, 2)], 6144);
        unused_inside.data = vec![0xFF];
        let mut update_inside = Recipe::new(7, &[(0x650, 2)], 4096);
        update_inside.data = vec![0xFF; BLOCK - 48];
        update_inside.data.extend(p(7));
        for recipe in [unused_inside, update_inside] {
            let update = recipe.build();
            let store = make::store(4, &[(1, &update)]);
            self.push_each(&store);
            for block in 0..5 {
                self.push(Call {
                    store: store.clone(),
                    destination: vec![0x22; 3 * BLOCK],
                    ..base(Request::read(block))
                });
            }
        }
        // Reserved bytes and date may hold anything.
        let mut odd = Recipe::new(7, &[(0x650, 2), (0x651, 2)], 2048);
        odd.reserved = [0xEE; 12];
        odd.table_reserved = [0xDD; 12];
        odd.date = 0xFFFF_FFFF;
        self.push_each(&make::store(1, &[(0, &odd.build())]));
    }
}

/// One-block updates that each break one rule with all other sums right.
fn faulty_recipes() -> Vec<Recipe> {
    let table = Recipe::new(7, &[(0x650, 2), (0x651, 2)], 2048);
    let plain = Recipe::new(7, &[(0x650, 2)], 2048);
    let mut faulty = Vec::new();
    for value in [0, 2, 0x101] {
        faulty.push(Recipe {
            version: value,
            ..plain.clone()
        });
        faulty.push(Recipe {
            loader: value,
            ..plain.clone()
        });
        faulty.push(Recipe {
            count: value,
            ..table.clone()
        });
    }
    for (data_field, total_field) in [
        (1980, 2048),
        (1996, 2048),
        (2000, 1024),
        (2000, 4096),
        (0xFFFF_FFD0, 0),
    ] {
        faulty.push(Recipe {
            data_field,
            total_field,
            ..plain.clone()
        });
    }
    let mut total = plain.clone();
    total.wrong.total = 1;
    faulty.push(total);
    let mut sum = table.clone();
    sum.wrong.table = 1;
    faulty.push(sum);
    let mut entry = table;
    entry.wrong.entry = Some((0, 1));
    faulty.push(entry);
    faulty
}
