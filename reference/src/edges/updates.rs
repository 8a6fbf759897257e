//! Candidates: their lengths, headers, sizes, tables and sums.

use super::Edges;
use crate::make::{p, set, Recipe};

impl Edges {
    pub(super) fn candidate_lengths(&mut self) {
        let short = p(8);
        for length in [
            0, 1, 4, 44, 47, 48, 49, 1024, 2000, 2044, 2047, 2048, 2049, 5000,
        ] {
            let mut candidate = short.clone();
            candidate.resize(length, 0x77);
            self.push_candidate(&candidate);
        }
        for total in [1024, 2048, 3072, 31_744, 32_768] {
            for entries in [0, 1, 64] {
                let mut pairs = vec![(0x650, 2)];
                pairs.resize(entries + 1, (0x651, 2));
                let update = Recipe::new(8, &pairs, total).build();
                for length in [
                    total - 1024,
                    total - 4,
                    total - 1,
                    total,
                    total + 1,
                    total + 2048,
                ] {
                    let mut candidate = update.clone();
                    candidate.resize(length, 0x77);
                    self.push_candidate(&candidate);
                }
            }
        }
    }

    pub(super) fn candidate_headers(&mut self) {
        for value in [
            0,
            1,
            2,
            3,
            0x100,
            0x101,
            0x0100_0001,
            0x8000_0001,
            0xFFFF_FFFF,
        ] {
            for at in [0, 20] {
                let mut recipe = Recipe::short(8, 0x650, 2);
                if at == 0 {
                    recipe.version = value;
                } else {
                    recipe.loader = value;
                }
                self.push_candidate(&recipe.build());
                // The sums wrong too: the header is judged first.
                recipe.wrong.total = 5;
                self.push_candidate(&recipe.build());
            }
        }
        for revision in [0, 1, 0x7FFF_FFFF, 0x8000_0000, 0xFFFF_FFFF] {
            self.push_candidate(&p(revision));
        }
    }

    pub(super) fn candidate_sizes(&mut self) {
        // D = 0, whatever stands at 32.
        for total_field in [
            0,
            1,
            1024,
            2048,
            4096,
            32_768,
            33_792,
            0x8000_0000,
            0xFFFF_FFFF,
        ] {
            let mut recipe = Recipe::short(8, 0x650, 2);
            recipe.total_field = total_field;
            self.push_candidate(&recipe.build());
        }
        // Fields that are changed with all sums right.
        let sizes = [
            (2000, 2048),
            (976, 1024),
            (964, 1024),
            (956, 1024),
            (944, 1024),
            (972, 1024),
            (975, 1024),
            (977, 1024),
            (1024, 1024),
            (1, 1024),
            (4, 1024),
            (4, 84),
            (1976, 2024),
            (1980, 2048),
            (1968, 2048),
            (1212, 2048),
            (1200, 2048),
            (2001, 2048),
            (2002, 2048),
            (2004, 2048),
            (2000, 2049),
            (2000, 2052),
            (2000, 0),
            (2000, 1024),
            (2000, 3072),
            (2000, 0x8000_0800),
            (0x8000_07D0, 2048),
            (32_720, 32_768),
            (33_744, 33_792),
            (33_724 - 12, 33_792),
            (0xFFFF_FFD0, 0),
            (0xFFFF_FFB0, 0),
            (0xFFFF_FFBC, 0),
            (0xFFFF_FFFC, 0),
            (0xFFFF_FFFF, 0),
            (0xFFFF_FCBC, 0),
            (0xFFFF_FFFC, 1024),
            (0xFFFF_FBD0, 0xFFFF_FC00),
            (0xFFFF_FFFF, 0xFFFF_FFFF),
        ];
        for (data_field, total_field) in sizes {
            for bytes in [2048, 36_864] {
                let mut recipe = Recipe::new(8, &[(0x650, 2)], bytes);
                recipe.data_field = data_field;
                recipe.total_field = total_field;
                self.push_candidate(&recipe.build());
            }
        }
        // Every total size, and some that are not multiples of 1,024.
        for total in (1024..=34_816).step_by(1024) {
            self.push_candidate(&Recipe::new(8, &[(0x650, 2)], total).build());
        }
        for total in [84, 512, 1020, 1028, 1536, 2044, 2052, 2560] {
            self.push_candidate(&Recipe::new(8, &[(0x650, 2)], total).build());
        }
    }

    pub(super) fn candidate_tables(&mut self) {
        for entries in [1, 2, 3, 8, 9, 63, 64, 65, 66] {
            for total in [1024, 2048, 4096] {
                let mut pairs = vec![(0x650, 2)];
                pairs.resize(entries + 1, (0x651, 2));
                self.push_candidate(&Recipe::new(8, &pairs, total).build());
            }
        }
        // The count field differs from what the sizes imply.
        for entries in [1usize, 2, 64] {
            let n = entries as u32;
            for count in [
                0,
                1,
                n - 1,
                n + 1,
                n + 0x100,
                n + 0x10000,
                n | 0x8000_0000,
                u32::MAX,
            ] {
                let mut pairs = vec![(0x650, 2)];
                pairs.resize(entries + 1, (0x651, 2));
                let mut recipe = Recipe::new(8, &pairs, 2048);
                recipe.count = count;
                self.push_candidate(&recipe.build());
            }
        }
        // T = 48 + D + 20: a table's head and no entry.
        let mut empty_table = Recipe::new(8, &[(0x650, 2)], 2048);
        empty_table.data_field = 1980;
        self.push_candidate(&empty_table.build());
        // An entry that covers nobody, and reserved bytes in use.
        let mut odd = Recipe::new(8, &[(0x650, 2), (0x651, 0xFFFF_FF00)], 1024);
        odd.table_reserved = [0xFF; 12];
        odd.reserved = [0xFF; 12];
        odd.date = 0;
        self.push_candidate(&odd.build());
    }

    pub(super) fn candidate_sums(&mut self) {
        for off in [1, 4, 0x100, 0x10000, 0x8000_0000, 0xFFFF_FFFF] {
            for entries in [0usize, 1, 2, 64] {
                let mut pairs = vec![(0x650, 2)];
                pairs.resize(entries + 1, (0x651, 2));
                let recipe = Recipe::new(8, &pairs, 2048);
                let mut total = recipe.clone();
                total.wrong.total = off;
                self.push_candidate(&total.build());
                if entries > 0 {
                    let mut table = recipe.clone();
                    table.wrong.table = off;
                    self.push_candidate(&table.build());
                    for entry in [0, entries - 1] {
                        let mut one = recipe.clone();
                        one.wrong.entry = Some((entry, off));
                        self.push_candidate(&one.build());
                    }
                    // An entry that covers nobody is judged too.
                    let mut idle = recipe.clone();
                    idle.pairs[entries] = (0, 0);
                    idle.wrong.entry = Some((entries - 1, off));
                    self.push_candidate(&idle.build());
                }
            }
        }
        // One byte changed, here and there.
        let good = Recipe::new(8, &[(0x650, 2), (0x651, 2)], 2048).build();
        for at in [
            4, 8, 12, 16, 19, 24, 36, 47, 48, 1000, 2015, 2020, 2024, 2035, 2036, 2047,
        ] {
            let mut candidate = good.clone();
            candidate[at] ^= 0x10;
            self.push_candidate(&candidate);
        }
        // Two dwords changed against each other are still good.
        let mut swapped = good;
        set(&mut swapped, 100, 5);
        set(&mut swapped, 200, 0xFFFF_FFFB);
        self.push_candidate(&swapped);
        // Document 01: P's checksum, and P with one that is off by one.
        for checksum in [0xF8E7_E009, 0xF8E7_E00A, 0xF8E7_E008] {
            let mut candidate = p(7);
            set(&mut candidate, 16, checksum);
            self.push_candidate(&candidate);
        }
    }
}
