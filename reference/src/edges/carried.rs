//! The index carried over any numbers, of a write or not.

use super::Edges;
use crate::calls::Request;
use crate::index::{carried, own, Index};
use crate::make::{self, p, Recipe};

const STARTS: [u32; 11] = [
    0,
    1,
    3,
    16,
    30,
    31,
    32,
    33,
    0x8000_0000,
    0xFFFF_FFF0,
    0xFFFF_FFFF,
];

const SIZES: [u32; 10] = [1, 0, 2, 16, 17, 31, 32, 33, 0x8000_0000, 0xFFFF_FFFF];

const EMPTIED: [u32; 8] = [
    0,
    0b1100,
    0b1111,
    0xFFFF_FFF0,
    1,
    0x8000_0000,
    0x5555_5555,
    0xFFFF_FFFF,
];

/// Four blocks: an unused one, P, and two of one update.
fn four_blocks() -> Vec<u8> {
    let two = Recipe::new(3, &[(0x700, 1)], 3072).build();
    make::store(4, &[(1, &p(7)), (2, &two)])
}

impl Edges {
    fn push_after(&mut self, old: Index, emptied: u32, start: u32, revision: u32, size: u32) {
        let request = Request::IndexAfter {
            old,
            emptied,
            start,
            revision,
            size,
        };
        self.push_on(&four_blocks(), request);
    }

    /// All starts and sizes, also sizes that end just before, at and behind 2^32, each
    /// time from the index that was carried before.
    pub(super) fn carried_numbers(&mut self) {
        let mut old = own(&four_blocks());
        let mut turn = 0;
        for start in STARTS {
            let rest = 0u32.wrapping_sub(start);
            let ends = [rest.wrapping_sub(1), rest, rest.wrapping_add(1)];
            for size in SIZES.into_iter().chain(ends) {
                let emptied = EMPTIED[turn % EMPTIED.len()];
                let revision = [turn as u32, 0, 0xFFFF_0000 + turn as u32][turn % 3];
                self.push_after(old, emptied, start, revision, size);
                old = carried(&old, emptied, start, revision, size);
                turn += 1;
            }
        }
    }

    /// Runs beside, in and over emptied blocks, from the store's own index and from one
    /// with numbers that no store has.
    pub(super) fn carried_lines(&mut self) {
        let own = own(&four_blocks());
        let mut odd = own;
        for place in [0, 3, 4, 31, 35, 64, 96, 127] {
            odd[place] = 0xFFFF_0000 + place as u32;
        }
        for old in [own, odd] {
            for (emptied, start, size) in [
                (0, 32, 1),
                (0, 0, 0),
                (0b1100, 2, 1),
                (0b1100, 3, 2),
                (0b1100, 0, 2),
                (0b0010, 1, 1),
                (0xFFFF_FFF0, 4, 1),
                (0x8000_0001, 31, 16),
            ] {
                self.push_after(old, emptied, start, 9, size);
            }
        }
    }
}
