//! Reads of every kind of block, with destinations of many lengths.

use super::{base, Edges};
use crate::calls::{Call, Request, BLOCK};
use crate::make::{self, p, Recipe};

impl Edges {
    pub(super) fn reads(&mut self) {
        let two = Recipe::new(3, &[(0x700, 1)], 3072).build();
        let three = Recipe::new(3, &[(0x701, 1)], 6144).build();
        let store = make::store(8, &[(0, &p(7)), (2, &two), (5, &three)]);
        let blocks = [
            0,
            1,
            2,
            3,
            4,
            5,
            6,
            7,
            8,
            9,
            32,
            0x100,
            0x10000,
            0x8000_0000,
            0xFFFF_FFFF,
        ];
        for block in blocks {
            for length in [0, 1, 2047, 2048, 2049, 4095, 4096, 6143, 6144, 6145, 9000] {
                self.push(Call {
                    store: store.clone(),
                    destination: vec![0xA5; length],
                    ..base(Request::read(block))
                });
            }
        }
        let sixteen = Recipe::new(3, &[(0x700, 1)], 32_768).build();
        for length in [32_767, 32_768, 69_632] {
            self.push(Call {
                store: make::store(32, &[(16, &sixteen)]),
                destination: vec![0xA5; length],
                ..base(Request::read(16))
            });
        }
        for block in [0, 5, 0xFFFF_FFFF] {
            self.push(Call {
                store: vec![0; BLOCK],
                destination: Vec::new(),
                ..base(Request::read(block))
            });
        }
    }
}
