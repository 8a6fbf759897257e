//! The processor list, and the processors that a candidate covers.

use super::{base, Edges};
use crate::calls::{Call, Request, PRESENCE};
use crate::make::{self, p, Recipe};
use crate::update::Pair;

impl Edges {
    pub(super) fn lists(&mut self) {
        let store = make::store(4, &[(1, &p(7))]);
        for count in [0, 1, 2, 7, 8, 9, 16] {
            self.push_writing(&store, &vec![(0x650, 1); count], &p(8));
        }
        for (signatures, platforms) in [
            (0, 1),
            (1, 0),
            (1, 2),
            (2, 1),
            (7, 8),
            (8, 7),
            (8, 9),
            (9, 8),
            (16, 1),
            (1, 16),
        ] {
            self.push(Call {
                signatures: vec![0x650; signatures],
                platforms: vec![1; platforms],
                ..base(Request::write(8))
            });
        }
        for platform in [0, 1, 2, 3, 6, 7, 8, 9, 15, 16, 127, 128, 255] {
            self.push_writing(&store, &[(0x650, platform)], &p(8));
            self.push_writing(&store, &[(0x650, 1), (0x999, platform)], &p(8));
            self.push_writing(&store, &[(0x999, platform), (0x650, 1)], &p(8));
            let mut eight = vec![(0x650, 1); 8];
            eight[7] = (0x650, platform);
            self.push_writing(&store, &eight, &p(8));
        }
        // A bad store comes before a bad list, a bad list before a bad candidate, and
        // the other calls do not look at the list.
        for (blocks, count, candidate) in [(0, 0, vec![]), (4, 0, vec![]), (4, 1, vec![])] {
            self.push_writing(&make::unused(blocks), &vec![(0x650, 1); count], &candidate);
        }
        for request in [
            Request::update(PRESENCE),
            Request::read(1),
            Request::control(1),
            Request::Load {
                signature: 0x650,
                platform: 1,
            },
        ] {
            self.push(Call {
                signatures: Vec::new(),
                platforms: vec![200; 3],
                candidate: Vec::new(),
                ..base(request)
            });
        }
    }

    /// Which processors a candidate covers.
    pub(super) fn coverage(&mut self) {
        let store = make::unused(2);
        for bit in 0..32 {
            let candidate = Recipe::short(8, 0x650, 1 << bit).build();
            for platform in [bit as u8 & 7, (bit as u8 + 1) & 7] {
                self.push_writing(&store, &[(0x650, platform)], &candidate);
            }
        }
        let tables: [&[Pair]; 6] = [
            &[(0x650, 0), (0x651, 2)],
            &[(0x651, 0xFF), (0x650, 2)],
            &[(0x651, 0xFF), (0x652, 0xFF), (0x650, 2)],
            &[(0x650, 0xFFFF_FF00), (0x650, 2)],
            &[(0x650, 0), (0x650, 0)],
            &[(0x10650, 2), (0x650, 0xFFFF_FF00)],
        ];
        for pairs in tables {
            let candidate = Recipe::new(8, pairs, 2048).build();
            for listed in [(0x650, 1), (0x650, 2), (0x651, 1), (0x651, 0)] {
                self.push_writing(&store, &[listed], &candidate);
                self.push_writing(&store, &[(0x999, 0), listed], &candidate);
            }
        }
        for signature in [0, 1, 0x650, 0x8000_0650, 0xFFFF_FFFF] {
            let candidate = Recipe::short(8, signature, 0xFF).build();
            for listed in [0, 1, 0x650, 0x8000_0650, 0xFFFF_FFFF] {
                self.push_writing(&store, &[(listed, 7)], &candidate);
            }
        }
    }
}
