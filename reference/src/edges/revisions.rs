//! Revisions: the candidate's against the stored ones, and against the one read back.

use super::{base, Edges};
use crate::calls::{Call, Request};
use crate::make::{self, p, Recipe};

impl Edges {
    pub(super) fn revisions(&mut self) {
        let edges = [
            0,
            1,
            7,
            8,
            0x7FFF_FFFF,
            0x8000_0000,
            0xFFFF_FFFE,
            0xFFFF_FFFF,
        ];
        for old in edges {
            for new in edges {
                let store = make::store(2, &[(0, &p(old))]);
                self.push_writing(&store, &[(0x650, 1)], &p(new));
            }
        }
        // Two that share, one of them with an equal or a greater revision.
        let candidate = Recipe::new(8, &[(0x650, 2), (0x651, 2)], 2048).build();
        for (one, two) in [(7, 7), (7, 8), (8, 7), (7, 9), (9, 7), (0, 0xFFFF_FFFF)] {
            let a = Recipe::short(one, 0x650, 2).build();
            let b = Recipe::short(two, 0x651, 2).build();
            let store = make::store(3, &[(0, &a), (2, &b)]);
            for listed in [(0x650, 1), (0x651, 1)] {
                self.push_writing(&store, &[listed], &candidate);
            }
        }
        // A greater revision of an update that does not share is nothing.
        let other = Recipe::short(99, 0x650, 0xF8).build();
        let store = make::store(2, &[(0, &other)]);
        self.push_writing(&store, &[(0x650, 1)], &p(1));
    }

    pub(super) fn read_backs(&mut self) {
        for revision in [0, 8, 0x8000_0000, 0xFFFF_FFFF] {
            for off in [0, 1, 0xFFFF_FFFF, 0x100, 0x8000_0000] {
                self.push(Call {
                    store: make::unused(2),
                    candidate: p(revision),
                    ..base(Request::write(revision.wrapping_add(off)))
                });
            }
        }
        // A wrong read-back is judged last.
        for candidate in [p(7), p(6), Recipe::short(8, 0x651, 2).build(), Vec::new()] {
            self.push(Call {
                candidate,
                ..base(Request::write(77))
            });
        }
    }
}
