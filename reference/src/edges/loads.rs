//! The load choice, for processors that are covered and ones that are not.

use super::{base, Edges};
use crate::calls::{Call, Request, BLOCK, READ, WRITE};
use crate::make::{self, p, Recipe};

impl Edges {
    pub(super) fn loads(&mut self) {
        let mut pairs = vec![(0x700, 0xFFFF_FF81), (0x701, 0xFFFF_FF00), (0x702, 0x10)];
        let table = Recipe::new(0xFFFF_FFFF, &pairs, 4096).build();
        pairs.resize(65, (0x703, 1));
        pairs[0] = (0x704, 0);
        pairs[1] = (0x704, 2);
        pairs[2] = (0x705, 2);
        let large = Recipe::new(0, &pairs, 5120).build();
        let store = make::store(8, &[(1, &p(7)), (2, &table), (5, &large)]);
        for signature in [
            0x64F, 0x650, 0x651, 0x700, 0x701, 0x702, 0x703, 0x704, 0x705, 0x10650,
        ] {
            for platform in 0..8 {
                self.push(Call {
                    loading: true,
                    store: store.clone(),
                    ..base(Request::Load {
                        signature,
                        platform,
                    })
                });
            }
        }
        for platform in [0, 1, 7, 8, 9, 33, 0x100, 0x101, 0x8000_0001, 0xFFFF_FFFF] {
            for loading in [false, true] {
                for store in [store.clone(), make::unused(2), Vec::new(), vec![0; BLOCK]] {
                    self.push(Call {
                        loading,
                        store,
                        ..base(Request::Load {
                            signature: 0x650,
                            platform,
                        })
                    });
                }
            }
        }
        // Arguments that are not the load's own, and after it a read and a write.
        self.push(base(Request::update(READ)));
        self.push(base(Request::update(WRITE)));
    }
}
