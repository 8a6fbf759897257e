//! Function and sub-function numbers, and control tasks.

use super::{base, Edges};
use crate::calls::{Call, Request, BLOCK, FUNCTION};
use crate::make;

impl Edges {
    pub(super) fn functions(&mut self) {
        let functions = [
            FUNCTION,
            0,
            0xD0,
            0x42,
            FUNCTION - 1,
            FUNCTION + 1,
            0x1D042,
            0x8000_D042,
            0xD042_0000,
            0xFFFF_FFFF,
        ];
        let others = [0x100, 0x10001, 0x8000_0002];
        for function in functions {
            let near = [0, 1, 2, 3, 4, 0xFFFF_FFFF];
            for sub_function in near.into_iter().chain(others) {
                if function != FUNCTION && others.contains(&sub_function) {
                    continue;
                }
                for (task, loading) in [(1, false), (9, true)] {
                    self.push(Call {
                        loading,
                        ..base(Request::Update {
                            function,
                            sub_function,
                            task,
                            block: 1,
                            read_back: 8,
                        })
                    });
                }
            }
        }
    }

    pub(super) fn tasks(&mut self) {
        let tasks = [
            0,
            1,
            2,
            3,
            4,
            0x100,
            0x101,
            0x102,
            0x10001,
            0x8000_0001,
            0x8000_0002,
            0xFFFF_FFFE,
            0xFFFF_FFFF,
        ];
        for task in tasks {
            for loading in [false, true] {
                for store in [make::unused(2), Vec::new(), vec![0; BLOCK]] {
                    self.push(Call {
                        loading,
                        store,
                        ..base(Request::control(task))
                    });
                }
            }
        }
    }
}
