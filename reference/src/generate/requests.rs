//! The calls that change no store: requests that are loose, unknown or nearly right.

use super::Generator;
use crate::calls::{Request, BLOCK, CANDIDATE_ROOM, DESTINATION_ROOM, FUNCTION, STORE_ROOM};
use crate::store::Store;

impl Generator {
    /// An update call whose other numbers are drawn freely.
    pub(super) fn loose(&mut self, function: u32, sub_function: u32) -> Request {
        let task = match self.random.below(10) {
            0..=3 => 1,
            4..=6 => 2,
            7 => self.random.pick(&[0, 3, 4, 0x101, 0x102, 0xFFFF_FFFF]),
            8 => 1 << self.random.below(32),
            _ => self.random.word(),
        };
        Request::Update {
            function,
            sub_function,
            task,
            block: self.loose_block(),
            read_back: self.random.below(30) as u32,
        }
    }

    fn loose_block(&mut self) -> u32 {
        let blocks = self.call.store.len() / BLOCK;
        match self.random.below(20) {
            0 => blocks as u32,
            1 => self.random.pick(&[0xFFFF_FFFF, 0x8000_0000, 32, 33, 0x100]),
            2 => self.random.word(),
            3 => blocks.saturating_sub(1) as u32,
            _ => self.random.below(blocks.max(1)) as u32,
        }
    }

    pub(super) fn draw_unknown(&mut self) {
        let functions = [FUNCTION ^ 0x10000, FUNCTION + 1, 0, 0xD0, 0x42, 0x42D0];
        let function = self.random.pick(&functions);
        let known = self.random.below(4) as u32;
        self.call.request = match self.random.below(4) {
            0 => self.loose(function, known),
            1 => {
                let near = FUNCTION ^ 1 << self.random.below(32);
                self.loose(near, known)
            }
            2 => {
                let unknown = self.random.pick(&[4, 5, 0x100, 0x10001, 0xFFFF_FFFF]);
                self.loose(FUNCTION, unknown)
            }
            _ => {
                let unknown = known ^ 1 << self.random.between(2, 31);
                self.loose(FUNCTION, unknown)
            }
        };
    }

    /// A call with nothing right about it, save by chance.
    pub(super) fn draw_anything(&mut self) {
        let function = self.random.pick(&[FUNCTION, FUNCTION, FUNCTION, 0, 1]);
        let sub_function = self.random.below(5) as u32;
        self.call.request = self.loose(function, sub_function);
        if self.random.chance(20) {
            self.call.request = Request::Load {
                signature: self.random.word(),
                platform: self.random.word() >> self.random.below(32),
            };
        }
        let store = self.random.pick(&[0, BLOCK, 3 * BLOCK, STORE_ROOM]);
        let candidate = self.random.below(CANDIDATE_ROOM + 1);
        let destination = self.random.below(DESTINATION_ROOM + 1);
        self.call.store.resize(store, 0xFF);
        if self.random.chance(50) {
            self.random.fill(&mut self.call.store);
        }
        self.call.candidate.resize(candidate, 0);
        if self.random.chance(50) {
            self.random.fill(&mut self.call.candidate);
        }
        self.call.destination.resize(destination, 0);
        let signatures = self.random.below(13);
        let platforms = if self.random.chance(70) {
            signatures
        } else {
            self.random.below(13)
        };
        self.call.signatures = (0..signatures).map(|_| self.random.word()).collect();
        self.call.platforms = (0..platforms).map(|_| self.random.byte() >> 4).collect();
        self.known = Store::parse(&self.call.store);
        if self.random.chance(20) {
            self.draw_indexed();
        }
        self.left = 0;
    }

    pub(super) fn draw_read(&mut self) {
        self.call.request = self.loose(FUNCTION, 3);
        if let (Some(store), true) = (&self.known, self.random.chance(50)) {
            if !store.held.is_empty() {
                let held = &store.held[self.random.below(store.held.len())];
                let length = held.blocks * BLOCK;
                let length = match self.random.below(8) {
                    0 => length - 1,
                    1 => length - BLOCK,
                    2 => length + self.random.below(2 * BLOCK),
                    _ => length,
                };
                let block = match self.random.below(8) {
                    0 => held.first + held.blocks - 1,
                    1 => held.first + self.random.below(held.blocks),
                    _ => held.first,
                };
                self.call.request = Request::read(block as u32);
                self.call.destination.resize(length, 0xA5);
                return;
            }
        }
        if self.random.chance(30) {
            let length = match self.random.below(6) {
                0 => 0,
                1 => BLOCK - 1,
                2 => 3 * BLOCK + 5,
                _ => BLOCK,
            };
            self.call.destination.resize(length, 0x5A);
        }
    }

    pub(super) fn draw_load(&mut self) {
        let (signature, platform) = self.some_processor();
        let platform = match self.random.below(10) {
            0 => self
                .random
                .pick(&[8, 9, 255, 256, 257, 0x8000_0000, 0xFFFF_FFFF]),
            _ => platform,
        };
        let signature = match self.random.below(10) {
            0 => signature ^ 1 << self.random.below(32),
            _ => signature,
        };
        self.call.request = Request::Load {
            signature,
            platform,
        };
        if self.random.chance(60) {
            self.call.loading = true;
        }
    }
}
