//! Random calls, most of them nearly valid, in scenes of several calls on one store
//! that changes as the calls are answered.

mod indexes;
mod processors;
mod requests;
mod stores;
mod updates;
mod writes;

use crate::calls::{Answer, Call, Request, BLOCK, FUNCTION};
use crate::index::{Index, ALL_UNUSED, LINES};
use crate::make;
use crate::random::Random;
use crate::store::Store;
use crate::update::number;

/// How freely the bytes are chosen.
#[derive(Clone, Copy, PartialEq, Eq)]
pub enum Style {
    /// Few random bytes, small tables, so that the calls can be written down briefly.
    Compact,
    /// Any bytes.
    Wide,
}

pub struct Generator {
    random: Random,
    style: Style,
    call: Call,
    /// The scene's usual signatures.
    pool: Vec<u32>,
    /// What the store holds, if it is valid.
    known: Option<Store>,
    /// The store as it was before it was damaged for one call.
    whole: Option<Vec<u8>>,
    /// The index of another store: the one before the last accepted write, or the last
    /// of the scene before.
    other: Index,
    /// The index after the last accepted write, to be asked for.
    carry: Option<Request>,
    /// Calls left in the scene.
    left: usize,
}

impl Generator {
    pub fn new(seed: u64, style: Style) -> Generator {
        Generator {
            random: Random::new(seed),
            style,
            call: Call {
                request: Request::update(0),
                loading: false,
                store: Vec::new(),
                signatures: Vec::new(),
                platforms: Vec::new(),
                candidate: Vec::new(),
                destination: Vec::new(),
            },
            pool: Vec::new(),
            known: None,
            whole: None,
            other: ALL_UNUSED,
            carry: None,
            left: 0,
        }
    }

    /// The next call. Its answer is to be given to `answered`.
    pub fn draw(&mut self) -> &Call {
        if self.left == 0 {
            self.new_scene();
        }
        self.left -= 1;
        if self.random.chance(15) {
            self.call.loading = !self.call.loading;
        }
        if self.random.chance(20) {
            self.draw_indexed();
            return &self.call;
        }
        match self.random.below(100) {
            0..=56 => self.draw_write(),
            57..=64 => self.call.request = self.loose(FUNCTION, 0),
            65..=79 => self.draw_read(),
            80..=84 => self.call.request = self.loose(FUNCTION, 2),
            85..=94 => self.draw_load(),
            95..=97 => self.draw_unknown(),
            98 if self.style == Style::Wide => self.draw_anything(),
            _ => self.damage_store(),
        }
        &self.call
    }

    /// Takes over what the call left behind.
    pub fn answered(&mut self, answer: Answer) {
        self.call.destination = answer.destination;
        if self.call.request.takes_loading() {
            self.call.loading = answer.words[3] == 1;
        }
        if let Some(whole) = self.whole.take() {
            self.call.store = whole;
        } else if answer.store != self.call.store {
            self.other = self.own_index();
            self.call.store = answer.store;
            self.known = Store::parse(&self.call.store);
            let start = answer.words[5];
            self.carry = Some(Request::IndexAfter {
                old: self.other,
                emptied: answer.words[7],
                start,
                revision: number(&self.call.candidate, 4),
                size: self.own_index()[3 * LINES + start as usize],
            });
        }
    }

    fn new_scene(&mut self) {
        let usual = [
            0x650,
            0x651,
            0x652,
            0x6B1,
            0x665,
            0,
            1,
            0xFFFF_FFFF,
            0x10650,
        ];
        let count = self.random.between(1, 6);
        self.pool = (0..count).map(|_| self.random.pick(&usual)).collect();
        let blocks = match self.random.below(100) {
            0..=54 => self.random.between(1, 4),
            55..=86 => self.random.between(5, 10),
            87..=95 => self.random.between(11, 31),
            _ => 32,
        };
        self.other = self.own_index();
        self.carry = None;
        self.call.store = make::unused(blocks);
        self.fill_store(blocks);
        self.left = match self.style {
            Style::Compact => self.random.between(6, 20),
            Style::Wide => self.random.between(3, 16),
        };
        if self.random.chance(7) {
            self.spoil_store();
            self.left = self.random.between(1, 3);
        }
        self.known = Store::parse(&self.call.store);

        let length = self.random.below(4) * BLOCK;
        let byte = self.random.byte();
        self.call.destination = vec![byte; length];
        self.new_candidate();
    }
}
