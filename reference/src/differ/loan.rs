//! All that is lent to the library for one call, and what the call made of it.

use super::lent::Lent;
use crate::board;
use crate::calls::{Answer, Call, Request};
use crate::index::Index;
use crate::random::Random;
use std::fmt::UpperHex;

/// What guards, unwritten answer words and an unwritten index hold.
const GUARD_BYTE: u8 = 0xC3;
const GUARD_WORD: u32 = 0xC3A5_5A3C;

/// The room for an index, before a function makes one.
const NOT_MADE: Index = [GUARD_WORD; 128];

/// Everything that is lent for one call.
pub struct Loan {
    store: Lent<u8>,
    signatures: Lent<u32>,
    platforms: Lent<u8>,
    candidate: Lent<u8>,
    destination: Lent<u8>,
    /// The index that the function takes, or nothing.
    index: Lent<u32>,
    /// Room for the index that the function makes.
    made: Lent<u32>,
    answer: Lent<u32>,
}

impl Loan {
    pub fn new() -> Loan {
        Loan {
            store: Lent::new(GUARD_BYTE),
            signatures: Lent::new(GUARD_WORD),
            platforms: Lent::new(GUARD_BYTE),
            candidate: Lent::new(GUARD_BYTE),
            destination: Lent::new(GUARD_BYTE),
            index: Lent::new(GUARD_WORD),
            made: Lent::new(GUARD_WORD),
            answer: Lent::new(GUARD_WORD),
        }
    }

    /// Lends the call's inputs, the bytes at any address now and then.
    pub fn set(&mut self, call: &Call, random: &mut Random) {
        let mut shift = || {
            if random.chance(25) {
                random.below(16)
            } else {
                0
            }
        };
        self.store.set(&call.store, shift());
        self.platforms.set(&call.platforms, shift());
        self.candidate.set(&call.candidate, shift());
        self.destination.set(&call.destination, shift());
        self.signatures.set(&call.signatures, shift());
        self.index.set(lent_index(call), shift());
        self.made.set(&NOT_MADE, shift());
        self.answer.set(&[GUARD_WORD; 16], shift());
    }

    /// Makes the call; the library's AX.
    pub fn run(&mut self, call: &Call) -> u32 {
        let words: &mut [u32; 16] = self.answer.array_mut();
        match call.request {
            Request::Update {
                function,
                sub_function,
                task,
                block,
                read_back,
            } => board::call(
                function,
                sub_function,
                task,
                block,
                call.loading,
                self.store.items_mut(),
                self.signatures.items(),
                self.platforms.items(),
                self.candidate.items(),
                read_back,
                self.destination.items_mut(),
                words,
            ),
            Request::Load {
                signature,
                platform,
            } => board::load(call.loading, self.store.items(), signature, platform, words),
            Request::Index => board::index(self.store.items(), self.made.array_mut(), words),
            Request::IndexAfter {
                emptied,
                start,
                revision,
                size,
                ..
            } => board::index_after(
                self.index.array(),
                emptied,
                start,
                revision,
                size,
                self.made.array_mut(),
                words,
            ),
            Request::ReadIndexed { block, .. } => board::read_indexed(
                self.index.array(),
                block,
                self.store.items(),
                self.destination.items_mut(),
                words,
            ),
            Request::LoadIndexed {
                signature,
                platform,
                ..
            } => board::load_indexed(
                call.loading,
                self.index.array(),
                self.store.items(),
                signature,
                platform,
                words,
            ),
        }
    }

    /// The answer words and the store after a write.
    pub fn written(&self) -> (&[u32; 16], &[u8]) {
        (self.answer.array(), self.store.items())
    }

    /// What is not as the model says, in words.
    pub fn differences(&self, call: &Call, ax: u32, right: &Answer) -> Vec<String> {
        let mut found = Vec::new();
        if ax != right.ax {
            found.push(format!("the result is {ax:08X}, not {:08X}", right.ax));
        }
        for (place, (word, wanted)) in self.answer.items().iter().zip(right.words).enumerate() {
            if *word != wanted {
                found.push(format!("answer word {place} is {word}, not {wanted}"));
            }
        }
        let made = right.index.unwrap_or(NOT_MADE);
        found.extend(differs("words of the index made", self.made.items(), &made));
        let lent = lent_index(call);
        found.extend(differs("words of the index lent", self.index.items(), lent));
        for (name, bytes, wanted) in [
            ("bytes of the store", &self.store, &right.store),
            (
                "bytes of the destination",
                &self.destination,
                &right.destination,
            ),
            ("bytes of the candidate", &self.candidate, &call.candidate),
        ] {
            found.extend(differs(name, bytes.items(), wanted));
        }
        if self.signatures.items() != call.signatures || self.platforms.items() != call.platforms {
            found.push("the processor list was changed".to_string());
        }
        for (name, stand) in [
            ("store", self.store.guards_stand()),
            ("signatures", self.signatures.guards_stand()),
            ("platforms", self.platforms.guards_stand()),
            ("candidate", self.candidate.guards_stand()),
            ("destination", self.destination.guards_stand()),
            ("index lent", self.index.guards_stand()),
            ("index made", self.made.guards_stand()),
            ("answer", self.answer.guards_stand()),
        ] {
            if !stand {
                found.push(format!("memory beside the {name} was changed"));
            }
        }
        found
    }
}

/// The index that the function takes; the others are lent none.
fn lent_index(call: &Call) -> &[u32] {
    call.request.index().map_or(&[], |index| &index[..])
}

/// Tells how bytes or words differ.
pub fn differs<T: PartialEq + UpperHex>(name: &str, items: &[T], right: &[T]) -> Option<String> {
    let pairs = items.iter().zip(right).enumerate();
    let mut wrong = pairs.filter(|(_, (item, wanted))| item != wanted);
    let (first, (item, wanted)) = wrong.next()?;
    let count = 1 + wrong.count();
    Some(format!(
        "{count} {name} differ, the first at {first}: {item:02X}, not {wanted:02X}"
    ))
}
