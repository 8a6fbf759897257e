//! A buffer of the reading program, and the steps that change it.

use super::{FILL, LEN, PUT};

/// A PUT carries at most so many bytes.
const MOST_PUT: usize = 1024;

/// A FILL pays from so many equal bytes on, and a new step behind so many bytes that
/// stand already.
const EQUAL: usize = 16;
const STANDING: usize = 9;

/// A buffer as the reading program holds it.
pub struct Buffer {
    number: u8,
    bytes: Vec<u8>,
    len: usize,
}

impl Buffer {
    pub fn new(number: u8, room: usize) -> Buffer {
        Buffer {
            number,
            bytes: vec![0; room],
            len: 0,
        }
    }

    /// Writes the steps that make the buffer hold these bytes.
    pub fn become_bytes(&mut self, wanted: &[u8], out: &mut Vec<u8>) {
        if wanted.len() != self.len {
            out.extend([LEN, self.number]);
            out.extend((wanted.len() as u32).to_le_bytes());
            self.len = wanted.len();
        }
        let mut at = 0;
        while at < wanted.len() {
            if self.bytes[at] == wanted[at] {
                at += 1;
                continue;
            }
            let equal = equal_bytes(&wanted[at..]);
            if equal >= EQUAL {
                out.extend([FILL, self.number]);
                out.extend((at as u32).to_le_bytes());
                out.extend((equal as u32).to_le_bytes());
                out.push(wanted[at]);
                at += equal;
            } else {
                let count = self.differing_bytes(wanted, at);
                out.extend([PUT, self.number]);
                out.extend((at as u32).to_le_bytes());
                out.extend((count as u16).to_le_bytes());
                out.extend(&wanted[at..at + count]);
                at += count;
            }
        }
        self.bytes[..wanted.len()].copy_from_slice(wanted);
    }

    /// How many bytes from here go into one PUT: up to a long part that stands already
    /// or that is better filled.
    fn differing_bytes(&self, wanted: &[u8], from: usize) -> usize {
        let mut last = from;
        let mut at = from;
        while at < wanted.len() && at < from + MOST_PUT && at - last < STANDING {
            if self.bytes[at] != wanted[at] {
                if equal_bytes(&wanted[at..]) >= EQUAL {
                    break;
                }
                last = at;
            }
            at += 1;
        }
        last - from + 1
    }

    /// What the call itself left in the buffer.
    pub fn took(&mut self, bytes: &[u8]) {
        self.bytes[..bytes.len()].copy_from_slice(bytes);
    }
}

/// How many bytes at the beginning are equal.
fn equal_bytes(bytes: &[u8]) -> usize {
    bytes.iter().take_while(|&&byte| byte == bytes[0]).count()
}
