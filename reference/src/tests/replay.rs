//! Reads the steps of the vectors as another program reads them.

use crate::calls::{Answer, Call, Request, CANDIDATE_ROOM, DESTINATION_ROOM, STORE_ROOM};
use crate::index::{Index, ALL_UNUSED};
use crate::vectors::{self, line};

const ROOMS: [usize; 3] = [STORE_ROOM, CANDIDATE_ROOM, DESTINATION_ROOM];

/// What is left of the steps.
struct Reader<'a> {
    rest: &'a [u8],
}

impl<'a> Reader<'a> {
    fn bytes(&mut self, count: usize) -> &'a [u8] {
        let (bytes, rest) = self.rest.split_at(count);
        self.rest = rest;
        bytes
    }

    fn byte(&mut self) -> u8 {
        self.bytes(1)[0]
    }

    fn word(&mut self) -> u32 {
        u32::from_le_bytes(self.bytes(4).try_into().unwrap())
    }

    fn half(&mut self) -> u16 {
        u16::from_le_bytes(self.bytes(2).try_into().unwrap())
    }
}

/// What the reading program holds.
struct Held {
    buffers: [Vec<u8>; 3],
    lengths: [usize; 3],
    signatures: Vec<u32>,
    platforms: Vec<u8>,
    index: Index,
}

impl Held {
    /// Takes a step that changes what is held; its number has been read.
    fn edit(&mut self, step: u8, reader: &mut Reader) {
        match step {
            vectors::LIST => {
                let count = reader.byte();
                assert!(count <= 16);
                self.signatures = (0..count).map(|_| reader.word()).collect();
                let count = reader.byte();
                assert!(count <= 16);
                self.platforms = reader.bytes(usize::from(count)).to_vec();
            }
            vectors::INDEX_PUT => {
                let place = usize::from(reader.byte());
                self.index[place] = reader.word();
            }
            _ => self.edit_buffer(step, reader),
        }
    }

    fn edit_buffer(&mut self, step: u8, reader: &mut Reader) {
        let buffer = usize::from(reader.byte());
        let at = reader.word() as usize;
        match step {
            vectors::LEN => {
                assert!(at <= ROOMS[buffer]);
                self.lengths[buffer] = at;
            }
            vectors::FILL => {
                let count = reader.word() as usize;
                self.buffers[buffer][at..at + count].fill(reader.byte());
            }
            vectors::PUT => {
                let count = usize::from(reader.half());
                assert!(count <= 1024);
                self.buffers[buffer][at..at + count].copy_from_slice(reader.bytes(count));
            }
            step => panic!("step {step}"),
        }
    }

    /// The request of a step that makes a call, and its loading state if it has one.
    fn request(&self, step: u8, reader: &mut Reader) -> Option<(Request, u8)> {
        let index = self.index;
        let request = match step {
            vectors::CALL => Request::Update {
                function: reader.word(),
                sub_function: reader.word(),
                task: reader.word(),
                block: reader.word(),
                read_back: reader.word(),
            },
            vectors::LOAD => Request::Load {
                signature: reader.word(),
                platform: reader.word(),
            },
            vectors::INDEX => return Some((Request::Index, 0)),
            vectors::INDEX_AFTER => {
                let after = Request::IndexAfter {
                    old: index,
                    emptied: reader.word(),
                    start: reader.word(),
                    revision: reader.word(),
                    size: reader.word(),
                };
                return Some((after, 0));
            }
            vectors::READ_INDEXED => {
                let block = reader.word();
                return Some((Request::ReadIndexed { index, block }, 0));
            }
            vectors::LOAD_INDEXED => Request::LoadIndexed {
                index,
                signature: reader.word(),
                platform: reader.word(),
            },
            _ => return None,
        };
        Some((request, reader.byte()))
    }

    fn call(&self, request: Request, loading: u8) -> Call {
        assert!(loading <= 1);
        let lent = |buffer: usize| self.buffers[buffer][..self.lengths[buffer]].to_vec();
        Call {
            request,
            loading: loading == 1,
            store: lent(0),
            signatures: self.signatures.clone(),
            platforms: self.platforms.clone(),
            candidate: lent(1),
            destination: lent(2),
        }
    }

    fn take(&mut self, answer: &Answer) {
        self.buffers[0][..self.lengths[0]].copy_from_slice(&answer.store);
        self.buffers[2][..self.lengths[2]].copy_from_slice(&answer.destination);
        self.index = answer.index.unwrap_or(self.index);
    }
}

/// Makes the calls that the steps ask for, and gives the lines of their answers.
pub fn replay(stdin: &[u8], mut answer: impl FnMut(&Call) -> Answer) -> String {
    let mut held = Held {
        buffers: ROOMS.map(|room| vec![0; room]),
        lengths: [0; 3],
        signatures: Vec::new(),
        platforms: Vec::new(),
        index: ALL_UNUSED,
    };
    let mut text = String::new();
    let mut calls = 0;
    let mut reader = Reader { rest: stdin };
    while !reader.rest.is_empty() {
        let step = reader.byte();
        let Some((request, loading)) = held.request(step, &mut reader) else {
            held.edit(step, &mut reader);
            continue;
        };
        let answer = answer(&held.call(request, loading));
        held.take(&answer);
        text.push_str(&line(&answer));
        calls += 1;
    }
    text + &format!("{calls} calls\n")
}
