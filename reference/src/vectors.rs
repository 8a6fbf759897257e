//! The vectors: calls written as small steps for another program's standard input,
//! and the lines that it has to write.

mod buffer;

use crate::calls::{Answer, Call, Request, CANDIDATE_ROOM, DESTINATION_ROOM, STORE_ROOM};
use crate::edges::edges;
use crate::generate::{Generator, Style};
use crate::index::{Index, ALL_UNUSED};
use crate::model;
use crate::tally::Tally;
use buffer::Buffer;
use std::fmt::Write;
use std::fs;
use std::path::Path;

/// How many random calls follow the edges, and from which seed.
const RANDOM_CALLS: usize = 1300;
const SEED: u64 = 20;

/// The steps.
pub const LEN: u8 = 1;
pub const FILL: u8 = 2;
pub const PUT: u8 = 3;
pub const LIST: u8 = 4;
pub const CALL: u8 = 5;
pub const LOAD: u8 = 6;
pub const INDEX: u8 = 7;
pub const INDEX_AFTER: u8 = 8;
pub const INDEX_PUT: u8 = 9;
pub const READ_INDEXED: u8 = 10;
pub const LOAD_INDEXED: u8 = 11;

/// A short number for many bytes or words.
pub fn digest<T: Copy + Into<u64>>(numbers: &[T]) -> u64 {
    let mut digest = 1;
    for &number in numbers {
        digest = (digest * 31 + number.into()) % 4_294_967_291;
    }
    digest
}

/// The line for one answer. A call that makes an index has its digest at the end.
pub fn line(answer: &Answer) -> String {
    let mut text = format!("{:08x}", answer.ax);
    for word in answer.words {
        write!(text, " {word}").expect("a string takes any text");
    }
    let mut digests = vec![digest(&answer.store), digest(&answer.destination)];
    digests.extend(answer.index.map(|index| digest(&index)));
    for digest in digests {
        write!(text, " {digest:08x}").expect("a string takes any text");
    }
    text + "\n"
}

/// The steps and lines so far.
pub struct Vectors {
    pub stdin: Vec<u8>,
    pub stdout: String,
    pub calls: usize,
    pub tally: Tally,
    store: Buffer,
    candidate: Buffer,
    destination: Buffer,
    list: (Vec<u32>, Vec<u8>),
    /// The index as the reading program holds it.
    index: Index,
}

impl Vectors {
    pub fn new() -> Vectors {
        Vectors {
            stdin: Vec::new(),
            stdout: String::new(),
            calls: 0,
            tally: Tally::default(),
            store: Buffer::new(0, STORE_ROOM),
            candidate: Buffer::new(1, CANDIDATE_ROOM),
            destination: Buffer::new(2, DESTINATION_ROOM),
            list: (Vec::new(), Vec::new()),
            index: ALL_UNUSED,
        }
    }

    /// Writes one call down, and its answer, which is returned.
    pub fn add(&mut self, call: &Call) -> Answer {
        self.set_inputs(call);
        self.step(&call.request);
        if call.request.takes_loading() {
            self.stdin.push(u8::from(call.loading));
        }

        let answer = model::answer(call);
        self.store.took(&answer.store);
        self.destination.took(&answer.destination);
        if let Some(index) = answer.index {
            self.index = index;
        }
        self.stdout.push_str(&line(&answer));
        self.calls += 1;
        self.tally.add(call, &answer);
        answer
    }

    /// Writes the steps that make the reading program hold the call's inputs.
    fn set_inputs(&mut self, call: &Call) {
        let out = &mut self.stdin;
        self.store.become_bytes(&call.store, out);
        self.candidate.become_bytes(&call.candidate, out);
        self.destination.become_bytes(&call.destination, out);
        if (&self.list.0, &self.list.1) != (&call.signatures, &call.platforms) {
            out.extend([LIST, call.signatures.len() as u8]);
            put_words(out, &call.signatures);
            out.push(call.platforms.len() as u8);
            out.extend(&call.platforms);
            self.list = (call.signatures.clone(), call.platforms.clone());
        }
        let Some(index) = call.request.index() else {
            return;
        };
        for (place, (held, &wanted)) in self.index.iter_mut().zip(index).enumerate() {
            if *held != wanted {
                out.extend([INDEX_PUT, place as u8]);
                put_words(out, &[wanted]);
                *held = wanted;
            }
        }
    }

    /// Writes the step that makes the call, but for the loading state behind it.
    fn step(&mut self, request: &Request) {
        let (step, words) = match *request {
            Request::Update {
                function,
                sub_function,
                task,
                block,
                read_back,
            } => (CALL, vec![function, sub_function, task, block, read_back]),
            Request::Load {
                signature,
                platform,
            } => (LOAD, vec![signature, platform]),
            Request::Index => (INDEX, vec![]),
            Request::IndexAfter {
                emptied,
                start,
                revision,
                size,
                ..
            } => (INDEX_AFTER, vec![emptied, start, revision, size]),
            Request::ReadIndexed { block, .. } => (READ_INDEXED, vec![block]),
            Request::LoadIndexed {
                signature,
                platform,
                ..
            } => (LOAD_INDEXED, vec![signature, platform]),
        };
        self.stdin.push(step);
        put_words(&mut self.stdin, &words);
    }
}

fn put_words(out: &mut Vec<u8>, words: &[u32]) {
    out.extend(words.iter().flat_map(|word| word.to_le_bytes()));
}

/// All the vectors.
pub fn vectors() -> Vectors {
    let mut vectors = Vectors::new();
    for call in edges() {
        vectors.add(&call);
    }
    let mut generator = Generator::new(SEED, Style::Compact);
    for _ in 0..RANDOM_CALLS {
        let answer = vectors.add(generator.draw());
        generator.answered(answer);
    }
    let calls = vectors.calls;
    writeln!(vectors.stdout, "{calls} calls").expect("a string takes any text");
    vectors
}

/// Writes the vectors into a directory.
pub fn write_vectors(directory: &Path) -> Result<(), String> {
    let vectors = vectors();
    eprint!("{}", vectors.tally);
    let missing = vectors.tally.rarer_than(1);
    if !missing.is_empty() {
        return Err(format!("codes that no call reached: {missing:X?}"));
    }
    let put = |name: &str, bytes: &[u8]| {
        let path = directory.join(name);
        fs::write(&path, bytes).map_err(|error| format!("{}: {error}", path.display()))
    };
    fs::create_dir_all(directory).map_err(|error| format!("{}: {error}", directory.display()))?;
    put("stdin", &vectors.stdin)?;
    put("stdout", vectors.stdout.as_bytes())?;
    eprintln!(
        "{} calls, {} bytes of stdin, {} bytes of stdout",
        vectors.calls,
        vectors.stdin.len(),
        vectors.stdout.len()
    );
    Ok(())
}
