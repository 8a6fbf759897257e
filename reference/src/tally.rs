//! Counts the calls by name, AH and AL; a name also tells cases that have the same codes.

use crate::calls::{
    Answer, Call, Request, CPU_NOT_PRESENT, INVALID_HEADER, INVALID_HEADER_CS, INVALID_REVISION,
    NOT_EMPTY, NOT_IMPLEMENTED, READ_FAILURE, SECURITY_FAILURE, STORAGE_FULL, SUCCESS,
    UPDATE_NUM_INVALID,
};
use crate::index::{built, line, Index};
use crate::store::Store;
use std::collections::BTreeMap;
use std::fmt;

/// A call's name, AH and AL.
type Line = (&'static str, u32, u32);

/// Every code that each call can give.
const CODES: [Line; 46] = [
    ("unknown function", NOT_IMPLEMENTED, 0),
    ("unknown sub-function", NOT_IMPLEMENTED, 0),
    ("presence", SUCCESS, 0),
    ("presence", READ_FAILURE, 1),
    ("write", SUCCESS, 0),
    ("write", READ_FAILURE, 1),
    ("write", READ_FAILURE, 2),
    ("write", STORAGE_FULL, 4),
    ("write", STORAGE_FULL, 5),
    ("write", CPU_NOT_PRESENT, 0),
    ("write", INVALID_HEADER, 0),
    ("write", INVALID_HEADER_CS, 0),
    ("write", SECURITY_FAILURE, 0),
    ("write", INVALID_REVISION, 0),
    ("control", SUCCESS, 0),
    ("control", NOT_IMPLEMENTED, 0),
    ("read", SUCCESS, 0),
    ("read", READ_FAILURE, 1),
    ("read", READ_FAILURE, 3),
    ("read", UPDATE_NUM_INVALID, 0),
    ("read", NOT_EMPTY, 0),
    ("load, nothing", SUCCESS, 0),
    ("load, chosen", SUCCESS, 0),
    ("load", READ_FAILURE, 1),
    ("load", READ_FAILURE, 2),
    ("index", SUCCESS, 0),
    ("index", READ_FAILURE, 1),
    ("index after, size 0", SUCCESS, 0),
    ("index after, start above 31", SUCCESS, 0),
    ("index after, start above 31, past 2^32", SUCCESS, 0),
    ("index after, whole run", SUCCESS, 0),
    ("index after, run cut off", SUCCESS, 0),
    ("index after, run cut off, past 2^32", SUCCESS, 0),
    ("read indexed", SUCCESS, 0),
    ("read indexed, bad store", READ_FAILURE, 1),
    ("read indexed, other index", READ_FAILURE, 1),
    ("read indexed, other behind N only", READ_FAILURE, 1),
    ("read indexed", READ_FAILURE, 3),
    ("read indexed", UPDATE_NUM_INVALID, 0),
    ("read indexed", NOT_EMPTY, 0),
    ("load indexed, nothing", SUCCESS, 0),
    ("load indexed, chosen", SUCCESS, 0),
    ("load indexed, bad store", READ_FAILURE, 1),
    ("load indexed, other index", READ_FAILURE, 1),
    ("load indexed, other behind N only", READ_FAILURE, 1),
    ("load indexed", READ_FAILURE, 2),
];

/// The name that a call is counted by.
fn name(call: &Call, answer: &Answer) -> &'static str {
    let bad = (answer.words[0], answer.words[1]) == (READ_FAILURE, 1);
    match (&call.request, answer.words[4]) {
        (Request::Load { .. }, 0) => "load, nothing",
        (Request::Load { .. }, 1) => "load, chosen",
        (Request::LoadIndexed { .. }, 0) => "load indexed, nothing",
        (Request::LoadIndexed { .. }, 1) => "load indexed, chosen",
        (Request::LoadIndexed { index, .. }, _) if bad => match Cause::of(&call.store, index) {
            Cause::BadStore => "load indexed, bad store",
            Cause::OtherIndex => "load indexed, other index",
            Cause::OtherBehind => "load indexed, other behind N only",
        },
        (Request::ReadIndexed { index, .. }, _) if bad => match Cause::of(&call.store, index) {
            Cause::BadStore => "read indexed, bad store",
            Cause::OtherIndex => "read indexed, other index",
            Cause::OtherBehind => "read indexed, other behind N only",
        },
        (&Request::IndexAfter { start, size, .. }, _) => run(start, size),
        (request, _) => request.name(),
    }
}

/// Why a call through an index is refused with AL 1.
enum Cause {
    BadStore,
    OtherIndex,
    OtherBehind,
}

impl Cause {
    fn of(store: &[u8], index: &Index) -> Cause {
        let Some(store) = Store::parse(store) else {
            return Cause::BadStore;
        };
        let own = built(&store);
        if (0..store.blocks).all(|block| line(index, block) == line(&own, block)) {
            Cause::OtherBehind
        } else {
            Cause::OtherIndex
        }
    }
}

/// Where the run lies that an index is carried over.
fn run(start: u32, size: u32) -> &'static str {
    let wraps = start.checked_add(size).is_none();
    let end = u64::from(start) + u64::from(size);
    match (start, size) {
        (_, 0) => "index after, size 0",
        (32.., _) if wraps => "index after, start above 31, past 2^32",
        (32.., _) => "index after, start above 31",
        _ if wraps => "index after, run cut off, past 2^32",
        _ if end > 32 => "index after, run cut off",
        _ => "index after, whole run",
    }
}

#[derive(Default)]
pub struct Tally {
    counts: BTreeMap<Line, u64>,
}

impl Tally {
    pub fn add(&mut self, call: &Call, answer: &Answer) {
        let line = (name(call, answer), answer.words[0], answer.words[1]);
        *self.counts.entry(line).or_default() += 1;
    }

    /// The codes that not so many calls gave so far.
    pub fn rarer_than(&self, often: u64) -> Vec<Line> {
        let mut codes = CODES.to_vec();
        codes.retain(|code| self.counts.get(code).is_none_or(|&count| count < often));
        codes
    }

    /// The writes that no check up to and including the revision refused, and all writes.
    pub fn past_revision(&self) -> (u64, u64) {
        let mut past = 0;
        let mut all = 0;
        for (&(name, ah, _), count) in &self.counts {
            if name == "write" {
                all += count;
                if [SUCCESS, STORAGE_FULL, SECURITY_FAILURE].contains(&ah) {
                    past += count;
                }
            }
        }
        (past, all)
    }
}

impl fmt::Display for Tally {
    fn fmt(&self, out: &mut fmt::Formatter) -> fmt::Result {
        for (&(name, ah, al), count) in &self.counts {
            writeln!(out, "{name:<38} AH {ah:02X} AL {al} {count:>9}")?;
        }
        let (past, all) = self.past_revision();
        writeln!(
            out,
            "{past} of {all} writes pass every check up to the revision"
        )
    }
}
