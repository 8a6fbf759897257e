//! One call of the C interface: all its inputs, and all that it leaves behind.

use crate::index::Index;

/// Bytes in a block.
pub const BLOCK: usize = 2048;

/// The most bytes that a generated call lends, buffer by buffer.
pub const STORE_ROOM: usize = 34 * BLOCK;
pub const CANDIDATE_ROOM: usize = 18 * BLOCK;
pub const DESTINATION_ROOM: usize = 34 * BLOCK;

/// The function number of the four update calls.
pub const FUNCTION: u32 = 0xD042;

/// The sub-functions.
pub const PRESENCE: u32 = 0;
pub const WRITE: u32 = 1;
pub const CONTROL: u32 = 2;
pub const READ: u32 = 3;

/// The AH codes.
pub const SUCCESS: u32 = 0x00;
pub const NOT_IMPLEMENTED: u32 = 0x86;
pub const READ_FAILURE: u32 = 0x92;
pub const STORAGE_FULL: u32 = 0x93;
pub const CPU_NOT_PRESENT: u32 = 0x94;
pub const INVALID_HEADER: u32 = 0x95;
pub const INVALID_HEADER_CS: u32 = 0x96;
pub const SECURITY_FAILURE: u32 = 0x97;
pub const INVALID_REVISION: u32 = 0x98;
pub const UPDATE_NUM_INVALID: u32 = 0x99;
pub const NOT_EMPTY: u32 = 0x9A;

/// Which C function is called, with the numbers that only it takes.
#[derive(Clone, Copy, Debug, PartialEq, Eq)]
pub enum Request {
    Update {
        function: u32,
        sub_function: u32,
        task: u32,
        block: u32,
        read_back: u32,
    },
    Load {
        signature: u32,
        platform: u32,
    },
    Index,
    IndexAfter {
        old: Index,
        emptied: u32,
        start: u32,
        revision: u32,
        size: u32,
    },
    ReadIndexed {
        index: Index,
        block: u32,
    },
    LoadIndexed {
        index: Index,
        signature: u32,
        platform: u32,
    },
}

/// All inputs of one call. The update calls take them all, the other functions a few.
#[derive(Clone, Debug, PartialEq, Eq)]
pub struct Call {
    pub request: Request,
    pub loading: bool,
    pub store: Vec<u8>,
    pub signatures: Vec<u32>,
    pub platforms: Vec<u8>,
    pub candidate: Vec<u8>,
    pub destination: Vec<u8>,
}

/// All that a call leaves behind: the image of AX, the answer words, the bytes of the
/// store and the destination after it, and the index if the call makes one.
#[derive(Clone, Debug, PartialEq, Eq)]
pub struct Answer {
    pub ax: u32,
    pub words: [u32; 16],
    pub store: Vec<u8>,
    pub destination: Vec<u8>,
    pub index: Option<Index>,
}

impl Request {
    /// A presence, write, control or read call with all other numbers 0.
    pub fn update(sub_function: u32) -> Request {
        Request::Update {
            function: FUNCTION,
            sub_function,
            task: 0,
            block: 0,
            read_back: 0,
        }
    }

    pub fn write(read_back: u32) -> Request {
        Request::Update {
            function: FUNCTION,
            sub_function: WRITE,
            task: 0,
            block: 0,
            read_back,
        }
    }

    pub fn control(task: u32) -> Request {
        Request::Update {
            function: FUNCTION,
            sub_function: CONTROL,
            task,
            block: 0,
            read_back: 0,
        }
    }

    pub fn read(block: u32) -> Request {
        Request::Update {
            function: FUNCTION,
            sub_function: READ,
            task: 0,
            block,
            read_back: 0,
        }
    }

    /// The index that is lent to the function, if it takes one.
    pub fn index(&self) -> Option<&Index> {
        match self {
            Request::IndexAfter { old, .. } => Some(old),
            Request::ReadIndexed { index, .. } | Request::LoadIndexed { index, .. } => Some(index),
            Request::Update { .. } | Request::Load { .. } | Request::Index => None,
        }
    }

    /// Whether the function takes the loading state.
    pub fn takes_loading(&self) -> bool {
        match self {
            Request::Update { .. } | Request::Load { .. } | Request::LoadIndexed { .. } => true,
            Request::Index | Request::IndexAfter { .. } | Request::ReadIndexed { .. } => false,
        }
    }

    /// The call's name in counts and reports.
    pub fn name(&self) -> &'static str {
        match *self {
            Request::Load { .. } => "load",
            Request::Index => "index",
            Request::IndexAfter { .. } => "index after",
            Request::ReadIndexed { .. } => "read indexed",
            Request::LoadIndexed { .. } => "load indexed",
            Request::Update { function, .. } if function != FUNCTION => "unknown function",
            Request::Update { sub_function, .. } => match sub_function {
                PRESENCE => "presence",
                WRITE => "write",
                CONTROL => "control",
                READ => "read",
                _ => "unknown sub-function",
            },
        }
    }
}
