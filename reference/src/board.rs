//! The library, through its C interface.

use crate::index::Index;

mod c {
    extern "C" {
        pub fn update_store_call(
            function: u32,
            sub_function: u32,
            task: u32,
            block: u32,
            loading: bool,
            store: *mut u8,
            store_len: usize,
            signatures: *const u32,
            signature_count: usize,
            platforms: *const u8,
            platform_count: usize,
            candidate: *const u8,
            candidate_len: usize,
            read_back: u32,
            destination: *mut u8,
            destination_len: usize,
            answer: *mut u32,
        ) -> u32;

        pub fn update_store_load(
            loading: bool,
            store: *const u8,
            store_len: usize,
            signature: u32,
            platform: u32,
            answer: *mut u32,
        ) -> u32;

        pub fn update_store_index(
            store: *const u8,
            store_len: usize,
            index: *mut u32,
            answer: *mut u32,
        ) -> u32;

        pub fn update_store_index_after(
            old: *const u32,
            emptied: u32,
            start: u32,
            revision: u32,
            size: u32,
            new_index: *mut u32,
            answer: *mut u32,
        ) -> u32;

        pub fn update_store_read_indexed(
            index: *const u32,
            block: u32,
            store: *const u8,
            store_len: usize,
            destination: *mut u8,
            destination_len: usize,
            answer: *mut u32,
        ) -> u32;

        pub fn update_store_load_indexed(
            loading: bool,
            index: *const u32,
            store: *const u8,
            store_len: usize,
            signature: u32,
            platform: u32,
            answer: *mut u32,
        ) -> u32;
    }
}

#[allow(clippy::too_many_arguments)]
pub fn call(
    function: u32,
    sub_function: u32,
    task: u32,
    block: u32,
    loading: bool,
    store: &mut [u8],
    signatures: &[u32],
    platforms: &[u8],
    candidate: &[u8],
    read_back: u32,
    destination: &mut [u8],
    answer: &mut [u32; 16],
) -> u32 {
    // SAFETY: each pointer is lent with its own length, and the answer has 16 words.
    unsafe {
        c::update_store_call(
            function,
            sub_function,
            task,
            block,
            loading,
            store.as_mut_ptr(),
            store.len(),
            signatures.as_ptr(),
            signatures.len(),
            platforms.as_ptr(),
            platforms.len(),
            candidate.as_ptr(),
            candidate.len(),
            read_back,
            destination.as_mut_ptr(),
            destination.len(),
            answer.as_mut_ptr(),
        )
    }
}

pub fn load(
    loading: bool,
    store: &[u8],
    signature: u32,
    platform: u32,
    answer: &mut [u32; 16],
) -> u32 {
    // SAFETY: the store is lent with its own length, and the answer has 16 words.
    unsafe {
        c::update_store_load(
            loading,
            store.as_ptr(),
            store.len(),
            signature,
            platform,
            answer.as_mut_ptr(),
        )
    }
}

pub fn index(store: &[u8], index: &mut Index, answer: &mut [u32; 16]) -> u32 {
    // SAFETY: the store is lent with its own length, the index has 128 words, and the
    // answer has 16.
    unsafe {
        c::update_store_index(
            store.as_ptr(),
            store.len(),
            index.as_mut_ptr(),
            answer.as_mut_ptr(),
        )
    }
}

pub fn index_after(
    old: &Index,
    emptied: u32,
    start: u32,
    revision: u32,
    size: u32,
    new_index: &mut Index,
    answer: &mut [u32; 16],
) -> u32 {
    // SAFETY: both indexes have 128 words, and the answer has 16.
    unsafe {
        c::update_store_index_after(
            old.as_ptr(),
            emptied,
            start,
            revision,
            size,
            new_index.as_mut_ptr(),
            answer.as_mut_ptr(),
        )
    }
}

pub fn read_indexed(
    index: &Index,
    block: u32,
    store: &[u8],
    destination: &mut [u8],
    answer: &mut [u32; 16],
) -> u32 {
    // SAFETY: the index has 128 words, store and destination are lent with their own
    // lengths, and the answer has 16 words.
    unsafe {
        c::update_store_read_indexed(
            index.as_ptr(),
            block,
            store.as_ptr(),
            store.len(),
            destination.as_mut_ptr(),
            destination.len(),
            answer.as_mut_ptr(),
        )
    }
}

pub fn load_indexed(
    loading: bool,
    index: &Index,
    store: &[u8],
    signature: u32,
    platform: u32,
    answer: &mut [u32; 16],
) -> u32 {
    // SAFETY: the index has 128 words, the store is lent with its own length, and the
    // answer has 16 words.
    unsafe {
        c::update_store_load_indexed(
            loading,
            index.as_ptr(),
            store.as_ptr(),
            store.len(),
            signature,
            platform,
            answer.as_mut_ptr(),
        )
    }
}
