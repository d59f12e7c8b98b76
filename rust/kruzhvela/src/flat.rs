//! The ten calls over flat words, as the compiled functions take them: `include/kruzhvela.h` has the same words as
//! structs. Rust's references meet the preconditions that the header states, so these functions are safe for all
//! arguments. (Region and record of a call that only looks may overlap: it stores into neither.)

use crate::limits::MOST_BINS;

/// The record's word that holds the heap bytes.
pub const BYTES: usize = 0;
/// The record's word that holds the bin count.
pub const BINS: usize = 1;
/// The record's word that holds the donor's place, 0 for none.
pub const DONOR: usize = 2;
/// The record's word that holds the top's place.
pub const TOP: usize = 3;
/// The record's word that holds the merge setting, 0 or 1.
pub const MERGE: usize = 4;
/// The record's word that holds the used bytes.
pub const USED: usize = 5;
/// The first of the record's [`MOST_BINS`] bin sizes.
pub const SIZES: usize = 6;
/// The first of the record's [`MOST_BINS`] heads.
pub const HEADS: usize = SIZES + MOST_BINS;
/// The first of the record's [`MOST_BINS`] tails.
pub const TAILS: usize = HEADS + MOST_BINS;

/// The record's word that holds the patrol's place.
pub const PATROL: usize = TAILS + MOST_BINS;

/// The number of words of a record.
pub const RECORD_WORDS: usize = PATROL + 1;

/// A heap's record. The constants above say which word holds what.
pub type Record = [u32; RECORD_WORDS];

/// The number of words of an answer.
pub const ANSWER_WORDS: usize = 5;

/// A call's answer. A word that the call does not name is 0.
pub type Answer = [u32; ANSWER_WORDS];

/// The answer's word that holds the refusal's number, 0 if the call was accepted.
pub const ANSWER_REFUSAL: usize = 0;
/// The answer's word that holds the block's offset.
pub const ANSWER_OFFSET: usize = 1;
/// The answer's word that holds what a question asked for, or 1 if the patrol handled the end chunk.
pub const ANSWER_VALUE: usize = 2;
/// The answer's word that holds the change in used bytes, in two's complement.
pub const ANSWER_CHANGE: usize = 3;
/// The answer's word that holds 1 where a question has no value to tell: there is none. It is 0 else; the check alone
/// has another figure there.
pub const ANSWER_NONE: usize = 4;

/// The word of the check's answer that holds the number of chunks.
pub const CHECK_CHUNKS: usize = 1;
/// The word of the check's answer that holds the number of ordinary free chunks.
pub const CHECK_ORDINARY: usize = 2;
/// The word of the check's answer that holds the used bytes.
pub const CHECK_USED: usize = 3;
/// The word of the check's answer that holds the free bytes.
pub const CHECK_FREE: usize = 4;

mod c {
    /// A number of words: 64 bits on every machine, as the header's `kz_length`.
    pub type Length = u64;

    extern "C" {
        pub fn kz_setup(
            region: *mut u32,
            words: Length,
            table: *const u32,
            bins: Length,
            donor: u32,
            merge: bool,
            record: *mut u32,
            answer: *mut u32,
        ) -> u32;
        pub fn kz_allocate(region: *mut u32, words: Length, record: *mut u32, z: u32, answer: *mut u32) -> u32;
        pub fn kz_allocate_cleared(
            region: *mut u32,
            words: Length,
            record: *mut u32,
            count: u32,
            size: u32,
            answer: *mut u32,
        ) -> u32;
        pub fn kz_free(region: *mut u32, words: Length, record: *mut u32, block: u32, answer: *mut u32) -> u32;
        pub fn kz_reallocate(
            region: *mut u32,
            words: Length,
            record: *mut u32,
            block: u32,
            z: u32,
            answer: *mut u32,
        ) -> u32;
        pub fn kz_set_merge(region: *mut u32, words: Length, record: *mut u32, on: bool, answer: *mut u32) -> u32;
        pub fn kz_check(region: *const u32, words: Length, record: *const u32, answer: *mut u32) -> u32;
        pub fn kz_ask_chunk(
            region: *const u32,
            words: Length,
            record: *const u32,
            question: u32,
            place: u32,
            answer: *mut u32,
        ) -> u32;
        pub fn kz_ask_bin(
            region: *const u32,
            words: Length,
            record: *const u32,
            question: u32,
            bin: u32,
            answer: *mut u32,
        ) -> u32;
        pub fn kz_patrol(region: *mut u32, words: Length, record: *mut u32, chunks: u32, answer: *mut u32) -> u32;
    }
}

/// Sets up a heap in the region. Writes the record without reading it.
pub fn setup(region: &mut [u32], table: &[u32], donor: u32, merge: bool, record: &mut Record) -> Answer {
    let mut answer = [0; ANSWER_WORDS];
    // SAFETY: each pointer comes from a reference to the stated number of words, and these references do not overlap.
    unsafe {
        c::kz_setup(
            region.as_mut_ptr(),
            region.len() as c::Length,
            table.as_ptr(),
            table.len() as c::Length,
            donor,
            merge,
            record.as_mut_ptr(),
            answer.as_mut_ptr(),
        );
    }
    answer
}

/// A call that may change region and record: these two, the call's own arguments, the answer.
macro_rules! call {
    ($(#[$doc:meta])* $name:ident, $function:ident $(, $argument:ident: $sort:ty)*) => {
        $(#[$doc])*
        pub fn $name(region: &mut [u32], record: &mut Record $(, $argument: $sort)*) -> Answer {
            let mut answer = [0; ANSWER_WORDS];
            // SAFETY: each pointer comes from a reference to the stated number of words, and these references do not overlap.
            unsafe {
                c::$function(region.as_mut_ptr(), region.len() as c::Length, record.as_mut_ptr() $(, $argument)*, answer.as_mut_ptr());
            }
            answer
        }
    };
}

/// A call that only looks: it stores nothing through the pointers to region and record. The proof says that both are
/// unchanged when it returns; that nothing is stored is tested with both in read-only memory (`.ci/c/read_only.c`).
macro_rules! look {
    ($(#[$doc:meta])* $name:ident, $function:ident $(, $argument:ident: $sort:ty)*) => {
        $(#[$doc])*
        pub fn $name(region: &[u32], record: &Record $(, $argument: $sort)*) -> Answer {
            let mut answer = [0; ANSWER_WORDS];
            // SAFETY: each pointer comes from a reference to the stated number of words. The function stores through the
            // pointer to the answer alone, so that region and record may be borrowed elsewhere, and may overlap.
            unsafe {
                c::$function(region.as_ptr(), region.len() as c::Length, record.as_ptr() $(, $argument)*, answer.as_mut_ptr());
            }
            answer
        }
    };
}

call!(
    /// Allocates a block of `z` bytes.
    allocate, kz_allocate, z: u32
);
call!(
    /// Allocates a block of `count` times `size` bytes and sets every word of it to 0.
    allocate_cleared, kz_allocate_cleared, count: u32, size: u32
);
call!(
    /// Frees a block.
    free, kz_free, block: u32
);
call!(
    /// Resizes a block to `z` bytes.
    reallocate, kz_reallocate, block: u32, z: u32
);
call!(
    /// Turns coalescing on or off.
    set_merge, kz_set_merge, on: bool
);
look!(
    /// Checks the whole heap and counts.
    check, kz_check
);
look!(
    /// Answers a question about a chunk.
    ask_chunk, kz_ask_chunk, question: u32, place: u32
);
look!(
    /// Answers a question about a bin.
    ask_bin, kz_ask_bin, question: u32, bin: u32
);
call!(
    /// Makes one run of the patrol, of so many chunks. It does not check the heap first.
    patrol, kz_patrol, chunks: u32
);
