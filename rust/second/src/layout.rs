// The figures of the requirements: layout of chunks and record, limits, numbers of refusals and questions.

/// Words of a free chunk's header, counted from the chunk's place. A chunk in use has the first two.
pub const FORWARD: usize = 0;
pub const BACKWARD: usize = 1;
pub const SIZE: usize = 2;
pub const FORWARD_BIN: usize = 3;
pub const BACKWARD_BIN: usize = 4;
pub const BIN: usize = 5;

/// The three low bits of the backward word. Bit 0 says in use; the two above it stay 0.
pub const FLAGS: u32 = 7;
pub const IN_USE: u32 = 1;

/// The bin word is the bin's number times this.
pub const BIN_FACTOR: u32 = 8;

/// Bytes of a word.
pub const WORD_BYTES: usize = 4;

/// Places and sizes of chunks are multiples of this.
pub const ALIGNMENT: u32 = 8;

/// The two header words of a chunk in use, in bytes: the size of start and end,
/// and the distance from a chunk to its block.
pub const HEADER_BYTES: u32 = 8;

/// The six header words of a free chunk, in bytes: the least size of a chunk
/// between start and end.
pub const LEAST_CHUNK: u32 = 24;

/// The lengths that a region may have, in words.
pub const FEWEST_WORDS: usize = 10;
pub const MOST_WORDS: usize = 16_384;

/// The greatest z: in the largest heap it leaves the ends, the block's header
/// and a least top.
pub const MOST_BYTES: u64 = 65_488;

/// Words of the record: six figures, then three arrays of MAX_BINS, then the
/// patrol's place.
pub const MAX_BINS: usize = 32;
pub const HEAP_BYTES: usize = 0;
pub const BIN_COUNT: usize = 1;
pub const DONOR: usize = 2;
pub const TOP: usize = 3;
pub const MERGE: usize = 4;
pub const USED: usize = 5;
pub const TABLE: usize = 6;
pub const HEADS: usize = TABLE + MAX_BINS;
pub const TAILS: usize = HEADS + MAX_BINS;
pub const PATROL: usize = TAILS + MAX_BINS;
pub const RECORD_WORDS: usize = PATROL + 1;

/// Words of an answer: the refusal number (0: accepted) and four figures.
pub const ANSWER_WORDS: usize = 5;

/// The refusals. No 9 is needed: a valid table begins with the least chunk size, so
/// every free chunk has a bin.
pub const REGION_LENGTH: u32 = 1;
pub const TABLE_INVALID: u32 = 2;
pub const DONOR_SIZE: u32 = 3;
pub const HEAP_FAILS: u32 = 4;
pub const BLOCK_SIZE: u32 = 5;
pub const NOT_LIVE: u32 = 6;
pub const NONE_CAN_SERVE: u32 = 7;
pub const NO_SUCH: u32 = 8;
pub const RUN_SIZE: u32 = 10;
pub const BEYOND_MENDING: u32 = 12;

/// Questions about a chunk.
pub const ASK_BIN: u32 = 1;
pub const ASK_BLOCK: u32 = 2;
pub const ASK_CHUNK: u32 = 3;
pub const ASK_NEXT: u32 = 4;
pub const ASK_NEXT_IN_BIN: u32 = 5;
pub const ASK_PREVIOUS: u32 = 6;
pub const ASK_PREVIOUS_IN_BIN: u32 = 7;
pub const ASK_SIZE: u32 = 8;
pub const ASK_TYPE: u32 = 9;

/// Questions about a bin.
pub const ASK_COUNT: u32 = 1;
pub const ASK_FIRST: u32 = 2;
pub const ASK_LAST: u32 = 3;

/// The four figures of an accepted call (offset, value, change, and 1 where a
/// question has none to tell; or the four counts of the check), or the number of
/// the refusal.
pub type Outcome = Result<[u32; ANSWER_WORDS - 1], u32>;

/// The outcome of an accepted call that names no figure.
pub const DONE: Outcome = Ok([0; ANSWER_WORDS - 1]);

/// The heap bytes of a region, if a heap may have its length.
pub fn heap_bytes(region: &[u32]) -> Option<u32> {
    let words = region.len();
    let bytes = u32::try_from(words * WORD_BYTES).ok()?;
    (FEWEST_WORDS..=MOST_WORDS).contains(&words).then(|| bytes / ALIGNMENT * ALIGNMENT)
}

/// The index in the region of a header word of the chunk at `place`.
pub fn index(place: u32, word: usize) -> usize {
    place as usize / WORD_BYTES + word
}

/// The index of `place` in a list with an entry for each aligned place.
pub fn slot(place: u32) -> usize {
    (place / ALIGNMENT) as usize
}
