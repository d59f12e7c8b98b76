//! The figures of the requirements: what a heap may have and be asked for, and how its chunks lie in bytes.

/// The fewest words that a region may have.
pub const FEWEST_WORDS: usize = 10;
/// The most words that a region may have.
pub const MOST_WORDS: usize = 16_384;
/// The most bins that a heap may have.
pub const MOST_BINS: usize = 32;
/// The most bytes that a block may be asked for.
pub const MOST_BYTES: u32 = 65_488;

/// Bytes of a word.
pub const WORD_BYTES: u32 = 4;
/// Alignment in bytes: places and sizes of chunks are multiples of it.
pub const ALIGNMENT: u32 = 8;
/// Bytes of the two links that begin every chunk: the distance from a chunk to its block, and the size of start and end.
pub const HEADER_BYTES: u32 = 8;
/// The least bytes of any other chunk: the six header words of a free one.
pub const LEAST_CHUNK: u32 = 24;
/// The least heap bytes: start, end and a least top.
pub const LEAST_HEAP: u32 = 2 * HEADER_BYTES + LEAST_CHUNK;
