//! A binned heap in a fixed region of 32-bit words, with every answer proved.
//!
//! The heap owns its words or borrows them. A block is an offset in bytes from the first word; the heap gives access
//! to its words.
//!
//! ```
//! use kruzhvela::{Heap, Refusal};
//!
//! // 1,024 words, three bins, no donor, coalescing on
//! let mut heap = Heap::setup(vec![0; 1024], &[24, 64, 256], 0, true)?;
//! let strip = heap.allocate(40)?.block;
//! heap.words_of(strip)?[0] = 7;
//!
//! // the strip grows and may move: its contents stay
//! let strip = heap.reallocate(strip, 400)?.block;
//! assert_eq!(heap.words(strip)?[0], 7);
//!
//! heap.free(strip)?;
//! assert_eq!(heap.free(strip), Err(Refusal::NotLive));
//! # Ok::<(), kruzhvela::Refusal>(())
//! ```
//!
//! A heap over borrowed words gives them back when it is dropped:
//!
//! ```
//! use kruzhvela::Heap;
//!
//! let mut memory = [0u32; 64];
//! let mut heap = Heap::setup(&mut memory[..], &[24, 32, 40, 128], 64, true)?;
//! assert_eq!(heap.allocate(16)?.block.offset(), 16);
//! assert_eq!(heap.check()?.used, 24);
//! # Ok::<(), kruzhvela::Refusal>(())
//! ```
//!
//! # What it is for
//!
//! Records of many sizes in one small, fixed memory that must never mix: strips of image at a capture station, messages
//! in a driver. The caller keeps blocks by their offsets, so that a heap can be copied, stored and sent whole. A fault of
//! the program (a double free, a wrong offset) or of the memory (a flipped bit) is answered with a [`Refusal`], and
//! nothing is changed.
//!
//! It is no global allocator. That would have to answer any thread at any time with a pointer of any alignment; this heap
//! has no lock, at most 65,536 bytes, places that are multiples of 8, and it checks itself whole before every call, which
//! is the point of it and too dear for a program's every `Box`.
//!
//! The crate needs no standard library and allocates nothing. It links the archive that `tools/archive` writes;
//! `docs/MANUAL.md` of the repository explains chunks, bins, donor, top and each call.

#![no_std]
#![deny(missing_docs)]

mod heap;
mod refusal;

pub mod flat;
pub mod limits;

pub use heap::{BinQuestion, Block, ChunkQuestion, Counts, Granted, Heap, NotSetUp, TwoBlocks};
pub use refusal::Refusal;

/// The programs of README.md, compiled and run with the other examples.
#[cfg(doctest)]
#[doc = include_str!("../../../README.md")]
pub struct Readme;
