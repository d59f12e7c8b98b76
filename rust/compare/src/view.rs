//! What a case reads of a heap to choose its next call or damage: the chain and the bins' lists, as far as they can be
//! followed. It does not check the heap.

use kruzhvela::flat::{Record, BINS, DONOR, HEADS, SIZES, TOP};
use kruzhvela::limits::{ALIGNMENT, LEAST_CHUNK, MOST_BINS, WORD_BYTES};

/// The words of a free chunk's header. A chunk in use has the first two.
pub const FORWARD: usize = 0;
pub const BACKWARD: usize = 1;
pub const SIZE: usize = 2;
pub const NEXT_IN_BIN: usize = 3;
pub const PREVIOUS_IN_BIN: usize = 4;
pub const BIN_WORD: usize = 5;
pub const HEADER_WORDS: u32 = 6;

/// The flag of the backward word that says in use.
pub const IN_USE: u32 = 1;

/// The bin word is the bin's number times this.
pub const BIN_FACTOR: u32 = 8;

/// The heap bytes of a region of so many words.
pub fn heap_bytes(words: usize) -> u32 {
    words as u32 * WORD_BYTES / ALIGNMENT * ALIGNMENT
}

/// The index in the region of a header word of the chunk at a place.
pub fn index(place: u32, word: usize) -> usize {
    (place / WORD_BYTES) as usize + word
}

#[derive(Clone, Copy, Debug)]
pub struct Chunk {
    pub place: u32,
    pub size: u32,
    pub in_use: bool,
}

pub struct View {
    /// The chunks between start and end.
    pub chunks: Vec<Chunk>,
    pub donor: u32,
    pub top: u32,
}

impl View {
    pub fn of(region: &[u32], record: &Record) -> View {
        View { chunks: chunks(region), donor: record[DONOR], top: record[TOP] }
    }

    pub fn live(&self) -> Vec<Chunk> {
        self.chunks.iter().copied().filter(|c| c.in_use).collect()
    }

    pub fn ordinary(&self) -> Vec<Chunk> {
        self.chunks.iter().copied().filter(|c| !c.in_use && c.place != self.donor && c.place != self.top).collect()
    }

    /// The size of the chunk at a place, 0 for none.
    pub fn size_at(&self, place: u32) -> u32 {
        self.chunks.iter().find(|c| c.place == place).map_or(0, |c| c.size)
    }
}

/// The number of bins that have a place in the record.
pub fn bins(record: &Record) -> usize {
    MOST_BINS.min(record[BINS] as usize)
}

/// m: the greatest number below the bin count up to which the bins have no gap.
pub fn small_bins(record: &Record) -> usize {
    (0..bins(record)).take_while(|&i| record[SIZES + i] == LEAST_CHUNK + ALIGNMENT * i as u32).last().unwrap_or(0)
}

/// The places in a bin's list, not more than a region of this length has free chunks: links may go in a circle.
pub fn list(region: &[u32], record: &Record, bin: usize) -> Vec<u32> {
    let some = |place: u32| (place != 0).then_some(place);
    let next = |&place: &u32| some(region.get(index(place, NEXT_IN_BIN)).copied()?);
    std::iter::successors(some(record[HEADS + bin]), next).take(region.len() / HEADER_WORDS as usize).collect()
}

fn chunks(region: &[u32]) -> Vec<Chunk> {
    let word = |place: u32, word: usize| region.get(index(place, word)).copied().unwrap_or(0);
    let mut found = Vec::new();
    let mut place = word(0, FORWARD);
    loop {
        let next = word(place, FORWARD);
        if place == 0 || next <= place || index(next, FORWARD) >= region.len() {
            return found;
        }
        found.push(Chunk { place, size: next - place, in_use: word(place, BACKWARD) & IN_USE != 0 });
        place = next;
    }
}
