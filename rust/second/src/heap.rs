// The heap as lists: the chunks in the order of their places, and the places in each bin.

use std::ops::Range;

use super::layout::{HEADER_BYTES, WORD_BYTES};

#[derive(Clone, Copy)]
pub struct Chunk {
    pub place: u32,
    pub size: u32,
    pub in_use: bool,
}

#[derive(Clone, Copy, PartialEq, Eq)]
pub enum Kind {
    Start,
    InUse,
    Ordinary,
    Donor,
    Top,
    End,
}

/// A heap that passes the check. `donor` is 0 if absent; `patrol` is the place
/// of the chunk that the patrol handles next.
pub struct Heap {
    pub heap_bytes: u32,
    pub table: Vec<u32>,
    pub chain: Vec<Chunk>,
    pub bins: Vec<Vec<u32>>,
    pub donor: u32,
    pub top: u32,
    pub merge: bool,
    pub patrol: u32,
}

impl Chunk {
    pub fn block(&self) -> u32 {
        self.place + HEADER_BYTES
    }

    /// The words of the chunk's block, to the chunk's end.
    pub fn block_words(&self) -> Range<usize> {
        self.block() as usize / WORD_BYTES..(self.place + self.size) as usize / WORD_BYTES
    }
}

impl Heap {
    /// The kind of the chunk at position `at` of the chain.
    pub fn kind(&self, at: usize) -> Kind {
        let chunk = self.chain[at];
        if at == 0 {
            Kind::Start
        } else if at + 1 == self.chain.len() {
            Kind::End
        } else if chunk.in_use {
            Kind::InUse
        } else if chunk.place == self.donor {
            Kind::Donor
        } else if chunk.place == self.top {
            Kind::Top
        } else {
            Kind::Ordinary
        }
    }

    /// The position in the chain of the chunk at `place`.
    pub fn find(&self, place: u32) -> Option<usize> {
        self.chain.binary_search_by_key(&place, |chunk| chunk.place).ok()
    }

    /// The position in the chain of the chunk of a live block. The chain decides,
    /// not the word before the block, which may be stale.
    pub fn find_live(&self, block: u32) -> Option<usize> {
        let at = self.find(block.checked_sub(HEADER_BYTES)?)?;
        (self.kind(at) == Kind::InUse).then_some(at)
    }

    /// The place of the chunk above; the end chunk has none.
    pub fn next(&self, at: usize) -> Option<u32> {
        self.chain.get(at + 1).map(|chunk| chunk.place)
    }

    /// The place of the chunk below; the start chunk has none.
    pub fn previous(&self, at: usize) -> Option<u32> {
        at.checked_sub(1).map(|below| self.chain[below].place)
    }

    /// The free chunks other than donor and top. The ends are in use.
    pub fn ordinary(&self) -> impl Iterator<Item = &Chunk> {
        let free = self.chain.iter().filter(|chunk| !chunk.in_use);
        free.filter(|chunk| chunk.place != self.donor && chunk.place != self.top)
    }

    /// Used bytes, summed up by their definition each time.
    pub fn used(&self) -> u32 {
        let inner = &self.chain[1..self.chain.len() - 1];
        let live = inner.iter().filter(|chunk| chunk.in_use);
        live.map(|chunk| chunk.size).sum()
    }

    pub fn free(&self) -> u32 {
        let free = self.chain.iter().filter(|chunk| !chunk.in_use);
        free.map(|chunk| chunk.size).sum()
    }
}
