// The check's counts and the questions. They change nothing.

use super::heap::{Heap, Kind};
use super::layout::{
    Outcome, ASK_BIN, ASK_BLOCK, ASK_CHUNK, ASK_COUNT, ASK_FIRST, ASK_LAST, ASK_NEXT, ASK_NEXT_IN_BIN, ASK_PREVIOUS,
    ASK_PREVIOUS_IN_BIN, ASK_SIZE, ASK_TYPE, NO_SUCH,
};
use super::table;

/// Counts alone: a heap that was decoded passes.
pub fn check(heap: &Heap) -> Outcome {
    let chunks = heap.chain.len() as u32;
    let ordinary = heap.ordinary().count() as u32;
    Ok([chunks, ordinary, heap.used(), heap.free()])
}

/// A value, or none, which is told apart from a value of 0.
fn tell(told: Option<u32>) -> Outcome {
    Ok([0, told.unwrap_or(0), 0, u32::from(told.is_none())])
}

/// ASK_CHUNK is given a block's place, the others a chunk's.
pub fn of_chunk(heap: &Heap, question: u32, place: u32) -> Outcome {
    let there = match question {
        ASK_CHUNK => heap.find_live(place),
        ASK_BIN..=ASK_TYPE => heap.find(place),
        _ => None,
    };
    tell(told_of_chunk(heap, question, there.ok_or(NO_SUCH)?))
}

/// What is told of the chunk at position `at` of the chain.
fn told_of_chunk(heap: &Heap, question: u32, at: usize) -> Option<u32> {
    let chunk = heap.chain[at];
    let kind = heap.kind(at);
    match question {
        ASK_BIN if kind == Kind::Ordinary => Some(table::bin_of(&heap.table, chunk.size) as u32),
        ASK_BLOCK if kind == Kind::InUse => Some(chunk.block()),
        ASK_CHUNK => Some(chunk.place),
        ASK_NEXT => heap.next(at),
        ASK_NEXT_IN_BIN if kind == Kind::Ordinary => bin_neighbours(heap, at).1,
        ASK_PREVIOUS => heap.previous(at),
        ASK_PREVIOUS_IN_BIN if kind == Kind::Ordinary => bin_neighbours(heap, at).0,
        ASK_SIZE => Some(chunk.size),
        ASK_TYPE => Some(u32::from(chunk.in_use)),
        _ => None,
    }
}

/// The places before and after an ordinary chunk in its list; none at the list's ends.
fn bin_neighbours(heap: &Heap, at: usize) -> (Option<u32>, Option<u32>) {
    let chunk = heap.chain[at];
    let list = &heap.bins[table::bin_of(&heap.table, chunk.size)];
    let mut parts = list.split(|&place| place == chunk.place);
    let before = parts.next().and_then(|part| part.last());
    let after = parts.next().and_then(|part| part.first());
    (before.copied(), after.copied())
}

pub fn of_bin(heap: &Heap, question: u32, bin: u32) -> Outcome {
    let list = heap.bins.get(bin as usize).ok_or(NO_SUCH)?;
    match question {
        ASK_COUNT => tell(Some(list.len() as u32)),
        ASK_FIRST => tell(list.first().copied()),
        ASK_LAST => tell(list.last().copied()),
        _ => Err(NO_SUCH),
    }
}
