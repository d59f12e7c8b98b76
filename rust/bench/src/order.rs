//! One bin outside the small array with many chunks: the check, frees that put a chunk at the head, in the middle and at the
//! tail of the list, and allocate + free, by the number of chunks in the bin.

use crate::checks::{by_hand, proved, repeat, Check};
use crate::clock::{interleaved, Work};
use crate::peers::{Allocator, Kruzhvela};
use kruzhvela::flat::{self, Record, ANSWER_REFUSAL, ANSWER_VALUE};
use kruzhvela::limits::{HEADER_BYTES, MOST_WORDS};
use kruzhvela::BinQuestion;
use std::hint::black_box;

/// The second bin is not small and takes every size from 32 on.
const TABLE: [u32; 2] = [24, 32];
const BIN: u32 = 1;

/// How many chunks the bin has.
pub const MEMBERS: [usize; 3] = [10, 100, 1_000];

/// The chunk sizes of the bin, such that a thousand chunks fit into the largest heap.
const SIZES: [u32; 6] = [40, 48, 56, 64, 72, 80];

/// Chunk sizes of live blocks: freed, they go before all, behind half and behind all of the bin's.
const HEAD: u32 = 32;
const MIDDLE: u32 = 56;
const TAIL: u32 = 80;

/// Nanoseconds of each call.
pub struct Row {
    pub members: usize,
    pub check: f64,
    pub by_hand: f64,
    pub head: f64,
    pub middle: f64,
    pub tail: f64,
    pub allocate_free: f64,
}

/// A heap with the full bin, and the blocks to free: for the head, the middle and the tail.
struct Station {
    heap: Kruzhvela,
    blocks: [usize; 3],
}

fn allocate(heap: &mut Kruzhvela, size: u32) -> usize {
    let block = heap.allocate(size - HEADER_BYTES);
    assert_ne!(block, 0, "there is room for all chunks");
    block
}

/// The chunks are freed in ascending order of size, so that the list is the same whether a chunk is put by its size or at the
/// tail. With merging off they stay.
fn station(members: usize) -> Station {
    let mut heap = Kruzhvela::new(MOST_WORDS, &TABLE, 0, false);
    let blocks = [HEAD, MIDDLE, TAIL].map(|size| allocate(&mut heap, size));
    let sizes = SIZES.iter().copied().cycle().take(members);
    let mut in_bin: Vec<(u32, usize)> = sizes.map(|size| (size, allocate(&mut heap, size))).collect();
    in_bin.sort();
    for (_, block) in in_bin {
        heap.free(block);
    }
    let count = flat::ask_bin(&heap.region, &heap.record, BinQuestion::Count as u32, BIN)[ANSWER_VALUE];
    assert_eq!(count as usize, members);
    Station { heap, blocks }
}

/// The words that a call changes, as they were: every repetition finds the same heap.
struct Before {
    words: Vec<(usize, u32)>,
    record: Record,
}

impl Before {
    fn of(call: &mut dyn FnMut(&mut Kruzhvela), heap: &Kruzhvela) -> Before {
        let mut after = heap.clone();
        call(&mut after);
        let pairs = heap.region.iter().zip(&after.region).enumerate();
        let words = pairs.filter(|(_, (old, new))| old != new).map(|(at, (&old, _))| (at, old)).collect();
        Before { words, record: heap.record }
    }

    fn put_back(&self, heap: &mut Kruzhvela) {
        for &(at, word) in &self.words {
            heap.region[at] = word;
        }
        heap.record = self.record;
    }
}

/// Two works: the call with the words put back after it, and the putting back alone.
fn repeated(times: u64, heap: &Kruzhvela, mut call: impl FnMut(&mut Kruzhvela) + 'static) -> [Work<'static>; 2] {
    let before = Before::of(&mut call, heap);
    let same = Before { words: before.words.clone(), record: before.record };
    let (mut one, mut other) = (heap.clone(), heap.clone());
    let called = move || {
        for _ in 0..times {
            call(black_box(&mut one));
            before.put_back(&mut one);
        }
        times
    };
    let put_back = move || {
        for _ in 0..times {
            same.put_back(black_box(&mut other));
        }
        times
    };
    [Box::new(called), Box::new(put_back)]
}

fn free(heap: &mut Kruzhvela, block: usize) {
    assert_eq!(flat::free(&mut heap.region, &mut heap.record, block as u32)[ANSWER_REFUSAL], 0);
}

/// Takes the first chunk of a size that the middle of the list has, and gives it back.
fn allocate_free(heap: &mut Kruzhvela) {
    let block = allocate(heap, MIDDLE);
    free(heap, block);
}

fn checked(times: u64, check: Check, mut heap: Kruzhvela) -> Work<'static> {
    Box::new(move || {
        repeat(times, check, &mut heap);
        times
    })
}

fn measure(members: usize) -> Row {
    let Station { mut heap, blocks } = station(members);
    assert_eq!(proved(&mut heap), by_hand(&mut heap), "both count alike");
    let times = 400_000 / (members as u64 + 40);
    let mut works = vec![checked(times, proved, heap.clone()), checked(times, by_hand, heap.clone())];
    for block in blocks {
        works.extend(repeated(times, &heap, move |heap| free(heap, block)));
    }
    works.extend(repeated(times, &heap, allocate_free));
    let medians = interleaved(works);
    let call = |at: usize| medians[2 + 2 * at] - medians[3 + 2 * at];
    Row {
        members,
        check: medians[0],
        by_hand: medians[1],
        head: call(0),
        middle: call(1),
        tail: call(2),
        allocate_free: call(3),
    }
}

pub fn rows() -> Vec<Row> {
    MEMBERS.iter().map(|&members| measure(members)).collect()
}
