//! The check against a peer in C on the same heaps: a walk by hand.

use crate::clock::{interleaved, Work};
use crate::peers::{Allocator, Kruzhvela};
use kruzhvela::flat::{self, Answer, ANSWER_REFUSAL, ANSWER_WORDS, CHECK_CHUNKS};
use kruzhvela::limits::MOST_WORDS;
use std::hint::black_box;

extern "C" {
    fn limit_check(region: *const u32, words: usize, record: *const u32, answer: *mut u32) -> u32;
}

#[derive(Clone, Copy, Debug, PartialEq, Eq)]
pub enum Fill {
    AllFree,
    AllUsed,
    Mixed,
}

pub const FILLS: [(Fill, &str); 3] = [(Fill::AllFree, "all free"), (Fill::AllUsed, "all used"), (Fill::Mixed, "mixed")];

/// A row of the table: the heap, and nanoseconds of the check and of the walk by hand.
pub struct Row {
    pub fill: Fill,
    pub chunks: u32,
    pub ours: f64,
    pub limit: f64,
}

/// Allocates so many blocks of a few sizes, then frees all, none or every second of them. With merging off the chunks stay.
pub fn filled(mut heap: Kruzhvela, blocks: u32, sizes: &[u32], fill: Fill) -> Kruzhvela {
    let blocks: Vec<usize> = (0..blocks as usize).map(|i| heap.allocate(sizes[i % sizes.len()])).collect();
    for (i, &block) in blocks.iter().enumerate() {
        assert_ne!(block, 0, "there is room for all chunks");
        if fill == Fill::AllFree || fill == Fill::Mixed && i % 2 == 1 {
            heap.free(block);
        }
    }
    heap
}

/// A heap of so many chunks; start, top and end are three of them.
pub fn heap(chunks: u32, fill: Fill) -> Kruzhvela {
    let words = if chunks > 1_000 { MOST_WORDS } else { chunks as usize * 12 };
    let sizes: &[u32] = if chunks > 1_000 { &[16] } else { &[16, 24, 32] };
    filled(Kruzhvela::new(words, &[24, 32, 40, 48, 56, 64], 0, false), chunks - 3, sizes, fill)
}

pub fn proved(heap: &mut Kruzhvela) -> Answer {
    flat::check(&heap.region, &heap.record)
}

pub fn by_hand(heap: &mut Kruzhvela) -> Answer {
    let mut answer = [0; ANSWER_WORDS];
    // SAFETY: each pointer comes from a reference to the stated number of words.
    unsafe { limit_check(heap.region.as_ptr(), heap.region.len(), heap.record.as_ptr(), answer.as_mut_ptr()) };
    answer
}

/// A check: the proved one, or the one by hand.
pub type Check = fn(&mut Kruzhvela) -> Answer;

pub fn repeat(times: u64, check: Check, heap: &mut Kruzhvela) {
    for _ in 0..times {
        black_box(check(black_box(heap)));
    }
}

fn measure(chunks: u32, fill: Fill) -> Row {
    let mut one = heap(chunks, fill);
    let mut other = heap(chunks, fill);
    let answer = proved(&mut one);
    assert_eq!(answer, by_hand(&mut other), "both count alike");
    assert_eq!((answer[ANSWER_REFUSAL], answer[CHECK_CHUNKS]), (0, chunks));
    let times = 2_000_000 / u64::from(chunks + 40);
    let work = |check: Check, mut heap: Kruzhvela| -> Work<'static> {
        Box::new(move || {
            repeat(times, check, &mut heap);
            times
        })
    };
    let medians = interleaved(vec![work(proved, one), work(by_hand, other)]);
    Row { fill, chunks, ours: medians[0], limit: medians[1] }
}

pub const CHUNKS: [u32; 3] = [20, 200, 2_500];

pub fn rows() -> Vec<Row> {
    let each = FILLS.iter().flat_map(|&(fill, _)| CHUNKS.iter().map(move |&chunks| measure(chunks, fill)));
    each.collect()
}
