// A second binned heap, written from the requirements alone, to compare the proved one with.
// Each call but the patrol decodes all words of region and record into plain
// lists, applies its rule to the lists, and renders the words that the rule
// writes. The patrol is for heaps that can't be decoded: it goes by the words.
// It shares no code and no constant with the proved heap or its wrapper: the
// comparison would not see a mistake in what both share.

mod bins;
mod call;
mod decode;
mod heap;
mod layout;
mod patrol;
mod questions;
mod render;
mod rules;
mod table;

pub use self::call::Call;
use self::heap::Heap;
use self::layout::{Outcome, HEAP_FAILS};
pub use self::layout::{ANSWER_WORDS, RECORD_WORDS};

/// Makes one call, on any region and record and with any arguments.
/// A refused call changes nothing, except that setup leaves a record of zeros.
pub fn apply(call: &Call, region: &mut [u32], record: &mut [u32; RECORD_WORDS]) -> [u32; ANSWER_WORDS] {
    let outcome = match *call {
        Call::Setup { ref table, donor, merge } => rules::setup(region, record, table, donor, merge),
        Call::Allocate { z } => on_heap(region, record, |heap, region| rules::allocate(heap, region, z)),
        Call::AllocateCleared { count, size } => {
            on_heap(region, record, |heap, region| rules::allocate_cleared(heap, region, count, size))
        }
        Call::Free { block } => on_heap(region, record, |heap, region| rules::free(heap, region, block)),
        Call::Reallocate { block, z } => {
            on_heap(region, record, |heap, region| rules::reallocate(heap, region, block, z))
        }
        Call::SetMerge { on } => on_heap(region, record, |heap, _| rules::set_merge(heap, on)),
        Call::Check => on_heap(region, record, |heap, _| questions::check(heap)),
        Call::AskChunk { question, place } => {
            on_heap(region, record, |heap, _| questions::of_chunk(heap, question, place))
        }
        Call::AskBin { question, bin } => on_heap(region, record, |heap, _| questions::of_bin(heap, question, bin)),
        Call::Patrol { chunks } => patrol::run(region, record, chunks),
    };
    match outcome {
        Ok([first, second, third, fourth]) => [0, first, second, third, fourth],
        Err(refusal) => [refusal, 0, 0, 0, 0],
    }
}

/// Every call but setup and the patrol decodes first, since refusal 4 comes before all others,
/// and renders the record only if it is accepted.
fn on_heap(
    region: &mut [u32],
    record: &mut [u32; RECORD_WORDS],
    rule: impl FnOnce(&mut Heap, &mut [u32]) -> Outcome,
) -> Outcome {
    let mut heap = decode::decode(region, record).ok_or(HEAP_FAILS)?;
    let figures = rule(&mut heap, region)?;
    render::record(&heap, record);
    Ok(figures)
}
