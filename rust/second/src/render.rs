// Renders lists as words. Each function writes the words it names; all others,
// stale headers among them, stay as found.

use super::heap::{Heap, Kind};
use super::layout::{
    index, BACKWARD, BACKWARD_BIN, BIN, BIN_COUNT, BIN_FACTOR, DONOR, FORWARD, FORWARD_BIN, HEADS, HEAP_BYTES, IN_USE,
    MERGE, PATROL, RECORD_WORDS, SIZE, TABLE, TAILS, TOP, USED,
};
use super::table;

/// In a link 0 stands for none.
pub fn forward_link(heap: &Heap, region: &mut [u32], at: usize) {
    region[index(heap.chain[at].place, FORWARD)] = heap.next(at).unwrap_or(0);
}

/// The backward link with the chunk's in-use bit.
pub fn backward_link(heap: &Heap, region: &mut [u32], at: usize) {
    let chunk = heap.chain[at];
    let flag = if chunk.in_use { IN_USE } else { 0 };
    region[index(chunk.place, BACKWARD)] = heap.previous(at).unwrap_or(0) + flag;
}

/// The two words that every chunk has.
pub fn header(heap: &Heap, region: &mut [u32], at: usize) {
    forward_link(heap, region, at);
    backward_link(heap, region, at);
}

/// The six words of a free chunk. Both bin links are 0: if it belongs in a list,
/// it is put there afterwards.
pub fn free_header(heap: &Heap, region: &mut [u32], at: usize) {
    header(heap, region, at);
    let chunk = heap.chain[at];
    let bin = match heap.kind(at) {
        Kind::Ordinary => table::bin_of(&heap.table, chunk.size),
        _ => 0,
    };
    region[index(chunk.place, SIZE)] = chunk.size;
    region[index(chunk.place, FORWARD_BIN)] = 0;
    region[index(chunk.place, BACKWARD_BIN)] = 0;
    region[index(chunk.place, BIN)] = bin as u32 * BIN_FACTOR;
}

/// Links the members before and at position `at` of a list to each other; at an
/// end of the list, links the one member there is to none.
pub fn seam(list: &[u32], region: &mut [u32], at: usize) {
    let before = at.checked_sub(1).map_or(0, |before| list[before]);
    let after = list.get(at).copied().unwrap_or(0);
    if before != 0 {
        region[index(before, FORWARD_BIN)] = after;
    }
    if after != 0 {
        region[index(after, BACKWARD_BIN)] = before;
    }
}

/// The whole record, unused places included.
pub fn record(heap: &Heap, record: &mut [u32; RECORD_WORDS]) {
    *record = [0; RECORD_WORDS];
    record[HEAP_BYTES] = heap.heap_bytes;
    record[BIN_COUNT] = heap.table.len() as u32;
    record[DONOR] = heap.donor;
    record[TOP] = heap.top;
    record[MERGE] = u32::from(heap.merge);
    record[USED] = heap.used();
    record[PATROL] = heap.patrol;
    record[TABLE..TABLE + heap.table.len()].copy_from_slice(&heap.table);
    for (bin, list) in heap.bins.iter().enumerate() {
        record[HEADS + bin] = list.first().copied().unwrap_or(0);
        record[TAILS + bin] = list.last().copied().unwrap_or(0);
    }
}
