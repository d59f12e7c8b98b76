// Decodes words into lists. Decoding is the check: it gives no lists for a heap that fails.

use super::heap::{Chunk, Heap, Kind};
use super::layout::{
    heap_bytes, index, slot, ALIGNMENT, BACKWARD, BACKWARD_BIN, BIN, BIN_COUNT, BIN_FACTOR, DONOR, FORWARD,
    FORWARD_BIN, HEADER_BYTES, HEADS, HEAP_BYTES, IN_USE, LEAST_CHUNK, MAX_BINS, MERGE, PATROL, RECORD_WORDS, SIZE,
    TABLE, TAILS, TOP, USED,
};
use super::table;

pub fn decode(region: &[u32], record: &[u32; RECORD_WORDS]) -> Option<Heap> {
    let heap_bytes = heap_bytes(region)?;
    if record[HEAP_BYTES] != heap_bytes || record[MERGE] > 1 {
        return None;
    }
    let mut heap = Heap {
        heap_bytes,
        table: decode_table(record)?,
        chain: decode_chain(region, heap_bytes)?,
        bins: Vec::new(),
        donor: record[DONOR],
        top: record[TOP],
        merge: record[MERGE] == 1,
        patrol: record[PATROL],
    };
    if !donor_and_top_hold(&heap, region) || heap.used() != record[USED] {
        return None;
    }
    heap.find(heap.patrol)?;
    heap.bins = decode_bins(&heap, region, record)?;
    Some(heap)
}

/// The table, if it is valid and the unused places of the three arrays are 0.
fn decode_table(record: &[u32; RECORD_WORDS]) -> Option<Vec<u32>> {
    let count = record[BIN_COUNT] as usize;
    let sizes = record[TABLE..].get(..count)?;
    if !table::valid(sizes) {
        return None;
    }
    let mut arrays = [TABLE, HEADS, TAILS].into_iter();
    let clean = arrays.all(|array| {
        let unused = &record[array + count..array + MAX_BINS];
        unused.iter().all(|&word| word == 0)
    });
    clean.then(|| sizes.to_vec())
}

/// The chain of chunks. It ends: each step goes up, and none past the end chunk.
fn decode_chain(region: &[u32], heap_bytes: u32) -> Option<Vec<Chunk>> {
    let end = heap_bytes - HEADER_BYTES;
    let mut chain = Vec::new();
    let (mut below, mut place) = (0, 0);
    loop {
        let chunk = decode_chunk(region, place, below, end)?;
        chain.push(chunk);
        if place == end {
            return Some(chain);
        }
        (below, place) = (place, place + chunk.size);
    }
}

/// One chunk, tested against all rules that read no chunk but this and the one below.
fn decode_chunk(region: &[u32], place: u32, below: u32, end: u32) -> Option<Chunk> {
    let forward = region[index(place, FORWARD)];
    let backward = region[index(place, BACKWARD)];
    let in_use = backward & IN_USE != 0;
    let size = if place == end {
        (forward == 0).then_some(HEADER_BYTES)?
    } else {
        let up = forward.is_multiple_of(ALIGNMENT) && forward > place && forward <= end;
        up.then(|| forward - place)?
    };
    let sound = if place == 0 || place == end {
        size == HEADER_BYTES && in_use
    } else {
        size >= LEAST_CHUNK && (in_use || region[index(place, SIZE)] == size)
    };
    // Only bit 0 is masked off, so a backward word with another flag set is refused.
    (sound && backward & !IN_USE == below).then_some(Chunk { place, size, in_use })
}

/// The top is the chunk below the end. A donor is another chunk, and so lies below the top.
fn donor_and_top_hold(heap: &Heap, region: &[u32]) -> bool {
    heap.previous(heap.chain.len() - 1) == Some(heap.top)
        && stays_out_of_bins(heap, region, heap.top, Kind::Top)
        && (heap.donor == 0 || stays_out_of_bins(heap, region, heap.donor, Kind::Donor))
}

fn stays_out_of_bins(heap: &Heap, region: &[u32], place: u32, kind: Kind) -> bool {
    let named = heap.find(place).is_some_and(|at| heap.kind(at) == kind);
    named && [FORWARD_BIN, BACKWARD_BIN, BIN].into_iter().all(|word| region[index(place, word)] == 0)
}

/// All bin lists. A chunk waits until a list names it: a chunk named twice is
/// refused, and so is a heap in which one still waits at the end.
fn decode_bins(heap: &Heap, region: &[u32], record: &[u32; RECORD_WORDS]) -> Option<Vec<Vec<u32>>> {
    let mut waiting = vec![false; slot(heap.heap_bytes)];
    for chunk in heap.ordinary() {
        waiting[slot(chunk.place)] = true;
    }
    let mut bins = Vec::with_capacity(heap.table.len());
    for bin in 0..heap.table.len() {
        let (head, tail) = (record[HEADS + bin], record[TAILS + bin]);
        let list = decode_list(region, head, tail, &mut waiting)?;
        let fits = |&place: &u32| {
            let size = region[index(place, SIZE)];
            let word = region[index(place, BIN)];
            table::bin_of(&heap.table, size) == bin && word == bin as u32 * BIN_FACTOR
        };
        if !list.iter().all(fits) || !in_order(region, &list) {
            return None;
        }
        bins.push(list);
    }
    (!waiting.contains(&true)).then_some(bins)
}

/// No member is larger than the next one. In a small bin all have one size, so
/// that the order can be asked of every bin.
fn in_order(region: &[u32], list: &[u32]) -> bool {
    let sizes = list.iter().map(|&place| region[index(place, SIZE)]);
    sizes.is_sorted()
}

/// One doubly linked list from head to tail; it is empty if both are 0.
fn decode_list(region: &[u32], head: u32, tail: u32, waiting: &mut [bool]) -> Option<Vec<u32>> {
    let mut list = Vec::new();
    let (mut before, mut place) = (0, head);
    while place != 0 {
        let waited = std::mem::take(waiting.get_mut(slot(place))?);
        if !waited || !place.is_multiple_of(ALIGNMENT) || region[index(place, BACKWARD_BIN)] != before {
            return None;
        }
        list.push(place);
        (before, place) = (place, region[index(place, FORWARD_BIN)]);
    }
    (before == tail).then_some(list)
}
