// The bin lists: a chunk leaves one, is put into one, and is searched for.

use super::heap::{Heap, Kind};
use super::layout::slot;
use super::render;
use super::table;

/// Unlinks the chunk from its list. The neighbours' links are written at once:
/// where two chunks of one list join, the link that the lower one's leaving
/// writes into the upper one must remain. The chunk's own header stays as found.
pub fn leave_bin(heap: &mut Heap, region: &mut [u32], at: usize) {
    let chunk = heap.chain[at];
    let list = &mut heap.bins[table::bin_of(&heap.table, chunk.size)];
    if let Some(position) = list.iter().position(|&place| place == chunk.place) {
        list.remove(position);
        render::seam(list, region, position);
    }
}

/// Where a chunk of this size goes in the bin's list. Small bins are last in,
/// first out: it goes to the head. Any other bin is in order of size: it goes
/// before the first larger chunk, and so behind those of its own size.
fn position(heap: &Heap, bin: usize, size: u32) -> usize {
    let list = &heap.bins[bin];
    if bin < table::small_bins(&heap.table) {
        return 0;
    }
    let larger = |&place: &u32| heap.find(place).is_some_and(|at| heap.chain[at].size > size);
    list.iter().position(larger).unwrap_or(list.len())
}

fn put_in_bin(heap: &mut Heap, region: &mut [u32], at: usize) {
    let chunk = heap.chain[at];
    let bin = table::bin_of(&heap.table, chunk.size);
    let position = position(heap, bin, chunk.size);
    let list = &mut heap.bins[bin];
    list.insert(position, chunk.place);
    render::seam(list, region, position);
    render::seam(list, region, position + 1);
}

/// Writes a free chunk that a split or a joining made: its six header words, the
/// backward link of the chunk above it, and, unless it is donor or top, its bin.
pub fn settle(heap: &mut Heap, region: &mut [u32], at: usize) {
    render::free_header(heap, region, at);
    render::backward_link(heap, region, at + 1);
    if heap.kind(at) == Kind::Ordinary {
        put_in_bin(heap, region, at);
    }
}

/// First fit: the first chunk of at least `need` bytes in the list of the bin of
/// `need`. One pass of the chain notes which places fit, since to look each
/// member up in the chain would be slow in a long list.
pub fn first_fit(heap: &Heap, need: u32) -> Option<usize> {
    let list = &heap.bins[table::bin_of(&heap.table, need)];
    if list.is_empty() {
        return None;
    }
    let mut fits = vec![false; slot(heap.heap_bytes)];
    for chunk in heap.ordinary() {
        fits[slot(chunk.place)] = chunk.size >= need;
    }
    let first = list.iter().find(|&&place| fits[slot(place)])?;
    heap.find(*first)
}

/// The first chunk of the next larger occupied bin. No size is compared: every
/// chunk there is larger than every size of the bin of `need`.
pub fn first_larger(heap: &Heap, need: u32) -> Option<usize> {
    let larger = &heap.bins[table::bin_of(&heap.table, need) + 1..];
    let first = larger.iter().find_map(|list| list.first())?;
    heap.find(*first)
}
