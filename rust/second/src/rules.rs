// The calls that change a heap.

use super::bins::{first_fit, first_larger, leave_bin, settle};
use super::heap::{Chunk, Heap, Kind};
use super::layout::{
    heap_bytes, Outcome, ALIGNMENT, BLOCK_SIZE, DONE, DONOR_SIZE, HEADER_BYTES, LEAST_CHUNK, MOST_BYTES,
    NONE_CAN_SERVE, NOT_LIVE, RECORD_WORDS, REGION_LENGTH, TABLE_INVALID,
};
use super::render;
use super::table;

pub fn setup(region: &mut [u32], record: &mut [u32; RECORD_WORDS], sizes: &[u32], donor: u32, merge: bool) -> Outcome {
    *record = [0; RECORD_WORDS];
    let heap_bytes = heap_bytes(region).ok_or(REGION_LENGTH)?;
    if !table::valid(sizes) {
        return Err(TABLE_INVALID);
    }
    let most = heap_bytes - 2 * HEADER_BYTES - LEAST_CHUNK;
    if donor != 0 && (donor < LEAST_CHUNK || !donor.is_multiple_of(ALIGNMENT) || donor > most) {
        return Err(DONOR_SIZE);
    }
    let heap = Heap {
        heap_bytes,
        table: sizes.to_vec(),
        chain: fresh_chain(heap_bytes, donor),
        bins: vec![Vec::new(); sizes.len()],
        donor: if donor == 0 { 0 } else { HEADER_BYTES },
        top: HEADER_BYTES + donor,
        merge,
        patrol: 0,
    };
    for (at, chunk) in heap.chain.iter().enumerate() {
        if chunk.in_use {
            render::header(&heap, region, at);
        } else {
            render::free_header(&heap, region, at);
        }
    }
    render::record(&heap, record);
    DONE
}

/// Start, the donor if its size is not 0, top and end.
fn fresh_chain(heap_bytes: u32, donor: u32) -> Vec<Chunk> {
    let top = HEADER_BYTES + donor;
    let end = heap_bytes - HEADER_BYTES;
    let chunks =
        [(0, HEADER_BYTES, true), (HEADER_BYTES, donor, false), (top, end - top, false), (end, HEADER_BYTES, true)];
    let wanted = chunks.into_iter().filter(|&(_, size, _)| size != 0);
    let chain = wanted.map(|(place, size, in_use)| Chunk { place, size, in_use });
    chain.collect()
}

pub fn allocate(heap: &mut Heap, region: &mut [u32], z: u32) -> Outcome {
    let need = need(z.into())?;
    let used = heap.used();
    let at = grant(heap, region, need)?;
    Ok([heap.chain[at].block(), 0, change(heap, used), 0])
}

pub fn allocate_cleared(heap: &mut Heap, region: &mut [u32], count: u32, size: u32) -> Outcome {
    let need = need(u64::from(count) * u64::from(size))?;
    let used = heap.used();
    let at = grant(heap, region, need)?;
    let granted = heap.chain[at];
    region[granted.block_words()].fill(0);
    Ok([granted.block(), 0, change(heap, used), 0])
}

pub fn free(heap: &mut Heap, region: &mut [u32], block: u32) -> Outcome {
    if block == 0 {
        return DONE;
    }
    let at = heap.find_live(block).ok_or(NOT_LIVE)?;
    let used = heap.used();
    free_chunk(heap, region, at);
    Ok([0, 0, change(heap, used), 0])
}

pub fn reallocate(heap: &mut Heap, region: &mut [u32], block: u32, z: u32) -> Outcome {
    if block == 0 {
        return allocate(heap, region, z);
    }
    let need = need(z.into())?;
    let at = heap.find_live(block).ok_or(NOT_LIVE)?;
    let used = heap.used();
    let block = if need <= heap.chain[at].size {
        cut_tail(heap, region, at, need);
        block
    } else {
        move_block(heap, region, at, need)?
    };
    Ok([block, 0, change(heap, used), 0])
}

pub fn set_merge(heap: &mut Heap, on: bool) -> Outcome {
    heap.merge = on;
    DONE
}

/// The chunk size that z bytes need, or the refusal of z.
fn need(z: u64) -> Result<u32, u32> {
    match u32::try_from(z) {
        Ok(bytes) if (1..=MOST_BYTES).contains(&z) => {
            Ok((bytes + HEADER_BYTES).next_multiple_of(ALIGNMENT).max(LEAST_CHUNK))
        }
        _ => Err(BLOCK_SIZE),
    }
}

/// Used bytes now less used bytes before, in two's complement.
fn change(heap: &Heap, before: u32) -> u32 {
    heap.used().wrapping_sub(before)
}

/// Donor and top serve only if a least chunk remains of them.
fn can_serve_from_rest(heap: &Heap, place: u32, need: u32) -> Option<usize> {
    let at = heap.find(place)?;
    (heap.chain[at].size >= need + LEAST_CHUNK).then_some(at)
}

/// The chunk that serves `need`: the four tries in their order. The donor comes
/// before the larger bins for a small need, and last for any other.
fn serving(heap: &Heap, need: u32) -> Option<usize> {
    let from_donor = || (heap.donor != 0).then(|| can_serve_from_rest(heap, heap.donor, need))?;
    let from_larger = || first_larger(heap, need);
    let from_top = || can_serve_from_rest(heap, heap.top, need);
    let own = first_fit(heap, need);
    if table::is_small(&heap.table, need) {
        own.or_else(from_donor).or_else(from_larger).or_else(from_top)
    } else {
        own.or_else(from_larger).or_else(from_top).or_else(from_donor)
    }
}

/// Grants a chunk for `need` and returns its position. The block's words, which
/// include the former size and bin words, stay as found.
fn grant(heap: &mut Heap, region: &mut [u32], need: u32) -> Result<usize, u32> {
    let at = serving(heap, need).ok_or(NONE_CAN_SERVE)?;
    let kind = heap.kind(at);
    if kind == Kind::Ordinary {
        leave_bin(heap, region, at);
    }
    let cut = heap.chain[at].size - need >= LEAST_CHUNK;
    if cut {
        split(heap, at, need);
        match kind {
            Kind::Donor => heap.donor = heap.chain[at + 1].place,
            Kind::Top => heap.top = heap.chain[at + 1].place,
            _ => {}
        }
    }
    heap.chain[at].in_use = true;
    render::header(heap, region, at);
    if cut {
        settle(heap, region, at + 1);
    }
    Ok(at)
}

/// Splits a chunk of the chain in two. Both parts are in use if the whole was.
fn split(heap: &mut Heap, at: usize, lowest: u32) {
    let whole = heap.chain[at];
    heap.chain[at].size = lowest;
    let rest = Chunk { place: whole.place + lowest, size: whole.size - lowest, in_use: whole.in_use };
    heap.chain.insert(at + 1, rest);
}

/// Joins (coalesces) the chunk with the one above, whose words stay as found. A
/// patrol that was to go on at the one above goes on at the joined chunk.
fn join_above(heap: &mut Heap, at: usize) {
    let swallowed = heap.chain.remove(at + 1);
    heap.chain[at].size += swallowed.size;
    if heap.patrol == swallowed.place {
        heap.patrol = heap.chain[at].place;
    }
}

/// The rule of free, for the chunk of a live block or a tail split off one.
fn free_chunk(heap: &mut Heap, region: &mut [u32], freed: usize) {
    heap.chain[freed].in_use = false;
    let mut at = freed;
    if heap.merge {
        // Ordinary only: nothing joins a donor below it.
        if heap.kind(freed - 1) == Kind::Ordinary {
            at = freed - 1;
            leave_bin(heap, region, at);
            join_above(heap, at);
        }
        join_free_above(heap, region, at);
    }
    settle(heap, region, at);
}

/// Joins an ordinary chunk, the donor or the top above; with the latter two the
/// joined chunk is the new donor or top.
fn join_free_above(heap: &mut Heap, region: &mut [u32], at: usize) {
    match heap.kind(at + 1) {
        Kind::Ordinary => leave_bin(heap, region, at + 1),
        Kind::Donor => heap.donor = heap.chain[at].place,
        Kind::Top => heap.top = heap.chain[at].place,
        Kind::Start | Kind::InUse | Kind::End => return,
    }
    join_above(heap, at);
}

/// Splits off and frees what exceeds `need`, if that is at least a least chunk.
fn cut_tail(heap: &mut Heap, region: &mut [u32], at: usize, need: u32) {
    if heap.chain[at].size - need >= LEAST_CHUNK {
        split(heap, at, need);
        render::forward_link(heap, region, at);
        free_chunk(heap, region, at + 1);
    }
}

/// Moves a block to a larger chunk. The whole old block is copied, and no more,
/// before its chunk is freed: free writes header words into it.
fn move_block(heap: &mut Heap, region: &mut [u32], at: usize, need: u32) -> Result<u32, u32> {
    let old = heap.chain[at];
    let granted = grant(heap, region, need)?;
    let new = heap.chain[granted];
    region.copy_within(old.block_words(), new.block_words().start);
    // A split below may have moved its position in the chain.
    let at = heap.find_live(old.block()).ok_or(NOT_LIVE)?;
    free_chunk(heap, region, at);
    Ok(new.block())
}
