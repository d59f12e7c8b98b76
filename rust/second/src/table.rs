// The bin table: which tables are valid, and which bin a size belongs to.

use super::layout::{ALIGNMENT, LEAST_CHUNK, MAX_BINS};

pub fn valid(table: &[u32]) -> bool {
    (1..=MAX_BINS).contains(&table.len())
        && table[0] == LEAST_CHUNK
        && table.iter().all(|size| size.is_multiple_of(ALIGNMENT))
        && table.windows(2).all(|pair| pair[0] < pair[1])
}

/// The requirements' m. The last bin of the gapless run is not in the small
/// array: it takes several sizes, since the next bin is further off or missing.
pub fn small_bins(table: &[u32]) -> usize {
    let run = (LEAST_CHUNK..).step_by(ALIGNMENT as usize);
    let gapless = table.iter().zip(run).take_while(|(&size, step)| size == *step);
    gapless.count().saturating_sub(1)
}

pub fn is_small(table: &[u32], size: u32) -> bool {
    (size as usize) < LEAST_CHUNK as usize + ALIGNMENT as usize * small_bins(table)
}

/// The last bin whose size is not above `size`. For small sizes this is the
/// requirements' size/8 - 3.
pub fn bin_of(table: &[u32], size: u32) -> usize {
    table.partition_point(|&least| least <= size).saturating_sub(1)
}
