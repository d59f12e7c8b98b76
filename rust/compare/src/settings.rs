//! The settings of a case: the region's length, the bin table, the donor. Setup accepts most and refuses some.

use crate::random::Random;
use crate::view::heap_bytes;
use kruzhvela::limits::{ALIGNMENT, FEWEST_WORDS, LEAST_CHUNK, LEAST_HEAP, MOST_BINS, MOST_WORDS};

/// Region lengths near the limits.
const EDGES: [usize; 8] = [
    FEWEST_WORDS - 1,
    FEWEST_WORDS,
    FEWEST_WORDS + 1,
    FEWEST_WORDS + 2,
    FEWEST_WORDS + 3,
    MOST_WORDS - 1,
    MOST_WORDS,
    MOST_WORDS + 1,
];

/// Every tenth region has more than 4,000 words, every tenth is an edge, and most are small.
pub fn region_words(number: u64, random: &mut Random) -> usize {
    match number % 10 {
        0 => random.between(4_001, MOST_WORDS as u32 + 1) as usize,
        5 => EDGES[(number / 10) as usize % EDGES.len()],
        1 | 2 => random.between(400, 1_600) as usize,
        3 | 4 | 6 => random.between(60, 400) as usize,
        _ => random.between(FEWEST_WORDS as u32 - 1, 60) as usize,
    }
}

/// `count` bin sizes without a gap.
fn gapless(count: u32) -> Vec<u32> {
    (0..count).map(|bin| LEAST_CHUNK + ALIGNMENT * bin).collect()
}

/// A valid table: bins 0 to m without a gap, then bins with gaps.
fn valid_table(random: &mut Random) -> Vec<u32> {
    let bins = if random.once_in(4) { random.between(1, 4) } else { random.between(1, MOST_BINS as u32) };
    let m = if random.once_in(3) { bins - 1 } else { random.below(bins) };
    let mut table = gapless(m + 1);
    while table.len() < bins as usize {
        let gap = if random.once_in(8) { random.between(2, 9_000) } else { random.between(2, 12) };
        table.push(table[table.len() - 1] + ALIGNMENT * gap);
    }
    if random.once_in(20) {
        let last = table.len() - 1;
        table[last] = table[last].max(0xFFFF_FFF8);
    }
    table
}

/// Tables that setup refuses, and the two that the requirements name.
fn odd_table(random: &mut Random) -> Vec<u32> {
    match random.below(9) {
        0 => vec![],
        1 => vec![24],
        2 => vec![24, 0xFFFF_FFFF],
        3 => vec![32, 40],
        4 => vec![24, 32, 32],
        5 => vec![24, 40, 32],
        6 => vec![24, 36],
        7 => gapless(MOST_BINS as u32 + 1),
        _ => (0..random.below(40)).map(|_| random.word()).collect(),
    }
}

pub fn table(random: &mut Random) -> Vec<u32> {
    if random.once_in(15) {
        odd_table(random)
    } else {
        valid_table(random)
    }
}

/// No donor, donors that leave the top little or much, and sizes that setup refuses.
pub fn donor(words: usize, random: &mut Random) -> u32 {
    let bytes = heap_bytes(words);
    let most = bytes.saturating_sub(LEAST_HEAP);
    match random.below(16) {
        0..=5 => 0,
        6 => LEAST_CHUNK,
        7 => most,
        8 => most + ALIGNMENT,
        9 => most.saturating_sub(ALIGNMENT),
        10 => random.of(&[1, 8, 16, 20, 28, 0xFFFF_FFF8, 0xFFFF_FFFF]),
        11 => random.below(bytes.max(1)),
        _ => random.below(most / ALIGNMENT / 2 + 1) * ALIGNMENT,
    }
}
