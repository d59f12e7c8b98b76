//! The calls of a case, with sensible arguments and with wrong ones.

use crate::random::Random;
use crate::settings;
use crate::view::View;
use kruzhvela::limits::{HEADER_BYTES, LEAST_CHUNK, MOST_BYTES};
use second::Call;

/// Sizes at which an answer changes, whatever the heap.
const EDGES: [u32; 12] =
    [0, 1, 8, 9, 16, 17, MOST_BYTES - 1, MOST_BYTES, MOST_BYTES + 1, 0x7FFF_FFFF, 0xFFFF_FFF8, 0xFFFF_FFFF];

/// Sizes near the edges of the heap as it is, and any others.
fn bytes(view: &View, table: &[u32], random: &mut Random) -> u32 {
    let near =
        |size: u32, random: &mut Random| size.wrapping_sub(HEADER_BYTES).wrapping_add(random.below(19)).wrapping_sub(9);
    let ordinary = view.ordinary();
    match random.below(26) {
        0..=7 => random.between(1, 64),
        8..=11 if !table.is_empty() => near(random.of(table), random),
        12 | 13 => near(view.size_at(view.top).wrapping_sub(LEAST_CHUNK), random),
        14 => near(view.size_at(view.donor).wrapping_sub(LEAST_CHUNK), random),
        15..=17 if !view.chunks.is_empty() => near(random.of(&view.chunks).size, random),
        18 => random.of(&EDGES),
        19 => random.word(),
        20 => random.between(1, 65_600),
        // what is left of a chunk is about as large as one in a bin
        21 | 22 if !ordinary.is_empty() => {
            near(random.of(&view.chunks).size.wrapping_sub(random.of(&ordinary).size), random)
        }
        _ => random.between(1, 400),
    }
}

/// Mostly a live block; else a place that is none, such as a freed block, a chunk or a neighbouring word.
fn block(view: &View, random: &mut Random) -> u32 {
    let live = view.live();
    let any = if view.chunks.is_empty() { HEADER_BYTES } else { random.of(&view.chunks).place };
    match random.below(20) {
        0 => 0,
        1 => any + HEADER_BYTES,
        2 => any,
        3 => any.wrapping_add(random.of(&[4, 12, 16, 24, 0xFFFF_FFF8, 0xFFFF_FFFC])),
        4 => random.of(&[1, 4, 8, 16, 65_528, 65_536, 0x8000_0000, 0xFFFF_FFF8, 0xFFFF_FFFF]),
        5 => random.word(),
        _ if live.is_empty() => any + HEADER_BYTES,
        _ => random.of(&live).place + HEADER_BYTES,
    }
}

/// Mostly a chunk or a live block; often a chunk in a bin, since its neighbours there are asked for too.
fn place(view: &View, random: &mut Random) -> u32 {
    let ordinary = view.ordinary();
    match random.below(16) {
        0 => 0,
        1 => HEADER_BYTES, // the chunk above the start
        2 => view.donor,
        3 => view.top,
        4 => view.top.wrapping_add(view.size_at(view.top)),
        5..=7 => block(view, random),
        8..=12 if !ordinary.is_empty() => random.of(&ordinary).place,
        _ if view.chunks.is_empty() => random.word(),
        _ => random.of(&view.chunks).place,
    }
}

fn factors(product: u32, random: &mut Random) -> (u32, u32) {
    match random.below(8) {
        0 => (random.word(), random.word()),
        1 => (0x1_0000, 0x1_0000),
        2 => (random.of(&[0, 1, 0xFFFF_FFFF]), product),
        _ => {
            let count = random.between(1, 9);
            (count, product / count)
        }
    }
}

/// Chunks of a run: mostly a few, sometimes about all, none, or more than any heap has.
fn run_size(view: &View, random: &mut Random) -> u32 {
    match random.below(12) {
        0 => 0,
        1 => random.of(&[0x7FFF_FFFF, 0x8000_0000, 0xFFFF_FFFF]),
        2..=4 => 1,
        5 | 6 => random.between(1, view.chunks.len() as u32 + 3),
        _ => random.between(2, 6),
    }
}

pub fn setup(words: usize, random: &mut Random) -> Call {
    Call::Setup { table: settings::table(random), donor: settings::donor(words, random), merge: random.bit() }
}

/// How many calls have a number here.
pub const CALLS: u32 = 10;

/// The call with this number, in the order of the requirements' list, the patrol last.
pub fn numbered(number: u32, words: usize, view: &View, table: &[u32], random: &mut Random) -> Call {
    match number {
        0 => setup(words, random),
        1 => Call::Allocate { z: bytes(view, table, random) },
        2 => {
            let (count, size) = factors(bytes(view, table, random), random);
            Call::AllocateCleared { count, size }
        }
        3 => Call::Free { block: block(view, random) },
        4 => Call::Reallocate { block: block(view, random), z: bytes(view, table, random) },
        5 => Call::SetMerge { on: random.bit() },
        6 => Call::Check,
        7 => Call::AskChunk { question: random.below(11), place: place(view, random) },
        8 => Call::AskBin { question: random.below(5), bin: random.below(table.len() as u32 + 2) },
        _ => Call::Patrol { chunks: run_size(view, random) },
    }
}

/// One of the calls, each with its weight.
pub fn any(words: usize, view: &View, table: &[u32], random: &mut Random) -> Call {
    let number = match random.below(240) {
        0 => 0,
        1..=69 => 1,
        70..=81 => 2,
        82..=129 => 3,
        130..=167 => 4,
        168..=173 => 5,
        174..=177 => 6,
        178..=219 => 7,
        220..=230 => 8,
        _ => 9,
    };
    numbered(number, words, view, table, random)
}
