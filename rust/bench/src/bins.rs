//! A step outside the check, with tables of few and of many sizes: what it costs to find the bin of a size shows there.

use crate::calls::{parts, Kind, Station, LIVE};
use crate::clock::Work;
use crate::instructions::total;
use crate::loads::{load, sizes};
use crate::peers::{Allocator, Glibc, Kruzhvela};
use kruzhvela::flat;
use kruzhvela::limits::MOST_WORDS;
use std::hint::black_box;

const FEW: [u32; 3] = [24, 256, 2_048];

/// As the guide's table begins, with powers of two above 128.
const SOME: [u32; 19] = [24, 32, 40, 48, 56, 64, 72, 80, 88, 96, 104, 112, 120, 128, 256, 512, 1_024, 2_048, 4_096];

/// The guide's table, with three sizes more.
const MOST: [u32; 32] = [
    24, 32, 40, 48, 56, 64, 72, 80, 88, 96, 104, 112, 120, 128, 256, 384, 512, 640, 768, 896, 1_024, 1_152, 1_280,
    1_408, 1_536, 1_664, 1_792, 1_920, 2_048, 4_096, 8_192, 16_384,
];

const TABLES: [&[u32]; 3] = [&FEW, &SOME, &MOST];

/// How many steps are counted together.
const STEPS: usize = 1_000;

/// The steps as they are, and with a check before each call.
pub const PLAIN: &str = "plain";
pub const CHECKED: &str = "checked";

/// A step with a table of so many sizes, without its checks: instructions, where valgrind can count them, and nanoseconds;
/// and a step of glibc's.
pub struct Row {
    pub bins: usize,
    pub instructions: Option<f64>,
    pub time: f64,
    pub glibc: f64,
}

fn heap(table: &[u32]) -> Kruzhvela {
    Kruzhvela::new(MOST_WORDS, table, 0, true)
}

fn check(heap: &mut Kruzhvela) {
    black_box(flat::check(&heap.region, &heap.record));
}

/// Only plays so many steps of allocate + free with 20 strips and a table of so many sizes, with a check before each call if
/// that is asked. An unknown number of sizes plays none.
pub fn play(bins: usize, steps: usize, checked: bool) {
    let Some(table) = TABLES.iter().find(|table| table.len() == bins) else { return };
    let load = load(LIVE[0], steps);
    let mut heap = heap(table);
    let mut slots: Vec<usize> = load.first.iter().map(|&bytes| heap.allocate(bytes)).collect();
    for step in &load.steps {
        if checked {
            check(&mut heap);
        }
        heap.free(slots[step.slot]);
        if checked {
            check(&mut heap);
        }
        slots[step.slot] = heap.allocate(step.bytes);
    }
}

/// Steady steps of a strip of each size of the load, the small ones and the large: the means of our time and of glibc's.
fn times(table: &[u32]) -> (f64, f64) {
    let sizes = sizes(LIVE[0]);
    let (mut ours, mut glibc) = (0.0, 0.0);
    for &bytes in sizes {
        let mut load = load(LIVE[0], 0);
        load.first[LIVE[0] - 1] = bytes;
        let mut peer = Station::new(Glibc, &load);
        let works: Vec<Work> = vec![Box::new(|| peer.steady(Kind::AllocateFree, &load))];
        let parts = parts(Kind::AllocateFree, Station::new(heap(table), &load), &load, works);
        ours += parts.walk + parts.rest;
        glibc += parts.peers[0];
        peer.end();
    }
    (ours / sizes.len() as f64, glibc / sizes.len() as f64)
}

/// Instructions of a step of the load without its two checks. The same steps with a check before each call have twice as many
/// checks, on the same heaps.
fn count(bins: usize) -> Option<f64> {
    let played = |steps: usize, how: &str| total(&["bins", &bins.to_string(), &steps.to_string(), how]);
    let steps = |how: &str| Some((played(STEPS, how)? - played(0, how)?) / STEPS as f64);
    let (plain, checked) = (steps(PLAIN)?, steps(CHECKED)?);
    Some(plain - (checked - plain))
}

pub fn rows() -> Vec<Row> {
    let row = |table: &&[u32]| {
        let (time, glibc) = times(table);
        Row { bins: table.len(), instructions: count(table.len()), time, glibc }
    };
    TABLES.iter().map(row).collect()
}
