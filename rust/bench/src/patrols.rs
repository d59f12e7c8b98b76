//! The patrol of undamaged heaps, against the same loop by hand in C.

use crate::checks::{heap, Fill, CHUNKS, FILLS};
use crate::clock::{interleaved, Work};
use crate::peers::Kruzhvela;
use kruzhvela::flat::{self, Answer, ANSWER_REFUSAL, ANSWER_VALUE, ANSWER_WORDS, PATROL};
use std::hint::black_box;

extern "C" {
    fn limit_patrol(region: *mut u32, words: usize, record: *mut u32, chunks: u32, answer: *mut u32) -> u32;
}

/// What is measured: how many chunks a run has, and whether runs follow each other to the end.
#[derive(Clone, Copy, Debug, PartialEq, Eq)]
pub enum Way {
    OneRun,
    RunsOf16,
    /// One run from the start, which must not take longer on a larger heap.
    FirstRunOf16,
}

pub const WAYS: [(Way, &str); 3] =
    [(Way::OneRun, "one run"), (Way::RunsOf16, "runs of 16"), (Way::FirstRunOf16, "the first run of 16")];

/// Nanoseconds of a patrol, and of the loop by hand.
pub struct Row {
    pub way: Way,
    pub fill: Fill,
    pub chunks: u32,
    pub ours: f64,
    pub limit: f64,
}

/// One run of so many chunks.
type Patrol = fn(&mut Kruzhvela, u32) -> Answer;

fn proved(heap: &mut Kruzhvela, chunks: u32) -> Answer {
    flat::patrol(&mut heap.region, &mut heap.record, chunks)
}

fn by_hand(heap: &mut Kruzhvela, chunks: u32) -> Answer {
    let (region, mut answer) = (&mut heap.region, [0; ANSWER_WORDS]);
    // SAFETY: each pointer comes from a reference to the stated number of words.
    unsafe { limit_patrol(region.as_mut_ptr(), region.len(), heap.record.as_mut_ptr(), chunks, answer.as_mut_ptr()) };
    answer
}

fn to_the_end(patrol: Patrol, heap: &mut Kruzhvela, chunks: u32) -> u32 {
    let mut runs = 1;
    while patrol(heap, chunks)[ANSWER_VALUE] == 0 {
        runs += 1;
    }
    runs
}

fn go(way: Way, patrol: Patrol, heap: &mut Kruzhvela) {
    match way {
        Way::OneRun => to_the_end(patrol, heap, u32::MAX),
        Way::RunsOf16 => to_the_end(patrol, heap, 16),
        Way::FirstRunOf16 => {
            heap.record[PATROL] = 0;
            patrol(heap, 16)[ANSWER_VALUE]
        }
    };
}

fn repeated(times: u64, way: Way, patrol: Patrol, mut heap: Kruzhvela) -> Work<'static> {
    Box::new(move || {
        for _ in 0..times {
            go(way, patrol, black_box(&mut heap));
        }
        times
    })
}

/// Both patrols end in as many runs, with the words and the record as they were.
fn assert_alike(sound: &Kruzhvela, chunks: u32) {
    for patrol in [proved as Patrol, by_hand] {
        let mut heap = sound.clone();
        assert_eq!(patrol(&mut heap, 0)[ANSWER_REFUSAL], 10);
        assert_eq!(to_the_end(patrol, &mut heap, 16), chunks.div_ceil(16));
        assert_eq!(to_the_end(patrol, &mut heap, u32::MAX), 1);
        assert!(heap == *sound);
    }
}

fn measure(way: Way, fill: Fill, chunks: u32) -> Row {
    let sound = heap(chunks, fill);
    assert_alike(&sound, chunks);
    let handled = if way == Way::FirstRunOf16 { 16 } else { chunks };
    let times = 4_000_000 / u64::from(handled + 40);
    let works = vec![repeated(times, way, proved, sound.clone()), repeated(times, way, by_hand, sound)];
    let medians = interleaved(works);
    Row { way, fill, chunks, ours: medians[0], limit: medians[1] }
}

pub fn rows() -> Vec<Row> {
    let each = |way| FILLS.iter().flat_map(move |&(fill, _)| CHUNKS.map(|chunks| measure(way, fill, chunks)));
    WAYS.iter().flat_map(|&(way, _)| each(way)).collect()
}
