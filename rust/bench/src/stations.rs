//! A station that plays a load on the proved heap, and a watch that counts what its requests are answered. A strip that is
//! refused stays away until its slot's next turn; one that is to be resized keeps its size.

use crate::calls::{Kind, BINS, LIVE};
use crate::loads::{load, sizes, Load};
use crate::peers::Kruzhvela;
use kruzhvela::flat::{self, Answer, ANSWER_OFFSET, ANSWER_REFUSAL};
use kruzhvela::limits::{ALIGNMENT, HEADER_BYTES, LEAST_CHUNK, MOST_WORDS, WORD_BYTES};

/// The steps of a load.
pub const STEPS: usize = 20_000;

/// The kinds of steps. Cleared blocks are chosen as others are.
pub const KINDS: [(Kind, &str); 2] = [(Kind::AllocateFree, "allocate + free"), (Kind::Reallocate, "reallocate")];

pub fn kind_name(kind: Kind) -> &'static str {
    KINDS.iter().find(|(of, _)| *of == kind).map_or("", |(_, name)| name)
}

/// What a row makes of each load: of each kind, for each number of live strips.
pub fn each_load<R>(row: impl Fn(Kind, usize, &Load) -> R) -> Vec<R> {
    let loads = KINDS.iter().flat_map(|&(kind, _)| LIVE.map(|live| (kind, live)));
    loads.map(|(kind, live)| row(kind, live, &load(live, STEPS))).collect()
}

/// The chunk size that so many bytes need.
pub fn need(bytes: u32) -> u32 {
    (bytes + HEADER_BYTES).next_multiple_of(ALIGNMENT).max(LEAST_CHUNK)
}

/// The bytes of a heap with a tenth more than so many strips of the mean size need.
pub fn tight(live: usize) -> u32 {
    let sizes = sizes(live);
    let mean = f64::from(sizes.iter().copied().map(need).sum::<u32>()) / sizes.len() as f64;
    (1.1 * mean * live as f64) as u32 / ALIGNMENT * ALIGNMENT
}

/// The bytes of the largest heap.
pub const ROOMY: u32 = MOST_WORDS as u32 * WORD_BYTES;

/// A request: the bytes that are asked for, and the block that is to be resized, 0 for none.
#[derive(Clone, Copy)]
pub struct Request {
    pub bytes: u32,
    pub old: u32,
}

pub trait Watch {
    /// The heap before a request.
    fn before(&mut self, heap: &Kruzhvela);
    /// What it was answered, and the heap afterwards.
    fn after(&mut self, heap: &Kruzhvela, request: Request, answer: Answer);
}

/// A strip or none in each slot.
pub struct Station<W> {
    heap: Kruzhvela,
    slots: Vec<u32>,
    pub watch: W,
}

impl<W: Watch> Station<W> {
    /// With the load's first strips.
    pub fn new(bytes: u32, donor: u32, load: &Load, watch: W) -> Station<W> {
        let heap = Kruzhvela::new((bytes / WORD_BYTES) as usize, &BINS, donor, true);
        let mut station = Station { heap, slots: vec![0; load.first.len()], watch };
        for (slot, &bytes) in load.first.iter().enumerate() {
            station.request(slot, bytes);
        }
        station
    }

    /// Resizes the slot's strip; an empty slot gets a strip.
    fn request(&mut self, slot: usize, bytes: u32) {
        let request = Request { bytes, old: self.slots[slot] };
        self.watch.before(&self.heap);
        let answer = match request.old {
            0 => flat::allocate(&mut self.heap.region, &mut self.heap.record, bytes),
            block => flat::reallocate(&mut self.heap.region, &mut self.heap.record, block, bytes),
        };
        self.watch.after(&self.heap, request, answer);
        if answer[ANSWER_REFUSAL] == 0 {
            self.slots[slot] = answer[ANSWER_OFFSET];
        }
    }

    pub fn run(&mut self, kind: Kind, load: &Load) {
        for step in &load.steps {
            if kind == Kind::AllocateFree {
                flat::free(&mut self.heap.region, &mut self.heap.record, self.slots[step.slot]);
                self.slots[step.slot] = 0;
            }
            self.request(step.slot, step.bytes);
        }
    }
}
