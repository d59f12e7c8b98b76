//! allocate + free, reallocate and cleared allocate + free, against allocators that embedded C programs use.

use crate::clock::{interleaved, Work};
use crate::loads::{load, Load};
use crate::peers::{Allocator, Glibc, Kruzhvela};
#[cfg(newlib)]
use crate::peers::{NewlibFull, NewlibNano};
use kruzhvela::flat;
use kruzhvela::limits::MOST_WORDS;
use kruzhvela::ChunkQuestion;
use std::hint::black_box;

#[derive(Clone, Copy, Debug, PartialEq, Eq)]
pub enum Kind {
    AllocateFree,
    Reallocate,
    ClearedFree,
}

pub const KINDS: [(Kind, &str); 3] = [
    (Kind::AllocateFree, "allocate + free"),
    (Kind::Reallocate, "reallocate"),
    (Kind::ClearedFree, "cleared allocate + free"),
];

pub const LIVE: [usize; 3] = [20, 200, 2_000];

pub const BINS: [u32; 12] = [24, 32, 40, 48, 56, 64, 104, 168, 248, 488, 968, 1_928];

/// Nanoseconds of a step of the load, and of its parts.
pub struct Row {
    pub kind: Kind,
    pub live: usize,
    pub ours: f64,
    /// The walk that finds a live block, and the rest, neither check nor walk: measured on a steady heap.
    pub walk: f64,
    pub rest: f64,
    pub peers: Vec<Peer>,
}

/// Another allocator: nanoseconds of a step of the load, and of a step on a steady heap.
pub struct Peer {
    pub name: &'static str,
    pub step: f64,
    pub steady: f64,
}

impl Row {
    /// The checks' part. It can't be measured alone: in the load each step changes the heap.
    pub fn check(&self) -> f64 {
        self.ours - self.walk - self.rest
    }
}

/// An allocator with the blocks that it holds.
#[derive(Clone)]
pub struct Station<A> {
    allocator: A,
    slots: Vec<usize>,
}

impl<A: Allocator> Station<A> {
    pub fn new(mut allocator: A, load: &Load) -> Station<A> {
        let slots: Vec<usize> = load.first.iter().map(|&bytes| allocator.allocate(bytes)).collect();
        assert!(slots.iter().all(|&slot| slot != 0), "there is room for the load");
        Station { allocator, slots }
    }

    fn run(&mut self, kind: Kind, load: &Load) -> u64 {
        for step in &load.steps {
            let slot = &mut self.slots[step.slot];
            match kind {
                Kind::Reallocate => *slot = self.allocator.reallocate(*slot, step.bytes),
                Kind::AllocateFree => {
                    self.allocator.free(*slot);
                    *slot = self.allocator.allocate(step.bytes);
                }
                Kind::ClearedFree => {
                    self.allocator.free(*slot);
                    *slot = self.allocator.cleared(step.bytes);
                }
            }
            assert_ne!(*slot, 0, "there is room for every step");
        }
        load.steps.len() as u64
    }

    /// Frees all blocks, for the next load.
    pub fn end(&mut self) {
        for &slot in &self.slots {
            self.allocator.free(slot);
        }
    }
}

/// A steady step brings the heap back to the same state: it frees and allocates the youngest strip, or grows and shrinks
/// it. So the check, the greater part of a call, can be measured alone on the states that the step meets.
impl<A: Allocator> Station<A> {
    fn leave(&mut self, kind: Kind, load: &Load) {
        let slot = self.slots.len() - 1;
        match kind {
            Kind::Reallocate => self.slots[slot] = self.allocator.reallocate(self.slots[slot], 2 * load.first[slot]),
            _ => self.allocator.free(self.slots[slot]),
        }
    }

    fn come_back(&mut self, kind: Kind, load: &Load) {
        let slot = self.slots.len() - 1;
        let bytes = load.first[slot];
        self.slots[slot] = match kind {
            Kind::Reallocate => self.allocator.reallocate(self.slots[slot], bytes),
            Kind::AllocateFree => self.allocator.allocate(bytes),
            Kind::ClearedFree => self.allocator.cleared(bytes),
        };
    }

    pub fn steady(&mut self, kind: Kind, load: &Load) -> u64 {
        for _ in 0..STEADY {
            self.leave(kind, load);
            self.come_back(kind, load);
        }
        STEADY
    }
}

/// Steady steps in a round.
const STEADY: u64 = 2_520;

fn check(heap: &mut Kruzhvela) -> u64 {
    for _ in 0..STEADY {
        black_box(flat::check(black_box(&heap.region), &heap.record));
    }
    STEADY
}

/// Asks for the chunk of a live block: the check, and the walk that finds the block.
fn ask(heap: &mut Kruzhvela, block: usize) -> u64 {
    let question = ChunkQuestion::ChunkOfBlock as u32;
    for _ in 0..STEADY {
        black_box(flat::ask_chunk(black_box(&heap.region), &heap.record, question, block as u32));
    }
    STEADY
}

/// The parts of a steady step of ours, and the peers' steady steps.
pub struct Parts {
    pub walk: f64,
    pub rest: f64,
    pub peers: Vec<f64>,
}

/// A steady step has two calls of reallocate, one that grows the strip and one that shrinks it.
pub fn parts(kind: Kind, mut station: Station<Kruzhvela>, load: &Load, peers: Vec<Work>) -> Parts {
    station.steady(kind, load);
    let settled = station.allocator.clone();
    station.steady(kind, load);
    assert!(settled == station.allocator, "the heap is steady: {kind:?} {}", load.first.len());
    let mut left = station.clone();
    left.leave(kind, load);
    let (here, there) = (station.slots[station.slots.len() - 1], left.slots[left.slots.len() - 1]);
    let (mut one, mut other) = (station.allocator.clone(), left.allocator.clone());
    let (mut asked, mut gone) = (station.allocator.clone(), left.allocator);
    let mut works: Vec<Work> = vec![
        Box::new(|| station.steady(kind, load)),
        Box::new(|| check(&mut one)),
        Box::new(|| check(&mut other)),
        Box::new(|| ask(&mut asked, here)),
        Box::new(|| ask(&mut gone, there)),
    ];
    works.extend(peers);
    let times = interleaved(works);
    let calls = if kind == Kind::Reallocate { 2.0 } else { 1.0 };
    // allocate has no block to find
    let second = if kind == Kind::Reallocate { times[4] - times[2] } else { 0.0 };
    let walks = times[3] - times[1] + second;
    Parts {
        walk: walks / calls,
        rest: (times[0] - times[1] - times[2] - walks) / calls,
        peers: times[5..].iter().map(|time| time / calls).collect(),
    }
}

#[cfg_attr(not(newlib), allow(unused_mut))]
fn measure(kind: Kind, live: usize) -> Row {
    let load = load(live, 400_000 / (live + 200));
    let mut ours = Station::new(Kruzhvela::new(MOST_WORDS, &BINS, 0, true), &load);
    let mut glibc = Station::new(Glibc, &load);
    #[cfg(newlib)]
    let (mut full, mut nano) = (Station::new(NewlibFull, &load), Station::new(NewlibNano, &load));

    let mut names = vec!["glibc"];
    let mut works: Vec<Work> = vec![Box::new(|| glibc.steady(kind, &load))];
    #[cfg(newlib)]
    {
        names.extend(["newlib", "newlib nano"]);
        works.push(Box::new(|| full.steady(kind, &load)));
        works.push(Box::new(|| nano.steady(kind, &load)));
    }
    let parts = parts(kind, ours.clone(), &load, works);

    let mut works: Vec<Work> = vec![Box::new(|| ours.run(kind, &load)), Box::new(|| glibc.run(kind, &load))];
    #[cfg(newlib)]
    {
        works.push(Box::new(|| full.run(kind, &load)));
        works.push(Box::new(|| nano.run(kind, &load)));
    }
    let steps = interleaved(works);
    glibc.end();
    #[cfg(newlib)]
    {
        full.end();
        nano.end();
    }
    let peers = names.into_iter().zip(steps[1..].iter().zip(&parts.peers));
    let peers = peers.map(|(name, (&step, &steady))| Peer { name, step, steady }).collect();
    Row { kind, live, ours: steps[0], walk: parts.walk, rest: parts.rest, peers }
}

/// Plays steps of allocate + free with 20 strips and measures nothing, for a profiler that counts instructions. An
/// unknown name plays nothing.
pub fn play(who: &str, steps: usize) {
    let load = load(LIVE[0], steps);
    match who {
        "kruzhvela" => Station::new(Kruzhvela::new(MOST_WORDS, &BINS, 0, true), &load).run(Kind::AllocateFree, &load),
        "glibc" => Station::new(Glibc, &load).run(Kind::AllocateFree, &load),
        #[cfg(newlib)]
        "newlib" => Station::new(NewlibFull, &load).run(Kind::AllocateFree, &load),
        #[cfg(newlib)]
        "nano" => Station::new(NewlibNano, &load).run(Kind::AllocateFree, &load),
        _ => 0,
    };
}

pub fn rows() -> Vec<Row> {
    KINDS.iter().flat_map(|&(kind, _)| LIVE.iter().map(move |&live| measure(kind, live))).collect()
}
