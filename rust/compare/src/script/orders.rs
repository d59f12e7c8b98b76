//! Large bins in order of size: puts at each spot of a list by each call that puts, the smallest that fits, and heaps as
//! firmware before that rule left them. The sizes 40 to 120 share a bin outside the small array in each of the tables.

use super::Script;
use crate::case::Stage;
use crate::patrols::{put_back, Before};
use crate::side::Action;
use crate::view::{index, list, NEXT_IN_BIN, PREVIOUS_IN_BIN};
use kruzhvela::flat::{ANSWER_OFFSET, HEADS, TAILS};
use kruzhvela::limits::HEADER_BYTES;
use second::Call;

/// Tables with the bin of the sizes 40 to 120. With the last two no bin is small (m = 0).
const TABLES: [(&[u32], usize); 3] = [(&[24, 32, 40, 128], 2), (&[24], 0), (&[24, 40], 1)];

/// A list that is there first, and the sizes that are put then: between, behind an equal one within and at the tail, at
/// the tail, at the head.
const FIRST: [u32; 3] = [48, 64, 96];
const PUT: [u32; 6] = [56, 64, 96, 104, 40, 48];

/// What a cut leaves beside a chunk of 104 bytes: in ascending order, since the smallest that fits is cut first.
const CUT: u32 = 104;
const RESTS: [u32; 6] = [40, 48, 56, 64, 96, 112];

/// A resize cuts a tail off a chunk of so many bytes.
const RESIZED: u32 = 160;

impl Script {
    /// Live blocks with chunks of these sizes, in a heap with merging off.
    fn blocks(&mut self, name: &str, table: &[u32], sizes: &[u32]) -> Vec<u32> {
        self.heap(&format!("{name}, bins {table:?}"), 800, table, 0);
        self.call(Call::SetMerge { on: false });
        let mut block = |&size: &u32| self.play(Action::Call(Call::Allocate { z: size - HEADER_BYTES }));
        sizes.iter().filter_map(|size| block(size).map(|answer| answer[ANSWER_OFFSET])).collect()
    }

    fn free_all(&mut self, blocks: &[u32]) {
        for &block in blocks {
            self.call(Call::Free { block });
        }
    }

    /// Blocks of the first list, which are freed, and then others.
    fn beside_a_list(&mut self, name: &str, table: &[u32], sizes: &[u32]) -> Vec<u32> {
        let mut blocks = self.blocks(name, table, &[&FIRST, sizes].concat());
        let others = blocks.split_off(FIRST.len());
        self.free_all(&blocks);
        others
    }

    /// Links a bin's list in another order.
    fn link(&mut self, bin: usize, list: &[u32]) {
        for (at, &place) in list.iter().enumerate() {
            let before = at.checked_sub(1).map_or(0, |before| list[before]);
            let after = list.get(at + 1).copied().unwrap_or(0);
            for (word, value) in [(NEXT_IN_BIN, after), (PREVIOUS_IN_BIN, before)] {
                self.play(Action::Write { index: index(place, word), value });
            }
        }
        for (end, value) in [(HEADS, list[0]), (TAILS, list[list.len() - 1])] {
            self.play(Action::Record { index: end + bin, value });
        }
    }

    /// Each call that asks the check, with arguments that a heap in order accepts, and the patrol.
    fn calls_on(&mut self, block: u32) {
        let calls = [
            Call::Check,
            Call::Allocate { z: 40 },
            Call::AllocateCleared { count: 5, size: 8 },
            Call::Reallocate { block, z: 8 },
            Call::Reallocate { block: 0, z: 200 },
            Call::SetMerge { on: true },
            Call::AskChunk { question: 8, place: block - HEADER_BYTES },
            Call::AskBin { question: 1, bin: 0 },
            Call::Free { block },
            Call::Free { block: 0 },
            Call::Patrol { chunks: 3 },
            Call::Patrol { chunks: 0xFFFF_FFFF },
        ];
        for call in calls {
            self.call(call);
        }
    }

    /// The heap's lists in other orders: neighbours exchanged at each position, turned round, a member moved to an end.
    /// Equal neighbours are among them, and then the heap passes.
    fn disorders(&mut self, bin: usize, block: u32) {
        let places = list(&self.side().region, &self.side().record, bin);
        let last = places.len() - 1;
        let exchanged = (0..last).map(|at| {
            let mut list = places.clone();
            list.swap(at, at + 1);
            list
        });
        let mut orders: Vec<Vec<u32>> = exchanged.collect();
        orders.push(places.iter().rev().copied().collect());
        orders.push([&places[last..], &places[..last]].concat());
        orders.push([&places[1..], &places[..1]].concat());
        for order in orders {
            let before = Before::of(self);
            self.link(bin, &order);
            self.calls_on(block);
            put_back(self, before);
        }
        self.call(Call::Check);
    }

    /// The words that the rule before this one left: freed in this order, each chunk at the tail.
    fn old_heap(&mut self, table: &[u32], bin: usize) {
        let sizes = [96, 48, 120, 48, 64, 24];
        let blocks = self.blocks("a heap of older firmware", table, &sizes);
        let (freed, live) = blocks.split_at(sizes.len() - 1);
        self.free_all(freed);
        let places: Vec<u32> = freed.iter().map(|block| block - HEADER_BYTES).collect();
        self.link(bin, &places);
        self.calls_on(live[0]);
        self.call(Call::Setup { table: table.to_vec(), donor: 0, merge: true });
        self.call(Call::Check);
    }

    /// What is put by free, as the tail of a resize, and as the old block of a move, each beside the first list.
    fn puts(&mut self, table: &[u32], bin: usize) {
        let freed = self.beside_a_list("freed chunks go to their places by size", table, &[&PUT[..], &[24]].concat());
        self.free_all(&freed[..PUT.len()]);
        self.disorders(bin, freed[PUT.len()]);
        let resized = self.beside_a_list("tails go to their places by size", table, &[RESIZED; PUT.len()]);
        for (&block, tail) in resized.iter().zip(PUT) {
            self.call(Call::Reallocate { block, z: RESIZED - tail - HEADER_BYTES });
        }
        self.disorders(bin, resized[0]);
        let moved = self.beside_a_list("old blocks of moves go to their places by size", table, &PUT);
        for &block in &moved {
            self.call(Call::Reallocate { block, z: 2 * CUT });
        }
        self.call(Call::Check);
    }

    /// Each need takes the smallest chunk that fits; the rest goes to its place by size.
    fn rests(&mut self, table: &[u32], bin: usize) {
        let cut = RESTS.map(|rest| CUT + rest);
        let blocks = self.beside_a_list("rests go to their places by size", table, &[&cut[..], &[24]].concat());
        self.free_all(&blocks[..cut.len()]);
        for at in 0..cut.len() as u32 {
            let call = if at % 2 == 0 {
                Call::Allocate { z: CUT - HEADER_BYTES }
            } else {
                Call::AllocateCleared { count: CUT / 8 - 1, size: 8 }
            };
            self.call(call);
        }
        self.disorders(bin, blocks[cut.len()]);
        let blocks = self.blocks("the smallest that fits", table, &[120, 104, 88, 72, 56, 24]);
        self.free_all(&blocks[..5]);
        self.call(Call::Allocate { z: 56 });
        self.call(Call::AllocateCleared { count: 9, size: 8 });
        self.call(Call::Reallocate { block: blocks[5], z: 90 });
        self.call(Call::Allocate { z: 40 });
        self.call(Call::Check);
    }

    /// With merging on: a chunk joins the head of the list and goes to the place of the size that they have together.
    fn joined(&mut self, table: &[u32]) {
        let blocks = self.blocks("a joined chunk goes to its place by size", table, &[40, 64, 24, 96, 24, 112, 24]);
        for at in [0, 3, 5] {
            self.call(Call::Free { block: blocks[at] });
        }
        self.call(Call::SetMerge { on: true });
        self.call(Call::Free { block: blocks[1] });
        self.call(Call::Reallocate { block: blocks[4], z: 40 });
        self.call(Call::Check);
    }

    pub(super) fn orders(&mut self) {
        for (table, bin) in TABLES {
            self.old_heap(table, bin);
            self.puts(table, bin);
            self.rests(table, bin);
            self.joined(table);
        }
        let blocks =
            self.blocks("small bins stay last in, first out", &[24, 32, 40, 128], &[24, 32, 24, 48, 32, 40, 24]);
        self.free_all(&blocks);
        for z in [16, 24, 40, 16] {
            self.call(Call::Allocate { z });
        }
        self.call(Call::Check);
    }
}
