//! How well blocks from bins fit: the loads in heaps that they nearly fill and in the largest heap, without a donor.

use crate::calls::Kind;
use crate::loads::Load;
use crate::peers::Kruzhvela;
use crate::stations::{each_load, need, tight, Request, Station, Watch, ROOMY};
use kruzhvela::flat::{Answer, ANSWER_OFFSET, ANSWER_REFUSAL, DONOR, TOP};
use kruzhvela::limits::{HEADER_BYTES, WORD_BYTES};

pub struct Row {
    pub kind: Kind,
    pub live: usize,
    pub bytes: u32,
    pub fit: Fit,
}

/// A chunk of the chain.
#[derive(Clone, Copy)]
struct Chunk {
    place: u32,
    size: u32,
    ordinary: bool,
}

/// The chunks between start and end, by the links.
fn chain(heap: &Kruzhvela) -> Vec<Chunk> {
    let word = |place: u32, number: u32| heap.region[(place / WORD_BYTES + number) as usize];
    let is_chunk = |place: &u32| *place + HEADER_BYTES < heap.region.len() as u32 * WORD_BYTES;
    let places = std::iter::successors(Some(word(0, 0)), |&place| Some(word(place, 0))).take_while(is_chunk);
    let chunk = |place: u32| Chunk {
        place,
        size: word(place, 0) - place,
        ordinary: word(place, 1) % 2 == 0 && place != heap.record[DONOR] && place != heap.record[TOP],
    };
    places.map(chunk).collect()
}

/// The chunk in which a place lies.
fn around(chain: &[Chunk], place: u32) -> Chunk {
    *chain.iter().rfind(|chunk| chunk.place < place).expect("every block lies in a chunk")
}

/// Counts of new blocks, and sums of bytes over those that come from a bin.
#[derive(Default)]
pub struct Fit {
    before: Vec<Chunk>,
    pub granted: usize,
    pub from_bins: usize,
    /// Bytes of the granted chunks beyond the need.
    pub beyond: usize,
    /// Bytes beyond the need of the chunks that they are cut from.
    pub taken_beyond: usize,
    /// The blocks for which a smaller ordinary chunk could serve.
    pub not_smallest: usize,
}

impl Watch for Fit {
    fn before(&mut self, heap: &Kruzhvela) {
        self.before = chain(heap);
    }

    fn after(&mut self, heap: &Kruzhvela, request: Request, answer: Answer) {
        let block = answer[ANSWER_OFFSET];
        if answer[ANSWER_REFUSAL] != 0 || block == request.old {
            return;
        }
        self.granted += 1;
        let taken = around(&self.before, block);
        if taken.ordinary {
            let need = need(request.bytes);
            self.from_bins += 1;
            self.beyond += (around(&chain(heap), block).size - need) as usize;
            self.taken_beyond += (taken.size - need) as usize;
            let smaller = |chunk: &Chunk| chunk.ordinary && (need..taken.size).contains(&chunk.size);
            self.not_smallest += usize::from(self.before.iter().any(smaller));
        }
    }
}

fn count(kind: Kind, live: usize, load: &Load, bytes: u32) -> Row {
    let mut station = Station::new(bytes, 0, load, Fit::default());
    station.run(kind, load);
    Row { kind, live, bytes, fit: station.watch }
}

pub fn rows() -> Vec<Row> {
    let tight = each_load(|kind, live, load| count(kind, live, load, tight(live)));
    let roomy = each_load(|kind, live, load| count(kind, live, load, ROOMY));
    tight.into_iter().chain(roomy).collect()
}

/// The promise `BestFit`, on the compiled heap.
#[test]
fn no_smaller_chunk_could_serve() {
    let rows = rows();
    assert!(rows.iter().map(|row| row.fit.from_bins).sum::<usize>() > 50_000, "blocks come from bins");
    assert!(rows.iter().all(|row| row.fit.not_smallest == 0));
}
