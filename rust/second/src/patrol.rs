// The patrol: a run along the chain of any heap, damaged or not.

use super::layout::{
    heap_bytes, index, Outcome, ALIGNMENT, BACKWARD, BEYOND_MENDING, FLAGS, FORWARD, HEADER_BYTES, HEAP_BYTES,
    HEAP_FAILS, IN_USE, LEAST_CHUNK, PATROL, RECORD_WORDS, RUN_SIZE, SIZE,
};

/// The words that a run goes along, and the place of the end chunk.
struct Patrol {
    words: Vec<u32>,
    end: u32,
}

/// One run of so many chunks. It mends a copy of the words, which replaces the
/// region only if no link was beyond mending.
pub fn run(region: &mut [u32], record: &mut [u32; RECORD_WORDS], chunks: u32) -> Outcome {
    if chunks == 0 {
        return Err(RUN_SIZE);
    }
    let end = end_chunk(region, record).ok_or(HEAP_FAILS)?;
    let mut patrol = Patrol { words: region.to_vec(), end };
    let reached = patrol.go(record[PATROL], chunks)?;
    region.copy_from_slice(&patrol.words);
    record[PATROL] = reached.unwrap_or(0);
    Ok([0, u32::from(reached.is_none()), 0, 0])
}

/// The end chunk, if length and heap bytes fit each other and the patrol's place
/// can be a chunk's.
fn end_chunk(region: &[u32], record: &[u32; RECORD_WORDS]) -> Option<u32> {
    let bytes = heap_bytes(region)?;
    let end = bytes - HEADER_BYTES;
    let place = record[PATROL];
    (record[HEAP_BYTES] == bytes && place.is_multiple_of(ALIGNMENT) && place <= end).then_some(end)
}

/// The least distance from the chunk at `lower` to the next.
fn least_size(lower: u32) -> u32 {
    if lower == 0 {
        HEADER_BYTES
    } else {
        LEAST_CHUNK
    }
}

impl Patrol {
    /// The chunk to be handled next, or none once the end chunk was handled.
    fn go(&mut self, from: u32, chunks: u32) -> Result<Option<u32>, u32> {
        let mut place = from;
        for _ in 0..chunks {
            if place == self.end {
                return Ok(None);
            }
            place = self.handle(place)?;
        }
        Ok(Some(place))
    }

    /// Handles a chunk other than the end and returns the next one. The start has
    /// no size word, whatever its flags say.
    fn handle(&mut self, place: u32) -> Result<u32, u32> {
        let next = self.next(place)?;
        self.words[index(place, FORWARD)] = next;
        self.name_below(next, place);
        if place == 0 {
            self.name_below(place, 0);
        } else if self.words[index(place, BACKWARD)] & IN_USE == 0 {
            self.words[index(place, SIZE)] = next - place;
        }
        Ok(next)
    }

    /// Where the forward link leads, or should lead if it is broken.
    fn next(&self, place: u32) -> Result<u32, u32> {
        let link = self.words[index(place, FORWARD)];
        if self.is_sound(place, link) {
            Ok(link)
        } else {
            self.chunk_above(place)
        }
    }

    fn is_sound(&self, place: u32, link: u32) -> bool {
        let inside = link <= self.end && link.is_multiple_of(ALIGNMENT);
        inside && link >= place + least_size(place) && !self.skips(place, link)
    }

    /// A chunk in between is skipped: the place above names it, and it names that place.
    fn skips(&self, place: u32, link: u32) -> bool {
        let between = self.below(link);
        place < between && between < link && self.words[index(between, FORWARD)] == link
    }

    /// The backward walk: from the end down to the chunk whose backward link names `place`.
    fn chunk_above(&self, place: u32) -> Result<u32, u32> {
        let mut at = self.end;
        loop {
            let below = self.below(at);
            if below > at || at - below < least_size(below) || below < place {
                return Err(BEYOND_MENDING);
            }
            if below == place {
                return Ok(at);
            }
            at = below;
        }
    }

    /// The place that the backward link of the chunk at `place` names.
    fn below(&self, place: u32) -> u32 {
        self.words[index(place, BACKWARD)] & !FLAGS
    }

    /// Writes a backward link and keeps the flags beside it.
    fn name_below(&mut self, place: u32, below: u32) {
        let word = &mut self.words[index(place, BACKWARD)];
        *word = below | *word & FLAGS;
    }
}
