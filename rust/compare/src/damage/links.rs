//! Damage to links and sizes alone, as the patrol meets it: each kind of broken link, links that it believes, forged
//! chunks, and backward links that end its walk from the end in each way.

use super::{header, Chunk, Victim, FAR};
use crate::random::Random;
use crate::side::Action;
use crate::view::{heap_bytes, BACKWARD, FORWARD, IN_USE, SIZE};
use kruzhvela::limits::{ALIGNMENT, HEADER_BYTES, LEAST_CHUNK};

impl Victim<'_> {
    fn end(&self) -> u32 {
        heap_bytes(self.region.len()).saturating_sub(HEADER_BYTES)
    }

    /// Any chunk but the end.
    fn start_or_chunk(&self, random: &mut Random) -> Chunk {
        if random.once_in(3) {
            Chunk { place: 0, size: HEADER_BYTES, in_use: true }
        } else {
            self.chunk(random)
        }
    }

    /// A chunk above this one, or the end.
    fn chunk_above(&self, place: u32, random: &mut Random) -> u32 {
        let above: Vec<u32> = self.view.chunks.iter().map(|c| c.place).filter(|&other| other > place).collect();
        if above.is_empty() || random.once_in(3) {
            self.end()
        } else {
            random.of(&above)
        }
    }

    /// The backward link names another place; the flags stay.
    fn backward(&self, place: u32, below: u32) -> Action {
        header(place, BACKWARD, (below / ALIGNMENT * ALIGNMENT) | (self.word(place, BACKWARD) % ALIGNMENT))
    }

    fn aligned_place(&self, random: &mut Random) -> u32 {
        random.below(self.end() / ALIGNMENT + 1) * ALIGNMENT
    }

    /// A forward link leaves the heap, is no multiple of 8, is too near, skips chunks or has one bit flipped.
    fn broken_forward(&self, random: &mut Random) -> Vec<Action> {
        let chunk = self.start_or_chunk(random);
        let link = match random.below(6) {
            0 if random.bit() => random.of(&FAR),
            0 => random.of(&[self.end() + ALIGNMENT, self.end() + 2 * ALIGNMENT, 0x1_0000]),
            1 => chunk.place + chunk.size + random.between(1, 7),
            2 => chunk.place + random.of(&[0, 8, 16]),
            3 => self.aligned_place(random).min(chunk.place),
            4 => self.chunk_above(chunk.place + chunk.size, random),
            _ => self.word(chunk.place, FORWARD) ^ 1 << random.below(18),
        };
        vec![header(chunk.place, FORWARD, link)]
    }

    /// A forward link names a place inside its own chunk or anywhere above.
    fn believed_forward(&self, random: &mut Random) -> Vec<Action> {
        let chunk = self.start_or_chunk(random);
        let within = LEAST_CHUNK + random.below(chunk.size / ALIGNMENT + 1) * ALIGNMENT;
        let link = if random.bit() { chunk.place + within } else { self.aligned_place(random).max(chunk.place) };
        vec![header(chunk.place, FORWARD, link)]
    }

    /// Below a chunk the backward link may name any place, near or far, inside the heap or not.
    fn wrong_below(&self, place: u32, random: &mut Random) -> u32 {
        match random.below(7) {
            0 => place.wrapping_sub(random.of(&[0, 8, 16])),
            1 => self.end() + random.of(&[0, 8, 16]),
            2 => random.of(&FAR),
            3 => self.chunk(random).place,
            4 => self.word(place, BACKWARD) ^ 8 << random.below(14),
            5 => 0,
            _ => self.aligned_place(random),
        }
    }

    /// One to three backward links are wrong, the start's and the end's among them, or the flags beside them.
    fn wrong_backward(&self, random: &mut Random) -> Vec<Action> {
        let wrong = |random: &mut Random| {
            let place = if random.once_in(4) { self.end() } else { self.start_or_chunk(random).place };
            if random.bit() {
                header(place, BACKWARD, self.word(place, BACKWARD) ^ random.between(1, 7))
            } else {
                self.backward(place, self.wrong_below(place, random))
            }
        };
        (0..random.between(1, 3)).map(|_| wrong(random)).collect()
    }

    /// The size word of a free chunk is wrong; it may read as a forward link that the chunk above confirms.
    fn wrong_size(&self, random: &mut Random) -> Vec<Action> {
        let free = self.view.chunks.iter().copied().filter(|c| !c.in_use).collect();
        let chunk = self.one_of(free, random);
        let next = chunk.place + chunk.size;
        let flipped = chunk.size ^ 1 << random.below(32);
        let size = random.of(&[0, next, next, chunk.size + 8, flipped, flipped]);
        let mut stores = vec![header(chunk.place, SIZE, size)];
        if random.once_in(3) {
            stores.push(self.backward(next, chunk.place + HEADER_BYTES));
        }
        stores
    }

    /// A chunk's two links inside a live block, reached by the links around the block or by none.
    fn forged(&self, random: &mut Random) -> Vec<Action> {
        let chunk = self.live(random);
        let above = chunk.place + chunk.size;
        let fake = chunk.place + HEADER_BYTES + random.below(chunk.size / ALIGNMENT + 1) * ALIGNMENT;
        let flags = random.of(&[0, IN_USE, 2, 7]);
        let mut stores = vec![header(fake, FORWARD, above), header(fake, BACKWARD, chunk.place | flags)];
        match random.below(4) {
            0 => {}
            1 => stores.push(header(chunk.place, FORWARD, fake)),
            2 => stores.push(self.backward(above, fake)),
            _ => stores.extend([header(chunk.place, FORWARD, fake), self.backward(above, fake)]),
        }
        stores
    }

    /// A forward link is broken, and so is a backward link on the way down to it.
    fn cut_off(&self, random: &mut Random) -> Vec<Action> {
        let chunk = self.start_or_chunk(random);
        let above = self.chunk_above(chunk.place, random);
        let below = if random.once_in(3) {
            self.aligned_place(random).min(chunk.place.saturating_sub(ALIGNMENT))
        } else {
            self.wrong_below(above, random)
        };
        vec![header(chunk.place, FORWARD, chunk.place + 1), self.backward(above, below)]
    }

    /// The walk from the end comes to the broken chunk from too near, or from just far enough.
    fn named_from_near(&self, random: &mut Random) -> Vec<Action> {
        let place = self.start_or_chunk(random).place;
        let near = place + random.of(&[8, 16, 16, 24]);
        vec![
            header(place, FORWARD, random.of(&[place, place + 4, self.end() + ALIGNMENT])),
            self.backward(near, place),
            self.backward(self.end(), near),
        ]
    }

    /// One kind of damage to links and sizes.
    pub fn damage_links(&self, random: &mut Random) -> Vec<Action> {
        let stores = match random.below(12) {
            0..=3 => self.broken_forward(random),
            4 => self.believed_forward(random),
            5 | 6 => self.wrong_backward(random),
            7 => self.wrong_size(random),
            8 => self.forged(random),
            9 | 10 => self.cut_off(random),
            _ => self.named_from_near(random),
        };
        self.inside(stores)
    }
}
