//! Damage to a heap, as stores into its words and its record. Each kind could come from a real fault, or would mislead
//! a check that tests too little.

mod links;
mod order;

use crate::random::Random;
use crate::side::Action;
use crate::view::{
    heap_bytes, index, Chunk, View, BACKWARD, BIN_FACTOR, BIN_WORD, FORWARD, HEADER_WORDS, IN_USE, NEXT_IN_BIN,
    PREVIOUS_IN_BIN, SIZE,
};
use kruzhvela::flat::{Record, BINS, BYTES, DONOR, HEADS, MERGE, PATROL, RECORD_WORDS, SIZES, TAILS, TOP, USED};
use kruzhvela::limits::{ALIGNMENT, HEADER_BYTES, LEAST_CHUNK, MOST_BINS};

/// Numbers that are no place of any heap, near where 32-bit sums wrap.
const FAR: [u32; 8] =
    [0x7FFF_FFF8, 0x8000_0000, 0xFFFF_FF00, 0xFFFF_FFE8, 0xFFFF_FFF0, 0xFFFF_FFF8, 0xFFFF_FFFC, 0xFFFF_FFFF];

/// The heap to damage.
pub struct Victim<'a> {
    pub region: &'a [u32],
    pub record: &'a Record,
    pub view: View,
}

fn header(place: u32, word: usize, value: u32) -> Action {
    Action::Write { index: index(place, word), value }
}

fn field(index: usize, value: u32) -> Action {
    Action::Record { index, value }
}

impl Victim<'_> {
    fn word(&self, place: u32, word: usize) -> u32 {
        self.region.get(index(place, word)).copied().unwrap_or(0)
    }

    /// Any chunk between start and end; a least chunk above the start, if the chain can't be followed.
    fn chunk(&self, random: &mut Random) -> Chunk {
        let first = Chunk { place: HEADER_BYTES, size: LEAST_CHUNK, in_use: false };
        if self.view.chunks.is_empty() {
            first
        } else {
            random.of(&self.view.chunks)
        }
    }

    /// One of these, or any chunk if there are none.
    fn one_of(&self, chunks: Vec<Chunk>, random: &mut Random) -> Chunk {
        if chunks.is_empty() {
            self.chunk(random)
        } else {
            random.of(&chunks)
        }
    }

    fn ordinary(&self, random: &mut Random) -> Chunk {
        self.one_of(self.view.ordinary(), random)
    }

    fn live(&self, random: &mut Random) -> Chunk {
        self.one_of(self.view.live(), random)
    }

    fn bin(&self, random: &mut Random) -> usize {
        random.below(self.record[BINS].clamp(1, MOST_BINS as u32)) as usize
    }

    fn flipped_bit(&self, random: &mut Random) -> Vec<Action> {
        let bit = 1 << random.below(32);
        let place = self.chunk(random).place;
        match random.below(4) {
            0 => {
                let index = random.below(RECORD_WORDS as u32) as usize;
                vec![field(index, self.record[index] ^ bit)]
            }
            1 => {
                let index = random.below(self.region.len() as u32) as usize;
                vec![Action::Write { index, value: self.region[index] ^ bit }]
            }
            _ => {
                let word = random.below(HEADER_WORDS) as usize;
                vec![header(place, word, self.word(place, word) ^ bit)]
            }
        }
    }

    /// A free chunk's header inside a live block, alone or linked into the chain or a list.
    fn fake_chunk(&self, random: &mut Random) -> Vec<Action> {
        let chunk = self.live(random);
        let (fake, end, bin) = (chunk.place + HEADER_BYTES, chunk.place + chunk.size, self.bin(random));
        let head = self.record[HEADS + bin];
        let mut stores = vec![
            header(fake, FORWARD, end),
            header(fake, BACKWARD, chunk.place),
            header(fake, SIZE, end.wrapping_sub(fake)),
            header(fake, NEXT_IN_BIN, head),
            header(fake, PREVIOUS_IN_BIN, 0),
            header(fake, BIN_WORD, bin as u32 * BIN_FACTOR),
        ];
        match random.below(3) {
            0 => {}
            1 => stores.extend([header(chunk.place, FORWARD, fake), header(end, BACKWARD, fake | IN_USE)]),
            _ => {
                stores.push(field(HEADS + bin, fake));
                stores.push(if head == 0 { field(TAILS + bin, fake) } else { header(head, PREVIOUS_IN_BIN, fake) });
            }
        }
        stores
    }

    /// A list or the chain has a cycle.
    fn cycle(&self, random: &mut Random) -> Vec<Action> {
        let chunk = self.ordinary(random);
        let lower = self.chunk(random).place.min(chunk.place);
        match random.below(4) {
            0 => vec![header(chunk.place, NEXT_IN_BIN, chunk.place)],
            1 => vec![header(chunk.place, FORWARD, lower)],
            2 => vec![header(chunk.place, PREVIOUS_IN_BIN, chunk.place)],
            _ => {
                let bin = self.bin(random);
                let (head, tail) = (self.record[HEADS + bin], self.record[TAILS + bin]);
                vec![header(tail, NEXT_IN_BIN, head), header(head, PREVIOUS_IN_BIN, tail)]
            }
        }
    }

    /// A chunk is in a second list, or twice in its own.
    fn in_two_lists(&self, random: &mut Random) -> Vec<Action> {
        let place = self.ordinary(random).place;
        let bin = self.bin(random);
        let tail = self.record[TAILS + bin];
        if tail == 0 {
            return vec![field(HEADS + bin, place), field(TAILS + bin, place)];
        }
        let mut stores = vec![header(tail, NEXT_IN_BIN, place), field(TAILS + bin, place)];
        if random.bit() {
            stores.push(header(place, PREVIOUS_IN_BIN, tail));
        }
        stores
    }

    /// A chunk is in no list: its bin has lost its head.
    fn lost(&self, random: &mut Random) -> Vec<Action> {
        let bin = self.bin(random);
        let head = self.record[HEADS + bin];
        let next = self.word(head, NEXT_IN_BIN);
        if next == 0 {
            vec![field(HEADS + bin, 0), field(TAILS + bin, 0)]
        } else {
            vec![field(HEADS + bin, next), header(next, PREVIOUS_IN_BIN, 0)]
        }
    }

    /// Two bins have each other's lists.
    fn swapped(&self, random: &mut Random) -> Vec<Action> {
        let (one, other) = (self.bin(random), self.bin(random));
        [HEADS, TAILS]
            .iter()
            .flat_map(|ends| {
                [field(ends + one, self.record[ends + other]), field(ends + other, self.record[ends + one])]
            })
            .collect()
    }

    /// A head, a tail, donor, top or the patrol's place is another place, or the bin word another bin.
    fn wrong_place(&self, random: &mut Random) -> Vec<Action> {
        let place = if random.once_in(4) { 0 } else { self.chunk(random).place };
        let bin = self.bin(random);
        match random.below(8) {
            0 => vec![field(HEADS + bin, place)],
            1 => vec![field(TAILS + bin, place)],
            2 => vec![field(DONOR, place)],
            3 => vec![field(TOP, place)],
            4 => vec![field(DONOR, self.record[TOP]), field(TOP, self.record[DONOR])],
            5 => vec![field(PATROL, place + random.of(&[0, 4, 8, 16]))],
            6 => vec![field(PATROL, heap_bytes(self.region.len()).wrapping_sub(random.of(&[0, 4, 8, 12])))],
            _ => {
                let chunk = self.ordinary(random).place;
                vec![header(chunk, BIN_WORD, self.word(chunk, BIN_WORD).wrapping_add(random.of(&[1, 8, 0xFFFF_FFF8])))]
            }
        }
    }

    /// A place is off by 4 or 8, or far outside.
    fn off(&self, random: &mut Random) -> Vec<Action> {
        let by = random.of(&[4, 8, 0xFFFF_FFF8, 0xFFFF_FFFC]);
        let far = random.once_in(3).then(|| random.of(&FAR));
        let moved = |value: u32| far.unwrap_or(value.wrapping_add(by));
        if random.bit() {
            let bin = self.bin(random);
            let index = random.of(&[DONOR, TOP, HEADS + bin, TAILS + bin, PATROL]);
            vec![field(index, moved(self.record[index]))]
        } else {
            let place = if random.bit() { self.ordinary(random).place } else { self.chunk(random).place };
            let word = random.below(HEADER_WORDS) as usize;
            vec![header(place, word, moved(self.word(place, word)))]
        }
    }

    /// A figure of the record, a bin size or an unused place of an array is wrong.
    fn figure(&self, random: &mut Random) -> Vec<Action> {
        let by = random.of(&[1, 4, 8, 0xFFFF_FFF8, 0xFFFF_FFFF]);
        let unused = (self.record[BINS] as usize).min(MOST_BINS - 1);
        match random.below(8) {
            0 => vec![field(BYTES, self.record[BYTES].wrapping_add(by))],
            1 => vec![field(BINS, self.record[BINS].wrapping_add(by))],
            2 => vec![field(BINS, random.of(&[0, 33, 64, 0x1_0000, 0xFFFF_FFFF]))],
            3 => vec![field(MERGE, random.of(&[2, 3, 0x100, 0xFFFF_FFFF]))],
            4 => vec![field(USED, self.record[USED].wrapping_add(by))],
            5 => {
                let index = SIZES + self.bin(random);
                vec![field(index, self.record[index].wrapping_add(by))]
            }
            _ => vec![field(random.of(&[SIZES, HEADS, TAILS]) + unused, random.of(&[1, 8, 24, 0xFFFF_FFFF]))],
        }
    }

    /// The flags, the size or a link of a chunk is wrong.
    fn wrong_header(&self, random: &mut Random) -> Vec<Action> {
        let chunk = self.chunk(random);
        let ends = [0, chunk.place, heap_bytes(self.region.len()).saturating_sub(HEADER_BYTES)];
        let place = random.of(&ends);
        let backward = self.word(place, BACKWARD);
        match random.below(5) {
            0 => vec![header(place, BACKWARD, backward ^ random.of(&[1, 2, 4, 6]))],
            1 => vec![header(place, BACKWARD, (backward % ALIGNMENT) | self.chunk(random).place)],
            2 => vec![header(chunk.place, SIZE, self.word(chunk.place, SIZE).wrapping_add(8))],
            3 => vec![header(place, FORWARD, self.chunk(random).place)],
            _ => vec![header(chunk.place, FORWARD, chunk.place + chunk.size + LEAST_CHUNK)],
        }
    }

    /// Stores outside the region are left out.
    fn inside(&self, stores: Vec<Action>) -> Vec<Action> {
        let inside = |store: &Action| !matches!(store, Action::Write { index, .. } if *index >= self.region.len());
        stores.into_iter().filter(inside).collect()
    }

    /// One kind of damage.
    pub fn damage(&self, random: &mut Random) -> Vec<Action> {
        let stores = match random.below(14) {
            0 | 1 => self.flipped_bit(random),
            2 | 3 => self.fake_chunk(random),
            4 => self.cycle(random),
            5 => self.in_two_lists(random),
            6 => self.lost(random),
            7 => self.swapped(random),
            8 => self.wrong_place(random),
            9 => self.off(random),
            10 => self.figure(random),
            11 => self.wrong_header(random),
            _ => self.reordered(random).unwrap_or_else(|| self.flipped_bit(random)),
        };
        self.inside(stores)
    }
}
