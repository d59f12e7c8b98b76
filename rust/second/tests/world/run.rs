// A random run of calls, held to the requirements after every step.

use super::dice::Dice;
use super::{Answer, World, ACCEPTED, PATROL};
use std::collections::BTreeMap;

/// A heap in a random run, with the words that its live blocks must hold.
pub struct Run {
    pub dice: Dice,
    pub world: World,
    contents: BTreeMap<u32, Vec<u32>>,
    most: u32,
}

impl Run {
    pub fn new(seed: u64, words: usize, most: u32) -> Run {
        let mut dice = Dice(seed);
        let mut world = World::new(words);
        world.region.fill_with(|| dice.roll() as u32);
        let room = (words as u32 / 2 * 8 - 40) / 8;
        let donor = match dice.below(room + 1) * 8 {
            size if size < 24 || dice.one_in(3) => 0,
            size => size,
        };
        let (table, merge) = (dice.table(), dice.one_in(2));
        assert_eq!(world.setup(&table, donor, merge), ACCEPTED);
        Run { dice, world, contents: BTreeMap::new(), most }
    }

    fn some_block(&mut self) -> u32 {
        let count = self.contents.len() as u32;
        let nth = self.dice.below(count) as usize;
        self.contents.keys().nth(nth).copied().unwrap_or(0)
    }

    fn some_bytes(&mut self) -> u32 {
        let most = if self.dice.one_in(4) { self.most } else { 48 };
        1 + self.dice.below(most)
    }

    fn in_block(&self, block: u32) -> Vec<u32> {
        let next = self.world.word(block - 8);
        self.world.words(block, (next - block) as usize / 4)
    }

    /// Fills a block with new words, from word `from` on, and notes what it holds.
    fn fill(&mut self, block: u32, from: usize) {
        let length = self.in_block(block).len();
        let start = block as usize / 4;
        for at in start + from..start + length {
            self.world.region[at] = self.dice.roll() as u32;
        }
        self.contents.insert(block, self.in_block(block));
    }

    pub fn step(&mut self) {
        let before = self.world.used();
        let answer = match self.dice.below(12) {
            0..=2 => self.allocate(),
            3 => self.cleared(),
            4..=6 => self.free(),
            7 | 8 => self.reallocate(),
            9 | 10 => self.patrol(),
            _ => {
                let on = self.dice.one_in(2);
                self.world.set_merge(on)
            }
        };
        if answer[0] == 0 {
            assert_eq!(before.wrapping_add(answer[3]), self.world.used());
        } else {
            assert_eq!(answer, [7, 0, 0, 0, 0]);
        }
    }

    fn allocate(&mut self) -> Answer {
        let z = self.some_bytes();
        let before = self.world.clone();
        let answer = self.world.allocate(z);
        if answer[0] == 0 {
            let block = answer[1];
            let found = self.in_block(block);
            assert_eq!(found, before.words(block, found.len()));
            assert!(found.len() as u32 * 4 >= z && found.len() as u32 * 4 <= z.max(16) + 23);
            self.fill(block, 0);
        } else {
            assert!(self.world == before);
        }
        answer
    }

    fn cleared(&mut self) -> Answer {
        let size = self.some_bytes();
        let answer = self.world.cleared(1, size);
        if answer[0] == 0 {
            assert!(self.in_block(answer[1]).iter().all(|&word| word == 0));
            self.fill(answer[1], 0);
        }
        answer
    }

    fn free(&mut self) -> Answer {
        let block = self.some_block();
        let before = self.world.clone();
        let answer = self.world.free(block);
        assert_eq!(answer[0], 0);
        if block == 0 {
            assert!(self.world == before);
        } else {
            self.contents.remove(&block);
            self.only_headers_changed(&before, block - 8);
            assert_eq!(self.world.free(block), [6, 0, 0, 0, 0]);
        }
        answer
    }

    /// Free writes the six words of the result, the backward link above it, and
    /// bin links of chunks that were in lists: no other word.
    fn only_headers_changed(&self, before: &World, freed: u32) {
        let mut allowed = vec![false; before.region.len()];
        let mut place = 8;
        while before.word(place) != 0 {
            let listed = before.word(place + 4) & 1 == 0;
            allowed[place as usize / 4 + 3..][..2].fill(listed);
            place = before.word(place);
        }
        let mut result = 0;
        while self.world.word(result) <= freed {
            result = self.world.word(result);
        }
        allowed[result as usize / 4..][..6].fill(true);
        allowed[self.world.word(result) as usize / 4 + 1] = true;
        for (at, (new, old)) in self.world.region.iter().zip(&before.region).enumerate() {
            assert!(allowed[at] || new == old, "word {at}, freed {freed}");
        }
    }

    fn reallocate(&mut self) -> Answer {
        let (block, z) = (self.some_block(), self.some_bytes());
        let before = self.world.clone();
        let answer = self.world.reallocate(block, z);
        if answer[0] != 0 {
            assert!(self.world == before);
            return answer;
        }
        let old = self.contents.remove(&block).unwrap_or_default();
        let new = self.in_block(answer[1]);
        let kept = old.len().min(new.len());
        assert_eq!(new[..kept], old[..kept]);
        assert!(new.len() as u32 * 4 >= z);
        self.fill(answer[1], kept);
        answer
    }

    /// A run on a sound heap moves the place and writes no word.
    fn patrol(&mut self) -> Answer {
        let chunks = 1 + self.dice.below(6);
        let mut before = self.world.clone();
        let answer = self.world.patrol(chunks);
        before.record[PATROL] = self.world.place();
        assert!(self.world == before);
        answer
    }

    /// Holds after every step: the heap passes, and its counts and live blocks are right.
    pub fn holds(&mut self) {
        let [refusal, chunks, ordinary, used, free] = self.world.check();
        assert_eq!(refusal, 0);
        assert_eq!(used + free + 16, self.world.record[0]);
        let outside = 3 + u32::from(self.world.donor() != 0);
        assert_eq!(chunks, self.contents.len() as u32 + ordinary + outside);
        let live = self.contents.values();
        let held: usize = live.map(|block| block.len() * 4 + 8).sum();
        assert_eq!(used as usize, held);
        for (&block, words) in &self.contents {
            assert_eq!(&self.world.words(block, words.len()), words);
        }
    }

    /// Walks each bin list by the questions, in both directions: no size is below the one before, nor below the bin's.
    pub fn bins_hold(&mut self) {
        let mut counted = 0;
        for bin in 0..self.world.record[1] {
            let (mut before, mut here) = (None, self.world.bin_tells(2, bin));
            let (mut count, mut size) = (0, self.world.record[6 + bin as usize]);
            while let Some(place) = here {
                assert_eq!(self.world.tells(7, place), before);
                assert_eq!(self.world.tells(1, place), Some(bin));
                assert!(self.world.value(8, place) >= size);
                size = self.world.value(8, place);
                count += 1;
                (before, here) = (here, self.world.tells(5, place));
            }
            assert_eq!(self.world.bin_tells(3, bin), before);
            assert_eq!(self.world.bin_tells(1, bin), Some(count));
            counted += count;
        }
        assert_eq!(self.world.check()[2], counted);
    }
}
