// Random words and calls for tests.

use second::Call;

/// SplitMix64: the same run every time.
pub struct Dice(pub u64);

impl Dice {
    pub fn roll(&mut self) -> u64 {
        self.0 = self.0.wrapping_add(0x9E37_79B9_7F4A_7C15);
        let mut mixed = self.0;
        mixed = (mixed ^ (mixed >> 30)).wrapping_mul(0xBF58_476D_1CE4_E5B9);
        mixed = (mixed ^ (mixed >> 27)).wrapping_mul(0x94D0_49BB_1331_11EB);
        mixed ^ (mixed >> 31)
    }

    pub fn below(&mut self, bound: u32) -> u32 {
        (self.roll() % u64::from(bound.max(1))) as u32
    }

    pub fn one_in(&mut self, chances: u32) -> bool {
        self.below(chances) == 0
    }

    pub fn table(&mut self) -> Vec<u32> {
        let mut table = vec![24];
        let gapless = self.below(16);
        for at in 1..1 + self.below(32) {
            let step = if at <= gapless { 1 } else { 1 + self.below(30) };
            table.push(table[at as usize - 1] + 8 * step);
        }
        table
    }

    /// A word that a header or record might hold.
    pub fn word(&mut self, bytes: u32) -> u32 {
        match self.below(6) {
            0 => self.roll() as u32,
            1 => 0,
            2 => self.below(64),
            3 => 8 * self.below(bytes / 8 + 2) + 1,
            _ => 8 * self.below(bytes / 8 + 2),
        }
    }

    /// Chunks of a run: none, one, a few, all.
    pub fn run_size(&mut self) -> u32 {
        match self.below(8) {
            0 => 0,
            1 => u32::MAX,
            2 => 1,
            _ => self.below(20),
        }
    }

    pub fn call(&mut self, bytes: u32) -> Call {
        let (place, figure) = (self.word(bytes), self.word(bytes));
        match self.below(10) {
            0 => Call::Setup { table: self.table(), donor: self.word(bytes), merge: self.one_in(2) },
            1 => Call::Allocate { z: figure },
            2 => Call::AllocateCleared { count: figure, size: 1 + self.below(4) },
            3 => Call::Free { block: place },
            4 => Call::Reallocate { block: place, z: figure },
            5 => Call::SetMerge { on: self.one_in(2) },
            6 => Call::Check,
            7 => Call::AskChunk { question: self.below(11), place },
            8 => Call::Patrol { chunks: self.run_size() },
            _ => Call::AskBin { question: self.below(5), bin: self.below(34) },
        }
    }
}
