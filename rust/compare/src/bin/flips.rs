//! What a full patrol makes of one flipped bit in a forward link: flips every bit of every forward link of a few heaps,
//! one at a time, and counts what comes of it. The proved heap patrols.

use compare::judge::Words;
use compare::random::Random;
use compare::side::{proved, Action, Side};
use compare::view::{index, View, FORWARD};
use kruzhvela::flat::{Answer, ANSWER_OFFSET, ANSWER_REFUSAL, ANSWER_VALUE, PATROL};
use kruzhvela::limits::{MOST_WORDS, WORD_BYTES};
use kruzhvela::Refusal;
use second::Call;

/// Live strips and their sizes, such that they fill the largest heap well.
const SHAPES: [(usize, &[u32]); 3] =
    [(20, &[96, 240, 480, 960, 1_920]), (200, &[24, 48, 96, 160, 240]), (2_000, &[8, 12, 16])];

/// How often strips are freed and allocated again before the flips.
const CHANGES: [usize; 2] = [0, 10];

const SEEDS: u64 = 3;
const ALL: u32 = u32::MAX;

#[derive(Default)]
struct Counts {
    links: u64,
    /// Broken in the requirements' sense; a full patrol put every word back.
    mended: u64,
    believed: u64,
    /// Of the believed, by a full patrol in one run: refused with nothing written; accepted, with another chain; and
    /// the check passes after that.
    refused: u64,
    accepted: u64,
    passed: u64,
    /// Of the believed, by runs of one chunk: words other than the link were written.
    written: u64,
}

fn call(side: &mut Side, call: Call) -> Answer {
    side.play(&Action::Call(call)).expect("a call has an answer")
}

/// A strip of one of the sizes, filled with random words as an image has them.
fn strip(side: &mut Side, sizes: &[u32], random: &mut Random) -> u32 {
    let bytes = random.of(sizes);
    let block = call(side, Call::Allocate { z: bytes })[ANSWER_OFFSET];
    assert_ne!(block, 0, "there is room for every strip");
    side.region[(block / WORD_BYTES) as usize..][..(bytes / WORD_BYTES) as usize].fill_with(|| random.word());
    block
}

fn heap(live: usize, sizes: &[u32], changes: usize, random: &mut Random) -> Side {
    let mut side = Side::new(proved);
    side.play(&Action::Region { words: MOST_WORDS, seed: random.word() });
    call(&mut side, Call::Setup { table: vec![24, 32, 40, 48, 56, 64, 128, 256, 512], donor: 0, merge: true });
    let mut blocks: Vec<u32> = (0..live).map(|_| strip(&mut side, sizes, random)).collect();
    for _ in 0..changes * live {
        let slot = random.below(live as u32) as usize;
        call(&mut side, Call::Free { block: blocks[slot] });
        blocks[slot] = strip(&mut side, sizes, random);
    }
    side
}

/// Every word of the region but the flipped link is as in the sound heap.
fn unwritten(side: &Side, sound: &Side, link: usize) -> bool {
    side.region[..link] == sound.region[..link] && side.region[link + 1..] == sound.region[link + 1..]
}

/// A full patrol in one run, from the start.
fn one_run(side: &mut Side) -> u32 {
    side.record[PATROL] = 0;
    call(side, Call::Patrol { chunks: ALL })[ANSWER_REFUSAL]
}

/// Runs of one chunk, from the chunk with the link: what lies below is whole.
fn runs_of_one(side: &mut Side, place: u32) {
    side.record[PATROL] = place;
    loop {
        let answer = call(side, Call::Patrol { chunks: 1 });
        if answer[ANSWER_REFUSAL] != 0 || answer[ANSWER_VALUE] == 1 {
            return;
        }
    }
}

fn put_back(side: &mut Side, sound: &Side) {
    side.region.copy_from_slice(&sound.region);
    side.record = sound.record;
}

impl Counts {
    fn count_believed(&mut self, side: &mut Side, sound: &Side, place: u32, bit: u32) {
        let link = index(place, FORWARD);
        self.believed += 1;
        if one_run(side) == Refusal::BeyondMending.number() {
            assert!(unwritten(side, sound, link), "a refused run writes nothing");
            self.refused += 1;
        } else {
            self.accepted += 1;
            self.passed += u64::from(call(side, Call::Check)[ANSWER_REFUSAL] == 0);
        }
        put_back(side, sound);
        side.region[link] ^= 1 << bit;
        runs_of_one(side, place);
        self.written += u64::from(!unwritten(side, sound, link));
    }

    fn flip(&mut self, side: &mut Side, sound: &Side, place: u32, bit: u32) {
        side.region[index(place, FORWARD)] ^= 1 << bit;
        if Words(&side.region).judged(place).is_believed() {
            self.count_believed(side, sound, place, bit);
        } else {
            assert_eq!(one_run(side), 0, "a single broken link is mended");
            assert!(side.region == sound.region, "exactly");
            self.mended += 1;
        }
        put_back(side, sound);
    }

    fn all_flips(&mut self, sound: &Side) {
        let places: Vec<u32> = View::of(&sound.region, &sound.record).chunks.iter().map(|chunk| chunk.place).collect();
        let mut side = Side::new(proved);
        (side.region, side.record) = (sound.region.clone(), sound.record);
        for place in [0].into_iter().chain(places) {
            self.links += 1;
            for bit in 0..u32::BITS {
                self.flip(&mut side, sound, place, bit);
            }
        }
    }
}

/// The row of a shape: counts, and percents of all flips or of the believed ones.
fn row(live: usize, changes: usize, counts: &Counts) -> String {
    let flips = counts.links * u64::from(u32::BITS);
    let of = |part: u64, whole: u64| format!("{part} ({:.1} %)", 100.0 * part as f64 / whole.max(1) as f64);
    let cells = [
        live.to_string(),
        (changes * live).to_string(),
        flips.to_string(),
        of(counts.mended, flips),
        of(counts.believed, flips),
        of(counts.refused, counts.believed),
        of(counts.accepted, counts.believed),
        counts.passed.to_string(),
        of(counts.written, counts.believed),
    ];
    format!("| {} |", cells.join(" | "))
}

fn main() {
    println!("{SEEDS} heaps of {MOST_WORDS} words in each row; every bit of every forward link flips once.\n");
    println!("| strips | freed and allocated again | flips | mended exactly | believed | of these, one run: 12, nothing written | one run: accepted | and the check passes | runs of one chunk: words written |");
    println!("|---|---|---|---|---|---|---|---|---|");
    for (live, sizes) in SHAPES {
        for changes in CHANGES {
            let mut counts = Counts::default();
            for seed in 0..SEEDS {
                counts.all_flips(&heap(live, sizes, changes, &mut Random::new(seed)));
            }
            println!("{}", row(live, changes, &counts));
        }
    }
}
