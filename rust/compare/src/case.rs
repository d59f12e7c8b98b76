//! A case: a heap with its own settings, a run of calls with writes into live blocks between them, damaged links that
//! are patrolled and put back, lists in another order, and, in five of eight cases, damage on which every call is tried.
//! Each step is chosen by the heap as it is.

use crate::calls;
use crate::damage::Victim;
use crate::orders;
use crate::patrols;
use crate::random::Random;
use crate::settings;
use crate::side::{Action, Side};
use crate::view::{bins, small_bins, View};
use kruzhvela::flat::{Answer, ANSWER_OFFSET, ANSWER_REFUSAL, SIZES};
use kruzhvela::limits::{ALIGNMENT, HEADER_BYTES, WORD_BYTES};
use kruzhvela::Refusal;
use second::Call;

/// What a case is played on.
pub trait Stage {
    /// Plays the action; returns the answer, if it is a call.
    fn play(&mut self, action: Action) -> Option<Answer>;

    /// The heap by which the case chooses the next step.
    fn side(&self) -> &Side;

    /// True once the case can stop.
    fn is_over(&self) -> bool {
        false
    }
}

pub fn view(stage: &dyn Stage) -> View {
    View::of(&stage.side().region, &stage.side().record)
}

/// The bin sizes in the record.
pub fn table(stage: &dyn Stage) -> Vec<u32> {
    let record = &stage.side().record;
    record[SIZES..][..bins(record)].to_vec()
}

/// Writes a word of a live block, as its owner may.
fn write_block(stage: &mut dyn Stage, random: &mut Random) {
    let live = view(stage).live();
    if live.is_empty() {
        return;
    }
    let chunk = random.of(&live);
    let bytes = chunk.size.saturating_sub(HEADER_BYTES);
    let index = (chunk.place + HEADER_BYTES) / WORD_BYTES + random.below((bytes / WORD_BYTES).max(1));
    // half of the values look like header words: a block's contents must not mislead the heap
    let value =
        if random.bit() { random.word() } else { random.of(&[0, 1, 8, 9, 24, 73, chunk.place, chunk.place | 1]) };
    if (index as usize) < stage.side().region.len() {
        stage.play(Action::Write { index: index as usize, value });
    }
}

/// Damages the heap and tries every call on it, setup last since it makes a new heap.
fn damaged(stage: &mut dyn Stage, random: &mut Random) {
    let words = stage.side().region.len();
    let (v, t) = (view(stage), table(stage));
    for _ in 0..random.between(1, 2) {
        let side = stage.side();
        let stores = Victim { region: &side.region, record: &side.record, view: view(stage) }.damage(random);
        for store in stores {
            stage.play(store);
        }
    }
    for number in 1..calls::CALLS {
        let call = calls::numbered(number, words, &v, &t, random);
        stage.play(Action::Call(call));
    }
    set_up(stage, random);
}

pub fn set_up(stage: &mut dyn Stage, random: &mut Random) {
    let call = calls::setup(stage.side().region.len(), random);
    stage.play(Action::Call(call));
}

fn run(stage: &mut dyn Stage, steps: u32, damage: bool, random: &mut Random) {
    for _ in 0..steps {
        if stage.is_over() {
            return;
        }
        match random.below(24) {
            0 | 1 => write_block(stage, random),
            2 if damage => damaged(stage, random),
            3 if random.once_in(3) => patrols::play(stage, random),
            4 if random.bit() => orders::play(stage, random),
            _ => {
                let call = calls::any(stage.side().region.len(), &view(stage), &table(stage), random);
                if random.once_in(6) {
                    patrols::stand_in_the_way(stage, &call, random);
                }
                let answer = stage.play(Action::Call(call));
                if answer.is_some_and(|a| a[ANSWER_REFUSAL] == Refusal::HeapFails.number()) && random.bit() {
                    set_up(stage, random);
                }
            }
        }
    }
}

/// Many small blocks, every third of them freed: a long chain and long lists.
fn crowd(stage: &mut dyn Stage, random: &mut Random) {
    for turn in 0..stage.side().region.len() as u32 / 7 {
        if stage.is_over() {
            return;
        }
        stage.play(Action::Call(Call::Allocate { z: random.between(1, 24) }));
        if turn % 3 == 2 {
            let place = random.below(stage.side().region.len() as u32 * WORD_BYTES) / ALIGNMENT * ALIGNMENT;
            let chunks = view(stage).live();
            if let Some(chunk) = chunks.iter().find(|c| c.place >= place) {
                stage.play(Action::Call(Call::Free { block: chunk.place + HEADER_BYTES }));
            }
        }
    }
    stage.play(Action::Call(Call::Check));
}

/// A few chunk sizes, from the least of a bin outside the small array on.
fn shared_sizes(stage: &dyn Stage, random: &mut Random) -> Option<[u32; 5]> {
    let table = table(stage);
    let large = table.get(small_bins(&stage.side().record)..).filter(|large| !large.is_empty())?;
    let least = random.of(large);
    Some([0, 1, 2, 3, 4].map(|step| least.saturating_add(ALIGNMENT * step)))
}

/// Blocks of a few sizes that share a large bin, and of two such sizes together. Most are freed, cut or moved: a list
/// with equal members and different ones.
fn share_a_bin(stage: &mut dyn Stage, random: &mut Random) {
    let Some(sizes) = shared_sizes(stage, random) else { return };
    let mut blocks = Vec::new();
    for _ in 0..random.between(6, 30) {
        let more = if random.once_in(3) { random.of(&sizes) } else { 0 };
        let z = random.of(&sizes).saturating_add(more) - HEADER_BYTES;
        let answer = stage.play(Action::Call(Call::Allocate { z }));
        blocks.extend(answer.map(|a| a[ANSWER_OFFSET]).filter(|&block| block != 0));
        // a block between, so that freed neighbours do not join
        stage.play(Action::Call(Call::Allocate { z: 1 }));
    }
    while !blocks.is_empty() && !stage.is_over() {
        let block = blocks.swap_remove(random.below(blocks.len() as u32) as usize);
        let call = match random.below(6) {
            0 => continue,
            1 | 2 => Call::Reallocate { block, z: random.of(&sizes) - HEADER_BYTES },
            // more than each of the sizes has: two together are cut
            3 if random.bit() => Call::Allocate { z: sizes[4] },
            _ => Call::Free { block },
        };
        stage.play(Action::Call(call));
    }
}

/// Plays the case of a number and a seed, which determine all of it.
pub fn play(number: u64, seed: u64, stage: &mut dyn Stage) {
    let mut random = Random::new(seed ^ number.wrapping_mul(0xD134_2543_DE82_EF95));
    let words = settings::region_words(number, &mut random);
    stage.play(Action::Region { words, seed: random.word() });
    set_up(stage, &mut random);
    if number % 100 == 40 {
        crowd(stage, &mut random);
    }
    if number % 5 == 1 {
        share_a_bin(stage, &mut random);
    }
    let steps = random.between(20, 160);
    let damage = number % 2 == 1 || number % 8 == 4;
    run(stage, steps, damage, &mut random);
    if damage {
        damaged(stage, &mut random);
    }
    stage.play(Action::Call(Call::Check));
}
