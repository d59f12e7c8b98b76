//! Patrols in a case: rounds on a heap as it is, and on one whose links are damaged and put back afterwards.

use crate::case::{view, Stage};
use crate::damage::Victim;
use crate::random::Random;
use crate::side::Action;
use crate::view::heap_bytes;
use kruzhvela::flat::{Record, ANSWER_REFUSAL, ANSWER_VALUE, PATROL};
use kruzhvela::limits::{ALIGNMENT, HEADER_BYTES};
use second::Call;

/// The most runs of a round: on a long chain a run has more chunks.
const MOST_RUNS: u32 = 24;

/// The most chunks of a heap that is patrolled with every run size.
const FEW_CHUNKS: u32 = 9;

/// Runs until the end chunk is handled or a run is refused.
pub fn round(stage: &mut dyn Stage, chunks: u32) {
    while let Some(answer) = stage.play(Action::Call(Call::Patrol { chunks })) {
        if answer[ANSWER_REFUSAL] != 0 || answer[ANSWER_VALUE] == 1 {
            return;
        }
    }
}

/// Start and end are counted.
fn chunks(stage: &dyn Stage) -> u32 {
    view(stage).chunks.len() as u32 + 2
}

fn some_run_size(stage: &dyn Stage, random: &mut Random) -> u32 {
    let all = chunks(stage);
    if random.once_in(3) {
        0xFFFF_FFFF
    } else {
        random.between(all.div_ceil(MOST_RUNS), all)
    }
}

pub fn place_at(stage: &mut dyn Stage, place: u32) {
    stage.play(Action::Record { index: PATROL, value: place });
}

/// A full patrol with every run size, from one chunk to all of them and one more.
fn every_size(stage: &mut dyn Stage) {
    for chunks in 1..=chunks(stage) + 1 {
        place_at(stage, 0);
        round(stage, chunks);
    }
}

/// Puts the place where the call may swallow it: at the block's chunk or the one above.
pub fn stand_in_the_way(stage: &mut dyn Stage, call: &Call, random: &mut Random) {
    let (Call::Free { block } | Call::Reallocate { block, .. }) = *call else { return };
    let chunks = view(stage).chunks;
    if let Some(chunk) = chunks.iter().find(|chunk| chunk.place + HEADER_BYTES == block) {
        place_at(stage, if random.bit() { chunk.place } else { chunk.place + chunk.size });
    }
}

/// The words of a heap before it is damaged.
#[derive(Clone)]
pub struct Before {
    region: Vec<u32>,
    record: Record,
}

impl Before {
    pub fn of(stage: &dyn Stage) -> Before {
        Before { region: stage.side().region.clone(), record: stage.side().record }
    }

    pub fn words(&self) -> usize {
        self.region.len()
    }
}

/// Writes the words that are not as they were.
pub fn put_back(stage: &mut dyn Stage, before: Before) {
    let region = differences(&stage.side().region, &before.region);
    let record = differences(&stage.side().record, &before.record);
    for (index, value) in region {
        stage.play(Action::Write { index, value });
    }
    for (index, value) in record {
        stage.play(Action::Record { index, value });
    }
}

fn differences(now: &[u32], before: &[u32]) -> Vec<(usize, u32)> {
    let pairs = now.iter().zip(before).enumerate();
    pairs.filter(|(_, (now, before))| now != before).map(|(index, (_, &before))| (index, before)).collect()
}

fn damage(stage: &mut dyn Stage, random: &mut Random) {
    for _ in 0..random.between(1, 3) {
        let side = stage.side();
        let stores = Victim { region: &side.region, record: &side.record, view: view(stage) }.damage_links(random);
        for store in stores {
            stage.play(store);
        }
    }
}

/// Damages links and sizes, patrols and checks, and puts all words back.
fn mending(stage: &mut dyn Stage, random: &mut Random) {
    let before = Before::of(stage);
    let bytes = heap_bytes(before.region.len());
    let sizes = [some_run_size(stage, random), random.between(1, 3)];
    damage(stage, random);
    match random.below(4) {
        0 => {}
        1 => place_at(stage, random.below(bytes / ALIGNMENT + 1) * ALIGNMENT),
        _ => place_at(stage, 0),
    }
    round(stage, sizes[0]);
    // short runs come nearer to a link that is beyond mending
    stage.play(Action::Call(Call::Patrol { chunks: sizes[1] }));
    stage.play(Action::Call(Call::Check));
    put_back(stage, before);
}

/// Mostly on damaged links.
pub fn play(stage: &mut dyn Stage, random: &mut Random) {
    if chunks(stage) <= FEW_CHUNKS && random.once_in(4) {
        every_size(stage);
    } else {
        mending(stage, random);
    }
}
