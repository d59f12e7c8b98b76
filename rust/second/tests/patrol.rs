// The patrol: its rule case by case, what it mends, what it refuses, and where the other calls leave its place.

mod world;

use second::{Call, RECORD_WORDS};
use world::dice::Dice;
use world::run::Run;
use world::{after_nine, granted, six, Answer, World, ACCEPTED, DEMO_TABLE, PATROL};

/// The end chunk was handled.
const ENDED: Answer = [0, 0, 1, 0, 0];

/// More chunks than any heap has.
const ALL: u32 = u32::MAX;

const FORWARD: u32 = 0;
const BACKWARD: u32 = 4;
const SIZE: u32 = 8;

fn set(world: &mut World, byte: u32, word: u32) {
    world.region[byte as usize / 4] = word;
}

/// The chunks of a sound heap.
fn chain(world: &World) -> Vec<u32> {
    let up = |&place: &u32| Some(world.word(place)).filter(|&next| next != 0);
    std::iter::successors(Some(0), up).collect()
}

/// Runs from the start until the end chunk is handled: the number of runs, or the first refusal.
fn full(world: &mut World, chunks: u32) -> Result<u32, u32> {
    world.record[PATROL] = 0;
    for runs in 1.. {
        match world.patrol(chunks) {
            ENDED => return Ok(runs),
            ACCEPTED => {}
            answer => return Err(answer[0]),
        }
    }
    unreachable!("each accepted run goes up or ends")
}

/// The damaged heap becomes the sound one again, whatever the run's size.
fn undone(damaged: &World, sound: &World, note: &str) {
    for chunks in [1, 2, 3, ALL] {
        let mut world = damaged.clone();
        assert!(full(&mut world, chunks).is_ok(), "{note}, runs of {chunks}");
        assert!(world == *sound, "{note}, runs of {chunks}: {:?}", world.region);
    }
}

/// A run of all chunks from the start is refused with 12 and changes nothing.
fn beyond_mending(world: &World) {
    let mut world = world.clone();
    world.record[PATROL] = 0;
    world.refuses(12, Call::Patrol { chunks: ALL });
}

fn random_heap(seed: u64) -> Run {
    let words = [24, 64, 129, 400][seed as usize % 4];
    let mut run = Run::new(seed, words, 80);
    for _ in 0..100 {
        run.step();
    }
    run.world.record[PATROL] = 0;
    run
}

#[test]
fn a_round_takes_k_over_f_runs_and_each_goes_f_chunks_on() {
    for sound in [World::fresh(10, &[24], 0, true), after_nine(), six(&[24], true)] {
        let places = chain(&sound);
        for f in 1..=places.len() + 2 {
            let mut world = sound.clone();
            for run in 1..=places.len().div_ceil(f) {
                let place = places.get(run * f).copied();
                assert_eq!(world.patrol(f as u32), if place.is_some() { ACCEPTED } else { ENDED });
                assert_eq!(world.place(), place.unwrap_or(0));
                assert_eq!(world.region, sound.region);
                assert_eq!(world.record[..PATROL], sound.record[..PATROL]);
            }
        }
    }
}

#[test]
fn what_is_left_of_a_run_after_the_end_is_dropped() {
    let mut world = after_nine();
    assert_eq!(world.patrol(7), ACCEPTED);
    assert_eq!(world.place(), 248);
    // The end's forward link is not looked at, nor is any other word.
    let sound = world.region.clone();
    world.region.fill(u32::MAX);
    assert_eq!(world.patrol(ALL), ENDED);
    assert_eq!(world.place(), 0);
    assert!(world.region.iter().all(|&word| word == u32::MAX));
    world.region = sound;
    assert_eq!(world.patrol(1), ACCEPTED);
    assert_eq!(world.place(), 8);
}

#[test]
fn refusals_of_a_run() {
    for words in [0, 1, 9, 10, 16_384, 16_385] {
        let mut world = World::new(words);
        world.record = [u32::MAX; RECORD_WORDS];
        world.refuses(10, Call::Patrol { chunks: 0 });
        world.refuses(4, Call::Patrol { chunks: 1 });
    }
    let mut long = World::new(16_385);
    long.record[0] = 65_536;
    long.refuses(4, Call::Patrol { chunks: 1 });
    let sound = after_nine();
    for bytes in [0, 248, 255, 264, 256 + 4] {
        let mut world = sound.clone();
        world.record[0] = bytes;
        world.refuses(4, Call::Patrol { chunks: 1 });
    }
    for place in [1, 2, 4, 12, 250, 252, 256, 0x8000_0000, u32::MAX - 7, u32::MAX] {
        let mut world = sound.clone();
        world.record[PATROL] = place;
        world.refuses(4, Call::Patrol { chunks: 1 });
    }
}

#[test]
fn the_rest_of_the_record_is_not_looked_at() {
    let sound = after_nine();
    let mut world = sound.clone();
    world.record[1..PATROL].fill(u32::MAX);
    let record = world.record;
    assert_eq!(world.patrol(ALL), ENDED);
    assert_eq!((&world.region, world.record), (&sound.region, record));
}

#[test]
fn the_check_asks_for_a_chunk_of_the_chain() {
    let mut world = after_nine();
    let places = chain(&world);
    for place in (0..300).chain([u32::MAX - 7, u32::MAX]) {
        world.record[PATROL] = place;
        let is_chunk = places.contains(&place);
        assert_eq!(world.check()[0], if is_chunk { 0 } else { 4 }, "{place}");
    }
}

#[test]
fn each_sort_of_broken_link_is_mended() {
    let sound = after_nine();
    // At 72, whose next chunk is 96: out of the heap, no multiple of 8, too near, not up, and to a chunk beyond 96.
    for link in [256, u32::MAX, 0x8000_0060, 97, 100, 80, 88, 72, 64, 0, 152, 224, 248] {
        let mut world = sound.clone();
        set(&mut world, 72 + FORWARD, link);
        undone(&world, &sound, &format!("{link} at 72"));
    }
    // At the start, whose next chunk is 8.
    for link in [0, 1, 4, 7, 9, 256, 32, 72, 248] {
        let mut world = sound.clone();
        set(&mut world, FORWARD, link);
        undone(&world, &sound, &format!("{link} at the start"));
    }
}

#[test]
fn a_link_to_the_chunk_just_above_the_start_is_not_too_near() {
    let sound = after_nine();
    let mut world = sound.clone();
    // If 8 were too near, the backward walk would meet this link and refuse.
    set(&mut world, 248 + BACKWARD, 1);
    undone(&world, &sound, "the start's own link");
}

#[test]
fn one_broken_forward_link_is_undone_exactly() {
    for seed in 0..40 {
        let sound = random_heap(seed).world;
        let places = chain(&sound);
        for (&place, &next) in places.iter().zip(&places[1..]) {
            let flips = (0..32).map(|bit| next ^ 1 << bit);
            for link in (0..sound.record[0] + 16).chain(flips).filter(|&link| is_broken(&sound, place, link)) {
                let mut world = sound.clone();
                set(&mut world, place + FORWARD, link);
                assert_eq!(full(&mut world, 1 + link % 5), Ok((places.len() as u32).div_ceil(1 + link % 5)));
                assert!(world == sound, "{link} at {place}, seed {seed}");
            }
        }
    }
}

/// The document's sentence, for a link in a heap that is otherwise as these words are.
fn is_broken(world: &World, place: u32, link: u32) -> bool {
    let least = if place == 0 { 8 } else { 24 };
    link > world.record[0] - 8 || !link.is_multiple_of(8) || link < place + least || gives_the_sign(world, place, link)
}

/// The place that the link names has a backward link to a place between whose own forward link names it.
fn gives_the_sign(world: &World, place: u32, link: u32) -> bool {
    let between = world.word(link + BACKWARD) / 8 * 8;
    place < between && between < link && world.word(between) == link
}

/// Damages backward offsets and free sizes, each once in three; once in ten a free chunk's size reads as a forward link
/// and the backward link above names it.
fn damage_links_and_sizes(sound: &World, dice: &mut Dice) -> World {
    let mut world = sound.clone();
    let (places, bytes) = (chain(sound), sound.record[0]);
    for (at, &place) in places.iter().enumerate() {
        let flags = sound.word(place + BACKWARD) % 8;
        if dice.one_in(3) {
            set(&mut world, place + BACKWARD, dice.word(bytes) / 8 * 8 + flags);
        }
        if flags == 0 && dice.one_in(3) {
            set(&mut world, place + SIZE, dice.word(bytes));
        }
        if at > 0 && sound.word(places[at - 1] + BACKWARD).is_multiple_of(8) && dice.one_in(10) {
            set(&mut world, places[at - 1] + SIZE, place);
            set(&mut world, place + BACKWARD, places[at - 1] + SIZE + flags);
        }
    }
    world
}

#[test]
fn backward_links_and_sizes_are_undone_unless_and_only_unless_one_gives_the_sign() {
    let mut signs = 0;
    for seed in 0..2_000 {
        let Run { world: sound, mut dice, .. } = random_heap(seed);
        let damaged = damage_links_and_sizes(&sound, &mut dice);
        let places = chain(&sound);
        let sign = places.iter().zip(&places[1..]).any(|(&place, &next)| gives_the_sign(&damaged, place, next));
        if !sign {
            undone(&damaged, &sound, &format!("seed {seed}"));
            continue;
        }
        signs += 1;
        for chunks in [1, 2, ALL] {
            let mut world = damaged.clone();
            let ended = full(&mut world, chunks);
            assert!(ended == Err(12) || world != sound, "seed {seed}");
        }
    }
    assert!(signs > 200, "{signs} heaps gave the sign");
}

#[test]
fn a_size_word_that_reads_as_a_forward_link_gives_the_sign() {
    let mut world = World::fresh(10, &[24], 0, true);
    assert_eq!(world.region, [8, 1, 32, 0, 24, 0, 0, 0, 0, 9]);
    world.region[4] = 32;
    world.region[9] = 17;
    beyond_mending(&world);
    // Without the size word there is no sign.
    world.region[4] = 40;
    assert_eq!(full(&mut world, ALL), Ok(1));
    assert_eq!(world.region, [8, 1, 32, 0, 24, 0, 0, 0, 0, 9]);
}

#[test]
fn a_forged_chunk_between_is_taken_for_a_skipped_one() {
    let sound = after_nine();
    let mut world = sound.clone();
    // In the block of 152 a header at 176 whose links go to 224 and 152; 224 names it.
    set(&mut world, 176 + FORWARD, 224);
    set(&mut world, 176 + BACKWARD, 153);
    set(&mut world, 224 + BACKWARD, 176);
    assert_eq!(full(&mut world, ALL), Ok(1));
    assert_eq!(world.word(152), 176);
    // With 224's own link whole the forged header is nobody's.
    set(&mut world, 152 + FORWARD, 224);
    set(&mut world, 224 + BACKWARD, 152);
    let before = world.clone();
    assert_eq!(full(&mut world, ALL), Ok(1));
    assert!(world == before);
}

#[test]
fn a_place_that_does_not_name_the_one_above_is_not_skipped() {
    let sound = after_nine();
    for between in [160, 176, 216] {
        let mut world = sound.clone();
        for word in 160 / 4..224 / 4 {
            world.region[word] = 232;
        }
        let filled = world.clone();
        set(&mut world, 224 + BACKWARD, between);
        undone(&world, &filled, "no sign");
    }
}

#[test]
fn a_believed_link_into_a_live_block_is_followed() {
    // 176 is inside the block of 152. The backward link that is mended there is a word of the block.
    let sound = after_nine();
    let mut world = sound.clone();
    set(&mut world, 152 + FORWARD, 176);
    set(&mut world, 176 + FORWARD, 0);
    set(&mut world, 176 + BACKWARD, 7);
    let before = world.clone();
    // 176's own link is broken, and the walk from the end passes below it: 12 before any write.
    beyond_mending(&world);
    // Runs of one chunk leave the word written: flags kept, offset 152.
    assert_eq!(full(&mut world, 1), Err(12));
    assert_eq!(world.word(176 + BACKWARD), 159);
    set(&mut world, 176 + BACKWARD, 7);
    assert_eq!(world.region, before.region);
    assert_eq!(world.place(), 176);
    // The place stays at every further run, and setup alone moves it.
    world.refuses(12, Call::Patrol { chunks: 1 });
    assert_eq!(world.setup(&DEMO_TABLE, 64, true), ACCEPTED);
    assert_eq!(world.place(), 0);
}

#[test]
fn each_way_beyond_mending() {
    let sound = after_nine();
    // The link at 72 is broken. The walk from the end meets, at 248 or at 224, one that leaves the heap, does not go
    // down, goes down by less than 24, or passes below 72.
    for (place, below) in [
        (248, 256),
        (248, u32::MAX - 7),
        (248, 248),
        (248, 240),
        (248, 232),
        (248, 32),
        (248, 0),
        (224, 8),
        (224, 208),
        (224, 224),
        (224, 248),
    ] {
        let mut world = sound.clone();
        set(&mut world, 72 + FORWARD, 1);
        set(&mut world, place + BACKWARD, below + 1);
        beyond_mending(&world);
    }
}

#[test]
fn a_link_to_the_broken_chunk_from_16_above_is_beyond_mending() {
    let sound = after_nine();
    let mut world = sound.clone();
    set(&mut world, 72 + FORWARD, 1);
    set(&mut world, 248 + BACKWARD, 88 + 1);
    set(&mut world, 88 + BACKWARD, 72);
    beyond_mending(&world);
    // From 24 above it is the next chunk.
    set(&mut world, 96 + BACKWARD, 72);
    set(&mut world, 248 + BACKWARD, 96 + 1);
    assert_eq!(full(&mut world, 4), Ok(2));
    // 8 above the start is enough, and so is 16.
    for next in [8, 16] {
        let mut world = sound.clone();
        set(&mut world, FORWARD, 0);
        set(&mut world, 248 + BACKWARD, next + 1);
        set(&mut world, next + BACKWARD, 1);
        world.record[PATROL] = 0;
        assert_eq!(world.patrol(1), ACCEPTED);
        assert_eq!((world.word(0), world.place()), (next, next));
    }
}

#[test]
fn a_refused_run_writes_nothing_though_earlier_chunks_had_something_to_mend() {
    let sound = after_nine();
    let mut world = sound.clone();
    set(&mut world, 8 + BACKWARD, 33);
    set(&mut world, 32 + SIZE, 999);
    set(&mut world, 72 + FORWARD, 1);
    set(&mut world, 248 + BACKWARD, 1);
    beyond_mending(&world);
    world.record[PATROL] = 8;
    world.refuses(12, Call::Patrol { chunks: 3 });
    // A run that stops before the broken link mends what it handles.
    assert_eq!(world.patrol(2), ACCEPTED);
    assert_eq!((world.word(32 + SIZE), world.place()), (40, 72));
    assert_eq!(world.word(8 + BACKWARD), 33);
    world.record[PATROL] = 0;
    assert_eq!(world.patrol(1), ACCEPTED);
    assert_eq!(world.word(8 + BACKWARD), 1);
}

#[test]
fn flags_are_kept_and_free_is_bit_0() {
    let sound = after_nine();
    let mut world = sound.clone();
    for (place, flags) in [(0, 7), (8, 5), (32, 6), (72, 3), (96, 2), (152, 1), (224, 4), (248, 0)] {
        set(&mut world, place + BACKWARD, 0xABC8 + flags);
    }
    for place in [8, 32, 72, 96, 152, 224] {
        set(&mut world, place + SIZE, 0xABCD);
    }
    assert_eq!(full(&mut world, 3), Ok(3));
    let back = [0, 8, 32, 72, 96, 152, 224, 248].map(|place| world.word(place + BACKWARD));
    assert_eq!(back, [7, 5, 8 + 6, 32 + 3, 72 + 2, 97, 152 + 4, 224]);
    assert_eq!([32, 96, 224].map(|place| world.word(place + SIZE)), [40, 56, 24]);
    // In a chunk in use that word is the block's first.
    assert_eq!([8, 72, 152].map(|place| world.word(place + SIZE)), [0xABCD; 3]);
}

#[test]
fn the_start_has_no_size_word() {
    let sound = after_nine();
    for flags in [0, 2, 4, 6] {
        let mut world = sound.clone();
        set(&mut world, BACKWARD, flags);
        let before = world.clone();
        assert_eq!(full(&mut world, ALL), Ok(1));
        assert!(world == before, "the word at 8 is the forward link of the chunk there");
    }
    let mut world = sound.clone();
    set(&mut world, BACKWARD, 0xFFFF_FFF9);
    undone(&world, &sound, "the start's backward offset is 0");
}

#[test]
fn a_run_of_f_is_f_runs_of_one() {
    let mut refused = 0;
    for seed in 0..2_000 {
        let Run { world: sound, mut dice, .. } = random_heap(seed);
        let mut world = damage_links_and_sizes(&sound, &mut dice);
        let places = chain(&sound);
        world.record[PATROL] = places[dice.below(places.len() as u32) as usize];
        let mut by_one = world.clone();
        let f = 1 + dice.below(places.len() as u32);
        let ones: Vec<Answer> = (0..f).map(|_| by_one.patrol(1)).take_while(|&answer| answer == ACCEPTED).collect();
        if ones.len() == f as usize {
            assert_eq!(world.patrol(f), ACCEPTED);
            assert!(world == by_one, "seed {seed}");
        } else if by_one.place() != 0 {
            refused += 1;
            world.refuses(12, Call::Patrol { chunks: f });
        }
    }
    assert!(refused > 200, "{refused} runs were refused");
}

#[test]
fn after_a_full_patrol_of_any_words_the_chain_goes_up_with_right_links_and_sizes() {
    let mut dice = Dice(31);
    let mut accepted = 0;
    for _ in 0..40_000 {
        let words = [10, 11, 12, 14, 24, 64][dice.below(6) as usize];
        let bytes = words as u32 / 2 * 8;
        let mut world = World::new(words);
        world.region.fill_with(|| dice.word(bytes));
        world.record[0] = bytes;
        if full(&mut world, 1 + dice.below(4)).is_err() {
            continue;
        }
        accepted += 1;
        straight(&world);
        let before = world.clone();
        assert_eq!(full(&mut world, ALL), Ok(1));
        assert!(world == before, "the next full patrol writes nothing");
    }
    assert!(accepted > 500, "{accepted} full patrols were accepted");
}

/// The chain goes up from 0 to the end chunk, and each backward link and each free size on it is right.
fn straight(world: &World) {
    let end = world.record[0] - 8;
    let (mut below, mut place) = (0, 0);
    while place != end {
        let next = world.word(place);
        assert_eq!(world.word(place + BACKWARD) / 8 * 8, below);
        assert!(next.is_multiple_of(8) && next <= end && next >= place + if place == 0 { 8 } else { 24 });
        assert!(place == 0 || world.word(place + BACKWARD) & 1 == 1 || world.word(place + SIZE) == next - place);
        (below, place) = (place, next);
    }
    assert_eq!(world.word(end + BACKWARD) / 8 * 8, below);
}

#[test]
fn an_odd_last_word_is_not_the_patrols() {
    let mut even = after_nine();
    set(&mut even, 224 + FORWARD, 256);
    set(&mut even, 72 + FORWARD, 252);
    let mut odd = even.clone();
    odd.region.push(0x1234_5678);
    assert_eq!(full(&mut odd, 2), full(&mut even, 2));
    assert_eq!((&odd.region[..64], odd.region[64]), (&even.region[..], 0x1234_5678));
}

/// The place after a call on a heap with this place, which the call must accept.
fn place_after(world: &World, place: u32, call: Call) -> u32 {
    let mut world = world.clone();
    world.record[PATROL] = place;
    assert_eq!(world.call(&call)[0], 0, "{call:?}");
    assert_eq!(world.check()[0], 0, "{call:?}, place {place}");
    world.place()
}

#[test]
fn a_joining_that_swallows_the_place_moves_it_down_to_the_joined_chunk() {
    let mut world = six(&[24], true);
    world.free(16);
    world.free(64);
    // 8 and 56 are free; freeing 32 joins all three at 8.
    let free = |place| place_after(&world, place, Call::Free { block: 40 });
    assert_eq!([0, 8, 32, 56, 80, 104].map(free), [0, 8, 8, 8, 80, 104]);
    // The block below the top: the joined chunk is the new top.
    let free = |place| place_after(&world, place, Call::Free { block: 136 });
    assert_eq!([104, 128, 152, 312].map(free), [104, 128, 128, 312]);
    // With merging off nothing is swallowed.
    world.set_merge(false);
    let free = |place| place_after(&world, place, Call::Free { block: 40 });
    assert_eq!([8, 32, 56].map(free), [8, 32, 56]);
}

#[test]
fn a_donor_that_is_joined_takes_the_place_down() {
    let mut world = World::demo();
    assert_eq!(world.allocate(16), granted(16, 24));
    let free = |place| place_after(&world, place, Call::Free { block: 16 });
    assert_eq!([0, 8, 32, 72].map(free), [0, 8, 8, 72]);
}

#[test]
fn a_tail_that_swallows_the_place_moves_it_to_the_tail() {
    let mut world = after_nine();
    // Of the chunk at 152 a tail at 200 is split off, which joins the top at 224.
    let shrink = |place| place_after(&world, place, Call::Reallocate { block: 160, z: 40 });
    assert_eq!([96, 152, 224, 248].map(shrink), [96, 152, 200, 248]);
    world.set_merge(false);
    let shrink = |place| place_after(&world, place, Call::Reallocate { block: 160, z: 40 });
    assert_eq!([152, 224].map(shrink), [152, 224]);
}

#[test]
fn the_old_block_of_a_move_takes_the_place_down() {
    let mut world = World::fresh(100, &[24], 0, true);
    let low = world.allocate(100)[1];
    let moved = world.allocate(16)[1];
    world.allocate(16);
    world.free(low);
    // 112 at 8 is cut: 40 are granted, and the rest at 48 joins the old chunk at 120.
    let call = || Call::Reallocate { block: moved, z: 32 };
    assert_eq!([0, 8, 120, 144, 168].map(|place| place_after(&world, place, call())), [0, 8, 48, 144, 168]);
}

#[test]
fn setup_puts_the_place_at_the_start_and_a_refused_one_leaves_zeros() {
    let mut world = after_nine();
    world.patrol(3);
    assert_eq!(world.place(), 72);
    assert_eq!(world.allocate(16)[0], 0);
    assert_eq!(world.place(), 72);
    assert_eq!(world.setup(&[24], 0, true), ACCEPTED);
    assert_eq!(world.place(), 0);
    world.patrol(1);
    assert_eq!(world.setup(&[], 0, true)[0], 2);
    assert_eq!(world.record, [0; RECORD_WORDS]);
}
