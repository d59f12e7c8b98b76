// Random runs held to the requirements, and damaged and random words, on which no call may panic.

mod world;

use second::{Call, RECORD_WORDS};
use world::dice::Dice;
use world::run::Run;
use world::{every_call, freed, World, ACCEPTED, DEMO_TABLE};

#[test]
fn long_random_runs_keep_every_promise() {
    for seed in 0..60 {
        let words = [10, 11, 21, 64, 65, 300, 1_001, 1_000][seed as usize % 8];
        let mut run = Run::new(seed, words, words as u32);
        let odd_word = run.world.region[words - 1];
        for step in 0..3_000 {
            run.step();
            run.holds();
            if step % 300 == 0 {
                run.bins_hold();
            }
        }
        assert!(words % 2 == 0 || run.world.region[words - 1] == odd_word);
    }
}

#[test]
fn largest_region_with_its_most_chunks() {
    let mut world = World::fresh(16_384, &[24, 32, 40], 0, false);
    let mut blocks = Vec::new();
    while let [0, block, ..] = world.allocate(1) {
        blocks.push(block);
    }
    assert_eq!(world.check(), [0, 2_732, 0, 2_729 * 24, 24]);
    for block in blocks {
        assert_eq!(world.free(block), freed(-24));
    }
    assert_eq!(world.check(), [0, 2_732, 2_729, 0, 65_520]);
}

#[test]
fn an_odd_last_word_is_neither_read_nor_written() {
    let mut even = World::demo();
    let mut odd = World::new(65);
    odd.region[64] = 0x1234_5678;
    assert_eq!(odd.setup(&DEMO_TABLE, 64, true), ACCEPTED);
    let mut dice = Dice(5);
    for _ in 0..20_000 {
        let call = dice.call(256);
        if !matches!(call, Call::Setup { .. }) {
            assert_eq!(odd.call(&call), even.call(&call));
        }
        odd.region[64] = dice.roll() as u32;
        let last = odd.region[64];
        assert_eq!(odd.record, even.record);
        assert_eq!(odd.region[..64], even.region);
        assert_eq!(odd.region[64], last);
    }
    let before = odd.region[64];
    assert_eq!(odd.setup(&DEMO_TABLE, 216, true), ACCEPTED);
    assert_eq!(odd.cleared(1, 200)[0], 7);
    assert_eq!(odd.cleared(1, 100)[0], 0);
    assert_eq!(odd.region[64], before);
}

#[test]
fn garbage_is_refused_without_change() {
    let mut dice = Dice(17);
    for _ in 0..60_000 {
        let words = [0, 1, 9, 10, 11, 24, 64, 257][dice.below(8) as usize];
        let bytes = words as u32 / 2 * 8;
        let mut world = World::new(words);
        world.region.fill_with(|| dice.word(bytes));
        world.record = [0; RECORD_WORDS].map(|_| dice.word(bytes));
        for _ in 0..4 {
            let before = world.clone();
            let call = dice.call(bytes);
            let answer = world.call(&call);
            let setup = matches!(call, Call::Setup { .. });
            if setup && answer[0] != 0 {
                assert_eq!(world.record, [0; RECORD_WORDS]);
                assert_eq!(world.region, before.region);
            } else if answer[0] != 0 {
                assert!(world == before);
            }
        }
    }
    for words in [16_385, 40_000] {
        let mut world = World::new(words);
        world.region.fill_with(|| dice.word(65_536));
        world.record[0] = 65_536;
        for call in every_call() {
            world.refuses(4, call);
        }
    }
}

#[test]
fn damaged_heaps_never_panic_and_accepted_calls_leave_sound_ones() {
    for seed in 0..300 {
        let words = [24, 64, 129, 400][seed as usize % 4];
        let mut run = Run::new(seed, words, 80);
        for _ in 0..100 {
            run.step();
        }
        let bytes = run.world.record[0];
        for _ in 0..300 {
            let mut world = run.world.clone();
            for _ in 0..1 + run.dice.below(3) {
                let word = run.dice.word(bytes);
                if run.dice.one_in(3) {
                    world.record[run.dice.below(RECORD_WORDS as u32) as usize] = word;
                } else {
                    world.region[run.dice.below(words as u32) as usize] = word;
                }
            }
            let sound = world.clone().check()[0] == 0;
            let before = world.clone();
            let call = run.dice.call(bytes);
            let answer = world.call(&call);
            let setup = matches!(call, Call::Setup { .. });
            // The patrol does not ask the check, and one run mends a part.
            let patrol = matches!(call, Call::Patrol { .. });
            assert!(setup || patrol || (answer[0] == 4) != sound);
            assert!(setup || answer[0] == 0 || world == before);
            assert!(patrol || answer[0] != 0 || world.check()[0] == 0);
        }
    }
}
