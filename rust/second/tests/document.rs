// The requirements' cases and refusals, with the words where a rule speaks of words.

mod world;

use second::{Call, RECORD_WORDS};
use world::{after_nine, every_call, freed, granted, six, World, ACCEPTED, DEMO_TABLE, PATROL};

#[test]
fn demonstration_calls_1_to_9() {
    let mut world = after_nine();
    let expected = "256 4 120\n0 8 start\n8 24 inuse\n32 40 donor\n72 24 inuse\n\
                    96 56 free 2\n152 72 inuse\n224 24 top\n248 8 end\n";
    assert_eq!(world.print(), expected);
    assert_eq!(world.check(), [0, 8, 1, 120, 120]);
}

#[test]
fn demonstration_call_10_cuts_a_tail_into_the_top() {
    let mut world = after_nine();
    assert_eq!(world.reallocate(160, 40), granted(160, -24));
    assert_eq!(world.top(), 200);
    assert_eq!(world.words(200, 6), [248, 152, 48, 0, 0, 0]);
    assert_eq!(world.word(152), 200);
    assert_eq!(world.word(252), 201);
    // The old top's header is stale: its backward link still names the kept chunk.
    assert_eq!(world.words(224, 6), [248, 152, 24, 0, 0, 0]);
}

#[test]
fn demonstration_call_11_moves_a_block() {
    let mut world = after_nine();
    world.reallocate(160, 40);
    let found = world.words(120, 8);
    world.region[4..8].copy_from_slice(&[1, 2, 3, 4]);
    assert_eq!(world.reallocate(16, 32), granted(104, 32));
    assert_eq!(world.donor(), 8);
    assert_eq!(world.words(8, 6), [72, 0, 64, 0, 0, 0]);
    assert_eq!(world.word(76), 9);
    assert_eq!(world.words(104, 4), [1, 2, 3, 4]);
    // Beyond the old block's 16 bytes nothing is copied.
    assert_eq!(world.words(120, 8), found);
    assert_eq!(world.check(), [0, 7, 0, 128, 112]);
}

#[test]
fn both_sides_of_the_length() {
    for words in [0, 1, 8, 9, 16_385, 20_000] {
        let mut world = World::new(words);
        world.record = [7; RECORD_WORDS];
        world.region.fill(5);
        assert_eq!(world.setup(&[24], 0, true), [1, 0, 0, 0, 0]);
        assert_eq!(world.record, [0; RECORD_WORDS]);
        assert!(world.region.iter().all(|&word| word == 5));
        assert_eq!(world.check(), [4, 0, 0, 0, 0]);
    }
    let mut ten = World::fresh(10, &[24], 0, true);
    let mut eleven = World::fresh(11, &[24], 0, true);
    assert_eq!(ten.record, eleven.record);
    assert_eq!(ten.region, eleven.region[..10]);
    assert_eq!(ten.region, [8, 1, 32, 0, 24, 0, 0, 0, 0, 9]);
    assert_eq!(ten.check(), [0, 3, 0, 0, 24]);
    assert_eq!(eleven.check(), [0, 3, 0, 0, 24]);
    for z in 1..=65_488 {
        assert_eq!(ten.allocate(z), [7, 0, 0, 0, 0]);
    }
}

#[test]
fn both_sides_of_the_largest() {
    let mut world = World::fresh(16_384, &[24], 0, false);
    world.refuses(5, Call::Allocate { z: 65_489 });
    assert_eq!(world.allocate(65_488), granted(16, 65_496));
    assert_eq!(world.check(), [0, 4, 0, 65_496, 24]);
    world.refuses(7, Call::Allocate { z: 1 });
    World::demo().refuses(5, Call::Allocate { z: 65_489 });
}

#[test]
fn refusals_of_setup() {
    let long: Vec<u32> = (0..33).map(|bin| 24 + 8 * bin).collect();
    let wrong: [&[u32]; 8] = [&[], &[16], &[32], &[24, 24], &[24, 28], &[24, 40, 32], &[24, u32::MAX], &long];
    for table in wrong {
        let mut world = World::demo();
        let region = world.region.clone();
        assert_eq!(world.setup(table, 1, true), [2, 0, 0, 0, 0]);
        assert_eq!((world.region, world.record), (region, [0; RECORD_WORDS]));
    }
    for donor in [8, 16, 25, 28, 224, u32::MAX, u32::MAX - 7] {
        let mut world = World::demo();
        let region = world.region.clone();
        assert_eq!(world.setup(&[24], donor, true), [3, 0, 0, 0, 0]);
        assert_eq!((world.region, world.record), (region, [0; RECORD_WORDS]));
    }
    World::fresh(64, &long[..32], 216, true);
    World::fresh(64, &[24], 24, true);
    let mut vast = World::fresh(64, &[24, 32, 65_544, 0xFFFF_FFF8], 0, true);
    assert_eq!(vast.bin_tells(1, 3), Some(0));
    assert_eq!(World::new(10).setup(&[24], 24, true)[0], 3);
    assert_eq!(World::new(9).setup(&[], 1, true)[0], 1);
}

#[test]
fn refusals_in_order() {
    let mut world = after_nine();
    for z in [0, 65_489, u32::MAX] {
        world.refuses(5, Call::Allocate { z });
        world.refuses(5, Call::Reallocate { block: 0, z });
        world.refuses(5, Call::Reallocate { block: 3, z });
        world.refuses(5, Call::Reallocate { block: 16, z });
    }
    for (count, size) in [(0, 9), (9, 0), (65_536, 65_536), (u32::MAX, u32::MAX)] {
        world.refuses(5, Call::AllocateCleared { count, size });
    }
    // Start, end, chunk places, donor, ordinary, top, stale, inside, outside.
    for block in [8, 256, 72, 152, 40, 104, 232, 112, 20, 17, 24, 264, 1, 7, 99_999] {
        world.refuses(6, Call::Free { block });
        world.refuses(6, Call::Reallocate { block, z: 65_488 });
    }
    world.refuses(7, Call::Allocate { z: 65_488 });
    world.refuses(7, Call::AllocateCleared { count: 7, size: 9 });
    world.refuses(7, Call::Reallocate { block: 0, z: 49 });
    world.refuses(7, Call::Reallocate { block: 16, z: 49 });
    assert_eq!(world.free(0), ACCEPTED);
}

#[test]
fn no_such_chunk_block_bin_or_question() {
    let mut world = after_nine();
    for question in [1, 2, 4, 5, 6, 7, 8, 9] {
        for place in [1, 4, 16, 33, 104, 256, u32::MAX] {
            world.refuses(8, Call::AskChunk { question, place });
        }
    }
    for place in [0, 8, 40, 72, 104, 112, 232, 256, u32::MAX] {
        world.refuses(8, Call::AskChunk { question: 3, place });
    }
    for question in [0, 10, u32::MAX] {
        world.refuses(8, Call::AskChunk { question, place: 8 });
    }
    for bin in [4, 31, 32, u32::MAX] {
        world.refuses(8, Call::AskBin { question: 1, bin });
    }
    for question in [0, 4, u32::MAX] {
        world.refuses(8, Call::AskBin { question, bin: 0 });
    }
}

#[test]
fn questions_about_each_kind() {
    let mut world = after_nine();
    let expected = [
        (0, [None, None, Some(8), None, None, None, Some(8), Some(1)]),
        (8, [None, Some(16), Some(32), None, Some(0), None, Some(24), Some(1)]),
        (32, [None, None, Some(72), None, Some(8), None, Some(40), Some(0)]),
        (96, [Some(2), None, Some(152), None, Some(72), None, Some(56), Some(0)]),
        (224, [None, None, Some(248), None, Some(152), None, Some(24), Some(0)]),
        (248, [None, None, None, None, Some(224), None, Some(8), Some(1)]),
    ];
    for (place, told) in expected {
        for (question, told) in [1, 2, 4, 5, 6, 7, 8, 9].into_iter().zip(told) {
            assert_eq!(world.tells(question, place), told, "{question} of {place}");
        }
    }
    assert_eq!(world.tells(3, 160), Some(152));
    assert_eq!([1, 2, 3].map(|q| world.bin_tells(q, 2)), [Some(1), Some(96), Some(96)]);
    assert_eq!([1, 2, 3].map(|q| world.bin_tells(q, 0)), [Some(0), None, None]);
}

#[test]
fn zero_is_a_place_and_a_bin() {
    let mut world = six(&[24, 32], false);
    assert_eq!([0, 8].map(|place| world.tells(6, place)), [None, Some(0)]);
    world.free(16);
    world.free(64);
    assert_eq!([8, 56].map(|place| world.tells(1, place)), [Some(0); 2]);
    let (top, end) = (world.top(), world.record[0] - 8);
    assert_eq!([0, 32, top, end].map(|place| world.tells(1, place)), [None; 4]);
    assert_eq!([56, 8].map(|place| world.tells(5, place)), [Some(8), None]);
    assert_eq!([56, 8].map(|place| world.tells(7, place)), [None, Some(56)]);
    assert_eq!([1, 2, 3].map(|q| world.bin_tells(q, 1)), [Some(0), None, None]);
}

#[test]
fn put_at_head_in_the_small_array_and_behind_equals_elsewhere() {
    for (table, first, last) in [(&[24, 32][..], 104, 8), (&[24][..], 8, 104)] {
        let mut world = six(table, false);
        for block in [16, 64, 112] {
            assert_eq!(world.free(block), freed(-24));
        }
        assert_eq!([1, 2, 3].map(|q| world.bin_tells(q, 0)), [3, first, last].map(Some), "{table:?}");
        let after = |place| if first == 8 { place } else { 112 - place };
        assert_eq!(world.value(5, after(8)), 56);
        assert_eq!(world.value(7, after(104)), 56);
        assert_eq!(world.allocate(16), granted(first + 8, 24));
    }
}

#[test]
fn lower_leaves_first_and_its_link_stays_in_the_upper() {
    // One bin that is put behind equals, list 8, 56; freeing 32 joins all three.
    let mut world = six(&[24], true);
    world.free(16);
    world.free(64);
    assert_eq!(world.words(56, 6), [80, 32, 24, 0, 8, 0]);
    world.free(40);
    // 8's leaving cleared 56's backward bin link; the rest of 56's header is stale.
    assert_eq!(world.words(56, 6), [80, 32, 24, 0, 0, 0]);
    assert_eq!(world.words(32, 2), [56, 9]);
    assert_eq!(world.words(8, 6), [80, 0, 72, 0, 0, 0]);
    assert_eq!(world.word(84), 9);
}

#[test]
fn a_link_to_the_list_beyond_stays_too() {
    // A bin that is put at the head: freed in the order 104, 56, 8, its list is 8, 56, 104.
    let mut world = six(&[24, 32], true);
    for block in [112, 64, 16] {
        world.free(block);
    }
    assert_eq!(world.words(56, 6), [80, 32, 24, 104, 8, 0]);
    world.free(40);
    assert_eq!(world.words(56, 6), [80, 32, 24, 104, 0, 0]);
    assert_eq!(world.words(104, 6), [128, 80, 24, 0, 0, 0]);
    assert_eq!(world.words(8, 6), [80, 0, 72, 0, 0, 8]);
    // List 56, 8: the upper comes first, so its forward bin link is written.
    let mut world = six(&[24, 32], true);
    for block in [112, 16, 64] {
        world.free(block);
    }
    assert_eq!(world.words(56, 6), [80, 32, 24, 8, 0, 0]);
    world.free(40);
    assert_eq!(world.words(56, 6), [80, 32, 24, 104, 0, 0]);
}

#[test]
fn a_donor_takes_in_only_from_below_it() {
    let mut world = World::fresh(64, &DEMO_TABLE, 64, true);
    world.allocate(16);
    world.allocate(64);
    assert_eq!(world.donor(), 32);
    // Above the donor, below the top: joins the top, not the donor.
    assert_eq!(world.free(80), freed(-72));
    assert_eq!((world.donor(), world.top()), (32, 72));
    // Below the donor: the donor grows downwards.
    assert_eq!(world.free(16), freed(-24));
    assert_eq!((world.donor(), world.top()), (8, 72));
    assert_eq!(world.check(), [0, 4, 0, 0, 240]);
}

#[test]
fn a_chunk_granted_whole_keeps_its_words() {
    let mut world = six(&[24], false);
    world.free(16);
    world.free(64);
    world.free(112);
    let found = world.words(64, 4);
    assert_eq!(found, [24, 104, 8, 0]);
    world.free(40);
    world.allocate(16);
    assert_eq!(world.allocate(9), granted(64, 24));
    assert_eq!(world.words(56, 2), [80, 33]);
    assert_eq!(world.words(64, 4), [24, 104, 0, 0]);
}

#[test]
fn a_large_bin_is_searched_in_list_order() {
    let mut world = World::fresh(400, &[24], 0, false);
    let sizes = [40, 16, 64, 16, 100, 16];
    let blocks = sizes.map(|z| world.allocate(z)[1]);
    for at in [0, 2, 4] {
        world.free(blocks[at]);
    }
    // Chunks 48, 72 and 112 in one bin: the first is too small for 72, the second fits.
    assert_eq!(world.allocate(64), granted(blocks[2], 72));
    // 112 for 64 leaves 48, which is put behind the 48 already there.
    assert_eq!(world.allocate(56), granted(blocks[4], 64));
    assert_eq!(world.bin_tells(1, 0), Some(2));
    assert_eq!(world.bin_tells(3, 0), Some(blocks[4] - 8 + 64));
    // A rest of 16 is no chunk: all 48 are granted for 32.
    assert_eq!(world.allocate(20), granted(blocks[0], 48));
}

#[test]
fn the_four_tries_in_their_order() {
    let mut world = World::fresh(100, &DEMO_TABLE, 72, false);
    // 72 is not small, so the top comes before the donor for it; 24 is.
    assert_eq!(world.allocate(64), granted(88, 72));
    assert_eq!(world.allocate(16), granted(16, 24));
    world.free(88);
    // The donor of 24 + 24 bytes comes before the 72 in bin 2; once it has 24, it can't serve.
    assert_eq!(world.allocate(16), granted(40, 24));
    assert_eq!(world.donor(), 56);
    assert_eq!(world.allocate(16), granted(88, 24));
    // A chunk in the bin of 24 comes first of all; the rest in bin 2 comes before the top.
    world.free(40);
    assert_eq!(world.allocate(16), granted(40, 24));
    assert_eq!(world.allocate(32), granted(112, 48));
    assert_eq!(world.allocate(32), granted(160, 40));
}

// Document 02, request Four (manual 5.2).
#[test]
fn a_large_need_tries_the_donor_last() {
    // With the second table m is 0, and no need is small.
    for table in [&DEMO_TABLE[..], &[24]] {
        let mut world = World::fresh(64, table, 80, true);
        // The top of 160 bytes serves 40 and 72 and has 48 left.
        assert_eq!(world.allocate(32), granted(96, 40));
        assert_eq!(world.allocate(64), granted(136, 72));
        assert_eq!(world.donor(), 8);
        // A bin comes before the donor too.
        assert_eq!(world.free(96), freed(-40));
        assert_eq!(world.allocate(32), granted(96, 40));
        // The donor's 80 bytes serve 56, which leave 24, and not 64.
        let full = world.clone();
        assert_eq!(world.allocate(49), [7, 0, 0, 0, 0]);
        assert_eq!(world.allocate(48), granted(16, 56));
        assert_eq!((world.donor(), world.top()), (64, 200));
        let mut world = full.clone();
        assert_eq!(world.cleared(6, 8), granted(16, 56));
        let mut world = full;
        assert_eq!(world.reallocate(96, 49), [7, 0, 0, 0, 0]);
        assert_eq!(world.reallocate(96, 48), granted(16, 16));
    }
}

#[test]
fn a_donor_that_is_the_top_fails() {
    let mut world = World::fresh(64, &DEMO_TABLE, 0, true);
    for donor in [8, 0xFFFF_FFF8, 248, 16] {
        world.record[2] = donor;
        world.refuses(4, Call::Check);
    }
}

#[test]
fn top_is_never_granted_to_nothing() {
    let mut world = World::fresh(24, &[24], 0, true);
    // The top has 80: a need of 56 leaves 24, one of 64 would leave 16.
    world.refuses(7, Call::Allocate { z: 49 });
    assert_eq!(world.allocate(48), granted(16, 56));
    assert_eq!(world.top(), 64);
    assert_eq!(world.words(64, 8), [88, 8, 24, 0, 0, 0, 0, 65]);
}

#[test]
fn cleared_to_the_chunks_end() {
    let mut world = World::new(40);
    world.region.fill(0xDEAD_BEEF);
    world.setup(&[24], 0, true);
    assert_eq!(world.cleared(3, 7), granted(16, 32));
    assert_eq!(world.words(16, 6), [0; 6]);
    assert_eq!(world.word(40), world.record[0] - 8);
    assert_eq!(world.cleared(1, 1), granted(48, 24));
    assert_eq!(world.words(48, 4), [0; 4]);
    assert_eq!(world.word(104), 0xDEAD_BEEF);
}

#[test]
fn reallocate_within_the_chunk() {
    let mut world = World::fresh(64, &[24], 0, false);
    assert_eq!(world.reallocate(0, 60), granted(16, 72));
    let before = world.clone();
    for z in [41, 48, 60, 64] {
        assert_eq!(world.reallocate(16, z), granted(16, 0));
    }
    assert!(world == before);
    // With merging off the tail goes to its bin, though the top is just above.
    assert_eq!(world.reallocate(16, 40), granted(16, -24));
    assert_eq!(world.words(56, 6), [80, 8, 24, 0, 0, 0]);
    assert_eq!(world.word(84), 56);
    assert_eq!(world.check(), [0, 5, 1, 48, 192]);
    // With merging on the next tail joins that one, but not the top beyond it.
    world.set_merge(true);
    assert_eq!(world.reallocate(16, 16), granted(16, -24));
    assert_eq!(world.words(32, 6), [80, 8, 48, 0, 0, 0]);
    assert_eq!(world.words(56, 6), [80, 8, 24, 0, 0, 0]);
}

#[test]
fn reallocate_moves_into_the_chunk_below_and_joins_the_rest() {
    let mut world = World::fresh(100, &[24], 0, true);
    let low = world.allocate(100)[1];
    let moved = world.allocate(16)[1];
    world.allocate(16);
    world.free(low);
    for at in 0..4 {
        world.region[moved as usize / 4 + at] = 100 + at as u32;
    }
    // 112 at 8 serves 40; its rest of 72 at 48 then joins the old chunk of 24.
    assert_eq!(world.reallocate(moved, 32), granted(16, 16));
    assert_eq!(world.words(16, 4), [100, 101, 102, 103]);
    assert_eq!(world.words(48, 6), [144, 8, 96, 0, 0, 0]);
    assert_eq!(world.check(), [0, 6, 1, 64, 320]);
}

#[test]
fn merge_setting_changes_one_field() {
    let mut world = after_nine();
    let before = world.clone();
    assert_eq!(world.set_merge(false), ACCEPTED);
    assert_eq!((&world.region, world.record[4]), (&before.region, 0));
    assert_eq!(world.set_merge(true), ACCEPTED);
    assert!(world == before);
}

#[test]
fn free_twice() {
    let mut world = six(&[24, 32], false);
    assert_eq!(world.free(40), freed(-24));
    world.refuses(6, Call::Free { block: 40 });
    world.set_merge(true);
    assert_eq!(world.free(64), freed(-24));
    world.refuses(6, Call::Free { block: 40 });
    world.refuses(6, Call::Free { block: 64 });
}

#[test]
fn every_wrong_header_or_record_word_fails_first() {
    let sound = after_nine();
    let free = [32, 96, 224].map(|place| (place, 6));
    let in_use = [0, 8, 72, 152, 248].map(|place| (place, 2));
    for (place, words) in free.into_iter().chain(in_use) {
        for at in 0..words {
            for bit in 0..32 {
                let mut world = sound.clone();
                world.region[place / 4 + at] ^= 1 << bit;
                assert_eq!(world.check(), [4, 0, 0, 0, 0], "{place} {at} {bit}");
            }
        }
    }
    for at in (0..RECORD_WORDS).filter(|&at| at != 4) {
        for bit in 0..32 {
            let mut world = sound.clone();
            world.record[at] ^= 1 << bit;
            // Two sorts of other tables are valid and put 56 in bin 2 as well:
            // bin 3 beginning elsewhere above 56, and bin 2 beginning at 56.
            let other_table = (at == 9 && bit >= 3 && world.record[9] > 56) || (at == 8 && bit == 4);
            // The patrol's place may be any chunk's: here 8 or 32.
            let fine = other_table || (at == PATROL && (bit == 3 || bit == 5));
            assert_eq!(world.check()[0], if fine { 0 } else { 4 }, "{at} {bit}");
        }
    }
    for merge in [2, 3, u32::MAX] {
        let mut world = sound.clone();
        world.record[4] = merge;
        for call in every_call() {
            world.refuses(4, call);
        }
    }
}

#[test]
fn a_heap_of_another_length_fails() {
    let mut world = World::demo();
    world.region.push(9);
    assert_eq!(world.check()[0], 0);
    world.region.push(9);
    for call in every_call() {
        world.refuses(4, call);
    }
    world.region.truncate(63);
    assert_eq!(world.check()[0], 4);
}
