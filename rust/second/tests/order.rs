// Document 02, request Five (manual 3.3): a bin outside the small array is in order of size.

mod world;

use second::Call;
use world::{every_call, freed, granted, World, ACCEPTED};

/// Tables with the bin that takes sizes 40 to 120, which is not small. With the last two m is 0.
const TABLES: [(&[u32], u32); 3] = [(&[24, 32, 40, 128], 2), (&[24], 0), (&[24, 40], 1)];

/// Words of the record and of a free chunk's header.
const HEADS: usize = 38;
const TAILS: usize = 70;
const FORWARD_BIN: usize = 3;
const BACKWARD_BIN: usize = 4;

/// Live chunks of these sizes from 8 on, with merging off, and their blocks.
fn live<const N: usize>(table: &[u32], sizes: [u32; N]) -> (World, [u32; N]) {
    let mut world = World::fresh(1_000, table, 0, false);
    let blocks = sizes.map(|size| world.allocate(size - 8)[1]);
    assert!(!blocks.contains(&0));
    (world, blocks)
}

/// The bin's members from head to tail, as the questions tell them: place and size.
fn members(world: &mut World, bin: u32) -> Vec<(u32, u32)> {
    let mut list = Vec::new();
    let mut here = world.bin_tells(2, bin);
    while let Some(place) = here {
        list.push((place, world.value(8, place)));
        here = world.tells(5, place);
    }
    assert_eq!(world.bin_tells(3, bin), list.last().map(|&(place, _)| place));
    list
}

fn sizes(world: &mut World, bin: u32) -> Vec<u32> {
    members(world, bin).iter().map(|&(_, size)| size).collect()
}

/// Links the bin's list in another order: the old places, taken by these positions. All links, head and tail are right.
fn link(world: &mut World, bin: u32, order: &[usize]) {
    let old = members(world, bin);
    let places: Vec<u32> = order.iter().map(|&at| old[at].0).collect();
    for (at, &place) in places.iter().enumerate() {
        let before = at.checked_sub(1).map_or(0, |before| places[before]);
        let after = places.get(at + 1).copied().unwrap_or(0);
        world.region[place as usize / 4 + FORWARD_BIN] = after;
        world.region[place as usize / 4 + BACKWARD_BIN] = before;
    }
    world.record[HEADS + bin as usize] = places[0];
    world.record[TAILS + bin as usize] = places[places.len() - 1];
}

#[test]
fn a_freed_chunk_goes_before_the_first_larger_one_and_behind_equals() {
    for (table, bin) in TABLES {
        let (mut world, blocks) = live(table, [64, 96, 48, 80, 64, 96, 40, 48]);
        let after_each: [&[u32]; 8] = [
            &[64],
            &[64, 96],
            &[48, 64, 96],
            &[48, 64, 80, 96],
            &[48, 64, 64, 80, 96],
            &[48, 64, 64, 80, 96, 96],
            &[40, 48, 64, 64, 80, 96, 96],
            &[40, 48, 48, 64, 64, 80, 96, 96],
        ];
        for (block, expected) in blocks.into_iter().zip(after_each) {
            world.free(block);
            assert_eq!(sizes(&mut world, bin), expected, "{table:?}");
        }
        // Of two equal ones the first that came is first.
        let places: Vec<u32> = members(&mut world, bin).iter().map(|&(place, _)| place + 8).collect();
        let [a64, a96, a48, a80, b64, b96, a40, b48] = blocks;
        assert_eq!(places, [a40, a48, b48, a64, b64, a80, a96, b96]);
    }
}

#[test]
fn a_put_writes_its_own_links_and_those_of_its_two_neighbours() {
    let (mut world, blocks) = live(&[24], [48, 96, 64, 72]);
    let [low, high, between, _] = blocks.map(|block| block - 8);
    world.free(low + 8);
    world.free(high + 8);
    let before = world.clone();
    world.free(between + 8);
    assert_eq!(world.words(between + 12, 2), [high, low]);
    assert_eq!([world.word(low + 12), world.word(high + 16)], [between; 2]);
    let header = between as usize / 4;
    let written = [low as usize / 4 + FORWARD_BIN, high as usize / 4 + BACKWARD_BIN];
    for (at, (new, old)) in world.region.iter().zip(&before.region).enumerate() {
        let own = (header..header + 6).contains(&at) || at == world.word(between) as usize / 4 + 1;
        assert!(own || written.contains(&at) || new == old, "word {at}");
    }
}

#[test]
fn the_rest_of_a_cut_goes_to_its_place_by_size() {
    for (table, bin) in TABLES {
        // Each need of 104 takes the next of the last six, and leaves what exceeds 104.
        let (mut world, blocks) = live(table, [48, 64, 96, 144, 152, 160, 168, 200, 224]);
        for block in blocks {
            world.free(block);
        }
        let rests = [40, 48, 56, 64, 96, 120];
        let mut expected = vec![(blocks[0] - 8, 48), (blocks[1] - 8, 64), (blocks[2] - 8, 96)];
        for (cut, rest) in blocks[3..].iter().zip(rests) {
            assert_eq!(world.allocate(96), granted(*cut, 104));
            let place = expected.iter().position(|&(_, size)| size > rest).unwrap_or(expected.len());
            expected.insert(place, (cut + 96, rest));
            let below_128: Vec<(u32, u32)> = members(&mut world, bin).into_iter().filter(|m| m.1 < 128).collect();
            assert_eq!(below_128, expected, "{table:?}");
        }
        assert_eq!(sizes(&mut world, bin), [40, 48, 48, 56, 64, 64, 96, 96, 120]);
    }
}

#[test]
fn the_tail_of_a_resize_goes_to_its_place_by_size() {
    for (table, bin) in TABLES {
        let (mut world, blocks) = live(table, [48, 64, 96, 160, 160, 160, 160, 160, 160]);
        for block in &blocks[..3] {
            world.free(*block);
        }
        for (&block, tail) in blocks[3..].iter().zip([56, 48, 40, 64, 104, 96]) {
            assert_eq!(world.reallocate(block, 160 - tail - 8), granted(block, -(tail as i32)));
        }
        assert_eq!(sizes(&mut world, bin), [40, 48, 48, 56, 64, 64, 96, 96, 104]);
        let tail_of = |at: usize, tail: u32| (blocks[at] - 8 + 160 - tail, tail);
        let list = members(&mut world, bin);
        assert_eq!([list[0], list[2], list[3]], [tail_of(5, 40), tail_of(4, 48), tail_of(3, 56)]);
        assert_eq!([list[5], list[7], list[8]], [tail_of(6, 64), tail_of(8, 96), tail_of(7, 104)]);
    }
}

#[test]
fn the_old_block_of_a_move_goes_to_its_place_by_size() {
    for (table, bin) in TABLES {
        let (mut world, blocks) = live(table, [48, 64, 96, 56, 48, 40, 64, 104, 96]);
        for block in &blocks[..3] {
            world.free(*block);
        }
        for (&block, size) in blocks[3..].iter().zip([56, 48, 40, 64, 104, 96]) {
            let moved = world.reallocate(block, 192);
            assert_eq!((moved[0], moved[3]), (0, 200 - size));
        }
        let places: Vec<u32> = members(&mut world, bin).iter().map(|&(place, _)| place + 8).collect();
        let [a48, a64, a96, a56, b48, a40, b64, a104, b96] = blocks;
        assert_eq!(places, [a40, a48, b48, a56, a64, b64, a96, b96, a104], "{table:?}");
    }
}

#[test]
fn a_joined_chunk_goes_to_the_place_of_its_new_size() {
    for (table, bin) in TABLES {
        // The 40 at the head joins the 64 above it to 104, behind the 96.
        let (mut world, blocks) = live(table, [40, 64, 24, 96, 24]);
        world.free(blocks[0]);
        world.free(blocks[3]);
        world.set_merge(true);
        assert_eq!(sizes(&mut world, bin), [40, 96]);
        assert_eq!(world.free(blocks[1]), freed(-64));
        assert_eq!(members(&mut world, bin), [(blocks[3] - 8, 96), (blocks[0] - 8, 104)]);
    }
}

#[test]
fn small_bins_are_last_in_first_out_beside_ordered_ones() {
    let (mut world, blocks) = live(&[24, 32, 40, 128], [24, 32, 24, 48, 32, 40, 24]);
    for block in blocks {
        world.free(block);
    }
    let places = |world: &mut World, bin| members(world, bin).iter().map(|&(place, _)| place + 8).collect::<Vec<u32>>();
    assert_eq!(places(&mut world, 0), [blocks[6], blocks[2], blocks[0]]);
    assert_eq!(places(&mut world, 1), [blocks[4], blocks[1]]);
    assert_eq!(places(&mut world, 2), [blocks[5], blocks[3]]);
    assert_eq!(world.allocate(16), granted(blocks[6], 24));
}

#[test]
fn the_smallest_that_fits_is_taken() {
    for (table, _) in TABLES {
        let (mut world, blocks) = live(table, [120, 104, 88, 72, 56]);
        for block in blocks {
            world.free(block);
        }
        // 72 and 88 exceed the needs of 64 and 80 by less than 24.
        assert_eq!(world.allocate(56), granted(blocks[3], 72));
        assert_eq!(world.cleared(9, 8), granted(blocks[2], 88));
        assert_eq!(world.reallocate(0, 90), granted(blocks[1], 104));
        assert_eq!(world.allocate(40), granted(blocks[4], 56));
    }
}

/// The calls that ask the check, with arguments that an ordered heap accepts.
fn accepted_calls(block: u32) -> [Call; 8] {
    [
        Call::Allocate { z: 16 },
        Call::AllocateCleared { count: 2, size: 8 },
        Call::Free { block },
        Call::Reallocate { block, z: 300 },
        Call::SetMerge { on: true },
        Call::Check,
        Call::AskChunk { question: 8, place: block - 8 },
        Call::AskBin { question: 1, bin: 0 },
    ]
}

#[test]
fn an_unordered_bin_is_refused_4_by_every_call_but_setup_and_the_patrol() {
    for (table, bin) in TABLES {
        let (mut sound, blocks) = live(table, [48, 48, 64, 96, 24]);
        for block in &blocks[..4] {
            sound.free(*block);
        }
        // Neighbours exchanged at the head, within and at the tail; the list as the tail rule left it; one member moved.
        for order in [[2, 1, 0, 3], [0, 2, 1, 3], [0, 1, 3, 2], [3, 2, 1, 0], [3, 0, 1, 2], [1, 2, 3, 0]] {
            let mut world = sound.clone();
            link(&mut world, bin, &order);
            for call in every_call().into_iter().chain(accepted_calls(blocks[4])) {
                world.refuses(4, call);
            }
            let before = world.clone();
            assert_eq!(world.patrol(100), [0, 0, 1, 0, 0]);
            assert!(world == before);
            assert_eq!(world.setup(table, 0, true), ACCEPTED);
            assert_eq!(world.check()[0], 0);
        }
        // Equal ones may stand in either order.
        let mut world = sound.clone();
        link(&mut world, bin, &[1, 0, 2, 3]);
        for call in accepted_calls(blocks[4]) {
            assert_eq!(world.clone().call(&call)[0], 0, "{call:?}");
        }
    }
}

#[test]
fn one_unordered_bin_among_ordered_ones_is_found() {
    let table = [24, 32, 48, 72, 128];
    let all = [48, 56, 64, 72, 80, 96, 128, 136, 200];
    for bin in 2..5 {
        for order in [[1, 0, 2], [0, 2, 1]] {
            let (mut world, blocks) = live(&table, all);
            for block in blocks {
                world.free(block);
            }
            assert_eq!(world.check()[0], 0);
            link(&mut world, bin, &order);
            world.refuses(4, Call::Check);
        }
    }
}
