//! The check by hand leaves no condition out: on damaged heaps it answers what the proved check answers, word for word.

use crate::checks::{by_hand, proved};
use crate::loads::Random;
use crate::peers::{Allocator, Kruzhvela};
use kruzhvela::flat::{self, ANSWER_REFUSAL, BYTES, HEADS, RECORD_WORDS, TAILS, TOP};
use kruzhvela::limits::{FEWEST_WORDS, HEADER_BYTES, MOST_WORDS, WORD_BYTES};
use kruzhvela::Refusal;

const HEAPS: usize = 5_000;
const DAMAGES: usize = 200;

/// The words of a chunk that are read or set here.
const FORWARD: u32 = 0;
const BACKWARD: u32 = 1;
const SIZE: u32 = 2;
const NEXT_IN_BIN: u32 = 3;
const PREVIOUS_IN_BIN: u32 = 4;
const BIN: u32 = 5;

const IN_USE: u32 = 1;
const BIN_FACTOR: u32 = 8;

fn index(place: u32, number: u32) -> usize {
    (place / WORD_BYTES + number) as usize
}

/// Sets a word of the chunk at a place, if the region has it. Now and then it forgets to, so that one condition fails alone.
fn set(heap: &mut Kruzhvela, random: &mut Random, place: u32, number: u32, value: u32) {
    if let Some(word) = heap.region.get_mut(index(place, number)).filter(|_| random.below(8) > 0) {
        *word = value;
    }
}

/// A heap as calls leave it, with or without donor, and with the patrol's place anywhere.
fn called(random: &mut Random) -> Kruzhvela {
    let words = [FEWEST_WORDS, 48, 121, 600, MOST_WORDS][random.below(5)];
    let donor = if words < 48 { 0 } else { [0, 64][random.below(2)] };
    let mut heap = Kruzhvela::new(words, &[24, 32, 40, 64, 128], donor, random.below(2) == 0);
    let mut blocks = Vec::new();
    for _ in 0..random.below(words.min(1_600) / 8) {
        if random.below(3) > 0 || blocks.is_empty() {
            blocks.extend(Some(heap.allocate(1 + random.below(100) as u32)).filter(|&block| block != 0));
        } else {
            heap.free(blocks.swap_remove(random.below(blocks.len())));
        }
    }
    flat::patrol(&mut heap.region, &mut heap.record, 1 + random.below(16) as u32);
    heap
}

/// The places of all chunks of an undamaged heap, start and end among them.
fn places(heap: &Kruzhvela) -> Vec<u32> {
    let end = heap.record[BYTES] - HEADER_BYTES;
    let above = |&place: &u32| (place != end).then(|| heap.region[index(place, FORWARD)]);
    std::iter::successors(Some(0), above).collect()
}

/// Any word of the region or, one time in three, of the record.
fn any_word<'a>(heap: &'a mut Kruzhvela, random: &mut Random) -> &'a mut u32 {
    let words = if random.below(3) == 0 { &mut heap.record[..] } else { &mut heap.region[..] };
    &mut words[random.below(words.len())]
}

/// Another word's value, or one that is a bit, a word, or a few places off.
fn change_word(heap: &mut Kruzhvela, random: &mut Random) {
    let other = *any_word(heap, random);
    let word = any_word(heap, random);
    *word = match random.below(4) {
        0 => other,
        1 => *word ^ 1 << random.below(32),
        2 => *word ^ 1 << random.below(4),
        _ => word.wrapping_add(8 * random.below(9) as u32).wrapping_sub(32),
    };
}

fn flags(heap: &Kruzhvela, place: u32) -> u32 {
    heap.region.get(index(place, BACKWARD)).map_or(0, |back| back & IN_USE)
}

/// Sets the words by which a chunk and the one above it know of each other.
fn join(heap: &mut Kruzhvela, random: &mut Random, chunk: u32, above: u32, above_flags: u32) {
    set(heap, random, chunk, FORWARD, above);
    set(heap, random, above, BACKWARD, chunk + above_flags);
    if flags(heap, chunk) == 0 {
        set(heap, random, chunk, SIZE, above - chunk);
    }
}

/// Moves the place where two chunks meet. If both are in use and have their least size, the heap still passes.
fn move_boundary(heap: &mut Kruzhvela, places: &[u32], random: &mut Random) {
    let chunk = random.below(places.len() - 1);
    let (below, at, above) = (places[chunk], places[chunk + 1], places.get(chunk + 2).copied());
    let room = above.unwrap_or(at + HEADER_BYTES) - below;
    let to = below + WORD_BYTES * random.below((room / WORD_BYTES) as usize) as u32;
    let at_flags = flags(heap, at);
    match above {
        Some(above) => join(heap, random, to, above, flags(heap, above)),
        None => set(heap, random, to, FORWARD, 0),
    }
    join(heap, random, below, to, at_flags);
}

/// A chunk takes the one above it. If both are in use, the heap still passes.
fn swallow(heap: &mut Kruzhvela, places: &[u32], random: &mut Random) {
    let chunk = random.below(places.len() - 2);
    let above = places[chunk + 2];
    join(heap, random, places[chunk], above, flags(heap, above));
}

/// Moves the end two words up, and the top's end with it. The heap still passes, unless it is now too long.
fn lengthen(heap: &mut Kruzhvela, random: &mut Random) {
    let (bytes, top) = (heap.record[BYTES], heap.record[TOP]);
    heap.region.truncate(index(bytes, 0));
    heap.region.extend([0, top.wrapping_add(IN_USE)]);
    set(heap, random, top, FORWARD, bytes);
    set(heap, random, top, SIZE, bytes.wrapping_sub(top));
    heap.record[BYTES] = bytes.wrapping_add(2 * WORD_BYTES);
}

/// A word of the heap.
enum At {
    Region(usize),
    Record(usize),
}

fn store(heap: &mut Kruzhvela, at: &At, value: u32) {
    let word = match *at {
        At::Region(index) => heap.region.get_mut(index),
        At::Record(index) => heap.record.get_mut(index),
    };
    if let Some(word) = word {
        *word = value;
    }
}

/// The stores that exchange a member of a list and the next one, with all links, head and tail right. None if there is no next.
/// If both have one size, the heap still passes.
fn exchange(heap: &Kruzhvela, one: u32) -> Option<[(At, u32); 6]> {
    let word = |place: u32, number: u32| heap.region.get(index(place, number)).copied().unwrap_or(0);
    let bin = (word(one, BIN) / BIN_FACTOR) as usize;
    let (before, other) = (word(one, PREVIOUS_IN_BIN), word(one, NEXT_IN_BIN));
    let after = word(other, NEXT_IN_BIN);
    let link = |place: u32, number: u32| At::Region(index(place, number));
    let to_first = if before == 0 { At::Record(HEADS + bin) } else { link(before, NEXT_IN_BIN) };
    let to_last = if after == 0 { At::Record(TAILS + bin) } else { link(after, PREVIOUS_IN_BIN) };
    (other != 0).then(|| {
        [
            (to_first, other),
            (link(other, PREVIOUS_IN_BIN), before),
            (link(other, NEXT_IN_BIN), one),
            (link(one, PREVIOUS_IN_BIN), other),
            (link(one, NEXT_IN_BIN), after),
            (to_last, one),
        ]
    })
}

/// Exchanges two neighbours of a list. Now and then it forgets a store.
fn reorder(heap: &mut Kruzhvela, places: &[u32], random: &mut Random) {
    let free: Vec<u32> = places.iter().copied().filter(|&place| flags(heap, place) == 0).collect();
    let one = free.get(random.below(free.len().max(1))).copied().unwrap_or(0);
    for (at, value) in exchange(heap, one).into_iter().flatten() {
        if random.below(8) > 0 {
            store(heap, &at, value);
        }
    }
}

fn damage(heap: &mut Kruzhvela, places: &[u32], random: &mut Random) {
    match random.below(14) {
        0 => move_boundary(heap, places, random),
        1 => swallow(heap, places, random),
        2 => lengthen(heap, random),
        3 => drop(heap.region.pop()),
        4 => heap.record.swap(random.below(RECORD_WORDS), random.below(RECORD_WORDS)),
        5 | 6 => reorder(heap, places, random),
        _ => change_word(heap, random),
    }
}

#[test]
fn the_check_by_hand_leaves_no_condition_out() {
    let mut random = Random(1);
    let mut passed = 0;
    for _ in 0..HEAPS {
        let heap = called(&mut random);
        let places = places(&heap);
        for _ in 0..DAMAGES {
            let mut damaged = heap.clone();
            for _ in 0..=random.below(3) {
                damage(&mut damaged, &places, &mut random);
            }
            let answer = proved(&mut damaged);
            assert_eq!(by_hand(&mut damaged), answer, "{:?}\n{:?}", damaged.record, damaged.region);
            passed += usize::from(answer[ANSWER_REFUSAL] == 0);
        }
    }
    let cases = HEAPS * DAMAGES;
    assert!(passed * 10 > cases && passed * 2 < cases, "{passed} of {cases} heaps pass");
}

/// The places of the chunks in bins that have a next one there.
fn followed(heap: &Kruzhvela) -> Vec<u32> {
    let next = |place: u32| heap.region[index(place, NEXT_IN_BIN)];
    let inner = |&place: &u32| place != 0 && place != heap.record[BYTES] - HEADER_BYTES;
    places(heap).into_iter().filter(inner).filter(|&place| flags(heap, place) == 0 && next(place) != 0).collect()
}

#[test]
fn both_checks_ask_for_the_order_and_for_no_more() {
    let mut random = Random(2);
    let (mut refused, mut passed) = (0, 0);
    for _ in 0..HEAPS {
        let heap = called(&mut random);
        for place in followed(&heap) {
            let mut other = heap.clone();
            for (at, value) in exchange(&heap, place).into_iter().flatten() {
                store(&mut other, &at, value);
            }
            let size = |place: u32| heap.region[index(place, SIZE)];
            let equal = size(place) == size(heap.region[index(place, NEXT_IN_BIN)]);
            let answer = proved(&mut other);
            assert_eq!(by_hand(&mut other), answer, "{:?}\n{:?}", other.record, other.region);
            assert_eq!(Refusal::of(answer[ANSWER_REFUSAL]), (!equal).then_some(Refusal::HeapFails));
            refused += usize::from(!equal);
            passed += usize::from(equal);
        }
    }
    assert!(refused > 500 && passed > 500, "{refused} heaps are unordered, {passed} pass");
}
