//! The words of blocks: to read, to write, and of two blocks at once.

use kruzhvela::{Block, Heap, Refusal};

/// Two live blocks of 40 and 16 bytes, the words of each filled with a number of its own.
fn two_strips() -> (Heap<[u32; 64]>, Block, Block) {
    let mut heap = Heap::setup([9; 64], &[24, 64], 0, true).unwrap();
    let (first, second) = (heap.allocate(40).unwrap().block, heap.allocate(16).unwrap().block);
    heap.words_of(first).unwrap().fill(1);
    heap.words_of(second).unwrap().fill(2);
    (heap, first, second)
}

#[test]
fn a_block_is_read_through_a_shared_borrow() {
    let (heap, first, second) = two_strips();
    let (one, other) = (heap.words(first).unwrap(), heap.words(second).unwrap());
    assert_eq!((one, other), (&[1; 10][..], &[2; 4][..]));
    assert!(heap.check().is_ok());
}

#[test]
fn two_blocks_come_in_the_order_asked_for() {
    let (mut heap, first, second) = two_strips();
    let (one, other) = heap.words_of_two(first, second).unwrap().unwrap();
    assert_eq!((one, other), (&mut [1; 10][..], &mut [2; 4][..]));
    let (other, one) = heap.words_of_two(second, first).unwrap().unwrap();
    one[..4].copy_from_slice(other);
    assert_eq!(heap.words(first).unwrap(), [2, 2, 2, 2, 1, 1, 1, 1, 1, 1]);
    assert!(heap.check().is_ok());
}

#[test]
fn one_block_does_not_come_twice() {
    let (mut heap, first, _) = two_strips();
    assert!(heap.words_of_two(first, first).unwrap().is_none());
}

#[test]
fn what_is_no_live_block_has_no_words() {
    let (mut heap, first, second) = two_strips();
    heap.free(first).unwrap();
    assert_eq!(heap.words(first), Err(Refusal::NotLive));
    assert_eq!(heap.words_of(Block::NONE), Err(Refusal::NotLive));
    assert_eq!(heap.words_of_two(second, first), Err(Refusal::NotLive));
    assert_eq!(heap.words(Block::at(second.offset() - 8)), Err(Refusal::NotLive));
    // its chunk's place
}

#[test]
fn a_damaged_heap_gives_no_words() {
    let (heap, first, _) = two_strips();
    let (mut words, record) = heap.into_parts();
    words[0] = 4;
    assert_eq!(Heap::from_parts(words, record).words(first), Err(Refusal::HeapFails));
}
