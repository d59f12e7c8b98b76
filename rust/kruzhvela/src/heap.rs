//! A heap with its region and record, and the ten calls as methods.

use core::error::Error;
use core::fmt;
use core::ops::Range;

use crate::flat::{self, Answer, Record};
use crate::limits::WORD_BYTES;
use crate::Refusal;

/// A block of a heap, by its offset in bytes. Block 0 is no block.
#[derive(Clone, Copy, Debug, PartialEq, Eq, PartialOrd, Ord, Hash)]
pub struct Block(u32);

impl Block {
    /// No block: free accepts it and does nothing; reallocate of it allocates.
    pub const NONE: Block = Block(0);

    /// The block at an offset, such as one that the caller stored. A call that takes it checks that it is live.
    pub fn at(offset: u32) -> Block {
        Block(offset)
    }

    /// The offset in bytes from the heap's first word.
    pub fn offset(self) -> u32 {
        self.0
    }
}

/// A granted block, with the change in used bytes.
#[derive(Clone, Copy, Debug, PartialEq, Eq)]
pub struct Granted {
    /// The block.
    pub block: Block,
    /// The change in used bytes: the size of the block's chunk, less that of the chunk that it had before.
    pub change: i32,
}

/// The check's counts of a heap that passes.
#[derive(Clone, Copy, Debug, PartialEq, Eq)]
pub struct Counts {
    /// All chunks, start and end included.
    pub chunks: u32,
    /// Ordinary free chunks: those in bins.
    pub ordinary: u32,
    /// Bytes of the chunks of live blocks.
    pub used: u32,
    /// Bytes of free chunks, donor and top included.
    pub free: u32,
}

/// A question about the chunk at an offset in bytes. Chunk 0 is the start chunk, and bin 0 the first bin.
#[derive(Clone, Copy, Debug, PartialEq, Eq)]
#[repr(u32)]
pub enum ChunkQuestion {
    /// Its bin. Start, end, donor, top and chunks in use have none.
    Bin = 1,
    /// Its block. Free chunks, start and end have none.
    Block = 2,
    /// The chunk of the live block at the offset; there always is one.
    ChunkOfBlock = 3,
    /// The chunk after it. The end chunk has none.
    Next = 4,
    /// The chunk after it in its bin's list. The list's last chunk has none, nor has a chunk in no bin.
    NextInBin = 5,
    /// The chunk before it. The start chunk has none.
    Previous = 6,
    /// The chunk before it in its bin's list. The list's first chunk has none, nor has a chunk in no bin.
    PreviousInBin = 7,
    /// Its size in bytes; there always is one.
    Size = 8,
    /// 0 if it is free, 1 if it is in use; there always is one of them.
    Type = 9,
}

/// A question about a bin.
#[derive(Clone, Copy, Debug, PartialEq, Eq)]
#[repr(u32)]
pub enum BinQuestion {
    /// How many chunks it has, 0 if it is empty.
    Count = 1,
    /// Its first chunk. An empty bin has none.
    First = 2,
    /// Its last chunk. An empty bin has none.
    Last = 3,
}

/// A refused setup: the refusal, and the words, unchanged.
#[derive(Debug)]
pub struct NotSetUp<W> {
    /// Why it was refused.
    pub refusal: Refusal,
    /// The words, given back.
    pub words: W,
}

impl<W> fmt::Display for NotSetUp<W> {
    fn fmt(&self, f: &mut fmt::Formatter<'_>) -> fmt::Result {
        self.refusal.fmt(f)
    }
}

impl<W: fmt::Debug> Error for NotSetUp<W> {}

/// Lets `?` return the refusal alone, if the caller does not want the words back.
impl<W> From<NotSetUp<W>> for Refusal {
    fn from(refused: NotSetUp<W>) -> Refusal {
        refused.refusal
    }
}

/// The words of two different blocks, in the order in which they were asked for.
pub type TwoBlocks<'a> = (&'a mut [u32], &'a mut [u32]);

/// A heap in words that it owns (`Vec<u32>`, `[u32; N]`) or borrows (`&mut [u32]`).
#[derive(Clone, Debug)]
pub struct Heap<W> {
    words: W,
    record: Record,
}

/// The answer, if the call was accepted.
fn accepted(answer: Answer) -> Result<Answer, Refusal> {
    match Refusal::of(answer[flat::ANSWER_REFUSAL]) {
        Some(refusal) => Err(refusal),
        None => Ok(answer),
    }
}

fn change(answer: Answer) -> i32 {
    answer[flat::ANSWER_CHANGE] as i32
}

fn granted(answer: Answer) -> Granted {
    Granted { block: Block(answer[flat::ANSWER_OFFSET]), change: change(answer) }
}

/// A block that is not there is no live block.
fn not_live(refusal: Refusal) -> Refusal {
    match refusal {
        Refusal::NotThere => Refusal::NotLive,
        other => other,
    }
}

/// What a question tells: a value, or that there is none.
fn told(answer: Answer) -> Option<u32> {
    (answer[flat::ANSWER_NONE] == 0).then_some(answer[flat::ANSWER_VALUE])
}

impl<W: AsRef<[u32]> + AsMut<[u32]>> Heap<W> {
    /// Sets up a heap in [`FEWEST_WORDS`](crate::limits::FEWEST_WORDS) to
    /// [`MOST_WORDS`](crate::limits::MOST_WORDS) words. `table`: ascending bin sizes, multiples of 8, the first 24.
    /// `donor`: bytes of the donor chunk, 0 for none. Small requests take from it before they split a chunk of a larger
    /// bin; any other request takes from it only if no bin and not the top can serve. The table begins with a run
    /// 24, 32, 40 .. without a gap; a request is small if its chunk (its bytes and 8 more, rounded up to a multiple of 8,
    /// at least 24) is below the last size of that run. `merge`: whether free coalesces a chunk with its free neighbours.
    ///
    /// ```
    /// use kruzhvela::{Heap, Refusal};
    /// let refused = Heap::setup(vec![0; 9], &[24], 0, true).unwrap_err();
    /// assert_eq!(refused.refusal, Refusal::RegionLength);
    /// assert_eq!(refused.words.len(), 9);
    /// ```
    pub fn setup(mut words: W, table: &[u32], donor: u32, merge: bool) -> Result<Heap<W>, NotSetUp<W>> {
        let mut record = [0; flat::RECORD_WORDS];
        match accepted(flat::setup(words.as_mut(), table, donor, merge, &mut record)) {
            Ok(_) => Ok(Heap { words, record }),
            Err(refusal) => Err(NotSetUp { refusal, words }),
        }
    }

    /// Makes a heap of the parts that [`into_parts`](Heap::into_parts) or a C caller had. Every call but the patrol checks
    /// it first.
    pub fn from_parts(words: W, record: Record) -> Heap<W> {
        Heap { words, record }
    }

    /// The heap's words and its record.
    pub fn into_parts(self) -> (W, Record) {
        (self.words, self.record)
    }

    /// Allocates a block of `bytes` bytes, 1 to [`MOST_BYTES`](crate::limits::MOST_BYTES). Its words stay as found.
    ///
    /// It comes from the bin of its size, a larger bin, the top or the donor, tried in this order; a small request tries
    /// the donor before the larger bins. Donor and top serve only if 24 bytes of them remain.
    ///
    /// Best fit: a block from a bin is cut from a chunk that is large enough, and no chunk in any bin that is large enough
    /// is smaller. The same holds of a cleared block and of one that moves. Donor and top are taken however large they are.
    ///
    /// ```
    /// use kruzhvela::{Heap, Refusal};
    /// let mut heap = Heap::setup(vec![0; 64], &[24, 64], 0, true)?;
    /// let first = heap.allocate(17)?;
    /// assert_eq!(first.change, 32);
    /// assert_eq!(heap.allocate(200), Err(Refusal::NoRoom));
    ///
    /// let mut heap = Heap::setup(vec![0; 64], &[24, 32, 40, 128], 64, true)?;
    /// assert_eq!(heap.allocate(112)?.block.offset(), 80); // from the top, which keeps 56 bytes
    /// assert_eq!(heap.allocate(32)?.block.offset(), 16); // a large request, from the donor
    ///
    /// let mut heap = Heap::setup(vec![0; 64], &[24, 32, 40, 128], 0, false)?; // without merging: freed chunks stay
    /// let (longer, shorter) = (heap.allocate(40)?.block, heap.allocate(32)?.block);
    /// heap.free(longer)?;
    /// heap.free(shorter)?;
    /// assert_eq!(heap.allocate(32)?.block, shorter); // the smaller chunk of the two
    /// # Ok::<(), kruzhvela::Refusal>(())
    /// ```
    pub fn allocate(&mut self, bytes: u32) -> Result<Granted, Refusal> {
        accepted(flat::allocate(self.words.as_mut(), &mut self.record, bytes)).map(granted)
    }

    /// Allocates a block for `count` elements of `size` bytes and sets every word of it to 0. The product must be 1 to
    /// [`MOST_BYTES`](crate::limits::MOST_BYTES).
    ///
    /// ```
    /// use kruzhvela::Heap;
    /// let mut heap = Heap::setup(vec![9; 64], &[24, 64], 0, true)?;
    /// let block = heap.allocate_cleared(4, 6)?.block;
    /// assert!(heap.words_of(block)?.iter().all(|&word| word == 0));
    /// # Ok::<(), kruzhvela::Refusal>(())
    /// ```
    pub fn allocate_cleared(&mut self, count: u32, size: u32) -> Result<Granted, Refusal> {
        accepted(flat::allocate_cleared(self.words.as_mut(), &mut self.record, count, size)).map(granted)
    }

    /// Frees a block and returns the change in used bytes. [`Block::NONE`] is accepted and changes nothing.
    pub fn free(&mut self, block: Block) -> Result<i32, Refusal> {
        accepted(flat::free(self.words.as_mut(), &mut self.record, block.0)).map(change)
    }

    /// Resizes a block to `bytes` bytes. It may move; its contents stay, up to the smaller of both sizes. If the call
    /// is refused, the block stays as it is.
    pub fn reallocate(&mut self, block: Block, bytes: u32) -> Result<Granted, Refusal> {
        accepted(flat::reallocate(self.words.as_mut(), &mut self.record, block.0, bytes)).map(granted)
    }

    /// Turns coalescing on or off for the calls that follow.
    pub fn set_merge(&mut self, on: bool) -> Result<(), Refusal> {
        accepted(flat::set_merge(self.words.as_mut(), &mut self.record, on)).map(|_| ())
    }

    /// Checks the whole heap and counts its chunks and bytes.
    ///
    /// ```
    /// use kruzhvela::{Heap, Refusal};
    /// let heap = Heap::setup(vec![0; 64], &[24], 0, true)?;
    /// let counts = heap.check()?;
    /// assert_eq!((counts.chunks, counts.used, counts.free), (3, 0, 240));
    ///
    /// let (mut words, record) = heap.into_parts();
    /// words[1] = 0; // the start chunk is no longer in use
    /// assert_eq!(Heap::from_parts(words, record).check(), Err(Refusal::HeapFails));
    /// # Ok::<(), kruzhvela::Refusal>(())
    /// ```
    pub fn check(&self) -> Result<Counts, Refusal> {
        accepted(flat::check(self.words.as_ref(), &self.record)).map(|answer| Counts {
            chunks: answer[flat::CHECK_CHUNKS],
            ordinary: answer[flat::CHECK_ORDINARY],
            used: answer[flat::CHECK_USED],
            free: answer[flat::CHECK_FREE],
        })
    }

    /// Answers a question about the chunk at an offset; for [`ChunkQuestion::ChunkOfBlock`] the offset is a block's.
    /// `None` says that there is none, `Some(0)` that it is the start chunk or the first bin.
    ///
    /// ```
    /// use kruzhvela::ChunkQuestion::{Bin, Next, Previous};
    /// use kruzhvela::{Heap, Refusal};
    /// let mut heap = Heap::setup(vec![0; 64], &[24, 64], 0, false)?;
    /// let block = heap.allocate(8)?.block;
    /// assert_eq!(heap.ask_chunk(Bin, 8)?, None); // in use
    /// heap.free(block)?;
    /// assert_eq!(heap.ask_chunk(Bin, 8)?, Some(0));
    ///
    /// assert_eq!(heap.ask_chunk(Previous, 8)?, Some(0));
    /// assert_eq!(heap.ask_chunk(Previous, 0)?, None);
    /// assert_eq!(heap.ask_chunk(Previous, 16), Err(Refusal::NotThere)); // a block's offset, not a chunk's
    ///
    /// // all chunks, from the start chunk up
    /// let mut chunks = vec![0];
    /// while let Some(next) = heap.ask_chunk(Next, chunks[chunks.len() - 1])? {
    ///     chunks.push(next);
    /// }
    /// assert_eq!(chunks, [0, 8, 32, 248]);
    /// # Ok::<(), kruzhvela::Refusal>(())
    /// ```
    pub fn ask_chunk(&self, question: ChunkQuestion, offset: u32) -> Result<Option<u32>, Refusal> {
        accepted(flat::ask_chunk(self.words.as_ref(), &self.record, question as u32, offset)).map(told)
    }

    /// Answers a question about a bin. `None` says that there is no such chunk.
    ///
    /// ```
    /// use kruzhvela::BinQuestion::{Count, First};
    /// use kruzhvela::Heap;
    /// let mut heap = Heap::setup(vec![0; 64], &[24, 64], 0, false)?;
    /// let block = heap.allocate(8)?.block;
    /// heap.free(block)?;
    /// assert_eq!([heap.ask_bin(Count, 0)?, heap.ask_bin(First, 0)?], [Some(1), Some(8)]);
    /// assert_eq!([heap.ask_bin(Count, 1)?, heap.ask_bin(First, 1)?], [Some(0), None]);
    /// # Ok::<(), kruzhvela::Refusal>(())
    /// ```
    pub fn ask_bin(&self, question: BinQuestion, bin: u32) -> Result<Option<u32>, Refusal> {
        accepted(flat::ask_bin(self.words.as_ref(), &self.record, question as u32, bin)).map(told)
    }

    /// One run of the patrol: handles `chunks` chunks going up from the patrol's place, and returns whether the end chunk
    /// was handled. The next run goes on where this one ended, after the end chunk at the start.
    ///
    /// A run does not check the heap first: it is for damaged heaps. It mends broken forward links, backward links and
    /// free sizes, and on a heap that passes the check it writes no word. What it mends and what it does not,
    /// `include/kruzhvela.h` says. Check the heap after a full patrol, and make runs as large as the idle time allows: a
    /// wrong link that is believed is then mostly refused with [`Refusal::BeyondMending`] before anything is written.
    ///
    /// ```
    /// use kruzhvela::{Heap, Refusal};
    /// let mut heap = Heap::setup(vec![0; 64], &[24, 64], 0, true)?;
    /// heap.allocate(40)?;
    /// let (mut words, record) = heap.into_parts();
    /// let whole = words.clone();
    /// words[2] ^= 1 << 20; // a bit of the forward link of the chunk at 8
    ///
    /// let mut heap = Heap::from_parts(words, record);
    /// assert_eq!(heap.check(), Err(Refusal::HeapFails));
    /// while !heap.patrol(2)? {
    ///     // other work until the next idle time
    /// }
    /// assert_eq!(heap.region(), whole);
    /// assert!(heap.check().is_ok());
    /// # Ok::<(), kruzhvela::Refusal>(())
    /// ```
    pub fn patrol(&mut self, chunks: u32) -> Result<bool, Refusal> {
        accepted(flat::patrol(self.words.as_mut(), &mut self.record, chunks))
            .map(|answer| answer[flat::ANSWER_VALUE] == 1)
    }

    /// Patrols to the end of the heap in runs of `chunks` chunks, and returns the number of runs. From the start, where
    /// setup and every finished round leave the patrol, this is a full patrol.
    ///
    /// ```
    /// use kruzhvela::{Heap, Refusal};
    /// let mut heap = Heap::setup(vec![0; 64], &[24, 64], 0, true)?;
    /// heap.allocate(40)?;
    /// assert_eq!(heap.check()?.chunks, 4);
    /// assert_eq!(heap.patrol_round(3)?, 2);
    ///
    /// let (mut words, record) = heap.into_parts();
    /// words[15] ^= 1 << 5; // a bit of the backward link of the chunk at 56, which names the chunk at 8
    /// let mut heap = Heap::from_parts(words, record);
    /// assert_eq!(heap.patrol_round(1)?, 4);
    /// assert_eq!(heap.region()[15], 8);
    ///
    /// assert_eq!(heap.patrol_round(0), Err(Refusal::RunSize));
    /// # Ok::<(), kruzhvela::Refusal>(())
    /// ```
    pub fn patrol_round(&mut self, chunks: u32) -> Result<u32, Refusal> {
        let mut runs = 1;
        while !self.patrol(chunks)? {
            runs += 1;
        }
        Ok(runs)
    }

    /// The words of a live block, up to its chunk's end: at least the bytes that were asked for.
    ///
    /// Costs two questions, each of which checks the whole heap first: ask once for a block, not for each word.
    ///
    /// ```
    /// use kruzhvela::{Heap, Refusal};
    /// let mut heap = Heap::setup(vec![0; 64], &[24, 64], 0, true)?;
    /// let strip = heap.allocate(10)?.block;
    /// heap.words_of(strip)?.fill(7);
    /// assert_eq!(heap.words(strip)?, [7; 4]); // 10 bytes need a chunk of 24: four words behind its links
    /// heap.free(strip)?;
    /// assert_eq!(heap.words_of(strip), Err(Refusal::NotLive));
    /// # Ok::<(), kruzhvela::Refusal>(())
    /// ```
    pub fn words_of(&mut self, block: Block) -> Result<&mut [u32], Refusal> {
        let place = self.range_of(block)?;
        Ok(&mut self.words.as_mut()[place])
    }

    /// The words of a live block, to read. Costs what [`words_of`](Heap::words_of) does.
    pub fn words(&self, block: Block) -> Result<&[u32], Refusal> {
        let place = self.range_of(block)?;
        Ok(&self.words.as_ref()[place])
    }

    /// The words of two live blocks at once, to copy from one to the other, say. `None` if both are the same block. Costs
    /// four questions.
    ///
    /// ```
    /// use kruzhvela::Heap;
    /// let mut heap = Heap::setup(vec![0; 64], &[24, 64], 0, true)?;
    /// let (first, second) = (heap.allocate_cleared(4, 4)?.block, heap.allocate(16)?.block);
    /// heap.words_of(second)?.fill(9);
    /// if let Some((to, from)) = heap.words_of_two(first, second)? {
    ///     to.copy_from_slice(from);
    /// }
    /// assert_eq!(heap.words(first)?, [9; 4]);
    /// assert!(heap.words_of_two(first, first)?.is_none());
    /// # Ok::<(), kruzhvela::Refusal>(())
    /// ```
    pub fn words_of_two(&mut self, first: Block, second: Block) -> Result<Option<TwoBlocks<'_>>, Refusal> {
        let (one, other) = (self.range_of(first)?, self.range_of(second)?);
        if one.end <= other.start {
            let (low, high) = self.words.as_mut().split_at_mut(other.start);
            Ok(Some((&mut low[one], &mut high[..other.end - other.start])))
        } else if other.end <= one.start {
            let (low, high) = self.words.as_mut().split_at_mut(one.start);
            Ok(Some((&mut high[..one.end - one.start], &mut low[other])))
        } else {
            Ok(None)
        }
    }

    /// The answer to a question that always has a value.
    fn value_of(&self, question: ChunkQuestion, offset: u32) -> Result<u32, Refusal> {
        Ok(self.ask_chunk(question, offset)?.expect("every chunk has a size, and every live block a chunk"))
    }

    /// Which words of the region are the block's.
    fn range_of(&self, block: Block) -> Result<Range<usize>, Refusal> {
        let chunk = self.value_of(ChunkQuestion::ChunkOfBlock, block.0).map_err(not_live)?;
        let size = self.value_of(ChunkQuestion::Size, chunk)?;
        Ok((block.0 / WORD_BYTES) as usize..((chunk + size) / WORD_BYTES) as usize)
    }

    /// The record's words, as a C caller holds them.
    pub fn record(&self) -> &Record {
        &self.record
    }

    /// All words of the region, headers included.
    pub fn region(&self) -> &[u32] {
        self.words.as_ref()
    }
}
