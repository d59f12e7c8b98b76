//! One heap of a comparison: its region, its record and the function that answers its calls. It plays actions, which
//! are also the lines of a script.

use kruzhvela::flat::{self, Answer, Record, RECORD_WORDS};
use second::Call;

/// A call on a heap, or a write to it.
#[derive(Clone, Debug, PartialEq, Eq)]
pub enum Action {
    /// A new region of so many words, filled from the seed, and a record of zeros.
    Region {
        words: usize,
        seed: u32,
    },
    Call(Call),
    /// Writes a word of the region.
    Write {
        index: usize,
        value: u32,
    },
    /// Writes a word of the record.
    Record {
        index: usize,
        value: u32,
    },
}

/// A function that answers calls.
pub type Answers = fn(&Call, &mut [u32], &mut Record) -> Answer;

pub struct Side {
    answers: Answers,
    pub region: Vec<u32>,
    pub record: Record,
}

impl Side {
    pub fn new(answers: Answers) -> Side {
        Side { answers, region: Vec::new(), record: [0; RECORD_WORDS] }
    }

    /// Plays the action; returns the answer, if it is a call.
    pub fn play(&mut self, action: &Action) -> Option<Answer> {
        match *action {
            Action::Region { words, seed } => {
                self.region = filled(words, seed);
                self.record = [0; RECORD_WORDS];
            }
            Action::Call(ref call) => return Some((self.answers)(call, &mut self.region, &mut self.record)),
            Action::Write { index, value } => self.region[index] = value,
            Action::Record { index, value } => self.record[index] = value,
        }
        None
    }
}

/// The words of a new region: not zeros, since setup must accept any contents.
fn filled(words: usize, seed: u32) -> Vec<u32> {
    let mut word = seed;
    let next = || {
        word = word.wrapping_mul(1_664_525).wrapping_add(1_013_904_223);
        word
    };
    std::iter::repeat_with(next).take(words).collect()
}

/// The proved heap's answer.
pub fn proved(call: &Call, region: &mut [u32], record: &mut Record) -> Answer {
    match *call {
        Call::Setup { ref table, donor, merge } => flat::setup(region, table, donor, merge, record),
        Call::Allocate { z } => flat::allocate(region, record, z),
        Call::AllocateCleared { count, size } => flat::allocate_cleared(region, record, count, size),
        Call::Free { block } => flat::free(region, record, block),
        Call::Reallocate { block, z } => flat::reallocate(region, record, block, z),
        Call::SetMerge { on } => flat::set_merge(region, record, on),
        Call::Check => flat::check(region, record),
        Call::AskChunk { question, place } => flat::ask_chunk(region, record, question, place),
        Call::AskBin { question, bin } => flat::ask_bin(region, record, question, bin),
        Call::Patrol { chunks } => flat::patrol(region, record, chunks),
    }
}
