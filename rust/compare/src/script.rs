//! The script and the transcript of the program `vectors`: the operations on a heap, one in a line, and a digest of
//! `second`'s answer, record and region after each call. A line is the operation, the number of its arguments and the
//! arguments, so that an operation may get more arguments later and old scripts stay readable. `#` begins a comment.

mod donors;
mod orders;
mod patrols;

use crate::case::{self, Stage};
use crate::side::{Action, Side};
use crate::view::{index, BACKWARD, BIN_WORD, FORWARD, IN_USE, NEXT_IN_BIN, PREVIOUS_IN_BIN, SIZE};
use kruzhvela::flat::{Answer, ANSWER_REFUSAL, BINS, BYTES, DONOR, MERGE, SIZES, TOP, USED};
use kruzhvela::limits::{FEWEST_WORDS, HEADER_BYTES, LEAST_CHUNK, MOST_BYTES, MOST_WORDS, WORD_BYTES};
use kruzhvela::Refusal;
use second::Call;

/// The seed of the stored script, and the number of its random cases.
const SEED: u64 = 2_718_281_828;
const CASES: u64 = 220;

pub struct Script {
    side: Side,
    /// The lines of the script.
    pub text: String,
    /// A line for each call.
    pub transcript: String,
    pub calls: u64,
    pub heaps: u64,
    /// Heaps that failed the check after they were set up.
    pub damaged: u64,
    state: State,
}

/// The state of the present heap.
#[derive(PartialEq, Eq)]
enum State {
    Fresh,
    SetUp,
    Damaged,
}

fn digest(from: u32, words: &[u32]) -> u32 {
    words.iter().fold(from, |d, word| (d ^ word).rotate_left(5).wrapping_mul(0x9E37_79B1))
}

const DIGEST_OF_NOTHING: u32 = 2_166_136_261;

/// The operation and its arguments.
fn line(action: &Action) -> (u32, Vec<u32>) {
    match *action {
        Action::Region { words, seed } => (0, vec![words as u32, seed]),
        Action::Call(Call::Setup { ref table, donor, merge }) => {
            (1, [&[donor, u32::from(merge), table.len() as u32], &table[..]].concat())
        }
        Action::Call(Call::Allocate { z }) => (2, vec![z]),
        Action::Call(Call::AllocateCleared { count, size }) => (3, vec![count, size]),
        Action::Call(Call::Free { block }) => (4, vec![block]),
        Action::Call(Call::Reallocate { block, z }) => (5, vec![block, z]),
        Action::Call(Call::SetMerge { on }) => (6, vec![u32::from(on)]),
        Action::Call(Call::Check) => (7, vec![]),
        Action::Call(Call::AskChunk { question, place }) => (8, vec![question, place]),
        Action::Call(Call::AskBin { question, bin }) => (9, vec![question, bin]),
        Action::Write { index, value } => (10, vec![index as u32, value]),
        Action::Record { index, value } => (11, vec![index as u32, value]),
        Action::Call(Call::Patrol { chunks }) => (12, vec![chunks]),
    }
}

impl Script {
    fn new() -> Script {
        Script {
            side: Side::new(second::apply),
            text: String::new(),
            transcript: String::new(),
            calls: 0,
            heaps: 0,
            damaged: 0,
            state: State::Fresh,
        }
    }

    fn write_line(&mut self, operation: u32, arguments: &[u32]) {
        let words: Vec<String> = arguments.iter().map(u32::to_string).collect();
        let line = format!("{operation} {} {}", arguments.len(), words.join(" "));
        self.text += line.trim_end();
        self.text += "\n";
    }

    fn name(&mut self, name: &str) {
        self.text += &format!("# {name}\n");
    }

    fn digest_after(&self, from: u32, answer: Answer) -> u32 {
        digest(digest(digest(from, &answer), &self.side.record), &self.side.region)
    }

    /// Counts heaps, and those that were damaged at some point.
    fn count(&mut self, action: &Action, refusal: Option<Refusal>) {
        match (action, refusal) {
            (Action::Region { .. }, _) => {
                self.heaps += 1;
                self.state = State::Fresh;
            }
            (Action::Call(Call::Setup { .. }), None) if self.state == State::Fresh => self.state = State::SetUp,
            (_, Some(Refusal::HeapFails)) if self.state == State::SetUp => {
                self.damaged += 1;
                self.state = State::Damaged;
            }
            _ => {}
        }
    }

    fn call(&mut self, call: Call) {
        self.play(Action::Call(call));
    }

    /// A named heap, set up with merging on and checked.
    fn heap(&mut self, name: &str, words: usize, table: &[u32], donor: u32) {
        self.name(name);
        self.play(Action::Region { words, seed: words as u32 });
        self.call(Call::Setup { table: table.to_vec(), donor, merge: true });
        self.call(Call::Check);
    }

    /// The requirements' demonstration, up to one of its eleven calls.
    fn demonstration_to(&mut self, call: usize) {
        self.heap(&format!("the demonstration to call {call}"), 64, &[24, 32, 40, 128], 64);
        self.call(Call::Allocate { z: MOST_BYTES + 1 });
        let granted = [16, 17, 40, 64, 16].map(|z| Call::Allocate { z });
        let freed = [80, 112, 112].map(|block| Call::Free { block });
        let last =
            [Call::Allocate { z: 16 }, Call::Reallocate { block: 160, z: 40 }, Call::Reallocate { block: 16, z: 32 }];
        for call in granted.into_iter().chain(freed).chain(last).take(call) {
            self.call(call);
        }
        self.call(Call::Check);
    }

    /// Every question, and a number below and above them, about every place and bin of the demonstration's heap with two
    /// chunks in bin 0. So each kind of none is told, and each 0 that is a place or a bin.
    fn questions(&mut self) {
        self.demonstration_to(9);
        self.name("every question about that heap");
        self.call(Call::Allocate { z: 24 });
        self.call(Call::SetMerge { on: false });
        for block in [16, 80] {
            self.call(Call::Free { block });
        }
        for place in (0..=256).step_by(8) {
            for question in 0..=10 {
                self.call(Call::AskChunk { question, place });
            }
        }
        for bin in 0..=4 {
            for question in 0..=4 {
                self.call(Call::AskBin { question, bin });
            }
        }
    }

    /// The record of the largest heap over a region that is one word longer.
    fn one_word_too_long(&mut self) {
        self.heap("16,385 words under the record of the largest heap", MOST_WORDS + 1, &[24], 0);
        let bytes = MOST_WORDS as u32 * WORD_BYTES;
        let (start, top, end) = (0, HEADER_BYTES, bytes - HEADER_BYTES);
        let headers = [
            (start, FORWARD, top),
            (start, BACKWARD, IN_USE),
            (top, FORWARD, end),
            (top, BACKWARD, start),
            (top, SIZE, end - top),
            (top, NEXT_IN_BIN, 0),
            (top, PREVIOUS_IN_BIN, 0),
            (top, BIN_WORD, 0),
            (end, FORWARD, 0),
            (end, BACKWARD, top | IN_USE),
        ];
        for (place, word, value) in headers {
            self.play(Action::Write { index: index(place, word), value });
        }
        let fields = [(BYTES, bytes), (BINS, 1), (DONOR, 0), (TOP, top), (MERGE, 1), (USED, 0), (SIZES, LEAST_CHUNK)];
        for (index, value) in fields {
            self.play(Action::Record { index, value });
        }
        self.call(Call::Check);
        self.call(Call::Allocate { z: 1 });
        self.call(Call::Patrol { chunks: 1 });
    }

    /// Both sides of the limits that the requirements name.
    fn both_sides(&mut self) {
        for words in [FEWEST_WORDS - 1, FEWEST_WORDS, FEWEST_WORDS + 1, MOST_WORDS, MOST_WORDS + 1] {
            self.heap(&format!("{words} words"), words, &[24, 32, 64], 0);
            self.call(Call::Allocate { z: 1 });
            self.call(Call::AskChunk { question: 8, place: 8 });
            self.call(Call::Patrol { chunks: 1 });
        }
        for z in [MOST_BYTES, MOST_BYTES + 1] {
            self.heap(&format!("{z} bytes of the largest heap"), MOST_WORDS, &[24, 32, 64], 0);
            self.call(Call::Allocate { z });
            self.call(Call::Check);
        }
        self.heap("every size of a heap of 10 words", FEWEST_WORDS, &[24], 0);
        for z in 0..=MOST_BYTES + 1 {
            self.call(Call::Allocate { z });
        }
        self.heap("the table 24", 64, &[24], 0);
        self.call(Call::Allocate { z: 40 });
        self.heap("the table 24, 0xFFFFFFFF", 64, &[24, 0xFFFF_FFFF], 0);
        self.one_word_too_long();
    }
}

impl Stage for Script {
    fn play(&mut self, action: Action) -> Option<Answer> {
        let (operation, arguments) = line(&action);
        self.write_line(operation, &arguments);
        let answer = self.side.play(&action);
        self.count(&action, Refusal::of(answer.unwrap_or_default()[ANSWER_REFUSAL]));
        let answer = answer?;
        let digest = self.digest_after(DIGEST_OF_NOTHING, answer);
        self.transcript += &format!("{digest}\n");
        self.calls += 1;
        Some(answer)
    }

    fn side(&self) -> &Side {
        &self.side
    }
}

/// The stored script with its transcript.
pub fn stored() -> Script {
    let mut script = Script::new();
    script.demonstration_to(11);
    script.both_sides();
    script.questions();
    script.donors();
    script.orders();
    script.patrols();
    for number in 0..CASES {
        script.name(&format!("case {number}"));
        case::play(number, SEED, &mut script);
    }
    script
}
