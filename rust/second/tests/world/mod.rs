// A heap for tests: its region and record, and the calls as methods.
#![allow(dead_code)]

pub mod dice;
pub mod run;

use second::{apply, Call, ANSWER_WORDS, RECORD_WORDS};

pub type Answer = [u32; ANSWER_WORDS];

/// Accepted, with no figure.
pub const ACCEPTED: Answer = [0; ANSWER_WORDS];

pub const DEMO_TABLE: [u32; 4] = [24, 32, 40, 128];

/// The record's word with the patrol's place.
pub const PATROL: usize = 102;

#[derive(Clone, PartialEq, Eq, Debug)]
pub struct World {
    pub region: Vec<u32>,
    pub record: [u32; RECORD_WORDS],
}

impl World {
    pub fn new(words: usize) -> World {
        World { region: vec![0; words], record: [0; RECORD_WORDS] }
    }

    pub fn fresh(words: usize, table: &[u32], donor: u32, merge: bool) -> World {
        let mut world = World::new(words);
        assert_eq!(world.setup(table, donor, merge), ACCEPTED);
        world
    }

    pub fn demo() -> World {
        World::fresh(64, &DEMO_TABLE, 64, true)
    }

    pub fn call(&mut self, call: &Call) -> Answer {
        apply(call, &mut self.region, &mut self.record)
    }

    pub fn setup(&mut self, table: &[u32], donor: u32, merge: bool) -> Answer {
        let table = table.to_vec();
        self.call(&Call::Setup { table, donor, merge })
    }

    pub fn allocate(&mut self, z: u32) -> Answer {
        self.call(&Call::Allocate { z })
    }

    pub fn cleared(&mut self, count: u32, size: u32) -> Answer {
        self.call(&Call::AllocateCleared { count, size })
    }

    pub fn free(&mut self, block: u32) -> Answer {
        self.call(&Call::Free { block })
    }

    pub fn reallocate(&mut self, block: u32, z: u32) -> Answer {
        self.call(&Call::Reallocate { block, z })
    }

    pub fn set_merge(&mut self, on: bool) -> Answer {
        self.call(&Call::SetMerge { on })
    }

    pub fn check(&mut self) -> Answer {
        self.call(&Call::Check)
    }

    pub fn patrol(&mut self, chunks: u32) -> Answer {
        self.call(&Call::Patrol { chunks })
    }

    pub fn ask(&mut self, question: u32, place: u32) -> Answer {
        self.call(&Call::AskChunk { question, place })
    }

    pub fn ask_bin(&mut self, question: u32, bin: u32) -> Answer {
        self.call(&Call::AskBin { question, bin })
    }

    /// What a question about a chunk tells: a value or none. It must be accepted.
    pub fn tells(&mut self, question: u32, place: u32) -> Option<u32> {
        told(self.ask(question, place))
    }

    pub fn bin_tells(&mut self, question: u32, bin: u32) -> Option<u32> {
        told(self.ask_bin(question, bin))
    }

    /// The value that a question tells, where there is one.
    pub fn value(&mut self, question: u32, place: u32) -> u32 {
        self.tells(question, place).expect("a value")
    }

    pub fn word(&self, byte: u32) -> u32 {
        self.region[byte as usize / 4]
    }

    pub fn words(&self, byte: u32, count: usize) -> Vec<u32> {
        self.region[byte as usize / 4..][..count].to_vec()
    }

    pub fn donor(&self) -> u32 {
        self.record[2]
    }

    pub fn top(&self) -> u32 {
        self.record[3]
    }

    pub fn used(&self) -> u32 {
        self.record[5]
    }

    pub fn place(&self) -> u32 {
        self.record[PATROL]
    }

    /// The chain as the demonstration prints it, read by questions.
    pub fn print(&mut self) -> String {
        let mut text = format!("{} {} {}\n", self.record[0], self.record[1], self.used());
        let mut place = 0;
        loop {
            let size = self.value(8, place);
            text += &format!("{place} {size} {}\n", self.kind(place));
            match self.tells(4, place) {
                Some(next) => place = next,
                None => return text,
            }
        }
    }

    pub fn kind(&mut self, place: u32) -> String {
        let name = if place == 0 {
            "start"
        } else if place == self.record[0] - 8 {
            "end"
        } else if self.value(9, place) == 1 {
            "inuse"
        } else if place == self.donor() {
            "donor"
        } else if place == self.top() {
            "top"
        } else {
            return format!("free {}", self.value(1, place));
        };
        name.to_string()
    }

    /// Makes a call that must be refused with this number and change nothing.
    pub fn refuses(&mut self, number: u32, call: Call) {
        let before = self.clone();
        assert_eq!(self.call(&call), [number, 0, 0, 0, 0], "{call:?}");
        assert!(*self == before, "{call:?} changed something");
    }
}

/// An accepted question has the value, or 1 in the last word for none.
fn told(answer: Answer) -> Option<u32> {
    match answer {
        [0, 0, value, 0, 0] => Some(value),
        [0, 0, 0, 0, 1] => None,
        _ => panic!("no question is answered so: {answer:?}"),
    }
}

pub fn granted(block: u32, bytes: i32) -> Answer {
    [0, block, 0, bytes as u32, 0]
}

pub fn freed(bytes: i32) -> Answer {
    [0, 0, 0, bytes as u32, 0]
}

/// Every call that asks the check, most with arguments that are refused on a sound heap: on a damaged one 4 must come
/// first.
pub fn every_call() -> Vec<Call> {
    let (question, place, bin) = (77, 1, 99);
    vec![
        Call::Allocate { z: 0 },
        Call::AllocateCleared { count: 0, size: 0 },
        Call::Free { block: 0 },
        Call::Reallocate { block: 1, z: 0 },
        Call::SetMerge { on: false },
        Call::Check,
        Call::AskChunk { question, place },
        Call::AskBin { question, bin },
    ]
}

/// The demonstration's heap after its first nine calls.
pub fn after_nine() -> World {
    let mut world = World::demo();
    assert_eq!(world.allocate(16), granted(16, 24));
    assert_eq!(world.allocate(17), granted(80, 32));
    assert_eq!(world.allocate(40), granted(112, 48));
    assert_eq!(world.allocate(64), granted(160, 72));
    world.refuses(7, Call::Allocate { z: 16 });
    assert_eq!(world.free(80), freed(-32));
    assert_eq!(world.free(112), freed(-48));
    assert_eq!(world.words(72, 6), [152, 8 + 24, 80, 0, 0, 16]);
    assert_eq!(world.bin_tells(2, 2), Some(72));
    world.refuses(6, Call::Free { block: 112 });
    assert_eq!(world.word(108), 73);
    assert_eq!(world.allocate(16), granted(80, 24));
    world
}

/// Six blocks of 24-byte chunks at 8, 32, ... with the rest in the top.
pub fn six(table: &[u32], merge: bool) -> World {
    let mut world = World::fresh(80, table, 0, merge);
    for at in 0..6 {
        assert_eq!(world.allocate(16), granted(16 + 24 * at, 24));
    }
    world
}
