//! The script's cases of the patrol by name. Most are on the demonstration's heap after its ninth call, with chunks at 0,
//! 8, 32 (donor), 72, 96 (free), 152, 224 (top) and 248 (end).

use super::Script;
use crate::case::Stage;
use crate::patrols::{place_at, put_back, round, Before};
use crate::side::Action;
use crate::view::{index, BACKWARD, FORWARD, IN_USE, SIZE};
use kruzhvela::flat::{BYTES, PATROL};
use kruzhvela::limits::FEWEST_WORDS;
use second::Call;

const CHUNKS: [u32; 8] = [0, 8, 32, 72, 96, 152, 224, 248];
const END: u32 = 248;

/// More chunks than any heap has.
const ALL: u32 = 0xFFFF_FFFF;

/// Words of headers: place, word, value.
type Damage = [(u32, usize, u32)];

/// Each kind of broken link at each chunk but the end.
fn broken_links() -> Vec<(u32, usize, u32)> {
    let kinds = |at: usize| {
        let (place, next) = (CHUNKS[at], CHUNKS[at + 1]);
        let beyond = CHUNKS.get(at + 2).copied();
        [Some(END + 8), Some(next + 4), Some(next + 1), Some(place), Some(next - 8), beyond].into_iter().flatten()
    };
    (0..CHUNKS.len() - 1).flat_map(|at| kinds(at).map(move |link| (CHUNKS[at], FORWARD, link))).collect()
}

/// The link at 72 is broken, and the walk from the end meets a link that ends it.
fn beyond_mending() -> Vec<[(u32, usize, u32); 2]> {
    let ends = [
        (END, END + 8),
        (END, 0xFFFF_FFF8),
        (END, END),
        (END, END - 8),
        (END, END - 16),
        (224, 8),
        (224, 0),
        (152, 136),
        (96, 80),
    ];
    ends.map(|(place, below)| [(72, FORWARD, 73), (place, BACKWARD, below | IN_USE)]).to_vec()
}

impl Script {
    /// Damages the heap, patrols it from the start with a run size and checks it, then puts all words back.
    fn mend(&mut self, damage: &Damage, chunks: u32) {
        let before = Before::of(self);
        for &(place, word, value) in damage {
            self.play(Action::Write { index: index(place, word), value });
        }
        place_at(self, 0);
        round(self, chunks);
        self.call(Call::Check);
        put_back(self, before);
    }

    fn mend_with(&mut self, name: &str, damage: &Damage, sizes: &[u32]) {
        self.name(name);
        for &chunks in sizes {
            self.mend(damage, chunks);
        }
    }

    fn undamaged(&mut self) {
        self.name("a round with every run size, and one more chunk than there are");
        for chunks in 1..=CHUNKS.len() as u32 + 1 {
            round(self, chunks);
        }
        self.call(Call::Patrol { chunks: ALL });
        self.call(Call::Patrol { chunks: CHUNKS.len() as u32 - 1 });
        self.name("a run that begins at the end chunk");
        self.call(Call::Patrol { chunks: 2 });
    }

    fn broken(&mut self) {
        self.name("each kind of broken link at each chunk");
        for (at, &link) in broken_links().iter().enumerate() {
            self.mend(&[link], [1, 3, ALL][at % 3]);
        }
        self.mend_with("two broken links", &[(8, FORWARD, 9), (152, FORWARD, 0)], &[2, ALL]);
        self.mend_with("the link to a chunk that is not skipped", &[(224, BACKWARD, 168)], &[ALL]);
        self.name("each way beyond mending, also after something to mend");
        for damage in beyond_mending() {
            self.mend(&damage, ALL);
            self.mend(&[&damage[..], &[(8, BACKWARD, 33), (32, SIZE, 1)]].concat(), 2);
        }
        let from_16 = [(72, FORWARD, 0), (88, BACKWARD, 72), (END, BACKWARD, 88 | IN_USE)];
        self.mend_with("a link to the broken chunk from 16 above", &from_16, &[ALL, 1]);
        let to_start = [(0, FORWARD, 0), (16, BACKWARD, 0), (END, BACKWARD, 16 | IN_USE)];
        self.mend_with("a link to the start from 16 above", &to_start, &[1]);
    }

    fn wrong_words(&mut self) {
        let links = [(0, 0xFFF9), (8, 249), (32, 7), (72, 1), (96, 0xFFFF_FFFE), (152, 153), (224, 4), (END, 3)];
        let damage = links.map(|(place, word)| (place, BACKWARD, word));
        self.mend_with("every backward link wrong, with all flags", &damage, &[1, 3, ALL]);
        let sizes = [8, 32, 72, 96, 152, 224].map(|place| (place, SIZE, 0xABCD));
        self.mend_with("every word that may be a size", &sizes, &[2, ALL]);
        self.mend_with("a start that says free", &[(0, BACKWARD, 8)], &[1, ALL]);
        self.mend_with("a link into a live block is believed", &[(152, FORWARD, 176)], &[ALL, 1]);
        let forged = [(176, FORWARD, 224), (176, BACKWARD, 153)];
        self.mend_with("a forged chunk that nothing names", &forged, &[ALL]);
        let named = [&forged[..], &[(224, BACKWARD, 176)]].concat();
        self.mend_with("a forged chunk that the chunk above names", &named, &[3, ALL]);
        let linked = [&forged[..], &[(152, FORWARD, 176)]].concat();
        self.mend_with("a forged chunk that is linked in", &linked, &[1, ALL]);
    }

    fn refused(&mut self) {
        self.name("run sizes and places");
        let before = Before::of(self);
        for place in [0, 1, 4, 12, 16, END - 8, END, END + 4, END + 8, 0xFFFF_FFF8] {
            for chunks in [0, 1] {
                place_at(self, place);
                self.call(Call::Patrol { chunks });
                self.call(Call::Check);
            }
            put_back(self, before.clone());
        }
        self.name("heap bytes of another heap");
        for bytes in [0, 248, 264] {
            self.play(Action::Record { index: BYTES, value: bytes });
            self.call(Call::Patrol { chunks: 0 });
            self.call(Call::Patrol { chunks: 1 });
        }
        put_back(self, before);
    }

    /// The place is at each chunk in turn when a call may swallow it.
    fn swallowed(&mut self, name: &str, call: &Call) {
        self.name(name);
        for place in CHUNKS {
            let before = Before::of(self);
            place_at(self, place);
            self.call(call.clone());
            self.call(Call::Patrol { chunks: 1 });
            self.call(Call::Check);
            put_back(self, before);
        }
    }

    /// Ten words whose size word reads as a forward link that the end confirms.
    fn sign_by_a_size(&mut self) {
        self.heap("a size word that gives the sign of a skipped chunk", FEWEST_WORDS, &[24], 0);
        self.mend(&[(8, SIZE, 32), (32, BACKWARD, 16 | IN_USE)], ALL);
        self.mend(&[(8, SIZE, 40), (32, BACKWARD, 16 | IN_USE)], 1);
    }

    pub(super) fn patrols(&mut self) {
        self.demonstration_to(9);
        assert_eq!(self.side().record[PATROL], 0);
        self.undamaged();
        self.broken();
        self.wrong_words();
        self.refused();
        self.swallowed("a free that may swallow the place", &Call::Free { block: 80 });
        self.swallowed("a free below the top", &Call::Free { block: 160 });
        self.swallowed("a tail that may swallow the place", &Call::Reallocate { block: 160, z: 40 });
        self.swallowed("a move that may swallow the place", &Call::Reallocate { block: 16, z: 40 });
        self.sign_by_a_size();
    }
}
