//! How often a request is refused for lack of room: the loads in heaps that they nearly fill, with and without a donor.

use crate::calls::Kind;
use crate::loads::Load;
use crate::peers::Kruzhvela;
use crate::stations::{each_load, tight, Request, Station, Watch, STEPS};
use kruzhvela::flat::{Answer, ANSWER_REFUSAL};
use kruzhvela::limits::ALIGNMENT;
use kruzhvela::Refusal;

/// The donor's part of the heap: none, an eighth, a quarter.
pub const PARTS: [Option<u32>; 3] = [None, Some(8), Some(4)];

pub struct Row {
    pub kind: Kind,
    pub live: usize,
    pub bytes: u32,
    pub requests: usize,
    /// The requests refused with 7, for each part of `PARTS`.
    pub refused: [usize; PARTS.len()],
}

/// The requests refused for lack of room.
struct Refused(usize);

impl Watch for Refused {
    fn before(&mut self, _: &Kruzhvela) {}

    /// No other refusal may be given.
    fn after(&mut self, _: &Kruzhvela, _: Request, answer: Answer) {
        match Refusal::of(answer[ANSWER_REFUSAL]) {
            Some(Refusal::NoRoom) => self.0 += 1,
            refusal => assert_eq!(refusal, None),
        }
    }
}

fn count(kind: Kind, live: usize, load: &Load) -> Row {
    let bytes = tight(live);
    let refused = PARTS.map(|part| {
        let donor = part.map_or(0, |part| bytes / part / ALIGNMENT * ALIGNMENT);
        let mut station = Station::new(bytes, donor, load, Refused(0));
        station.run(kind, load);
        station.watch.0
    });
    Row { kind, live, bytes, requests: live + STEPS, refused }
}

pub fn rows() -> Vec<Row> {
    each_load(count)
}
