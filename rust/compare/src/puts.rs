//! Where a call puts chunks in bins outside the small array, and what they were before. It counts what cases reach; no
//! comparison rests on it.

use crate::side::Side;
use crate::view::{bins, index, list, small_bins, SIZE};
use kruzhvela::flat::{Answer, ANSWER_OFFSET};
use second::Call;
use std::collections::HashSet;

/// What the chunk that is put was before.
#[derive(Clone, Copy, Debug, PartialEq, Eq, PartialOrd, Ord)]
pub enum Origin {
    Freed,
    /// The rest of a cut.
    Rest,
    /// The tail of a resize.
    Tail,
    /// The old block of a resize that moves.
    Moved,
}

pub const ORIGINS: [Origin; 4] = [Origin::Freed, Origin::Rest, Origin::Tail, Origin::Moved];

/// Its place in the list.
#[derive(Clone, Copy, Debug, PartialEq, Eq, PartialOrd, Ord)]
pub enum Spot {
    Alone,
    /// Before a larger one, and behind none.
    Head,
    /// Behind a smaller one and before a larger one.
    Between,
    /// Behind one of equal size and before a larger one.
    BehindEqual,
    /// Behind one of equal size, and before none.
    BehindEqualAtTail,
    /// Behind a smaller one, and before none.
    Tail,
}

pub const SPOTS: [Spot; 6] =
    [Spot::Alone, Spot::Head, Spot::Between, Spot::BehindEqual, Spot::BehindEqualAtTail, Spot::Tail];

/// A member of a list, with its size word.
#[derive(Clone, Copy, Debug, PartialEq, Eq, Hash)]
pub struct Member {
    pub place: u32,
    pub size: u32,
}

/// The lists of the bins outside the small array.
pub fn large_lists(side: &Side) -> Vec<Vec<Member>> {
    let (region, record) = (&side.region, &side.record);
    let member = |place: u32| Member { place, size: region.get(index(place, SIZE)).copied().unwrap_or(0) };
    let members = |bin| list(region, record, bin).into_iter().map(member).collect();
    (small_bins(record)..bins(record)).map(members).collect()
}

/// No list has a larger member before a smaller one.
pub fn in_order(lists: &[Vec<Member>]) -> bool {
    lists.iter().all(|list| list.is_sorted_by_key(|member| member.size))
}

fn origin(call: &Call, answer: Answer, put: Member) -> Origin {
    match *call {
        Call::Free { .. } => Origin::Freed,
        Call::Reallocate { block, .. } if block == answer[ANSWER_OFFSET] => Origin::Tail,
        Call::Reallocate { block, .. } if block > put.place && block < put.place + put.size => Origin::Moved,
        _ => Origin::Rest,
    }
}

fn spot(list: &[Member], at: usize) -> Spot {
    let last = at + 1 == list.len();
    let before = at.checked_sub(1).map(|before| list[before].size == list[at].size);
    match (before, last) {
        (None, true) => Spot::Alone,
        (None, false) => Spot::Head,
        (Some(false), false) => Spot::Between,
        (Some(true), false) => Spot::BehindEqual,
        (Some(true), true) => Spot::BehindEqualAtTail,
        (Some(false), true) => Spot::Tail,
    }
}

/// What an accepted call put, and where: the members that were not there before with this size.
pub fn puts(before: &[Vec<Member>], after: &[Vec<Member>], call: &Call, answer: Answer) -> Vec<(Origin, Spot)> {
    let mut found = Vec::new();
    for (before, after) in before.iter().zip(after) {
        let before: HashSet<&Member> = before.iter().collect();
        let new = after.iter().enumerate().filter(|(_, member)| !before.contains(member));
        found.extend(new.map(|(at, &member)| (origin(call, answer, member), spot(after, at))));
    }
    found
}
