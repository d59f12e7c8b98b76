//! How the patrol judges a forward link, and how its walk from the end ends, in the requirements' words. It counts what
//! cases reach and what flipped bits do; no comparison rests on it.

use crate::view::{heap_bytes, index, BACKWARD, FORWARD};
use kruzhvela::limits::{ALIGNMENT, HEADER_BYTES, LEAST_CHUNK};

#[derive(Clone, Copy, Debug, PartialEq, Eq)]
pub enum Link {
    Believed,
    /// Believed, though the place it names has a backward link to a place between: that one does not name it.
    BelievedOverOther,
    LeavesTheHeap,
    NoMultipleOf8,
    TooNear,
    TooNearTheStart,
    Skips,
}

impl Link {
    pub fn is_believed(self) -> bool {
        matches!(self, Link::Believed | Link::BelievedOverOther)
    }
}

#[derive(Clone, Copy, Debug, PartialEq, Eq)]
pub enum Walk {
    /// The next chunk.
    Found(u32),
    LeavesTheHeap,
    NotDown,
    TooNear,
    /// The link names the broken chunk, but from too near.
    TooNearTheBroken,
    PassesBelow,
}

/// A region of at least ten words, as the patrol reads it.
#[derive(Clone, Copy)]
pub struct Words<'a>(pub &'a [u32]);

impl Words<'_> {
    pub fn end(self) -> u32 {
        heap_bytes(self.0.len()) - HEADER_BYTES
    }

    pub fn forward(self, place: u32) -> u32 {
        self.0[index(place, FORWARD)]
    }

    /// The place that the backward link names, without the flags.
    pub fn below(self, place: u32) -> u32 {
        self.0[index(place, BACKWARD)] / ALIGNMENT * ALIGNMENT
    }

    /// The forward link of a chunk other than the end.
    pub fn judged(self, place: u32) -> Link {
        let link = self.forward(place);
        let between = |link| self.below(link) > place && self.below(link) < link;
        match link {
            _ if link > self.end() => Link::LeavesTheHeap,
            _ if !link.is_multiple_of(ALIGNMENT) => Link::NoMultipleOf8,
            _ if link < HEADER_BYTES && place == 0 => Link::TooNearTheStart,
            _ if link < place + LEAST_CHUNK && place != 0 => Link::TooNear,
            _ if between(link) && self.forward(self.below(link)) == link => Link::Skips,
            _ if between(link) => Link::BelievedOverOther,
            _ => Link::Believed,
        }
    }

    /// The walk from the end down to a chunk with a broken link.
    pub fn walked(self, place: u32) -> Walk {
        let mut at = self.end();
        loop {
            let below = self.below(at);
            match below {
                _ if below > self.end() => return Walk::LeavesTheHeap,
                _ if below >= at => return Walk::NotDown,
                _ if below != 0 && at - below < LEAST_CHUNK && below == place => return Walk::TooNearTheBroken,
                _ if below != 0 && at - below < LEAST_CHUNK => return Walk::TooNear,
                _ if below < place => return Walk::PassesBelow,
                _ if below == place => return Walk::Found(at),
                _ => at = below,
            }
        }
    }

    /// The next chunk, by a link that is believed or mended.
    pub fn next(self, place: u32) -> Option<u32> {
        if self.judged(place).is_believed() {
            return Some(self.forward(place));
        }
        match self.walked(place) {
            Walk::Found(next) => Some(next),
            _ => None,
        }
    }
}
