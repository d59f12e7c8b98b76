//! The refusals.

use core::error::Error;
use core::fmt;

/// Why a call was refused. A refused call changes nothing.
#[derive(Clone, Copy, Debug, PartialEq, Eq, Hash)]
#[repr(u32)]
pub enum Refusal {
    /// Setup: the region has under 10 or over 16,384 words.
    RegionLength = 1,
    /// Setup: the table is not 1 to 32 ascending multiples of 8 that begin with 24.
    BadTable = 2,
    /// Setup: the donor's size is not 0 and is under 24, no multiple of 8, or over the heap bytes less 40.
    DonorSize = 3,
    /// The heap fails the check: something else has written its headers or its record, or older firmware has left a
    /// bin that is not in order of size. The patrol gives this only if
    /// the region's length is not permitted, the recorded heap bytes are not those of that length, or the patrol's place
    /// is no multiple of 8 from 0 to the end chunk.
    HeapFails = 4,
    /// The size, or the product of a cleared allocate, is 0 or over 65,488.
    BlockSize = 5,
    /// The block is not live: a double free, or a place that was never granted.
    NotLive = 6,
    /// No chunk of the whole heap can serve the request.
    NoRoom = 7,
    /// There is no such chunk, live block, bin or question.
    NotThere = 8,
    /// Patrol: a run of no chunks.
    RunSize = 10,
    /// Patrol: a forward link is broken, and the backward links do not lead from the end to it.
    BeyondMending = 12,
}

impl Refusal {
    const ALL: [Refusal; 10] = [
        Refusal::RegionLength,
        Refusal::BadTable,
        Refusal::DonorSize,
        Refusal::HeapFails,
        Refusal::BlockSize,
        Refusal::NotLive,
        Refusal::NoRoom,
        Refusal::NotThere,
        Refusal::RunSize,
        Refusal::BeyondMending,
    ];

    /// The refusal's number.
    pub const fn number(self) -> u32 {
        self as u32
    }

    /// The refusal with this number; `None` for 0 (accepted) and for any other number. 9 is one of those: it had a name
    /// in earlier releases, and no call ever gave it.
    ///
    /// ```
    /// use kruzhvela::Refusal;
    /// assert_eq!(Refusal::of(7), Some(Refusal::NoRoom));
    /// assert_eq!(Refusal::of(0), None);
    /// assert_eq!(Refusal::of(9), None);
    /// ```
    pub fn of(number: u32) -> Option<Refusal> {
        Refusal::ALL.into_iter().find(|refusal| refusal.number() == number)
    }
}

impl fmt::Display for Refusal {
    fn fmt(&self, f: &mut fmt::Formatter<'_>) -> fmt::Result {
        f.write_str(match self {
            Refusal::RegionLength => "the region has too few or too many words",
            Refusal::BadTable => "the bin table is not valid",
            Refusal::DonorSize => "the donor's size is not permitted",
            Refusal::HeapFails => "the heap fails the check",
            Refusal::BlockSize => "the block's size is not permitted",
            Refusal::NotLive => "the block is not live",
            Refusal::NoRoom => "no chunk can serve the request",
            Refusal::NotThere => "there is no such chunk, block, bin or question",
            Refusal::RunSize => "a run of the patrol has no chunks",
            Refusal::BeyondMending => "a broken link is beyond mending",
        })
    }
}

impl Error for Refusal {}
