// The ten calls with their arguments.

#[derive(Clone, Debug, PartialEq, Eq)]
pub enum Call {
    Setup { table: Vec<u32>, donor: u32, merge: bool },
    Allocate { z: u32 },
    AllocateCleared { count: u32, size: u32 },
    Free { block: u32 },
    Reallocate { block: u32, z: u32 },
    SetMerge { on: bool },
    Check,
    AskChunk { question: u32, place: u32 },
    AskBin { question: u32, bin: u32 },
    Patrol { chunks: u32 },
}
