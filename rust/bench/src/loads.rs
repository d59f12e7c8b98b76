//! Loads like a capture station's: strips of a few sizes, most short-lived, some long-lived.

/// Random numbers, the same in every run.
pub struct Random(pub u64);

impl Random {
    /// A number below `end`, which is not 0.
    pub fn below(&mut self, end: usize) -> usize {
        self.0 = self.0.wrapping_mul(6_364_136_223_846_793_005).wrapping_add(1_442_695_040_888_963_407);
        (self.0 >> 33) as usize % end
    }
}

/// A step: the strip in a slot is freed and one of so many bytes allocated in its place, or it is resized.
#[derive(Clone, Copy)]
pub struct Step {
    pub slot: usize,
    pub bytes: u32,
}

pub struct Load {
    /// The bytes of each slot's first strip.
    pub first: Vec<u32>,
    pub steps: Vec<Step>,
}

/// Strip sizes such that so many strips fit into 65,536 bytes, with room to spare, in every allocator measured.
pub fn sizes(live: usize) -> &'static [u32] {
    match live {
        0..=20 => &[96, 240, 480, 960, 1_920],
        21..=200 => &[24, 48, 96, 160, 240],
        _ => &[8, 12, 16],
    }
}

/// Four of five steps take a slot of the last fifth, so its strips are short-lived. The others take any slot.
pub fn load(live: usize, steps: usize) -> Load {
    let mut random = Random(live as u64 + 1);
    let sizes = sizes(live);
    let first = (0..live).map(|_| sizes[random.below(sizes.len())]).collect();
    let young = (live / 5).max(1);
    let steps = (0..steps).map(|_| {
        let slot = if random.below(5) < 4 { live - 1 - random.below(young) } else { random.below(live) };
        Step { slot, bytes: sizes[random.below(sizes.len())] }
    });
    Load { first, steps: steps.collect() }
}
