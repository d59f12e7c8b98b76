//! Times: medians of interleaved runs, so that other load on the machine affects all works alike.

use std::time::Instant;

/// How often each work is run and counted.
pub const ROUNDS: usize = 41;

/// A piece of work, which returns the number of operations it made.
pub type Work<'a> = Box<dyn FnMut() -> u64 + 'a>;

fn median(mut times: Vec<f64>) -> f64 {
    times.sort_by(f64::total_cmp);
    times[times.len() / 2]
}

/// Nanoseconds of an operation of each work. The first round warms the caches and is not counted.
pub fn interleaved(mut works: Vec<Work<'_>>) -> Vec<f64> {
    let mut times = vec![Vec::new(); works.len()];
    for round in 0..=ROUNDS {
        for (work, times) in works.iter_mut().zip(&mut times) {
            let began = Instant::now();
            let operations = work();
            let time = began.elapsed().as_secs_f64() * 1e9 / operations as f64;
            if round > 0 {
                times.push(time);
            }
        }
    }
    times.into_iter().map(median).collect()
}
