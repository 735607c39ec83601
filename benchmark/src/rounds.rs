//! Rounds of several works, of which the quickest counts.
//!
//! A round runs every work, so that what slows the machine slows them alike.

use std::time::Instant;

const ROUNDS: usize = 61;

/// How long a work runs in a round, in seconds: it is repeated until it takes
/// about this long.
const ROUND_TIME: f64 = 0.005;

/// Nanoseconds of each work once, in its quickest round.
pub fn quickest<const WORKS: usize>(works: [&mut dyn FnMut(); WORKS]) -> [f64; WORKS] {
    let mut works = works.map(|work| (repetitions(work), work));
    let mut least = [f64::MAX; WORKS];
    for _ in 0..ROUNDS {
        for ((times, work), least) in works.iter_mut().zip(&mut least) {
            *least = least.min(seconds(*times, work) / f64::from(*times));
        }
    }
    least.map(|seconds| seconds * 1e9)
}

fn repetitions(work: &mut dyn FnMut()) -> u32 {
    let once = (0..3).map(|_| seconds(1, work)).fold(f64::MAX, f64::min);
    (ROUND_TIME / once).ceil() as u32
}

fn seconds(times: u32, work: &mut dyn FnMut()) -> f64 {
    let start = Instant::now();
    for _ in 0..times {
        work();
    }
    start.elapsed().as_secs_f64()
}
