//! Times both hubs through the same script play.

use std::time::{Duration, Instant};

use crate::cases::Case;
use crate::scripts::Script;
use crate::side::{PLAIN, PROVED, Side};

/// The best of so many repetitions counts.
const REPETITIONS: usize = 400;
/// A repetition of one script takes the plain side about as long as this.
const REPETITION: Duration = Duration::from_micros(700);

/// The nanoseconds of one measured call of a case, on each side.
pub fn time(case: &Case) -> [f64; 2] {
    let (full, base) = (best_times(&case.full), best_times(&case.base));
    [0, 1].map(|side| (full[side] - base[side]) / f64::from(case.measured_in_a_play()))
}

/// The nanoseconds of one play of a script, opening included, on each side: the best of several repetitions, in which
/// the sides take turns.
fn best_times(script: &Script) -> [f64; 2] {
    let mut out = vec![0; script.room];
    let plays = plays_for(script, &mut out);
    let mut best = [f64::INFINITY; 2];
    for _ in 0..REPETITIONS {
        for (best, side) in best.iter_mut().zip([PLAIN, PROVED]) {
            let nanoseconds = repetition(&side, script, plays, &mut out).as_nanos() as f64 / f64::from(plays);
            *best = best.min(nanoseconds);
        }
    }
    best
}

/// How many plays make a repetition.
fn plays_for(script: &Script, out: &mut [u8]) -> u32 {
    let mut plays = 1;
    while repetition(&PLAIN, script, plays, out) < REPETITION {
        plays *= 2;
    }
    plays
}

fn repetition(side: &Side, script: &Script, plays: u32, out: &mut [u8]) -> Duration {
    let start = Instant::now();
    for _ in 0..plays {
        std::hint::black_box(side.play(script, out));
    }
    start.elapsed()
}
