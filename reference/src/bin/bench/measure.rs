//! Runs and their medians.

use crate::clock::own_time;
use std::time::Duration;

/// A run of one side: it prepares its buffers and gives the time of the rest.
pub type Side<'a> = Box<dyn FnMut() -> Duration + 'a>;

/// Runs of each side that count.
const RUNS: usize = 9;

/// The medians of the sides in seconds. They run in turn, so that a slow
/// moment of the machine meets all of them; the first round does not count.
pub fn medians<const SIDES: usize>(mut sides: [Side; SIDES]) -> [f64; SIDES] {
    let mut times: [Vec<Duration>; SIDES] = std::array::from_fn(|_| Vec::new());
    for round in 0..=RUNS {
        for (side, times) in sides.iter_mut().zip(&mut times) {
            let time = side();
            if round > 0 {
                times.push(time);
            }
        }
    }
    times.map(median)
}

fn median(mut times: Vec<Duration>) -> f64 {
    times.sort_unstable();
    times[times.len() / 2].as_secs_f64()
}

/// The time of one call.
pub fn timed<A>(call: impl FnOnce() -> A) -> (A, Duration) {
    let start = own_time();
    let answer = call();
    (answer, own_time() - start)
}

/// The mean time of a call that may be repeated as it is, over enough calls
/// to be told from the clock's own steps.
pub fn repeated<A>(mut call: impl FnMut() -> A) -> Duration {
    const ENOUGH: Duration = Duration::from_millis(2);
    let mut calls = 1;
    loop {
        let start = own_time();
        for _ in 0..calls {
            call();
        }
        let elapsed = own_time() - start;
        if elapsed >= ENOUGH {
            return elapsed / calls;
        }
        calls *= 2;
    }
}
