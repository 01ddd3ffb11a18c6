//! The least time of several runs, both sides in turn.

use std::hint::black_box;
use std::time::Instant;

/// A run has as many calls as take this long, so that the clock's grain does not count, and no more, so that some runs are left alone by other programs.
const LEAST_NANOSECONDS: u128 = 100_000;
/// Runs of both sides go on for this long.
const TOGETHER_NANOSECONDS: u128 = 600_000_000;

fn time<T>(calls: u64, call: &mut impl FnMut() -> T) -> u128 {
    let start = Instant::now();
    for _ in 0..calls {
        black_box(call());
    }
    start.elapsed().as_nanos()
}

/// How many calls make a run that is long enough.
fn calls_for<T>(call: &mut impl FnMut() -> T) -> u64 {
    let mut calls = 1;
    while time(calls, call) < LEAST_NANOSECONDS {
        calls *= 2;
    }
    calls
}

/// Nanoseconds a call of each side: the least of three to 500 runs.
fn both<A, B>(ours: &mut impl FnMut() -> A, rust: &mut impl FnMut() -> B) -> (f64, f64) {
    let (our_calls, rust_calls) = (calls_for(ours), calls_for(rust));
    let start = Instant::now();
    let (mut our_least, mut rust_least) = (u128::MAX, u128::MAX);
    for run in 0..500 {
        if run >= 3 && start.elapsed().as_nanos() > TOGETHER_NANOSECONDS {
            break;
        }
        our_least = our_least.min(time(our_calls, ours));
        rust_least = rust_least.min(time(rust_calls, rust));
    }
    (our_least as f64 / our_calls as f64, rust_least as f64 / rust_calls as f64)
}

pub fn line<A, B>(case: &str, mut ours: impl FnMut() -> A, mut rust: impl FnMut() -> B) {
    let (ours, rust) = both(&mut ours, &mut rust);
    println!("{case}\t{ours:.1}\t{rust:.1}\t{:.3}", ours / rust);
}

/// A call that strided-rs does not have.
pub fn line_alone<A>(case: &str, mut ours: impl FnMut() -> A) {
    let (ours, _) = both(&mut ours, &mut || std::thread::sleep(std::time::Duration::from_millis(1)));
    println!("{case}\t{ours:.1}\t-\t-");
}
