//! Medians of times.

use std::time::Instant;

/// A median, in nanoseconds.
fn median(mut times: Vec<f64>) -> f64 {
    times.sort_by(f64::total_cmp);
    times[times.len() / 2]
}

/// The time of some work, in nanoseconds; what it makes is dropped afterwards. One run of a side, for `in_turn`.
pub fn time<T>(work: impl FnOnce() -> T) -> f64 {
    let began = Instant::now();
    let made = std::hint::black_box(work());
    let taken = began.elapsed().as_nanos() as f64;
    drop(made);
    taken
}

/// Times of two sides that run in turn; the first run of each is not counted.
pub fn in_turn(
    runs: usize,
    mut ours: impl FnMut() -> f64,
    mut theirs: impl FnMut() -> f64,
) -> (f64, f64) {
    ours();
    theirs();
    let (mut first, mut second) = (Vec::new(), Vec::new());
    for _ in 0..runs {
        first.push(ours());
        second.push(theirs());
    }
    (median(first), median(second))
}

/// The time of some work on what is prepared for it, untimed.
pub fn once<P, T>(prepare: impl FnOnce() -> P, work: impl FnOnce(P) -> T) -> f64 {
    let prepared = prepare();
    time(|| work(prepared))
}

/// The time of some work that is done so many times over: of one of them.
pub fn repeated<T>(times: usize, mut work: impl FnMut() -> T) -> f64 {
    let all = || (0..times).for_each(|_| drop(std::hint::black_box(work())));
    time(all) / times as f64
}

/// A time as a person reads it.
pub fn shown(nanoseconds: f64) -> String {
    match nanoseconds {
        ns if ns < 10_000.0 => format!("{ns:.0} ns"),
        ns if ns < 10_000_000.0 => format!("{:.1} us", ns / 1e3),
        ns => format!("{:.1} ms", ns / 1e6),
    }
}
