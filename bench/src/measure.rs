//! Medians of two sides that take turns.

use std::time::Instant;

const ROUNDS: usize = 201;

/// Prints the median time of a call of each side, and their ratio.
pub fn compare(what: &str, calls: usize, mut product: impl FnMut(), mut peer: impl FnMut()) {
    let (mut ours, mut theirs) = (Vec::new(), Vec::new());
    for _ in 0..ROUNDS {
        ours.push(time(calls, &mut product));
        theirs.push(time(calls, &mut peer));
    }
    let (a, b) = (median(ours), median(theirs));
    println!("{:<44} {:>9.2} us {:>9.2} us {:>7.2}", what, a * 1e6, b * 1e6, a / b);
}

pub fn time(calls: usize, call: &mut impl FnMut()) -> f64 {
    let start = Instant::now();
    for _ in 0..calls {
        call();
    }
    start.elapsed().as_secs_f64() / calls as f64
}

pub fn median(mut times: Vec<f64>) -> f64 {
    times.sort_by(f64::total_cmp);
    times[times.len() / 2]
}

/// The least time of three calls, and what the last gave.
pub fn once<T>(mut call: impl FnMut() -> T) -> (f64, T) {
    let mut least = f64::MAX;
    loop {
        let start = Instant::now();
        let got = call();
        let took = start.elapsed().as_secs_f64();
        if took >= least || took > 0.2 {
            return (least.min(took), got);
        }
        least = took;
    }
}
