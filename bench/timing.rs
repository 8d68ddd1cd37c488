//! Timing of functions against each other, shared by the benchmarks here.

use std::time::Instant;

// Times are in nanoseconds. A round is short, so that on a machine with other work some are undisturbed.
const ROUND: f64 = 0.5e6;
/// For all rounds of one function.
const ALL_ROUNDS: f64 = 300e6;
const FEWEST_ROUNDS: usize = 15;
/// A function that takes longer is called once: its warm-up counts.
const LONG: f64 = 1e9;

/// The best time of one call of `f` and of one call of `g`, in nanoseconds.
#[allow(dead_code)] // Not every benchmark has two functions.
pub fn compare(f: impl FnMut(), g: impl FnMut()) -> (f64, f64) {
    let best = compare_all(&mut [calls(f), calls(g)]);
    (best[0], best[1])
}

/// A function, as the time of one of so many calls of it.
pub type Calls<'a> = Box<dyn FnMut(u64) -> f64 + 'a>;

/// The closure must pass what it reads and what it gives through `std::hint::black_box`.
pub fn calls<'a>(mut f: impl FnMut() + 'a) -> Calls<'a> {
    Box::new(move |n| per_call(&mut f, n))
}

/// The best time of one call of each function, in nanoseconds.
///
/// The rounds of all alternate, so that a change in the machine's speed meets each. The best round
/// counts, since other work on the machine only ever makes a round slower.
pub fn compare_all(functions: &mut [Calls]) -> Vec<f64> {
    let measured: Vec<_> = functions.iter_mut().map(calibrate).collect();
    let mut best: Vec<_> = measured.iter().map(|&(_, took)| took).collect();
    let longest = measured.iter().map(|&(n, took)| took * n as f64);
    let rounds = (ALL_ROUNDS / longest.fold(ROUND, f64::max)) as usize;
    for round in 0..rounds.max(FEWEST_ROUNDS) {
        for i in 0..functions.len() {
            // None is always the first, in case a round leaves something behind for the next.
            let i = (i + round) % functions.len();
            if best[i] < LONG {
                best[i] = best[i].min(functions[i](measured[i].0));
            }
        }
    }
    best
}

/// How many calls take about one `ROUND`, and the time of one so far. This is the warm-up too.
fn calibrate(calls: &mut Calls) -> (u64, f64) {
    let mut n = 1;
    loop {
        let took = calls(n);
        // A shorter run says too little about how many calls fill a round.
        if took * n as f64 >= ROUND / 4.0 {
            return (((ROUND / took) as u64).max(1), took);
        }
        n *= 2;
    }
}

// Not inlined, so that the loop of each function does not depend on the code around it.
#[inline(never)]
fn per_call(f: &mut impl FnMut(), n: u64) -> f64 {
    let start = Instant::now();
    for _ in 0..n {
        f();
    }
    start.elapsed().as_secs_f64() * 1e9 / n as f64
}
