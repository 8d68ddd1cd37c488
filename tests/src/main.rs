//! comparison [SEED]: the proved archive beside a plain implementation of document 01, on generated
//! inputs, good and damaged. The same seed makes the same inputs.

mod compare;
mod encode;
mod generate;
mod plain;
mod random;
mod sections;

use compare::Compare;
use random::Random;
use std::time::Instant;

fn main() {
    let base: u64 = match std::env::args().nth(1) {
        Some(seed) => seed.parse().expect("the seed is a number"),
        None => 1,
    };
    let began = Instant::now();
    let mut compare = Compare::default();
    for (index, &(section, run)) in sections::ALL.iter().enumerate() {
        let (seed, before) = (base + index as u64, compare.inputs);
        (compare.section, compare.seed) = (section, seed);
        run(&mut compare, &mut Random::new(seed));
        let inputs = compare.inputs - before;
        println!("comparison: {section}: seed {seed}, {inputs} inputs");
    }
    compare.all_met();
    let (inputs, calls) = (compare.inputs, compare.calls);
    let seconds = began.elapsed().as_secs();
    println!("comparison: {inputs} inputs alike, {calls} calls, {seconds} s");
}
