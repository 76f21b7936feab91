//! The time of a call.

use crate::subject::Function;
use inputs::Rng;
use inputs::call::{Call, Input, Word};
use std::hint::black_box;
use std::time::Instant;

/// So many that no processor learns the branches of the whole list by heart.
const INPUTS: usize = 1 << 16;
/// How often each side is timed.
const ROUNDS: usize = 500;

/// Nanoseconds for each call, and the sum of the answers. The function stays a pointer that the
/// compiler cannot see through.
#[inline(never)]
fn time<C: Call>(function: C, inputs: &[C::Input]) -> (f64, u64) {
    let function = black_box(function);
    let mut sum = 0u64;
    let start = Instant::now();
    for &input in inputs {
        sum = sum.wrapping_add(function.call(input).bits());
    }
    let elapsed = start.elapsed();
    (elapsed.as_nanos() as f64 / inputs.len() as f64, sum)
}

pub fn run<F: Call, S: Call<Word = F::Word, Input = F::Input>>(function: &Function<F, S>) -> bool {
    let mut same = true;
    for subnormal in [false, true] {
        let kind = if subnormal { "subnormal" } else { "normal" };
        let mut rng = Rng::of(kind, 0);
        let inputs: Vec<F::Input> = (0..INPUTS)
            .map(|_| F::Input::sample(function.domain, subnormal, &mut rng))
            .collect();
        // The sides take turns, each first as often as the other; the best timing of each counts.
        let (mut ours, mut libm) = (f64::INFINITY, f64::INFINITY);
        let mut sums = (0, 0);
        for round in 0..2 * ROUNDS {
            if round % 4 == 0 || round % 4 == 3 {
                let (ns, sum) = time(function.ours, &inputs);
                ours = ours.min(ns);
                sums.0 = sum;
            } else {
                let (ns, sum) = time(function.libm, &inputs);
                libm = libm.min(ns);
                sums.1 = sum;
            }
        }
        let (name, ratio) = (function.name, ours / libm);
        println!("{name}, {kind}: ours {ours:.2} ns, libm {libm:.2} ns, ratio {ratio:.2}");
        if sums.0 != sums.1 {
            println!("{name}, {kind}: the answers differ");
            same = false;
        }
    }
    same
}
