//! Comparison on classes of inputs.

use crate::subject::Function;
use inputs::Class;
use inputs::call::{Call, Input, Word};
use std::sync::Mutex;
use std::sync::atomic::{AtomicU64, Ordering};
use std::time::Instant;

/// How many differences are shown.
const SHOWN: usize = 10;

/// A difference, and where it stands in its class.
struct Difference {
    place: (u64, usize),
    text: String,
}

/// The outcome of a class, or of some blocks of it.
#[derive(Default)]
struct Outcome {
    compared: u64,
    differences: u64,
    first: Vec<Difference>,
}

impl Outcome {
    fn join(&mut self, other: Outcome) {
        self.compared += other.compared;
        self.differences += other.differences;
        self.first.extend(other.first);
        self.first.sort_by_key(|d| d.place);
        self.first.truncate(SHOWN);
    }
}

/// Compares on one block. Inputs come in the order of their places.
fn block<F: Call, S: Call<Word = F::Word, Input = F::Input>>(
    function: &Function<F, S>,
    number: u64,
    inputs: &[F::Input],
    outcome: &mut Outcome,
) {
    outcome.compared += inputs.len() as u64;
    for (at, &input) in inputs.iter().enumerate() {
        let ours = function.ours.call(input);
        let libm = function.libm.call(input);
        if ours != libm && !(ours.is_nan() && libm.is_nan()) {
            outcome.differences += 1;
            if outcome.first.len() < SHOWN {
                let (name, input) = (function.name, input.show());
                let text = format!("{name} {input}: ours {}, libm {}", ours.hex(), libm.hex());
                outcome.first.push(Difference {
                    place: (number, at),
                    text,
                });
            }
        }
    }
}

/// Compares on one class. A thread takes the next block, so that it meets its blocks in order, and
/// the first differences of all are among the first of each.
fn class<F: Call, S: Call<Word = F::Word, Input = F::Input>>(
    function: &Function<F, S>,
    class: &Class<F::Input>,
    threads: usize,
) -> Outcome {
    let next = AtomicU64::new(0);
    let total = Mutex::new(Outcome::default());
    std::thread::scope(|scope| {
        for _ in 0..threads {
            scope.spawn(|| {
                let mut outcome = Outcome::default();
                loop {
                    let number = next.fetch_add(1, Ordering::Relaxed);
                    if number >= class.blocks {
                        break;
                    }
                    block(function, number, &class.block(number), &mut outcome);
                }
                total.lock().unwrap().join(outcome);
            });
        }
    });
    total.into_inner().unwrap()
}

pub fn run<F: Call, S: Call<Word = F::Word, Input = F::Input>>(
    function: &Function<F, S>,
    threads: usize,
) -> bool {
    let start = Instant::now();
    let name = function.name;
    let mut compared = 0;
    let mut differences = 0;
    let mut first = Vec::new();
    for c in F::Input::classes(function.domain) {
        let outcome = class(function, &c, threads);
        println!(
            "  {name}, {}: {} compared, {} differ",
            c.name, outcome.compared, outcome.differences
        );
        compared += outcome.compared;
        differences += outcome.differences;
        first.extend(outcome.first);
    }
    for difference in first.iter().take(SHOWN) {
        println!("  {}", difference.text);
    }
    let seconds = start.elapsed().as_secs_f64();
    println!("{name}: {compared} compared, {differences} differences, {seconds:.1} s");
    differences == 0
}
