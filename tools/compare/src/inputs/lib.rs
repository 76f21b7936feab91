//! The functions, how to call them, and what they are asked. Everything is the same in each run.

pub mod call;
mod functions;
mod rng;

mod angles;
mod cuts;
mod pairs;
mod patterns;
mod roots;

pub use rng::Rng;

use call::{Float, Word};
use patterns::{at_exponent, at_scale, bias, moderate};

/// What a function is asked about, which decides its inputs.
#[derive(Clone, Copy, PartialEq)]
pub enum Domain {
    /// Numbers from zero on: square roots.
    Roots,
    /// Numbers from -1 to 1: asin, acos.
    Arcs,
    /// All numbers: atan.
    Tangents,
    /// Two numbers: atan2.
    Pairs,
}

/// Makes a block of inputs, given its number and a generator.
type Fill<I> = dyn Fn(u64, &mut Rng, &mut Vec<I>) + Sync;

/// Inputs of one kind, in blocks that can be made by themselves. A class of a single block is short.
pub struct Class<I> {
    pub name: &'static str,
    pub blocks: u64,
    fill: Box<Fill<I>>,
}

impl<I> Class<I> {
    fn new(
        name: &'static str,
        blocks: u64,
        fill: impl Fn(u64, &mut Rng, &mut Vec<I>) + Sync + 'static,
    ) -> Class<I> {
        Class {
            name,
            blocks,
            fill: Box::new(fill),
        }
    }

    /// The inputs of a block.
    pub fn block(&self, number: u64) -> Vec<I> {
        let mut inputs = Vec::new();
        (self.fill)(number, &mut Rng::of(self.name, number), &mut inputs);
        inputs
    }
}

/// A number to measure with.
fn sample<W: Word>(domain: Domain, subnormal: bool, rng: &mut Rng) -> W {
    let sign = match domain {
        Domain::Roots => 0,
        _ => rng.sign::<W>(),
    };
    let magnitude = match domain {
        _ if subnormal => at_scale(rng.within(0, i64::from(W::STORED) - 1) as u32, rng),
        Domain::Roots => at_exponent::<W>(rng.within(1, 2 * bias::<W>()), rng),
        Domain::Arcs => {
            let digits = W::STORED + 1;
            let below_one = rng.bits(digits) as f64 / (1u64 << digits) as f64;
            W::Float::nearest(below_one).pattern().bits()
        }
        Domain::Tangents | Domain::Pairs => moderate::<W>(rng),
    };
    W::of(sign | magnitude)
}
