//! Bit patterns, and calls of functions on them.

use crate::cuts::{self, Cuts};
use crate::{Class, Domain, Rng, angles, pairs, patterns, roots, sample};
use std::ops::Mul;

/// A float's bit pattern.
pub trait Word: Copy + Eq + Ord + Send + Sync + 'static {
    type Float: Float<Word = Self>;

    /// All bits, and those of the stored significand.
    const BITS: u32;
    const STORED: u32;
    const CUTS: Cuts;

    fn of(bits: u64) -> Self;
    fn bits(self) -> u64;

    /// What a function of one float is compared on.
    fn classes(domain: Domain) -> Vec<Class<Self>>;
    /// Classes for a square root.
    fn roots() -> Vec<Class<Self>>;

    fn is_nan(self) -> bool {
        self.bits() & !patterns::sign::<Self>() > patterns::infinity::<Self>()
    }

    /// The pattern itself, or for any NaN the same one.
    fn canonical(self) -> Self {
        if self.is_nan() {
            Self::of(patterns::quiet_nan::<Self>())
        } else {
            self
        }
    }

    /// All hexadecimal digits.
    fn hex(self) -> String {
        format!(
            "{:0digits$x}",
            self.bits(),
            digits = Self::BITS as usize / 4
        )
    }
}

impl Word for u32 {
    type Float = f32;
    const BITS: u32 = 32;
    const STORED: u32 = 23;
    const CUTS: Cuts = cuts::NARROW;

    fn of(bits: u64) -> u32 {
        bits as u32
    }
    fn bits(self) -> u64 {
        self.into()
    }
    fn classes(_: Domain) -> Vec<Class<u32>> {
        vec![Class::new("every pattern", 1 << 16, patterns::every)]
    }
    fn roots() -> Vec<Class<u32>> {
        roots::common()
    }
}

impl Word for u64 {
    type Float = f64;
    const BITS: u32 = 64;
    const STORED: u32 = 52;
    const CUTS: Cuts = cuts::WIDE;

    fn of(bits: u64) -> u64 {
        bits
    }
    fn bits(self) -> u64 {
        self
    }
    fn classes(domain: Domain) -> Vec<Class<u64>> {
        match domain {
            Domain::Roots => Self::roots(),
            _ => angles::classes(domain),
        }
    }
    fn roots() -> Vec<Class<u64>> {
        roots::wide()
    }
}

pub trait Float: Copy + Mul<Output = Self> + 'static {
    type Word: Word<Float = Self>;
    fn of(pattern: Self::Word) -> Self;
    fn pattern(self) -> Self::Word;
    fn nearest(number: f64) -> Self;
}

impl Float for f32 {
    type Word = u32;
    fn of(pattern: u32) -> f32 {
        f32::from_bits(pattern)
    }
    fn pattern(self) -> u32 {
        self.to_bits()
    }
    fn nearest(number: f64) -> f32 {
        number as f32
    }
}

impl Float for f64 {
    type Word = u64;
    fn of(pattern: u64) -> f64 {
        f64::from_bits(pattern)
    }
    fn pattern(self) -> u64 {
        self.to_bits()
    }
    fn nearest(number: f64) -> f64 {
        number
    }
}

/// A pointer to a function of one or two floats. A C function of ours takes and answers patterns,
/// a function of libm floats; either is one indirect call.
pub trait Call: Copy + Send + Sync + 'static {
    type Word: Word;
    type Input: Input;
    fn call(self, input: Self::Input) -> Self::Word;
}

impl<W: Word> Call for extern "C" fn(W) -> W {
    type Word = W;
    type Input = W;
    #[inline(always)]
    fn call(self, x: W) -> W {
        self(x)
    }
}

impl<W: Word> Call for extern "C" fn(W, W) -> W {
    type Word = W;
    type Input = (W, W);
    #[inline(always)]
    fn call(self, (y, x): (W, W)) -> W {
        self(y, x)
    }
}

impl<F: Float> Call for fn(F) -> F {
    type Word = F::Word;
    type Input = F::Word;
    #[inline(always)]
    fn call(self, x: F::Word) -> F::Word {
        self(F::of(x)).pattern()
    }
}

impl<F: Float> Call for fn(F, F) -> F {
    type Word = F::Word;
    type Input = (F::Word, F::Word);
    #[inline(always)]
    fn call(self, (y, x): (F::Word, F::Word)) -> F::Word {
        self(F::of(y), F::of(x)).pattern()
    }
}

/// What a function is called with.
pub trait Input: Copy + Ord + Send + 'static {
    fn show(self) -> String;
    /// What to compare on.
    fn classes(domain: Domain) -> Vec<Class<Self>>;
    /// What to list from.
    fn listed(domain: Domain) -> Vec<Class<Self>>;
    /// An input to measure with: of numbers that are all subnormal, or all normal.
    fn sample(domain: Domain, subnormal: bool, rng: &mut Rng) -> Self;
}

impl<W: Word> Input for W {
    fn show(self) -> String {
        self.hex()
    }
    fn classes(domain: Domain) -> Vec<Class<W>> {
        W::classes(domain)
    }
    fn listed(domain: Domain) -> Vec<Class<W>> {
        match domain {
            Domain::Roots => {
                let mut classes = W::roots();
                classes.push(Class::new("beside cuts", 1, patterns::beside_cuts(domain)));
                classes
            }
            _ => angles::classes(domain),
        }
    }
    fn sample(domain: Domain, subnormal: bool, rng: &mut Rng) -> W {
        sample(domain, subnormal, rng)
    }
}

impl<W: Word> Input for (W, W) {
    fn show(self) -> String {
        format!("{} {}", self.0.hex(), self.1.hex())
    }
    fn classes(_: Domain) -> Vec<Class<(W, W)>> {
        pairs::classes()
    }
    fn listed(domain: Domain) -> Vec<Class<(W, W)>> {
        Self::classes(domain)
    }
    fn sample(domain: Domain, subnormal: bool, rng: &mut Rng) -> (W, W) {
        let y = sample(domain, subnormal, rng);
        (y, sample(domain, subnormal, rng))
    }
}
