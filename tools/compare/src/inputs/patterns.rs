//! Patterns of floats of either width, and classes of them.

use crate::call::Word;
use crate::{Domain, Rng};

/// The pattern of positive infinity; shifted down, it is the greatest exponent field.
pub fn infinity<W: Word>() -> u64 {
    sign::<W>() - (1 << W::STORED)
}

/// The sign bit.
pub fn sign<W: Word>() -> u64 {
    1 << (W::BITS - 1)
}

pub fn quiet_nan<W: Word>() -> u64 {
    infinity::<W>() | 1 << (W::STORED - 1)
}

/// The exponent field of numbers from 1 to 2.
pub fn bias<W: Word>() -> i64 {
    (infinity::<W>() >> (W::STORED + 1)) as i64
}

/// The pattern of 1.
pub fn one<W: Word>() -> u64 {
    (bias::<W>() as u64) << W::STORED
}

/// A pattern with a random significand, and the exponent field given.
pub fn at_exponent<W: Word>(field: i64, rng: &mut Rng) -> u64 {
    (field as u64) << W::STORED | rng.bits(W::STORED)
}

/// A random subnormal whose leading one is the given bit.
pub fn at_scale(top: u32, rng: &mut Rng) -> u64 {
    1 << top | rng.bits(top)
}

/// A random number from 2^-8 to 2^9.
pub fn moderate<W: Word>(rng: &mut Rng) -> u64 {
    at_exponent::<W>(bias::<W>() + rng.within(-8, 8), rng)
}

/// A pattern and its neighbours up to a distance.
pub fn around<W: Word>(pattern: u64, distance: i64, out: &mut Vec<W>) {
    for d in -distance..=distance {
        out.push(W::of(pattern.wrapping_add(d as u64)));
    }
}

/// The lowest bit of the upper 32 bits.
pub fn upper_step<W: Word>() -> u64 {
    1 << (W::BITS - 32)
}

/// The patterns of the cuts.
pub fn cuts<W: Word>(domain: Domain) -> Vec<u64> {
    let pattern = |&upper| u64::from(upper) * upper_step::<W>();
    W::CUTS.of(domain).iter().map(pattern).collect()
}

/// The patterns on both sides of a cut, nearest to it and at the far ends of their upper 32 bits. A
/// narrow pattern has no bits below these, so that some are the same.
pub fn beside<W: Word>(cut: u64) -> [u64; 5] {
    let step = upper_step::<W>();
    [cut - step, cut - 1, cut, cut + 1, cut + step - 1]
}

/// Patterns that are treated by themselves somewhere, without their negatives: 0, the least and the
/// greatest subnormal, the least normal, a half, 1, 2, the greatest number, infinity, NaNs.
fn special<W: Word>() -> [u64; 11] {
    let (one, inf) = (one::<W>(), infinity::<W>());
    let step = 1 << W::STORED;
    [
        0,
        1,
        step - 1,
        step,
        one - step,
        one,
        one + step,
        inf - 1,
        inf,
        quiet_nan::<W>(),
        inf | (step - 1),
    ]
}

/// These with both signs, and their neighbours up to a distance.
pub fn special_and_neighbours<W: Word>(distance: i64) -> Vec<W> {
    let mut list = Vec::new();
    for pattern in special::<W>() {
        around(pattern, distance, &mut list);
        around(pattern | sign::<W>(), distance, &mut list);
    }
    list.sort();
    list.dedup();
    list
}

pub fn specials<W: Word>(_: u64, _: &mut Rng, out: &mut Vec<W>) {
    out.extend(special_and_neighbours::<W>(3));
}

/// Beside each of the cuts, with both signs.
pub fn beside_cuts<W: Word>(domain: Domain) -> impl Fn(u64, &mut Rng, &mut Vec<W>) {
    move |_, _, out| {
        for pattern in cuts::<W>(domain).into_iter().flat_map(beside::<W>) {
            out.extend([pattern, pattern | sign::<W>()].map(W::of));
        }
        out.sort();
        out.dedup();
    }
}

/// Every pattern of 32 bits, in 2^16 blocks.
pub fn every(block: u64, _: &mut Rng, out: &mut Vec<u32>) {
    let first = (block as u32) << 16;
    out.extend(first..=first | 0xffff);
}

pub fn uniform<W: Word>(_: u64, rng: &mut Rng, out: &mut Vec<W>) {
    out.extend((0..1 << 16).map(|_| W::of(rng.next())));
}

/// The number of normal exponents, each a block of `exponent`.
pub fn exponents<W: Word>() -> u64 {
    2 * bias::<W>() as u64
}

pub fn exponent<W: Word>(block: u64, rng: &mut Rng, out: &mut Vec<W>) {
    out.extend((0..1 << 15).map(|_| W::of(at_exponent::<W>(block as i64 + 1, rng))));
}

/// The subnormals with the block's leading one: all where there are not too many.
pub fn scale<W: Word>(block: u64, rng: &mut Rng, out: &mut Vec<W>) {
    if block <= 20 {
        out.extend((1 << block..2 << block).map(W::of));
    } else {
        out.extend((0..1 << 20).map(|_| W::of(at_scale(block as u32, rng))));
    }
}
