//! What asin, acos and atan are compared on.

use crate::call::{Float, Word};
use crate::patterns::{
    at_exponent, beside_cuts, cuts, exponent, exponents, one, scale, specials, uniform,
};
use crate::{Class, Domain, Rng};

pub fn classes<W: Word>(domain: Domain) -> Vec<Class<W>> {
    vec![
        Class::new("specials", 1, specials),
        Class::new("beside cuts", 1, beside_cuts(domain)),
        Class::new("uniform patterns", 1000, uniform),
        Class::new("every normal exponent", exponents::<W>(), signed(exponent)),
        Class::new("every subnormal scale", W::STORED.into(), signed(scale)),
        Class::new("evenly from -1 to 1", 512, signed(even)),
        Class::new("around 1 and -1", 512, signed(around_one)),
        Class::new("exponents among cuts", 512, signed(among_cuts(domain))),
        Class::new("around cuts", 512, signed(around_cuts(domain))),
    ]
}

/// With random signs.
fn signed<W: Word>(
    fill: impl Fn(u64, &mut Rng, &mut Vec<W>),
) -> impl Fn(u64, &mut Rng, &mut Vec<W>) {
    move |block, rng, out| {
        fill(block, rng, out);
        for pattern in out {
            *pattern = W::of(pattern.bits() | rng.sign::<W>());
        }
    }
}

fn even<W: Word>(_: u64, rng: &mut Rng, out: &mut Vec<W>) {
    out.extend((0..1 << 16).map(|_| {
        let number = rng.bits(63) as f64 / (1u64 << 63) as f64;
        W::Float::nearest(number).pattern()
    }));
}

fn around_one<W: Word>(_: u64, rng: &mut Rng, out: &mut Vec<W>) {
    for _ in 0..1 << 15 {
        out.push(W::of(one::<W>() - rng.any_size(W::STORED)));
        out.push(W::of(one::<W>() + rng.any_size(W::STORED)));
    }
}

/// Exponents from a little below the first cut of normal numbers to a little above the last: beyond
/// these an answer is the argument, a constant or no number.
fn among_cuts<W: Word>(domain: Domain) -> impl Fn(u64, &mut Rng, &mut Vec<W>) {
    let cuts = cuts::<W>(domain);
    let field = |cut: u64| (cut >> W::STORED) as i64;
    let (low, high) = (field(cuts[1]) - 8, field(cuts[cuts.len() - 1]) + 8);
    move |_, rng, out| {
        out.extend((0..1 << 16).map(|_| W::of(at_exponent::<W>(rng.within(low, high), rng))));
    }
}

fn around_cuts<W: Word>(domain: Domain) -> impl Fn(u64, &mut Rng, &mut Vec<W>) {
    let cuts = cuts::<W>(domain);
    move |_, rng, out| {
        for _ in 0..1 << 15 {
            let (cut, off) = (rng.pick(&cuts), rng.any_size(W::STORED * 3 / 4));
            out.extend([cut - off, cut + off].map(W::of));
        }
    }
}
