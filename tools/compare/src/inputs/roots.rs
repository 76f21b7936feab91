//! What sqrt is compared on.

use crate::call::Word;
use crate::patterns::{around, exponent, exponents, infinity, scale, specials, uniform};
use crate::{Class, Rng};

/// Classes for a root of either width.
pub fn common<W: Word>() -> Vec<Class<W>> {
    vec![
        Class::new("specials", 1, specials),
        Class::new("uniform patterns", 1000, uniform),
        Class::new("every normal exponent", exponents::<W>(), exponent),
        Class::new("every subnormal scale", W::STORED.into(), scale),
    ]
}

pub fn wide() -> Vec<Class<u64>> {
    let mut classes = common();
    classes.extend([
        Class::new("squares of whole numbers", 256, whole_squares),
        Class::new("squares of floats", 512, float_squares),
        Class::new("near halfway", 512, near_halfway),
        Class::new("nearest to halfway", 1024, nearest_halfway),
        Class::new("table cell edges", 2046 + 52, cell_edges),
    ]);
    classes
}

/// The pattern of the float nearest to `s * 2^e`, ties to even.
fn nearest(s: u128, e: i64) -> u64 {
    if s == 0 {
        return 0;
    }
    let digits = 128 - i64::from(s.leading_zeros());
    let exponent = digits - 1 + e;
    if exponent > 1023 {
        return infinity::<u64>();
    }
    let normal = exponent >= -1022;
    let dropped = if normal { digits - 53 } else { -1074 - e };
    let kept = if dropped <= 0 {
        (s << -dropped) as u64
    } else if dropped > digits {
        0
    } else {
        let floor = if dropped == 128 {
            0
        } else {
            (s >> dropped) as u64
        };
        let half = 1u128 << (dropped - 1);
        let rest = s & (half | (half - 1));
        floor + u64::from(rest > half || rest == half && floor & 1 == 1)
    };
    // The leading one of a normal number adds one to the exponent field.
    if normal {
        (((exponent + 1022) as u64) << 52) + kept
    } else {
        kept
    }
}

/// Squares below 2^53 times powers of 4, and their neighbours.
fn whole_squares(_: u64, rng: &mut Rng, out: &mut Vec<u64>) {
    for _ in 0..1 << 14 {
        let n = rng.within(1, 94_906_265) as u128;
        around(nearest(n * n, 2 * rng.within(-537, 485)), 2, out);
    }
}

/// Squares of floats, and their neighbours: half of the floats are short, with exact squares.
fn float_squares(_: u64, rng: &mut Rng, out: &mut Vec<u64>) {
    for _ in 0..1 << 13 {
        let short = u128::from(1 << 25 | rng.bits(25)) << 27;
        let long = u128::from(1 << 52 | rng.bits(52));
        for m in [short, long] {
            around(nearest(m * m, 2 * rng.within(-589, 459)), 2, out);
        }
    }
}

/// Numbers near the square of a number that is halfway between two floats.
fn near_halfway(_: u64, rng: &mut Rng, out: &mut Vec<u64>) {
    for _ in 0..1 << 14 {
        let t = u128::from(1 << 53 | rng.bits(52) << 1 | 1);
        around(nearest(t * t, 2 * rng.within(-590, 458)), 2, out);
    }
}

/// The floats whose roots are nearest to halfway. With t = 2m + 1, halfway between floats m and
/// m + 1, such a float is t² - c times a power of 4 where c is small; t² - c is a float if 2^54 or
/// 2^55 divides it, as t² has 107 or 108 digits.
fn nearest_halfway(block: u64, rng: &mut Rng, out: &mut Vec<u64>) {
    for i in 0..1 << 12 {
        // c is 1, -7, 9, -15, 17, ..: an odd square is 1 modulo 8.
        let i = block << 12 | i;
        let c = if i & 1 == 0 {
            4 * i as i64 + 1
        } else {
            -4 * i as i64 - 3
        };
        let root = root_modulo_2_55(c);
        // Modulo 2^k the roots are ±root and ±root + 2^(k-1); of these, those that may have 54 digits.
        let a = root % (1 << 54);
        let b = root % (1 << 53);
        let modulo_2_55 = [a, (1 << 54) - a].map(|t| (t, 108));
        let modulo_2_54 = [(1 << 53) + b, (1 << 54) - b].map(|t| (t, 107));
        for (t, digits) in modulo_2_55.into_iter().chain(modulo_2_54) {
            let square = i128::from(t) * i128::from(t);
            if square >> (digits - 1) == 1 {
                let s = (square - i128::from(c)) as u128;
                out.push(nearest(s, 2 * rng.within(-564, 457)));
            }
        }
    }
}

/// An odd number whose square is `c` modulo 2^55, digit by digit; `c` is 1 modulo 8.
fn root_modulo_2_55(c: i64) -> u64 {
    let mut root = 1u64;
    for digit in 3..55 {
        let off = root.wrapping_mul(root).wrapping_sub(c as u64);
        root += (off >> digit & 1) << (digit - 1);
    }
    root
}

/// The first and last patterns of each cell of the estimate table, which the lowest bit of the
/// exponent and six bits of the significand choose, at each exponent and subnormal scale.
fn cell_edges(block: u64, _: &mut Rng, out: &mut Vec<u64>) {
    for cell in 0..64 {
        let (first, size) = if block < 2046 {
            ((block + 1) << 52 | cell << 46, 1 << 46)
        } else {
            let scale = block - 2046;
            ((64 | cell) << scale >> 6, 1 << scale >> 6)
        };
        around(first, 3, out);
        around(first + size - u64::from(size > 0), 3, out);
    }
    out.sort();
    out.dedup();
}
