//! What atan2 is compared on.

use crate::call::{Float, Word};
use crate::patterns::{
    at_exponent, beside, bias, cuts, infinity, moderate, one, sign, special_and_neighbours,
    upper_step,
};
use crate::{Class, Domain, Rng};

pub fn classes<W: Word>() -> Vec<Class<(W, W)>> {
    // Narrow pairs are more than a thousand million in all.
    let times: u64 = if W::BITS == 32 { 5 } else { 1 };
    let class = |name, blocks: u64, fill: Fill<W>| Class::new(name, times * blocks, fill);
    vec![
        Class::new("specials", 1, special_pairs),
        Class::new("beside cuts", 1, beside_all_cuts),
        class("uniform patterns", 1000, uniform),
        class("one special", 256, one_special),
        class("nearby exponents", 1000, nearby),
        class("moderate exponents", 256, moderate_pairs),
        class("quotients out of range", 256, out_of_range),
        class("subnormals", 256, subnormals),
        class("exponents a cut apart", 1 << 17, far_apart),
        class("quotients around cuts", 1 << 17, quotients),
        class("x around 1 and -1", 1 << 15, around_one),
    ]
}

type Fill<W> = fn(u64, &mut Rng, &mut Vec<(W, W)>);

fn with_random_signs<W: Word>(y: u64, x: u64, rng: &mut Rng) -> (W, W) {
    (W::of(y | rng.sign::<W>()), W::of(x | rng.sign::<W>()))
}

fn with_all_signs<W: Word>(y: u64, x: u64) -> [(W, W); 4] {
    let sign = sign::<W>();
    let pairs = [(y, x), (y, x | sign), (y | sign, x), (y | sign, x | sign)];
    pairs.map(|(y, x)| (W::of(y), W::of(x)))
}

fn special_pairs<W: Word>(_: u64, _: &mut Rng, out: &mut Vec<(W, W)>) {
    let list = special_and_neighbours(1);
    for &y in &list {
        out.extend(list.iter().map(|&x| (y, x)));
    }
}

/// A block of each kind of cut.
fn beside_all_cuts<W: Word>(block: u64, rng: &mut Rng, out: &mut Vec<(W, W)>) {
    far_apart(block, rng, out);
    quotients(block, rng, out);
    around_one(block, rng, out);
}

fn uniform<W: Word>(_: u64, rng: &mut Rng, out: &mut Vec<(W, W)>) {
    out.extend((0..1 << 16).map(|_| (W::of(rng.next()), W::of(rng.next()))));
}

fn one_special<W: Word>(_: u64, rng: &mut Rng, out: &mut Vec<(W, W)>) {
    let list = special_and_neighbours(3);
    for _ in 0..1 << 15 {
        let (a, b) = (rng.pick(&list), W::of(rng.next()));
        out.extend([(a, b), (b, a)]);
    }
}

/// Two numbers: the exponent of y is that of x and the difference.
fn apart<W: Word>(difference: i64, rng: &mut Rng) -> (W, W) {
    let top = 2 * bias::<W>();
    let x = rng.within(0.max(-difference), top.min(top - difference));
    let y = at_exponent::<W>(x + difference, rng);
    with_random_signs(y, at_exponent::<W>(x, rng), rng)
}

/// Exponents that differ by so little that libm divides, or by a little more.
fn nearby<W: Word>(_: u64, rng: &mut Rng, out: &mut Vec<(W, W)>) {
    let most = W::CUTS.far + 8;
    out.extend((0..1 << 16).map(|_| apart(rng.within(-most, most), rng)));
}

fn moderate_pairs<W: Word>(_: u64, rng: &mut Rng, out: &mut Vec<(W, W)>) {
    out.extend((0..1 << 16).map(|_| {
        let (y, x) = (moderate::<W>(rng), moderate::<W>(rng));
        with_random_signs(y, x, rng)
    }));
}

/// Exponents so far apart that the quotient is subnormal or nearly, or underflows, or overflows.
fn out_of_range<W: Word>(_: u64, rng: &mut Rng, out: &mut Vec<(W, W)>) {
    let (least, most) = (bias::<W>() - 3, bias::<W>() + i64::from(W::STORED) + 3);
    for _ in 0..1 << 15 {
        out.push(apart(-rng.within(least, most), rng));
        out.push(apart(rng.within(least, most), rng));
    }
}

/// Two subnormals, and one with a normal number so small that libm divides, or a little greater.
fn subnormals<W: Word>(_: u64, rng: &mut Rng, out: &mut Vec<(W, W)>) {
    for _ in 0..1 << 14 {
        let [a, b] = [(); 2].map(|()| rng.any_size(W::STORED));
        let normal = at_exponent::<W>(rng.within(1, W::CUTS.far + 8), rng);
        for (y, x) in [(a, b), (b, a), (a, normal), (normal, b)] {
            out.push(with_random_signs(y, x, rng));
        }
    }
}

/// Patterns around the first whose upper 32 bits are too far above those of another for libm to
/// divide; the smaller number is y or x, and is any or subnormal.
fn far_apart<W: Word>(_: u64, rng: &mut Rng, out: &mut Vec<(W, W)>) {
    let (step, far) = (upper_step::<W>(), (W::CUTS.far as u64) << W::STORED);
    let room = infinity::<W>() - far - 2 * step;
    for small in [rng.within(0, room as i64) as u64, rng.any_size(W::STORED)] {
        let cut = (small | (step - 1)) + 1 + far;
        let off = rng.any_size(W::STORED * 3 / 4);
        for great in beside::<W>(cut).into_iter().chain([cut - off, cut + off]) {
            out.extend(with_all_signs::<W>(great, small));
            out.extend(with_all_signs::<W>(small, great));
        }
    }
}

/// Quotients around those at which atan changes its formula. Half of the times x is a power of 2, so
/// that they come out exactly.
fn quotients<W: Word>(_: u64, rng: &mut Rng, out: &mut Vec<(W, W)>) {
    for cut in cuts::<W>(Domain::Pairs) {
        let difference = (cut >> W::STORED) as i64 - bias::<W>();
        // Such that y is normal, too; its exponent may come out one higher.
        let top = 2 * bias::<W>() - 1;
        let field = rng.within(1.max(1 - difference), top.min(top - difference));
        let random = at_exponent::<W>(field, rng);
        let power = random >> W::STORED << W::STORED;
        let x = rng.pick(&[random, power]);
        let product = W::Float::of(W::of(x)) * W::Float::of(W::of(cut));
        let y = product.pattern().bits();
        let off = rng.any_size(W::STORED / 2);
        for y in [y - off, y - 2, y - 1, y, y + 1, y + 2, y + off] {
            out.extend(with_all_signs::<W>(y, x));
        }
    }
}

/// libm answers atan of y where x is 1: numbers around 1 as x, and y at a cut of atan or anywhere.
fn around_one<W: Word>(_: u64, rng: &mut Rng, out: &mut Vec<(W, W)>) {
    let one = one::<W>();
    let off = rng.any_size(W::STORED);
    for cut in cuts::<W>(Domain::Pairs) {
        for y in [cut - 1, cut, moderate::<W>(rng)] {
            for x in beside::<W>(one).into_iter().chain([one - off, one + off]) {
                out.extend(with_all_signs::<W>(y, x));
            }
        }
    }
}
