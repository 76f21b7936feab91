//! Writes a list of libm's own answers; our library has no part in it.

use inputs::call::{Call, Input, Word};
use inputs::{Class, Domain, Rng};
use std::io::{self, BufWriter, Write};

/// How many inputs of each function are drawn from its long classes.
const DRAWN: u64 = 2000;

macro_rules! list {
    ($($name:ident($($arg:ident: $word:ident),+) -> $answer:ident, $domain:ident;)*) => {
        /// Writes the lines of every function, in the order of the rows.
        fn list(out: &mut impl Write) -> io::Result<()> {
            $(
                let libm = libm_source::$name
                    as fn($(<$word as Word>::Float),+) -> <$answer as Word>::Float;
                write(stringify!($name), libm, Domain::$domain, out)?;
            )*
            out.flush()
        }
    };
}

inputs::functions!(list);

/// Writes a line for each input: the function, the input and the answer.
fn write<C: Call>(name: &str, libm: C, domain: Domain, out: &mut impl Write) -> io::Result<()> {
    for input in chosen::<C::Input>(domain) {
        let answer = libm.call(input).canonical();
        writeln!(out, "{name} {} {}", input.show(), answer.hex())?;
    }
    Ok(())
}

/// The short classes whole, and as many inputs of one long class as of another; each input once.
fn chosen<I: Input>(domain: Domain) -> Vec<I> {
    let (short, long): (Vec<_>, Vec<_>) = I::listed(domain)
        .into_iter()
        .partition(|class| class.blocks == 1);
    let share = DRAWN / long.len() as u64;
    let mut chosen: Vec<I> = short.iter().flat_map(|class| class.block(0)).collect();
    chosen.extend(long.iter().flat_map(|class| draw(class, share)));
    chosen.sort();
    chosen.dedup();
    chosen
}

/// So many inputs of a class, from all over its blocks.
fn draw<I: Input>(class: &Class<I>, count: u64) -> impl Iterator<Item = I> {
    let mut rng = Rng::of("list", count);
    (0..count).map(move |i| rng.pick(&class.block(i * class.blocks / count)))
}

fn main() -> io::Result<()> {
    list(&mut BufWriter::new(io::stdout().lock()))
}
