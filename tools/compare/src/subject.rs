//! The functions, and what can be done with each.

use crate::{compare, speed};
use inputs::Domain;
use inputs::call::{Call, Word};

macro_rules! table {
    ($($name:ident($($arg:ident: $word:ident),+) -> $answer:ident, $domain:ident;)*) => {
        /// Every function, in the order of the rows.
        pub fn table() -> Vec<Box<dyn Subject>> {
            vec![$({
                unsafe extern "C" {
                    #[link_name = concat!("jamcurfew_", stringify!($name))]
                    safe fn ours($($arg: $word),+) -> $answer;
                }
                Box::new(Function {
                    name: stringify!($name),
                    ours: ours as extern "C" fn($($word),+) -> $answer,
                    libm: libm_source::$name
                        as fn($(<$word as Word>::Float),+) -> <$answer as Word>::Float,
                    domain: Domain::$domain,
                })
            }),*]
        }
    };
}

inputs::functions!(table);

/// A function of the table.
pub trait Subject {
    fn name(&self) -> &'static str;
    /// Compares on all inputs, prints the outcome, and says whether there was no difference.
    fn compare(&self, threads: usize) -> bool;
    /// Measures both, prints the times, and says whether the answers were the same.
    fn speed(&self) -> bool;
}

pub struct Function<F, S> {
    pub name: &'static str,
    pub ours: F,
    pub libm: S,
    pub domain: Domain,
}

impl<F: Call, S: Call<Word = F::Word, Input = F::Input>> Subject for Function<F, S> {
    fn name(&self) -> &'static str {
        self.name
    }

    fn compare(&self, threads: usize) -> bool {
        compare::run(self, threads)
    }

    fn speed(&self) -> bool {
        speed::run(self)
    }
}
