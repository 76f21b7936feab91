//! Where libm's functions change from one formula to another.

use crate::Domain;

/// The upper 32 bits of the least positive pattern that takes the next formula: libm looks at no
/// more, save at 1. In rising order, those of all functions of a domain together.
pub struct Cuts {
    roots: &'static [u32],
    arcs: &'static [u32],
    tangents: &'static [u32],
    /// atan2 does not divide if the exponent of one number is higher than the other's by more.
    pub far: i64,
}

impl Cuts {
    /// The cuts of a function; for atan2, those of the quotient.
    pub fn of(&self, domain: Domain) -> &'static [u32] {
        match domain {
            Domain::Roots => self.roots,
            Domain::Arcs => self.arcs,
            Domain::Tangents | Domain::Pairs => self.tangents,
        }
    }
}

pub const WIDE: Cuts = Cuts {
    roots: &[
        0x0010_0000, // the least normal
        0x3ff0_0000, // 1, an even power of 2
        0x4000_0000, // 2, an odd one
        0x4010_0000, // 4
        0x7ff0_0000, // infinity
    ],
    arcs: &[
        0x0010_0000, // asin: the least normal
        0x3c60_0001, // acos: 2^-57, which is not past the cut itself
        0x3e50_0000, // asin: 2^-26
        0x3fe0_0000, // both: 1/2
        0x3fef_3333, // asin: 0.975
        0x3ff0_0000, // both: 1
    ],
    tangents: &[
        0x0010_0000, // the least normal
        0x3e40_0000, // 2^-27
        0x3fdc_0000, // 7/16
        0x3fe6_0000, // 11/16
        0x3ff3_0000, // 19/16
        0x4003_8000, // 39/16
        0x4410_0000, // 2^66
    ],
    far: 64,
};

pub const NARROW: Cuts = Cuts {
    roots: &[
        0x0080_0000, // the least normal
        0x3f80_0000, // 1, an even power of 2
        0x4000_0000, // 2, an odd one
        0x4080_0000, // 4
        0x7f80_0000, // infinity
    ],
    arcs: &[
        0x0080_0000, // asinf: the least normal
        0x3280_0001, // acosf: 2^-26, which is not past the cut itself
        0x3980_0000, // asinf: 2^-12
        0x3f00_0000, // both: 1/2
        0x3f80_0000, // both: 1
    ],
    tangents: &[
        0x0080_0000, // the least normal
        0x3980_0000, // 2^-12
        0x3ee0_0000, // 7/16
        0x3f30_0000, // 11/16
        0x3f98_0000, // 19/16
        0x401c_0000, // 39/16
        0x4c80_0000, // 2^26
    ],
    far: 26,
};
