//! What the libm files import from here; the three modules are files of libm.

mod env;
mod float_traits;
mod int_traits;

pub use env::{FpResult, Round, Status};
pub use float_traits::{Float, IntTy};
pub use int_traits::{CastFrom, CastInto, DInt, HInt, Int, MinInt};

/// A hint that stable Rust has no use for.
pub fn cold_path() {}
