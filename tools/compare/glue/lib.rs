//! The root of the crate that the libm files are compiled into. The other files beside it stand in
//! for what the libm files lean on and do not bring.

#[macro_use]
mod macros;
mod math;

use math::support;
pub use math::{acos, acosf, asin, asinf, atan, atan2, atan2f, atanf, sqrt, sqrtf};
