//! The modules of libm that are compared. Each but `generic` and `support` is a file of the
//! folder that `run.sh` was given.

pub mod generic;
pub mod support;

mod acos;
mod acosf;
mod asin;
mod asinf;
mod atan;
mod atan2;
mod atan2f;
mod atanf;
mod fabs;
mod sqrt;

pub use acos::acos;
pub use acosf::acosf;
pub use asin::asin;
pub use asinf::asinf;
pub use atan::atan;
pub use atan2::atan2;
pub use atan2f::atan2f;
pub use atanf::atanf;
pub use fabs::{fabs, fabsf};
pub use sqrt::{sqrt, sqrtf};

fn get_high_word(x: f64) -> u32 {
    (x.to_bits() >> 32) as u32
}

fn get_low_word(x: f64) -> u32 {
    x.to_bits() as u32
}

fn with_set_low_word(x: f64, low: u32) -> f64 {
    f64::from_bits(x.to_bits() >> 32 << 32 | u64::from(low))
}

fn fma(_: f64, _: f64, _: f64) -> f64 {
    unreachable!("no function that is compared uses it")
}

fn fmaf(_: f32, _: f32, _: f32) -> f32 {
    unreachable!("no function that is compared uses it")
}
