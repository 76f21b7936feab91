//! `int_traits` exports the name; no function that is compared uses it.

pub trait NarrowingDiv {}
