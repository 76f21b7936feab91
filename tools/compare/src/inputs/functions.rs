//! The rows of the functions.

/// Hands every row to the macro `$take`. A row `name(arguments) -> word, domain;` is the C function
/// `jamcurfew_name` of our library and the function `name` of libm. To add a function, add its row.
#[macro_export]
macro_rules! functions {
    ($take:ident) => {
        $take! {
            asin(x: u64) -> u64, Arcs;
            asinf(x: u32) -> u32, Arcs;
            acos(x: u64) -> u64, Arcs;
            acosf(x: u32) -> u32, Arcs;
            atan(x: u64) -> u64, Tangents;
            atanf(x: u32) -> u32, Tangents;
            atan2(y: u64, x: u64) -> u64, Pairs;
            atan2f(y: u32, x: u32) -> u32, Pairs;
            sqrt(x: u64) -> u64, Roots;
            sqrtf(x: u32) -> u32, Roots;
        }
    };
}
