//! Stand-ins for the macros that the libm files use.

/// Never an implementation for one processor: `sqrt` goes on to the generic one.
macro_rules! select_implementation {
    ($($any:tt)*) => {};
}

/// The last branch: none of the conditions asked about is set.
macro_rules! cfg_if {
    (if #[cfg($condition:meta)] { $($then:tt)* } else { $($other:tt)* }) => { $($other)* };
}

/// An element at an index that is known to be in range.
macro_rules! i {
    ($array:expr, $index:expr) => {
        *unsafe { $array.get_unchecked($index) }
    };
}

/// A value that is computed though nothing reads it.
macro_rules! force_eval {
    ($value:expr) => {
        core::hint::black_box($value)
    };
}
