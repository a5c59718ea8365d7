//! Stand-in for the crate `log`: the one macro that the published files use.
//!
//! Assumes: a warning changes nothing but what is logged, so it may be dropped.

/// Type-checks its arguments and logs nothing.
#[macro_export]
macro_rules! warn {
    ($($argument:tt)*) => {{
        let _ = ::core::format_args!($($argument)*);
    }};
}
