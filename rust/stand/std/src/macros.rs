//! The macros that allocate.

/// What the macros call.
#[doc(hidden)]
pub mod called {
    pub use core::format_args;
}

/// `format!(in alloc; "..", ..)` prints into a new `String`.
#[macro_export]
macro_rules! format {
    (in $alloc:expr; $($arguments:tt)+) => {
        $crate::string::String::format($alloc, $crate::macros::called::format_args!($($arguments)+))
    };
}

/// `vec![in alloc; item; count]` has `count` copies of an item, and `vec![in alloc; item, item]` these items.
#[macro_export]
macro_rules! vec {
    (in $alloc:expr; $item:expr; $count:expr) => {
        $crate::vec::Vec::from_elem($alloc, $item, $count)
    };
    (in $alloc:expr; $($item:expr),+ $(,)?) => {
        $crate::vec::Vec::from_array($alloc, [$($item),+])
    };
}
