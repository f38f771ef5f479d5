//! How a program starts and ends.
//!
//! Rust's own start of a process allocates, aborts if that fails, and opens `/dev/null` for a standard stream that is closed.
//! So [`program!`](crate::program) starts below it, at C's `main`.

use crate::rt::HostRuntime;
#[doc(hidden)]
pub use core::ffi::{c_char, c_int};
#[cfg(unix)]
use core::{ffi::CStr, slice};

/// The status that a process ends with.
#[derive(Clone, Copy, Debug, Default, PartialEq, Eq)]
pub struct ExitCode {
    status: u8,
}

impl From<u8> for ExitCode {
    fn from(status: u8) -> ExitCode {
        ExitCode { status }
    }
}

/// The arguments and the environment, as C's `main` gets them.
#[cfg(unix)]
pub(crate) struct Started {
    arguments: CTexts,
    variables: CTexts,
}

#[cfg(unix)]
impl Started {
    pub(crate) fn argument(&self, index: usize) -> Option<&'static [u8]> {
        self.arguments.get(index)
    }

    // As C's `getenv`: the first entry counts.
    pub(crate) fn variable(&self, name: &str) -> Option<&'static [u8]> {
        let value = |entry: &'static [u8]| entry.strip_prefix(name.as_bytes())?.strip_prefix(b"=");
        if name.is_empty() || name.contains('=') {
            return None;
        }
        let mut entries = (0..).map_while(|index| self.variables.get(index));
        entries.find_map(value)
    }
}

/// A list of C's texts.
#[cfg(unix)]
struct CTexts {
    texts: &'static [*const c_char],
}

#[cfg(unix)]
impl CTexts {
    /// The texts before the null pointer that ends a list.
    ///
    /// # Safety
    ///
    /// The list has to end so, and each of its texts in a NUL. Nobody changes them while the process lives.
    unsafe fn new(first: *const *const c_char) -> CTexts {
        let mut count = 0;
        // SAFETY: this never reads behind the null pointer.
        while unsafe { !first.add(count).read().is_null() } {
            count += 1;
        }
        // SAFETY: so many pointers were read there.
        let texts = unsafe { slice::from_raw_parts(first, count) };
        CTexts { texts }
    }

    fn get(&self, index: usize) -> Option<&'static [u8]> {
        let text = *self.texts.get(index)?;
        // SAFETY: `new` says so.
        Some(unsafe { CStr::from_ptr(text) }.to_bytes())
    }
}

/// What [`program!`](crate::program) calls.
///
/// # Safety
///
/// The lists have to be those of C's `main`: each ends in a null pointer, each of its texts in a NUL, and nobody changes them.
#[doc(hidden)]
#[cfg(unix)]
pub unsafe fn start(
    main: fn(HostRuntime) -> ExitCode,
    arguments: *const *const c_char,
    variables: *const *const c_char,
) -> c_int {
    const SIGPIPE: c_int = 13;
    const SIG_IGN: usize = 1;
    unsafe extern "C" {
        fn signal(number: c_int, action: usize) -> usize;
    }
    // SAFETY: to ignore a signal calls no code. A write to a pipe that nobody reads is then an error, as in a Rust program.
    unsafe { signal(SIGPIPE, SIG_IGN) };
    // SAFETY: the caller's.
    let started = unsafe {
        Started {
            arguments: CTexts::new(arguments),
            variables: CTexts::new(variables),
        }
    };
    c_int::from(main(HostRuntime::new(started)).status)
}

/// What [`program!`](crate::program) calls.
///
/// # Safety
///
/// It is always safe here.
#[doc(hidden)]
#[cfg(not(unix))]
pub unsafe fn start(
    main: fn(HostRuntime) -> ExitCode,
    _arguments: *const *const c_char,
    _variables: *const *const c_char,
) -> c_int {
    c_int::from(main(HostRuntime::new()).status)
}

/// Makes a function from `HostRuntime` to `ExitCode` the `main` of a program that has `#![no_main]`.
#[macro_export]
macro_rules! program {
    ($main:path) => {
        #[cfg_attr(not(target_family = "wasm"), unsafe(export_name = "main"))]
        #[cfg_attr(target_family = "wasm", unsafe(export_name = "__main_argc_argv"))]
        extern "C" fn start(
            _count: $crate::process::c_int,
            arguments: *const *const $crate::process::c_char,
            variables: *const *const $crate::process::c_char,
        ) -> $crate::process::c_int {
            // SAFETY: the start of a C program passes these.
            unsafe { $crate::process::start($main, arguments, variables) }
        }
    };
}
