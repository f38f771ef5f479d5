//! Texts in, texts out: shell words, canonical names, look-ups and headers.
use crate::given::{zigrunk_text, zigrunk_texts};
use crate::made::{answer, text, texts, zigrunk_answer, zigrunk_error};
use call::{Lookup, candidates, copied, headers, lookups, quote, remap, split};
use std::num::NonZeroUsize;

/// Splits a text into the words that a POSIX shell reads: quotes and backslashes group characters, and
/// nothing is expanded. `ZIGRUNK_OPEN_QUOTE` if it ends inside quotes or in a backslash.
#[no_mangle]
#[must_use]
pub unsafe extern "C" fn zigrunk_split(
    text: zigrunk_text,
    made: *mut *mut zigrunk_answer,
    error: *mut *mut zigrunk_error,
) -> i32 {
    // SAFETY: the caller ensures it.
    unsafe { answer(made, error, || texts(split(text.utf8()?)?.iter())) }
}

/// Writes words as one text, which a POSIX shell and `zigrunk_split` read as these words.
#[no_mangle]
#[must_use]
pub unsafe extern "C" fn zigrunk_quote(
    words: zigrunk_texts,
    made: *mut *mut zigrunk_answer,
    error: *mut *mut zigrunk_error,
) -> i32 {
    // SAFETY: the caller ensures it.
    unsafe { answer(made, error, || text(quote(words.utf8()?)?)) }
}

/// Lists words with canonical names for the files that nvcc generates: as many words, in their order. Pass
/// the words of all commands of a dry run, one command behind the other. The suffixes are behind the standard
/// ones.
#[no_mangle]
#[must_use]
pub unsafe extern "C" fn zigrunk_remap(
    words: zigrunk_texts,
    suffixes: zigrunk_texts,
    made: *mut *mut zigrunk_answer,
    error: *mut *mut zigrunk_error,
) -> i32 {
    // SAFETY: the caller ensures it.
    unsafe { answer(made, error, || texts(remap(&words.utf8()?, &suffixes.utf8()?)?.iter())) }
}

/// Lists the look-ups of programs that a plan of two dry runs needs, none twice: a program, then the value of
/// PATH there, and so on. The limit is that of `zigrunk_dry_runs`.
#[no_mangle]
#[must_use]
pub unsafe extern "C" fn zigrunk_lookups(
    dry1: zigrunk_text,
    dry2: zigrunk_text,
    cwd: zigrunk_text,
    limit: usize,
    made: *mut *mut zigrunk_answer,
    error: *mut *mut zigrunk_error,
) -> i32 {
    // SAFETY: the caller ensures it.
    let look = || unsafe { lookups(dry1.bytes(), dry2.bytes(), cwd.path(), NonZeroUsize::new(limit)) };
    // SAFETY: the caller ensures it.
    unsafe {
        answer(made, error, || texts(look()?.iter().flat_map(|it| [it.program.as_str(), it.path.as_str()])))
    }
}

/// Lists the paths that a look-up tries from a working directory, in order: the first that is an executable
/// file is the program.
#[no_mangle]
#[must_use]
pub unsafe extern "C" fn zigrunk_candidates(
    program: zigrunk_text,
    path: zigrunk_text,
    cwd: zigrunk_text,
    made: *mut *mut zigrunk_answer,
    error: *mut *mut zigrunk_error,
) -> i32 {
    // SAFETY: the caller ensures it.
    let lookup = || unsafe {
        Ok::<_, call::Error>(Lookup { program: copied(program.utf8()?)?, path: copied(path.utf8()?)? })
    };
    // SAFETY: the caller ensures it.
    unsafe { answer(made, error, || texts(candidates(&lookup()?, cwd.path())?.iter())) }
}

/// Lists the files that the output of a preprocessor names, none twice.
#[no_mangle]
#[must_use]
pub unsafe extern "C" fn zigrunk_headers(
    output: zigrunk_text,
    made: *mut *mut zigrunk_answer,
    error: *mut *mut zigrunk_error,
) -> i32 {
    // SAFETY: the caller ensures it.
    unsafe { answer(made, error, || texts(headers(output.bytes())?.iter().map(String::as_str))) }
}
