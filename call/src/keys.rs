//! Keys of commands, for caches.
use crate::error::{Error, ErrorKind};
use crate::memory::{OutOfMemory, copied_bytes, listed};
use crate::plan::CommandTool;
use crate::variable::Variable;
use command_keys::{MOST_ROOTS, tool_variables};
use rattle_std::alloc::Global;
use std::ffi::OsStr;
use std::path::Path;

/// A command whose key a cache asks for. Its texts may be any bytes but NUL.
#[derive(Clone, Copy, Debug, PartialEq, Eq)]
pub struct KeyCall<'a, S> {
    /// The tool that it runs.
    pub tool: CommandTool,
    /// The program, then the words after it.
    pub words: &'a [S],
    /// Its environment. Of a name that occurs twice, the last value counts.
    pub variables: &'a [Variable<'a>],
    /// Directories whose paths don't count, such as the temporary one: absolute, without `/` at the end, at
    /// most 26.
    pub roots: &'a [&'a Path],
}

/// The key of a command: the bytes that a cache hashes together with the contents of the command's files and
/// whatever tells one version of the tool from another.
///
/// The key has the words and those variables that may change what the tool makes, and a mark in place of each
/// root: `/u/proj` in `/u/proj/k.cu`, not in `/u/proj-deps`. Of a root and one in it the inner one counts, in
/// whatever order they are; a root's mark says its place in the list. So commands with the same key differ
/// only in their roots, and a command has the same key in another temporary directory, unless the path of
/// that one also occurs elsewhere in the command. `PWD` counts for cicc and host compilers, whose debugging
/// information has it: set it to the command's directory, or leave it out.
///
/// # Errors
///
/// [`ErrorKind::BadNumber`] if there are more than 26 roots, [`ErrorKind::BadLine`] if a text contains NUL,
/// `OutOfMemory`.
pub fn command_key<S: AsRef<OsStr>>(call: &KeyCall<'_, S>) -> Result<Vec<u8>, Error> {
    if call.roots.len() > MOST_ROOTS {
        return Err(Error::plain(ErrorKind::BadNumber));
    }
    let words: Vec<&[u8]> =
        listed(call.words.iter().map(|word| Ok::<_, OutOfMemory>(word.as_ref().as_encoded_bytes())))?;
    let roots: Vec<&[u8]> =
        listed(call.roots.iter().map(|root| Ok::<_, OutOfMemory>(root.as_os_str().as_encoded_bytes())))?;
    let environment: Vec<(&[u8], &[u8])> =
        listed(call.variables.iter().map(|variable| Ok::<_, OutOfMemory>(variable.bytes())))?;
    let variables = tool_variables(Global, call.tool.program(), &environment)?;
    let key = command_keys::command_key(Global, &words, &variables, &roots)?.ok_or_else(Error::nul)?;
    Ok(copied_bytes(&key)?)
}
