//! Lines of tools, and keys of commands that no plan has.
use crate::given::{collected, meant, zigrunk_text, zigrunk_texts};
use crate::made::{Room, answer, freed, give, text, texts, zigrunk_answer, zigrunk_error, zigrunk_made};
use call::{CommandTool, Error, KeyCall, Line, LineCall, Tool, command_key, line_records, line_words};
use std::ffi::OsStr;
use std::path::Path;

/// C.
pub const ZIGRUNK_LANGUAGE_C: u32 = 0;
/// C++.
pub const ZIGRUNK_LANGUAGE_CXX: u32 = 1;
/// Objective-C.
pub const ZIGRUNK_LANGUAGE_OBJC: u32 = 2;
/// Objective-C++.
pub const ZIGRUNK_LANGUAGE_OBJCXX: u32 = 3;
/// CUDA.
pub const ZIGRUNK_LANGUAGE_CUDA: u32 = 4;
/// What cudafe++ makes.
pub const ZIGRUNK_LANGUAGE_CUDAFE: u32 = 5;
/// PTX, which cicc makes.
pub const ZIGRUNK_LANGUAGE_PTX: u32 = 6;
/// A cubin, which ptxas makes.
pub const ZIGRUNK_LANGUAGE_CUBIN: u32 = 7;

/// The compiler doesn't colour its messages.
pub const ZIGRUNK_COLOR_OFF: u32 = 0;
/// It does.
pub const ZIGRUNK_COLOR_ON: u32 = 1;
/// It decides.
pub const ZIGRUNK_COLOR_AUTO: u32 = 2;

/// A line of a tool.
#[repr(C)]
pub struct zigrunk_line_call {
    /// The working directory, an absolute path.
    pub cwd: zigrunk_text,
    /// The line's words without the tool's name.
    pub words: zigrunk_texts,
    /// nvcc reads `NVCC_PREPEND_FLAGS` and `NVCC_APPEND_FLAGS` there; the others read none.
    pub environment: zigrunk_texts,
    /// `ZIGRUNK_TOOL_CICC` .. `ZIGRUNK_TOOL_NVCXX`
    pub tool: u32,
}

/// What a line of a tool says. Words are in the order of the line.
#[repr(C)]
pub struct zigrunk_line {
    /// For `zigrunk_free`.
    pub made: zigrunk_made,
    /// The path of its input, or NULL.
    pub input: zigrunk_text,
    /// The option that says what it makes.
    pub compilation_flag: zigrunk_text,
    /// What each output is, as "obj".
    pub output_keys: zigrunk_texts,
    /// The paths of its outputs.
    pub output_paths: zigrunk_texts,
    /// For each output 1 if the command may leave it out, else 0.
    pub output_is_optional: *const usize,
    /// The words for the dependency file.
    pub dependency_args: zigrunk_texts,
    /// Those for the preprocessor.
    pub preprocessor_args: zigrunk_texts,
    /// Those that are part of a cache key.
    pub common_args: zigrunk_texts,
    /// Those that name architectures, part of a cache key too.
    pub arch_args: zigrunk_texts,
    /// Those that are no part of one.
    pub unhashed_args: zigrunk_texts,
    /// Paths of files that a distributed compilation also needs.
    pub extra_dist_files: zigrunk_texts,
    /// Paths of files whose contents are part of a cache key.
    pub extra_hash_files: zigrunk_texts,
    /// `ZIGRUNK_LANGUAGE_C` ..
    pub language: u32,
    /// `ZIGRUNK_COLOR_OFF` ..
    pub color_mode: u32,
    /// 1 if the input comes after `--`, else 0.
    pub double_dash_input: u32,
}

/// A command whose key a cache asks for. Its texts may be any bytes but NUL.
#[repr(C)]
pub struct zigrunk_key_call {
    /// The program, then its words.
    pub words: zigrunk_texts,
    /// Its environment, as environ. Of a name that occurs twice, the last value counts.
    pub environment: zigrunk_texts,
    /// Directories whose paths don't count, absolute and without `/` at the end; at most 26.
    pub roots: zigrunk_texts,
    /// `ZIGRUNK_TOOL_CICC` ..
    pub tool: u32,
}

/// Hands a line over as the library takes it.
///
/// # Safety
///
/// What a caller ensures.
unsafe fn with_line<R>(
    given: &zigrunk_line_call,
    take: impl FnOnce(&LineCall<'_, &OsStr>) -> Result<R, Error>,
) -> Result<R, Error> {
    let tool = meant(&Tool::ALL, given.tool, |tool| tool as u32)?;
    // SAFETY: the caller ensures it.
    let (words, variables, cwd) =
        unsafe { (given.words.listed()?, given.environment.variables()?, given.cwd.path()) };
    take(&LineCall { tool, cwd, words: &words, variables: &variables })
}

fn record(line: &Line) -> Result<*mut zigrunk_line, Error> {
    let mut room = Room::default();
    let outputs = collected(line.outputs())?;
    let optional = collected(outputs.iter().map(|output| usize::from(output.is_optional)))?;
    let record = zigrunk_line {
        made: freed::<zigrunk_line>(),
        input: room.text(line.input())?,
        compilation_flag: room.text(line.compilation_flag())?,
        output_keys: room.texts(outputs.iter().map(|output| output.key))?,
        output_paths: room.texts(outputs.iter().map(|output| output.path))?,
        output_is_optional: room.numbers(&optional)?,
        dependency_args: room.texts(line.dependency_args())?,
        preprocessor_args: room.texts(line.preprocessor_args())?,
        common_args: room.texts(line.common_args())?,
        arch_args: room.texts(line.arch_args())?,
        unhashed_args: room.texts(line.unhashed_args())?,
        extra_dist_files: room.texts(line.extra_dist_files())?,
        extra_hash_files: room.texts(line.extra_hash_files())?,
        language: line.language() as u32,
        color_mode: line.color_mode() as u32,
        double_dash_input: line.double_dash_input().into(),
    };
    give(record, room)
}

/// Reads a line of a tool: its input, its outputs, and its words by what they are for. `ZIGRUNK_BAD_LINE` if
/// it compiles nothing or no cache can serve it.
#[no_mangle]
#[must_use]
pub unsafe extern "C" fn zigrunk_line_records(
    given: *const zigrunk_line_call,
    made: *mut *mut zigrunk_line,
    error: *mut *mut zigrunk_error,
) -> i32 {
    // SAFETY: the caller ensures it.
    unsafe { answer(made, error, || record(&with_line(&*given, |call| line_records(call))?)) }
}

/// Reads a line of a tool, and lists the words that it is written back as.
#[no_mangle]
#[must_use]
pub unsafe extern "C" fn zigrunk_line_words(
    given: *const zigrunk_line_call,
    made: *mut *mut zigrunk_answer,
    error: *mut *mut zigrunk_error,
) -> i32 {
    // SAFETY: the caller ensures it.
    unsafe { answer(made, error, || texts(with_line(&*given, |call| line_words(call))?.iter())) }
}

/// # Safety
///
/// What a caller ensures.
unsafe fn key_of(given: &zigrunk_key_call) -> Result<Vec<u8>, Error> {
    let tool = meant(&CommandTool::ALL, given.tool, |tool| tool as u32)?;
    // SAFETY: the caller ensures it.
    let (words, variables, roots) =
        unsafe { (given.words.listed()?, given.environment.variables()?, given.roots.listed()?) };
    let roots = collected(roots.into_iter().map(Path::new))?;
    command_key(&KeyCall { tool, words: &words, variables: &variables, roots: &roots })
}

/// What a cache hashes of a command together with the contents of its files and whatever tells one version of
/// its tool from another: its words and the variables that may change what it makes, with a mark in place of
/// each root. `ZIGRUNK_BAD_NUMBER` for more than 26 roots, `ZIGRUNK_BAD_LINE` for a NUL.
#[no_mangle]
#[must_use]
pub unsafe extern "C" fn zigrunk_command_key(
    given: *const zigrunk_key_call,
    made: *mut *mut zigrunk_answer,
    error: *mut *mut zigrunk_error,
) -> i32 {
    // SAFETY: the caller ensures it.
    unsafe { answer(made, error, || text(key_of(&*given)?)) }
}
