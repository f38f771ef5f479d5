//! libzigrunk: the crate for Rust as a C library. Each function copies what it is given, calls one function
//! of the crate, and copies what that says. cbindgen writes `zigrunk.h` of these files, whose comments are
//! the header's.
//!
//! Nothing here panics, and what grows with the input reports a refused allocation.

pub mod calls;
pub mod given;
pub mod lines;
pub mod made;
pub mod plans;
pub mod schedules;
pub mod texts;

use std::ffi::c_char;

/// What `zigrunk_abi_version` says.
pub const ZIGRUNK_ABI_VERSION: u32 = 2;

/// The function succeeded.
pub const ZIGRUNK_OK: i32 = 0;
/// An allocation failed.
pub const ZIGRUNK_OUT_OF_MEMORY: i32 = 1;
/// A text isn't UTF-8: a word, a path or a suffix.
pub const ZIGRUNK_NOT_UTF8: i32 = 2;
/// A number, or the name of a format, has no meaning.
pub const ZIGRUNK_BAD_NUMBER: i32 = 3;
/// A text ends inside quotes or in a backslash.
pub const ZIGRUNK_OPEN_QUOTE: i32 = 4;
/// A line of a dry run can't be read.
pub const ZIGRUNK_BAD_DRY_RUN: i32 = 5;
/// A program that a dry run names isn't there.
pub const ZIGRUNK_NOT_FOUND: i32 = 6;
/// Your suffixes and the standard ones break the rule of such a list.
pub const ZIGRUNK_BAD_SUFFIXES: i32 = 7;
/// The format can't represent the plan.
pub const ZIGRUNK_UNWRITABLE: i32 = 8;
/// A line of a tool can't be read, or isn't to be cached.
pub const ZIGRUNK_BAD_LINE: i32 = 9;
/// nvcc has to make the call itself.
pub const ZIGRUNK_TO_NVCC: i32 = 10;
/// A line of a dry run exceeds your limit.
pub const ZIGRUNK_OVER_LIMIT: i32 = 11;
/// The texts aren't the dry runs of the call.
pub const ZIGRUNK_NO_DRY_RUN: i32 = 12;
/// A directory isn't absolute and plain: a part of its path is empty, "." or "..".
pub const ZIGRUNK_ODD_DIRECTORY: i32 = 13;
/// nvcc refuses a dry run: the message is what it printed.
pub const ZIGRUNK_NVCC: i32 = 14;
/// A dry run can't be started, or a file can't be read.
pub const ZIGRUNK_IO: i32 = 15;

/// The first dry run is at fault.
pub const ZIGRUNK_INPUT_FIRST: u32 = 1;
/// The second.
pub const ZIGRUNK_INPUT_SECOND: u32 = 2;
/// The working directory.
pub const ZIGRUNK_INPUT_CWD: u32 = 3;
/// The directory for temporary files.
pub const ZIGRUNK_INPUT_TMP: u32 = 4;
/// The option that says what nvcc makes.
pub const ZIGRUNK_INPUT_FLAG: u32 = 5;
/// The dry run of the line as it is.
pub const ZIGRUNK_INPUT_OWN: u32 = 6;
/// The environment.
pub const ZIGRUNK_INPUT_VARIABLES: u32 = 7;
/// The suffixes of generated files.
pub const ZIGRUNK_INPUT_SUFFIXES: u32 = 8;
/// nvcc's name or path.
pub const ZIGRUNK_INPUT_NVCC: u32 = 9;
/// The words of the line.
pub const ZIGRUNK_INPUT_WORDS: u32 = 10;

/// The number of the library's binary interface: `ZIGRUNK_ABI_VERSION` of the header that it was built with.
#[no_mangle]
pub extern "C" fn zigrunk_abi_version() -> u32 {
    ZIGRUNK_ABI_VERSION
}

/// The library's version, such as "0.2.0".
#[no_mangle]
pub extern "C" fn zigrunk_version() -> *const c_char {
    concat!(env!("CARGO_PKG_VERSION"), "\0").as_ptr().cast()
}

#[cfg(test)]
mod tests {
    use crate::{lines as of_lines, plans as of_plans, schedules as of_schedules};
    use call::schedule::{AfterFailure, Outcome, PlanStatus};
    use call::{
        ColorMode, CommandTool, DropReason, ErrorKind, HostCompiler, Input, Language, Missing, Stage, Tool,
    };

    #[test]
    fn numbers_are_those_of_the_library() {
        assert_eq!(
            [ErrorKind::OutOfMemory, ErrorKind::ToNvcc, ErrorKind::Io].map(ErrorKind::status),
            [super::ZIGRUNK_OUT_OF_MEMORY, super::ZIGRUNK_TO_NVCC, super::ZIGRUNK_IO]
        );
        assert_eq!(
            [Input::First, Input::Words].map(Input::number),
            [super::ZIGRUNK_INPUT_FIRST, super::ZIGRUNK_INPUT_WORDS]
        );
        let tools =
            [of_plans::ZIGRUNK_TOOL_CICC, of_plans::ZIGRUNK_TOOL_PTXAS, of_plans::ZIGRUNK_TOOL_CUDAFE];
        let of_a_line =
            [of_plans::ZIGRUNK_TOOL_NVCC, of_plans::ZIGRUNK_TOOL_NVC, of_plans::ZIGRUNK_TOOL_NVCXX];
        let of_a_command =
            [of_plans::ZIGRUNK_TOOL_FATBINARY, of_plans::ZIGRUNK_TOOL_NVLINK, of_plans::ZIGRUNK_TOOL_HOST];
        assert!(Tool::ALL.map(|tool| tool as u32).into_iter().eq([tools, of_a_line].concat()));
        assert!(CommandTool::ALL.map(|tool| tool as u32).into_iter().eq([tools, of_a_command].concat()));
    }

    #[test]
    fn numbers_of_plans_are_those_of_the_library() {
        use of_plans::*;
        assert_eq!(
            [Stage::Front, Stage::Device, Stage::Final].map(|it| it as u32),
            [ZIGRUNK_FRONT, ZIGRUNK_DEVICE, ZIGRUNK_FINAL]
        );
        let reasons =
            [DropReason::NotCuda, DropReason::NoCiccGroup, DropReason::NoPtxasGroup, DropReason::Superseded];
        let wanted = [ZIGRUNK_NOT_CUDA, ZIGRUNK_NO_CICC_GROUP, ZIGRUNK_NO_PTXAS_GROUP, ZIGRUNK_SUPERSEDED];
        assert_eq!(reasons.map(|it| it as u32 + 1), wanted);
        let missing = [Missing::Unread, Missing::Headers, Missing::Inputs].map(|it| it as u32 + 1);
        assert_eq!(missing, [ZIGRUNK_UNREAD_MISSING, ZIGRUNK_HEADERS_MISSING, ZIGRUNK_INPUTS_MISSING]);
        assert_eq!(HostCompiler::ALL.map(|it| it as u32), [ZIGRUNK_GCC, ZIGRUNK_MSVC, ZIGRUNK_NVHPC]);
    }

    #[test]
    fn numbers_of_schedules_and_lines_are_those_of_the_library() {
        use {of_lines::*, of_schedules::*};
        assert_eq!(
            AfterFailure::ALL.map(|it| it as u32),
            [ZIGRUNK_START_NOTHING, ZIGRUNK_START_EARLIER, ZIGRUNK_GO_ON]
        );
        assert_eq!(Outcome::ALL.map(|it| it as u32), [ZIGRUNK_SUCCEEDED, ZIGRUNK_FAILED, ZIGRUNK_CANCELLED]);
        let statuses =
            [PlanStatus::Unfinished, PlanStatus::Succeeded, PlanStatus::Failed].map(|it| it as u32);
        assert_eq!(statuses, [ZIGRUNK_UNFINISHED, ZIGRUNK_ALL_SUCCEEDED, ZIGRUNK_ONE_FAILED]);
        assert_eq!(
            [ColorMode::Off, ColorMode::On, ColorMode::Auto].map(|it| it as u32),
            [ZIGRUNK_COLOR_OFF, ZIGRUNK_COLOR_ON, ZIGRUNK_COLOR_AUTO]
        );
        let sources =
            [Language::C, Language::Cxx, Language::ObjectiveC, Language::ObjectiveCxx].map(|it| it as u32);
        assert_eq!(
            sources,
            [ZIGRUNK_LANGUAGE_C, ZIGRUNK_LANGUAGE_CXX, ZIGRUNK_LANGUAGE_OBJC, ZIGRUNK_LANGUAGE_OBJCXX]
        );
        let device = [Language::Cuda, Language::CudaFe, Language::Ptx, Language::Cubin].map(|it| it as u32);
        assert_eq!(
            device,
            [ZIGRUNK_LANGUAGE_CUDA, ZIGRUNK_LANGUAGE_CUDAFE, ZIGRUNK_LANGUAGE_PTX, ZIGRUNK_LANGUAGE_CUBIN]
        );
    }
}
