//! Lines of cicc, ptxas and cudafe++, read by the crate zigrunk, as sccache's records.

use super::c::{ArtifactDescriptor, ParsedArguments};
use super::{ColorMode, CompilerArguments, Language};
use std::collections::HashMap;
use std::ffi::OsString;
use std::path::Path;
use zigrunk::{line_records, Line, LineCall, Output, TextsIter, Tool};

/// The keys of outputs that these lines can have. sccache wants texts that live forever.
const KEYS: [&str; 5] = ["obj", "--gen_c_file_name", "--gen_device_file_name", "--module_id_file_name", "--stub_file_name"];

/// Reads a line of a tool. One that compiles nothing, or has words that aren't UTF-8, can't be cached.
pub fn read(tool: Tool, language: Language, arguments: &[OsString], cwd: &Path) -> CompilerArguments<ParsedArguments> {
    let words: Option<Vec<String>> = arguments.iter().map(|word| word.to_str().map(String::from)).collect();
    let (Some(words), Some(cwd)) = (words, cwd.to_str()) else {
        return CompilerArguments::CannotCache("words that aren't UTF-8", None);
    };
    match line_records(&LineCall { tool, cwd, words: &words, variables: &[] }) {
        Ok(line) => CompilerArguments::Ok(record(&line, language)),
        Err(error) => CompilerArguments::CannotCache("zigrunk", Some(error.to_string())),
    }
}

fn record(line: &Line, language: Language) -> ParsedArguments {
    ParsedArguments {
        input: line.input().into(),
        double_dash_input: line.double_dash_input(),
        language,
        compilation_flag: line.compilation_flag().into(),
        depfile: line.depfile().map(Into::into),
        outputs: outputs(line),
        dependency_args: owned(line.dependency_args()),
        preprocessor_args: owned(line.preprocessor_args()),
        common_args: owned(line.common_args()),
        arch_args: owned(line.arch_args()),
        unhashed_args: owned(line.unhashed_args()),
        extra_dist_files: owned(line.extra_dist_files()),
        extra_hash_files: owned(line.extra_hash_files()),
        msvc_show_includes: line.msvc_show_includes(),
        profile_generate: line.profile_generate(),
        color_mode: ColorMode::Off,
        suppress_rewrite_includes_only: line.suppress_rewrite_includes_only(),
        too_hard_for_preprocessor_cache_mode: line.too_hard_for_preprocessor_cache_mode().map(Into::into),
    }
}

fn outputs(line: &Line) -> HashMap<&'static str, ArtifactDescriptor> {
    let key = |output: &Output<'_>| *KEYS.iter().find(|key| **key == output.key).expect("a key of sccache's");
    line.outputs().map(|it| (key(&it), ArtifactDescriptor { path: it.path.into(), optional: it.is_optional })).collect()
}

fn owned<T: for<'a> From<&'a str>>(texts: TextsIter<'_>) -> Vec<T> {
    texts.map(T::from).collect()
}
