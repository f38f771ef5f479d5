//! What a list asks for.
use call::NvccLine;
use machine::settings::own_text;

/// What a call of a list asks for.
#[derive(Clone, PartialEq, Eq, Debug)]
pub enum Asked {
    /// nvcc, with the words of zigrunk-nvcc.
    Nvcc(Vec<String>),
    /// Another compiler, its own name first.
    Compiler(Vec<String>),
    /// Another program, its own name first.
    Program(Vec<String>),
    /// A line that a shell runs whole.
    Shell(String),
}

/// A call of a list.
#[derive(Clone, PartialEq, Eq, Debug)]
pub struct BatchCall {
    /// The number of its line or entry, from 1.
    pub number: usize,
    /// How messages name it.
    pub name: String,
    /// The folder in which it's made.
    pub folder: String,
    pub asked: Asked,
}

/// An nvcc line, with all variables that count.
pub fn line_of(cwd: String, nvcc: String, words: Vec<String>) -> NvccLine {
    let variable = |name: &str| Some((name.to_owned(), own_text(name)?));
    let variables = ["NVCC_PREPEND_FLAGS", "NVCC_APPEND_FLAGS", "ZIGRUNK_JOBS"]
        .into_iter()
        .filter_map(variable)
        .collect();
    NvccLine { cwd, nvcc, words, variables }
}

/// The words that count for the products of a call: nvcc's variables have some too.
pub fn words_of(asked: &Asked) -> Option<Vec<String>> {
    match asked {
        Asked::Nvcc(words) => line_of(String::new(), String::new(), words.clone()).all_words().ok(),
        Asked::Compiler(words) => Some(words.clone()),
        Asked::Program(_) | Asked::Shell(_) => None,
    }
}
