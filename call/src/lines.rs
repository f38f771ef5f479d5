//! What lines of tools say.
use crate::error::{Error, ErrorKind, Input};
use crate::memory::{copied, listed, pairs, text};
use crate::nvcc_line::text_in;
use crate::variable::Variable;
use crate::words::{Texts, TextsIter};
use ::texts::language::Language as ProvedLanguage;
use ::texts::text::Text;
use ::texts::words::Words;
use compilers::arguments::{ColorMode as ProvedMode, CompilerArguments, ParsedArguments};
use compilers::command::CompileCommandImpl;
use compilers::compiler::{CCompilerImpl, Places};
use device_lines::cicc::Cicc;
use device_lines::cudafe::CudaFE;
use device_lines::ptxas::Ptxas;
use host_lines::nvcc::Nvcc;
use host_lines::nvhpc::Nvhpc;
use rattle_std::alloc::Global;
use rattle_std::string::String as Word;
use rattle_std::vec::Vec as List;
use std::ffi::OsStr;
use std::fmt;
use std::path::Path;

/// A tool that lines are of.
#[derive(Clone, Copy, Debug, PartialEq, Eq, Hash)]
#[non_exhaustive]
pub enum Tool {
    /// cicc, which compiles device code to PTX.
    Cicc,
    /// ptxas, the assembler.
    Ptxas,
    /// cudafe++, the front end for host code.
    CudaFe,
    /// nvcc.
    Nvcc,
    /// nvc of nvhpc.
    Nvc,
    /// nvc++ of nvhpc.
    Nvcxx,
}

impl Tool {
    /// All of them, by their numbers in other languages.
    pub const ALL: [Tool; 6] = [Tool::Cicc, Tool::Ptxas, Tool::CudaFe, Tool::Nvcc, Tool::Nvc, Tool::Nvcxx];
}

/// A line of a tool.
#[derive(Clone, Copy, Debug, PartialEq, Eq)]
pub struct LineCall<'a, S> {
    /// The tool.
    pub tool: Tool,
    /// The working directory, an absolute path.
    pub cwd: &'a Path,
    /// The line's words without the tool's name.
    pub words: &'a [S],
    /// The environment. nvcc reads `NVCC_PREPEND_FLAGS` and `NVCC_APPEND_FLAGS`, so a line of nvcc without
    /// them may say something else. The others read none.
    pub variables: &'a [Variable<'a>],
}

/// The language of a line's input, or what the tool makes of it.
#[derive(Clone, Copy, Debug, PartialEq, Eq, Hash)]
#[non_exhaustive]
pub enum Language {
    /// C.
    C,
    /// C++.
    Cxx,
    /// Objective-C.
    ObjectiveC,
    /// Objective-C++.
    ObjectiveCxx,
    /// CUDA.
    Cuda,
    /// What cudafe++ makes.
    CudaFe,
    /// PTX, which cicc makes.
    Ptx,
    /// A cubin, which ptxas makes.
    Cubin,
}

/// Whether a compiler colours its messages.
#[derive(Clone, Copy, Debug, PartialEq, Eq, Hash)]
#[non_exhaustive]
pub enum ColorMode {
    /// It doesn't.
    Off,
    /// It does.
    On,
    /// It decides.
    Auto,
}

/// A file that a line makes.
#[derive(Clone, Copy, Debug, PartialEq, Eq, Hash)]
pub struct Output<'a> {
    /// `obj` for the file that the line is for, `d` for the dependency file, else the option that names it.
    pub key: &'a str,
    /// Its path.
    pub path: &'a str,
    /// Whether the command may leave it out.
    pub is_optional: bool,
}

/// What a line of a tool says. Words are in the order of the line.
#[derive(PartialEq)]
pub struct Line(ParsedArguments);

/// The texts of a line for the proved crates.
struct Texted {
    cwd: String,
    words: Words,
    variables: List<(Word, Word)>,
}

impl Texted {
    fn of<S: AsRef<OsStr>>(call: &LineCall<'_, S>) -> Result<Texted, Error> {
        let mut words = Words::new(Global);
        for word in call.words {
            let word =
                word.as_ref().to_str().ok_or_else(|| Error::plain(ErrorKind::NotUtf8).at(Input::Words))?;
            words.push(text(word)?)?;
        }
        let variables: Vec<(&str, &str)> = listed(call.variables.iter().map(Variable::texts))?;
        Ok(Texted { cwd: text_in(call.cwd.as_os_str(), Input::Cwd)?, words, variables: pairs(&variables)? })
    }

    /// What a compiler makes of the line.
    fn parsed<C: CCompilerImpl>(&self, compiler: &C) -> Result<ParsedArguments, Error> {
        match compiler.parse_arguments(Global, self.words.as_slice(), &self.cwd, &self.variables)? {
            CompilerArguments::Ok(parsed) => Ok(parsed),
            CompilerArguments::CannotCache(why, word) => {
                Err(Error::uncacheable(why, word.map(|word| copied(word.as_str())).transpose()?))
            }
            CompilerArguments::NotCompilation => Err(Error::no_compilation()),
        }
    }

    /// The words that a compiler writes the line back as. The input's path is that of the line.
    fn rewritten<C: CCompilerImpl>(&self, compiler: &C) -> Result<Words, Error> {
        let parsed = self.parsed(compiler)?;
        let places = Places {
            temp_dir: Text::new(Word::new(Global)),
            canonical_input: parsed.input.try_clone(Global)?,
        };
        let (command, _) =
            compiler.generate_compile_commands(Global, "", &parsed, &self.cwd, &self.variables, &places)?;
        Ok(Words::copy_of(Global, command.get_arguments())?)
    }
}

/// nvhpc's compiler of C, or that of C++.
fn nvhpc(nvcplusplus: bool) -> Nvhpc {
    Nvhpc { nvcplusplus, version: None }
}

/// Reads a line of a tool: its input, its outputs, and its words by what they are for.
///
/// # Errors
///
/// [`ErrorKind::BadLine`] if the line compiles nothing or no cache can serve it, `NotUtf8`, `OutOfMemory`.
pub fn line_records<S: AsRef<OsStr>>(call: &LineCall<'_, S>) -> Result<Line, Error> {
    let line = Texted::of(call)?;
    let parsed = match call.tool {
        Tool::Cicc => line.parsed(&Cicc { version: None }),
        Tool::Ptxas => line.parsed(&Ptxas { version: None }),
        Tool::CudaFe => line.parsed(&CudaFE { version: None }),
        Tool::Nvcc => line.parsed(&Nvcc::gcc()),
        Tool::Nvc => line.parsed(&nvhpc(false)),
        Tool::Nvcxx => line.parsed(&nvhpc(true)),
    };
    Ok(Line(parsed?))
}

/// Reads a line of a tool and lists the words that it is written back as.
///
/// # Errors
///
/// [`ErrorKind::BadLine`] as for [`line_records`], and if the line has no output; `NotUtf8`, `OutOfMemory`.
pub fn line_words<S: AsRef<OsStr>>(call: &LineCall<'_, S>) -> Result<Texts, Error> {
    let line = Texted::of(call)?;
    let words = match call.tool {
        Tool::Cicc => line.rewritten(&Cicc { version: None }),
        Tool::Ptxas => line.rewritten(&Ptxas { version: None }),
        Tool::CudaFe => line.rewritten(&CudaFE { version: None }),
        Tool::Nvcc => line.rewritten(&Nvcc::gcc()),
        Tool::Nvc => line.rewritten(&nvhpc(false)),
        Tool::Nvcxx => line.rewritten(&nvhpc(true)),
    };
    Ok(Texts::of(words?))
}

impl Line {
    /// The input's path, as the line has it.
    #[must_use]
    pub fn input(&self) -> &str {
        self.0.input.as_str()
    }

    /// The files that the line makes, in the order of their keys.
    pub fn outputs(&self) -> impl Iterator<Item = Output<'_>> {
        self.0.outputs.iter().map(|(key, it)| Output {
            key,
            path: it.path.as_str(),
            is_optional: it.optional,
        })
    }

    /// The input's language, or what the tool makes of it.
    #[must_use]
    pub fn language(&self) -> Language {
        match self.0.language {
            ProvedLanguage::C => Language::C,
            ProvedLanguage::Cxx => Language::Cxx,
            ProvedLanguage::ObjectiveC => Language::ObjectiveC,
            ProvedLanguage::ObjectiveCxx => Language::ObjectiveCxx,
            ProvedLanguage::Cuda => Language::Cuda,
            ProvedLanguage::CudaFE => Language::CudaFe,
            ProvedLanguage::Ptx => Language::Ptx,
            ProvedLanguage::Cubin => Language::Cubin,
        }
    }

    /// The option that asks for a compilation, as `-c`, or empty.
    #[must_use]
    pub fn compilation_flag(&self) -> &str {
        self.0.compilation_flag.as_str()
    }

    /// The words that ask for dependencies.
    #[must_use]
    pub fn dependency_args(&self) -> TextsIter<'_> {
        TextsIter::of(self.0.dependency_args.as_slice())
    }

    /// The words for the preprocessor.
    #[must_use]
    pub fn preprocessor_args(&self) -> TextsIter<'_> {
        TextsIter::of(self.0.preprocessor_args.as_slice())
    }

    /// The words that are part of a cache key.
    #[must_use]
    pub fn common_args(&self) -> TextsIter<'_> {
        TextsIter::of(self.0.common_args.as_slice())
    }

    /// The words that name architectures, part of a cache key too.
    #[must_use]
    pub fn arch_args(&self) -> TextsIter<'_> {
        TextsIter::of(self.0.arch_args.as_slice())
    }

    /// The words that are no part of a cache key.
    #[must_use]
    pub fn unhashed_args(&self) -> TextsIter<'_> {
        TextsIter::of(self.0.unhashed_args.as_slice())
    }

    /// Paths of files that a distributed compilation also needs.
    #[must_use]
    pub fn extra_dist_files(&self) -> TextsIter<'_> {
        TextsIter::of(self.0.extra_dist_files.as_slice())
    }

    /// Paths of files whose contents are part of a cache key.
    #[must_use]
    pub fn extra_hash_files(&self) -> TextsIter<'_> {
        TextsIter::of(self.0.extra_hash_files.as_slice())
    }

    /// Whether the compiler colours its messages: off for a device tool, else automatic.
    #[must_use]
    pub fn color_mode(&self) -> ColorMode {
        match self.0.color_mode {
            ProvedMode::Off => ColorMode::Off,
            ProvedMode::On => ColorMode::On,
            ProvedMode::Auto => ColorMode::Auto,
        }
    }

    /// Whether the input comes after `--`.
    #[must_use]
    pub fn double_dash_input(&self) -> bool {
        self.0.double_dash_input
    }
}

impl Eq for Line {}

impl fmt::Debug for Line {
    fn fmt(&self, f: &mut fmt::Formatter<'_>) -> fmt::Result {
        f.debug_struct("Line")
            .field("input", &self.input())
            .field("outputs", &self.outputs().collect::<Vec<_>>())
            .field("language", &self.language())
            .field("compilation_flag", &self.compilation_flag())
            .field("dependency_args", &self.dependency_args())
            .field("preprocessor_args", &self.preprocessor_args())
            .field("common_args", &self.common_args())
            .field("arch_args", &self.arch_args())
            .field("unhashed_args", &self.unhashed_args())
            .field("extra_dist_files", &self.extra_dist_files())
            .field("extra_hash_files", &self.extra_hash_files())
            .field("color_mode", &self.color_mode())
            .field("double_dash_input", &self.double_dash_input())
            .finish()
    }
}
