//! Keys of a plan's commands that a cache can trust.

use std::ffi::CStr;
use std::fmt::Display;
use std::fs::{self, File};
use std::io::{self, Read};
use std::path::{Path, PathBuf};
use std::str;
use std::time::UNIX_EPOCH;

use command_keys::{CountedWord, NamedFiles, counted_key, counted_words, names_reach, tool_variables};
use compilers::plans::Program;
use rattle_std::alloc::{AllocError, Global};
use rattle_std::vec::Vec as List;

use crate::error::Error;
use crate::memory::{OutOfMemory, copied, copied_bytes, displayed, joined, listed, openable, path_from};
use crate::plan::{Command, CommandTool};
use crate::ptx::names_in_ptx;
use crate::words::TextsIter;

/// The tools whose words name all that they touch.
const TOOLS: [CommandTool; 3] = [CommandTool::CudaFe, CommandTool::Cicc, CommandTool::Ptxas];

/// Where the loader looks for libm in a folder, by what the processor can do.
const LIBMS: [&str; 4] = [
    "glibc-hwcaps/x86-64-v4/libm.so.6",
    "glibc-hwcaps/x86-64-v3/libm.so.6",
    "glibc-hwcaps/x86-64-v2/libm.so.6",
    "libm.so.6",
];

/// The library for device code, by the one name that cicc looks for in its folder.
const LIBRARY: &str = "libdevice.10.bc";

/// Says where a path really leads.
pub type RealPath<'a> = &'a dyn Fn(&CStr) -> io::Result<Vec<u8>>;

/// What a cache hashes of a command: this text, then the contents of the tool's files, and of what the
/// command [reads](Command::reads).
#[derive(Debug, Clone, PartialEq, Eq)]
pub struct CacheKey {
    /// The words, variables, directories and files' times that may change what the command makes.
    pub text: Vec<u8>,
    /// The files that tell one version of the tool from another: the program, and what it reads beside its
    /// words.
    pub tool: Vec<PathBuf>,
}

/// A command, as the table of words reads it.
struct Asked<'a> {
    tool: Program,
    words: Vec<&'a [u8]>,
    cwd: &'a str,
    reads: Vec<&'a [u8]>,
    products: Vec<&'a [u8]>,
}

impl<'a> Asked<'a> {
    fn of(command: Command<'a>, tool: CommandTool) -> Result<Self, OutOfMemory> {
        let bytes = |texts: TextsIter<'a>| listed(texts.map(|text| Ok::<_, OutOfMemory>(text.as_bytes())));
        let (words, reads, products) =
            (bytes(command.arguments())?, bytes(command.reads())?, bytes(command.writes())?);
        Ok(Asked { tool: tool.program(), words, cwd: command.cwd(), reads, products })
    }

    /// So many of its words, as they count: where products go doesn't. `None` if a cache doesn't know them.
    fn counted(&self, count: usize) -> Result<Option<List<CountedWord<'a>>>, AllocError> {
        let Some(words) = self.words.get(..count) else { return Ok(None) };
        let files = NamedFiles { cwd: self.cwd.as_bytes(), reads: &self.reads, products: &self.products };
        counted_words(Global, self.tool, words, &files)
    }

    /// The first word that a cache doesn't know: up to it there is no reading, and none up to the next, which
    /// might be its value.
    fn unknown(&self) -> Option<&'a [u8]> {
        let is_known = |count| self.counted(count).is_ok_and(|words| words.is_some());
        let count = (1..=self.words.len()).find(|&count| !is_known(count) && !is_known(count + 1))?;
        Some(self.words[count - 1])
    }
}

/// The value of a variable of a command, or an empty text. Of a name that occurs twice, the last value
/// counts.
fn value_of<'a>(command: Command<'a>, name: &str) -> &'a str {
    command.variables().filter(|variable| variable.0 == name).last().map_or("", |variable| variable.1)
}

/// Whether the loader runs code in a tool that isn't its own.
fn has_other_code(command: Command<'_>) -> bool {
    ["LD_AUDIT", "LD_PRELOAD"].iter().any(|name| !value_of(command, name).is_empty())
}

/// Whether the kernel runs a program itself. A script may run anything.
fn is_binary(program: &str) -> io::Result<bool> {
    let mut begin = [0; 4];
    let read = File::open(openable(program)?)?.read(&mut begin)?;
    Ok(begin[..read] == *b"\x7fELF")
}

/// What counts of a command beside its words and variables: facts with names that no variable of a tool has.
#[derive(Default)]
struct Facts(Vec<(Vec<u8>, Vec<u8>)>);

impl Facts {
    fn add(&mut self, name: Vec<u8>, value: Vec<u8>) -> Result<(), OutOfMemory> {
        self.0.try_reserve(1)?;
        self.0.push((name, value));
        Ok(())
    }

    /// Adds where a path of a command leads, or nothing if there is no such file.
    fn add_place(
        &mut self,
        name: &str,
        command: Command<'_>,
        path: &str,
        real: RealPath<'_>,
    ) -> Result<(), Error> {
        let path = joined(&[&path_from(command.cwd(), path)?, "\0"])?;
        let path = CStr::from_bytes_with_nul(path.as_bytes()).map_err(|_| Error::nul())?;
        let place = match real(path) {
            Err(error) if error.kind() == io::ErrorKind::OutOfMemory => return Err(OutOfMemory.into()),
            found => found.unwrap_or_default(),
        };
        Ok(self.add(copied_bytes(name.as_bytes())?, place)?)
    }

    /// Adds the files that the PTX of a command names. Of each, ptxas writes the size, and when it was
    /// changed.
    fn add_named(&mut self, command: Command<'_>) -> Result<(), Error> {
        let odd = || Error::uncacheable("its PTX names files", None);
        for path in command.reads() {
            let ptx = openable(path).and_then(fs::read).map_err(unread)?;
            for name in names_in_ptx(&ptx) {
                let name = name.and_then(|name| str::from_utf8(name).ok()).ok_or_else(odd)?;
                let of = stamp(&path_from(command.cwd(), name)?).map_err(unread)?;
                self.add(joined(&[".file ", name])?.into_bytes(), of.into_bytes())?;
            }
        }
        Ok(())
    }
}

/// By Rust's library, which needs memory for it.
fn real_path(path: &CStr) -> io::Result<Vec<u8>> {
    let path = path.to_str().map_err(|_| io::ErrorKind::InvalidInput)?;
    fs::canonicalize(path).map(|real| real.into_os_string().into_encoded_bytes())
}

/// The size of a file, and when it was changed. Nothing if it isn't there.
fn stamp(path: &str) -> io::Result<String> {
    let Ok(status) = openable(path).and_then(fs::metadata) else { return Ok(String::new()) };
    let text = |time: &dyn Display| {
        displayed(&format_args!("{} {time}", status.len())).map_err(|_| io::ErrorKind::OutOfMemory.into())
    };
    match status.modified()?.duration_since(UNIX_EPOCH) {
        Ok(since) => text(&since.as_nanos()),
        Err(before) => text(&format_args!("-{}", before.duration().as_nanos())),
    }
}

/// The facts of a command. If names reach what it makes, its directory is one, and where that and the source
/// really are.
fn facts(
    command: Command<'_>,
    tool: CommandTool,
    names_reach: bool,
    real: RealPath<'_>,
) -> Result<Facts, Error> {
    let mut facts = Facts::default();
    let name = command.program().rsplit('/').next().unwrap_or_default();
    facts.add(copied_bytes(b".tool")?, copied_bytes(name.as_bytes())?)?;
    // (a module id has a sum of where the source really is)
    for (_, source) in command
        .arguments()
        .zip(command.arguments().skip(1))
        .filter(|(option, _)| *option == "--orig_src_path_name")
    {
        facts.add_place(".source", command, source, real)?;
    }
    if names_reach {
        facts.add(copied_bytes(b".cwd")?, copied_bytes(command.cwd().as_bytes())?)?;
        facts.add_place(".place", command, "", real)?;
    }
    if tool == CommandTool::Ptxas {
        facts.add_named(command)?;
    }
    Ok(facts)
}

/// The text of a command's key, given its words as they count.
fn text_of(
    command: Command<'_>,
    tool: CommandTool,
    words: &[CountedWord<'_>],
    names_reach: bool,
    facts: &Facts,
) -> Result<Vec<u8>, Error> {
    let environment: Vec<_> = listed(
        command.variables().map(|(name, value)| Ok::<_, OutOfMemory>((name.as_bytes(), value.as_bytes()))),
    )?;
    let chosen = tool_variables(Global, tool.program(), &environment)?;
    let counting = chosen.as_slice().iter().copied().filter(|(name, _)| names_reach || *name != b"PWD");
    let all = counting.chain(facts.0.iter().map(|(name, value)| (name.as_slice(), value.as_slice())));
    let variables: Vec<(&[u8], &[u8])> = listed(all.map(Ok::<_, OutOfMemory>))?;
    let key = counted_key(Global, words, names_reach, &variables, &[])?.ok_or_else(Error::nul)?;
    Ok(copied_bytes(key.as_slice())?)
}

fn unread(error: io::Error) -> Error {
    Error::io("read a file of the command", error)
}

/// The files that tell one version of the tool from another.
#[derive(Default)]
struct ToolFiles(Vec<PathBuf>);

impl ToolFiles {
    fn add(&mut self, path: String) -> Result<(), OutOfMemory> {
        self.0.try_reserve(1)?;
        self.0.push(path.into());
        Ok(())
    }

    fn add_if_there(&mut self, path: String) -> Result<(), OutOfMemory> {
        if openable(&path).is_ok_and(Path::is_file) { self.add(path) } else { Ok(()) }
    }

    /// Adds the libraries that the loader may take in place of the system's libm. cicc has libm compute
    /// constants.
    fn add_libms(&mut self, command: Command<'_>) -> Result<(), OutOfMemory> {
        let folders = value_of(command, "LD_LIBRARY_PATH");
        for folder in folders.split([':', ';']).filter(|_| !folders.is_empty()) {
            for name in LIBMS {
                self.add_if_there(path_from(
                    command.cwd(),
                    &joined(&[folder, if folder.is_empty() { "" } else { "/" }, name])?,
                )?)?;
            }
        }
        Ok(())
    }

    /// Adds the library for device code that cicc reads: that beside it, and that in the folder that a
    /// variable names.
    fn add_libraries(&mut self, command: Command<'_>) -> Result<(), OutOfMemory> {
        let beside = Path::new(command.program()).ancestors().nth(2).and_then(Path::to_str);
        let named = Some(value_of(command, "NVVMIR_LIBRARY_DIR")).filter(|folder| !folder.is_empty());
        if let Some(toolkit) = beside {
            self.add_if_there(joined(&[toolkit, "/libdevice/", LIBRARY])?)?;
        }
        named.map_or(Ok(()), |folder| self.add_if_there(joined(&[folder, "/", LIBRARY])?))
    }
}

impl Command<'_> {
    /// What a cache hashes of this command. Two commands with equal keys, whose tools' files and inputs have
    /// equal contents, make files of equal contents, in whatever directories they run; if debugging
    /// information names directories, the key has them. Two exceptions: if a source defines no external name,
    /// cudafe++ makes up another module id each time; and cicc has libm compute constants such as `cos(8.2)`,
    /// whose last bit can depend on the C library and on the processor. So if machines that differ in these
    /// share a cache, hash what tells them apart, too.
    ///
    /// # Errors
    ///
    /// [`ErrorKind::BadLine`](crate::ErrorKind), with the reason, if a cache may not serve the command: it
    /// isn't one of cudafe++, cicc or ptxas, whose words name all that it touches; a word of it isn't known
    /// or names a further file; its program is a script; `LD_PRELOAD` or `LD_AUDIT` is set; the PTX that
    /// ptxas reads has a `.file` of an odd form. `Io` if the program, its library or its PTX can't be read,
    /// so ask when the commands that it needs have ended; `OutOfMemory`.
    pub fn cache_key(&self) -> Result<CacheKey, Error> {
        self.cache_key_by(&real_path)
    }

    /// The same, given what says where a path really leads.
    #[doc(hidden)]
    pub fn cache_key_by(&self, real: RealPath<'_>) -> Result<CacheKey, Error> {
        let refused = |why| Error::uncacheable(why, None);
        let others = || refused("only cudafe++, cicc and ptxas name all that they touch");
        let tool = self.tool().filter(|tool| TOOLS.contains(tool)).ok_or_else(others)?;
        if !self.is_cacheable() || self.missing().is_some() {
            return Err(refused("its line can't be read"));
        }
        let asked = Asked::of(*self, tool)?;
        let Some(words) = asked.counted(asked.words.len())? else {
            let word = asked.unknown().and_then(|word| str::from_utf8(word).ok()).map(copied).transpose()?;
            return Err(Error::uncacheable("unknown word", word));
        };
        if has_other_code(*self) {
            return Err(refused("LD_PRELOAD or LD_AUDIT is set"));
        }
        if !is_binary(self.program()).map_err(unread)? {
            return Err(refused("its program is a script"));
        }
        let names_reach = names_reach(asked.tool, &asked.words);
        let facts = facts(*self, tool, names_reach, real)?;
        let text = text_of(*self, tool, words.as_slice(), names_reach, &facts)?;
        let mut files = ToolFiles::default();
        files.add(copied(self.program())?)?;
        files.add_libms(*self)?;
        if tool == CommandTool::Cicc {
            files.add_libraries(*self)?;
        }
        Ok(CacheKey { text, tool: files.0 })
    }
}
