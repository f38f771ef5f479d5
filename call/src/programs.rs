//! Look-ups of the programs that dry runs name.
use crate::error::{BadLine, Error, Input};
use crate::memory::{OutOfMemory, copied, listed, openable, text};
use crate::nvcc_line::{plain, text_in};
use crate::words::Texts;
use dry_runs::{LimitedFault, ParsedRuns, Which, lookups_of_runs, parse_dry_runs, parse_within};
use rattle_std::alloc::{AllocError, Global};
use rattle_std::string::String as Text;
use std::cell::RefCell;
use std::env;
use std::ffi::OsStr;
use std::fs::{self, Metadata};
use std::num::NonZeroUsize;
use std::path::{Path, PathBuf};

/// Whether a file has an execute bit.
#[cfg(unix)]
fn is_executable(file: &Metadata) -> bool {
    std::os::unix::fs::MetadataExt::mode(file) & 0o111 != 0
}

/// Whether a file may be run. Nothing here says more.
#[cfg(not(unix))]
fn is_executable(_: &Metadata) -> bool {
    true
}

/// Whether a path is that of a program: a plain file with an execute bit.
#[must_use]
pub fn is_program(path: &Path) -> bool {
    fs::metadata(path).is_ok_and(|file| file.is_file() && is_executable(&file))
}

/// The path of a program by its name and the value of `PATH`, as a shell in `folder` finds it.
#[must_use]
pub fn find(name: &OsStr, path: &OsStr, folder: &Path) -> Option<PathBuf> {
    if name.as_encoded_bytes().contains(&b'/') {
        let found = folder.join(name);
        return is_program(&found).then_some(found);
    }
    env::split_paths(path).map(|part| folder.join(part).join(name)).find(|found| is_program(found))
}

/// A program that a dry run names, and the value of `PATH` there.
#[derive(Clone, Debug, PartialEq, Eq, Hash)]
pub struct Lookup {
    /// The program, as the dry run names it.
    pub program: String,
    /// The value of `PATH` at that line.
    pub path: String,
}

/// A look-up, and what it found.
#[derive(Clone, Debug, PartialEq, Eq, Hash)]
pub struct FoundProgram {
    /// What to look up.
    pub lookup: Lookup,
    /// The program's path, or `None` if there is no such program.
    pub found: Option<String>,
}

/// Finds the programs that dry runs name. A list of [`FoundProgram`] answers with the first row of a look-up,
/// and [`Disk`] looks on this machine's.
pub trait Programs {
    /// The path of a program by the value of `PATH` and the working directory, if there is such a program.
    ///
    /// # Errors
    ///
    /// [`OutOfMemory`].
    fn find(&self, program: &str, path: &str, cwd: &str) -> Result<Option<String>, OutOfMemory>;
}

impl<P: Programs + ?Sized> Programs for &P {
    fn find(&self, program: &str, path: &str, cwd: &str) -> Result<Option<String>, OutOfMemory> {
        (**self).find(program, path, cwd)
    }
}

/// A row of a table of programs: a program, the value of `PATH`, and the path that it has, if it is there. An
/// empty path is none.
pub type ProgramRow<'a> = (&'a str, &'a str, Option<&'a str>);

/// What a table says of a look-up: the path in its first row.
///
/// # Errors
///
/// [`OutOfMemory`].
pub fn found_in<'a>(
    mut rows: impl Iterator<Item = ProgramRow<'a>>,
    program: &str,
    path: &str,
) -> Result<Option<String>, OutOfMemory> {
    rows.find(|row| (row.0, row.1) == (program, path))
        .and_then(|row| row.2)
        .filter(|path| !path.is_empty())
        .map(copied)
        .transpose()
}

impl Programs for [FoundProgram] {
    fn find(&self, program: &str, path: &str, _: &str) -> Result<Option<String>, OutOfMemory> {
        found_in(
            self.iter()
                .map(|row| (row.lookup.program.as_str(), row.lookup.path.as_str(), row.found.as_deref())),
            program,
            path,
        )
    }
}

impl Programs for Vec<FoundProgram> {
    fn find(&self, program: &str, path: &str, cwd: &str) -> Result<Option<String>, OutOfMemory> {
        self.as_slice().find(program, path, cwd)
    }
}

/// The programs on this machine's disk. Each path is looked at once: most commands are of few programs.
#[derive(Debug, Default)]
pub struct Disk(RefCell<Vec<(String, bool)>>);

impl Disk {
    fn has(&self, path: &str) -> Result<bool, OutOfMemory> {
        let mut known = self.0.borrow_mut();
        if let Some((_, is)) = known.iter().find(|(of, _)| of == path) {
            return Ok(*is);
        }
        let is = openable(path).is_ok_and(is_program);
        known.try_reserve(1)?;
        known.push((copied(path)?, is));
        Ok(is)
    }
}

impl Programs for Disk {
    fn find(&self, program: &str, path: &str, cwd: &str) -> Result<Option<String>, OutOfMemory> {
        for path in dry_runs::candidates(Global, program, path, cwd)?.as_slice() {
            if self.has(path.as_str())? {
                return Ok(Some(copied(path.as_str())?));
            }
        }
        Ok(None)
    }
}

/// Look-ups for the proved crates.
pub(crate) struct Proved<'a>(pub &'a dyn Programs);

impl Which for Proved<'_> {
    fn found(&self, _: Global, program: &str, path: &str, cwd: &str) -> Result<Option<Text>, AllocError> {
        let found = self.0.find(program, path, cwd).map_err(|_| AllocError)?;
        found.map(|found| text(&found).map_err(|_| AllocError)).transpose()
    }
}

/// Lists the look-ups of programs that a plan of two dry runs needs, none twice. With a limit, reading each
/// dry run makes at most so many bytes of text; each command counts the value of `PATH` too, since looking
/// its program up holds that.
///
/// # Errors
///
/// [`ErrorKind::OverLimit`](crate::ErrorKind) if a line exceeds the limit, `OddDirectory`, `NotUtf8`,
/// `OutOfMemory`. A line that can't be read is an error of [`plan`](crate::plan()), not of this call.
pub fn lookups(
    dry1: &[u8],
    dry2: &[u8],
    cwd: &Path,
    limit: Option<NonZeroUsize>,
) -> Result<Vec<Lookup>, Error> {
    let cwd = text_in(cwd.as_os_str(), Input::Cwd)?;
    plain(&cwd, Input::Cwd)?;
    let runs = parsed(dry1, dry2, &cwd, limit)?;
    let lookups = lookups_of_runs(Global, &runs, &cwd)?;
    let lookup = |it: &dry_runs::Lookup| {
        Ok(Lookup { program: copied(it.program.as_str())?, path: copied(it.path.as_str())? })
    };
    Ok(listed(lookups.iter().map(lookup)).map_err(|lack: OutOfMemory| lack)?)
}

fn parsed(dry1: &[u8], dry2: &[u8], cwd: &str, limit: Option<NonZeroUsize>) -> Result<ParsedRuns, Error> {
    match limit {
        None => Ok(parse_dry_runs(Global, dry1, dry2)?),
        Some(limit) => {
            parse_within(Global, dry1, dry2, cwd, limit.get()).map_err(|fault| within(fault, limit.get()))
        }
    }
}

/// The error of a fault within a limit.
pub(crate) fn within(fault: LimitedFault, limit: usize) -> Error {
    match fault {
        LimitedFault::Fault(fault) => fault.into(),
        LimitedFault::TooLong { run, line } => Error::dry_run(run, line + 1, BadLine::TooLong(limit)),
    }
}

/// Lists the paths that a look-up tries from a working directory, in order: the first that is an executable
/// file is the program.
///
/// # Errors
///
/// [`ErrorKind::OddDirectory`](crate::ErrorKind), `NotUtf8`, `OutOfMemory`.
pub fn candidates(lookup: &Lookup, cwd: &Path) -> Result<Texts, Error> {
    let cwd = text_in(cwd.as_os_str(), Input::Cwd)?;
    plain(&cwd, Input::Cwd)?;
    Ok(Texts::of(dry_runs::candidates(Global, &lookup.program, &lookup.path, &cwd)?))
}

/// Finds the programs that a plan of two dry runs needs, on this machine: [`Disk`] for each of the
/// [`lookups`].
///
/// # Errors
///
/// Those of [`lookups`].
pub fn find_programs(
    dry1: &[u8],
    dry2: &[u8],
    cwd: &Path,
    limit: Option<NonZeroUsize>,
) -> Result<Vec<FoundProgram>, Error> {
    let (disk, folder) = (Disk::default(), text_in(cwd.as_os_str(), Input::Cwd)?);
    let found = |lookup: Lookup| {
        Ok(FoundProgram { found: disk.find(&lookup.program, &lookup.path, &folder)?, lookup })
    };
    listed(lookups(dry1, dry2, cwd, limit)?.into_iter().map(found))
}

#[cfg(test)]
mod tests {
    use super::*;
    use crate::test_folder::TestFolder;
    use std::os::unix::fs::PermissionsExt;

    /// A file of a folder, with a mode.
    fn tool(folder: &TestFolder, mode: u32) -> PathBuf {
        let tool = folder.join("tool");
        fs::write(&tool, "").unwrap();
        fs::set_permissions(&tool, PermissionsExt::from_mode(mode)).unwrap();
        tool
    }

    #[test]
    fn programs_are_files_that_can_be_run() {
        let scratch = TestFolder::new();
        let is = |mode| is_program(&tool(&scratch, mode));
        assert_eq!(
            [0o755, 0o700, 0o070, 0o001, 0o644, 0o600].map(is),
            [true, true, true, true, false, false]
        );
        assert!(!is_program(&scratch) && !is_program(&scratch.join("missing")));
    }

    #[test]
    fn programs_are_looked_up_once() {
        let scratch = TestFolder::new();
        let tool = tool(&scratch, 0o755);
        let (disk, path) = (Disk::default(), format!("/missing:{}", scratch.display()));
        assert_eq!(disk.find("tool", &path, "/").unwrap().as_deref(), tool.to_str());
        fs::remove_file(&tool).unwrap();
        assert_eq!(disk.find("tool", &path, "/").unwrap().as_deref(), tool.to_str());
        assert_eq!(disk.find("other", &path, "/"), Ok(None));
    }

    #[test]
    fn the_first_row_of_a_look_up_counts() {
        let row = |path: &str, found: Option<&str>| FoundProgram {
            lookup: Lookup { program: "cicc".into(), path: path.into() },
            found: found.map(String::from),
        };
        let rows = vec![
            row("/a", None),
            row("/b", Some("/x/cicc")),
            row("/b", Some("/y/cicc")),
            row("/d", Some("")),
        ];
        let found = |program: &str, path: &str| rows.find(program, path, "/").unwrap();
        assert_eq!(found("cicc", "/b"), Some("/x/cicc".into()));
        assert_eq!(
            [found("cicc", "/a"), found("cicc", "/c"), found("cicc", "/d"), found("gcc", "/b")],
            [None, None, None, None]
        );
    }

    #[test]
    fn a_program_is_found_as_a_shell_finds_it() {
        assert_eq!(find("sh".as_ref(), "/missing:/bin".as_ref(), Path::new("/")), Some("/bin/sh".into()));
        assert_eq!(find("bin/sh".as_ref(), "".as_ref(), Path::new("/")), Some("/bin/sh".into()));
        assert_eq!(find("sh".as_ref(), "bin".as_ref(), Path::new("/")), Some("/bin/sh".into()));
        assert_eq!(find("missing".as_ref(), "/bin".as_ref(), Path::new("/")), None);
        assert_eq!(find("bin".as_ref(), "/".as_ref(), Path::new("/")), None, "a folder");
    }
}
