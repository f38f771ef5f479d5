//! Lines of nvcc: their words, and where they are made.
use crate::error::{Error, ErrorKind, Input};
use crate::memory::{OutOfMemory, copied, copied_pairs, listed, openable, pairs, path_from, strings, texts};
use crate::outline::{Outline, Run};
use crate::variable::Variable;
use canonical_names::is_plain;
use compilers::command::SingleCompileCommand;
use compilers::{DirectoryCall, NvccCall as ProvedCall};
use nvcc_calls::{Answer, directory_name, file_names, read_call};
use rattle_std::alloc::Global;
use std::ffi::OsStr;
use std::fs::{self, File};
use std::io::Read;
use std::path::Path;

/// The variables whose words nvcc adds to a line. What runs for a line gets these words once, so it runs
/// without these variables.
pub const FLAG_VARIABLES: [&str; 2] = ["NVCC_PREPEND_FLAGS", "NVCC_APPEND_FLAGS"];

/// An nvcc line, and where it is made, as texts of the caller.
#[derive(Clone, Copy, Debug, PartialEq, Eq)]
pub struct NvccCall<'a, S> {
    /// nvcc's path or name.
    pub nvcc: &'a OsStr,
    /// The line's words without nvcc's name.
    pub words: &'a [S],
    /// All of the environment: [`variables`](crate::variables()) of [`std::env::vars_os`]. nvcc reads
    /// `NVCC_PREPEND_FLAGS` and `NVCC_APPEND_FLAGS` there, and the commands run in it, so with another one
    /// the plan is that of another call.
    pub variables: &'a [Variable<'a>],
    /// The working directory, an absolute path.
    pub cwd: &'a Path,
    /// The directory for temporary files, an absolute path. It has to be there.
    pub tmp: &'a Path,
}

impl<'a, S> NvccCall<'a, S> {
    /// A call in the directory `/`, with files in `/tmp`, and without an environment.
    #[must_use]
    pub fn new<N: AsRef<OsStr> + ?Sized>(nvcc: &'a N, words: &'a [S]) -> Self {
        NvccCall { nvcc: nvcc.as_ref(), words, variables: &[], cwd: Path::new("/"), tmp: Path::new("/tmp") }
    }

    /// The same in another working directory, with another one for temporary files.
    #[must_use]
    pub fn at<C: AsRef<Path> + ?Sized, T: AsRef<Path> + ?Sized>(self, cwd: &'a C, tmp: &'a T) -> Self {
        NvccCall { cwd: cwd.as_ref(), tmp: tmp.as_ref(), ..self }
    }

    /// The same in an environment.
    #[must_use]
    pub fn variables(self, variables: &'a [Variable<'a>]) -> Self {
        NvccCall { variables, ..self }
    }
}

/// An nvcc line, and where it is made.
#[derive(Clone, Debug, PartialEq, Eq)]
pub struct NvccLine {
    /// The working directory's path.
    pub cwd: String,
    /// nvcc's name or path.
    pub nvcc: String,
    /// The words behind it.
    pub words: Vec<String>,
    /// The environment. Of it [`FLAG_VARIABLES`], `ZIGRUNK_JOBS`, `MAKEFLAGS` and `ZIGRUNK_IN_PLACE` count.
    pub variables: Vec<(String, String)>,
}

/// A copy of a text of the caller.
pub(crate) fn text_in(text: &OsStr, input: Input) -> Result<String, Error> {
    Ok(copied(text.to_str().ok_or_else(|| Error::plain(ErrorKind::NotUtf8).at(input))?)?)
}

/// Refuses a directory that isn't absolute and plain. Two commands are taken to use one file if its paths are
/// the same text, so a plan for a directory that has several texts would lack needs.
pub(crate) fn plain(path: &str, input: Input) -> Result<(), Error> {
    if is_plain(path) { Ok(()) } else { Err(Error::odd_directory(input)) }
}

/// Copies of variables of the caller.
pub(crate) fn variables_in(variables: &[Variable<'_>]) -> Result<Vec<(String, String)>, Error> {
    let pair = |variable: &Variable<'_>| {
        let (name, value) = variable.texts()?;
        Ok((copied(name)?, copied(value)?))
    };
    listed(variables.iter().map(pair))
}

impl NvccLine {
    /// The line of a call.
    pub(crate) fn of<S: AsRef<OsStr>>(call: &NvccCall<'_, S>) -> Result<NvccLine, Error> {
        Ok(NvccLine {
            cwd: text_in(call.cwd.as_os_str(), Input::Cwd)?,
            nvcc: text_in(call.nvcc, Input::Nvcc)?,
            words: listed(call.words.iter().map(|word| text_in(word.as_ref(), Input::Words)))?,
            variables: variables_in(call.variables)?,
        })
    }

    /// The name of the line's directory for temporary files. The same line has the same one each time, since
    /// some commands write its path into what they make.
    ///
    /// # Errors
    ///
    /// [`ErrorKind::OutOfMemory`].
    pub fn directory_name(&self) -> Result<String, Error> {
        let words = texts(&self.words)?;
        let call = DirectoryCall { cwd: &self.cwd, nvcc: &self.nvcc, words: &words };
        Ok(copied(directory_name(Global, &call, &pairs(&self.variables)?)?.as_str())?)
    }

    /// The words of a variable, as nvcc cuts its value. A call is split only if they have no quotes.
    fn flags(&self, name: &str) -> impl Iterator<Item = &str> {
        let value = self.variables.iter().find(|(of, _)| of == name).map(|(_, value)| value.as_str());
        value.unwrap_or_default().split_whitespace()
    }

    /// The line's words with those that nvcc adds by its variables.
    ///
    /// # Errors
    ///
    /// [`OutOfMemory`].
    pub fn all_words(&self) -> Result<Vec<String>, OutOfMemory> {
        let [prepended, appended] = FLAG_VARIABLES.map(|name| self.flags(name));
        listed(prepended.chain(self.words.iter().map(String::as_str)).chain(appended).map(copied))
    }

    /// The text of a plain file that the line names. nvcc reads an options file too, and a pipe gives its
    /// bytes only once.
    fn options_file(&self, name: &str) -> Result<Option<(String, String)>, OutOfMemory> {
        let path = path_from(&self.cwd, name)?;
        let Ok(path) = openable(&path) else { return Ok(None) };
        let Some(file) = fs::metadata(path).ok().filter(fs::Metadata::is_file) else { return Ok(None) };
        let mut content = String::new();
        content.try_reserve_exact(usize::try_from(file.len()).unwrap_or(usize::MAX))?;
        let is_read = File::open(path).is_ok_and(|mut file| file.read_to_string(&mut content).is_ok());
        if is_read { Ok(Some((copied(name)?, content))) } else { Ok(None) }
    }

    /// The options files that the line names, with their texts.
    fn options_files(&self) -> Result<Vec<(String, String)>, Error> {
        let names = file_names(Global, &texts(&self.words)?, &pairs(&self.variables)?)?;
        let files = names.as_slice().iter().map(|name| self.options_file(name.as_str()));
        Ok(listed(files.filter_map(Result::transpose))?)
    }

    /// What the line says, if its files go to the directory `tmp`. It reads the options files that the line
    /// names.
    ///
    /// # Errors
    ///
    /// [`ErrorKind::ToNvcc`], with the reason, if nvcc has to make the call itself; `OutOfMemory`.
    pub fn read(&self, tmp: &str) -> Result<Outline, Error> {
        let (words, variables) = (texts(&self.words)?, pairs(&self.variables)?);
        let files = pairs(&self.options_files()?)?;
        let call = ProvedCall { cwd: &self.cwd, tmp, nvcc: &self.nvcc, words: &words };
        match read_call(Global, &call, &variables, &files)? {
            Answer::Pass(reason) => Err(Error::to_nvcc(reason)),
            Answer::Split(outline) => self.outline(&outline),
        }
    }

    /// An outline in texts of our own.
    fn outline(&self, outline: &nvcc_calls::Outline) -> Result<Outline, Error> {
        let run = |command: &SingleCompileCommand| self.run_of(command);
        let own = listed(
            [&self.nvcc, "--dryrun"].into_iter().map(copied).chain(self.all_words()?.into_iter().map(Ok)),
        )?;
        Ok(Outline {
            dependencies: outline.dependencies.as_ref().map(run).transpose()?,
            own_dry_run: Run::new(own, copied(&self.cwd)?).within(self.environment()?),
            first_dry_run: run(&outline.first)?,
            second_dry_run: run(&outline.second)?,
            flag: copied(outline.flag.as_str())?,
            jobs: (outline.jobs > 0).then_some(outline.jobs),
            keep_dir: outline.keep_dir.as_ref().map(|folder| copied(folder.as_str())).transpose()?,
        })
    }

    /// A command of an outline.
    fn run_of(&self, command: &SingleCompileCommand) -> Result<Run, OutOfMemory> {
        let mut words = strings(command.arguments.as_slice())?;
        words.try_reserve(1)?;
        words.insert(0, copied(command.executable.as_str())?);
        Ok(Run::new(words, copied(command.cwd.as_str())?).within(self.environment()?))
    }

    /// The environment without the variables of flags.
    fn environment(&self) -> Result<Vec<(String, String)>, OutOfMemory> {
        copied_pairs(self.variables.iter().filter(|(name, _)| !FLAG_VARIABLES.contains(&name.as_str())))
    }
}

#[cfg(test)]
mod tests {
    use super::*;
    use crate::test_folder::TestFolder;

    fn line(words: &str, cwd: &str) -> NvccLine {
        let variables = [("ZIGRUNK_JOBS", "3"), ("A", "1"), ("NVCC_APPEND_FLAGS", "-DX=1  -DY")]
            .map(|(name, value)| (name.to_owned(), value.to_owned()));
        NvccLine {
            cwd: cwd.into(),
            nvcc: "nvcc".into(),
            words: words.split(' ').map(String::from).collect(),
            variables: variables.into(),
        }
    }

    #[test]
    fn a_lines_directory_has_one_name() {
        let lines =
            [line("-c k.cu", "/w"), line("-c k.cu", "/w"), line("-c j.cu", "/w"), line("-c k.cu", "/v")];
        let names = lines.map(|line| line.directory_name().unwrap());
        assert!(names[0] == names[1] && names[0] != names[2] && names[0] != names[3], "{names:?}");
    }

    #[test]
    fn an_outline_has_what_the_line_and_its_options_file_say() {
        let scratch = TestFolder::new();
        fs::write(scratch.join("words"), "-o k.o -MD\n").unwrap();
        let of = |words: &str| line(words, scratch.to_str().unwrap()).read("/t");
        let outline = of("-c k.cu --options-file words").unwrap();
        assert_eq!((outline.flag.as_str(), outline.jobs, outline.keep_dir.as_deref()), ("-c", Some(3), None));
        assert_eq!((outline.input(), outline.outputs().collect::<Vec<_>>()), ("k.cu", vec!["k.o", "k.d"]));
        assert!(
            outline
                .dependencies
                .is_some_and(|rule| rule.words()[0] == "nvcc" && rule.words().contains(&"-M".into()))
        );
        for run in [&outline.own_dry_run, &outline.first_dry_run, &outline.second_dry_run] {
            assert_eq!((run.cwd(), run.words()[0].as_str()), (scratch.to_str().unwrap(), "nvcc"));
            assert!(
                run.words().contains(&"--dryrun".into()) && run.words().contains(&"-DX=1".into()),
                "{run:?}"
            );
            assert!(run.environment().iter().map(|(name, _)| name).eq(["ZIGRUNK_JOBS", "A"]), "{run:?}");
        }
        assert!(
            outline.second_dry_run.words().contains(&"/t".into())
                && !outline.first_dry_run.words().contains(&"/t".into())
        );
        assert_eq!(
            outline.own_dry_run.words()[2..],
            ["-c", "k.cu", "--options-file", "words", "-DX=1", "-DY"]
        );
        assert_eq!(of("-c k.cu -o k.o").unwrap().dependencies, None);
        assert!(of("k.o -o k").is_err() && of("-c k.cu --options-file missing").is_err());
    }

    #[test]
    fn options_files_are_plain_files_in_utf8() {
        let scratch = TestFolder::new();
        fs::write(scratch.join("good"), "-O2").unwrap();
        fs::write(scratch.join("bad"), b"\xff").unwrap();
        fs::create_dir(scratch.join("folder")).unwrap();
        let line = line("-c k.cu", scratch.to_str().unwrap());
        assert_eq!(line.options_file("good"), Ok(Some(("good".into(), "-O2".into()))));
        assert_eq!(
            ["bad", "folder", "missing", "/dev/null"].map(|name| line.options_file(name)),
            [const { Ok(None) }; 4]
        );
    }
}
