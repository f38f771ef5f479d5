//! The observer (`observer.c`) as this program carries it: a library for the processes of commands, and a
//! file of records for each command.
use crate::observed::{Gap, Loads, Observed, Scope, observed_part};
use crate::system;
use machine::jobs::Job;
use machine::settings::own_variable;
use machine::streams::{complain, content_of};
use std::collections::BTreeMap;
use std::env;
use std::ffi::OsString;
use std::fs::{self, File};
use std::io::{self, ErrorKind};
use std::os::unix::ffi::OsStrExt;
use std::os::unix::process::{CommandExt, ExitStatusExt};
use std::path::{Path, PathBuf};
use std::process::{self, Command};

/// The library, as it was built with this program: empty where there is none.
const LIBRARY: &[u8] = include_bytes!(concat!(env!("OUT_DIR"), "/observer.so"));
const PRELOAD: &str = "LD_PRELOAD";
/// The variable that names the file of records.
const RECORDS: &str = "ZIGRUNK_OBSERVED";
/// What ends a name in `LD_PRELOAD`, or begins one that the loader knows.
const MARKS: [char; 3] = [' ', ':', '$'];

/// By these the loader of each process says where it looks for libraries, and in which file.
const LOADER_SAYS: &str = "LD_DEBUG";
const SAYS_IN: &str = "LD_DEBUG_OUTPUT";
/// The folders where it looks, which it says in lines.
const FOLDERS: &str = "LD_LIBRARY_PATH";

/// A process that is to be observed: nvcc's dry run of this number, or one for a task of the plan.
#[derive(Clone, Copy, PartialEq, Eq, PartialOrd, Ord, Debug)]
pub enum Subject {
    /// The dry run of this number.
    DryRun(usize),
    /// The preprocessor that writes what the task of this number reads, for its key.
    Question(usize),
    /// The task of this number.
    Task(usize),
}

/// A folder with the library, and the commands that have it in their processes.
#[derive(Debug)]
pub struct Observer {
    folder: PathBuf,
    /// The path of each command's program, and its files of records: it may run more than once.
    commands: BTreeMap<Subject, (PathBuf, Vec<PathBuf>)>,
}

impl Observer {
    /// Makes a new folder and puts the library there.
    /// Errors: those of the disk, and `Unsupported` for a folder from which no process can load it, or a
    /// platform without it.
    pub fn new(folder: PathBuf) -> io::Result<Observer> {
        let may_load = folder.to_str().is_some_and(|path| path.starts_with('/') && !path.contains(MARKS));
        if LIBRARY.is_empty() || !may_load || !folder.parent().is_some_and(system::may_run) {
            return Err(ErrorKind::Unsupported.into());
        }
        fs::create_dir(&folder)?;
        fs::write(folder.join("observer.so"), LIBRARY)?;
        Ok(Observer { folder, commands: BTreeMap::new() })
    }

    /// The job of a command with the observer in its processes. A library that it has anyway stays behind the
    /// observer.
    /// Errors: `NotFound` for its program, those of a new file, and of a variable that isn't UTF-8, or that
    /// the loader's words need. Then the command has a gap.
    pub fn observing(&mut self, subject: Subject, job: &Job) -> io::Result<Job> {
        let observing = self.try_observing(subject, job);
        if observing.is_err() {
            self.commands.entry(subject).or_default().1.push(PathBuf::new());
        }
        observing
    }

    fn try_observing(&mut self, subject: Subject, job: &Job) -> io::Result<Job> {
        let program = job.program(&own_variable("PATH").unwrap_or_default()).ok_or(ErrorKind::NotFound)?;
        let count: usize = self.commands.values().map(|(_, lists)| lists.len()).sum();
        let records = self.folder.join(format!("{count}.records"));
        let given = |wanted: &str| match job.variables.iter().rev().find(|(name, _)| name == wanted) {
            Some((_, value)) => Ok(value.clone()),
            None => own_variable(wanted)
                .map(OsString::into_string)
                .transpose()
                .map_err(|_| ErrorKind::InvalidData),
        };
        if given(LOADER_SAYS)?.is_some() || given(FOLDERS)?.is_some_and(|folders| folders.contains('\n')) {
            return Err(ErrorKind::Unsupported.into());
        }
        let others = given(PRELOAD)?;
        let library = format!("{}/observer.so", self.folder.display());
        let libraries = others.map_or_else(|| library.clone(), |others| format!("{library}:{others}"));
        File::create_new(&records)?;
        let mut job = job.clone();
        job.variables.push((PRELOAD.into(), Some(libraries)));
        job.variables.push((RECORDS.into(), Some(records.display().to_string())));
        job.variables.push((LOADER_SAYS.into(), Some("libs".into())));
        job.variables.push((SAYS_IN.into(), Some(records.with_extension("loads").display().to_string())));
        self.commands.entry(subject).or_insert_with(|| (program, Vec::new())).1.push(records);
        Ok(job)
    }

    /// The processes that were to be observed.
    pub fn subjects(&self) -> impl Iterator<Item = Subject> {
        self.commands.keys().copied()
    }

    /// What a command did each time that it ran. Files below these directories, which are the call's own, are
    /// left out. Paths that were relative stay so below a working directory, if one is given.
    /// Errors: why that isn't known.
    pub fn observed(&self, subject: Subject, own: &[&Path], cwd: Option<&Path>) -> Result<Observed, Gap> {
        let (observed, gap) = self.observed_part(subject, own, cwd);
        gap.map_or(Ok(observed), Err)
    }

    /// The same as far as that is known, and the first reason why it may not be all.
    pub fn observed_part(
        &self,
        subject: Subject,
        own: &[&Path],
        cwd: Option<&Path>,
    ) -> (Observed, Option<Gap>) {
        let Some((program, lists)) = self.commands.get(&subject) else {
            return (Observed::default(), Some(Gap::Nothing));
        };
        let texts: Vec<Vec<u8>> = lists.iter().map(|list| content_of(list).unwrap_or_default()).collect();
        let (observed, gap) = observed_part(&texts.concat(), &self.loads(lists), Scope { program, own, cwd });
        (observed, if texts.iter().any(Vec::is_empty) { Some(Gap::Nothing) } else { gap })
    }

    /// What the loaders of a command's processes have said.
    fn loads(&self, lists: &[PathBuf]) -> Loads {
        let mut loads = Loads::new();
        for entry in fs::read_dir(&self.folder).into_iter().flatten().flatten() {
            let path = entry.path();
            let number = path.extension().and_then(|number| number.to_str()?.parse().ok());
            let is_of = |list: &PathBuf| list.with_extension("loads") == path.with_extension("");
            if let Some(number) = number.filter(|_| lists.iter().any(is_of)) {
                loads.entry(number).or_default().extend(content_of(&path).unwrap_or_default());
            }
        }
        loads
    }
}

/// What was observed, as lines of a kind and a path or a name.
fn lines(list: &Observed) -> Vec<u8> {
    let stamped = [
        ("program", &list.programs),
        ("library", &list.libraries),
        ("read", &list.read),
        ("listed", &list.listed),
    ];
    let plain = [
        ("followed", &list.followed),
        ("lacking", &list.lacking),
        ("made", &list.made),
        ("sought", &list.sought),
    ];
    let stamped =
        stamped.iter().flat_map(|(kind, paths)| paths.keys().map(move |path| (*kind, path.as_os_str())));
    let plain =
        plain.iter().flat_map(|(kind, paths)| paths.iter().map(move |path| (*kind, path.as_os_str())));
    let seen = list.seen.keys().map(|path| ("seen", path.as_os_str()));
    let variables = list.variables.iter().map(|name| ("variable", name.as_os_str()));
    let all = stamped.chain(seen).chain(plain).chain(variables);
    all.flat_map(|(kind, name)| [kind.as_bytes(), b" ", name.as_bytes(), b"\n"].concat()).collect()
}

/// Runs a command with the observer and writes what it did to a file, or why that isn't known. Says the
/// command's status.
fn observe(file: &str, words: &[&str]) -> io::Result<i32> {
    let folder = fs::canonicalize(env::temp_dir())?.join(format!("zigrunk-observer-{}", process::id()));
    let mut observer = Observer::new(folder.clone())?;
    let job = observer.observing(
        Subject::Task(0),
        &Job { words: words.iter().map(ToString::to_string).collect(), ..Job::default() },
    )?;
    let program =
        observer.commands.get(&Subject::Task(0)).map(|(program, _)| program.clone()).unwrap_or_default();
    let variables = job.variables.into_iter().filter_map(|(name, value)| Some((name, value?)));
    let status = Command::new(&program).arg0(words[0]).args(&words[1..]).envs(variables).status();
    let text = match observer.observed(Subject::Task(0), &[&folder], None) {
        Ok(list) => lines(&list),
        Err(gap) => format!("unknown: {gap}\n").into_bytes(),
    };
    fs::remove_dir_all(&folder)?;
    fs::write(file, text)?;
    let status = status?;
    Ok(status.code().or(status.signal().map(|signal| 128 + signal)).unwrap_or(1))
}

/// Acts by the words behind `zigrunk cache observe`: a file for the list, and a command. Says its status.
pub fn run(file: &str, words: &[&str]) -> i32 {
    observe(file, words).unwrap_or_else(|error| {
        complain(&format!("zigrunk cache: cannot observe {}: {error}", words[0]));
        1
    })
}

#[cfg(test)]
mod tests {
    use super::*;
    use crate::test_folder::TestFolder;

    fn value<'a>(job: &'a Job, name: &str) -> Option<&'a str> {
        job.variables.iter().rev().find(|(other, _)| other == name)?.1.as_deref()
    }

    #[test]
    fn a_job_has_the_observer_before_its_own_libraries() {
        let room = TestFolder::new();
        let folder = room.join("observer");
        let mut observer = Observer::new(folder.clone()).unwrap();
        let library = folder.join("observer.so").display().to_string();
        assert_eq!(fs::read(&library).unwrap(), LIBRARY);
        let job = |variables: &[(&str, Option<&str>)]| Job {
            words: vec!["/bin/sh".into()],
            variables: variables
                .iter()
                .map(|(name, value)| ((*name).into(), value.map(String::from)))
                .collect(),
            ..Job::default()
        };
        let mut observing = |variables: &[(&str, Option<&str>)]| {
            observer.observing(Subject::Task(4), &job(variables)).unwrap()
        };
        let (own, none) = (observing(&[(PRELOAD, Some("/a.so"))]), observing(&[(PRELOAD, None)]));
        assert_eq!(
            [value(&own, PRELOAD), value(&none, PRELOAD)],
            [Some(&*format!("{library}:/a.so")), Some(&*library)]
        );
        let files = [&own, &none].map(|job| value(job, RECORDS).unwrap().to_owned());
        assert!(files[0] != files[1] && files.iter().all(|file| fs::read(file).unwrap().is_empty()));
        assert_eq!(
            [Subject::Task(4), Subject::DryRun(4)].map(|subject| observer.observed(subject, &[], None)),
            [Err(Gap::Nothing), Err(Gap::Nothing)]
        );
        assert_eq!(
            observer.observing(Subject::Task(6), &Job::default()).unwrap_err().kind(),
            ErrorKind::NotFound
        );
    }

    #[test]
    fn a_folder_whose_name_the_loader_would_split_has_no_observer() {
        let room = TestFolder::new();
        for name in ["a b", "a:b", "a$b"] {
            assert_eq!(Observer::new(room.join(name)).unwrap_err().kind(), ErrorKind::Unsupported);
        }
        assert_eq!(Observer::new("relative".into()).unwrap_err().kind(), ErrorKind::Unsupported);
        assert!(Observer::new(room.join("missing/a")).is_err());
    }
}
