//! What a command's processes opened, looked at and sought in vain: read from the records that the observer
//! (`observer.c`) wrote in each.
//!
//! A record is a header of 80 bytes, whose numbers are in the machine's own order, and a text with a NUL
//! behind it. The text is a path as the process had it, absolute, and neither normalized nor freed of links:
//! a process puts its working directory, or the folder of an open file, before a relative one.
//!
//! | At | Bytes | What |
//! |---|---|---|
//! | 0 | 4 | the size of the whole record |
//! | 4 | 4 | the process |
//! | 8 | 4 | its parent |
//! | 12 | 4 | of an opened file the flags of `open`; of an end how many records were lost; of a beginning 1 after a fork, 2 if the list was empty, else 0 |
//! | 16 | 1 | the kind of record: a letter of `Kind` |
//! | 17 | 1 | 1 if the path was relative to the working directory |
//! | 18 | 2 | why the call failed, by `errno`, or 0 |
//! | 20 | 4 | the file's mode, or 0 if the record has no stamp |
//! | 24 | 56 | the file's `Stamp` in its order: device, number, size, the seconds and nanoseconds of its change, those of its status's change |
//! | 80 | | the text |
//!
//! Each process writes a record before the call that it is about returns, so none is lost if it is killed; a
//! process that couldn't write one says so at its end. A program that the observer couldn't enter writes no
//! beginning after the record of the call that runs it.
use crate::stamps::Stamp;
use std::collections::{BTreeMap, BTreeSet, HashSet};
use std::ffi::{OsStr, OsString};
use std::fmt::{self, Display, Formatter};
use std::os::unix::ffi::OsStrExt;
use std::path::{Path, PathBuf};
use unix::words::{CREATES, EMPTIES, FILE_TYPE, FOLDER, IS_NEW, PLAIN, READS_AND_WRITES, WRITES};

const HEADER: usize = 80;
/// The longest record. Linux takes no longer path than 4,096 bytes, and a relative one has a folder of that
/// size before it.
const LONGEST: usize = HEADER + 2 * 4096 + 2;
/// How many bytes of records are read: some hundred thousand records. A call has some thousands.
const MOST: usize = 32 << 20;

/// How a process begins: it runs a program that another has announced, or is the first of the list. With
/// another number it goes on after a fork.
const RUNS: u32 = 0;
const IS_FIRST: u32 = 2;

const NOT_THERE: [u16; 2] = [2, 20];
const NO_ACCESS: u16 = 13;
/// What calls say of a path that leads somewhere: it is no program of the kernel's, exists, is a folder, or
/// is no link.
const THERE: [u16; 4] = [8, 17, 21, 22];

/// What the kernel makes, and what no product depends on: seeds of temporary names, which file systems it
/// knows, the state of the memory, and a program's own path, which is known from its beginning.
const OF_KERNEL: [&[u8]; 8] = [
    b"/dev/null",
    b"/dev/tty",
    b"/dev/urandom",
    b"/dev/random",
    b"/proc/filesystems",
    b"/proc/meminfo",
    b"/proc/self/exe",
    b"/proc/sys/vm/overcommit_memory",
];

/// A file or folder that was opened or looked at.
#[derive(Clone, Copy, PartialEq, Eq, Debug)]
pub struct Sight {
    /// What the process saw, if the call told it: of a file that it opened always.
    pub stamp: Option<Stamp>,
    /// Whether it is a folder.
    pub is_folder: bool,
}

/// What a command's processes did, but for files below the call's own directory. A path that was relative,
/// and is below the call's working directory, is relative here.
#[derive(Clone, PartialEq, Eq, Debug, Default)]
pub struct Observed {
    /// The files that were read before the command itself made them, each with its stamp in the process that
    /// read it.
    pub read: BTreeMap<PathBuf, Stamp>,
    /// The paths that were looked at and there, and weren't read or listed.
    pub seen: BTreeMap<PathBuf, Sight>,
    /// The paths that weren't there when they were first opened or looked at, and those that were only looked
    /// at, as a program is sought, and that the user may not reach or run.
    pub lacking: BTreeSet<PathBuf>,
    /// The folders whose names were listed, or that were opened, which may come to that.
    pub listed: BTreeMap<PathBuf, Stamp>,
    /// The paths whose links a process followed itself, and those by which it ran programs: where they lead
    /// counts.
    pub followed: BTreeSet<PathBuf>,
    /// The programs that ran, as the kernel names them.
    pub programs: BTreeMap<PathBuf, Stamp>,
    /// The libraries that they had, as the loader names them.
    pub libraries: BTreeMap<PathBuf, Stamp>,
    /// Where the loader looked for libraries, and the lists that it read.
    pub sought: BTreeSet<PathBuf>,
    /// The variables that a process asked for by their names. A shell takes all without asking.
    pub variables: BTreeSet<OsString>,
    /// The files and folders that the command made or wrote to.
    pub made: BTreeSet<PathBuf>,
    /// The files below the call's own directories that were read before the command itself made them, seen
    /// from there.
    pub own: BTreeSet<PathBuf>,
    /// What the program did itself that ran first, as gcc beside its compiler: the paths at which it looked,
    /// and whether it read a file there.
    pub by_first: BTreeMap<PathBuf, bool>,
}

impl Observed {
    /// A file that another list has as read, and this one hasn't, or that was another.
    pub fn read_otherwise<'a>(&'a self, other: &'a Observed) -> Option<&'a PathBuf> {
        other.read.iter().find(|(path, stamp)| self.read.get(*path) != Some(*stamp)).map(|(path, _)| path)
    }

    /// Leaves out what a preprocessor has read as texts, and what else it has done, but for programs,
    /// libraries and what the first program did itself: of these its text says nothing.
    pub fn leave_out(&mut self, other: &Observed, is_text: impl Fn(&Path) -> bool) {
        let first = &self.by_first;
        self.read.retain(|path, _| {
            first.get(path) == Some(&true) || !other.read.contains_key(path) || !is_text(path)
        });
        self.seen.retain(|path, _| first.contains_key(path) || !other.seen.contains_key(path));
        self.listed.retain(|path, _| first.contains_key(path) || !other.listed.contains_key(path));
        self.lacking.retain(|path| first.contains_key(path) || !other.lacking.contains(path));
        self.followed.retain(|path| first.contains_key(path) || !other.followed.contains(path));
    }
}

/// Why a list isn't all that the command depends on.
#[derive(Clone, PartialEq, Eq, Debug)]
pub enum Gap {
    /// The observer wrote nothing: it wasn't in the command's first process.
    Nothing,
    /// There are more than `MOST` bytes of records.
    TooLong,
    /// What begins at this byte is no record.
    Broken(usize),
    /// A process ran this program, in which the observer isn't.
    NotEntered(PathBuf),
    /// A process of this program has no end: it was killed, or still runs.
    NoEnd(PathBuf),
    /// A process of this program couldn't write records.
    Lost(PathBuf),
    /// The command got this open file from elsewhere.
    Inherited(PathBuf),
    /// It opened this path, which is no plain file or folder.
    Special(PathBuf),
    /// It wrote to this file, which it had neither made nor emptied.
    Altered(PathBuf),
    /// It read this file twice, and between that somebody else changed it.
    Changed(PathBuf),
    /// It looked at this path, and a rule of access or a limit kept it from there: why, by `errno`.
    Refused(PathBuf, u16),
    /// It isn't known where the loader looked for its libraries.
    Loaded(PathBuf),
    /// It did what the observer can't follow.
    Unseen(String),
}

impl Display for Gap {
    fn fmt(&self, out: &mut Formatter<'_>) -> fmt::Result {
        match self {
            Gap::Nothing => write!(out, "the observer could not be loaded into the command"),
            Gap::TooLong => write!(out, "the command opened too many files to list them"),
            Gap::Broken(at) => write!(out, "the observer's list is broken at byte {at}"),
            Gap::NotEntered(path) => write!(out, "the observer could not be loaded into {}", path.display()),
            Gap::NoEnd(path) => write!(out, "a process of {} did not come to its end", path.display()),
            Gap::Lost(path) => {
                write!(out, "the observer could not write down all that {} read", path.display())
            }
            Gap::Inherited(path) => write!(out, "the command got {} as an open file", path.display()),
            Gap::Special(path) => {
                write!(out, "the command opened {}, which is no plain file", path.display())
            }
            Gap::Altered(path) => {
                write!(out, "the command changed {}, which was there before", path.display())
            }
            Gap::Changed(path) => write!(out, "{} changed while the command ran", path.display()),
            Gap::Refused(path, error) => {
                write!(out, "the command could not look at {} (error {error})", path.display())
            }
            Gap::Loaded(path) => {
                write!(out, "the loader did not say where it looked for the libraries of {}", path.display())
            }
            Gap::Unseen(what) => write!(out, "the command did what cannot be observed: {what}"),
        }
    }
}

/// What a record is about.
#[derive(Clone, Copy, PartialEq, Eq, Debug)]
enum Kind {
    /// `B`: a process begins to run this program, or goes on in it after a fork.
    Begin,
    /// `A`: the path by which the first process was run.
    Started,
    /// `E`: a process ends.
    End,
    /// `X`: a process is about to run this program.
    Run,
    /// `F`: it couldn't, or the C library couldn't for it.
    NotRun,
    /// `P`: the C library is about to start a process that runs this program, or a copy of this one.
    Start,
    /// `O`: opened.
    Open,
    /// `S`: looked at.
    Look,
    /// `D`: its names were listed.
    List,
    /// `R`: its links were followed.
    Follow,
    /// `M`: made, in another way than by opening it.
    Make,
    /// `L`: a library.
    Library,
    /// `V`: a variable.
    Variable,
    /// `I`: an open file that the process got from elsewhere.
    Inherited,
    /// `U`: something that can't be observed.
    Unseen,
    /// `W`: the working directory in which it begins.
    Works,
}

impl Kind {
    fn of(letter: u8) -> Option<Kind> {
        Some(match letter {
            b'B' => Kind::Begin,
            b'A' => Kind::Started,
            b'E' => Kind::End,
            b'X' => Kind::Run,
            b'F' => Kind::NotRun,
            b'P' => Kind::Start,
            b'O' => Kind::Open,
            b'S' => Kind::Look,
            b'D' => Kind::List,
            b'R' => Kind::Follow,
            b'M' => Kind::Make,
            b'L' => Kind::Library,
            b'V' => Kind::Variable,
            b'I' => Kind::Inherited,
            b'U' => Kind::Unseen,
            b'W' => Kind::Works,
            _ => return None,
        })
    }
}

/// A record as it was written.
struct Record<'a> {
    process: u32,
    parent: u32,
    number: u32,
    kind: Kind,
    is_relative: bool,
    error: u16,
    mode: u32,
    stamp: Stamp,
    text: &'a [u8],
}

/// Some bytes of a record as a number.
fn number<const N: usize>(bytes: &[u8], at: usize) -> Option<[u8; N]> {
    bytes.get(at..at + N)?.try_into().ok()
}

impl<'a> Record<'a> {
    /// The first record of some bytes, and its size.
    fn first(bytes: &'a [u8]) -> Option<(Record<'a>, usize)> {
        let word = |at: usize| Some(u32::from_ne_bytes(number(bytes, at)?));
        let size = usize::try_from(word(0)?).ok().filter(|size| (HEADER + 1..=LONGEST).contains(size))?;
        let (text, nul) = bytes.get(HEADER..size)?.split_at(size - HEADER - 1);
        if nul != [0] || text.contains(&0) {
            return None;
        }
        let mut stamp = Stamp([[0; 8]; 7]);
        for (place, at) in stamp.0.iter_mut().zip((24..HEADER).step_by(8)) {
            *place = u64::from_ne_bytes(number(bytes, at)?).to_le_bytes();
        }
        let (kind, error) = (Kind::of(*bytes.get(16)?)?, u16::from_ne_bytes(number(bytes, 18)?));
        let (is_relative, mode) = (*bytes.get(17)? != 0, word(20)?);
        Some((
            Record {
                process: word(4)?,
                parent: word(8)?,
                number: word(12)?,
                kind,
                is_relative,
                error,
                mode,
                stamp,
                text,
            },
            size,
        ))
    }

    fn path(&self) -> PathBuf {
        PathBuf::from(OsStr::from_bytes(self.text))
    }

    fn is_folder(&self) -> bool {
        self.mode & FILE_TYPE == FOLDER
    }

    fn may_write(&self) -> bool {
        self.number & (WRITES | READS_AND_WRITES) != 0
    }

    /// Whether what was opened has nothing of what had its path before.
    fn begins_empty(&self) -> bool {
        self.number & EMPTIES != 0 || self.number & (CREATES | IS_NEW) == CREATES | IS_NEW
    }
}

/// What is known of a process.
#[derive(Default)]
struct Process {
    program: PathBuf,
    /// The program that it is about to run.
    next: Option<PathBuf>,
    /// The programs that the C library starts for it, less those that have begun.
    awaited: Vec<PathBuf>,
    has_ended: bool,
    /// The working directories in which it began programs.
    works: Vec<PathBuf>,
}

/// Where a command runs, by which its paths are read.
#[derive(Clone, Copy, Debug)]
pub struct Scope<'a> {
    /// The path by which its first process was run.
    pub program: &'a Path,
    /// The call's own directories: files below these are left out.
    pub own: &'a [&'a Path],
    /// Where the call's working directory really is, if paths are to be relative to it that were.
    pub cwd: Option<&'a Path>,
}

impl Scope<'_> {
    /// A path as it is seen from one of the call's own directories, if it is below that.
    fn in_own(&self, path: &Path) -> Option<PathBuf> {
        let whole = self.cwd.map(|cwd| cwd.join(path));
        self.own.iter().find_map(|directory| {
            whole.as_deref().unwrap_or(path).strip_prefix(directory).ok().map(Path::to_owned)
        })
    }

    /// Whether a path is below one of the call's own directories.
    fn is_own(&self, path: &Path) -> bool {
        self.in_own(path).is_some()
    }

    /// A path as it is to be, which was relative to a working directory.
    fn relative(&self, path: PathBuf) -> PathBuf {
        self.cwd.and_then(|cwd| path.strip_prefix(cwd).ok()).map(Path::to_owned).unwrap_or(path)
    }
}

/// What the loader of each process has said (`LD_DEBUG`), by the process's number.
pub type Loads = BTreeMap<u32, Vec<u8>>;

/// A list while it is read.
struct List<'a> {
    scope: Scope<'a>,
    observed: Observed,
    processes: BTreeMap<u32, Process>,
    /// The program that ran first.
    first: PathBuf,
    /// What the command made below the call's own directories.
    made_own: BTreeSet<PathBuf>,
    /// The paths that weren't there. (These are many, and ordered maps compare paths part by part.)
    lacking: HashSet<PathBuf>,
}

impl List<'_> {
    /// Notes that a process does something more. Says if it was about to run a program, and goes on without
    /// the observer.
    fn goes_on(&mut self, record: &Record<'_>) -> Result<(), Gap> {
        let parents =
            || self.processes.get(&record.parent).map(|parent| parent.program.clone()).unwrap_or_default();
        let program = if self.processes.contains_key(&record.process) { PathBuf::new() } else { parents() };
        let process =
            self.processes.entry(record.process).or_insert_with(|| Process { program, ..Process::default() });
        process.has_ended = record.kind == Kind::End;
        let lacks = process.next.as_ref().filter(|_| !matches!(record.kind, Kind::Begin | Kind::NotRun));
        lacks.map_or(Ok(()), |program| Err(Gap::NotEntered(program.clone())))
    }

    fn take(&mut self, record: &Record<'_>) -> Result<(), Gap> {
        self.goes_on(record)?;
        let path = if record.is_relative { self.scope.relative(record.path()) } else { record.path() };
        match record.kind {
            Kind::Begin => return self.begin(record, path),
            Kind::End if record.number > 0 => return Err(Gap::Lost(self.process(record).program.clone())),
            Kind::Started if path != self.scope.program => {
                return Err(Gap::NotEntered(self.scope.program.to_owned()));
            }
            Kind::Run => self.process(record).next = Some(path),
            Kind::NotRun => {
                let process = self.process(record);
                if process.next.take().is_none() {
                    process.awaited.pop();
                }
                return self.look(record, path);
            }
            Kind::Start => self.process(record).awaited.push(path),
            Kind::Unseen => return Err(Gap::Unseen(String::from_utf8_lossy(record.text).into_owned())),
            Kind::Inherited if record.mode & FILE_TYPE == PLAIN || record.is_folder() => {
                return Err(Gap::Inherited(path));
            }
            Kind::Library if !self.scope.is_own(&path) => {
                self.observed.libraries.insert(path, record.stamp);
            }
            Kind::Variable => drop(self.observed.variables.insert(path.into_os_string())),
            Kind::Make if record.error == 0 => match self.scope.in_own(&path) {
                Some(own) => drop(self.made_own.insert(own)),
                None => drop(self.observed.made.insert(path)),
            },
            Kind::Open => return self.open(record, path),
            Kind::Look | Kind::List | Kind::Follow | Kind::Make => return self.look(record, path),
            Kind::Works => self.process(record).works.push(path),
            Kind::Started | Kind::End | Kind::Inherited | Kind::Library => {}
        }
        Ok(())
    }

    fn process(&mut self, record: &Record<'_>) -> &mut Process {
        self.processes.entry(record.process).or_default()
    }

    /// Notes that a program runs. Where the path leads by which it was run counts.
    fn begin(&mut self, record: &Record<'_>, path: PathBuf) -> Result<(), Gap> {
        let announced = self.process(record).next.take();
        let parent = self
            .processes
            .get_mut(&record.parent)
            .filter(|_| record.number != IS_FIRST && announced.is_none());
        let run_by = announced.or_else(|| parent.and_then(|parent| parent.awaited.pop()));
        let run_by = if record.number == IS_FIRST { Some(self.scope.program.to_owned()) } else { run_by };
        if record.number == RUNS && run_by.is_none() {
            return Err(Gap::Unseen(format!("how it ran {}", path.display())));
        }
        // (one that was run by a relative path is another elsewhere)
        let is_relative = run_by.as_ref().is_some_and(|path| path.is_relative());
        let path = if is_relative { self.scope.relative(path) } else { path };
        self.process(record).program.clone_from(&path);
        if record.number == IS_FIRST {
            self.first.clone_from(&path);
        }
        if let Some(run_by) =
            run_by.filter(|path| matches!(record.number, RUNS | IS_FIRST) && !self.scope.is_own(path))
        {
            self.observed.by_first.entry(run_by.clone()).or_default();
            self.observed.followed.insert(run_by);
        }
        if !self.scope.is_own(&path) {
            self.observed.programs.insert(path, record.stamp);
        }
        Ok(())
    }

    /// Notes what the first program does itself.
    fn note_first(&mut self, record: &Record<'_>, path: &Path) {
        if self.processes.get(&record.process).is_some_and(|process| process.program == self.first) {
            let reads = record.kind == Kind::Open && record.error == 0;
            *self.observed.by_first.entry(path.to_owned()).or_default() |= reads;
        }
    }

    fn open(&mut self, record: &Record<'_>, path: PathBuf) -> Result<(), Gap> {
        if record.error != 0 || record.is_folder() {
            return self.look(record, path);
        }
        self.note_first(record, &path);
        if let Some(own) = self.scope.in_own(&path) {
            self.open_own(record, own);
            return Ok(());
        }
        if OF_KERNEL.contains(&record.text) {
            return Ok(());
        }
        if record.mode & FILE_TYPE != PLAIN || is_of_kernel(&path) {
            return Err(Gap::Special(path));
        }
        let observed = &mut self.observed;
        if observed.made.contains(&path) {
            return Ok(());
        }
        if record.begins_empty() {
            observed.made.insert(path);
            return Ok(());
        }
        if record.may_write() {
            return Err(Gap::Altered(path));
        }
        match observed.read.insert(path.clone(), record.stamp) {
            Some(stamp) if stamp != record.stamp => Err(Gap::Changed(path)),
            _ => Ok(()),
        }
    }

    fn open_own(&mut self, record: &Record<'_>, path: PathBuf) {
        if record.begins_empty() {
            self.made_own.insert(path);
        } else if !self.made_own.contains(&path) {
            self.observed.own.insert(path);
        }
    }

    fn look(&mut self, record: &Record<'_>, path: PathBuf) -> Result<(), Gap> {
        self.note_first(record, &path);
        if self.scope.is_own(&path) || self.observed.made.contains(&path) || OF_KERNEL.contains(&record.text)
        {
            return Ok(());
        }
        let observed = &mut self.observed;
        if NOT_THERE.contains(&record.error) || (record.error == NO_ACCESS && record.kind != Kind::Open) {
            self.lacking.insert(path);
            return Ok(());
        }
        if record.error != 0 && !THERE.contains(&record.error) {
            return Err(Gap::Refused(path, record.error));
        }
        let stamp = (record.mode != 0).then_some(record.stamp);
        match (record.kind, stamp) {
            (Kind::Follow, _) => drop(observed.followed.insert(path)),
            (Kind::List | Kind::Open, Some(stamp)) if record.is_folder() => {
                _ = observed.listed.insert(path, stamp);
            }
            _ => {
                let sight =
                    observed.seen.entry(path).or_insert(Sight { stamp, is_folder: record.is_folder() });
                sight.stamp = sight.stamp.or(stamp);
                sight.is_folder |= record.is_folder();
            }
        }
        Ok(())
    }

    /// Notes where the loader of a process has looked, by what it said.
    fn add_load(&mut self, process: &Process, said: &[u8]) -> Result<(), Gap> {
        let lines = || {
            said.split(|&byte| byte == b'\n')
                .filter_map(|line| line.splitn(2, |&byte| byte == b'\t').nth(1))
                .map(<[u8]>::trim_ascii)
        };
        // The observer has one library that each process looks for.
        if lines().filter(|line| line.starts_with(OBSERVERS_LIBRARY)).count() < process.works.len() {
            return Err(Gap::Loaded(process.program.clone()));
        }
        for tried in lines()
            .filter_map(|line| line.strip_prefix(b"trying file="))
            .map(|path| Path::new(OsStr::from_bytes(path)))
        {
            let places = process.works.iter().map(|work| {
                if tried.is_absolute() { tried.to_owned() } else { self.scope.relative(work.join(tried)) }
            });
            self.observed.sought.extend(places.filter(|place| !self.scope.is_own(place)));
        }
        self.observed.sought.extend(LOADERS_LISTS.map(PathBuf::from));
        Ok(())
    }

    /// Ends the list, once all records are read.
    fn end(&mut self, loads: &Loads) -> Result<(), Gap> {
        let Observed { read, seen, listed, .. } = &mut self.observed;
        seen.retain(|path, _| !read.contains_key(path) && !listed.contains_key(path));
        for (number, process) in std::mem::take(&mut self.processes) {
            let mut process = process;
            if !process.works.is_empty() {
                self.add_load(&process, loads.get(&number).map_or(&[][..], Vec::as_slice))?;
            }
            if let Some(program) = process.next.take().or_else(|| process.awaited.pop()) {
                return Err(Gap::NotEntered(program));
            }
            if !process.has_ended {
                return Err(Gap::NoEnd(process.program.clone()));
            }
        }
        Ok(())
    }
}

/// What the loader says as it begins to look for the observer's library.
const OBSERVERS_LIBRARY: &[u8] = b"find library=libdl.so.2 ";
/// The lists that it reads.
const LOADERS_LISTS: [&str; 2] = ["/etc/ld.so.cache", "/etc/ld.so.preload"];

/// Whether a path is of a file system that the kernel makes up.
fn is_of_kernel(path: &Path) -> bool {
    ["/proc", "/sys", "/dev"].iter().any(|folder| path.starts_with(folder))
}

/// What a command did, by its records, or by those of several runs, one behind the other, and by what its
/// loaders said.
/// Errors: why that isn't all that it did.
pub fn observed(records: &[u8], loads: &Loads, scope: Scope<'_>) -> Result<Observed, Gap> {
    let (observed, gap) = observed_part(records, loads, scope);
    gap.map_or(Ok(observed), Err)
}

/// The same as far as that is known, and the first reason why it may not be all.
pub fn observed_part(records: &[u8], loads: &Loads, scope: Scope<'_>) -> (Observed, Option<Gap>) {
    let mut list = List {
        scope,
        observed: Observed::default(),
        processes: BTreeMap::new(),
        first: PathBuf::new(),
        made_own: BTreeSet::new(),
        lacking: HashSet::new(),
    };
    let mut gap = if records.len() > MOST { Some(Gap::TooLong) } else { None };
    let mut at = 0;
    while at < records.len().min(MOST) {
        let Some((record, size)) = Record::first(&records[at..]) else {
            gap.get_or_insert(Gap::Broken(at));
            break;
        };
        if at == 0 && record.kind != Kind::Begin {
            break;
        }
        if let Err(other) = list.take(&record) {
            gap.get_or_insert(other);
        }
        at += size;
    }
    if at == 0 && gap.is_none() {
        gap = Some(Gap::Nothing);
    }
    if let Err(other) = list.end(loads) {
        gap.get_or_insert(other);
    }
    let mut lacking: Vec<PathBuf> = list.lacking.into_iter().collect();
    lacking.sort_unstable_by(|one, other| one.as_os_str().cmp(other.as_os_str()));
    list.observed.lacking = lacking.into_iter().collect();
    (list.observed, gap)
}

#[cfg(test)]
mod tests {
    use super::*;
    use unix::words::PIPE;

    /// How a forked process begins.
    const AFTER_FORK: u32 = 1;

    const OWN: &str = "/t/call";
    const TOOL: &str = "/a/tool";

    fn scope() -> Scope<'static> {
        static OWNS: std::sync::OnceLock<[&Path; 1]> = std::sync::OnceLock::new();
        Scope {
            program: Path::new(TOOL),
            own: OWNS.get_or_init(|| [Path::new(OWN)]),
            cwd: Some(Path::new("/here")),
        }
    }

    /// A record of the process 7, whose parent is the process 1.
    fn record(letter: u8, text: &str) -> Vec<u8> {
        let mut bytes = vec![0; HEADER];
        bytes[16] = letter;
        bytes.extend_from_slice(text.as_bytes());
        bytes.push(0);
        let size = u32::try_from(bytes.len()).unwrap();
        put(&mut bytes, 0, size);
        put(&mut bytes, 4, 7);
        put(&mut bytes, 8, 1);
        bytes
    }

    fn put(bytes: &mut [u8], at: usize, number: u32) {
        bytes[at..at + 4].copy_from_slice(&number.to_ne_bytes());
    }

    fn with(mut bytes: Vec<u8>, numbers: &[(usize, u32)]) -> Vec<u8> {
        for &(at, number) in numbers {
            put(&mut bytes, at, number);
        }
        bytes
    }

    /// A plain file, or a folder, of this size.
    fn file(letter: u8, text: &str, size: u32) -> Vec<u8> {
        with(record(letter, text), &[(20, PLAIN), (40, size)])
    }

    fn folder(letter: u8, text: &str) -> Vec<u8> {
        with(record(letter, text), &[(20, FOLDER)])
    }

    fn failed(letter: u8, text: &str, error: u16) -> Vec<u8> {
        let mut bytes = record(letter, text);
        bytes[18..20].copy_from_slice(&error.to_ne_bytes());
        bytes
    }

    /// The beginning of a list.
    fn first() -> [Vec<u8>; 2] {
        [with(record(b'B', "/b/tool"), &[(12, IS_FIRST)]), record(b'A', TOOL)]
    }

    /// What these records say, between the beginning and the end of the process.
    fn read(records: &[Vec<u8>]) -> Result<Observed, Gap> {
        let all = [&first(), records, &[record(b'E', "")]].concat().concat();
        observed(&all, &Loads::new(), scope())
    }

    fn paths<T>(map: &BTreeMap<PathBuf, T>) -> Vec<&str> {
        map.keys().map(|path| path.to_str().unwrap()).collect()
    }

    fn names(set: &BTreeSet<PathBuf>) -> Vec<&str> {
        set.iter().map(|path| path.to_str().unwrap()).collect()
    }

    #[test]
    fn a_list_has_what_was_read_and_sought() {
        let list = read(&[
            file(b'O', "/w/k.cu", 9),
            folder(b'O', "/w"),
            folder(b'D', "/w/more"),
            file(b'S', "/w/k.cu", 9),
            file(b'S', "/w/seen", 8),
            record(b'S', "/w/seen"),
            record(b'S', "/w/there"),
            failed(b'O', "/w/missing.h", 2),
            failed(b'S', "/w/k.cu/x", 20),
            failed(b'R', "/w/no-link", 22),
            record(b'R', "/w/link"),
            file(b'L', "/l/libc.so.6", 7),
            record(b'V', "TMPDIR"),
            record(b'O', "/dev/null"),
        ])
        .unwrap();
        assert_eq!((paths(&list.read), paths(&list.listed)), (vec!["/w/k.cu"], vec!["/w", "/w/more"]));
        assert_eq!(list.read[Path::new("/w/k.cu")].0[2], 9u64.to_le_bytes());
        assert_eq!(
            (paths(&list.seen), names(&list.lacking)),
            (vec!["/w/seen", "/w/there"], vec!["/w/k.cu/x", "/w/missing.h"])
        );
        let has_stamp = |path: &str| list.seen[Path::new(path)].stamp.is_some();
        assert_eq!([has_stamp("/w/seen"), has_stamp("/w/there")], [true, false]);
        assert_eq!(
            (names(&list.followed), paths(&list.libraries), paths(&list.programs)),
            (vec!["/a/tool", "/w/link", "/w/no-link"], vec!["/l/libc.so.6"], vec!["/b/tool"])
        );
        assert_eq!(list.variables, BTreeSet::from(["TMPDIR".into()]));
    }

    #[test]
    fn what_is_around_a_gap_is_known() {
        let records = [
            file(b'O', "/w/a.h", 9),
            record(b'U', "glob"),
            record(b'U', "ftw"),
            file(b'O', "/w/b.h", 9),
            record(b'E', ""),
        ];
        let all = [&first()[..], &records].concat().concat();
        let part = |records: &[u8]| {
            let (list, gap) = observed_part(records, &Loads::new(), scope());
            (paths(&list.read).join(" "), gap)
        };
        assert_eq!(part(&all), ("/w/a.h /w/b.h".into(), Some(Gap::Unseen("glob".into()))));
        let broken = [&all[..all.len() - 1], b"x"].concat();
        assert_eq!(
            part(&broken),
            ("/w/a.h /w/b.h".into(), Some(Gap::Unseen("glob".into()))),
            "the first one"
        );
        let cut = [&first()[..], &records[..1]].concat().concat();
        assert_eq!(part(&cut), ("/w/a.h".into(), Some(Gap::NoEnd("/b/tool".into()))));
        assert_eq!(
            part(&cut[..cut.len() - 1]),
            (String::new(), Some(Gap::Broken(cut.len() - records[0].len())))
        );
        assert_eq!(
            (part(b""), part(&records[0])),
            ((String::new(), Some(Gap::Nothing)), (String::new(), Some(Gap::Nothing)))
        );
    }

    #[test]
    fn a_relative_path_stays_relative_to_the_working_directory() {
        let relative = |path: &str| {
            let mut bytes = file(b'O', path, 9);
            bytes[17] = 1;
            bytes
        };
        let list =
            read(&[relative("/here/./a.h"), file(b'O', "/here/b.h", 9), relative("/there/c.h")]).unwrap();
        assert_eq!(paths(&list.read), ["/here/b.h", "/there/c.h", "a.h"]);
    }

    #[test]
    fn where_the_loader_has_looked_counts() {
        let all = [&first()[..], &[record(b'W', "/here"), record(b'E', "")]].concat().concat();
        let found = |said: &str| observed(&all, &Loads::from([(7, said.into())]), scope());
        let begins = "     7:\tfind library=libdl.so.2 [0]; searching\n";
        let tried = "     7:\t search path=/a:\n     7:\t  trying file=/a/tls/libm.so\n     7:\t  trying file=./libm.so\n     7:\t  trying file=/t/call/x\n";
        let list = found(&format!("{tried}{begins}")).unwrap();
        assert_eq!(
            names(&list.sought),
            ["/a/tls/libm.so", "/etc/ld.so.cache", "/etc/ld.so.preload", "libm.so"]
        );
        assert_eq!(
            (found(tried), found("")),
            (Err(Gap::Loaded("/b/tool".into())), Err(Gap::Loaded("/b/tool".into())))
        );
        assert_eq!(
            observed(&all, &Loads::from([(8, begins.into())]), scope()),
            Err(Gap::Loaded("/b/tool".into()))
        );
    }

    #[test]
    fn two_lists_may_differ_in_what_was_read() {
        let list = |records: &[Vec<u8>]| read(records).unwrap();
        let (one, two) = (
            list(&[file(b'O', "/w/a.h", 1)]),
            list(&[file(b'O', "/w/a.h", 1), file(b'O', "/w/b.h", 1), failed(b'O', "/w/c.h", 2)]),
        );
        assert_eq!(
            (one.read_otherwise(&one), one.read_otherwise(&two), two.read_otherwise(&one)),
            (None, Some(&"/w/b.h".into()), None)
        );
        assert_eq!(one.read_otherwise(&list(&[file(b'O', "/w/a.h", 2)])), Some(&"/w/a.h".into()));
    }

    #[test]
    fn what_the_first_program_does_itself_stays() {
        let files = |last: u32| {
            [
                file(b'O', "/w/specs", 1),
                failed(b'O', "/w/none", 2),
                file(b'O', "/w/a.h", 1),
                file(b'O', "/w/b.h", last),
            ]
        };
        let driver = [
            record(b'V', "A"),
            file(b'O', "/w/specs", 1),
            failed(b'O', "/w/none", 2),
            file(b'S', "/w/a.h", 1),
        ];
        let compiler = |last: u32| {
            let own = [
                &[record(b'X', "/b/cc1plus"), record(b'B', "/b/cc1plus")][..],
                &files(last),
                &[record(b'E', "")],
            ]
            .concat();
            [&driver[..], &own.into_iter().map(|record| with(record, &[(4, 8), (8, 7)])).collect::<Vec<_>>()]
                .concat()
        };
        let mut list = read(&compiler(1)).unwrap();
        list.leave_out(&read(&compiler(2)).unwrap(), |path| path != Path::new("/w/b.h"));
        assert_eq!(
            (paths(&list.read), names(&list.lacking), paths(&list.seen)),
            (vec!["/w/b.h", "/w/specs"], vec!["/w/none"], vec![])
        );
        assert_eq!(
            (paths(&list.programs), list.variables),
            (vec!["/b/cc1plus", "/b/tool"], BTreeSet::from(["A".into()]))
        );
    }

    #[test]
    fn what_is_read_of_the_calls_own_files_is_known() {
        let made = with(file(b'O', "/t/call/made", 1), &[(12, WRITES | CREATES | EMPTIES)]);
        let list = read(&[
            made,
            file(b'O', "/t/call/made", 1),
            record(b'M', "/t/call/new"),
            file(b'O', "/t/call/new", 1),
            file(b'O', "/t/call/k.ii", 1),
        ]);
        assert_eq!(list.unwrap().own, BTreeSet::from(["k.ii".into()]));
    }

    #[test]
    fn what_a_command_makes_it_does_not_depend_on() {
        let flags = |flags: u32, path: &str| with(file(b'O', path, 1), &[(12, flags)]);
        let list = read(&[
            flags(WRITES | CREATES | EMPTIES, "/w/k.o"),
            file(b'O', "/w/k.o", 1),
            flags(READS_AND_WRITES | CREATES | IS_NEW, "/tmp/x"),
            record(b'M', "/tmp/y"),
            file(b'S', "/tmp/y", 1),
            record(b'M', "/t/call/y"),
            flags(WRITES, "/t/call/x"),
            file(b'O', "/t/call/k.ii", 1),
            failed(b'S', "/t/call/z", 2),
            file(b'O', "/t/call.2/k.ii", 1),
        ])
        .unwrap();
        assert_eq!(
            (names(&list.made), paths(&list.read)),
            (vec!["/tmp/x", "/tmp/y", "/w/k.o"], vec!["/t/call.2/k.ii"])
        );
        assert!(list.lacking.is_empty() && list.seen.is_empty());
        assert_eq!(read(&[flags(WRITES | CREATES, "/w/log")]), Err(Gap::Altered("/w/log".into())));
        assert_eq!(read(&[flags(READS_AND_WRITES, "/w/a")]), Err(Gap::Altered("/w/a".into())));
    }

    #[test]
    fn what_is_no_plain_file_is_a_gap() {
        let mode = |mode: u32, path: &str| with(record(b'O', path), &[(20, mode)]);
        for (record, path) in [
            (mode(PIPE, "/w/pipe"), "/w/pipe"),
            (mode(PLAIN, "/proc/self/fd/3"), "/proc/self/fd/3"),
            (mode(PLAIN, "/dev/fd/3"), "/dev/fd/3"),
        ] {
            assert_eq!(read(&[record]), Err(Gap::Special(path.into())));
        }
        assert_eq!(read(&[file(b'I', "/w/list", 1)]), Err(Gap::Inherited("/w/list".into())));
        assert!(read(&[with(record(b'I', "pipe:[7]"), &[(20, PIPE)])]).is_ok());
        assert_eq!(read(&[file(b'O', "/w/a", 1), file(b'O', "/w/a", 2)]), Err(Gap::Changed("/w/a".into())));
        assert_eq!(read(&[failed(b'O', "/w/a", NO_ACCESS)]), Err(Gap::Refused("/w/a".into(), NO_ACCESS)));
        assert_eq!(
            read(&[failed(b'S', "/w/a", 40)]),
            Err(Gap::Refused("/w/a".into(), 40)),
            "links lead in a circle"
        );
        assert_eq!(names(&read(&[failed(b'S', "/w/a", NO_ACCESS)]).unwrap().lacking), ["/w/a"]);
        assert_eq!(read(&[record(b'U', "glob")]), Err(Gap::Unseen("glob".into())));
    }

    fn of(process: u32, parent: u32, record: Vec<u8>) -> Vec<u8> {
        with(record, &[(4, process), (8, parent)])
    }

    #[test]
    fn each_program_that_is_run_has_to_begin_and_to_end() {
        let begin = || record(b'B', "/b/other");
        let not_entered = || Err(Gap::NotEntered("/b/other".into()));
        let list = read(&[record(b'X', "/a/link"), begin()]).unwrap();
        assert_eq!(
            (names(&list.followed), paths(&list.programs)),
            (vec!["/a/link", TOOL], vec!["/b/other", "/b/tool"])
        );
        assert_eq!(read(&[record(b'X', "/b/other")]), not_entered());
        assert_eq!(read(&[record(b'X', "/b/other"), record(b'V', "A")]), not_entered());
        let list =
            read(&[record(b'X', "/a/other"), failed(b'F', "/a/other", 2), record(b'X', "/b/other"), begin()])
                .unwrap();
        assert_eq!(
            (names(&list.lacking), paths(&list.programs)),
            (vec!["/a/other"], vec!["/b/other", "/b/tool"])
        );
        // A process that shares the memory of its parent until it runs a program has no beginning before
        // that.
        let child = |record: Vec<u8>| of(8, 7, record);
        assert!(read(&[child(record(b'X', "/b/other")), child(begin()), child(record(b'E', ""))]).is_ok());
        assert_eq!(read(&[child(record(b'X', "/b/other"))]), not_entered());
        assert_eq!(read(&[child(record(b'V', "A"))]), Err(Gap::NoEnd("/b/tool".into())));
        let forked = |record: Vec<u8>| child(with(record, &[(12, AFTER_FORK)]));
        assert_eq!(read(&[forked(begin())]), Err(Gap::NoEnd("/b/other".into())));
        assert_eq!(read(&[begin()]), Err(Gap::Unseen("how it ran /b/other".into())));
        assert_eq!(read(&[record(b'A', "/b/tool")]), Err(Gap::NotEntered(TOOL.into())));
        assert_eq!(read(&[child(with(record(b'E', ""), &[(12, 3)]))]), Err(Gap::Lost("/b/tool".into())));
    }

    #[test]
    fn each_program_that_the_c_library_starts_has_to_begin() {
        let start = || record(b'P', "/bin/sh");
        let child = |process: u32, forked: u32| {
            [of(process, 7, with(record(b'B', "/bin/sh"), &[(12, forked)])), of(process, 7, record(b'E', ""))]
                .concat()
        };
        assert!(read(&[start(), child(8, 0), start(), child(9, 0)]).is_ok());
        assert!(read(&[start(), start(), child(8, 0), failed(b'F', "/bin/sh", 2)]).is_ok());
        let not_entered = || Err(Gap::NotEntered("/bin/sh".into()));
        assert_eq!(read(&[start(), child(8, 0), start()]), not_entered());
        assert_eq!(
            names(&read(&[start(), child(8, AFTER_FORK)]).unwrap().followed),
            [TOOL],
            "a fork is announced as well"
        );
        assert_eq!(read(&[start(), start(), child(8, AFTER_FORK)]), not_entered());
        let itself = [of(8, 7, record(b'X', "/bin/sh")), child(8, 0)].concat();
        assert_eq!(read(&[start(), itself]), not_entered());
    }

    #[test]
    fn a_list_that_is_cut_or_hostile_is_no_list() {
        let observed = |records: &[u8]| observed(records, &Loads::new(), scope());
        assert_eq!(observed(&[]), Err(Gap::Nothing));
        assert_eq!(observed(&record(b'E', "")), Err(Gap::Nothing));
        assert_eq!(observed(&vec![0; MOST + 1]), Err(Gap::TooLong));
        let [begin, started] = first();
        let records =
            [begin, started, file(b'O', "/w/k.cu", 9), failed(b'O', "/w/missing.h", 2), record(b'E', "")];
        let whole = records.concat();
        assert!(observed(&whole).is_ok() && observed(&[&whole[..], &whole].concat()).is_ok());
        for end in 0..whole.len() {
            assert!(observed(&whole[..end]).is_err(), "cut at {end}");
        }
        let second = records[0].len();
        for (at, number) in [(0, 0), (0, 79), (0, 80), (0, u32::MAX), (16, u32::from(b'?')), (HEADER, 0)] {
            let mut broken = whole.clone();
            put(&mut broken[second..], at, number);
            assert_eq!(observed(&broken), Err(Gap::Broken(second)), "{number} at {at}");
        }
        let long = |size: usize| read(&[record(b'V', &"x".repeat(size))]);
        assert!(long(LONGEST - HEADER - 1).is_ok() && matches!(long(LONGEST - HEADER), Err(Gap::Broken(_))));
        // Numbers of a linear congruential generator.
        let mut seed = 1u64;
        let mut next = |below: usize| {
            seed = seed.wrapping_mul(6_364_136_223_846_793_005).wrapping_add(1_442_695_040_888_963_407);
            usize::try_from(seed >> 33).unwrap() % below
        };
        for _ in 0..20_000 {
            let mut broken = whole.clone();
            for _ in 0..=next(3) {
                let at = next(broken.len());
                broken[at] = u8::try_from(next(256)).unwrap();
            }
            if let Ok(list) = observed(&broken) {
                assert!(list.programs.len() <= 3 && list.read.len() <= 2, "{broken:?}");
            }
        }
    }
}
