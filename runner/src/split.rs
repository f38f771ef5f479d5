//! A call that is split, from its line to what its commands said. A call alone and one of a batch take these
//! steps.
use crate::caches::{self, Counts};
use crate::late::{self, Halves};
use crate::log::{self, LoggedCommand};
use crate::nvcc_jobs::{self, Jobs};
use crate::products;
use crate::records;
use crate::remote;
use crate::rule::{Refusals, RuleMaker};
use crate::run::{self, Stopped};
use crate::tasks::{self, Surroundings};
use crate::threads;
use crate::voice::{End, Habits, Say, Voice};
use cache::observer::Observer;
use cache::place;
use cache::{Beginning, Finished, Session};
use call::{Disk, DryRuns, Error, LineReason, MOST_BYTES, NvccLine, Outline, Plan, Planning, Reason};
use machine::folder::{CallFolder, OWN};
use machine::host_compilers::HostCompiler;
use machine::jobs::Machine;
use machine::places::absolute;
use machine::planned::{PlannedCommand, Wishes, commands_of};
use machine::rooted::Rooting;
use machine::settings::{Settings, own_variable};
use machine::streams::{Said, called, complain, write_file};
use machine::task::{Done, Task};
use provenance::{self, Witness};
use std::borrow::Cow;
use std::fs;
use std::iter;
use std::os::unix::fs::FileTypeExt;
use std::path::{Path, PathBuf};

/// Why a call doesn't come to its end here.
#[derive(Clone, PartialEq, Debug)]
pub enum Stop {
    /// Why nvcc makes it.
    ByNvcc(Reason),
    /// The signal that ends it.
    Signal(i32),
}

impl From<Reason> for Stop {
    fn from(reason: Reason) -> Stop {
        Stop::ByNvcc(reason)
    }
}

impl From<Error> for Stop {
    fn from(error: Error) -> Stop {
        Stop::ByNvcc(error.into())
    }
}

impl From<nvcc_jobs::Stopped> for Stop {
    fn from(stopped: nvcc_jobs::Stopped) -> Stop {
        match stopped {
            nvcc_jobs::Stopped::Refused(error) => error.into(),
            nvcc_jobs::Stopped::Signal(number) => Stop::Signal(number),
        }
    }
}

impl From<Stopped> for Stop {
    fn from(stopped: Stopped) -> Stop {
        match stopped {
            Stopped::NoProcess(reason) => Stop::ByNvcc(Reason::Machine(reason)),
            Stopped::Signal(number) => Stop::Signal(number),
        }
    }
}

/// Leaves a call to nvcc.
pub fn by_nvcc<T>(reason: Reason) -> Result<T, Stop> {
    Err(Stop::ByNvcc(reason))
}

/// With fewer files that it may still open, nvcc makes the call, since each command takes some for its
/// streams, and the call would run out half-way.
pub const FEWEST_FILES: usize = 27;

/// Variables by which each command of gcc adds to one file, so that their order shows there.
const DEPENDENCY_VARIABLES: [&str; 2] = ["DEPENDENCIES_OUTPUT", "SUNPRO_DEPENDENCIES"];

/// How many links Linux follows, and the file behind the last.
const MOST_LINKS: usize = 41;

/// What has come of a call.
#[derive(Clone, PartialEq, Debug, Default)]
pub struct Outcome {
    /// The exit status.
    pub status: i32,
    /// The commands as the log has them.
    pub commands: Vec<LoggedCommand>,
    /// What the cache had counted before and after.
    pub counted: Option<[Counts; 2]>,
    /// Where its record is.
    pub record: Option<PathBuf>,
}

/// A call to split, whose files go to a directory.
pub struct Call<'a> {
    /// What the environment says.
    pub settings: &'a Settings,
    /// Its line.
    pub line: &'a NvccLine,
    /// Its directory.
    pub folder: &'a CallFolder,
    /// How many commands run at once, if the line doesn't say it.
    pub at_once: usize,
    /// What the cache refuses.
    pub refusals: &'a Refusals,
}

/// The commands of a call, and the tasks that run them.
struct Planned {
    commands: Vec<PlannedCommand>,
    tasks: Vec<Task>,
    /// The halves of its last host compile, if that begins before the fatbin is there, and the task that
    /// makes it whole.
    halves: Option<(Halves, Task)>,
    /// How its voice speaks.
    habits: Habits,
}

impl Call<'_> {
    fn tmp(&self) -> Result<&str, Stop> {
        self.folder.path().to_str().ok_or(Stop::ByNvcc(Reason::TemporaryNotUtf8))
    }

    /// Whether nvcc's tools run in the call's own directory, and generated files have nvcc's names, which
    /// tools show. A cache may look an answer up by a command's words, so it gets those of the plan, which
    /// name no directory and don't depend on the call.
    fn runs_in_place(&self) -> bool {
        self.settings.launcher.is_empty()
    }

    /// Reads the line of the call.
    /// Errors: why nvcc makes the call.
    pub fn read(&self) -> Result<call::Call, Stop> {
        let mut line = self.line.clone();
        line.variables.extend(self.runs_in_place().then(|| ("ZIGRUNK_IN_PLACE".to_owned(), "1".to_owned())));
        let call = call::Call::read(line, self.tmp()?.to_owned())?;
        check(call.outline())?;
        if DEPENDENCY_VARIABLES.iter().any(|name| own_variable(name).is_some()) {
            return by_nvcc(Reason::DependencyVariable);
        }
        Ok(call)
    }

    /// Plans the call, whose commands name files as `rooting` says.
    fn planned(
        &self,
        call: &call::Call,
        dry_runs: &DryRuns,
        rooting: Option<&Rooting>,
        has_cache: bool,
    ) -> Result<Planned, Stop> {
        let (tmp, outline) = (call.tmp(), call.outline());
        let plan = self.plan(call, dry_runs)?;
        let wishes = Wishes { rooting, ..self.wishes(&plan, outline, dry_runs, has_cache) };
        let (commands, halves) = Self::commands(&plan, &wishes)?;
        let scratch = self
            .settings
            .scratch()
            .map(|path| absolute(path, Path::new(&self.line.cwd)).to_string_lossy().into_owned());
        let around = Surroundings { settings: self.settings, tmp, scratch };
        let mut tasks = tasks::tasks_of(&commands, outline.dependencies.as_ref(), &around);
        let commands: Vec<PlannedCommand> = commands.into_iter().filter(|command| !command.is_rule).collect();
        if let (Some(halves), Some(last)) = (&halves, tasks.last_mut()) {
            last.include = Some(halves.include.clone());
        }
        let whole = halves.as_ref().map(|halves| tasks::lone_task_of(&halves.whole, &around));
        let mut tasks = tasks::in_nvccs_order(&tasks, &commands, dry_runs.has_threads());
        if self.settings.has_remote {
            remote::send(&mut tasks, &commands, tmp, self.settings.needs_remote);
        }
        let first_wave = threads::first_wave(&tasks, self.at_once(outline));
        // (what a command says under a root is changed as a whole, so nothing may be printed before its end)
        let holds_back = halves.is_some() || has_cache || rooting.is_some();
        let habits = habits_of(&tasks, holds_back, dry_runs, outline)?;
        Ok(Planned { commands, tasks, halves: halves.zip(whole), habits: Habits { first_wave, ..habits } })
    }

    /// How many of the call's commands run at once.
    fn at_once(&self, outline: &Outline) -> usize {
        outline.jobs.unwrap_or(self.at_once)
    }

    /// The call's plan.
    fn plan(&self, call: &call::Call, dry_runs: &DryRuns) -> Result<Plan, Stop> {
        let keeps_names = call.keep_dir().is_some() || self.runs_in_place();
        let planning =
            Planning { variables: &[], keeps_names, programs: &Disk::default(), limit: Some(MOST_BYTES) };
        Ok(call.plan_made(dry_runs, &planning)?)
    }

    /// What the call asks for of its plan's commands: by the settings, by what the host compiler is, and by
    /// what the outline says.
    fn wishes<'a>(
        &self,
        plan: &Plan,
        outline: &'a Outline,
        dry_runs: &DryRuns,
        has_cache: bool,
    ) -> Wishes<'a> {
        let keeps = outline.keep_dir.is_some();
        let (rule, in_place) = (outline.dependencies.as_ref(), self.runs_in_place());
        let [may_halve, heads] =
            [late::is_on(self.settings), self.settings.begins_early()].map(|is_on| is_on && !keeps);
        let host = if may_halve || heads {
            HostCompiler::of_programs(plan.commands().map(|command| (command.cwd(), command.program())))
        } else {
            HostCompiler::Script
        };
        // A script's calls come in nvcc's order, since it may note them, unless nvcc itself has preprocessors
        // not wait.
        let frees = (heads && host != HostCompiler::Script) || dry_runs.has_threads() || rule.is_some();
        // The cache looks a host compile up by its text, so the stub file has to be there.
        Wishes {
            in_place,
            halves: may_halve && host == HostCompiler::Gcc,
            pipes: heads && !has_cache,
            heads,
            frees,
            rule,
            rooting: None,
        }
    }

    /// What is started of the call's plan, and the halves of its last host compile, if that runs in two.
    /// Errors: why nvcc makes the call.
    fn commands(plan: &Plan, wishes: &Wishes<'_>) -> Result<(Vec<PlannedCommand>, Option<Halves>), Stop> {
        let whole = Wishes { halves: false, ..*wishes };
        let (commands, _) = commands_of(plan, whole)?;
        if commands.iter().any(|command| !command.is_rule && command.writes_long_name()) {
            return by_nvcc(Reason::LongName);
        }
        if commands.iter().filter(|command| command.writes_rule()).count() > 1 {
            return by_nvcc(LineReason::HostFile.into());
        }
        let Some(last) = commands.last().filter(|last| last.can_write()) else {
            return by_nvcc(Reason::NoProduct);
        };
        let (halved, split) = if wishes.halves { commands_of(plan, *wishes)? } else { (Vec::new(), None) };
        match split.and_then(|split| Halves::of(&split, last.clone(), plan.tmp())) {
            Some(made) => Ok((halved, Some(made))),
            None => Ok((commands, None)),
        }
    }

    /// Makes the dry runs, plans the call and runs its commands. `say` is told what nvcc and the commands
    /// say, in nvcc's order.
    /// Errors: why nvcc makes the call, or the signal that ends it.
    pub fn run<M: Machine>(
        &self,
        machine: &mut M,
        call: &call::Call,
        say: &mut Say<'_>,
    ) -> Result<Outcome, Stop> {
        let (line, tmp, outline) = (self.line, call.tmp(), call.outline());
        let store = if outline.keep_dir.is_some() { None } else { place::store_of(self.settings, &line.cwd) };
        let root = self.settings.root.as_ref().filter(|_| self.runs_in_place());
        let mut beginning = store.as_ref().map(|_| Beginning::new(tmp, &line.cwd, &line.words, root));
        let mut witness = Witness::of_split(self.settings, &line.cwd, tmp);
        let observer = match &mut witness {
            Some(witness) => witness.observer(),
            None => beginning.as_mut().and_then(Beginning::observer),
        };
        let dry_runs = dry_runs_of(machine, call, observer)?;
        let rooting = root.map(|root| Rooting::of(root, &line.cwd, tmp)).transpose()?;
        let planned = self.planned(call, &dry_runs, rooting.as_ref(), store.is_some())?;
        let Planned { commands, tasks, .. } = &planned;
        let launcher = self.settings.launcher.first().map(String::as_str).unwrap_or_default();
        let before = caches::counts(machine, self.settings)?;
        let (mut said, mut rooted_said) = (Said::new(), Said::new());
        let mut say = |is_error: bool, text: &[u8]| {
            rooted_said.extend(store.is_some().then(|| (is_error, text.to_vec())));
            let text = rooting.as_ref().map_or(Cow::Borrowed(text), |rooting| rooting.own(text).into());
            said.extend(store.is_some().then(|| (is_error, text.to_vec())));
            say(is_error, &text);
        };
        let mut voice =
            Voice::new(tasks, planned.habits, &mut say).in_order(told_order(commands, tasks, &dry_runs));
        voice.remark(&dry_runs.messages()?);
        let (refusals, asked) = (self.refusals, outline.dependencies.as_ref());
        let cache = store.as_ref().zip(beginning);
        let cache = cache.map(|(store, beginning)| Session::new(store, tmp, commands, tasks, beginning));
        let rooting = rooting.as_ref();
        let mut maker = RuleMaker {
            commands,
            asked,
            launcher,
            refusals,
            voice,
            cache,
            tasks,
            rooting,
            made: None,
            witness,
        };
        let mut done = run::run(machine, &mut maker, tasks, self.at_once(outline))?;
        let is_made_whole = planned.complete(machine, maker.cache.as_ref(), &mut done)?;
        check_end(self.folder.is_there(), &done, tasks, &dry_runs)?;
        remote::complain_of(tasks);
        if let Some(folder) = dry_runs.stub_folder().filter(|_| outline.keep_dir.is_some()) {
            name_stubs(tmp, folder);
        }
        let counted = before.zip(caches::counts(machine, self.settings)?).map(<[Counts; 2]>::from);
        let logged = if self.settings.log.is_some() { log::commands(tasks, &done) } else { Vec::new() };
        let RuleMaker { voice, mut cache, made, witness, .. } = maker;
        let End { status, is_silent } = voice.end(&done);
        if status != 0 && is_silent {
            say(true, self.words_of_silence(status).as_bytes());
        }
        let record = (status == 0)
            .then(|| records::of_split(self.settings, &records::Finished { line, commands, tmp }))
            .flatten();
        if let Some(cache) = cache.as_mut().filter(|_| status == 0 && !is_made_whole) {
            let (rule, rooted_said) = (made.clone(), root.map(|_| rooted_said));
            let kept = cache.keep_call(&Finished { line, commands, tasks, rule, said, rooted_said });
            if let (Err(refusal), true) = (kept, self.settings.explains) {
                complain(&format!("{}: the call is not kept as a whole: {refusal}", called()));
            }
        }
        let status = witness.map_or(status, |witness| {
            let rule = made.as_ref().map(|made| made.path.as_path());
            witness.end(&provenance::Finished { line, commands, tasks, done: &done, rule }, status)
        });
        Ok(Outcome { status, commands: logged, counted, record })
    }

    /// What to say of a call of which a command failed without a message.
    fn words_of_silence(&self, status: i32) -> String {
        let room = products::lack_of_room(self.settings.plans());
        format!("{}: a command failed with status {status} and without a message{room}\n", called())
    }
}

impl Planned {
    /// Goes on once all tasks have run: hears what the cache had, and makes what has to be made again. Says
    /// whether the last host compile was.
    /// Errors: why nvcc makes the call, or the signal that ends it.
    fn complete<M: Machine>(
        &self,
        machine: &mut M,
        cache: Option<&Session<'_>>,
        done: &mut [Done],
    ) -> Result<bool, Stop> {
        if let Some(cache) = cache {
            done.iter_mut().enumerate().for_each(|(task, done)| done.hit = cache.had(task));
            cache.end();
        }
        if cache.is_some_and(|cache| cache.misnames_lines(&self.tasks, done)) {
            return by_nvcc(Reason::OtherLines);
        }
        let is_made_whole = match &self.halves {
            Some((halves, whole)) => halves.make_whole(machine, whole, &self.tasks, done)?,
            None => false,
        };
        if self.habits.has_threads {
            threads::finish_wave(machine, &self.tasks[..self.habits.first_wave], done)?;
        }
        Ok(is_made_whole)
    }
}

/// Has nvcc make the dry runs of a call. The folder for the driver's own files is made meanwhile.
fn dry_runs_of<M: Machine>(
    machine: &mut M,
    call: &call::Call,
    observer: Option<&mut Observer>,
) -> Result<DryRuns, Stop> {
    machine.plans(true);
    let make_own = || fs::create_dir(Path::new(call.tmp()).join(OWN)).map_err(|_| Reason::NoTemporaryRoom);
    let dry_runs = call.make_dry_runs(&mut Jobs::new(machine, make_own).observed(observer))?;
    machine.plans(false);
    Ok(dry_runs)
}

/// How the voice of a call speaks that has these tasks, and that may still go to nvcc once all have run, or
/// make a command again.
fn habits_of(
    tasks: &[Task],
    may_go_to_nvcc: bool,
    dry_runs: &DryRuns,
    outline: &Outline,
) -> Result<Habits, Stop> {
    let rule_speaks = outline.dependencies.is_some() && !tasks.iter().any(tasks::preprocesses_for_host);
    if rule_speaks && outline.keep_dir.is_some() {
        return by_nvcc(Reason::KeepsForDependencies);
    }
    let holds_back = may_go_to_nvcc || dry_runs.runs_devices_first();
    Ok(Habits { holds_back, has_threads: dry_runs.has_threads(), first_wave: 0, rule_speaks })
}

/// The order in which tasks are told. An older nvcc runs device commands first, though the plan has cudafe++
/// before cicc.
fn told_order(commands: &[PlannedCommand], tasks: &[Task], dry_runs: &DryRuns) -> Vec<usize> {
    let mut order: Vec<usize> = (0..tasks.len()).collect();
    if dry_runs.runs_devices_first() && !tasks.iter().any(|task| task.is_rule) {
        order.sort_by_key(|&number| tasks[number].command.map(|command| commands[command].line));
    }
    order
}

/// What of a line's outline nvcc has to make.
fn check(outline: &Outline) -> Result<(), Stop> {
    if outline.keep_dir.as_ref().is_some_and(|dir| !Path::new(dir).is_dir()) {
        return by_nvcc(Reason::NoKeepDirectory);
    }
    let mut words = outline.dependencies.iter().flat_map(|command| command.words().windows(2));
    let is_error = |file: &str| matches!(file, "/dev/stderr" | "/dev/fd/2" | "/proc/self/fd/2");
    if words.any(|pair| pair[0] == "-MF" && is_error(&pair[1])) {
        return by_nvcc(Reason::DependenciesToErrors);
    }
    let (folder, words) = (outline.first_dry_run.cwd(), outline.first_dry_run.words());
    let is_output = |place: usize| place > 0 && words[place - 1] == "-o";
    let is_input = |&(place, word): &(usize, &String)| !is_output(place) && !word.starts_with('-');
    for (_, word) in words.iter().enumerate().filter(is_input) {
        let file = Path::new(folder).join(word);
        if leads_to_open_file(&file) {
            return by_nvcc(Reason::OpenFile);
        }
        if is_pipe(&file) {
            return by_nvcc(Reason::ReadsPipe);
        }
    }
    Ok(())
}

/// Whether a file is a pipe. Of the commands that read one, the first takes all.
fn is_pipe(file: &Path) -> bool {
    fs::metadata(file).is_ok_and(|file| file.file_type().is_fifo())
}

/// Whether links lead from a path to an open file, as standard input is. nvcc's commands get it from nvcc. A
/// line that has its name doesn't come here.
fn leads_to_open_file(path: &Path) -> bool {
    let next = |path: &PathBuf| Some(path.parent()?.join(fs::read_link(path).ok()?));
    let mut folders = iter::successors(Some(path.to_owned()), next)
        .take(MOST_LINKS)
        .filter_map(|path| path.parent()?.canonicalize().ok());
    folders.any(|folder| folder.starts_with("/proc") && folder.ends_with("fd"))
}

/// Whether the end of the commands is the call's, whose directory is there or not, or nvcc has to make it.
fn check_end(is_there: bool, done: &[Done], tasks: &[Task], dry_runs: &DryRuns) -> Result<(), Stop> {
    if !is_there {
        return by_nvcc(Reason::TemporaryGone);
    }
    if !done.iter().any(Done::failed) {
        return if done.iter().all(Done::has_ended) { Ok(()) } else { by_nvcc(Reason::NotRun) };
    }
    if done.iter().zip(tasks).any(|(done, task)| task.is_rule && done.failed()) {
        return by_nvcc(Reason::DependenciesFail);
    }
    let writes_rule = tasks.iter().any(|task| task.is_rule);
    if writes_rule
        && dry_runs.has_threads()
        && done.iter().zip(tasks).any(|(done, task)| task.preprocesses && done.failed())
    {
        return by_nvcc(Reason::PreprocessorFails);
    }
    if dry_runs.runs_devices_first() {
        return by_nvcc(Reason::OtherOrder);
    }
    Ok(())
}

/// Gives the stub files in a directory the names by which they are kept: cicc writes a stub file's name into
/// it.
fn name_stubs(tmp: &str, folder: &str) {
    for entry in fs::read_dir(tmp).into_iter().flatten().flatten() {
        let is_stub = entry.file_name().to_str().is_some_and(|name| name.ends_with(".cudafe1.stub.c"));
        if let Some(text) = is_stub.then(|| fs::read_to_string(entry.path()).ok()).flatten() {
            let _ = write_file(
                entry.path(),
                text.replace(&format!("\n# 1 \"{tmp}/"), &format!("\n# 1 \"{folder}")),
            );
        }
    }
}

#[cfg(test)]
mod tests {
    use super::*;
    use crate::system::Status;
    use crate::test_folder::TestFolder;
    use call::Run;
    use machine::jobs::Ended;

    fn run(line: &str) -> Run {
        Run::new(line.split(' ').map(String::from).collect(), "/w".into())
    }

    fn ended(code: i32, out: &str, errors: &str) -> Done {
        let status = Status { code, signal: None, dumped: false };
        Done {
            ended: Some(Ended { status, out: out.into(), errors: errors.into(), times: (0.0, 0.0) }),
            ..Done::default()
        }
    }

    fn tasks(rules: &[bool]) -> Vec<Task> {
        rules.iter().map(|&is_rule| Task { is_rule, ..Task::default() }).collect()
    }

    fn to_nvcc(reason: Reason) -> Result<(), Stop> {
        by_nvcc(reason)
    }

    fn outline(dependencies: Option<&str>, keep_dir: Option<&str>) -> Outline {
        Outline {
            dependencies: dependencies.map(run),
            own_dry_run: run("nvcc"),
            first_dry_run: run("nvcc"),
            second_dry_run: run("nvcc"),
            flag: "-c".into(),
            jobs: None,
            keep_dir: keep_dir.map(String::from),
        }
    }

    #[test]
    fn an_older_nvccs_commands_are_told_by_their_lines() {
        let commands = [5, 6, 0, 1].map(|line| PlannedCommand { line, ..PlannedCommand::default() });
        let mut tasks: Vec<Task> =
            (0..4).map(|command| Task { command: Some(command), ..Task::default() }).collect();
        let host = "#$ gcc -E -x c++ \"k.cu\"\n#$ cudafe++ \"k.cpp4.ii\"\n";
        let device = "#$ gcc -D__CUDA_ARCH__=520 -E -x c++ \"k.cu\"\n#$ cicc \"k.cpp1.ii\" -o \"k.ptx\"\n";
        let order = |tasks: &[Task], run: String| {
            told_order(&commands, tasks, &DryRuns::new(Vec::new(), run.into_bytes(), Vec::new()))
        };
        assert_eq!(order(&tasks, format!("{device}{host}")), [2, 3, 0, 1]);
        assert_eq!(order(&tasks, format!("{host}{device}")), [0, 1, 2, 3]);
        tasks.push(Task { is_rule: true, ..Task::default() });
        assert_eq!(order(&tasks, format!("{device}{host}")), [0, 1, 2, 3, 4]);
    }

    #[test]
    fn some_outlines_go_to_nvcc() {
        let error = || to_nvcc(Reason::DependenciesToErrors);
        let cases = [
            (outline(None, None), Ok(())),
            (outline(Some("nvcc -M -MF k.d"), Some("/")), Ok(())),
            (outline(Some("nvcc -M /dev/stderr -MF k.d"), None), Ok(())),
            (outline(None, Some("/missing")), to_nvcc(Reason::NoKeepDirectory)),
            (outline(None, Some("/dev/null")), to_nvcc(Reason::NoKeepDirectory)),
            (outline(Some("nvcc -M -MF /dev/stderr -MT k.o"), None), error()),
            (outline(Some("nvcc -M -MF /dev/fd/2"), None), error()),
            (outline(Some("nvcc -MF /proc/self/fd/2"), None), error()),
        ];
        for (outline, wanted) in cases {
            assert_eq!(check(&outline), wanted, "{outline:?}");
        }
    }

    #[test]
    fn a_pipe_is_read_only_where_it_is_an_input() {
        let folder = TestFolder::new();
        fs::write(folder.join("file"), "").unwrap();
        assert!(std::process::Command::new("mkfifo").arg(folder.join("pipe")).status().unwrap().success());
        assert!(["pipe", "./pipe"].iter().all(|name| is_pipe(&folder.join(name))));
        assert!(!["file", "missing", "/dev/null"].iter().any(|name| is_pipe(&folder.join(name))));
        let call = |line: &str| {
            let first_dry_run = Run::new(run(line).words().to_vec(), folder.to_string_lossy().into_owned());
            check(&Outline { first_dry_run, ..outline(None, None) })
        };
        assert_eq!(call("nvcc -c pipe -o k.o"), to_nvcc(Reason::ReadsPipe));
        assert_eq!(call("nvcc -c file -o pipe"), Ok(()));
    }

    #[test]
    fn links_to_open_files_are_seen() {
        let folder = TestFolder::new();
        fs::write(folder.join("file"), "").unwrap();
        for (name, target) in [
            ("open", "/dev/stdin"),
            ("second", "open"),
            ("folder", "/dev/fd"),
            ("usual", "file"),
            ("loop", "loop"),
        ] {
            std::os::unix::fs::symlink(target, folder.join(name)).unwrap();
        }
        let call = |folder: &Path, line: &str| {
            let first_dry_run = Run::new(run(line).words().to_vec(), folder.to_string_lossy().into_owned());
            check(&Outline { first_dry_run, ..outline(None, None) })
        };
        for name in ["open", "second", "./second", "folder/0", "folder/1"] {
            assert_eq!(call(&folder, &format!("nvcc -c {name}")), to_nvcc(Reason::OpenFile), "{name}");
        }
        for words in ["usual", "file", "loop", "missing", "missing/k.cu", "/dev/null", "k.cu -o open"] {
            assert_eq!(call(&folder, &format!("nvcc -c {words}")), Ok(()), "{words}");
        }
        assert_eq!(call(Path::new("/dev"), "nvcc -c stdin"), to_nvcc(Reason::OpenFile));
    }

    #[test]
    fn some_ends_are_not_the_calls() {
        let dry = |commands: &str| DryRuns::new(Vec::new(), commands.into(), Vec::new());
        let usual = dry("#$ cudafe++ k.cu\n#$ cicc k.ii\n#$ gcc -c k.cpp\n");
        let (by_driver, left) = (Done { by_driver: true, ..Done::default() }, Done::default());
        let cases = [
            (true, vec![ended(0, "", ""), by_driver.clone()], vec![false, true], Ok(())),
            (true, vec![ended(0, "", ""), ended(0, "", "")], vec![false, true], Ok(())),
            (true, vec![ended(0, "", ""), left.clone()], vec![false, false], to_nvcc(Reason::NotRun)),
            (true, vec![ended(2, "", ""), left.clone()], vec![false, false], Ok(())),
            (true, vec![ended(2, "", ""), by_driver], vec![false, true], Ok(())),
            (
                true,
                vec![ended(0, "", ""), ended(2, "", "")],
                vec![false, true],
                to_nvcc(Reason::DependenciesFail),
            ),
            (false, vec![ended(0, "", "")], vec![false], to_nvcc(Reason::TemporaryGone)),
            (false, vec![ended(2, "", "")], vec![false], to_nvcc(Reason::TemporaryGone)),
        ];
        for (is_there, done, rules, wanted) in cases {
            assert_eq!(
                check_end(is_there, &done, &tasks(&rules), &usual),
                wanted,
                "{is_there} {done:?} {rules:?}"
            );
        }
        let older = dry("#$ cicc k.ii\n#$ cudafe++ k.cu\n#$ gcc -c k.cpp\n");
        let ends = [0, 2].map(|code| check_end(true, &[ended(code, "", "")], &tasks(&[false]), &older));
        assert_eq!(ends, [Ok(()), to_nvcc(Reason::OtherOrder)]);
    }

    #[test]
    fn nvcc_runs_preprocessors_side_by_side_that_fail() {
        let usual = b"#$ cudafe++ k.cu\n#$ cicc k.ii\n#$ gcc -c k.cpp\n";
        let dry = |own: &str| DryRuns::new(own.into(), usual.to_vec(), Vec::new());
        let [beside, alone] =
            [" > /t/a_stdout 2>/t/a_stderr", ""].map(|to| dry(&format!("#$ gcc -E k.cu{to}\n")));
        assert!(beside.has_threads() && !alone.has_threads());
        let check = |dry_runs: &DryRuns, [preprocessor, cicc]: [i32; 2], is_rule: bool| {
            let done = [ended(preprocessor, "", ""), ended(cicc, "", ""), ended(0, "", "")];
            let mut tasks = tasks(&[false, false, is_rule]);
            tasks[0].preprocesses = true;
            check_end(true, &done, &tasks, dry_runs)
        };
        assert_eq!(check(&beside, [1, 0], true), to_nvcc(Reason::PreprocessorFails));
        let others =
            [check(&beside, [0, 1], true), check(&beside, [1, 0], false), check(&alone, [1, 0], true)];
        assert_eq!(others, [Ok(()), Ok(()), Ok(())]);
    }

    #[test]
    fn ends_keep_their_meaning() {
        assert_eq!(Stop::from(nvcc_jobs::Stopped::Signal(2)), Stop::Signal(2));
        assert_eq!(Stop::from(Stopped::Signal(15)), Stop::Signal(15));
        assert_eq!(
            Stop::from(nvcc_jobs::Stopped::from(Reason::NoTemporaryRoom)),
            Stop::ByNvcc(Reason::NoTemporaryRoom)
        );
        assert_eq!(Stop::from(Error::by_nvcc(Vec::new())), Stop::ByNvcc(Reason::DryRunFails));
        assert_eq!(Stop::from(Stopped::NoProcess("b".into())), Stop::ByNvcc(Reason::Machine("b".into())));
    }

    #[test]
    fn a_kept_stub_file_has_its_name() {
        let room = TestFolder::new();
        let tmp = room.to_str().unwrap();
        let text = |folder: &str| format!("#define A \"{tmp}/\"\n# 1 \"{folder}k.cudafe1.stub.c\"\n");
        for (name, wanted) in [("k.cudafe1.stub.c", "kd/"), ("k.cudafe1.cpp", &format!("{tmp}/"))] {
            fs::write(room.join(name), text(&format!("{tmp}/"))).unwrap();
            name_stubs(tmp, "kd/");
            assert_eq!(fs::read_to_string(room.join(name)).unwrap(), text(wanted), "{name}");
        }
    }
}
