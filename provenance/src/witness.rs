//! What is observed of a call, and the statements that come of it.
use crate::folder;
use crate::moment::text_of;
use crate::resource::Resource;
use crate::statement::{
    Asked, BUILD_TYPE, BUILDER, Builder, Command, Definition, Details, Metadata, PROVENANCE, Provenance, Ran,
    STATEMENT, Statement,
};
use crate::sums::Sums;
use cache::Stamp;
use cache::calls::is_harmless;
use cache::observed::{Gap, Observed};
use cache::observer::{Observer, Subject};
use call::NvccLine;
use machine::clock::nanoseconds;
use machine::excerpts::plain;
use machine::jobs::Job;
use machine::planned::PlannedCommand;
use machine::settings::{Settings, machine_name, own_variable};
use machine::streams::{called, complain};
use machine::task::{Done, Task};
use std::collections::{BTreeMap, BTreeSet};
use std::ffi::{OsStr, OsString};
use std::fs;
use std::io;
use std::path::{Path, PathBuf};
use std::process;
use std::time::SystemTime;

/// Variables that count though no process asks for them, because the kernel, the loader or this program does.
const COUNTING: [&str; 3] = ["LD_LIBRARY_PATH", "PATH", "ZIGRUNK_ROOT"];

/// A call that has come to its end, and has succeeded.
pub struct Finished<'a> {
    /// Its line.
    pub line: &'a NvccLine,
    /// The commands of its plan, or none if it isn't split.
    pub commands: &'a [PlannedCommand],
    /// What ran for it.
    pub tasks: &'a [Task],
    /// What became of that.
    pub done: &'a [Done],
    /// The dependency file, if no process made it.
    pub rule: Option<&'a Path>,
}

/// Observes a call.
pub struct Witness {
    /// Where statements go.
    folder: PathBuf,
    cwd: PathBuf,
    /// The call's own directory.
    own: PathBuf,
    /// Where the observer's files are.
    files: PathBuf,
    begun: SystemTime,
    observer: Option<Observer>,
}

/// Makes the folder for statements, if the settings ask for them.
/// Errors: why there can be none.
pub fn make_folder(settings: &Settings) -> Result<(), String> {
    let Some(folder) = &settings.provenance else { return Ok(()) };
    fs::create_dir_all(folder)
        .map_err(|error| format!("cannot make the folder {}: {}", folder.display(), plain(&error)))
}

/// A call that isn't split, while it runs: as one task.
pub struct Whole {
    witness: Witness,
    /// Whether statements are asked for.
    states: bool,
    line: NvccLine,
    task: Task,
}

impl Whole {
    /// Observes a call of these words in this working directory, if the settings ask for statements or
    /// records.
    pub fn of(settings: &Settings, line: NvccLine, job: &Job) -> Option<Whole> {
        let witness = Witness::of_whole(settings, &line.cwd)?;
        let task = Task { job: job.clone(), ..Task::default() };
        Some(Whole { witness, states: settings.provenance.is_some(), line, task })
    }

    /// The call's line.
    pub fn line(&self) -> &NvccLine {
        &self.line
    }

    /// What its processes did, as far as that is known.
    pub fn observed(&self) -> Observed {
        self.witness.observed(Subject::Task(0)).0
    }

    /// The job in the place of the call's own, if that can be observed.
    pub fn observing(&mut self) -> Option<Job> {
        self.witness.observing(0, &self.task.job)
    }

    /// Writes the statements that are asked for, as `Witness::end` does.
    pub fn end(&self, status: i32) -> i32 {
        if !self.states {
            return status;
        }
        let (tasks, done) = (std::slice::from_ref(&self.task), &[Done::default()]);
        self.witness.end(&Finished { line: &self.line, commands: &[], tasks, done, rule: None }, status)
    }
}

impl Drop for Witness {
    fn drop(&mut self) {
        let _ = fs::remove_dir_all(&self.files);
    }
}

/// Whether a file is a library that a process can load, by its name.
fn is_library(path: &Path) -> bool {
    path.file_name().is_some_and(|name| name.to_string_lossy().split('.').skip(1).any(|part| part == "so"))
}

/// What has been found of a call's processes.
#[derive(Default)]
struct Found {
    /// The files that they read, each with its stamp then.
    files: BTreeMap<PathBuf, Option<Stamp>>,
    variables: BTreeSet<OsString>,
    made: BTreeSet<PathBuf>,
    unknown: Vec<String>,
}

impl Found {
    fn add(&mut self, observed: &Observed) {
        let files = [&observed.read, &observed.programs, &observed.libraries].into_iter().flatten();
        self.files.extend(files.map(|(path, stamp)| (path.clone(), Some(*stamp))));
        // (what a process loads for a while is only looked at, as far as the observer knows)
        let looked_at = observed.seen.iter().filter(|(path, sight)| !sight.is_folder && is_library(path));
        for (path, sight) in looked_at {
            self.files.entry(path.clone()).or_insert(sight.stamp);
        }
        self.variables.extend(observed.variables.iter().cloned());
        self.made.extend(observed.made.iter().cloned());
    }

    /// The files that the call didn't make itself. Of one that has changed since, the digest isn't known.
    fn resources(&mut self, sums: &mut Sums) -> Vec<Resource> {
        let read = self.files.iter().filter(|(path, _)| !self.made.contains(*path));
        let mut resources = Vec::new();
        for (path, stamp) in read {
            let sum = sums.of(path);
            let is_same =
                stamp.is_none_or(|stamp| fs::metadata(path).is_ok_and(|now| Stamp::of(&now) == stamp));
            match sum.filter(|_| is_same) {
                Some(sum) => resources.push(Resource::new(path, sum)),
                None => self.unknown.push(format!("{} changed while the call ran", path.display())),
            }
        }
        resources
    }

    /// The variables that count, with their values.
    fn environment(&self, line: &NvccLine) -> BTreeMap<String, String> {
        let text = |text: &OsStr| text.to_string_lossy().into_owned();
        let asked = self.variables.iter().map(OsString::as_os_str).chain(COUNTING.map(OsStr::new));
        let of_process = asked.filter_map(|name| Some((text(name), text(&own_variable(name)?))));
        let all = of_process.chain(line.variables.iter().cloned());
        all.filter(|(name, _)| !is_harmless(name.as_ref())).collect()
    }
}

impl Witness {
    /// Observes a call in this working directory, whose files go to a directory of its own, if the settings
    /// ask for statements.
    pub fn of_split(settings: &Settings, cwd: &str, tmp: &str) -> Option<Witness> {
        let own = PathBuf::from(tmp);
        settings.provenance.as_ref().map(|folder| Witness::new(folder, cwd, &own, own.join("observer")))
    }

    /// The same of a call that isn't split. A record is asked for by its own setting.
    fn of_whole(settings: &Settings, cwd: &str) -> Option<Witness> {
        let folder = settings.provenance.as_ref().or(settings.records.as_ref())?;
        let name = format!("zigrunk-provenance-{}-{}", process::id(), nanoseconds());
        let files = settings.temporary.join(name);
        Some(Witness::new(folder, cwd, &files.clone(), files))
    }

    fn new(folder: &Path, cwd: &str, own: &Path, files: PathBuf) -> Witness {
        let observer = Observer::new(files.clone()).ok();
        let (folder, own, begun) = (folder.to_owned(), own.to_owned(), SystemTime::now());
        Witness { folder, cwd: cwd.into(), own, files, begun, observer }
    }

    /// What observes nvcc's dry runs.
    pub fn observer(&mut self) -> Option<&mut Observer> {
        self.observer.as_mut()
    }

    /// The job in the place of one that is about to start for a task, if what that does can be observed.
    pub fn observing(&mut self, task: usize, job: &Job) -> Option<Job> {
        self.observer.as_mut()?.observing(Subject::Task(task), job).ok()
    }

    /// What a process did, as far as that is known, and why more may be unknown.
    fn observed(&self, subject: Subject) -> (Observed, Option<Gap>) {
        let real = fs::canonicalize(&self.own).unwrap_or_else(|_| self.own.clone());
        let part = |observer: &Observer| observer.observed_part(subject, &[&self.own, &real], None);
        self.observer.as_ref().map_or_else(|| (Observed::default(), Some(Gap::Nothing)), part)
    }

    /// Writes a statement of each product of a call that has ended with this status, if it has succeeded.
    /// Says the status of it all: 1, with a message, if a statement can't be written.
    pub fn end(&self, call: &Finished<'_>, status: i32) -> i32 {
        let stated = if status == 0 { self.state(call) } else { Ok(()) };
        stated.map_or_else(
            |error| {
                complain(&format!(
                    "{}: cannot write a statement to {}: {}",
                    called(),
                    self.folder.display(),
                    plain(&error)
                ));
                1
            },
            |()| status,
        )
    }

    /// Errors: those of the disk.
    fn state(&self, call: &Finished<'_>) -> io::Result<()> {
        let mut sums = Sums::in_folder(&self.folder);
        let mut found = Found::default();
        let runs = self.observer.iter().flat_map(Observer::subjects);
        for run in runs.filter(|subject| matches!(subject, Subject::DryRun(_))) {
            let (observed, gap) = self.observed(run);
            found.add(&observed);
            found.unknown.extend(gap.map(|gap| format!("{} --dryrun: {gap}", call.line.nvcc)));
        }
        let ran = call.tasks.iter().zip(call.done).enumerate().filter(|(_, (_, done))| !done.by_driver);
        let commands: Vec<Command> =
            ran.map(|(number, (task, _))| self.command(number, task, call, &mut found, &mut sums)).collect();
        let made = commands.iter().flat_map(|command| &command.products).map(PathBuf::from);
        let products: BTreeSet<PathBuf> = made.chain(call.rule.map(Path::to_owned)).collect();
        let predicate = self.provenance(call, commands, &mut found, &mut sums);
        for product in &products {
            let sum = sums.of(product).unwrap_or_default();
            folder::put(&self.folder, product, &self.statement(product, sum, predicate.clone()))?;
        }
        sums.keep(&self.folder)
    }

    /// A command that ran for a task, with what is known of it.
    fn command(
        &self,
        number: usize,
        task: &Task,
        call: &Finished<'_>,
        found: &mut Found,
        sums: &mut Sums,
    ) -> Command {
        let folder = if task.job.folder.is_empty() { &call.line.cwd } else { &task.job.folder };
        let program = task.job.program(&own_variable("PATH").unwrap_or_default());
        let program = Path::new(folder).join(program.unwrap_or_default());
        let planned = task.command.and_then(|command| call.commands.get(command));
        let (observed, gap) = self.observed(Subject::Task(number));
        found.add(&observed);
        let mut made = observed.made;
        if let Some(gap) = gap {
            found.unknown.push(format!("{}: {gap}", program.display()));
            made.extend(self.recorded(folder, planned, found));
        }
        let is_product = |path: &&PathBuf| path.is_file() && !path.starts_with(&self.own);
        let products = made.iter().filter(is_product).map(|path| path.to_string_lossy().into_owned());
        Command {
            words: task.job.words.clone(),
            folder: folder.clone(),
            environment: task.job.variables.iter().cloned().collect(),
            tool: Resource::new(&program, sums.of(&program).unwrap_or_default()),
            products: products.collect(),
        }
    }

    /// What the record of a command says that it reads, if it wasn't observed as a whole, and what it writes.
    fn recorded(&self, folder: &str, planned: Option<&PlannedCommand>, found: &mut Found) -> Vec<PathBuf> {
        let Some(planned) = planned else { return Vec::new() };
        let whole = |file: &String| Path::new(folder).join(file);
        let read =
            planned.reads.iter().map(whole).filter(|path| path.is_file() && !path.starts_with(&self.own));
        for path in read {
            found.files.entry(path).or_insert(None);
        }
        planned.writes.iter().chain(&planned.may_write).map(whole).collect()
    }

    fn provenance(
        &self,
        call: &Finished<'_>,
        commands: Vec<Command>,
        found: &mut Found,
        sums: &mut Sums,
    ) -> Provenance {
        let line = call.line;
        let words = [std::slice::from_ref(&line.nvcc), &line.words].concat();
        let asked = Asked { words, folder: line.cwd.clone(), environment: found.environment(line) };
        let resolved_dependencies = found.resources(sums);
        let temporary = self.own.to_string_lossy().into_owned();
        let ran = Ran { temporary, commands, unknown: found.unknown.clone() };
        let version = BTreeMap::from([("zigrunk".into(), env!("CARGO_PKG_VERSION").into())]);
        let begun = self.begun.duration_since(SystemTime::UNIX_EPOCH).unwrap_or_default().as_nanos();
        Provenance {
            build_definition: Definition {
                build_type: BUILD_TYPE.into(),
                external_parameters: asked,
                internal_parameters: ran,
                resolved_dependencies,
            },
            run_details: Details {
                builder: Builder { id: BUILDER.into(), version },
                metadata: Metadata {
                    invocation_id: format!("{}-{}-{begun}", machine_name(), process::id()),
                    started_on: text_of(self.begun),
                    finished_on: text_of(SystemTime::now()),
                },
            },
        }
    }

    /// What is said of a product: by the name that it has for the call.
    fn statement(&self, product: &Path, sum: String, predicate: Provenance) -> Statement {
        let name = product.strip_prefix(&self.cwd).unwrap_or(product).to_string_lossy().into_owned();
        Statement {
            kind: STATEMENT.into(),
            subject: vec![Resource { name: Some(name), ..Resource::new(product, sum) }],
            predicate_type: PROVENANCE.into(),
            predicate,
        }
    }
}

#[cfg(test)]
pub(crate) mod tests {
    use super::*;

    fn call(words: &str) -> NvccLine {
        let mut words = words.split(' ').map(String::from);
        NvccLine {
            cwd: "/w".into(),
            nvcc: words.next().unwrap(),
            words: words.collect(),
            variables: vec![("NVCC_APPEND_FLAGS".into(), "-O2".into()), ("MAKEFLAGS".into(), "-j".into())],
        }
    }

    /// A statement of a product that was made from nothing.
    pub(crate) fn statement(product: &str, sum: &str) -> Statement {
        let line = call("nvcc -c k.cu");
        let witness = Witness::new(Path::new("/s"), &line.cwd, Path::new("/t"), PathBuf::from("/t/observer"));
        let call = Finished { line: &line, commands: &[], tasks: &[], done: &[], rule: None };
        let predicate = witness.provenance(&call, Vec::new(), &mut Found::default(), &mut Sums::default());
        witness.statement(Path::new(product), sum.into(), predicate)
    }

    #[test]
    fn a_statement_reads_back() {
        let stated = statement("/w/k.o", "00");
        let text = serde_json::to_vec(&stated).unwrap();
        assert_eq!(Statement::of_text(&text), Ok(stated.clone()));
        assert_eq!(stated.subject[0].name.as_deref(), Some("k.o"));
        assert_eq!(statement("/other/k.o", "").subject[0].name.as_deref(), Some("/other/k.o"));
        let other =
            String::from_utf8(text).unwrap().replace("in-toto.io/Statement/v1", "in-toto.io/Statement/v0.1");
        let error = Statement::of_text(other.as_bytes()).unwrap_err();
        assert_eq!(
            error,
            "it is of the type https://in-toto.io/Statement/v0.1, not https://in-toto.io/Statement/v1"
        );
        assert!(Statement::of_text(b"{}").is_err() && Statement::of_text(b"k").is_err());
    }

    #[test]
    fn variables_count_that_were_asked_for() {
        let stated = statement("/w/k.o", "00");
        let environment = &stated.predicate.build_definition.external_parameters.environment;
        assert_eq!(environment.get("NVCC_APPEND_FLAGS").map(String::as_str), Some("-O2"));
        assert!(environment.contains_key("PATH") && !environment.contains_key("MAKEFLAGS"));
        let found =
            Found { variables: ["HOME", "TERM", "NONE_SUCH"].map(OsString::from).into(), ..Found::default() };
        let names: Vec<String> = found.environment(&call("nvcc")).into_keys().collect();
        let home = own_variable("HOME").map(|_| "HOME".to_owned());
        assert_eq!(
            names
                .iter()
                .filter(|name| !["LD_LIBRARY_PATH", "ZIGRUNK_ROOT"].contains(&name.as_str()))
                .cloned()
                .collect::<Vec<_>>(),
            home.into_iter().chain(["NVCC_APPEND_FLAGS".into(), "PATH".into()]).collect::<Vec<_>>()
        );
    }

    #[test]
    fn libraries_have_names_of_their_own() {
        for (name, wanted) in
            [("a.so", true), ("/l/liba.so.1.2", true), ("so", false), ("a.sox", false), ("a.o", false)]
        {
            assert_eq!(is_library(Path::new(name)), wanted, "{name}");
        }
    }

    #[test]
    fn a_file_that_changed_meanwhile_is_not_known() {
        let room = crate::test_folder::TestFolder::new();
        let [same, other, own, gone] = ["same", "other", "own", "gone"].map(|name| room.join(name));
        for file in [&same, &other, &own] {
            fs::write(file, "text").unwrap();
        }
        let stamp = |file: &Path| fs::metadata(file).ok().map(|status| Stamp::of(&status));
        let files = [
            (same.clone(), stamp(&same)),
            (other.clone(), stamp(&same)),
            (own.clone(), None),
            (gone.clone(), None),
        ];
        let mut found = Found { files: files.into(), made: [own].into(), ..Found::default() };
        let resources = found.resources(&mut Sums::default());
        assert_eq!(resources.iter().filter_map(Resource::path).collect::<Vec<_>>(), [same]);
        let changed = |file: &Path| format!("{} changed while the call ran", file.display());
        assert_eq!(found.unknown, [changed(&gone), changed(&other)]);
    }
}
