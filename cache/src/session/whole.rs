//! Keeps a whole call, by what was observed of its processes.
use super::{Session, State, names};
use crate::calls::{self, Answer, Product, terminal};
use crate::host_text::{absolute_names, files_entered, sees_lines, tells_time};
use crate::inputs::Refusal;
use crate::manifest::Manifest;
use crate::observed::{Gap, Observed};
use crate::observer::{Observer, Subject};
use crate::stamps::Moment;
use crate::tool::Kind;
use crate::words;
use call::NvccLine;
use call::programs;
use machine::jobs::Job;
use machine::planned::PlannedCommand;
use machine::rooted::as_written;
use machine::settings::own_variable;
use machine::streams::Said;
use machine::task::Task;
use std::collections::{BTreeMap, BTreeSet};
use std::env;
use std::ffi::{OsStr, OsString};
use std::fs;
use std::os::unix::ffi::OsStrExt;
use std::path::{Path, PathBuf};

/// A call that has come to its end, and has succeeded.
pub struct Finished<'a> {
    /// Its line.
    pub line: &'a NvccLine,
    /// Its commands.
    pub commands: &'a [PlannedCommand],
    /// What ran for it.
    pub tasks: &'a [Task],
    /// Its dependency file, if it has one.
    pub rule: Option<Product>,
    /// What it has said.
    pub said: Said,
    /// The same with names under the root, if it was made under one.
    pub rooted_said: Option<Said>,
}

impl Finished<'_> {
    pub(super) fn cwd(&self) -> &Path {
        Path::new(&self.line.cwd)
    }

    /// The tasks of the plan's commands, with their numbers.
    fn of_plan(&self) -> impl Iterator<Item = (usize, &Task, &PlannedCommand)> {
        self.tasks
            .iter()
            .enumerate()
            .filter_map(|(number, task)| Some((number, task, &self.commands[task.command?])))
    }
}

/// What is known of the texts that a call's preprocessors wrote.
#[derive(Default)]
pub(super) struct Written {
    /// The files that they have entered.
    entered: BTreeMap<PathBuf, BTreeSet<PathBuf>>,
    /// The texts that may see their lines.
    lined: BTreeSet<PathBuf>,
    /// The whole paths that their line markers name.
    pub named: BTreeSet<PathBuf>,
}

impl Written {
    /// Notes a text.
    fn add(&mut self, file: &Path) -> Result<(), Refusal> {
        let text = fs::read(as_written(file)).map_err(|_| Refusal::Changed(file.to_owned()))?;
        self.named
            .extend(absolute_names(&text).into_iter().map(|name| PathBuf::from(OsStr::from_bytes(name))));
        let entered = files_entered(&text).filter(|_| !tells_time(&text));
        let entered = entered.ok_or_else(|| {
            Refusal::Task("a source may tell the time, or name a file in an odd way".into())
        })?;
        let entered = entered.into_iter().map(|name| PathBuf::from(OsStr::from_bytes(name))).collect();
        if sees_lines(&text) {
            self.lined.insert(file.to_owned());
        }
        self.entered.insert(file.to_owned(), entered);
        Ok(())
    }

    /// The files that a preprocessor has entered, if its text was written and doesn't see its lines.
    pub(super) fn entered_without_lines(&self, file: &Path) -> Option<&BTreeSet<PathBuf>> {
        self.entered.get(file).filter(|_| !self.lined.contains(file))
    }

    fn all(&self) -> BTreeSet<PathBuf> {
        self.entered.values().flatten().cloned().collect()
    }
}

/// A variable of a job.
fn variable(job: &Job, name: &str) -> OsString {
    let given = job.variables.iter().rev().find(|(other, _)| other == name);
    given.map_or_else(
        || own_variable(name).unwrap_or_default(),
        |(_, value)| value.clone().unwrap_or_default().into(),
    )
}

/// Where the driver looks for a program on the path before it finds it.
fn sought_before(program: &Path, path: &OsStr) -> Vec<PathBuf> {
    let places: Vec<PathBuf> =
        env::split_paths(path).map(|folder| folder.join(program.file_name().unwrap_or_default())).collect();
    // One that isn't on the path was named in another way.
    let before = places.iter().position(|place| place == program).unwrap_or_default();
    places.into_iter().take(before).collect()
}

/// The words of a preprocessor without those by which it writes rooted names, which are in front.
fn without_maps<'a>(call: &Finished<'_>, command: &'a PlannedCommand) -> &'a [String] {
    let is_own = |word: &&String| call.rooted_said.is_some() && word.starts_with("-ffile-prefix-map=");
    &command.words[command.words.iter().take_while(is_own).count()..]
}

/// Whether a line asks for the targets of the machine's own GPUs, which nvcc looks for at each call.
fn asks_for_native(line: &NvccLine) -> bool {
    let texts = line.words.iter().chain(line.variables.iter().map(|(_, value)| value));
    texts.flat_map(|text| text.split([' ', '\t', '=', ','])).any(|part| part == "native")
}

/// Whether a task runs a host compiler.
fn is_compiler(task: &Task) -> bool {
    task.job.words.first().and_then(|program| Kind::of(program)) == Some(Kind::Host)
}

impl Session<'_> {
    /// Keeps a call as a whole, if all that it depends on is known, or else why it isn't kept.
    /// Errors: why it isn't.
    pub fn keep_call(&mut self, call: &Finished<'_>) -> Result<(), Refusal> {
        if !calls::is_on() {
            return Ok(());
        }
        let lost = || Refusal::Task("its nvcc is gone".into());
        let nvcc =
            programs::find(call.line.nvcc.as_ref(), &own_variable("PATH").unwrap_or_default(), call.cwd())
                .ok_or_else(lost)?;
        let kept = self.keep_by(call, &nvcc);
        if let Err(refusal) = &kept {
            calls::refuse(self.store, call.line, &nvcc, &refusal.to_string());
        }
        kept
    }

    fn keep_by(&mut self, call: &Finished<'_>, nvcc: &Path) -> Result<(), Refusal> {
        self.check(call)?;
        let written = self.written(call)?;
        let (parts, questions) = self.parts_of(call, &written)?;
        let mut manifest = self.reading().whole(&parts)?;
        if !self.beginning.moment.is_before(&Moment::now()) {
            return Err(Refusal::Task("the clock was set".into()));
        }
        manifest.defines = self.defines(call).filter(|_| written.lined.is_empty());
        self.keep_directly(&call.line.cwd, &questions, &written);
        let answer =
            self.answer(call).ok_or_else(|| Refusal::Task("its messages name its own directory".into()))?;
        if let Some(shared) = self.shared(call, nvcc, &written, &manifest, &answer) {
            shared.keep(self.store);
        } else {
            calls::keep(self.store, call.line, nvcc, self.folder_counts(call), &manifest, &answer);
        }
        Ok(())
    }

    /// Whether the cache has seen all that the call has made.
    fn check(&self, call: &Finished<'_>) -> Result<(), Refusal> {
        let is_own = |path: &String| Path::new(path).starts_with(self.tmp);
        let stays = |command: &PlannedCommand| command.writes.iter().chain(&command.may_write).all(is_own);
        for (number, _, command) in call.of_plan() {
            let is_kept = self
                .candidates
                .get(&number)
                .is_some_and(|candidate| matches!(candidate.state, State::Hit | State::Kept));
            let is_known = !command.preprocesses || words::is_preprocess(without_maps(call, command));
            let refusal =
                self.candidates.get(&number).and_then(|candidate| candidate.inputs.as_ref().err().cloned());
            let runs_script = matches!(refusal, Some(Refusal::Names(_)));
            if runs_script || !(is_kept || stays(command) && is_known) {
                return Err(refusal.unwrap_or_else(|| {
                    Refusal::Task(format!("the cache does not keep what {} made", command.program))
                }));
            }
        }
        let outputs = self.candidates.values().flat_map(|candidate| &candidate.recipe.outputs);
        let made = outputs.filter(|output| output.path != output.written_to).count();
        let has_rule = call.rule.is_some() == call.tasks.iter().any(|task| task.is_rule);
        // (a word that a source may have by a macro)
        let names_pragma = call
            .line
            .words
            .iter()
            .chain(call.line.variables.iter().map(|(_, value)| value))
            .any(|text| text.contains("dependency"));
        let is_known =
            has_rule && made == self.products.len() && !asks_for_native(call.line) && !names_pragma;
        if is_known {
            Ok(())
        } else {
            Err(Refusal::Task("the cache does not keep all of its products, or what it asks for".into()))
        }
    }

    /// The texts of the call's preprocessors.
    fn written(&self, call: &Finished<'_>) -> Result<Written, Refusal> {
        let asked = self.candidates.values().filter(|candidate| candidate.direct.found.is_none());
        let asked = asked.filter_map(|candidate| Some(&candidate.recipe.question.as_ref()?.1));
        let own = call
            .commands
            .iter()
            .filter(|command| command.preprocesses)
            .filter_map(|command| command.writes.first().map(Path::new));
        let mut written = Written::default();
        own.chain(asked.map(PathBuf::as_path)).try_for_each(|file| written.add(file))?;
        Ok(written)
    }

    /// The whole paths of the sources that preprocessors have read, as far as that is known.
    fn texts_of(&self, call: &Finished<'_>, written: &Written) -> BTreeSet<PathBuf> {
        let sources = call
            .commands
            .iter()
            .filter(|command| command.preprocesses)
            .flat_map(|command| &command.reads)
            .map(PathBuf::from);
        let compiles = self.candidates.values().filter(|candidate| candidate.recipe.question.is_some());
        let own = compiles.flat_map(|candidate| candidate.recipe.reads.iter().cloned());
        written.all().into_iter().chain(sources).chain(own).map(|path| call.cwd().join(path)).collect()
    }

    /// What each of the call's processes depended on, and that of the compiles' preprocessors by the numbers
    /// of their tasks.
    fn parts_of(
        &mut self,
        call: &Finished<'_>,
        written: &Written,
    ) -> Result<(Vec<Manifest>, BTreeMap<usize, Manifest>), Refusal> {
        let (texts, none) = (self.texts_of(call, written), BTreeSet::new());
        let (mut parts, mut questions) = (vec![self.sought_by_driver(call)?], BTreeMap::new());
        let subjects: BTreeSet<Subject> =
            self.beginning.observer.iter().flat_map(Observer::subjects).collect();
        if !subjects.contains(&Subject::DryRun(0)) {
            return Err(Gap::Nothing.into());
        }
        let served: BTreeSet<usize> = self
            .candidates
            .iter()
            .filter(|(_, candidate)| candidate.is_served())
            .map(|(number, _)| *number)
            .collect();
        for &subject in subjects
            .iter()
            .filter(|subject| !matches!(subject, Subject::Task(number) if served.contains(number)))
        {
            // (to what is no compiler each byte of a source may count)
            let compiles = matches!(subject, Subject::Question(number) | Subject::Task(number) if is_compiler(&call.tasks[number]));
            let part = self.part(call, subject, if compiles { &texts } else { &none })?;
            questions.extend(if let Subject::Question(number) = subject {
                Some((number, part.clone()))
            } else {
                None
            });
            parts.push(part);
        }
        for (number, _, _) in call.of_plan() {
            let Some(candidate) = self.candidates.get(&number).filter(|candidate| candidate.is_served())
            else {
                if subjects.contains(&Subject::Task(number)) {
                    continue;
                }
                return Err(Gap::Nothing.into());
            };
            parts.push(candidate.inputs.clone()?);
            parts.extend(candidate.direct.found.clone());
        }
        Ok((parts, questions))
    }

    /// What a process of the call depended on, whose preprocessors have entered these texts.
    fn part(
        &mut self,
        call: &Finished<'_>,
        subject: Subject,
        texts: &BTreeSet<PathBuf>,
    ) -> Result<Manifest, Refusal> {
        let observed = self.observed(subject)?;
        let products: Vec<&Path> =
            self.products.iter().chain(&call.rule).map(|product| product.path.as_path()).collect();
        let is_left = |path: &&PathBuf| {
            let place = call.cwd().join(path);
            !products.contains(&place.as_path()) && fs::symlink_metadata(place).is_ok()
        };
        if let Some(path) = observed.made.iter().find(is_left) {
            return Err(Refusal::Task(format!("a command left {}", path.display())));
        }
        let given = match subject {
            Subject::DryRun(_) => &[][..],
            Subject::Question(number) | Subject::Task(number) => &call.tasks[number].job.variables,
        };
        self.reading().manifest(&observed, texts, given)
    }

    /// Where the driver itself looked for the call's programs.
    fn sought_by_driver(&mut self, call: &Finished<'_>) -> Result<Manifest, Refusal> {
        let sought = |(_, task, command): (usize, &Task, &PlannedCommand)| {
            sought_before(Path::new(&command.program), &variable(&task.job, "PATH"))
        };
        let observed = Observed { sought: call.of_plan().flat_map(sought).collect(), ..Observed::default() };
        self.reading().manifest(&observed, &BTreeSet::new(), &[])
    }

    /// What the command lines of the call's preprocessors define. `None` if lines and comments may count: for
    /// debuggers, or in messages.
    fn defines(&self, call: &Finished<'_>) -> Option<Vec<Vec<u8>>> {
        let lines_count = self.candidates.values().any(|candidate| candidate.recipe.lines_count);
        let is_silent = call.said.iter().all(|(_, text)| text.is_empty());
        let questions =
            self.candidates.values().filter_map(|candidate| Some(&candidate.recipe.question.as_ref()?.0));
        let own = call.of_plan().filter(|(_, _, command)| command.preprocesses).map(|(_, task, _)| &task.job);
        let defined: BTreeSet<Vec<u8>> =
            own.chain(questions).flat_map(|job| words::defined(&job.words)).map(Into::into).collect();
        (is_silent && !lines_count).then(|| defined.into_iter().collect())
    }

    /// Whether a product may have the call's folder in it: debugging information has it, and the module id
    /// has a source's whole path.
    fn folder_counts(&self, call: &Finished<'_>) -> bool {
        let preprocessors = call.commands.iter().filter(|command| command.preprocesses);
        let mut words = preprocessors.flat_map(|command| &command.words);
        let has_names = self.candidates.values().any(|candidate| candidate.recipe.directory.is_empty());
        // A word may name a product, or the folder for it, by its whole path.
        let texts = || call.line.words.iter().chain(call.line.variables.iter().map(|(_, value)| value));
        let mut products =
            self.products.iter().chain(&call.rule).map(|product| product.path.to_string_lossy());
        let is_named = products.any(|product| texts().any(|text| text.contains(&*product)));
        let names_folder =
            texts().any(|text| ["odir", "output-directory"].iter().any(|option| text.contains(option)));
        let is_beside = |word: &String| {
            !word.starts_with('-') && !word.starts_with('/') && call.cwd().join(word).is_file()
        };
        call.rooted_said.is_some() || has_names || is_named || names_folder || words.any(is_beside)
    }

    /// What the call has made and said. `None` if that has the name of its directory.
    fn answer(&self, call: &Finished<'_>) -> Option<Answer> {
        let seen = |product: &Product| Product {
            path: product.path.strip_prefix(call.cwd()).unwrap_or(&product.path).to_owned(),
            ..product.clone()
        };
        let products = self.products.iter().map(seen).collect();
        let rule = call.rule.as_ref().map(seen);
        let is_named = call.said.iter().any(|(_, text)| names(text, self.tmp));
        let speaks = call.said.iter().any(|(_, text)| !text.is_empty());
        let terminal = if speaks { terminal() } else { Vec::new() };
        (!is_named).then(|| Answer { products, rule, said: call.said.clone(), terminal })
    }
}

#[cfg(test)]
mod tests {
    use super::*;
    use crate::session::Beginning;
    use crate::store::Store;
    use std::env;

    fn command(words: &str, reads: &[&str], writes: &[&str]) -> PlannedCommand {
        let list = |words: &[&str]| words.iter().map(|&word| word.to_owned()).collect::<Vec<_>>();
        let words = list(&words.split(' ').collect::<Vec<_>>());
        let preprocesses = words.iter().any(|word| word == "-E");
        let (reads, writes) = (list(reads), list(writes));
        PlannedCommand {
            program: words[0].clone(),
            words: words[1..].to_vec(),
            preprocesses,
            reads,
            writes,
            complete: true,
            ..PlannedCommand::default()
        }
    }

    /// Makes a test of a call of these commands in a folder.
    fn with_call<T>(
        commands: &[PlannedCommand],
        cwd: &Path,
        said: Said,
        test: impl FnOnce(&mut Session<'_>, &Finished<'_>) -> T,
    ) -> T {
        let job = |one: &PlannedCommand| Job {
            words: [std::slice::from_ref(&one.program), &one.words].concat(),
            folder: "/w".into(),
            ..Job::default()
        };
        let task = |(number, one): (usize, &PlannedCommand)| Task {
            command: Some(number),
            job: job(one),
            ..Task::default()
        };
        let tasks: Vec<Task> = commands.iter().enumerate().map(task).collect();
        let store = Store::new(cwd.join("no-entries"), 1 << 20);
        let line = NvccLine {
            cwd: cwd.to_string_lossy().into_owned(),
            nvcc: "nvcc".into(),
            words: Vec::new(),
            variables: Vec::new(),
        };
        let call = Finished { line: &line, commands, tasks: &tasks, rule: None, said, rooted_said: None };
        test(
            &mut Session::new(&store, "/t", commands, &tasks, Beginning::new("/none", &line.cwd, &[], None)),
            &call,
        )
    }

    #[test]
    fn what_others_keep_or_make_is_not_kept() {
        let preprocessor = command("/b/gcc -E k.cu -o /t/k.ii", &["/w/k.cu"], &["/t/k.ii"]);
        let is_known = |words: &str, reads: &[&str], writes: &[&str], state: State| {
            let commands = [preprocessor.clone(), command(words, reads, writes)];
            with_call(&commands, Path::new("/w"), Vec::new(), |session, call| {
                session.candidates.values_mut().for_each(|candidate| candidate.state = state.clone());
                session.check(call).is_ok()
            })
        };
        let fatbin = |product: &str| {
            is_known(
                &format!("/b/fatbinary --create={product} --image3=kind=elf,file=/w/x.cubin"),
                &[],
                &[product],
                State::Own,
            )
        };
        assert_eq!(["/t/x", "/tt/x"].map(fatbin), [true, false]);
        let ptxas =
            |state: State| is_known("/b/ptxas -m64 /t/k.ptx -o /w/x", &["/t/k.ptx"], &["/w/x"], state);
        assert_eq!([State::Own, State::Kept].map(ptxas), [false, false], "the cache hasn't seen the product");
        let inside =
            |state: State| is_known("/b/ptxas -m64 /t/k.ptx -o /t/x", &["/t/k.ptx"], &["/t/x"], state);
        assert_eq!([State::Own, State::Kept].map(inside), [true, true]);
    }

    #[test]
    fn a_program_is_sought_on_the_path() {
        let before = |program: &str| sought_before(Path::new(program), OsStr::new("/a:/b:/c"));
        assert_eq!(before("/b/gcc"), [PathBuf::from("/a/gcc")]);
        assert_eq!((before("/a/gcc"), before("/d/gcc")), (vec![], vec![]));
    }

    #[test]
    fn a_text_that_tells_the_time_is_not_kept() {
        let room = crate::test_folder::TestFolder::new();
        let mut written = Written::default();
        let file = room.join("k.ii");
        fs::write(&file, "# 1 \"a.h\" 1\n__LINE__\n").unwrap();
        assert_eq!(written.add(&file), Ok(()));
        assert_eq!(
            (written.all(), written.entered_without_lines(&file)),
            (BTreeSet::from(["a.h".into()]), None)
        );
        fs::write(&file, "# 1 \"a.h\" 1\n\"12:34:56\"\n").unwrap();
        assert!(written.add(&file).is_err() && written.add(&room.join("missing")).is_err());
    }

    #[test]
    fn what_is_defined_counts_unless_lines_do() {
        let preprocessors = ["-DB=2", "-D A", "-DB=2"]
            .map(|word| command(&format!("/b/gcc {word} -E k.cu -o /t/k.ii"), &["/w/k.cu"], &["/t/k.ii"]));
        let ptxas = |word: &str| {
            command(
                &format!("/b/ptxas {word} -arch=sm_80 /t/k.ptx -o /t/k.cubin"),
                &["/t/k.ptx"],
                &["/t/k.cubin"],
            )
        };
        let defined = |commands: &[PlannedCommand], said: &str| {
            let said = vec![(true, said.as_bytes().to_vec())];
            with_call(&[&preprocessors, commands].concat(), Path::new("/w"), said, |session, call| {
                session.defines(call)
            })
        };
        assert_eq!(defined(&[ptxas("-m64")], ""), Some(vec![b"A".to_vec(), b"B=2".to_vec()]));
        assert_eq!(defined(&[ptxas("-m64")], "it warns"), None);
        assert_eq!(defined(&[ptxas("-m64"), ptxas("-g")], ""), None, "lines count for one of them");
    }

    #[test]
    fn a_line_asks_for_native_by_a_word_or_a_variable() {
        let asks = |words: &[&str], flags: &str| {
            let words = words.iter().map(|word| (*word).into()).collect();
            let variables = vec![("NVCC_APPEND_FLAGS".into(), flags.into())];
            asks_for_native(&NvccLine { cwd: "/w".into(), nvcc: "nvcc".into(), words, variables })
        };
        assert!(
            asks(&["-arch=native", "-c", "k.cu"], "")
                && asks(&["-arch", "native"], "")
                && asks(&["-c"], "-O2 -arch=native")
        );
        assert!(!asks(&["-c", "native/k.cu", "-o", "native.o"], "-DNATIVE"));
    }

    #[test]
    fn a_jobs_variable_comes_before_the_own() {
        let job = Job {
            variables: vec![("PATH".into(), Some("/a".into())), ("HOME".into(), None)],
            ..Job::default()
        };
        assert_eq!([variable(&job, "PATH"), variable(&job, "HOME")], [OsString::from("/a"), OsString::new()]);
        assert_eq!(variable(&Job::default(), "PATH"), env::var_os("PATH").unwrap_or_default());
    }
}
