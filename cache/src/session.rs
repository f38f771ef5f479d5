//! The cache during a call.
mod direct;
mod shared;
mod whole;

use crate::{counts, host_text, key, recipe};
use direct::Direct;
pub use whole::Finished;

use crate::calls::{Product, is_on, put, terminal};
use crate::checkout::Checkout;
use crate::digest::{Digest, Hasher};
use crate::entry::{Entry, Made};
use crate::inputs::{Memory, Reading, Refusal};
use crate::key::{Part, Text};
use crate::manifest::Manifest;
use crate::marked::{Marked, has_symbol};
use crate::observed::{Gap, Observed};
use crate::observer::{Observer, Subject};
use crate::recipe::{Output, Recipe, Role, path_of};
use crate::stamps::Moment;
use crate::store::Store;
use crate::tool::{Kind, Tools};
use machine::bytes::contains;
use machine::clock::now;
use machine::host_compilers::HostCompiler;
use machine::jobs::{Ended, Job};
use machine::planned::PlannedCommand;
use machine::settings::AskedRoot;
use machine::streams::{called, complain, content_of};
use machine::task::{Done, Step, Task};
use std::collections::{BTreeMap, BTreeSet};
use std::fs;
use std::io::{self, ErrorKind};
use std::mem;
use std::os::unix::ffi::OsStrExt;
use std::os::unix::fs::MetadataExt;
use std::path::{Path, PathBuf};
use unix::Status;

/// The keys of a command.
#[derive(Clone, PartialEq, Eq, Debug)]
struct Keys {
    texts: Digest,
    tokens: Option<Digest>,
    /// What says in the store that it has an entry of such texts, whatever the command reads late.
    marks: Vec<Digest>,
    /// What counts beside the texts.
    start: Digest,
}

/// Its keys but for what it reads late: by texts, and by tokens. With what counts beside the texts.
#[derive(Clone, Debug)]
struct Parts(Part, Option<Part>, Digest);

impl Parts {
    /// The keys of a command that reads these texts.
    fn keys(&self, recipe: &Recipe, texts: &[Text]) -> Keys {
        let has_late = texts.iter().any(|text| text.role == Role::Late);
        let marks = if has_late { self.marks().collect() } else { Vec::new() };
        Keys {
            texts: self.0.key(recipe, texts),
            tokens: self.1.as_ref().map(|part| part.key(recipe, texts)),
            marks,
            start: self.2,
        }
    }

    fn marks(&self) -> impl Iterator<Item = Digest> {
        [Some(&self.0), self.1.as_ref()].into_iter().flatten().map(Part::mark)
    }
}

/// What becomes of a task.
#[derive(Clone, Debug)]
enum State {
    /// It runs as it is.
    Own,
    /// It is to be looked up.
    Fresh,
    /// What it reads is preprocessed.
    Asked,
    /// The cache has nothing for it, and it has begun before all is there that it reads.
    Begun(Box<Parts>),
    /// Nothing was found under its keys, and it runs.
    Missed(Keys),
    /// It has run, and the cache has what it made.
    Kept,
    Hit,
}

/// A task that may be served.
struct Candidate {
    recipe: Recipe,
    state: State,
    hit: Option<bool>,
    /// How it's looked up without a preprocessor, if it is a compile.
    direct: Direct,
    /// What it depended on beside its texts, once it has been served or kept; or why that isn't known.
    inputs: Result<Manifest, Refusal>,
}

impl Candidate {
    fn new(recipe: Recipe, state: State) -> Candidate {
        let inputs = Err(Refusal::Task("the cache does not keep what a command made".into()));
        Candidate { recipe, state, hit: None, direct: Direct::default(), inputs }
    }

    /// Whether it has been served or kept.
    fn is_served(&self) -> bool {
        matches!(self.state, State::Hit | State::Kept)
    }
}

/// How a call begins, before anything is read for it.
pub struct Beginning {
    moment: Moment,
    cwd: PathBuf,
    /// What observes the call's processes, if that is possible here.
    observer: Option<Observer>,
    memory: Memory,
    /// The checkout in which the call is made, if a root stands for it.
    checkout: Option<Checkout>,
    /// Whether it is made under a root: then nvcc can't make it in our place, if a message would name the
    /// lines of another text.
    has_root: bool,
}

impl Beginning {
    /// Notes how things are, and has all processes observed of a call with these words, whose files go to
    /// `tmp`, and which may be under a root.
    pub fn new(tmp: &str, cwd: &str, words: &[String], root: Option<&AskedRoot>) -> Beginning {
        let observer = Observer::new(Path::new(tmp).join("observer")).ok();
        // (before the moment at which all is to be as it will be)
        let memory = Memory::new(Path::new(cwd), words);
        let checkout = root.and_then(|root| Checkout::of(root, cwd));
        let has_root = root.is_some();
        Beginning { moment: Moment::now(), cwd: cwd.into(), observer, memory, checkout, has_root }
    }

    /// What is to observe the call's processes.
    pub fn observer(&mut self) -> Option<&mut Observer> {
        self.observer.as_mut()
    }
}

/// The cache during a call.
pub struct Session<'a> {
    store: &'a Store,
    tools: Tools,
    /// Whether host compilers are gcc.
    compilers: BTreeMap<PathBuf, bool>,
    tmp: &'a str,
    candidates: BTreeMap<usize, Candidate>,
    terminal: Vec<u8>,
    /// When it began: before that nothing was read but by nvcc's dry runs.
    started: Moment,
    beginning: Beginning,
    /// Whether the user knows that nothing can be written.
    has_complained: bool,
    /// What the call's commands have put in places outside its directory.
    products: Vec<Product>,
    /// Whether what a command made may have the lines of an earlier source, as what cudafe++ and cicc write
    /// for the host compiler has.
    has_other_lines: bool,
    /// The call's own preprocessors, until the files are known that they read.
    preprocessors: Vec<usize>,
    /// What was observed of these.
    looked_at: BTreeMap<Subject, Observed>,
}

/// The modes that a new file gets.
fn new_modes() -> Option<u32> {
    let status = fs::read_to_string("/proc/self/status").ok()?;
    let mask = status.lines().find_map(|line| line.strip_prefix("Umask:"))?;
    Some(0o666 & !u32::from_str_radix(mask.trim(), 8).ok()?)
}

/// What was taken from the cache.
struct Taken {
    ended: Ended,
    products: Vec<Product>,
    inputs: Manifest,
}

impl Recipe {
    /// Puts an output in its place. Gives it, if that is outside the call's directory.
    fn put(&self, output: &Output, text: Vec<u8>) -> io::Result<Option<Product>> {
        let is_new = self.kind == Kind::Host;
        put(is_new, &output.path, &text)?;
        Ok((output.path != output.written_to).then(|| Product { path: output.path.clone(), is_new, text }))
    }
}

/// Whether a directory's path, or its own name, is in a text.
fn names(text: &[u8], directory: &str) -> bool {
    let own = directory.rsplit('/').next().unwrap_or_default();
    contains(text, own.as_bytes())
}

impl<'a> Session<'a> {
    /// The cache for the tasks of a call's commands, whose files go to `tmp`. Tasks that aren't commands are
    /// left out.
    pub fn new(
        store: &'a Store,
        tmp: &'a str,
        commands: &[PlannedCommand],
        tasks: &[Task],
        beginning: Beginning,
    ) -> Session<'a> {
        let of_plan = tasks
            .iter()
            .enumerate()
            .filter_map(|(number, task)| Some((number, &commands[task.command?], &task.job)));
        let candidate = |(number, recipe)| (number, Candidate::new(recipe, State::Fresh));
        let preprocesses = |task: &Task| task.command.is_some_and(|command| commands[command].preprocesses);
        Session {
            store,
            tools: Tools::new(store),
            compilers: BTreeMap::new(),
            tmp,
            candidates: recipe::recipes(of_plan, tmp).into_iter().map(candidate).collect(),
            terminal: terminal(),
            started: Moment::now(),
            beginning,
            has_complained: false,
            products: Vec::new(),
            has_other_lines: false,
            preprocessors: tasks
                .iter()
                .enumerate()
                .filter(|(_, task)| preprocesses(task))
                .map(|(number, _)| number)
                .collect(),
            looked_at: BTreeMap::new(),
        }
    }

    /// The job in the place of one that is about to start for a task, if what that does can be observed.
    pub fn observing(&mut self, task: usize, job: &Job) -> Option<Job> {
        let is_asked =
            self.candidates.get(&task).is_some_and(|candidate| matches!(candidate.state, State::Asked));
        let subject = if is_asked { Subject::Question(task) } else { Subject::Task(task) };
        self.beginning.observer.as_mut()?.observing(subject, job).ok()
    }

    /// What was observed of a process of a call.
    fn observed(&self, subject: Subject) -> Result<Observed, Gap> {
        if let Some(known) = self.looked_at.get(&subject) {
            return Ok(known.clone());
        }
        let real = |path: &Path| fs::canonicalize(path).unwrap_or_else(|_| path.to_owned());
        let (own, cwd) = (real(Path::new(self.tmp)), real(&self.beginning.cwd));
        let observer = self.beginning.observer.as_ref().ok_or(Gap::Nothing)?;
        observer.observed(subject, &[Path::new(self.tmp), &own], Some(&cwd))
    }

    /// Whether the files that the call's preprocessors read may be looked at: these have ended, and a command
    /// runs that takes far longer.
    pub fn may_look_ahead(&self, done: &[Done]) -> bool {
        let has_ended =
            |&task: &usize| done[task].ended.as_ref().is_some_and(|ended| ended.status.succeeded());
        let runs = || {
            self.candidates
                .values()
                .any(|candidate| matches!(candidate.state, State::Missed(..) | State::Begun(..)))
        };
        !self.preprocessors.is_empty() && is_on() && self.preprocessors.iter().all(has_ended) && runs()
    }

    /// Looks at them.
    pub fn look_ahead(&mut self) {
        for subject in mem::take(&mut self.preprocessors).into_iter().map(Subject::Task) {
            if let Ok(observed) = self.observed(subject) {
                self.reading().look_ahead(&observed);
                self.looked_at.insert(subject, observed);
            }
        }
    }

    /// What reads that.
    fn reading(&mut self) -> Reading<'_> {
        Reading::new(&self.beginning.cwd, self.beginning.moment.time, &self.tools, &mut self.beginning.memory)
    }

    /// What a task that has run depended on, beside what its preprocessor has entered: the text is all that
    /// counts of that, unless a message may show lines.
    /// Errors: why that isn't known, or may not be what its text says: an edit may have come while it ran,
    /// and be undone later.
    fn inputs_of(&mut self, task: usize, keys: &Keys, speaks: bool) -> Result<Manifest, Refusal> {
        let changed = |what: &str| Refusal::Task(format!("{what} changed while a command ran"));
        let recipe = self
            .candidates
            .get(&task)
            .map(|candidate| candidate.recipe.clone())
            .ok_or_else(|| changed("the call"))?;
        let mut observed = self.observed(Subject::Task(task))?;
        if let Some(script) = self.reading().script(&observed) {
            return Err(Refusal::Names(script));
        }
        let given = &recipe.job.variables;
        let mut own = mem::take(&mut observed.own);
        if let Some((_, file)) = &recipe.question {
            let asked = self.observed(Subject::Question(task))?;
            own.retain(|file| !asked.own.contains(file));
            if let Some(path) = observed.read_otherwise(&asked) {
                return Err(Refusal::Changed(path.clone()));
            }
            let text = content_of(file).unwrap_or_default();
            let entered = host_text::files_entered(&text).ok_or_else(|| changed("a file of an odd name"))?;
            let entered: BTreeSet<PathBuf> = entered
                .into_iter()
                .map(|name| path_of(&recipe, name))
                .chain(recipe.reads.iter().cloned())
                .collect();
            self.reading().manifest(&asked, &entered, given)?;
            let cwd = &self.beginning.cwd;
            // (of the user's own sources comments and blanks count too: gcc looks at them before it warns)
            if !recipe.has_own_source && !speaks {
                observed.leave_out(&asked, |path| entered.contains(&cwd.join(path)));
            }
        }
        if let Some(other) = own.iter().find(|file| !recipe.knows(file, self.tmp)) {
            return Err(Refusal::Task(format!(
                "a command read {}, of which its key has nothing",
                other.display()
            )));
        }
        let inputs = self.reading().manifest(&observed, &BTreeSet::new(), given)?;
        let is_same = self.started.is_before(&Moment::now())
            && self.start(task).map(Hasher::finish) == Some(keys.start);
        if is_same { Ok(inputs) } else { Err(changed("the clock or a link")) }
    }

    /// What to do with a task that may start.
    pub fn first(&mut self, task: usize) -> Step {
        let waits = |candidate: &&mut Candidate| matches!(candidate.state, State::Fresh | State::Begun(..));
        let Some(candidate) = self.candidates.get_mut(&task).filter(waits) else { return Step::Own };
        let recipe = &candidate.recipe;
        // A new file takes each product's place, so nothing may be there but a plain file.
        let is_plain =
            |output: &Output| fs::symlink_metadata(&output.path).map_or(true, |status| status.is_file());
        if !recipe.outputs.iter().all(is_plain) {
            candidate.state = State::Own;
            return Step::Own;
        }
        let now = now();
        if let Some((job, _)) = &recipe.question {
            let preprocesses = job.clone();
            if let Some(taken) = self.take_directly(task, (now, now)) {
                return self.hit(task, taken);
            }
            self.set(task, State::Asked, None);
            return Step::Instead(preprocesses);
        }
        self.look_up(task, (now, now))
    }

    /// What to do with a task whose process, which was started in place of its own, has ended.
    pub fn next(&mut self, task: usize, ended: Ended) -> Step {
        let Some(candidate) = self.candidates.get_mut(&task) else { return Step::Ended(ended) };
        match mem::replace(&mut candidate.state, State::Own) {
            State::Asked if ended.is_silent_success() => self.look_up(task, ended.times),
            State::Missed(keys) => self.ran(task, &keys, ended),
            _ => self.runs_alone(task),
        }
    }

    /// Whether a task, which reads a file late, may begin before that is there: if the cache has nothing for
    /// it, whatever will be in the file.
    pub fn may_begin_early(&mut self, task: usize) -> bool {
        let Some(candidate) = self.candidates.get(&task) else { return true };
        if !matches!(candidate.state, State::Fresh) || candidate.recipe.has_products() {
            return false;
        }
        let Some(parts) = self.parts(task) else {
            self.set(task, State::Own, None);
            return true;
        };
        let is_new = parts.marks().all(|mark| self.store.read(&mark).is_none());
        if is_new {
            self.set(task, State::Begun(Box::new(parts)), Some(false));
        }
        is_new
    }

    /// Hears that all is there that a task reads which has begun early. Says whether it wants to hear how its
    /// process ends.
    pub fn caught_up(&mut self, task: usize) -> bool {
        let begun = |candidate: &&mut Candidate| matches!(candidate.state, State::Begun(..));
        let Some(candidate) = self.candidates.get_mut(&task).filter(begun) else { return false };
        let State::Begun(parts) = mem::replace(&mut candidate.state, State::Own) else { return false };
        let recipe = &candidate.recipe;
        let late = recipe.reads.iter().filter(|file| recipe.role_of(file) == Role::Late);
        let late: Option<Vec<Text>> =
            late.map(|file| Some(Text { role: Role::Late, content: content_of(file).ok()? })).collect();
        let state = late.map_or(State::Own, |late| State::Missed(parts.keys(recipe, &late)));
        self.set(task, state, None);
        true
    }

    /// Whether the cache had what a task makes, if it was looked up.
    pub fn had(&self, task: usize) -> Option<bool> {
        self.candidates.get(&task)?.hit
    }

    /// Notes how many commands the cache had, of a call that it hadn't.
    pub fn end(&self) {
        let count =
            |hit| self.candidates.values().filter(|candidate| candidate.hit == Some(hit)).count() as u64;
        counts::add(
            self.store.folder(),
            counts::Counts { hits: count(true), misses: count(false), calls: 0, others: 1 },
        );
    }

    fn set(&mut self, task: usize, state: State, hit: Option<bool>) {
        if let Some(candidate) = self.candidates.get_mut(&task) {
            candidate.state = state;
            candidate.hit = hit.or(candidate.hit);
        }
    }

    fn runs_alone(&mut self, task: usize) -> Step {
        self.set(task, State::Own, None);
        Step::Own
    }

    /// Whether a command that read other lines than those of the sources may have said something of them,
    /// given what has become of the tasks.
    pub fn misnames_lines(&self, tasks: &[Task], done: &[Done]) -> bool {
        let compiles = |task: &Task| {
            !task.preprocesses
                && task
                    .job
                    .words
                    .first()
                    .is_none_or(|program| Kind::of(program).is_none_or(|kind| kind == Kind::Host))
        };
        let speaks = |(task, done): (&Task, &Done)| {
            compiles(task) && !done.ended.as_ref().is_none_or(Ended::is_silent_success)
        };
        self.has_other_lines && tasks.iter().zip(done).any(speaks)
    }

    /// The texts that a task reads, without those that it reads late if they aren't there yet. `None` if they
    /// aren't known. The first one has its line markers.
    fn texts(recipe: &Recipe, has_late: bool) -> Option<Vec<Text>> {
        let preprocessed = recipe.question.iter().map(|(_, file)| (file, Role::Preprocessed));
        let own = recipe
            .reads
            .iter()
            .map(|file| (file, recipe.role_of(file)))
            .filter(|(_, role)| has_late || *role != Role::Late);
        let text = |(file, role): (&PathBuf, Role)| Some(Text { role, content: fs::read(file).ok()? });
        let texts: Vec<Text> = preprocessed.chain(own).map(text).collect::<Option<_>>()?;
        Some(texts).filter(|texts| !texts.is_empty())
    }

    /// A task's keys but for what it reads late, which isn't there yet.
    fn parts(&mut self, task: usize) -> Option<Parts> {
        let (start, texts) = self.asked(task, false)?;
        let recipe = &self.candidates.get(&task)?.recipe;
        let beside = start.clone().finish();
        let by_texts = Part::by_texts(start.clone(), recipe, &texts)?;
        Some(Parts(by_texts, Part::by_tokens(start, recipe, &texts, self.store), beside))
    }

    /// What counts of a task beside the texts that it reads.
    fn start(&mut self, task: usize) -> Option<Hasher> {
        let recipe = &self.candidates.get(&task)?.recipe;
        let program = recipe.program();
        let is_known = recipe.kind != Kind::Host
            || *self
                .compilers
                .entry(program)
                .or_insert_with_key(|program| HostCompiler::of(program) == HostCompiler::Gcc);
        if is_known { key::start_of(recipe, &recipe.environment()) } else { None }
    }

    /// The same, and these texts.
    fn asked(&mut self, task: usize, has_late: bool) -> Option<(Hasher, Vec<Text>)> {
        let start = self.start(task)?;
        Some((start, Session::texts(&self.candidates.get(&task)?.recipe, has_late)?))
    }

    fn look_up(&mut self, task: usize, times: (f64, f64)) -> Step {
        let Some((start, texts)) = self.asked(task, true) else { return self.runs_alone(task) };
        let Some(candidate) = self.candidates.get(&task) else { return Step::Own };
        let recipe = &candidate.recipe;
        let Some(by_texts) = Part::by_texts(start.clone(), recipe, &texts) else {
            return self.runs_alone(task);
        };
        let key = by_texts.key(recipe, &texts);
        if let Some(taken) = self.entry(&key, recipe).and_then(|found| self.take(recipe, found, times)) {
            self.found(task, key);
            return self.hit(task, taken);
        }
        let beside = start.clone().finish();
        let keys =
            Parts(by_texts, Part::by_tokens(start, recipe, &texts, self.store), beside).keys(recipe, &texts);
        let tokens = keys.tokens.filter(|_| !self.beginning.has_root);
        if let Some(taken) = tokens.and_then(|key| self.take_other(recipe, &key, times)) {
            self.has_other_lines = true;
            return self.hit(task, taken);
        }
        let job = recipe.job.clone();
        self.set(task, State::Missed(keys), Some(false));
        Step::Instead(job)
    }

    /// What the store has under a key, and what that depends on.
    fn entry(&self, key: &Digest, recipe: &Recipe) -> Option<(Entry, Manifest)> {
        let place = (self.beginning.cwd.as_path(), self.beginning.checkout.as_ref());
        Manifest::find(self.store, key, place, &recipe.job.variables)
    }

    fn hit(&mut self, task: usize, taken: Taken) -> Step {
        self.set(task, State::Hit, Some(true));
        if let Some(candidate) = self.candidates.get_mut(&task) {
            candidate.inputs = Ok(taken.inputs);
        }
        self.products.extend(taken.products);
        Step::Ended(taken.ended)
    }

    /// The same for a command with the same tokens, if that said nothing.
    fn take_other(&self, recipe: &Recipe, tokens: &Digest, times: (f64, f64)) -> Option<Taken> {
        let other = Digest(self.store.read(tokens)?.try_into().ok()?);
        let found = self.entry(&other, recipe).filter(|(entry, _)| !entry.speaks())?;
        self.take(recipe, found, times)
    }

    /// Makes and says what an entry has. `None` if it doesn't fit, or can't be made here.
    fn take(&self, recipe: &Recipe, (entry, inputs): (Entry, Manifest), times: (f64, f64)) -> Option<Taken> {
        if recipe.outputs.len() != entry.outputs.len() || (entry.speaks() && entry.terminal != self.terminal)
        {
            return None;
        }
        let (directory, mut products) = (self.tmp.as_bytes(), Vec::new());
        for (output, text) in recipe.outputs.iter().zip(&entry.outputs) {
            match text {
                Made::File(text) => {
                    products.extend(recipe.put(output, recipe.named(text.filled(directory))).ok()?);
                }
                Made::Nothing if output.path.exists() => return None,
                Made::Nothing => {}
            }
        }
        let status = Status { code: 0, signal: None, dumped: false };
        let ended =
            Ended { status, out: entry.out.filled(directory), errors: entry.errors.filled(directory), times };
        Some(Taken { ended, products, inputs })
    }

    /// What to do with a task that has run, with the keys under which it's kept.
    fn ran(&mut self, task: usize, keys: &Keys, ended: Ended) -> Step {
        let Some(candidate) = self.candidates.get(&task) else { return Step::Ended(ended) };
        let recipe = &candidate.recipe;
        let moved = || recipe.outputs.iter().filter(|output| output.path != output.written_to);
        let speaks_of = |file: &Path| {
            [&ended.out, &ended.errors].iter().any(|text| contains(text, file.as_os_str().as_bytes()))
        };
        let shows_where = moved().any(|output| speaks_of(&output.written_to) || has_own_name(output));
        let may_move = !recipe.has_products() || (ended.status.succeeded() && !shows_where);
        let put = |output: &Output| recipe.put(output, content_of(&output.written_to).ok()?).ok()?;
        let Some(products) = may_move.then(|| moved().map(put).collect::<Option<Vec<_>>>()).flatten() else {
            return self.runs_alone(task);
        };
        if let Some(entry) = self.entry_of(recipe, &ended).filter(|_| ended.status.succeeded()) {
            let inputs = self.inputs_of(task, keys, entry.speaks());
            if let Ok(inputs) = &inputs {
                self.keep(keys, inputs, &entry);
                self.set(task, State::Kept, None);
                self.found(task, keys.texts);
            }
            self.candidates.entry(task).and_modify(|candidate| candidate.inputs = inputs);
        }
        self.products.extend(products);
        Step::Ended(ended)
    }

    /// Keeps an entry by its texts. One without messages is found by its tokens too. Says once that the store
    /// can't be written.
    fn keep(&mut self, keys: &Keys, inputs: &Manifest, entry: &Entry) {
        let tokens = keys.tokens.filter(|_| !entry.speaks());
        let lead =
            || keys.marks.iter().chain(&tokens).try_for_each(|key| self.store.write(key, &keys.texts.0));
        let Some(inputs) = inputs.kept_in(self.beginning.checkout.as_ref()) else { return };
        let written = inputs.keep(self.store, &keys.texts, entry).and_then(|()| lead());
        if let (Err(error), false) = (written, self.has_complained) {
            self.has_complained = true;
            complain(&format!(
                "{}: cannot write to the cache {}: {error}",
                called(),
                self.store.folder().display()
            ));
        }
    }

    /// The entry of a task that has run, if it may have one.
    fn entry_of(&self, recipe: &Recipe, ended: &Ended) -> Option<Entry> {
        let modes = new_modes()?;
        let outputs =
            recipe.outputs.iter().map(|output| made(recipe, output, modes)).collect::<Option<_>>()?;
        let directory = recipe.directory.as_bytes();
        let messages = [&ended.out[..], &ended.errors].concat();
        let (out, errors) = (Marked::of(&ended.out, directory), Marked::of(&ended.errors, directory));
        let is_named =
            [&out, &errors].iter().any(|text| text.0.iter().any(|part| names(part, &recipe.directory)));
        let is_named =
            is_named || recipe.stem.as_ref().is_some_and(|stem| contains(&messages, stem.as_bytes()));
        // If an assembler alone says something, nvcc makes the call.
        let is_odd = recipe.is_assembly() && !messages.is_empty();
        let terminal = if messages.is_empty() { Vec::new() } else { self.terminal.clone() };
        (!is_named && !is_odd).then_some(Entry { outputs, out, errors, terminal })
    }
}

/// What an entry has of an output. `None` if it can't have that: only text may name the call's directory, as
/// that of cudafe++, cicc and a compiler.
fn made(recipe: &Recipe, output: &Output, modes: u32) -> Option<Made> {
    let found = fs::symlink_metadata(&output.written_to);
    let is_missing = found.as_ref().is_err_and(|error| error.kind() == ErrorKind::NotFound);
    if is_missing && output.is_optional {
        return Some(Made::Nothing);
    }
    let status = found.ok().filter(fs::Metadata::is_file)?;
    let text = content_of(&output.written_to).ok()?;
    let is_id = output.path.extension().is_some_and(|extension| extension == "module_id");
    if status.mode() & 0o7777 != modes || is_id && !host_text::is_stable_id(&text) {
        return None;
    }
    let marked = Marked::of(&recipe.unnamed(&text)?, recipe.directory.as_bytes());
    let is_binary = recipe.kind == Kind::Ptxas || recipe.assembles || text.contains(&0);
    let is_named = !recipe.directory.is_empty() && marked.0.iter().any(|part| names(part, &recipe.directory));
    let has_symbol = recipe.stem.as_ref().is_some_and(|stem| has_symbol(&text, stem.as_bytes()));
    if is_named || has_symbol || (is_binary && marked.has_marks()) {
        return None;
    }
    Some(Made::File(marked))
}

/// Whether a product has the name of its file in it, which isn't its own yet.
fn has_own_name(output: &Output) -> bool {
    let name = output.written_to.file_name().unwrap_or_default().as_bytes();
    content_of(&output.written_to).is_ok_and(|text| contains(&text, name))
}

#[cfg(test)]
mod tests {
    use super::*;
    use crate::test_folder::TestFolder;
    use std::env;
    use std::os::unix::fs::symlink;

    #[test]
    fn products_come_where_a_tool_puts_them() {
        let folder = TestFolder::new();
        let [file, other, link] = ["file", "other", "link"].map(|name| folder.join(name));
        put(true, &file, b"one").unwrap();
        fs::hard_link(&file, &other).unwrap();
        put(false, &file, b"two").unwrap();
        assert_eq!(fs::read(&other).unwrap(), b"two", "it writes to what is there");
        put(true, &file, b"three").unwrap();
        assert_eq!(
            [&file, &other].map(|path| fs::read(path).unwrap()),
            [&b"three"[..], b"two"],
            "it makes a new one"
        );
        fs::write(&other, "").unwrap();
        fs::hard_link(&other, folder.join("empty")).unwrap();
        put(true, &folder.join("empty"), b"two").unwrap();
        assert_eq!(fs::read(&other).unwrap(), b"two", "binutils leave an empty file the one that it is");
        symlink(&other, &link).unwrap();
        for is_new in [true, false] {
            assert_eq!(put(is_new, &link, b"four").unwrap_err().kind(), ErrorKind::AlreadyExists);
        }
        assert_eq!(
            (fs::read(&other).unwrap(), fs::read_link(&link).unwrap()),
            (b"two".to_vec(), other),
            "what is no plain file stays"
        );
        assert!(put(true, &folder.join("missing/file"), b"five").is_err());
    }

    fn store() -> Store {
        Store::new(env::temp_dir().join(format!("no-entries-{}", std::process::id())), 1 << 20)
    }

    /// A command that reads these files, and writes none.
    fn recipe(kind: Kind, reads: Vec<PathBuf>) -> Recipe {
        Recipe {
            kind,
            counted: Vec::new(),
            job: Job::default(),
            reads,
            outputs: Vec::new(),
            directory: "/t".into(),
            lines_count: false,
            question: (kind == Kind::Host).then(|| (Job::default(), PathBuf::new())),
            assembles: false,
            stem: None,
            has_own_source: false,
        }
    }

    #[test]
    fn what_begins_early_has_the_keys_of_what_begins_late() {
        let folder = TestFolder::new();
        let recipe = recipe(Kind::Cicc, ["k.ii", "k.module_id"].map(|name| folder.join(name)).to_vec());
        let parts = |has_late: bool| {
            let texts = Session::texts(&recipe, has_late).unwrap();
            let by_texts = Part::by_texts(Hasher::default(), &recipe, &texts).unwrap();
            (
                Parts(
                    by_texts,
                    Part::by_tokens(Hasher::default(), &recipe, &texts, &store()),
                    Digest::of(b""),
                ),
                texts,
            )
        };
        fs::write(&recipe.reads[0], "int one;\n").unwrap();
        let (early, _) = parts(false);
        fs::write(&recipe.reads[1], "an id").unwrap();
        let (store, state) = (store(), State::Begun(Box::new(early)));
        let mut session = Session::new(&store, "/t", &[], &[], Beginning::new("/none", "/", &[], None));
        session.candidates.insert(7, Candidate::new(recipe.clone(), state));
        assert!(session.caught_up(7) && !session.caught_up(7) && !session.caught_up(8));
        let State::Missed(keys) = &session.candidates[&7].state else { panic!("it runs, and is to be kept") };
        let (late, texts) = parts(true);
        assert_eq!((keys, keys.marks.len()), (&late.keys(&recipe, &texts), 2));
    }

    #[test]
    fn what_names_the_calls_directory_is_no_entry() {
        let folder = TestFolder::new();
        let path = folder.join("k.ptx");
        let output = Output { path: path.clone(), is_optional: false, written_to: path.clone() };
        let has_entry = |text: &str, directory: &str| {
            fs::write(&path, text).unwrap();
            made(
                &Recipe { directory: directory.into(), ..recipe(Kind::Cicc, Vec::new()) },
                &output,
                new_modes().unwrap(),
            )
            .is_some()
        };
        assert!(has_entry("in /t/call.7/k.cu", "/t/call.7"), "a mark has the path's place");
        assert!(!has_entry("in call.7", "/t/call.7") && has_entry("in call.7", "/t/call.8"));
    }

    fn warned(errors: &str) -> Ended {
        let status = Status { code: 0, signal: None, dumped: false };
        Ended { status, out: Vec::new(), errors: errors.as_bytes().to_vec(), times: (0.0, 1.0) }
    }

    #[test]
    fn only_messages_are_for_a_kind_of_terminal() {
        let store = store();
        let session = Session {
            terminal: b"xterm".to_vec(),
            ..Session::new(&store, "/t", &[], &[], Beginning::new("/none", "/", &[], None))
        };
        let recipe = recipe(Kind::Host, Vec::new());
        let terminal_of = |errors: &str| session.entry_of(&recipe, &warned(errors)).unwrap().terminal;
        assert_eq!([terminal_of(""), terminal_of("warns\n")], [&b""[..], b"xterm"]);
    }
}
