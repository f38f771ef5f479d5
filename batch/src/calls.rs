//! A call of a batch, from its words to what it says and its status.
use super::asked::{Asked, BatchCall, line_of, words_of};
use super::products::{Product, outputs};
use super::records::{Described, Reads, Records};
use super::turns::Turns;
use call::compiler::{self, Compiler};
use call::{NvccLine, Reason};
use machine::clock::now;
use machine::folder::{CallFolder, NAME_HINT};
use machine::jobs::{Ended, Job, Machine};
use machine::settings::Settings;
use machine::streams::{Said, called};
use machine::task::Task;
use provenance::Whole;
use runner::log::{self, LoggedCall};
use runner::products::keep;
use runner::records;
use runner::rule::Refusals;
use runner::run::{self, NoRule};
use runner::served;
use runner::split::{self, Outcome, Stop, by_nvcc};
use runner::tasks;
use std::ffi::{OsStr, OsString};
use std::path::{Path, PathBuf};
use std::time::SystemTime;

/// What became of a call.
#[derive(Clone, PartialEq, Eq, Debug, Default)]
pub struct Made {
    pub status: i32,
    pub said: Said,
    /// Whether a signal ended it before its end.
    pub cancelled: bool,
}

impl Made {
    fn complain(&mut self, text: &str) {
        self.said.push((true, format!("{text}\n").into_bytes()));
    }
}

/// What all calls of a batch share.
pub struct Context {
    pub settings: Settings,
    /// The folder below which calls have their directories.
    pub temporary: PathBuf,
    /// Where a command that isn't split has its temporary files, if not where the caller has them.
    pub scratch: Option<String>,
    pub at_once: usize,
    pub records: Option<Records>,
    /// Whether the calls are a part of a list, of which those that have a mark of success aren't made again.
    pub is_part: bool,
    pub refusals: Refusals,
    /// Whether it may open too few files to split calls.
    pub has_few_files: bool,
}

/// The products of a call, as they are now.
pub fn products_of(call: &BatchCall) -> Vec<Product> {
    let words = words_of(&call.asked).unwrap_or_default();
    outputs(&words).iter().filter_map(|name| Product::new(name, Path::new(&call.folder))).collect()
}

/// Makes a call, unless an earlier batch made it and nothing has changed.
pub fn make(call: &BatchCall, context: &Context, turns: &mut Turns<Made>) -> Made {
    let mut making = Making {
        call,
        context,
        turns,
        begun: SystemTime::now(),
        made: Made::default(),
        reads: Reads::Unknown,
        is_random: false,
    };
    if !Path::new(&call.folder).is_dir() {
        making.made.complain(&format!("zigrunk batch: no folder {}", call.folder));
        making.made.status = 2;
        return making.made;
    }
    let products = products_of(call);
    let described =
        context.records.as_ref().and_then(|records| records.describe(call, &products, &context.settings));
    let records = context.records.as_ref();
    let is_made = || {
        context.is_part && records.is_some_and(|records| records.missing(call, &context.settings).is_none())
    };
    if described.as_ref().is_some_and(Described::is_current) || is_made() {
        return making.made;
    }
    if making.run().is_err() {
        making.made.cancelled = true;
    } else if making.made.status == 0 {
        making.check_products(&products);
    }
    if let (Some(records), false) = (records, making.made.cancelled) {
        let status = making.made.status;
        if status == 0 && described.is_some_and(|described| described.record(&making.reads, making.begun)) {
            records.remove_marks(call);
        } else {
            records.mark(call, status);
        }
    }
    making.made
}

/// A call while it is made.
struct Making<'a> {
    call: &'a BatchCall,
    context: &'a Context,
    turns: &'a mut Turns<Made>,
    begun: SystemTime,
    made: Made,
    /// What its preprocessors read.
    reads: Reads,
    /// Whether its directory has a random name.
    is_random: bool,
}

/// A signal has ended the call.
struct Signalled;

impl Making<'_> {
    fn run(&mut self) -> Result<(), Signalled> {
        match &self.call.asked {
            Asked::Nvcc(words) => self.nvcc(&words.iter().map(OsString::from).collect::<Vec<_>>()),
            Asked::Compiler(words) | Asked::Program(words) => self.whole(words).map(drop),
            Asked::Shell(line) => self.whole(&["sh".into(), "-c".into(), line.clone()]).map(drop),
        }
    }

    /// Runs a command that isn't split. Says where its record is, if it has one.
    fn whole(&mut self, words: &[String]) -> Result<Option<PathBuf>, Signalled> {
        let given = [("TMPDIR", self.context.scratch.as_ref()), ("PWD", Some(&self.call.folder))];
        let variables = given
            .into_iter()
            .filter_map(|(name, value)| Some((name.to_owned(), Some(value?.clone()))))
            .collect();
        let job = Job {
            words: [&self.context.settings.runner[..], words].concat(),
            folder: self.call.folder.clone(),
            variables,
            ..Job::default()
        };
        let (first, rest) =
            words.split_first().map_or((String::new(), &[][..]), |(first, rest)| (first.clone(), rest));
        let line = line_of(self.call.folder.clone(), first, rest.to_vec());
        let mut witness = Whole::of(&self.context.settings, line, &job);
        let observing = witness.as_mut().and_then(Whole::observing);
        match self.job(observing.unwrap_or(job)) {
            Ok(ended) => {
                let status = ended.status.code;
                let succeeded = witness.as_ref().filter(|_| ended.status.succeeded());
                let record = succeeded.and_then(|whole| records::of_whole(&self.context.settings, whole));
                self.made.status = witness.map_or(status, |witness| witness.end(status));
                self.made.said.extend([
                    (false, ended.out),
                    (true, ended.errors),
                    (true, tasks::words_of_death(ended.status).into_bytes()),
                ]);
                Ok(record)
            }
            Err(Stop::Signal(_)) => Err(Signalled),
            Err(Stop::ByNvcc(reason)) => {
                self.made.complain(&format!("zigrunk batch: {reason}"));
                self.made.status = 1;
                Ok(None)
            }
        }
    }

    fn job(&mut self, job: Job) -> Result<Ended, Stop> {
        let done = run::run(self.turns, &mut NoRule, &[Task { job, ..Task::default() }], 1)?;
        done.into_iter().next().and_then(|done| done.ended).ok_or(Stop::ByNvcc(Reason::NotRun))
    }

    /// Makes a call of nvcc: split, or whole.
    fn nvcc(&mut self, words: &[OsString]) -> Result<(), Signalled> {
        let begun = now();
        let (compiler, words) =
            match compiler::compiler(&self.context.settings.caller("zigrunk-nvcc".as_ref()), words) {
                Ok(found) => found,
                Err(complaint) => {
                    self.made.complain(&format!("{}: {complaint}", called()));
                    self.made.status = 127;
                    return Ok(());
                }
            };
        self.turns.give("ZIGRUNK_INSIDE", &compiler.inside.to_string_lossy());
        let texts: Vec<String> = words.iter().map(|word| word.to_string_lossy().into_owned()).collect();
        let named = [vec![compiler.name.to_string_lossy().into_owned()], texts.clone()].concat();
        let is_inside = !self.context.settings.inside.is_empty();
        let split = if is_inside { by_nvcc(Reason::Inside) } else { self.split(&compiler, texts, begun) };
        self.turns.plans(false);
        let (reason, outcome) = match split {
            Ok(outcome) => (None, outcome),
            Err(Stop::Signal(_)) => return Err(Signalled),
            Err(Stop::ByNvcc(reason)) => {
                if self.context.settings.explains && !is_inside {
                    self.made.complain(&format!("{}: nvcc itself: {reason}", called()));
                }
                let record = self.whole(&named)?;
                (Some(reason), Outcome { record, ..Outcome::default() })
            }
        };
        if let Some(file) = &self.context.settings.log {
            let words: Vec<&OsStr> = named.iter().map(OsStr::new).collect();
            let reason = reason.as_ref();
            let hint = reason.map_or(self.is_random.then_some(NAME_HINT), Reason::hint);
            let Outcome { commands, counted, record, .. } = &outcome;
            log::append(
                file,
                &LoggedCall {
                    begun,
                    status: self.made.status,
                    reason,
                    hint,
                    commands,
                    counted: *counted,
                    record: record.as_deref(),
                    words: &words,
                },
            );
        }
        Ok(())
    }

    /// Makes a call, which has begun at a time, by its plan, unless the cache has it as a whole.
    fn split(&mut self, compiler: &Compiler, words: Vec<String>, begun: f64) -> Result<Outcome, Stop> {
        if self.context.has_few_files {
            return by_nvcc(Reason::TooFewFiles);
        }
        let line = line_of(self.call.folder.clone(), compiler.name.to_string_lossy().into_owned(), words);
        if let Some((mut said, outcome)) = served::serve(&self.context.settings, &line, begun) {
            self.made.said.append(&mut said);
            return Ok(outcome);
        }
        let taken = CallFolder::take(&self.context.temporary, &line.directory_name()?);
        let folder = taken.map_err(|_| Reason::NoTemporaryDirectory)?;
        self.is_random = !folder.is_named();
        let split = self.split_in(&folder, &line);
        folder.remove();
        split
    }

    /// The same in the call's directory.
    fn split_in(&mut self, folder: &CallFolder, line: &NvccLine) -> Result<Outcome, Stop> {
        let Context { settings, at_once, refusals, .. } = self.context;
        let split = split::Call { settings, line, folder, at_once: *at_once, refusals };
        let call = split.read()?;
        let mut said = Said::new();
        let outcome =
            split.run(self.turns, &call, &mut |is_error, text| said.push((is_error, text.to_vec())))?;
        self.made.status = outcome.status;
        self.made.said.append(&mut said);
        if self.context.records.is_some() {
            self.reads = Reads::of_folder(folder.path());
        }
        if let Some(keep_dir) = call.keep_dir() {
            keep(folder.path(), Path::new(keep_dir), self.begun);
        }
        Ok(outcome)
    }

    /// Checks that the products of a call are there, which ended with 0. A disk that machines share may be
    /// late.
    fn check_products(&mut self, products: &[Product]) {
        for pause in ["1", "2", ""] {
            let Some(late) = products.iter().find(|product| !product.is_new()) else { return };
            if pause.is_empty() || self.context.settings.runs_here() {
                self.made.complain(&format!(
                    "zigrunk batch: no new {}, though the call ended with 0",
                    late.path.display()
                ));
                self.made.status = 1;
                return;
            }
            late.look_again();
            let sleep = Job { words: vec!["sleep".into(), pause.into()], ..Job::default() };
            if self.job(sleep).is_err() {
                self.made.cancelled = true;
                return;
            }
        }
    }
}

#[cfg(test)]
mod tests {
    use super::*;
    use crate::forked::{in_own_process, set_variable};
    use crate::system::{Status, TERM};
    use crate::test_folder::TestFolder;
    use crate::turns::{Maker, Step};
    use machine::jobs::Event;
    use std::collections::VecDeque;
    use std::env;
    use std::fs;
    use std::io;
    use std::os::unix::fs::PermissionsExt;
    use std::sync::Arc;

    /// A folder of a test, which goes with it.
    struct Room(TestFolder);

    impl Room {
        fn path(&self, name: &str) -> String {
            self.0.join(name).to_string_lossy().into_owned()
        }

        fn call(&self, asked: Asked) -> BatchCall {
            BatchCall { number: 1, name: "call".into(), folder: self.path(""), asked }
        }

        /// What calls share whose nvcc is a file of this room.
        fn context(&self) -> Context {
            let nvcc = self.path("nvcc");
            fs::write(&nvcc, "").unwrap();
            fs::set_permissions(&nvcc, PermissionsExt::from_mode(0o755)).unwrap();
            let settings =
                Settings { nvcc: nvcc.into(), temporary: self.0.to_owned(), ..Settings::default() };
            let temporary = self.0.to_owned();
            Context {
                settings,
                temporary,
                scratch: None,
                at_once: 1,
                records: None,
                is_part: false,
                refusals: Refusals::default(),
                has_few_files: false,
            }
        }
    }

    fn words(line: &str) -> Vec<String> {
        line.split(' ').map(String::from).collect()
    }

    fn ended(code: i32, out: &str, errors: &str) -> Ended {
        let status = Status { code, signal: (code > 128).then_some(code - 128), dumped: false };
        Ended { status, out: out.into(), errors: errors.into(), times: (1.0, 2.0) }
    }

    /// Makes a call whose jobs end so, or by a signal that ends the batch. Says what became of it, and its
    /// jobs.
    fn made(call: BatchCall, context: Context, end: impl Fn(&Job) -> Option<Ended>) -> (Made, Vec<Job>) {
        let context = Arc::new(context);
        let mut maker = Maker::begin(move |turns| make(&call, &context, turns)).unwrap();
        let (mut jobs, mut running) = (Vec::new(), VecDeque::new());
        loop {
            match maker.step() {
                Step::Start(number, job) => {
                    running.push_back((number, job.clone()));
                    jobs.push(job);
                    maker.tell_started(Ok(()));
                }
                Step::Wait(wish) if wish.wants => maker.tell(Event::Slot),
                Step::Wait(_) => {
                    let ended =
                        running.pop_front().and_then(|(number, job)| Some(Event::Ended(number, end(&job)?)));
                    maker.tell(ended.unwrap_or(Event::Signal(TERM)));
                }
                Step::End(made) => return (made.unwrap(), jobs),
            }
        }
    }

    /// What was said, each text behind `!` if it's for standard error.
    fn said(made: &Made) -> String {
        let texts = made.said.iter().filter(|(_, text)| !text.is_empty());
        texts
            .map(|(is_error, text)| {
                if *is_error { "!" } else { "" }.to_owned() + &String::from_utf8_lossy(text)
            })
            .collect()
    }

    #[test]
    fn other_programs_run_as_they_are() {
        let room = Room(TestFolder::new());
        let mut context = room.context();
        (context.settings.runner, context.scratch) = (words("step -n"), Some("/scratch".into()));
        let (made, jobs) = self::made(room.call(Asked::Program(words("make all"))), context, |_| {
            Some(ended(139, "out\n", "err\n"))
        });
        assert_eq!(
            (made.status, said(&made), made.cancelled),
            (139, "out\n!err\n!Segmentation fault\n".into(), false)
        );
        let variable = |name: &str, value: &str| (name.to_owned(), Some(value.to_owned()));
        let wanted = Job {
            words: words("step -n make all"),
            folder: room.path(""),
            variables: vec![variable("TMPDIR", "/scratch"), variable("PWD", &room.path(""))],
            ..Job::default()
        };
        assert_eq!(jobs, [wanted]);
        let (made, jobs) =
            self::made(room.call(Asked::Shell("a | b".into())), room.context(), |_| Some(ended(0, "", "")));
        assert_eq!((made.status, said(&made)), (0, String::new()));
        assert_eq!(
            (jobs[0].words.join(" "), &jobs[0].variables),
            ("sh -c a | b".into(), &vec![variable("PWD", &room.path(""))])
        );
    }

    #[test]
    fn a_call_needs_its_folder() {
        let room = Room(TestFolder::new());
        let call = BatchCall { folder: "/missing".into(), ..room.call(Asked::Program(words("make"))) };
        let (made, jobs) = self::made(call, room.context(), |_| None);
        assert_eq!(
            (made.status, said(&made), jobs.len()),
            (2, "!zigrunk batch: no folder /missing\n".into(), 0)
        );
    }

    #[test]
    fn a_signal_cancels_a_call() {
        let room = Room(TestFolder::new());
        for asked in [
            Asked::Program(words("make")),
            Asked::Nvcc(words("-c k.cu -o k.o")),
            Asked::Nvcc(words("--version")),
        ] {
            let (made, _) = self::made(room.call(asked), room.context(), |_| None);
            assert_eq!((made.cancelled, said(&made)), (true, String::new()));
        }
    }

    #[test]
    fn a_call_without_a_process_fails() {
        let room = Room(TestFolder::new());
        let (call, context) = (room.call(Asked::Program(words("make"))), room.context());
        let mut maker = Maker::begin(move |turns| make(&call, &context, turns)).unwrap();
        let made = loop {
            match maker.step() {
                Step::Start(..) => maker.tell_started(Err(io::ErrorKind::OutOfMemory.into())),
                Step::Wait(_) => maker.tell(Event::Slot),
                Step::End(made) => break made.unwrap(),
            }
        };
        assert_eq!(
            (made.status, said(&made)),
            (1, "!zigrunk batch: no process for a command: out of memory\n".into())
        );
    }

    #[test]
    fn a_call_that_succeeds_has_made_its_products() {
        let room = Room(TestFolder::new());
        let compiler = || room.call(Asked::Compiler(words("g++ -c a.cc -o a.o")));
        let writes = |_: &Job| {
            fs::write(room.path("a.o"), "object").unwrap();
            Some(ended(0, "", ""))
        };
        let (made, _) = self::made(compiler(), room.context(), writes);
        assert_eq!((made.status, said(&made)), (0, String::new()));
        let missing = format!("!zigrunk batch: no new {}, though the call ended with 0\n", room.path("a.o"));
        let (made, jobs) = self::made(compiler(), room.context(), |_| Some(ended(0, "", "")));
        assert_eq!(
            (made.status, said(&made), jobs.len()),
            (1, missing.clone(), 1),
            "the old one doesn't count"
        );
        assert_eq!(self::made(compiler(), room.context(), |_| Some(ended(3, "", ""))).0.status, 3);
        // With a runner it looks again, since another machine's file may show late on a shared disk.
        let elsewhere = || {
            let mut context = room.context();
            context.settings.runner = vec!["env".into()];
            context
        };
        let (made, jobs) = self::made(compiler(), elsewhere(), |_| Some(ended(0, "", "")));
        let lines: Vec<String> = jobs.iter().map(|job| job.words.join(" ")).collect();
        assert_eq!(
            (made.status, said(&made), lines),
            (1, missing, vec!["env g++ -c a.cc -o a.o".into(), "sleep 1".into(), "sleep 2".into()])
        );
        fs::remove_file(room.path("a.o")).unwrap();
        let (made, jobs) = self::made(compiler(), elsewhere(), |job| {
            if job.words[0] == "sleep" { writes(job) } else { Some(ended(0, "", "")) }
        });
        assert_eq!((made.status, said(&made), jobs.len()), (0, String::new(), 2));
        let (made, _) =
            self::made(compiler(), elsewhere(), |job| (job.words[0] != "sleep").then(|| ended(0, "", "")));
        assert!(made.cancelled);
    }

    #[test]
    fn a_call_whose_dry_run_fails_is_nvccs() {
        let room = Room(TestFolder::new());
        let own = Path::new(&room.path("")).join(format!("zigrunk-{}", crate::system::user()));
        let folders = || fs::read_dir(&own).into_iter().flatten().count();
        let end = |job: &Job| {
            let is_dry = job.words.iter().any(|word| word == "--dryrun");
            assert_eq!(folders() > 0, is_dry, "its directory is there as long as it is used");
            Some(if is_dry { ended(1, "", "no\n") } else { ended(4, "", "nvcc: no\n") })
        };
        let call = || room.call(Asked::Nvcc(words("-c k.cu -o k.o")));
        let (made, jobs) = self::made(call(), room.context(), end);
        assert_eq!((made.status, said(&made)), (4, "!nvcc: no\n".into()));
        let last = jobs.last().unwrap();
        assert_eq!(last.words, words(&format!("{} -c k.cu -o k.o", room.path("nvcc"))));
        assert!(
            last.variables.contains(&("ZIGRUNK_INSIDE".into(), Some(format!(":{}:", room.path("nvcc"))))),
            "{:?}",
            last.variables
        );
        let (log, mut context) = (room.path("log"), room.context());
        (context.settings.explains, context.settings.log) = (true, Some(log.clone().into()));
        let (made, _) = self::made(call(), context, end);
        let text = said(&made);
        let reason = text
            .strip_prefix("!zigrunk-nvcc: nvcc itself: ")
            .and_then(|rest| rest.strip_suffix("\n!nvcc: no\n"));
        let log = fs::read_to_string(log).unwrap();
        assert!(
            reason.is_some_and(|reason| log.contains(reason))
                && log.lines().count() == 1
                && log.contains("\"status\":4"),
            "{text}{log}"
        );
    }

    #[test]
    fn some_calls_of_nvcc_are_never_split() {
        let room = Room(TestFolder::new());
        let call = || room.call(Asked::Nvcc(words("nvcc-13.0 -c k.cu -o k.o")));
        let lines = |context: Context| {
            let (made, jobs) = self::made(call(), context, |_| Some(ended(5, "", "")));
            (said(&made), jobs.iter().map(|job| job.words.join(" ")).collect::<Vec<_>>())
        };
        let mut few = room.context();
        (few.has_few_files, few.settings.explains) = (true, true);
        let reason = format!("!zigrunk-nvcc: nvcc itself: {}\n", Reason::TooFewFiles);
        assert_eq!(lines(few), (reason, vec!["nvcc-13.0 -c k.cu -o k.o".into()]));
        let mut inside = room.context();
        (inside.settings.inside, inside.settings.explains) = (":/other:".into(), true);
        assert_eq!(
            lines(inside),
            (String::new(), vec!["nvcc-13.0 -c k.cu -o k.o".into()]),
            "who is called by an nvcc says nothing"
        );
        let mut lacking = room.context();
        lacking.temporary = "/missing".into();
        lacking.settings.explains = true;
        assert_eq!(
            lines(lacking).0,
            format!("!zigrunk-nvcc: nvcc itself: {}\n", Reason::NoTemporaryDirectory)
        );
    }

    #[test]
    fn a_call_without_an_nvcc_fails() {
        in_own_process(|| {
            let room = Room(TestFolder::new());
            let mut context = room.context();
            context.settings.nvcc = env::current_exe().unwrap().into();
            set_variable("PATH", "/missing");
            let (made, jobs) = self::made(room.call(Asked::Nvcc(words("-c k.cu"))), context, |_| None);
            assert!(
                made.status == 127
                    && said(&made).ends_with(" is zigrunk-nvcc itself, and PATH has no other nvcc\n")
                    && jobs.is_empty()
            );
        });
    }

    #[test]
    fn calls_have_the_products_that_their_words_name() {
        let room = Room(TestFolder::new());
        let paths = |asked: Asked| {
            products_of(&room.call(asked)).into_iter().map(|product| product.path).collect::<Vec<_>>()
        };
        assert_eq!(paths(Asked::Nvcc(words("-c k.cu -o sub/k.o"))), [PathBuf::from(room.path("sub/k.o"))]);
        assert_eq!(paths(Asked::Compiler(words("g++ -c a.cc -o /a.o"))), [PathBuf::from("/a.o")]);
        assert!(
            paths(Asked::Program(words("g++ -c a.cc -o a.o"))).is_empty()
                && paths(Asked::Shell("g++ -o a.o".into())).is_empty()
        );
    }
}
