//! A call of zigrunk-nvcc, from its words to its status.
use crate::system::{self, CHLD, Signals, Status, TSTP};
use call::compiler::{self, Compiler};
use call::environments::Environment;
use call::{LineReason, NvccLine, Reason};
use machine::clock::now;
use machine::folder::{CallFolder, NAME_HINT};
use machine::host::{Host, become_program};
use machine::jobs::Job;
use machine::jobserver::Make;
use machine::lacking::not_found;
use machine::places::{absolute, working_directory};
use machine::quota;
use machine::settings::{Settings, own_variable};
use machine::streams::{called, complain, say};
use provenance::{Whole, make_folder};
use runner::log::{self, LoggedCall};
use runner::products;
use runner::records;
use runner::rule::Refusals;
use runner::served;
use runner::split::{self, FEWEST_FILES, Outcome, Stop, by_nvcc};
use std::ffi::{OsStr, OsString};
use std::path::Path;
use std::rc::Rc;
use std::time::SystemTime;

/// How many milliseconds a call that waits for nvcc sleeps at most. It looks again by itself, since a signal
/// that can't be read would wake nobody.
const LOOK: i32 = 1000;

/// A call.
struct Call<'a> {
    settings: Settings,
    compiler: Compiler,
    words: &'a [OsString],
    /// When it began, in seconds.
    begun: f64,
    host: Option<Host>,
    folder: Option<Rc<CallFolder>>,
}

/// Makes a call, given the name by which the program was started and its words. Says its status. If a signal
/// ends the call, it ends this process too.
pub fn make(own_name: &OsStr, words: &[OsString]) -> i32 {
    let settings = Settings::of_environment();
    let settings = match settings.and_then(|settings| make_folder(&settings).map(|()| settings)) {
        Ok(settings) => settings,
        Err(complaint) => {
            complain(&format!("{}: {complaint}", called()));
            return 2;
        }
    };
    let (compiler, words) = match compiler::compiler(&settings.caller(own_name), words) {
        Ok(found) => found,
        Err(complaint) => {
            complain(&format!("{}: {complaint}", called()));
            return 127;
        }
    };
    let mut call = Call { settings, compiler, words, begun: now(), host: None, folder: None };
    if !call.settings.inside.is_empty() {
        return call.become_nvcc(&[], &[]);
    }
    match call.split() {
        Ok(status) => {
            call.leave();
            status
        }
        Err(Stop::ByNvcc(reason)) => call.by_nvcc(&reason),
        Err(Stop::Signal(number)) => {
            call.leave();
            system::end_by(number)
        }
    }
}

/// Why a call goes to nvcc at once. A cache that looks up whole calls asks for the version at each one, and
/// preprocesses those that it doesn't find.
fn plain_reason(words: &[OsString]) -> Option<Reason> {
    words.iter().find_map(|word| match word.to_str() {
        Some("-E" | "--preprocess") => Some(LineReason::OtherPhase.into()),
        Some("-V" | "--version") => Some(LineReason::Prints.into()),
        _ => None,
    })
}

impl Call<'_> {
    /// Makes the call by its plan. Says its status.
    fn split(&mut self) -> Result<i32, Stop> {
        if let Some(reason) = plain_reason(self.words) {
            return by_nvcc(reason);
        }
        if system::spare_files() < FEWEST_FILES {
            return by_nvcc(Reason::TooFewFiles);
        }
        let make = Make::of_environment();
        let cwd = working_directory().ok_or(Reason::NoWorkingDirectory)?;
        let line = self.line(&cwd, &make)?;
        if self.is_served(&line) {
            return Ok(0);
        }
        let temporary = absolute(self.settings.plans(), &cwd);
        let taken = CallFolder::take(&temporary, &line.directory_name()?);
        let folder = Rc::new(taken.map_err(|_| Reason::NoTemporaryDirectory)?);
        folder.tell_if_taken(&temporary);
        self.folder = Some(Rc::clone(&folder));
        let refusals = Refusals::default();
        let at_once = quota::processors() + 2;
        let split = split::Call {
            settings: &self.settings,
            line: &line,
            folder: &folder,
            at_once,
            refusals: &refusals,
        };
        let call = split.read()?;
        let environment = Environment::own().with("ZIGRUNK_INSIDE", &self.compiler.inside);
        let host = Host::of_process(&self.settings, make, environment, Rc::clone(&folder));
        let mut host = host.map_err(Reason::Lacks)?;
        host.give_way();
        let begun = SystemTime::now();
        let outcome =
            split.run(&mut host, &call, &mut |is_error, text| drop(say(if is_error { 2 } else { 1 }, text)));
        self.host = Some(host);
        let outcome = outcome?;
        if let Some(keep_dir) = call.keep_dir() {
            products::keep(folder.path(), Path::new(keep_dir), begun);
        }
        self.log(&outcome);
        Ok(outcome.status)
    }

    /// The call as a line, if its texts are UTF-8.
    fn line(&self, cwd: &Path, make: &Make) -> Result<NvccLine, Stop> {
        let text = |text: &OsStr| text.to_str().map(String::from).ok_or(Reason::WordNotUtf8);
        let mut variables = Vec::new();
        for name in ["NVCC_PREPEND_FLAGS", "NVCC_APPEND_FLAGS", "ZIGRUNK_JOBS", "MAKEFLAGS"] {
            let counts = name != "MAKEFLAGS"
                || make.flags.server.is_none()
                || (make.server.is_none() && make.flags.jobs.is_none());
            if let Some(value) = own_variable(name).filter(|_| counts) {
                variables.push((name.to_owned(), text(&value)?));
            }
        }
        let words = self.words.iter().map(|word| text(word)).collect::<Result<_, _>>()?;
        Ok(NvccLine { cwd: text(cwd.as_os_str())?, nvcc: text(&self.compiler.name)?, words, variables })
    }

    /// Whether the cache had the whole call.
    fn is_served(&self, line: &NvccLine) -> bool {
        let Some((said, outcome)) = served::serve(&self.settings, line, self.begun) else { return false };
        for (is_error, text) in said {
            let _ = say(if is_error { 2 } else { 1 }, &text);
        }
        self.log(&outcome);
        true
    }

    fn log(&self, outcome: &Outcome) {
        let Some(file) = &self.settings.log else { return };
        let random = self.folder.as_ref().is_some_and(|folder| !folder.is_named());
        let hint = random.then_some(NAME_HINT);
        let Outcome { status, commands, counted, record } = outcome;
        let (status, counted, words) = (*status, *counted, &self.logged_words()[..]);
        log::append(
            file,
            &LoggedCall {
                begun: self.begun,
                status,
                reason: None,
                hint,
                commands,
                counted,
                record: record.as_deref(),
                words,
            },
        );
    }

    fn logged_words(&self) -> Vec<&OsStr> {
        [self.compiler.name.as_os_str()]
            .into_iter()
            .chain(self.words.iter().map(OsString::as_os_str))
            .collect()
    }

    /// Leaves nothing behind.
    fn leave(&mut self) {
        if let Some(folder) = self.folder.take() {
            folder.remove();
        }
        if let Some(host) = &mut self.host {
            host.leave();
        }
    }

    /// A setting that changes nothing if nvcc makes the call for this reason, and that somebody may count on.
    fn unused(&self, reason: &Reason) -> Option<String> {
        let Settings { root, shared, .. } = &self.settings;
        let shared = shared.as_ref().filter(|_| matches!(reason, Reason::NoTemporaryDirectory));
        let root = root.as_ref().filter(|_| reason.compiles());
        shared
            .map(|folder| format!("ZIGRUNK_TMP={}", folder.display()))
            .or(root.map(|_| "ZIGRUNK_ROOT".into()))
    }

    /// Has nvcc make the call.
    fn by_nvcc(&mut self, reason: &Reason) -> i32 {
        self.leave();
        if self.settings.explains {
            complain(&format!("{}: nvcc itself: {reason}", called()));
        } else if let Some(setting) = self.unused(reason) {
            complain(&format!("{}: {setting} is not used, since nvcc makes this call: {reason}", called()));
        }
        if self.compiler.path.is_none() && self.settings.runner.is_empty() {
            complain(&format!("{}: {}", called(), not_found(&self.compiler.name, Path::new(""))));
            return 127;
        }
        let runner: Vec<OsString> = self.settings.runner.iter().map(OsString::from).collect();
        let Settings { log, provenance, records, .. } = &self.settings;
        if log.is_none() && provenance.is_none() && records.is_none() {
            return self.become_nvcc(&runner, &[]);
        }
        self.run_nvcc(&runner, reason)
    }

    /// Becomes nvcc, with further variables. Comes back with a status if that can't be done.
    fn become_nvcc(&self, runner: &[OsString], variables: &[(String, Option<String>)]) -> i32 {
        if let Some(host) = &self.host {
            host.signals().give_back();
        }
        let words: Vec<&OsStr> = runner.iter().map(OsString::as_os_str).chain(self.logged_words()).collect();
        let own = Environment::own().with("ZIGRUNK_INSIDE", &self.compiler.inside);
        let given = variables.iter().filter_map(|(name, value)| Some((name, value.as_ref()?)));
        let environment =
            given.fold(own, |environment, (name, value)| environment.with(name, value.as_ref()));
        complain(&format!("{}: {}", called(), become_program(&words, &environment)));
        127
    }

    /// What observes nvcc, if statements or a record are asked for.
    fn witness(&self) -> Option<Whole> {
        let make = Make::of_environment();
        let line = working_directory().and_then(|cwd| self.line(&cwd, &make).ok())?;
        let words = [std::slice::from_ref(&line.nvcc), &line.words].concat();
        Whole::of(&self.settings, line, &Job { words, ..Job::default() })
    }

    /// Runs nvcc, adds a line to the log, and records and states what was made, as far as that is asked for.
    /// Its status is this process's, and its signal too.
    fn run_nvcc(&mut self, runner: &[OsString], reason: &Reason) -> i32 {
        let opened = if self.host.is_none() { Signals::open().ok() } else { None };
        let Some(signals) = self.host.as_ref().map(Host::signals).or(opened.as_ref()) else {
            return self.become_nvcc(runner, &[]);
        };
        let mut witness = self.witness();
        let variables =
            witness.as_mut().and_then(Whole::observing).map(|job| job.variables).unwrap_or_default();
        let child = system::fork_to(|| {
            system::end_with_parent();
            signals.give_back();
            system::exit(self.become_nvcc(runner, &variables));
        });
        let Ok(child) = child else { return self.become_nvcc(runner, &[]) };
        let Some(status) = end_of(child, signals) else {
            complain(&format!("{}: the end of nvcc is unknown", called()));
            return 1;
        };
        let (reason, hint, words) = (Some(reason), reason.hint(), &self.logged_words());
        let succeeded = witness.as_ref().filter(|_| status.succeeded());
        let record = succeeded.and_then(|whole| records::of_whole(&self.settings, whole));
        let call = LoggedCall {
            begun: self.begun,
            status: status.code,
            reason,
            hint,
            commands: &[],
            counted: None,
            record: record.as_deref(),
            words,
        };
        if let Some(file) = &self.settings.log {
            log::append(file, &call);
        }
        let code = witness.map_or(status.code, |witness| witness.end(status.code));
        status.signal.map_or(code, system::end_by)
    }
}

/// How nvcc ends that runs as a child of this process. It gets the signals that come to this one. `None` if
/// that can't be known.
fn end_of(child: i32, signals: &Signals) -> Option<Status> {
    loop {
        system::wait_for(&[signals.file()], LOOK);
        while let Some(number) = signals.next() {
            match number {
                CHLD => {}
                TSTP => Signals::stop(),
                other => system::signal_process(child, other),
            }
        }
        if let Some(status) = system::end_of(child).ok()? {
            return Some(status);
        }
    }
}

#[cfg(test)]
mod tests {
    use super::*;

    #[test]
    fn some_words_make_a_call_nvccs() {
        let cases = [
            ("-c k.cu", None),
            ("-c k.cu -E", Some(LineReason::OtherPhase)),
            ("--preprocess", Some(LineReason::OtherPhase)),
            ("--version -E", Some(LineReason::Prints)),
            ("-V", Some(LineReason::Prints)),
            ("-Ex --Version", None),
        ];
        for (line, wanted) in cases {
            let words: Vec<OsString> = line.split(' ').map(OsString::from).collect();
            assert_eq!(plain_reason(&words), wanted.map(Reason::from), "{line}");
        }
    }
}
