//! The machine on which the driver runs.
use crate::clock::{nanoseconds, now};
use crate::folder::CallFolder;
use crate::guard::{Guard, MOST_GROUPS, Shared};
use crate::jobs::{Early, Ended, Event, Job, Machine};
use crate::jobserver::{Make, Token, Tokens};
use crate::lacking::{cannot_run, not_found};
use crate::piped::Piped;
use crate::quota;
use crate::settings::{Settings, own_variable};
use crate::slots::{BEAT, Slot, Slots};
use crate::streams::{called, complain, content};
use crate::system::{self, Access, CHLD, CONT, Image, KILL, STOP, Signals, Status, TSTP};
use call::environments::Environment;
use call::programs;
use std::borrow::Cow;
use std::collections::VecDeque;
use std::ffi::{CStr, CString, OsStr};
use std::fs::File;
use std::io::{self, Read};
use std::mem;
use std::os::fd::{AsFd, BorrowedFd, OwnedFd};
use std::os::unix::ffi::OsStrExt;
use std::path::{Path, PathBuf};
use std::rc::Rc;
use std::sync::atomic::Ordering;
use std::time::{Duration, Instant};

/// How many milliseconds a call that waits for a slot sleeps at most. It looks again by itself, because a
/// call that died has woken nobody when the kernel freed its slot.
const LOOK: i32 = 200;
/// How many milliseconds what a command prints may wait until it is noticed. It's looked for, since a file in
/// memory can't wake this process.
const HEARING: i32 = 100;
/// How long commands may take to end after a signal, so that the call itself ends within a second of Ctrl-C.
const GRACE: Duration = Duration::from_millis(700);

/// What a job runs in: a slot, and a job of make.
#[derive(Debug, Default)]
struct Permit {
    slot: Option<Slot>,
    token: Option<Token>,
}

/// Where a process prints its messages.
#[derive(Debug)]
enum Printed {
    Memory(File),
    /// A terminal: the end that is read, the one that the process has, and what was read.
    Terminal(File, OwnedFd, Vec<u8>),
}

/// A process that runs.
#[derive(Debug)]
struct Running {
    number: usize,
    process: i32,
    /// Its place in what the guard sees.
    place: usize,
    permit: Option<Permit>,
    out: File,
    errors: Printed,
    /// How many bytes it had printed when it was last listened to.
    heard: u64,
    begun: f64,
}

/// This machine, for one call.
pub struct Host {
    signals: Signals,
    shared: Shared,
    guard: Option<Guard>,
    /// The directory of a guard that is still to start.
    unguarded: Option<Rc<CallFolder>>,
    slots: Option<Slots>,
    tokens: Option<Tokens>,
    null: File,
    shows_colours: bool,
    /// Whether calls without a slot come before further slots for this one.
    gives_way: bool,
    environment: Environment,
    wants: bool,
    permit: Option<Permit>,
    running: Vec<Running>,
    /// The job that is listened to.
    listened: Option<usize>,
    /// The pipes that jobs have yet to read to their ends, and the jobs whose pipe couldn't be filled.
    pipes: Vec<(usize, Option<Piped>)>,
    events: VecDeque<Event>,
    beaten: Instant,
}

/// Becomes a program by its name or path. Comes back with what to say if that can't be done.
pub fn become_program(words: &[&OsStr], environment: &Environment) -> String {
    let path = environment.get("PATH").unwrap_or_default();
    let Some(program) = programs::find(words[0], path, Path::new("")) else {
        return not_found(words[0], Path::new(""));
    };
    let image = environment
        .changed(&[])
        .and_then(|variables| image(program.as_os_str(), words.iter().copied(), variables, ""));
    cannot_run(words[0], &image.map_or_else(|error| error, |image| image.become_it()))
}

fn size_of(file: &File) -> u64 {
    file.metadata().map_or(0, |file| file.len())
}

impl Printed {
    /// For a terminal's end that is read.
    fn drain(&mut self) {
        let Printed::Terminal(file, _, text) = self else { return };
        let mut part = [0; 4096];
        while let Ok(size @ 1..) = file.read(&mut part) {
            text.extend_from_slice(&part[..size]);
        }
    }

    /// All that was printed up to now.
    fn text(&mut self) -> io::Result<Vec<u8>> {
        self.drain();
        match self {
            Printed::Memory(file) => content(file),
            Printed::Terminal(.., text) => Ok(text.clone()),
        }
    }

    /// How many bytes were printed up to now.
    fn size(&self) -> u64 {
        match self {
            Printed::Memory(file) => size_of(file),
            Printed::Terminal(.., text) => text.len() as u64,
        }
    }

    /// The file that the process has.
    fn target(&self) -> BorrowedFd<'_> {
        match self {
            Printed::Memory(file) => file.as_fd(),
            Printed::Terminal(_, program, _) => program.as_fd(),
        }
    }
}

/// The slots that this process shares with the user's others, if there is a limit. `most` is how many jobs
/// make has, if it says so.
fn slots(settings: &Settings, most: Option<usize>) -> Option<Slots> {
    if !settings.runner.is_empty() {
        return None;
    }
    let count = settings.slots.unwrap_or_else(|| quota::processors().min(most.unwrap_or(usize::MAX)));
    let run = own_variable("XDG_RUNTIME_DIR").filter(|it| !it.is_empty()).map(PathBuf::from);
    let places: Vec<PathBuf> = run.into_iter().chain(["/tmp".into(), "/dev/shm".into()]).collect();
    let slots = (count > 0).then(|| Slots::open(count, nanoseconds(), &places)).flatten();
    if count > 0 && slots.is_none() && settings.explains {
        complain(&format!(
            "{}: no folder for slots takes locks, so nothing limits how many commands run at once",
            called()
        ));
    }
    slots
}

impl Host {
    /// This machine for a process with this directory, with its slots and its jobs of make. Commands get
    /// `environment`.
    /// Errors: what it lacks.
    pub fn of_process(
        settings: &Settings,
        make: Make,
        environment: Environment,
        folder: Rc<CallFolder>,
    ) -> Result<Host, &'static str> {
        let shared = Shared::new().map_err(|_| "memory")?;
        let signals = Signals::open().map_err(|_| "signals")?;
        let slots = slots(settings, make.most_jobs());
        let tokens = make.server.map(|server| Tokens::new(server, shared));
        let host = Host::new(signals, shared, slots, tokens, environment).map_err(|_| "/dev/null")?;
        Ok(Host { unguarded: Some(folder), ..host })
    }

    /// This machine, with slots and jobs of make, if they count. Commands get `environment`.
    /// An error if /dev/null can't be opened.
    pub fn new(
        signals: Signals,
        shared: Shared,
        slots: Option<Slots>,
        tokens: Option<Tokens>,
        environment: Environment,
    ) -> io::Result<Host> {
        Ok(Host {
            signals,
            shared,
            guard: None,
            unguarded: None,
            slots,
            tokens,
            null: system::open(Path::new("/dev/null"), Access::BOTH)?,
            shows_colours: io::IsTerminal::is_terminal(&io::stderr()),
            gives_way: false,
            environment,
            wants: false,
            permit: None,
            running: Vec::new(),
            listened: None,
            pipes: Vec::new(),
            events: VecDeque::new(),
            beaten: Instant::now(),
        })
    }

    /// Starts the guard, if that is still to be done. The call's first processes run by now, so nothing waits
    /// for that.
    fn start_guard(&mut self) -> io::Result<()> {
        let Some(folder) = &self.unguarded else { return Ok(()) };
        let permits = self.running.iter().filter_map(|running| running.permit.as_ref()).chain(&self.permit);
        let slots = permits.filter_map(|permit| permit.slot.as_ref()).map(Slot::file);
        let locks: Vec<BorrowedFd<'_>> = slots.chain(self.slots.as_ref().and_then(Slots::file)).collect();
        let tokens = self.tokens.as_ref().map(|tokens| tokens.server().writer());
        self.guard = Some(Guard::start(self.shared, folder, tokens, &locks)?);
        self.unguarded = None;
        Ok(())
    }

    /// The signals that it takes for this process.
    pub fn signals(&self) -> &Signals {
        &self.signals
    }

    /// Lets calls without a slot go before further slots for this one.
    pub fn give_way(&mut self) {
        self.gives_way = true;
    }

    /// The files that can be read once something has come.
    fn files(&self) -> Vec<BorrowedFd<'_>> {
        let terminals = self.running.iter().filter_map(|running| match &running.errors {
            Printed::Terminal(file, ..) => Some(file.as_fd()),
            Printed::Memory(_) => None,
        });
        [self.signals.file()].into_iter().chain(terminals).collect()
    }

    /// Sends a signal to the job of a number, which goes on if it is stopped.
    fn signal(&self, number: usize, signal: i32) {
        for running in self.running.iter().filter(|running| running.number == number) {
            system::signal_group(running.process, signal);
            system::signal_group(running.process, CONT);
        }
    }

    /// Has nothing any more that another call may want. The guard ends.
    pub fn leave(&mut self) {
        let permit = self.permit.take();
        self.give_back(permit);
        self.slots = None;
        if let Some(guard) = self.guard.take() {
            guard.dismiss();
        }
    }

    fn give_back(&mut self, permit: Option<Permit>) {
        let Some(permit) = permit else { return };
        if let (Some(tokens), Some(token)) = (&mut self.tokens, &permit.token) {
            tokens.give_back(token);
        }
        if let (Some(slots), Some(slot)) = (&self.slots, permit.slot) {
            slots.give_back(slot);
        }
    }

    /// Whether a permit lacks nothing.
    fn is_whole(&self, permit: &Permit) -> bool {
        (self.tokens.is_none() || permit.token.is_some()) && (self.slots.is_none() || permit.slot.is_some())
    }

    /// Whether this call's rank among those that wait is that of one which has a slot.
    fn note_slot(&mut self) {
        let has_one = self.gives_way && self.running.iter().any(|running| running.permit.is_some());
        self.slots.iter_mut().for_each(|slots| slots.note_slot(has_one));
    }

    /// Takes what is lacking of a permit, and says whether it is whole.
    fn has_permit(&mut self) -> bool {
        self.note_slot();
        let mut permit = self.permit.take().unwrap_or_default();
        if let (Some(tokens), None) = (&mut self.tokens, &permit.token) {
            permit.token = tokens.try_take();
        }
        let has_token = self.tokens.is_none() || permit.token.is_some();
        if let (Some(slots), None, true) = (&self.slots, &permit.slot, has_token) {
            permit.slot = slots.try_take();
        }
        let is_whole = self.is_whole(&permit);
        self.permit = Some(permit);
        is_whole
    }

    /// Whether a job may start now. If not, the call waits in its turn.
    fn may_start(&mut self) -> bool {
        if self.has_permit() {
            return true;
        }
        let waits =
            self.permit.as_ref().is_some_and(|permit| permit.token.is_some() || self.tokens.is_none());
        if waits && self.slots.as_ref().is_some_and(Slots::are_lost) {
            // Somebody removed the folder, so nothing limits this call any more.
            self.slots = None;
            return self.has_permit();
        }
        let has_begun = waits && self.slots.as_mut().is_some_and(Slots::begin_to_wait);
        has_begun && self.has_permit()
    }

    /// Takes the signals that have come, and looks for ends of jobs even if no signal can be read. A job's
    /// end, or a signal that ends the call, is an event.
    fn take_signals(&mut self) {
        while let Some(number) = self.signals.next() {
            match number {
                CHLD => {}
                TSTP => self.pause(),
                _ => self.events.push_back(Event::Signal(number)),
            }
        }
        self.take_ends();
    }

    /// Waits a moment for jobs to end.
    fn wait_for_ends(&mut self) {
        system::wait_for(&[self.signals.file()], 20);
        self.take_signals();
    }

    /// Notes the jobs that have ended.
    fn take_ends(&mut self) {
        for at in (0..self.running.len()).rev() {
            match system::end_of(self.running[at].process) {
                Ok(Some(status)) => self.ended(at, status),
                Ok(None) => {}
                Err(error) => {
                    self.events.push_back(Event::Lost(format!("the end of a command is unknown: {error}")));
                }
            }
        }
    }

    /// Stops all jobs and this process, without its slots, until it is continued.
    fn pause(&mut self) {
        self.signal_all(STOP);
        let permit = self.permit.take();
        self.give_back(permit);
        let permits: Vec<Slot> =
            self.running.iter_mut().filter_map(|it| it.permit.as_mut()?.slot.take()).collect();
        if let Some(slots) = &mut self.slots {
            for slot in permits {
                slots.give_back(slot);
            }
            slots.end_to_wait();
        }
        Signals::stop();
        self.signal_all(CONT);
    }

    fn signal_all(&self, number: i32) {
        for running in &self.running {
            system::signal_group(running.process, number);
        }
    }

    /// Notes that the job at a place among those that run has ended.
    fn ended(&mut self, at: usize, status: Status) {
        let mut running = self.running.swap_remove(at);
        self.shared.group(running.place).store(0, Ordering::SeqCst);
        self.keep_or_give_back(running.permit);
        let said = content(&running.out).and_then(|out| Ok((out, running.errors.text()?)));
        self.events.push_back(match said {
            Ok((out, errors)) => {
                Event::Ended(running.number, Ended { status, out, errors, times: (running.begun, now()) })
            }
            Err(error) => Event::Lost(format!("what a command said is lost: {error}")),
        });
    }

    /// Keeps a permit for the next job in place of what is lacking of one, unless a call that comes first
    /// wants the slot.
    fn keep_or_give_back(&mut self, permit: Option<Permit>) {
        let Some(permit) = permit else { return };
        self.note_slot();
        let is_wanted =
            matches!((&self.slots, &permit.slot), (Some(slots), Some(slot)) if slots.is_wanted(slot));
        let has_one = self.permit.as_ref().is_some_and(|held| self.is_whole(held));
        let is_kept = !is_wanted && !has_one && self.is_whole(&permit);
        let given_back = if is_kept { self.permit.replace(permit) } else { Some(permit) };
        self.give_back(given_back);
    }

    /// Whether a job could start if there were a slot for it.
    fn lacks_slot(&self) -> bool {
        let has_token =
            self.tokens.is_none() || self.permit.as_ref().is_some_and(|permit| permit.token.is_some());
        self.wants && self.slots.is_some() && has_token
    }

    /// Waits until there is something to look at.
    fn wait(&mut self) {
        let waits = self.slots.as_ref().and_then(Slots::file);
        let mut files = self.files();
        files.extend(waits);
        let lacks_token = self.wants && self.permit.as_ref().is_none_or(|permit| permit.token.is_none());
        files.extend(self.tokens.as_ref().filter(|_| lacks_token).map(Tokens::file));
        let holds = self.permit.is_some() || !self.running.is_empty();
        let longest = if self.running.iter().any(|running| self.listened == Some(running.number)) {
            HEARING
        } else if waits.is_some() || self.lacks_slot() {
            // Nobody wakes a call that couldn't make its ticket, so it looks again by itself.
            LOOK
        } else if holds {
            BEAT
        } else {
            -1
        };
        let pipes = self.pipes.iter().filter_map(|(_, piped)| Some((piped.as_ref()?.writer(), true)));
        let files: Vec<(BorrowedFd<'_>, bool)> =
            files.into_iter().map(|file| (file, false)).chain(pipes).collect();
        system::wait_for_streams(&files, longest);
        self.fill_pipes();
        if let Some(slots) = &self.slots {
            slots.awake();
        }
        self.running.iter_mut().for_each(|running| running.errors.drain());
        self.beat();
    }

    /// Writes what jobs can read by now, whatever has ended the wait: the kernel may not have been able to
    /// say it.
    fn fill_pipes(&mut self) {
        for (number, piped) in mem::take(&mut self.pipes) {
            let Some(mut piped) = piped else {
                self.pipes.push((number, None));
                continue;
            };
            match piped.go_on() {
                Ok(true) => {}
                Ok(false) => self.pipes.push((number, Some(piped))),
                Err(_) => {
                    // (before the pipe goes, because the job would take that for an end of the text)
                    self.signal(number, KILL);
                    self.pipes.push((number, None));
                }
            }
        }
    }

    /// Notes what the job that is listened to has printed, if that is more than before.
    fn listen_to_job(&mut self) {
        let Some(running) = self.running.iter_mut().find(|running| self.listened == Some(running.number))
        else {
            return;
        };
        let size = size_of(&running.out) + running.errors.size();
        if size == running.heard {
            return;
        }
        if let (Ok(out), Ok(errors)) = (content(&running.out), running.errors.text()) {
            running.heard = size;
            self.events.push_back(Event::Printed(running.number, [out, errors]));
        }
    }

    /// Says once a second that this call runs.
    fn beat(&mut self) {
        if self.beaten.elapsed().as_millis() < BEAT as u128 {
            return;
        }
        self.beaten = Instant::now();
        let permits = self.running.iter().filter_map(|running| running.permit.as_ref()).chain(&self.permit);
        if let Some(slots) = &self.slots {
            slots.beat(permits.filter_map(|permit| permit.slot.as_ref()));
        }
    }

    /// A job as a program to run, or why it can't be run.
    fn image_of(&self, job: &Job) -> Result<Image<'_>, String> {
        let name = job.words.first().map(String::as_str).unwrap_or_default();
        let program = job
            .program(self.environment.get("PATH").unwrap_or_default())
            .ok_or_else(|| not_found(name.as_ref(), Path::new(&job.folder)))?;
        let words = job.words.iter().map(OsStr::new);
        let environment = self.environment.changed(&job.variables);
        environment
            .and_then(|environment| image(program.as_os_str(), words, environment, &job.folder))
            .map_err(|error| cannot_run(name.as_ref(), &error))
    }

    /// The streams that a job prints to.
    fn streams(&self) -> io::Result<(File, Printed)> {
        let terminal = self.shows_colours.then(system::terminal).and_then(Result::ok);
        let in_memory = || system::memory_file().map(Printed::Memory);
        let errors = terminal
            .map_or_else(in_memory, |(owner, program)| Ok(Printed::Terminal(owner, program, Vec::new())))?;
        Ok((system::memory_file()?, errors))
    }
}

/// The first place for a group that is none of these.
fn free_place(taken: &[usize]) -> io::Result<usize> {
    (0..MOST_GROUPS).find(|place| !taken.contains(place)).ok_or_else(|| io::ErrorKind::ResourceBusy.into())
}

/// A program to run, by its path, words, environment and folder.
/// An error if a text has a NUL.
pub fn image<'a, 'b>(
    program: &OsStr,
    words: impl Iterator<Item = &'a OsStr>,
    environment: Vec<Cow<'b, CStr>>,
    folder: &str,
) -> io::Result<Image<'b>> {
    let text = |text: &OsStr| CString::new(text.as_bytes());
    let folder = if folder.is_empty() { None } else { Some(CString::new(folder)?) };
    Ok(Image::new(text(program)?, words.map(text).collect::<Result<_, _>>()?, environment, folder))
}

impl Early for Host {
    fn has_spare_slot(&mut self) -> bool {
        let is_spare = self.has_permit() && self.slots.as_ref().is_none_or(Slots::are_plenty);
        // A guard that started later would hold the job's pipe open, and the job would wait for its end for ever.
        is_spare && self.start_guard().is_ok()
    }

    fn fill(&mut self, number: usize, piped: Piped) {
        self.pipes.push((number, Some(piped)));
        self.fill_pipes();
    }

    fn has_left(&mut self, number: usize) -> bool {
        let left = self.pipes.iter().position(|(job, _)| *job == number);
        left.map(|at| self.pipes.swap_remove(at)).is_some()
    }

    fn end(&mut self, number: usize) {
        self.signal(number, KILL);
    }
}

impl Machine for Host {
    fn want(&mut self, wants: bool) {
        self.wants = wants;
    }

    fn release(&mut self) {
        if self.wants {
            return;
        }
        let permit = self.permit.take();
        self.give_back(permit);
        if let Some(slots) = &mut self.slots {
            slots.end_to_wait();
        }
    }

    fn plans(&mut self, _: bool) {}

    fn early(&mut self) -> Option<&mut dyn Early> {
        Some(self)
    }

    fn listen(&mut self, job: Option<usize>) {
        self.listened = job;
    }

    fn next(&mut self) -> Event {
        loop {
            self.take_signals();
            self.listen_to_job();
            if let Some(event) = self.events.pop_front() {
                return event;
            }
            if self.wants && self.may_start() {
                return Event::Slot;
            }
            self.release();
            if self.start_guard().is_err() {
                return Event::Lost("no process for the call".into());
            }
            self.wait();
        }
    }

    fn start(&mut self, number: usize, job: &Job) -> io::Result<()> {
        let taken: Vec<usize> = self.running.iter().map(|running| running.place).collect();
        let (place, (out, errors)) = (free_place(&taken)?, self.streams()?);
        let begun = now();
        let image = match self.image_of(job) {
            Ok(image) => image,
            Err(complaint) => {
                let status = Status { code: 127, signal: None, dumped: false };
                let errors = format!("{}: {complaint}\n", called()).into_bytes();
                self.events.push_back(Event::Ended(
                    number,
                    Ended { status, out: Vec::new(), errors, times: (begun, begun) },
                ));
                return Ok(());
            }
        };
        let complaint = CString::new(format!(
            "{}: cannot run {}\n",
            called(),
            job.words.first().map(String::as_str).unwrap_or_default()
        ))?;
        let streams = [self.null.as_fd(), out.as_fd(), errors.target()];
        let process =
            image.start(streams, job.inherits, &self.signals, self.shared.group(place), &complaint)?;
        let permit = if job.shares_slot { None } else { self.permit.take() };
        self.running.push(Running { number, process, place, permit, out, errors, heard: 0, begun });
        Ok(())
    }

    fn end_all(&mut self, signal: i32) {
        self.wants = false;
        // (a process that a command has begun may miss the signal and outlive it)
        let mut groups: Vec<i32> = self.running.iter().map(|running| running.process).collect();
        let begun = Instant::now();
        self.signal_all(signal);
        self.signal_all(CONT);
        while (!self.running.is_empty() || !groups.is_empty()) && begun.elapsed() < GRACE {
            self.wait_for_ends();
            groups.retain(|&group| system::signal_rest(group, 0));
        }
        self.signal_all(KILL);
        for &group in &groups {
            let _ = system::signal_rest(group, KILL);
        }
        while !self.running.is_empty() && begun.elapsed() < 2 * GRACE {
            self.wait_for_ends();
        }
        self.running.clear();
        self.pipes.clear();
        let permit = self.permit.take();
        self.give_back(permit);
    }

    fn now(&self) -> f64 {
        now()
    }
}

#[cfg(test)]
mod tests {
    use super::*;
    use crate::forked::in_own_process;
    use crate::jobserver::Jobserver;
    use crate::streams::write_all;
    use crate::system::TERM;
    use crate::test_folder::TestFolder;
    use std::fs;
    use std::os::fd::AsRawFd;
    use std::thread::{self, sleep};

    /// A folder of a test, which goes with it.
    struct Room(TestFolder);

    impl Room {
        fn path(&self, name: &str) -> PathBuf {
            self.0.join(name)
        }

        fn slots(&self, count: usize, age: u64) -> Slots {
            Slots::open(count, age, &[self.0.to_owned()]).unwrap()
        }
    }

    fn host(slots: Option<Slots>, tokens: impl FnOnce(Shared) -> Option<Tokens>) -> Host {
        let shared = Shared::new().unwrap();
        let path = Environment::own().with("PATH", "/usr/bin:/bin".as_ref());
        Host {
            shows_colours: false,
            ..Host::new(Signals::open().unwrap(), shared, slots, tokens(shared), path).unwrap()
        }
    }

    fn plain_host() -> Host {
        host(None, |_| None)
    }

    fn shell(script: &str) -> Job {
        Job { words: ["sh", "-c", script].map(String::from).to_vec(), ..Job::default() }
    }

    /// Starts a job in the next slot.
    fn start(host: &mut Host, number: usize, job: &Job) {
        host.want(true);
        assert!(matches!(host.next(), Event::Slot));
        host.start(number, job).unwrap();
    }

    /// The next end: which job's, its status and its texts.
    fn next_end(host: &mut Host) -> (usize, i32, String) {
        host.want(false);
        match host.next() {
            Event::Ended(number, Ended { status, out, errors, .. }) => {
                (number, status.code, String::from_utf8([out, errors].concat()).unwrap())
            }
            other => panic!("{other:?}"),
        }
    }

    fn wait_until(is_so: impl Fn() -> bool) {
        while !is_so() {
            sleep(Duration::from_millis(5));
        }
    }

    #[test]
    fn jobs_end_with_what_they_said() {
        in_own_process(|| {
            let mut host = plain_host();
            start(&mut host, 7, &shell("echo out; echo err >&2; exit 3"));
            assert_eq!(next_end(&mut host), (7, 3, "out\nerr\n".into()));
            start(&mut host, 1, &Job { words: vec!["missing-program".into()], ..Job::default() });
            assert_eq!(
                next_end(&mut host),
                (1, 127, "zigrunk-nvcc: cannot find missing-program in PATH\n".into())
            );
            start(&mut host, 2, &shell("kill -KILL $$"));
            assert_eq!(next_end(&mut host), (2, 137, String::new()));
            let changed = Job {
                variables: vec![("A".into(), Some("b".into())), ("HOME".into(), None)],
                folder: "/usr".into(),
                ..shell("pwd; echo $A$HOME")
            };
            start(&mut host, 3, &changed);
            assert_eq!(next_end(&mut host), (3, 0, "/usr\nb\n".into()));
            let of_path = Job {
                words: vec!["sh".into()],
                variables: vec![("PATH".into(), Some("/missing".into()))],
                ..Job::default()
            };
            start(&mut host, 4, &of_path);
            assert_eq!(next_end(&mut host), (4, 127, "zigrunk-nvcc: cannot find sh in PATH\n".into()));
            assert!(host.running.is_empty() && host.events.is_empty() && (host.now() - now()).abs() < 60.0);
        });
    }

    #[test]
    fn a_job_that_is_ended_does_nothing_more() {
        let room = Room(TestFolder::new());
        let go = room.path("go");
        in_own_process(|| {
            let mut host = plain_host();
            start(&mut host, 3, &shell("trap '' TERM; kill -STOP $$; echo on"));
            start(
                &mut host,
                4,
                &shell(&format!("until [ -e {} ]; do sleep 0.01; done; echo other", go.display())),
            );
            host.end(3);
            assert_eq!(next_end(&mut host), (3, 137, String::new()));
            host.end(3);
            fs::write(&go, "").unwrap();
            assert_eq!(next_end(&mut host), (4, 0, "other\n".into()));
        });
    }

    /// Starts a job that reads a file by its name, which gets this text through a pipe. Says how it ended,
    /// and whether it has read all.
    fn fed(host: &mut Host, path: &Path, script: &str, text: &[u8]) -> ((usize, i32, String), bool) {
        let _ = fs::remove_file(path);
        let piped = Piped::new(path).unwrap();
        let job =
            Job { inherits: Some(piped.reader()), ..shell(&format!("file={}; {script}", path.display())) };
        start(host, 3, &job);
        let mut piped = piped;
        piped.fill(text.to_vec());
        host.fill(3, piped);
        let end = next_end(host);
        (end, !host.has_left(3))
    }

    #[test]
    fn a_job_reads_what_comes_through_its_pipe() {
        let room = Room(TestFolder::new());
        in_own_process(|| {
            let (mut host, path) = (plain_host(), room.path("file"));
            let text = "0123456789abcde\n".repeat(20_000);
            let mut read = |script: &str, text: &str| fed(&mut host, &path, script, text.as_bytes());
            assert_eq!(read("sleep 0.1; cat $file", &text), ((3, 0, text.clone()), true));
            assert_eq!(
                read("cat $file > /dev/null; cat $file", &text),
                ((3, 0, text.clone()), true),
                "it reads a plain file then"
            );
            assert_eq!(
                read("head -c 5 $file; exit 7", &text),
                ((3, 7, "01234".into()), false),
                "it has read a part"
            );
            assert_eq!(read(":", "x"), ((3, 0, String::new()), false));
            assert_eq!(
                read("cat $file", ""),
                ((3, 137, String::new()), false),
                "it ends before it hears that there is nothing"
            );
            assert!(host.pipes.is_empty());
        });
    }

    #[test]
    fn no_guard_holds_the_pipe_of_a_job_that_begins_early() {
        let room = Room(TestFolder::new());
        in_own_process(|| {
            let folder = CallFolder::take(&room.0, "call").unwrap();
            let mut host = Host { unguarded: Some(folder.into()), ..plain_host() };
            host.want(true);
            assert!(matches!(host.next(), Event::Slot) && host.has_spare_slot());
            let read = fed(&mut host, &room.path("file"), "cat $file", b"text");
            assert_eq!(read, ((3, 0, "text".into()), true));
            host.leave();
        });
    }

    #[test]
    fn a_terminal_is_read_to_its_end() {
        in_own_process(|| {
            let mut host = plain_host();
            host.shows_colours = true;
            start(&mut host, 0, &shell("[ -t 2 ] && echo terminal; head -c 100000 /dev/zero >&2"));
            let (_, status, said) = next_end(&mut host);
            assert_eq!((status, said.len(), &said[..9]), (0, 100_009, "terminal\n"));
        });
    }

    #[test]
    fn a_job_is_heard_while_it_runs() {
        for shows_colours in [false, true] {
            in_own_process(|| {
                let room = Room(TestFolder::new());
                let (go, mut host) = (room.path("go"), plain_host());
                host.shows_colours = shows_colours;
                start(
                    &mut host,
                    5,
                    &shell(&format!(
                        "echo one >&2; until [ -e {} ]; do sleep 0.01; done; echo two >&2",
                        go.display()
                    )),
                );
                host.want(false);
                host.listen(Some(5));
                let Event::Printed(5, [out, errors]) = host.next() else { panic!("it isn't heard") };
                assert_eq!((out.as_slice(), errors.as_slice()), (&b""[..], &b"one\n"[..]));
                fs::write(go, "").unwrap();
                let end = loop {
                    match host.next() {
                        Event::Printed(5, [_, errors]) => assert_eq!(errors, b"one\ntwo\n"),
                        Event::Ended(5, ended) => break ended.errors,
                        other => panic!("{other:?}"),
                    }
                };
                assert_eq!(end, b"one\ntwo\n");
            });
        }
    }

    #[test]
    fn each_group_has_a_place_of_its_own_as_long_as_there_are_any() {
        let all: Vec<usize> = (0..MOST_GROUPS).rev().collect();
        assert_eq!(
            [free_place(&[]).unwrap(), free_place(&[0, 2]).unwrap(), free_place(&all[1..]).unwrap()],
            [0, 1, MOST_GROUPS - 1]
        );
        assert_eq!(free_place(&all).unwrap_err().kind(), io::ErrorKind::ResourceBusy);
    }

    #[test]
    fn a_call_whose_jobs_run_looks_again_and_again() {
        in_own_process(|| {
            let mut host = plain_host();
            start(&mut host, 0, &shell("sleep 300"));
            host.want(false);
            let begun = Instant::now();
            host.wait();
            assert!(begun.elapsed() < Duration::from_secs(30), "it wouldn't touch its slots");
            host.end_all(TERM);
        });
    }

    #[test]
    fn a_job_is_heard_by_both_streams() {
        in_own_process(|| {
            let mut host = plain_host();
            let [out, errors] = [system::memory_file().unwrap(), system::memory_file().unwrap()];
            let texts = || [content(&out).unwrap(), content(&errors).unwrap()];
            let streams = (out.try_clone().unwrap(), Printed::Memory(errors.try_clone().unwrap()));
            host.running.push(Running {
                number: 5,
                process: 0,
                place: 0,
                permit: None,
                out: streams.0,
                errors: streams.1,
                heard: 0,
                begun: 0.0,
            });
            host.listen(Some(5));
            for [one, other] in [["as long", "as this"], ["", " and"], [" more", ""]] {
                write_all(&out, one.as_bytes()).unwrap();
                write_all(&errors, other.as_bytes()).unwrap();
                host.listen_to_job();
                let Some(Event::Printed(5, heard)) = host.events.pop_front() else {
                    panic!("{one} and {other} aren't heard")
                };
                assert_eq!(heard, texts());
                host.listen_to_job();
                assert!(host.events.is_empty(), "nothing is new");
            }
        });
    }

    #[test]
    fn jobs_end_by_the_signal_or_by_force() {
        in_own_process(|| {
            let room = Room(TestFolder::new());
            let ready =
                |name: &str| format!("touch {}; while :; do sleep 0.05; done", room.path(name).display());
            let mut host = plain_host();
            start(&mut host, 0, &shell(&format!("trap 'echo bye; exit 4' TERM; {}", ready("gentle"))));
            host.start(1, &shell(&ready("plain"))).unwrap();
            wait_until(|| room.path("gentle").exists() && room.path("plain").exists());
            host.signal_all(STOP);
            host.end_all(TERM);
            let mut ends: Vec<(usize, i32)> = host
                .events
                .drain(..)
                .map(|event| {
                    if let Event::Ended(number, ended) = event {
                        (number, ended.status.code)
                    } else {
                        panic!("{event:?}")
                    }
                })
                .collect();
            ends.sort_unstable();
            assert_eq!((ends, host.running.len()), (vec![(0, 4), (1, 143)], 0), "it waits for them");
            start(&mut host, 2, &shell(&format!("trap '' TERM; {}", ready("stubborn"))));
            wait_until(|| room.path("stubborn").exists());
            let begun = Instant::now();
            host.end_all(TERM);
            assert!(
                begun.elapsed() >= GRACE
                    && matches!(host.events.pop_front(), Some(Event::Ended(2, ended)) if ended.status.code == 137)
            );
            assert!(host.permit.is_none());
            start(&mut host, 3, &shell(&format!("(trap '' TERM; {}) & wait", ready("left"))));
            wait_until(|| room.path("left").exists());
            let group = host.running[0].process;
            host.end_all(TERM);
            let is_gone = || {
                sleep(Duration::from_millis(5));
                !system::signal_rest(group, 0)
            };
            assert!((0..2000).any(|_| is_gone()), "what it has begun is left");
        });
    }

    #[test]
    fn a_job_that_nothing_ends_is_given_up() {
        in_own_process(|| {
            let room = Room(TestFolder::new());
            let mut host = host(Some(room.slots(1, 1)), |_| None);
            start(&mut host, 0, &shell("exit 0"));
            let process = host.running[0].process;
            wait_until(|| system::end_of(process).is_ok_and(|status| status.is_some()));
            // Nobody hears of its end any more.
            let begun = Instant::now();
            host.end_all(TERM);
            assert!(begun.elapsed() >= 2 * GRACE && host.running.is_empty());
            assert!(room.slots(1, 2).try_take().is_some(), "its slot is free");
        });
    }

    #[test]
    fn signals_end_a_call() {
        in_own_process(|| {
            let mut host = plain_host();
            start(&mut host, 0, &shell("sleep 300"));
            host.want(false);
            system::signal_process(system::process(), TERM);
            assert!(matches!(host.next(), Event::Signal(TERM)));
            host.end_all(TERM);
        });
    }

    #[test]
    fn a_slot_is_kept_for_the_next_job_unless_an_older_call_wants_it() {
        in_own_process(|| {
            let room = Room(TestFolder::new());
            let mut host = host(Some(room.slots(1, 2)), |_| None);
            start(&mut host, 0, &shell(":"));
            assert!(host.permit.is_none());
            host.wants = true;
            assert!(matches!(host.next(), Event::Ended(..)));
            assert!(host.permit.as_ref().is_some_and(|permit| permit.slot.is_some()), "it is kept");
            assert!(matches!(host.next(), Event::Slot), "and used");
            host.start(1, &shell(":")).unwrap();
            let mut older = room.slots(1, 1);
            assert!(older.begin_to_wait());
            assert!(matches!(host.next(), Event::Ended(..)));
            assert!(host.permit.as_ref().is_none_or(|permit| permit.slot.is_none()));
            let slot = older.try_take().expect("the slot is free");
            older.end_to_wait();
            let younger = thread::spawn(move || {
                sleep(Duration::from_millis(50));
                drop(slot);
            });
            assert!(
                matches!(host.next(), Event::Slot),
                "it looks again, though nobody says that the slot is free"
            );
            younger.join().unwrap();
            host.want(false);
            host.start(2, &shell(":")).unwrap();
            assert!(host.slots.as_ref().unwrap().file().is_some(), "it has a ticket");
            let has_none = format!(
                "until [ -z \"$(ls {} | grep wait)\" ]; do sleep 0.01; done",
                room.path("zigrunk-slots-*").display()
            );
            host.start(3, &shell(&has_none)).unwrap();
            let mut ends = [next_end(&mut host).0, next_end(&mut host).0];
            ends.sort_unstable();
            assert_eq!(ends, [2, 3], "who wants nothing has no ticket");
        });
    }

    #[test]
    fn a_call_that_was_woken_sleeps_again() {
        in_own_process(|| {
            let room = Room(TestFolder::new());
            let (holder, mut waiting) = (room.slots(1, 1), room.slots(1, 2));
            let slot = holder.try_take().unwrap();
            assert!(waiting.begin_to_wait());
            let mut host = host(Some(waiting), |_| None);
            let is_awake = |host: &Host| {
                let file = host.slots.as_ref().and_then(Slots::file).expect("it has a ticket");
                system::wait_for(&[file], 0) == [true]
            };
            assert!(!is_awake(&host));
            holder.give_back(slot);
            assert!(is_awake(&host));
            host.wait();
            assert!(!is_awake(&host), "or it would look without an end");
        });
    }

    #[test]
    fn a_call_without_a_ticket_looks_for_a_slot() {
        in_own_process(|| {
            let room = Room(TestFolder::new());
            let slot = room.slots(1, 1).try_take().unwrap();
            let mut host = host(Some(room.slots(1, 2)), |_| None);
            let ticket = format!("zigrunk-slots-{}/wait-{:020}-{}-1", system::user(), 2, system::process());
            fs::create_dir(room.path(&ticket)).unwrap();
            host.want(true);
            let holder = thread::spawn(move || {
                sleep(Duration::from_millis(50));
                drop(slot);
            });
            assert!(matches!(host.next(), Event::Slot), "something else has its ticket's name");
            holder.join().unwrap();
        });
    }

    #[test]
    fn a_call_gives_way_with_its_further_slots() {
        in_own_process(|| {
            let room = Room(TestFolder::new());
            let mut host = host(Some(room.slots(2, 1)), |_| None);
            host.give_way();
            let go = room.path("go");
            start(&mut host, 0, &shell(&format!("until [ -e {} ]; do sleep 0.01; done", go.display())));
            start(&mut host, 1, &shell(":"));
            let mut younger = room.slots(2, 2);
            assert!(younger.begin_to_wait());
            host.want(true);
            assert!(matches!(host.next(), Event::Ended(1, _)));
            let slot = younger.try_take().expect("it gives its second slot up");
            younger.end_to_wait();
            assert!(!host.may_start() && younger.begin_to_wait());
            fs::write(go, "").unwrap();
            assert!(matches!(host.next(), Event::Ended(0, _)));
            assert!(matches!(host.next(), Event::Slot), "it keeps its only one");
            assert!(younger.try_take().is_none());
            drop(slot);
        });
    }

    #[test]
    fn jobs_of_one_slot_share_it() {
        in_own_process(|| {
            let room = Room(TestFolder::new());
            let mut host = host(Some(room.slots(2, 1)), |_| None);
            start(&mut host, 0, &shell("sleep 300"));
            host.start(1, &Job { shares_slot: true, ..shell("sleep 300") }).unwrap();
            assert_eq!(
                host.running.iter().map(|running| running.permit.is_some()).collect::<Vec<_>>(),
                [true, false]
            );
            assert!(!host.has_spare_slot(), "the other one is for another call");
            host.end_all(TERM);
            let mut other = room.slots(2, 2);
            assert!(host.has_spare_slot() && other.begin_to_wait());
            host.leave();
            assert!(host.permit.is_none() && host.slots.is_none());
            assert_eq!(
                other.file().map(|file| system::wait_for(&[file], 0)),
                Some(vec![true]),
                "who waits hears of the slot"
            );
        });
    }

    #[test]
    fn without_their_folder_slots_limit_nothing() {
        in_own_process(|| {
            let room = Room(TestFolder::new());
            let slot = room.slots(1, 1).try_take().unwrap();
            let mut host = host(Some(room.slots(1, 2)), |_| None);
            host.want(true);
            assert!(!host.has_permit());
            fs::remove_dir_all(room.path(&format!("zigrunk-slots-{}", system::user()))).unwrap();
            assert!(matches!(host.next(), Event::Slot));
            drop(slot);
        });
    }

    #[test]
    fn a_job_of_make_is_waited_for() {
        in_own_process(|| {
            let (read, write) = system::pipe().unwrap();
            let server = Jobserver::open(&format!("{},{}", read.as_raw_fd(), write.as_raw_fd())).unwrap();
            let mut host = host(None, |shared| Some(Tokens::new(server, shared)));
            start(&mut host, 0, &shell("sleep 300"));
            host.want(true);
            assert!(!host.has_permit(), "the call has one job");
            let giver = thread::spawn(move || {
                sleep(Duration::from_millis(50));
                assert!(system::write_byte(write.as_fd(), b'+'));
                write
            });
            assert!(matches!(host.next(), Event::Slot));
            let write = giver.join().unwrap();
            host.start(1, &shell("sleep 300")).unwrap();
            host.end_all(TERM);
            host.leave();
            let path = format!("/proc/self/fd/{}", read.as_raw_fd());
            let pipe = system::open(Path::new(&path), Access::PIPE_TO_READ).unwrap();
            assert_eq!(system::read_byte(pipe.as_fd()), Some(b'+'));
            drop(write);
        });
    }
}
