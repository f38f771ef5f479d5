//! Calls that take turns. Each is made by a thread of its own, of which one goes on at a time. So a call of a
//! batch takes the same steps as a call alone, and one process starts all commands.
use machine::clock;
use machine::jobs::{Early, Event, Job, Machine};
use std::io;
use std::sync::mpsc::{Receiver, Sender, channel};
use std::thread::{Builder, JoinHandle};

/// What the thread of a call asks for.
#[derive(Debug)]
pub enum Step<T> {
    /// To start a job, whose end has this number.
    Start(usize, Job),
    /// To go on once something happens to it, or once it may start a job.
    Wait(Wish),
    /// Nothing: the call has come to its end. `None` if its thread panicked.
    End(Option<T>),
}

/// What a call waits for.
#[derive(Clone, Copy, PartialEq, Eq, Debug, Default)]
pub struct Wish {
    /// Whether it has a job to start.
    pub wants: bool,
    /// Whether it is being planned, so that its jobs run on this machine whatever runs its commands.
    pub plans: bool,
}

#[derive(Debug)]
enum Answer {
    Event(Event),
    Started(io::Result<()>),
}

/// The machine, as the thread of a call sees it.
#[derive(Debug)]
pub struct Turns<T> {
    steps: Sender<Step<T>>,
    answers: Receiver<Answer>,
    wish: Wish,
    running: usize,
    given: Vec<(String, Option<String>)>,
}

impl<T> Turns<T> {
    /// Gives each further job a variable.
    pub fn give(&mut self, name: &str, value: &str) {
        self.given.push((name.to_owned(), Some(value.to_owned())));
    }
}

fn gone() -> io::Error {
    io::ErrorKind::BrokenPipe.into()
}

impl<T> Machine for Turns<T> {
    fn want(&mut self, wants: bool) {
        self.wish.wants = wants;
    }

    fn plans(&mut self, plans: bool) {
        self.wish.plans = plans;
    }

    /// The batch has the slots.
    fn release(&mut self) {}

    /// A batch tells what a call's commands say at the call's end.
    fn listen(&mut self, _: Option<usize>) {}

    /// A slot in which a command would wait is for another call's command.
    fn early(&mut self) -> Option<&mut dyn Early> {
        None
    }

    fn next(&mut self) -> Event {
        let answer = self.steps.send(Step::Wait(self.wish)).ok().and_then(|()| self.answers.recv().ok());
        let Some(Answer::Event(event)) = answer else { return Event::Lost("the batch is gone".into()) };
        self.running -= usize::from(matches!(event, Event::Ended(..)));
        event
    }

    fn start(&mut self, number: usize, job: &Job) -> io::Result<()> {
        let variables = [&job.variables[..], &self.given].concat();
        self.steps.send(Step::Start(number, Job { variables, ..job.clone() })).map_err(|_| gone())?;
        let Ok(Answer::Started(started)) = self.answers.recv() else { return Err(gone()) };
        self.running += usize::from(started.is_ok());
        started
    }

    /// Waits for the call's jobs. If a signal has come, the batch has ended them all.
    fn end_all(&mut self, _: i32) {
        self.wish.wants = false;
        while self.running > 0 {
            if let Event::Signal(_) | Event::Lost(_) = self.next() {
                self.running = 0;
            }
        }
    }

    fn now(&self) -> f64 {
        clock::now()
    }
}

/// The thread of a call, as the batch sees it.
#[derive(Debug)]
pub struct Maker<T> {
    steps: Receiver<Step<T>>,
    answers: Sender<Answer>,
    thread: Option<JoinHandle<()>>,
}

impl<T: Send + 'static> Maker<T> {
    /// Starts the thread of a call, which this function makes.
    /// An error if there is no thread for it.
    pub fn begin(make: impl FnOnce(&mut Turns<T>) -> T + Send + 'static) -> io::Result<Maker<T>> {
        let ((to_batch, steps), (answers, to_call)) = (channel(), channel());
        let thread = Builder::new().spawn(move || {
            let mut turns = Turns {
                steps: to_batch,
                answers: to_call,
                wish: Wish::default(),
                running: 0,
                given: Vec::new(),
            };
            let end = make(&mut turns);
            // No error, since without a batch nobody asks for the end.
            let _ = turns.steps.send(Step::End(Some(end)));
        })?;
        Ok(Maker { steps, answers, thread: Some(thread) })
    }

    /// Waits for the call's next step. Then its thread stands still.
    pub fn step(&mut self) -> Step<T> {
        let step = self.steps.recv().unwrap_or(Step::End(None));
        if let Some(thread) = self.thread.take_if(|_| matches!(step, Step::End(_))) {
            // Nothing more, since what it panicked with is said already.
            let _ = thread.join();
        }
        step
    }

    /// Tells the call what it waits for. Its thread goes on.
    pub fn tell(&self, event: Event) {
        let _ = self.answers.send(Answer::Event(event));
    }

    /// Tells the call whether its job runs. Its thread goes on.
    pub fn tell_started(&self, started: io::Result<()>) {
        let _ = self.answers.send(Answer::Started(started));
    }
}

#[cfg(test)]
mod tests {
    use super::*;
    use crate::system::{Status, TERM};
    use machine::jobs::Ended;

    fn ended() -> Ended {
        Ended {
            status: Status { code: 7, signal: None, dumped: false },
            out: b"out".to_vec(),
            errors: Vec::new(),
            times: (1.0, 2.0),
        }
    }

    #[test]
    fn a_call_goes_on_when_it_is_told() {
        let mut maker = Maker::begin(|turns| {
            turns.plans(true);
            turns.want(true);
            assert!(matches!(turns.next(), Event::Slot));
            turns.start(3, &Job { words: vec!["a".into()], ..Job::default() }).unwrap();
            assert!(turns.start(4, &Job::default()).is_err());
            turns.want(false);
            let Event::Ended(3, ended) = turns.next() else { panic!("no end") };
            ended.status.code
        })
        .unwrap();
        assert!(matches!(maker.step(), Step::Wait(Wish { wants: true, plans: true })));
        maker.tell(Event::Slot);
        assert!(matches!(maker.step(), Step::Start(3, job) if job.words == ["a"]));
        maker.tell_started(Ok(()));
        assert!(matches!(maker.step(), Step::Start(4, _)));
        maker.tell_started(Err(gone()));
        assert!(matches!(maker.step(), Step::Wait(Wish { wants: false, plans: true })));
        maker.tell(Event::Ended(3, ended()));
        assert!(matches!(maker.step(), Step::End(Some(7))));
    }

    #[test]
    fn a_call_waits_for_its_jobs_before_it_ends() {
        let mut maker = Maker::begin(|turns| {
            turns.start(0, &Job::default()).unwrap();
            turns.start(1, &Job::default()).unwrap();
            turns.end_all(TERM);
            turns.running
        })
        .unwrap();
        for _ in 0..2 {
            assert!(matches!(maker.step(), Step::Start(..)));
            maker.tell_started(Ok(()));
        }
        assert!(matches!(maker.step(), Step::Wait(_)));
        maker.tell(Event::Ended(1, ended()));
        assert!(matches!(maker.step(), Step::Wait(_)));
        maker.tell(Event::Signal(TERM));
        assert!(matches!(maker.step(), Step::End(Some(0))));
    }

    #[test]
    fn jobs_get_what_is_given_and_their_own_variables() {
        let variable = |name: &str, value: &str| (name.to_owned(), Some(value.to_owned()));
        let mut maker = Maker::begin(move |turns| {
            turns.start(0, &Job { variables: vec![variable("OWN", "1")], ..Job::default() }).unwrap();
            turns.give("GIVEN", "2");
            turns.start(1, &Job { variables: vec![variable("OWN", "1")], ..Job::default() }).unwrap();
        })
        .unwrap();
        for wanted in [vec![variable("OWN", "1")], vec![variable("OWN", "1"), variable("GIVEN", "2")]] {
            assert!(matches!(maker.step(), Step::Start(_, job) if job.variables == wanted));
            maker.tell_started(Ok(()));
        }
        assert!(matches!(maker.step(), Step::End(Some(()))));
    }

    #[test]
    fn a_panic_ends_only_its_call() {
        let mut maker = Maker::<()>::begin(|_| panic!("as the test wants")).unwrap();
        assert!(matches!(maker.step(), Step::End(None)));
    }
}
