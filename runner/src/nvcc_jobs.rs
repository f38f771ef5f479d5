//! nvcc's dry runs on a machine of the driver.
use crate::system::TERM;
use cache::observer::{Observer, Subject};
use call::{Error, FLAG_VARIABLES, Nvcc, Ran, Reason, Run};
use machine::jobs::{Ended, Event, Job, Machine};

/// Why dry runs have no end.
#[derive(Clone, PartialEq, Eq, Debug)]
pub enum Stopped {
    /// They aren't the call's, or can't be made.
    Refused(Error),
    /// A signal ended the call.
    Signal(i32),
}

impl From<Error> for Stopped {
    fn from(error: Error) -> Stopped {
        Stopped::Refused(error)
    }
}

impl From<Reason> for Stopped {
    fn from(reason: Reason) -> Stopped {
        Stopped::Refused(Error::to_nvcc(reason))
    }
}

/// An nvcc whose dry runs are jobs of a machine. Something else is done once the first of them run.
pub struct Jobs<'a, M, F> {
    machine: &'a mut M,
    meanwhile: Option<F>,
    observer: Option<&'a mut Observer>,
}

impl<'a, M, F> Jobs<'a, M, F> {
    /// `meanwhile` says why nvcc has to make the call if it can't be done.
    pub fn new(machine: &'a mut M, meanwhile: F) -> Jobs<'a, M, F> {
        Jobs { machine, meanwhile: Some(meanwhile), observer: None }
    }

    /// The same with an observer in nvcc's processes, if there is one.
    #[must_use]
    pub fn observed(self, observer: Option<&'a mut Observer>) -> Jobs<'a, M, F> {
        Jobs { observer, ..self }
    }
}

/// A program as a job: nvcc gets the words of its variables once.
pub fn job(run: &Run) -> Job {
    let variables = FLAG_VARIABLES.map(|name| (name.to_owned(), None));
    Job {
        words: run.words().to_vec(),
        folder: run.cwd().to_owned(),
        variables: variables.into(),
        ..Job::default()
    }
}

fn ran(ended: Ended) -> Ran {
    Ran { succeeded: ended.status.succeeded(), errors: ended.errors }
}

impl<M: Machine, F: FnOnce() -> Result<(), Reason>> Jobs<'_, M, F> {
    /// Starts jobs side by side in one slot.
    fn start(&mut self, runs: &[Run]) -> Result<(), Reason> {
        for (number, run) in runs.iter().enumerate() {
            let job = Job { shares_slot: number > 0, ..job(run) };
            let observing = self
                .observer
                .as_mut()
                .and_then(|observer| observer.observing(Subject::DryRun(number), &job).ok());
            let job = observing.unwrap_or(job);
            self.machine.start(number, &job).map_err(|_| Reason::NoDryRunProcess)?;
        }
        self.machine.want(false);
        self.meanwhile.take().map_or(Ok(()), |act| act())
    }

    /// Takes the next event. Says which job has ended, if one has.
    fn next(&mut self, runs: &[Run]) -> Result<Option<(usize, Ran)>, Stopped> {
        let reason = match self.machine.next() {
            Event::Ended(number, ended) => return Ok(Some((number, ran(ended)))),
            Event::Printed(..) => return Ok(None),
            Event::Slot => match self.start(runs) {
                Ok(()) => return Ok(None),
                Err(reason) => reason,
            },
            Event::Lost(reason) => Reason::Machine(reason),
            Event::Signal(number) => {
                self.machine.end_all(number);
                return Err(Stopped::Signal(number));
            }
        };
        self.machine.end_all(TERM);
        Err(reason.into())
    }
}

impl<M: Machine, F: FnOnce() -> Result<(), Reason>> Nvcc for Jobs<'_, M, F> {
    type Stop = Stopped;

    fn run(&mut self, runs: &[Run]) -> Result<Vec<Ran>, Stopped> {
        let mut ended: Vec<Option<Ran>> = vec![None; runs.len()];
        self.machine.want(true);
        while ended.iter().any(Option::is_none) {
            if let Some((number, ran)) = self.next(runs)? {
                ended[number] = Some(ran);
            }
        }
        Ok(ended.into_iter().flatten().collect())
    }
}

#[cfg(test)]
mod tests {
    use super::*;
    use crate::system::{INT, Status};
    use crate::test_folder::TestFolder;
    use machine::jobs::Early;
    use std::io;

    /// An nvcc that prints what it gets, and a machine that may be lost, or get a signal.
    #[derive(Default)]
    struct Fake {
        started: Vec<Job>,
        ended: usize,
        wants: bool,
        ended_by: Option<i32>,
        lost: bool,
        signal: bool,
    }

    impl Machine for Fake {
        fn want(&mut self, wants: bool) {
            self.wants = wants;
        }

        fn release(&mut self) {}

        fn plans(&mut self, _: bool) {}

        fn listen(&mut self, _: Option<usize>) {}

        fn early(&mut self) -> Option<&mut dyn Early> {
            None
        }

        fn next(&mut self) -> Event {
            if self.lost {
                return Event::Lost("it is lost".into());
            }
            if self.wants {
                return Event::Slot;
            }
            if self.signal {
                return Event::Signal(INT);
            }
            let job = &self.started[self.ended];
            let status = Status { code: i32::from(job.words[1] == "bad"), signal: None, dumped: false };
            self.ended += 1;
            Event::Ended(
                self.ended - 1,
                Ended { status, out: b"no".into(), errors: job.words[1].clone().into(), times: (0.0, 0.0) },
            )
        }

        fn start(&mut self, number: usize, job: &Job) -> io::Result<()> {
            assert_eq!(job.shares_slot, number > 0);
            self.started.push(job.clone());
            Ok(())
        }

        fn end_all(&mut self, signal: i32) {
            self.ended_by = Some(signal);
        }

        fn now(&self) -> f64 {
            0.0
        }
    }

    fn runs() -> [Run; 2] {
        ["good", "bad"].map(|word| Run::new(vec!["nvcc".into(), word.into()], "/w".into()))
    }

    #[test]
    fn dry_runs_share_a_slot_and_get_no_flags() {
        let (mut machine, mut is_done) = (Fake::default(), false);
        let mut act = || {
            is_done = true;
            Ok(())
        };
        let ran = Jobs::new(&mut machine, &mut act).run(&runs()).unwrap();
        let said: Vec<_> = ran.iter().map(|run| (run.succeeded, run.errors.as_slice())).collect();
        assert_eq!((said, is_done), (vec![(true, &b"good"[..]), (false, b"bad")], true));
        let none = |name: &str| (name.to_owned(), None);
        assert!(
            machine
                .started
                .iter()
                .all(|job| job.variables == [none("NVCC_PREPEND_FLAGS"), none("NVCC_APPEND_FLAGS")]
                    && job.folder == "/w")
        );
    }

    #[test]
    fn dry_runs_may_be_observed() {
        let room = TestFolder::new();
        let mut observer = Observer::new(room.join("observer")).unwrap();
        let mut machine = Fake::default();
        let runs = ["/bin/sh", "/missing/nvcc"]
            .map(|program| Run::new(vec![program.into(), "good".into()], "/w".into()));
        Jobs::new(&mut machine, || Ok(())).observed(Some(&mut observer)).run(&runs).unwrap();
        let has_library = |job: &Job| job.variables.iter().any(|(name, _)| name == "LD_PRELOAD");
        assert_eq!(
            machine.started.iter().map(has_library).collect::<Vec<_>>(),
            [true, false],
            "one without a program runs as it is"
        );
        assert!(machine.started[1].shares_slot);
    }

    #[test]
    fn what_goes_wrong_ends_them() {
        let ended = |mut machine: Fake, able: bool| {
            let act = || if able { Ok(()) } else { Err(Reason::NoTemporaryRoom) };
            (Jobs::new(&mut machine, act).run(&runs()).unwrap_err(), machine.ended_by)
        };
        assert_eq!(
            ended(Fake { lost: true, ..Fake::default() }, true),
            (Reason::Machine("it is lost".into()).into(), Some(TERM))
        );
        assert_eq!(ended(Fake { signal: true, ..Fake::default() }, true), (Stopped::Signal(INT), Some(INT)));
        assert_eq!(ended(Fake::default(), false), (Reason::NoTemporaryRoom.into(), Some(TERM)));
    }
}
