//! The jobserver of make: below a make with `-jN`, a command takes a job of make too, the one that its call
//! has or a further one.
use crate::guard::{MOST_TOKENS, Shared};
use crate::settings::own_text;
use crate::system::{self, Access};
use std::os::fd::{AsFd, AsRawFd, BorrowedFd, OwnedFd, RawFd};
use std::path::Path;
use std::sync::atomic::Ordering;

/// What `MAKEFLAGS` says of jobs.
#[derive(Clone, PartialEq, Eq, Debug, Default)]
pub struct MakeFlags {
    /// The jobserver's text, if there is one.
    pub server: Option<String>,
    /// The number of jobs, if it is there.
    pub jobs: Option<usize>,
}

impl MakeFlags {
    /// Those of a value. The last one of each counts, and none behind `--`, where variables begin.
    pub fn of(value: &str) -> MakeFlags {
        let mut flags = MakeFlags::default();
        for word in value.split(' ').take_while(|&word| word != "--") {
            let server =
                word.strip_prefix("--jobserver-auth=").or_else(|| word.strip_prefix("--jobserver-fds="));
            let jobs =
                word.strip_prefix("-j").and_then(|digits| digits.parse().ok()).filter(|&jobs| jobs > 0);
            flags.server = server.map(String::from).or(flags.server);
            flags.jobs = jobs.or(flags.jobs);
        }
        flags
    }
}

/// What make says to this process.
#[derive(Debug)]
pub struct Make {
    /// What make's flags say.
    pub flags: MakeFlags,
    /// Its jobserver, if this process can use it.
    pub server: Option<Jobserver>,
}

impl Make {
    /// What `MAKEFLAGS` says.
    pub fn of_environment() -> Make {
        let flags = MakeFlags::of(&own_text("MAKEFLAGS").unwrap_or_default());
        let server = flags.server.as_deref().and_then(Jobserver::open);
        Make { flags, server }
    }

    /// How many jobs a make has whose jobserver this process can't use.
    pub fn most_jobs(&self) -> Option<usize> {
        self.flags.jobs.filter(|_| self.flags.server.is_some() && self.server.is_none())
    }
}

/// A jobserver that this call can use.
#[derive(Debug)]
pub struct Jobserver {
    from: OwnedFd,
    to: OwnedFd,
}

impl Jobserver {
    /// The jobserver of a text in `MAKEFLAGS`, `fifo:PATH` or `READ,WRITE`. `None` if a recipe that make
    /// doesn't take for another make has no access to it.
    ///
    /// A pipe is opened again, so that not to wait for it here doesn't change it for make.
    pub fn open(text: &str) -> Option<Jobserver> {
        let open = |path: &str, access| system::open(Path::new(path), access).map(OwnedFd::from).ok();
        if let Some(path) = text.strip_prefix("fifo:") {
            let from = open(path, Access::PIPE)?;
            if !system::is_same_pipe(from.as_raw_fd(), from.as_raw_fd()) {
                return None;
            }
            return Some(Jobserver { to: from.try_clone().ok()?, from });
        }
        let (read, write) = text.split_once(',')?;
        let (read, write): (RawFd, RawFd) = (read.parse().ok()?, write.parse().ok()?);
        if !system::is_same_pipe(read, write) {
            return None;
        }
        Some(Jobserver {
            from: open(&format!("/proc/self/fd/{read}"), Access::PIPE_TO_READ)?,
            to: open(&format!("/proc/self/fd/{write}"), Access::PIPE_TO_WRITE)?,
        })
    }

    /// The end to which jobs are given back.
    pub fn writer(&self) -> &OwnedFd {
        &self.to
    }
}

/// A job of make: the call's own, or one of the jobserver's by its place.
#[derive(Debug, PartialEq, Eq)]
pub enum Token {
    /// The job that the call itself has.
    Own,
    /// One that make gave, by its place in the shared memory.
    Given(usize),
}

/// The jobs that a call has.
#[derive(Debug)]
pub struct Tokens {
    server: Jobserver,
    shared: Shared,
    own_is_free: bool,
}

impl Tokens {
    /// The jobs of a call that makes one of this server, in memory that the guard shares.
    pub fn new(server: Jobserver, shared: Shared) -> Tokens {
        Tokens { server, shared, own_is_free: true }
    }

    /// A job, if there is one. What make gives goes at once to where the guard sees it.
    pub fn try_take(&mut self) -> Option<Token> {
        if std::mem::take(&mut self.own_is_free) {
            return Some(Token::Own);
        }
        let place = (0..MOST_TOKENS).find(|&place| self.shared.token(place).load(Ordering::SeqCst) == 0)?;
        system::read_into(self.server.from.as_fd(), self.shared.token(place)).then_some(Token::Given(place))
    }

    /// Gives a job back.
    pub fn give_back(&mut self, token: &Token) {
        match token {
            Token::Own => self.own_is_free = true,
            Token::Given(place) => {
                let place = self.shared.token(*place);
                // What stays there the guard gives back: if this process is killed, or the job can't be
                // written.
                if system::write_byte(self.server.to.as_fd(), place.load(Ordering::SeqCst)) {
                    place.store(0, Ordering::SeqCst);
                }
            }
        }
    }

    /// The file that can be read if make may have a job.
    pub fn file(&self) -> BorrowedFd<'_> {
        self.server.from.as_fd()
    }

    /// Where they are from.
    pub fn server(&self) -> &Jobserver {
        &self.server
    }
}

#[cfg(test)]
mod tests {
    use super::*;

    #[test]
    fn flags_name_a_jobserver() {
        let flags = |server: Option<&str>, jobs| MakeFlags { server: server.map(String::from), jobs };
        let cases = [
            (" -j3 --jobserver-auth=3,4", flags(Some("3,4"), Some(3))),
            (" -j --jobserver-fds=5,7", flags(Some("5,7"), None)),
            ("w -j2 --jobserver-auth=fifo:/t/GMfifo1 -- A=-j9", flags(Some("fifo:/t/GMfifo1"), Some(2))),
            ("--jobserver-auth=3,4 --jobserver-auth=5,6", flags(Some("5,6"), None)),
            ("-j0", flags(None, None)),
            ("", flags(None, None)),
        ];
        for (value, wanted) in cases {
            assert_eq!(MakeFlags::of(value), wanted, "{value}");
        }
    }

    #[test]
    fn jobs_come_from_a_pipe_and_go_back() {
        let (read, write) = system::pipe().unwrap();
        assert!(system::write_byte(write.as_fd(), b'a'));
        let server = Jobserver::open(&format!("{},{}", read.as_raw_fd(), write.as_raw_fd())).unwrap();
        let mut tokens = Tokens::new(server, Shared::new().unwrap());
        let (own, given) = (tokens.try_take().unwrap(), tokens.try_take().unwrap());
        assert_eq!((&own, &given, tokens.try_take()), (&Token::Own, &Token::Given(0), None));
        tokens.give_back(&given);
        tokens.give_back(&own);
        assert_eq!(tokens.try_take(), Some(Token::Own));
        assert_eq!(system::read_byte(read.as_fd()), Some(b'a'));
    }

    #[test]
    fn a_call_takes_no_more_jobs_than_its_guard_can_give_back() {
        let (read, write) = system::pipe().unwrap();
        assert!(system::write_byte(write.as_fd(), b'a'));
        let shared = Shared::new().unwrap();
        let server = Jobserver::open(&format!("{},{}", read.as_raw_fd(), write.as_raw_fd())).unwrap();
        let mut tokens = Tokens::new(server, shared);
        for place in 0..MOST_TOKENS {
            shared.token(place).store(b'b', Ordering::SeqCst);
        }
        assert_eq!([tokens.try_take(), tokens.try_take()], [Some(Token::Own), None]);
        shared.token(MOST_TOKENS - 1).store(0, Ordering::SeqCst);
        assert_eq!(tokens.try_take(), Some(Token::Given(MOST_TOKENS - 1)));
    }

    #[test]
    fn other_texts_are_no_jobserver() {
        let (read, write) = system::pipe().unwrap();
        let (_other, other_end) = system::pipe().unwrap();
        let number = |file: &OwnedFd| file.as_raw_fd();
        let texts = [
            format!("{},{}", number(&read), number(&other_end)),
            format!("{},999", number(&read)),
            format!("999,{}", number(&write)),
            "fifo:/missing".into(),
            "fifo:/dev/null".into(),
            "3".into(),
            "-1,-1".into(),
            "a,b".into(),
        ];
        for text in texts {
            assert!(Jobserver::open(&text).is_none(), "{text}");
        }
    }
}
