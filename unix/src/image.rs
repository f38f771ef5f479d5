//! Programs that are run.
use crate::processes::{exit, process};
use crate::signals::{Signals, TERM};
use libc::c_char;
use nix::fcntl::{FcntlArg, FdFlag, fcntl};
use nix::sched::{CloneCb, CloneFlags, clone};
use rustix::process::{Pid, Signal, chdir, getppid, set_parent_process_death_signal, setpgid};
use rustix::stdio::{dup2_stderr, dup2_stdin, dup2_stdout, stderr};
use std::borrow::Cow;
use std::ffi::{CStr, CString};
use std::io;
use std::ops::Deref;
use std::os::fd::{BorrowedFd, RawFd};
use std::ptr;
use std::sync::atomic::{AtomicI32, Ordering};

/// How many bytes a child's stack has: few, because the child only sets its files and becomes the program.
const CHILD_STACK: usize = 1 << 16;
/// The status of a child that can't run its program, as a shell has it.
const NOT_RUN: i32 = 127;

/// A program to run, with all that it gets.
#[derive(Debug)]
pub struct Image<'a> {
    program: CString,
    argv: Vec<CString>,
    envp: Vec<Cow<'a, CStr>>,
    folder: Option<CString>,
}

/// The lists that `execve` takes. They point into an image.
struct Lists {
    argv: Vec<*const c_char>,
    /// The words of the shell that runs the program as a script.
    script: Vec<*const c_char>,
    envp: Vec<*const c_char>,
}

/// Pointers to texts, and a null behind them.
fn pointers<T: Deref<Target = CStr>>(texts: &[T]) -> Vec<*const c_char> {
    texts.iter().map(|text| text.as_ptr()).chain([ptr::null()]).collect()
}

impl<'a> Image<'a> {
    /// A program by its path, the words that it gets, its own name first, its environment, and its folder if
    /// that isn't this process's.
    #[must_use]
    pub fn new(
        program: CString,
        argv: Vec<CString>,
        envp: Vec<Cow<'a, CStr>>,
        folder: Option<CString>,
    ) -> Image<'a> {
        Image { program, argv, envp, folder }
    }

    fn lists(&self) -> Lists {
        let (argv, envp) = (pointers(&self.argv), pointers(&self.envp));
        let words = argv.iter().copied().skip(1);
        let script = [c"sh".as_ptr(), self.program.as_ptr()].into_iter().chain(words).collect();
        Lists { argv, script, envp }
    }

    /// Becomes the program. Comes back with the reason if that can't be done.
    ///
    /// A file that is no program of the kernel's is a script of the shell's, as for `execvp`.
    #[must_use]
    pub fn become_it(&self) -> io::Error {
        self.replace(&self.lists())
    }

    /// (It allocates nothing.)
    fn replace(&self, lists: &Lists) -> io::Error {
        let error = execute(&self.program, &lists.argv, &lists.envp);
        if error.raw_os_error() == Some(libc::ENOEXEC) {
            execute(c"/bin/sh", &lists.script, &lists.envp);
        }
        error
    }

    /// Starts the program with these standard streams, in a process group of its own whose number goes to
    /// `group`, a place that other processes may see. It gets TERM if this process ends, and has the file
    /// `inherited` open too, by its number. Says its number.
    ///
    /// Until it runs the program, the child has this process's memory, and this process waits: to copy the
    /// memory would take longer than many a command.
    /// Errors: those of `clone`. If the program can't be run, the child says so on its standard error and
    /// ends with 127.
    pub fn start(
        &self,
        streams: [BorrowedFd<'_>; 3],
        inherited: Option<RawFd>,
        signals: &Signals,
        group: &AtomicI32,
        complaint: &CStr,
    ) -> io::Result<i32> {
        let (lists, parent) = (self.lists(), process());
        let number = start(Box::new(|| {
            lead_group(group, parent);
            take_files(streams, inherited);
            signals.give_back();
            if self.folder.as_ref().is_none_or(|folder| chdir(folder).is_ok()) {
                self.replace(&lists);
            }
            let _ = rustix::io::write(stderr(), complaint.to_bytes());
            exit(NOT_RUN)
        }))?;
        let child = Pid::from_raw(number);
        let _ = setpgid(child, child);
        Ok(number)
    }
}

fn execute(program: &CStr, argv: &[*const c_char], envp: &[*const c_char]) -> io::Error {
    // SAFETY: each list ends with a null, and points to texts of the image, which lasts.
    unsafe { libc::execve(program.as_ptr(), argv.as_ptr(), envp.as_ptr()) };
    io::Error::last_os_error()
}

/// Starts a child that does this, and waits until it is a program or has ended. The child allocates nothing,
/// and changes nothing of this process's memory but its group's place.
fn start(run: CloneCb<'_>) -> io::Result<i32> {
    let mut stack = vec![0; CHILD_STACK];
    let flags = CloneFlags::CLONE_VM | CloneFlags::CLONE_VFORK;
    // SAFETY: the stack and what the child uses stay until it has become the program, since this process
    // waits for that.
    Ok(unsafe { clone(run, &mut stack, flags, Some(libc::SIGCHLD)) }?.as_raw())
}

/// Has this child lead a group, whose number goes to its place, and end with its parent.
fn lead_group(group: &AtomicI32, parent: i32) {
    let _ = setpgid(None, None);
    group.store(process(), Ordering::SeqCst);
    let _ = set_parent_process_death_signal(Signal::from_raw(TERM));
    if getppid().map(|it| it.as_raw_nonzero().get()) != Some(parent) {
        exit(128 + TERM);
    }
}

/// Gives this child its standard streams, and to what it becomes the file of this number.
fn take_files([input, output, errors]: [BorrowedFd<'_>; 3], inherited: Option<RawFd>) {
    let _ = dup2_stdin(input);
    let _ = dup2_stdout(output);
    let _ = dup2_stderr(errors);
    if let Some(file) = inherited {
        let _ = fcntl(file, FcntlArg::F_SETFD(FdFlag::empty()));
    }
}
