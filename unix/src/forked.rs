//! Tests in a process of their own: what they do with signals, children and standard streams no other test
//! sees.
use crate::processes::PANICKED;
use crate::streams::{content, write_all};
use crate::{KILL, Status};
use nix::unistd;
use std::env;
use std::ffi::OsStr;
use std::fmt::Write as _;
use std::fs;
use std::os::fd::{AsFd, AsRawFd, RawFd};
use std::panic;
use std::path::PathBuf;
use std::sync::Once;
use std::sync::atomic::{AtomicBool, Ordering};
use std::thread::sleep;
use std::time::{Duration, Instant};

/// How long such a test may take, since one that waits for itself would hold all others.
const LONGEST: Duration = Duration::from_secs(60);

/// Whether this process is one of those that `status_of` forks.
static IS_FORKED: AtomicBool = AtomicBool::new(false);

/// Has panics of forked processes write to a file: another thread may have had the lock of what they usually
/// write to. This can't be said in such a process, since another thread may have panicked meanwhile, which
/// holds the lock of the hook.
fn redirect_panics() {
    static ONCE: Once = Once::new();
    ONCE.call_once(|| {
        let usual = panic::take_hook();
        panic::set_hook(Box::new(move |what| {
            if IS_FORKED.load(Ordering::Relaxed) {
                drop(fs::write(message_of(crate::process()), what.to_string()));
            } else {
                usual(what);
            }
        }));
    });
}

/// How a process ends that does this. While it lives, it is looked after: `meanwhile` gets its number again
/// and again.
pub fn status_of(run: impl FnOnce(), meanwhile: impl Fn(i32)) -> Status {
    redirect_panics();
    let marked = || {
        IS_FORKED.store(true, Ordering::Relaxed);
        run();
    };
    let child = crate::fork_to(marked).unwrap();
    let begun = Instant::now();
    loop {
        if let Some(status) = crate::end_of(child).unwrap() {
            if status.code == PANICKED {
                let text = fs::read_to_string(message_of(child)).unwrap_or_default();
                let _ = fs::remove_file(message_of(child));
                panic!("in a process of its own: {text}");
            }
            return status;
        }
        if begun.elapsed() > LONGEST {
            crate::signal_process(child, KILL);
        }
        meanwhile(child);
        sleep(Duration::from_millis(2));
    }
}

fn message_of(process: i32) -> PathBuf {
    env::temp_dir().join(format!("forked-{process}"))
}

/// Makes a test in a process of its own.
pub fn in_own_process(test: impl FnOnce()) {
    assert_eq!(status_of(test, |_| ()), Status { code: 0, signal: None, dumped: false });
}

/// What a process says that does this.
pub fn said_by(run: impl FnOnce() -> String) -> String {
    let file = crate::memory_file().unwrap();
    in_own_process(|| write_all(&file, run().as_bytes()).unwrap());
    String::from_utf8(content(&file).unwrap()).unwrap()
}

/// Which of these signals this process blocks, and which it ignores, as the kernel says: a `B` and an `I` for
/// each.
pub fn dispositions(signals: &[i32]) -> String {
    let text = fs::read_to_string("/proc/self/status").unwrap();
    let set = |name: &str| {
        text.lines()
            .find_map(|line| line.strip_prefix(name))
            .map(|set| u64::from_str_radix(set.trim(), 16).unwrap())
            .unwrap()
    };
    let (blocked, ignored) = (set("SigBlk:"), set("SigIgn:"));
    signals.iter().fold(String::new(), |mut said, &number| {
        let has = |set: u64, letter: &'static str| if set >> (number - 1) & 1 == 1 { letter } else { "" };
        let _ = write!(said, "{number}{}{} ", has(blocked, "B"), has(ignored, "I"));
        said
    })
}

/// Closes a file of this process, whoever owns it: a process of its own, like that of `copy_to`.
pub fn close(number: RawFd) {
    let _ = unistd::close(number);
}

/// Has a number be that of an open file, too.
pub fn copy_to(file: impl AsFd, number: RawFd) {
    assert_eq!(unistd::dup2(file.as_fd().as_raw_fd(), number), Ok(number));
}

/// Gives a variable of this process a value.
pub fn set_variable(name: impl AsRef<OsStr>, value: impl AsRef<OsStr>) {
    // SAFETY: tests call this in a process of its own, which has no other thread.
    unsafe { env::set_var(name, value) };
}
