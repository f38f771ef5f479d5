//! Tests of the calls beside what the kernel says.
use crate::forked::{close, copy_to, dispositions, in_own_process, said_by, status_of};
use crate::signals::{next_of, set_handler};
use crate::streams::content;
use crate::test_folder::TestFolder;
use crate::*;
use nix::sys::signal::{SigHandler, SigSet, Signal};
use std::borrow::Cow;
use std::collections::BTreeSet;
use std::ffi::{CStr, CString, OsStr};
use std::fs;
use std::fs::File;
use std::io::{self, Read, Write};
use std::iter;
use std::os::fd::AsFd;
use std::os::fd::AsRawFd;
use std::os::unix::fs::{FileTypeExt, MetadataExt, symlink};
use std::path::Path;
use std::sync::atomic::{AtomicU8, Ordering};
use std::thread::sleep;
use std::time::Duration;
use std::time::Instant;

/// The flag of a file that no program inherits.
#[allow(clippy::cast_sign_loss)]
const CLOSES: u64 = libc::O_CLOEXEC as u64;

/// A folder for a test, which goes with it.
struct Scratch(TestFolder, File);

impl Scratch {
    fn new() -> Scratch {
        let path = TestFolder::new();
        let file = File::open(&path).unwrap();
        Scratch(path, file)
    }

    fn open(&self, name: &str, how: Access) -> io::Result<File> {
        open_below(self.1.as_fd(), name, how)
    }
}

/// Whether a program that is run gets an open file, as the kernel says.
fn is_inherited(file: &impl AsRawFd) -> bool {
    let text = fs::read_to_string(format!("/proc/self/fdinfo/{}", file.as_raw_fd())).unwrap();
    let flags = text.lines().find_map(|line| line.strip_prefix("flags:")).unwrap();
    i32::from_str_radix(flags.trim(), 8).unwrap() & libc::O_CLOEXEC == 0
}

/// A number in a file of /proc that follows a name there.
fn number_in(file: &str, name: &str, radix: u32) -> u64 {
    let text = fs::read_to_string(file).unwrap();
    let rest = text.lines().find_map(|line| line.strip_prefix(name)).unwrap().replace(',', "");
    u64::from_str_radix(rest.split_whitespace().next().unwrap(), radix).unwrap()
}

fn ignore(number: i32) {
    set_handler(Signal::try_from(number).unwrap(), SigHandler::SigIgn);
}

fn send_self(number: i32) {
    signal_process(process(), number);
}

#[test]
fn the_end_of_a_child_is_its_own() {
    in_own_process(|| {
        let [first, second] = [3, 5].map(|status| fork_to(move || exit(status)).unwrap());
        let status = |child| loop {
            if let Some(status) = end_of(child).unwrap() {
                return status.code;
            }
            sleep(Duration::from_millis(1));
        };
        assert_eq!([status(second), status(first)], [5, 3]);
        assert!(end_of(first).is_err());
        let (read, write) = pipe().unwrap();
        let waits = fork_to(|| {
            close(write.as_raw_fd());
            wait_for_end(read.as_fd());
        });
        let waits = waits.unwrap();
        assert_eq!(end_of(waits).unwrap(), None);
        drop(write);
        wait_for_child(waits);
        assert!(end_of(waits).is_err(), "it has been waited for");
    });
}

#[test]
fn a_process_hears_by_term_that_its_parent_has_ended() {
    let (read, write) = pipe().unwrap();
    let child = || {
        let signals = Signals::open().unwrap();
        end_with_parent();
        assert!(write_byte(write.as_fd(), 0));
        wait_for(&[signals.file()], 20_000);
        write_byte(write.as_fd(), signals.next().and_then(|number| u8::try_from(number).ok()).unwrap_or(1));
    };
    let heard = || {
        wait_for(&[read.as_fd()], 20_000);
        read_byte(read.as_fd()).map(i32::from)
    };
    in_own_process(|| {
        fork_to(child).unwrap();
        assert_eq!(heard(), Some(0));
    });
    assert_eq!(heard(), Some(TERM));
}

#[test]
fn a_process_ends_by_a_signal_whatever_it_does_with_it() {
    for number in [HUP, INT, TERM] {
        let end = || {
            ignore(number);
            SigSet::from(Signal::try_from(number).unwrap()).thread_block().unwrap();
            let _ = end_by(number);
        };
        assert_eq!(
            status_of(end, |_| ()),
            Status { code: 128 + number, signal: Some(number), dumped: false }
        );
    }
}

const ALL: [i32; 6] = [HUP, INT, TERM, CHLD, CONT, TSTP];

#[test]
fn signals_come_by_a_file() {
    let said = said_by(|| {
        for number in ALL {
            set_handler(Signal::try_from(number).unwrap(), SigHandler::SigDfl);
        }
        let signals = Signals::open().unwrap();
        let open = dispositions(&ALL);
        assert_eq!((signals.next(), wait_for(&[signals.file()], 0)), (None, vec![false]));
        [TERM, TSTP, HUP, INT].into_iter().for_each(send_self);
        assert_eq!(wait_for(&[signals.file()], 0), [true]);
        let mut come: Vec<i32> = std::iter::from_fn(|| signals.next()).collect();
        come.sort_unstable();
        assert_eq!(come, [HUP, INT, TERM, TSTP]);
        drop(signals);
        format!("{open}, {}", dispositions(&ALL))
    });
    assert_eq!(said, "1B 2B 15B 17B 18 20BI , 1 2 15 17 18 20 ");
}

#[test]
fn signals_that_cannot_be_read_take_a_moment() {
    in_own_process(|| {
        let unreadable = File::options().write(true).open("/dev/null").unwrap();
        let begun = Instant::now();
        assert!(next_of(unreadable.as_fd()).is_none() && begun.elapsed() >= Duration::from_millis(1));
    });
}

#[test]
fn what_the_caller_ignores_stays_ignored() {
    let said = said_by(|| {
        for number in ALL {
            ignore(number);
        }
        let signals = Signals::open().unwrap();
        let open = dispositions(&ALL);
        drop(signals);
        format!("{open}, {}", dispositions(&ALL))
    });
    // What has children can't ignore their ends.
    assert_eq!(said, "1I 2I 15I 17B 18I 20I , 1I 2I 15I 17 18I 20I ");
}

/// Whether a process is stopped, as the kernel says.
fn is_stopped(process: i32) -> bool {
    let text = fs::read_to_string(format!("/proc/{process}/stat")).unwrap_or_default();
    text.rsplit(") ").next().is_some_and(|rest| rest.starts_with('T'))
}

#[test]
fn a_process_stops_until_it_is_continued() {
    // Where nobody could continue it, as in a group whose shell is gone, the kernel doesn't stop it.
    let stop = || {
        let signals = Signals::open().unwrap();
        send_self(TSTP);
        assert_eq!(signals.next(), Some(TSTP));
        Signals::stop();
        assert_eq!((dispositions(&[TSTP]).as_str(), signals.next()), ("20BI ", None));
    };
    // (a CONT before that would take the TSTP away which waits)
    let goes_on = |process| {
        if is_stopped(process) {
            signal_process(process, CONT);
        }
    };
    assert!(status_of(stop, goes_on).succeeded());
}

#[test]
fn a_process_goes_on_if_it_was_continued_before_it_stops() {
    in_own_process(|| {
        rustix::process::setpgid(None, None).unwrap();
        let signals = Signals::open().unwrap();
        send_self(TSTP);
        assert_eq!(signals.next(), Some(TSTP));
        send_self(CONT);
        Signals::stop();
        assert_eq!(dispositions(&[TSTP]), "20BI ");
    });
}

/// A script in a folder.
fn script(scratch: &Scratch, text: &str) -> CString {
    let path = scratch.0.join("script");
    fs::write(&path, text).unwrap();
    fs::set_permissions(&path, std::os::unix::fs::PermissionsExt::from_mode(0o755)).unwrap();
    CString::new(path.to_str().unwrap()).unwrap()
}

fn image(program: &CStr, words: &[&str], folder: Option<&str>) -> Image<'static> {
    let text = |word: &&str| CString::new(*word).unwrap();
    Image::new(
        program.to_owned(),
        words.iter().map(text).collect(),
        vec![Cow::Borrowed(c"A=b")],
        folder.as_ref().map(text),
    )
}

/// What a started program prints, and its status.
fn started(image: &Image<'_>) -> (String, i32) {
    let (out, errors) = (memory_file().unwrap(), memory_file().unwrap());
    let mut status = 0;
    let said = said_by(|| {
        let signals = Signals::open().unwrap();
        let null = File::open("/dev/null").unwrap();
        let group = &SharedPage::new().unwrap().numbers[0];
        let streams = [null.as_fd(), out.as_fd(), errors.as_fd()];
        let child = image.start(streams, None, &signals, group, c"it cannot run\n").unwrap();
        assert_eq!(group.load(Ordering::SeqCst), child);
        loop {
            wait_for(&[signals.file()], 20_000);
            if let Some(status) = end_of(child).unwrap() {
                return status.code.to_string();
            }
        }
    });
    status += said.parse::<i32>().unwrap();
    let text = |file: &File| String::from_utf8(content(file).unwrap()).unwrap();
    (format!("{}{}", text(&out), text(&errors)), status)
}

#[test]
fn a_program_gets_words_variables_streams_and_a_folder() {
    let scratch = Scratch::new();
    let folder = fs::canonicalize(&scratch.0).unwrap();
    let says = "echo \"$1 $2 $A\"; read line; pwd -P; ps=$(cut -d ' ' -f 5 /proc/$$/stat); [ $ps = $$ ] || echo group; echo err >&2; exit 7";
    let wanted = format!("one two b\n{}\nerr\n", folder.display());
    for begin in ["#!/bin/sh\n", "\n"] {
        let program = script(&scratch, &format!("{begin}PATH=/usr/bin:/bin\n{says}\n"));
        let image = image(&program, &["script", "one", "two"], scratch.0.to_str());
        assert_eq!(started(&image), (wanted.clone(), 7), "{begin}");
    }
    let program = script(&scratch, "#!/missing/interpreter\n");
    assert_eq!(started(&image(&program, &["script"], None)), ("it cannot run\n".into(), 127));
    let program = script(&scratch, "#!/bin/sh\n");
    assert_eq!(started(&image(&program, &["script"], Some("/missing"))), ("it cannot run\n".into(), 127));
}

#[test]
fn a_process_becomes_a_program() {
    let scratch = Scratch::new();
    let out = memory_file().unwrap();
    for begin in ["#!/bin/sh\n", "\n"] {
        let program = script(&scratch, &format!("{begin}echo \"$1 $2 $A\"; exit 7\n"));
        let become_it = || {
            copy_to(&out, 1);
            drop(image(&program, &["script", "one", "two"], None).become_it());
        };
        assert_eq!(status_of(become_it, |_| ()).code, 7, "{begin}");
    }
    assert_eq!(content(&out).unwrap(), b"one two b\none two b\n");
    assert_eq!(image(c"/missing/program", &["x"], None).become_it().kind(), io::ErrorKind::NotFound);
}

#[test]
fn closed_standard_streams_become_the_null_device() {
    for closed in [vec![], vec![0], vec![1], vec![2], vec![0, 1, 2]] {
        // So the number 3, which is taken below, isn't that of a file that the test needs.
        let _taken: Vec<File> = iter::repeat_with(|| File::open("/dev/null").unwrap())
            .take_while(|file| file.as_raw_fd() <= 3)
            .collect();
        let (_read, write) = pipe().unwrap();
        let said = said_by(|| {
            (0..3).for_each(|number| copy_to(&write, number));
            // Nobody says that the next file is closed.
            copy_to(io::stdin(), 3);
            closed.iter().copied().chain([3]).for_each(close);
            open_standard_streams();
            assert!(fs::read_link("/proc/self/fd/3").is_err(), "it isn't a standard stream");
            let is_null = |number: &i32| {
                fs::read_link(format!("/proc/self/fd/{number}")).unwrap().to_str() == Some("/dev/null")
            };
            let flags =
                |number: i32| number_in(&format!("/proc/self/fdinfo/{number}"), "flags:", 8) & (CLOSES | 3);
            let nulls: Vec<i32> = (0..3).filter(is_null).collect();
            assert!(
                nulls.iter().all(|&number| flags(number) == CLOSES | 2),
                "read, written and not handed on"
            );
            format!("{nulls:?}")
        });
        assert_eq!(said, format!("{closed:?}"));
    }
}

#[test]
fn a_process_apart_leaves_its_streams_and_files() {
    in_own_process(|| {
        let (read, write) = pipe().unwrap();
        (0..3).for_each(|number| copy_to(&read, number));
        let (said, kept) = (memory_file().unwrap(), read.as_raw_fd());
        let target = |number: i32| fs::read_link(format!("/proc/self/fd/{number}")).unwrap();
        let apart = || {
            let is_null = |number: i32| target(number).to_str() == Some("/dev/null");
            let group = rustix::process::getpgid(None).unwrap().as_raw_nonzero().get() == process();
            let text = format!("{:?} {group}", [0, 1, 2, write.as_raw_fd(), kept].map(is_null));
            (&said).write_all(text.as_bytes()).unwrap();
        };
        wait_for_child(fork_apart(&[write.as_fd()], apart).unwrap());
        assert_eq!(content(&said).unwrap(), b"[true, true, true, true, false] true");
        assert_eq!(
            [0, write.as_raw_fd()].map(|number| target(number).to_str() == Some("/dev/null")),
            [false; 2],
            "it keeps its own"
        );
    });
}

#[test]
fn a_forked_process_that_panics_undoes_nothing() {
    in_own_process(|| {
        let folder = TestFolder::new();
        let path = folder.to_path_buf();
        std::panic::set_hook(Box::new(|_| ()));
        let child = fork_to(|| panic!("as a test")).unwrap();
        let status = iter::repeat_with(|| end_of(child).unwrap()).find_map(|status| status).unwrap();
        assert_eq!((status.code, path.exists()), (101, true));
    });
}

#[test]
fn the_machine_is_as_the_kernel_says() {
    assert_eq!(processors(), number_in("/proc/self/status", "Cpus_allowed:", 16).count_ones() as usize);
    assert_eq!(
        (process().unsigned_abs(), user()),
        (std::process::id(), fs::metadata("/proc/self").unwrap().uid())
    );
    let most = usize::try_from(number_in("/proc/self/limits", "Max open files", 10)).unwrap();
    // Other tests open some files meanwhile.
    assert!((most.saturating_sub(900)..most).contains(&spare_files()), "{} of {most}", spare_files());
}

#[test]
fn programs_get_no_file_of_this_process() {
    let scratch = Scratch::new();
    make_pipe(scratch.1.as_fd(), "pipe").unwrap();
    let (read, write) = pipe().unwrap();
    let (owner, program) = terminal().unwrap();
    let both = open(&scratch.0.join("pipe"), Access::PIPE).unwrap();
    let files = [read, write, program, memory_file().unwrap().into(), owner.into(), both.into()];
    assert_eq!(files.each_ref().map(is_inherited), [false; 6]);
    let (read, write) = small_pipe().unwrap();
    let file = open(&scratch.0.join("new"), Access::NEW).unwrap();
    assert_eq!([is_inherited(&read), is_inherited(&write), is_inherited(&file)], [false; 3]);
    let kinds = [Access::KEPT, Access::PIPE, Access::PIPE_TO_WRITE]
        .map(|how| is_inherited(&scratch.open("pipe", how).unwrap()));
    assert_eq!((kinds, is_inherited(&scratch.open(".", Access::FOLDER).unwrap())), ([false; 3], false));
}

#[test]
fn a_file_is_opened_by_its_path() {
    let scratch = Scratch::new();
    let path = scratch.0.join("file");
    let text = || fs::read_to_string(&path).unwrap();
    assert!(
        [Access::READ, Access::BOTH]
            .iter()
            .all(|&how| open(&path, how).unwrap_err().kind() == io::ErrorKind::NotFound)
    );
    open(&path, Access::NEW).unwrap().write_all(b"first").unwrap();
    assert_eq!(open(&path, Access::NEW).unwrap_err().kind(), io::ErrorKind::AlreadyExists);
    open(&path, Access::BOTH).unwrap().write_all(b"F").unwrap();
    open(&path, Access::APPEND).unwrap().write_all(b"!").unwrap();
    assert_eq!(text(), "First!");
    assert!(open(&path, Access::READ).unwrap().write(b"x").is_err());
    open(&path, Access::WRITE).unwrap().write_all(b"new").unwrap();
    assert_eq!(text(), "new");
    assert!(open(Path::new("a\0b"), Access::WRITE).is_err());
}

#[test]
fn a_small_pipe_takes_a_part_once_it_is_empty() {
    let (read, write) = small_pipe().unwrap();
    let [mut reader, mut writer] = [read, write].map(File::from);
    let left = |writer: &File| unread(writer.as_fd()).unwrap();
    for size in [1, 100, SMALL_PIPE] {
        assert_eq!((left(&writer), wait_for_streams(&[(writer.as_fd(), true)], 0)), (0, vec![[false, true]]));
        assert_eq!(writer.write(&vec![7; size]).unwrap(), size);
        assert_eq!(
            (left(&writer), wait_for_streams(&[(writer.as_fd(), true)], 0)),
            (size, vec![[false, false]])
        );
        reader.read_exact(&mut vec![0; size]).unwrap();
    }
    assert!(unread(File::open("/dev/null").unwrap().as_fd()).is_err());
}

#[test]
fn no_link_is_followed_below_a_folder() {
    let scratch = Scratch::new();
    fs::create_dir(scratch.0.join("folder")).unwrap();
    fs::write(scratch.0.join("file"), "text").unwrap();
    symlink("folder", scratch.0.join("to-folder")).unwrap();
    symlink("file", scratch.0.join("to-file")).unwrap();
    assert!(scratch.open("folder", Access::FOLDER).is_ok() && scratch.open("file", Access::KEPT).is_ok());
    for (name, how) in [
        ("to-folder", Access::FOLDER),
        ("file", Access::FOLDER),
        ("to-file", Access::KEPT),
        ("to-file", Access::PIPE),
    ] {
        assert!(scratch.open(name, how).is_err(), "{name}");
    }
    assert!(
        scratch.open("missing", Access::FOLDER).is_err()
            && scratch.open("missing", Access::PIPE).is_err()
            && scratch.open("a\0b", Access::KEPT).is_err()
    );
}

#[test]
fn some_file_systems_have_no_programs() {
    let mounts = fs::read_to_string("/proc/self/mounts").unwrap();
    let proc = mounts.lines().rev().find(|mount| mount.split(' ').nth(1) == Some("/proc")).unwrap();
    assert_eq!(may_run(Path::new("/proc")), !proc.contains("noexec"));
    assert!(may_run(Path::new("/bin")) && !may_run(Path::new("/missing")));
}

#[test]
fn what_is_made_is_the_users_alone() {
    let scratch = Scratch::new();
    make_folder(scratch.1.as_fd(), "folder").unwrap();
    make_pipe(scratch.1.as_fd(), "pipe").unwrap();
    let mut kept = scratch.open("kept", Access::KEPT).unwrap();
    kept.write_all(b"text").unwrap();
    let modes =
        ["folder", "pipe", "kept"].map(|name| fs::metadata(scratch.0.join(name)).unwrap().mode() & 0o7777);
    assert_eq!(modes, [0o700, 0o600, 0o600]);
    assert!(fs::metadata(scratch.0.join("pipe")).unwrap().file_type().is_fifo());
    assert!(
        make_folder(scratch.1.as_fd(), "folder").is_err() && make_pipe(scratch.1.as_fd(), "pipe").is_err()
    );
    assert_eq!(fs::read_to_string(scratch.0.join("kept")).unwrap(), "text");
    remove_below(scratch.1.as_fd(), "kept").unwrap();
    assert!(!scratch.0.join("kept").exists() && remove_below(scratch.1.as_fd(), "kept").is_err());
}

#[test]
fn a_named_pipe_is_opened_without_waiting() {
    let scratch = Scratch::new();
    make_pipe(scratch.1.as_fd(), "pipe").unwrap();
    assert!(scratch.open("pipe", Access::PIPE_TO_WRITE).is_err(), "nobody reads it");
    let path = scratch.0.join("pipe");
    assert!(open(&path, Access::PIPE_TO_WRITE).is_err(), "nobody reads it");
    let read = open(&path, Access::PIPE_TO_READ).unwrap();
    let place = AtomicU8::new(7);
    assert!(
        read_byte(read.as_fd()).is_none()
            && !read_into(read.as_fd(), &place)
            && place.load(Ordering::SeqCst) == 7
    );
    assert!(write_byte(scratch.open("pipe", Access::PIPE_TO_WRITE).unwrap().as_fd(), b'a'));
    assert!(write_byte(open(&path, Access::PIPE_TO_WRITE).unwrap().as_fd(), b'b'));
    let both = [scratch.open("pipe", Access::PIPE).unwrap(), open(&path, Access::PIPE).unwrap()];
    assert!(both.iter().all(|pipe| write_byte(pipe.as_fd(), b'c')));
    assert!(read_into(read.as_fd(), &place) && place.load(Ordering::SeqCst) == b'a');
    let bytes: Vec<u8> = iter::from_fn(|| read_byte(both[1].as_fd())).collect();
    assert_eq!(bytes, b"bcc");
}

#[test]
fn one_open_file_has_a_lock() {
    let scratch = Scratch::new();
    let [one, other] = [(); 2].map(|()| scratch.open("lock", Access::KEPT).unwrap());
    assert_eq!([&one, &one, &other].map(|file| try_lock(file.as_fd()).unwrap()), [true, true, false]);
    drop(one);
    assert!(try_lock(other.as_fd()).unwrap());
}

#[test]
fn the_files_that_can_be_read_are_said() {
    let [(first, _first_end), (second, second_end)] = [(); 2].map(|()| pipe().unwrap());
    let files = [first.as_fd(), second.as_fd()];
    let begun = Instant::now();
    assert_eq!(wait_for(&files, 30), [false, false]);
    assert!(begun.elapsed() >= Duration::from_millis(30));
    assert!(write_byte(second_end.as_fd(), b'a'));
    assert_eq!(wait_for(&files, -1), [false, true]);
    assert_eq!(wait_for(&files[..1], 0), [false]);
}

#[test]
fn streams_are_waited_for_both_ways() {
    let (read, write) = pipe().unwrap();
    let files = |writes| [(read.as_fd(), false), (write.as_fd(), writes)];
    assert_eq!(wait_for_streams(&files(false), 0), [[false, false]; 2]);
    assert_eq!(wait_for_streams(&files(true), -1), [[false, false], [false, true]]);
    assert!(write_byte(write.as_fd(), b'a'));
    assert_eq!(wait_for_streams(&files(false), -1), [[true, false], [false, false]]);
    drop(read);
    assert_eq!(wait_for_streams(&[(write.as_fd(), false)], -1), [[true, false]], "its reader is gone");
}

#[test]
fn a_stream_that_takes_more_is_not_waited_for() {
    let (read, write) = pipe().unwrap();
    let begun = Instant::now();
    wait_to_write(write.as_fd(), 20_000);
    assert!(begun.elapsed() < Duration::from_secs(10), "it takes more");
    set_unblocked(write.as_fd()).unwrap();
    set_unblocked(read.as_fd()).unwrap();
    while write_byte(write.as_fd(), b'a') {}
    let begun = Instant::now();
    wait_to_write(write.as_fd(), 30);
    assert!(begun.elapsed() >= Duration::from_millis(30), "it is full");
    while read_byte(read.as_fd()).is_some() {}
}

#[test]
fn a_pipe_ends_with_its_last_writer() {
    let (read, write) = pipe().unwrap();
    let waiter = std::thread::spawn(move || wait_for_end(read.as_fd()));
    sleep(Duration::from_millis(30));
    assert!(!waiter.is_finished());
    assert!(write_byte(write.as_fd(), b'a'));
    sleep(Duration::from_millis(30));
    assert!(!waiter.is_finished());
    drop(write);
    waiter.join().unwrap();
    wait_for_end(File::options().write(true).open("/dev/null").unwrap().as_fd());
}

#[test]
fn a_group_is_there_or_not() {
    assert!(signal_group(process(), 0), "a process without a group of its number");
    assert!(!signal_group(i32::MAX, 0));
}

#[test]
fn a_terminal_hands_over_lines_as_they_are() {
    let (mut owner, program) = terminal().unwrap();
    File::from(program.try_clone().unwrap()).write_all(b"a\nb\n").unwrap();
    assert!(io::IsTerminal::is_terminal(&program));
    wait_for(&[owner.as_fd()], 10_000);
    let mut text = [0; 64];
    let size = owner.read(&mut text).unwrap();
    assert_eq!(&text[..size], b"a\nb\n");
    assert_eq!(owner.read(&mut text).unwrap_err().kind(), io::ErrorKind::WouldBlock);
}

#[test]
fn names_that_come_into_a_folder_are_heard_of() {
    let room = TestFolder::new();
    let folder = room.join("watched");
    fs::create_dir(&folder).unwrap();
    fs::write(folder.join("old"), "").unwrap();
    let mut watch = Watch::new(&folder).unwrap();
    assert_eq!(watch.come().map(BTreeSet::len), Some(0));
    fs::write(folder.join("old"), "more").unwrap();
    for number in 0..200 {
        fs::write(folder.join(format!("gone {number}")), "").unwrap();
        fs::remove_file(folder.join(format!("gone {number}"))).unwrap();
    }
    fs::rename(folder.join("old"), room.join("away")).unwrap();
    fs::rename(room.join("away"), folder.join("back")).unwrap();
    fs::create_dir(folder.join("folder")).unwrap();
    fs::write(folder.join("folder/deep"), "").unwrap();
    let come = watch.come().unwrap();
    let has = |name: &str| come.contains(OsStr::new(name));
    assert_eq!(
        (come.len(), has("gone 0"), has("gone 199"), has("back"), has("folder")),
        (202, true, true, true, true)
    );
    fs::rename(&folder, room.join("other")).unwrap();
    assert!(watch.come().is_none() && watch.come().is_none(), "another folder may have the name");
    assert!(Watch::new(&folder).is_err());
}
