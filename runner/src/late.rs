//! Begins a call's last host compile before its fatbin is there: gcc makes assembler text beside device
//! commands, and the assembler waits.
use crate::run::{self, NoRule, Stopped};
use early_starts::{Split, placeholder};
use machine::folder::OWN;
use machine::head_start::HeadStart;
use machine::jobs::Machine;
use machine::planned::PlannedCommand;
use machine::settings::{Settings, own_variable};
use machine::streams::write_file;
use machine::task::{Done, Include, Task, included};
use rattle_std::alloc::Global;
use std::fs;
use std::path::PathBuf;
use std::slice;

/// A variable by which gcc compiles twice and compares, so that a compile can't be cut in two.
const ODD_VARIABLE: &str = "GCC_COMPARE_DEBUG";

/// Whether a call's commands may be begun so. A launcher and a runner get the plan's own.
pub fn is_on(settings: &Settings) -> bool {
    !settings.waits.for_fatbin
        && own_variable(ODD_VARIABLE).is_none()
        && settings.launcher.is_empty()
        && settings.runs_here()
}

/// A call's last host compile in two halves.
#[derive(Clone, PartialEq, Eq, Debug, Default)]
pub struct Halves {
    /// What the assembler's half includes.
    pub include: Include,
    /// The compile as nvcc makes it.
    pub whole: PlannedCommand,
    /// The file that the whole compile reads, in which the compiler's half finds a placeholder.
    fatbin: PathBuf,
}

impl Halves {
    /// The halves of a call's last host compile, given it whole, once the file is there in which the
    /// compiler's half finds a placeholder. `None` if it can't be written.
    pub fn of(split: &Split, whole: PlannedCommand, tmp: &str) -> Option<Halves> {
        let own = |name: &str| PathBuf::from(format!("{tmp}/{OWN}/{name}"));
        let include = Include { from: own("fatbin.c"), to: included(tmp).into(), is_linked: split.is_linked };
        let text = placeholder(Global, split.is_linked, &included(tmp)).ok()??;
        write_file(split.read.as_str(), text.as_bytes()).ok()?;
        Some(Halves { include, whole, fatbin: split.read.as_str().into() })
    }

    /// Puts the files in place that the whole compile reads, after this task has made the compiler's half.
    /// Errors: why nvcc makes the call.
    fn put_files(&self, compile: &Task) -> Result<(), String> {
        fs::rename(&self.include.from, &self.fatbin).map_err(|_| "fatbinary's file is missing")?;
        compile.head_start.as_ref().map_or(Ok(()), HeadStart::write)
    }

    /// Makes the whole compile, a task, if the assembler's half of these tasks failed or said something: it
    /// names files that nvcc's doesn't, and gcc says more of a whole compile that fails. Says whether it did.
    /// Then the compile has ended in place of its halves.
    /// Errors: a signal, or why nvcc makes the call.
    pub fn make_whole<M: Machine>(
        &self,
        machine: &mut M,
        whole: &Task,
        tasks: &[Task],
        done: &mut [Done],
    ) -> Result<bool, Stopped> {
        let ([.., compile, _], true) = (tasks, went_wrong(done)) else { return Ok(false) };
        self.put_files(compile).map_err(Stopped::NoProcess)?;
        let made = run::run(machine, &mut NoRule, slice::from_ref(whole), 1)?.pop();
        if let [.., compile, assemble] = done {
            // (not said twice, since what the compiler's half said the whole compile says too)
            compile
                .ended
                .iter_mut()
                .for_each(|ended| [&mut ended.out, &mut ended.errors].into_iter().for_each(Vec::clear));
            assemble.ended = made.and_then(|made| made.ended);
        }
        Ok(true)
    }
}

/// Whether the last of a call's commands, an assembler's, failed or said something.
fn went_wrong(done: &[Done]) -> bool {
    let ended = done.last().and_then(|done| done.ended.as_ref());
    ended.is_some_and(|ended| !ended.is_silent_success())
}

#[cfg(test)]
mod tests {
    use super::*;
    use crate::system::Status;
    use crate::test_folder::TestFolder;
    use compilers::plans::NvccGeneratedSubcommand;
    use machine::head_start::Wait;
    use machine::jobs::Ended;
    use std::fs;
    use std::path::Path;

    #[test]
    fn the_placeholder_is_there_before_the_halves_run() {
        let folder = TestFolder::new();
        fs::create_dir_all(folder.join(OWN)).unwrap();
        let place = folder.to_str().unwrap();
        let (own, read) = (|name: &str| format!("{place}/{OWN}/{name}"), folder.join("k.fatbin.c"));
        for (is_linked, section) in [(false, ".nv_fatbin"), (true, "__nv_relfatbin")] {
            let halves = Halves::of(&split(is_linked, &read), PlannedCommand::default(), place).unwrap();
            assert_eq!(halves.fatbin, read);
            let include = halves.include;
            assert_eq!(
                (include.from.to_str(), include.to.to_str()),
                (Some(own("fatbin.c").as_str()), Some(own("fatbin.s").as_str()))
            );
            let placeholder = fs::read_to_string(&read).unwrap();
            assert!(placeholder.contains(&own("fatbin.s")) && placeholder.contains(section), "{placeholder}");
            assert!(include.write().is_err(), "fatbinary's file is missing");
            let text = placeholder.replace(&format!(".include \\\"{}\\\"\\n", own("fatbin.s")), ".text\\n");
            fs::write(&include.from, &text).unwrap();
            assert_eq!(include.write(), Ok(()), "{text}");
            assert_eq!(fs::read_to_string(&include.to).unwrap(), ".text\n");
            fs::remove_file(&include.from).unwrap();
        }
        let missing = split(false, Path::new("/missing/k.fatbin.c"));
        assert_eq!(Halves::of(&missing, PlannedCommand::default(), place), None, "it can't be written");
    }

    #[test]
    fn the_whole_compile_finds_its_files() {
        let folder = TestFolder::new();
        let [from, fatbin, stub, withheld] =
            ["own.fatbin.c", "k.fatbin.c", "k.stub.c", "own.stub.c"].map(|name| folder.join(name));
        let halves = Halves {
            include: Include { from: from.clone(), ..Include::default() },
            fatbin: fatbin.clone(),
            ..Halves::default()
        };
        let start = HeadStart { file: stub.clone(), withheld: withheld.clone(), ..HeadStart::default() };
        let late = HeadStart { wait: Wait::Reading, ..start };
        let compile = Task { head_start: Some(late), ..Task::default() };
        assert_eq!(halves.put_files(&compile), Err("fatbinary's file is missing".into()));
        fs::write(&from, "fatbin").unwrap();
        fs::write(&fatbin, "placeholder").unwrap();
        fs::write(&stub, "stub").unwrap();
        std::os::unix::fs::symlink("/dev/null", &withheld).unwrap();
        assert_eq!(halves.put_files(&compile), Ok(()));
        assert_eq!(
            [&fatbin, &withheld].map(|path| fs::read(path).unwrap()),
            [b"fatbin".to_vec(), b"stub".to_vec()]
        );
        assert!(!from.exists() && !withheld.is_symlink());
    }

    /// A split whose compiler's half reads this placeholder.
    fn split(is_linked: bool, read: &Path) -> Split {
        let held = |text: &str| texts::text::Text::new(machine::proved::text(text).unwrap());
        let command = || NvccGeneratedSubcommand {
            exe: held("gcc"),
            args: texts::words::Words::new(Global),
            cwd: held("/"),
            env_vars: texts::variables::Variables::new(Global),
            cacheable: compilers::command::Cacheable::No,
        };
        Split {
            fatbinary: command(),
            compiler: command(),
            assembler: command(),
            read: held(read.to_str().unwrap()),
            stub: held("/t/k.cudafe1.stub.c"),
            is_linked,
        }
    }

    #[test]
    fn an_assembler_that_speaks_went_wrong() {
        let ended = |code, errors: &str| {
            let status = Status { code, signal: None, dumped: false };
            let ended = Ended { status, out: Vec::new(), errors: errors.into(), times: (0.0, 0.0) };
            vec![Done { ended: Some(ended), ..Done::default() }]
        };
        let cases = [ended(0, ""), ended(0, "Warning"), ended(1, ""), vec![Done::default()]];
        assert_eq!(cases.map(|done| went_wrong(&done)), [false, true, true, false]);
    }
}
