//! The dry runs of a call: how they are made, and what nvcc says in them.
use crate::error::reason::Reason;
use crate::error::{Error, Unfit};
use crate::memory::{OutOfMemory, copied_bytes, listed};
use crate::outline::{Outline, Run};
use crate::pairs::check_pair;
use dry_run_pairs::{
    Comparison, agree, fails_by_threads, prints_to_files, remarks_in, runs_devices_first, with_commands,
    without_folder,
};
use dry_runs::is_dry_run;
use rattle_std::alloc::{AllocError, Global};
use rattle_std::vec::Vec as List;
use std::slice;

/// What a dry run was, once it has ended.
#[derive(Clone, Debug, PartialEq, Eq, Default)]
pub struct Ran {
    /// Whether its status is 0.
    pub succeeded: bool,
    /// What it printed on standard error.
    pub errors: Vec<u8>,
}

/// Starts dry runs of nvcc.
pub trait Nvcc {
    /// Why a dry run has no end.
    type Stop: From<Error>;

    /// Runs these side by side, and says how each ended, in their order. Each gets the call's environment
    /// without [`FLAG_VARIABLES`](crate::FLAG_VARIABLES).
    ///
    /// # Errors
    ///
    /// Why one couldn't be started, or didn't come to its end.
    fn run(&mut self, runs: &[Run]) -> Result<Vec<Ran>, Self::Stop>;
}

/// What nvcc says of a call.
#[derive(Clone, Debug, PartialEq, Eq, Default)]
pub struct DryRuns {
    own: Vec<u8>,
    first: Vec<u8>,
    second: Vec<u8>,
    has_threads: bool,
}

/// Where a call is made, as its dry runs show.
#[derive(Clone, Copy)]
pub(crate) struct Places<'a> {
    pub cwd: &'a str,
    pub tmp: &'a str,
    pub outline: &'a Outline,
}

fn bytes(given: Result<List<u8>, AllocError>) -> Result<Vec<u8>, OutOfMemory> {
    copied_bytes(&given?)
}

/// What a dry run printed.
fn printed(run: Ran) -> Result<Vec<u8>, Error> {
    if run.succeeded { Ok(run.errors) } else { Err(Error::by_nvcc(run.errors)) }
}

/// Runs one alone.
fn one<N: Nvcc>(nvcc: &mut N, run: &Run) -> Result<Ran, N::Stop> {
    nvcc.run(slice::from_ref(run))?.pop().ok_or_else(|| Error::to_nvcc(Reason::NoDryRunProcess).into())
}

/// The line's own dry run as for one thread, if it failed for several: what it said of the line, and the
/// commands of another.
fn for_one_thread<N: Nvcc>(nvcc: &mut N, run: &Run, failed: Ran) -> Result<Vec<u8>, N::Stop> {
    if failed.succeeded || !fails_by_threads(&failed.errors) {
        return Ok(printed(failed)?);
    }
    let again = printed(one(nvcc, &run.with(&["--threads", "1"]).map_err(Error::from)?)?)?;
    Ok(bytes(with_commands(Global, &failed.errors, &again)).map_err(Error::from)?)
}

impl Places<'_> {
    /// Whether the dry run of the line as it is has the commands of a plan's.
    fn agree(&self, own: &[u8], commands: &[u8]) -> Result<bool, Error> {
        let keep_dir = self.outline.keep_dir.as_deref().unwrap_or_default();
        let places = Comparison { cwd: self.cwd, keep_dir, writes_rule: self.outline.dependencies.is_some() };
        Ok(agree(Global, &places, own, commands)?)
    }
}

impl DryRuns {
    /// Dry runs that nvcc printed before: of the line as it is, and the two that are planned.
    #[must_use]
    pub fn new(own: Vec<u8>, first: Vec<u8>, second: Vec<u8>) -> DryRuns {
        let has_threads = prints_to_files(&own);
        DryRuns { own, first, second, has_threads }
    }

    /// Makes the dry runs of a call. The first is what the second says without the call's directory, and nvcc
    /// makes it only if that doesn't have the commands of the line, or if the call keeps files. So it doesn't
    /// matter which options this nvcc has, and what they mean to it.
    pub(crate) fn make<N: Nvcc>(nvcc: &mut N, places: &Places<'_>) -> Result<DryRuns, N::Stop> {
        let outline = places.outline;
        let runs = [&outline.own_dry_run, &outline.second_dry_run, &outline.first_dry_run];
        let runs: Vec<Run> = listed(runs.iter().map(|run| run.with(&[]))).map_err(Error::from)?;
        let keeps = outline.keep_dir.is_some();
        let mut ran = nvcc.run(if keeps { &runs } else { &runs[..2] })?.into_iter();
        let (Some(own), Some(second), first) = (ran.next(), ran.next(), ran.next()) else {
            return Err(Error::to_nvcc(Reason::NoDryRunProcess).into());
        };
        let has_threads = prints_to_files(&own.errors) || fails_by_threads(&own.errors);
        let own = for_one_thread(nvcc, &outline.own_dry_run, own)?;
        let second = printed(second)?;
        let mut first = match first {
            Some(first) => printed(first)?,
            None => bytes(without_folder(Global, &second, places.tmp)).map_err(Error::from)?,
        };
        let mut is_agreed = places.agree(&own, &first)?;
        if !is_agreed && !keeps {
            first = printed(one(nvcc, &outline.first_dry_run)?)?;
            is_agreed = places.agree(&own, &first)?;
        }
        if is_agreed {
            Ok(DryRuns { own, first, second, has_threads })
        } else {
            Err(Error::to_nvcc(Reason::ReadOtherwise).into())
        }
    }

    /// Refuses dry runs of which the two that are planned aren't one call's.
    pub(crate) fn check_pair(&self, tmp: &str) -> Result<(), Error> {
        for (run, text) in [(1, &self.first), (2, &self.second)] {
            if !is_dry_run(text) {
                return Err(Error::no_dry_run(Unfit::NoDryRun(run)).at_line(run, 0));
            }
        }
        check_pair(&self.first, &self.second, tmp)
    }

    /// Whether the line's own has the commands of those that are planned.
    pub(crate) fn are_of_line(&self, places: &Places<'_>) -> Result<bool, Error> {
        places.agree(&self.own, &self.first)
    }

    /// That of the line as it is.
    #[must_use]
    pub fn own(&self) -> &[u8] {
        &self.own
    }

    /// The first that is planned.
    #[must_use]
    pub fn first(&self) -> &[u8] {
        &self.first
    }

    /// The second that is planned.
    #[must_use]
    pub fn second(&self) -> &[u8] {
        &self.second
    }

    /// Whether nvcc would run the line's commands side by side.
    #[must_use]
    pub fn has_threads(&self) -> bool {
        self.has_threads
    }

    /// Whether nvcc runs a device's cicc before cudafe++, as it does before version 12.
    #[must_use]
    pub fn runs_devices_first(&self) -> bool {
        runs_devices_first(&self.first)
    }

    /// nvcc's warnings of the line.
    ///
    /// # Errors
    ///
    /// [`ErrorKind::OutOfMemory`](crate::ErrorKind).
    pub fn messages(&self) -> Result<Vec<u8>, Error> {
        Ok(bytes(remarks_in(Global, &self.own))?)
    }

    /// What is in front of the stub file's name, as nvcc gives it to cicc, which writes the file. cudafe++,
    /// which only names it, gets another.
    #[must_use]
    pub fn stub_folder(&self) -> Option<&str> {
        let is_cicc =
            |line: &&str| line.starts_with("#$ cicc ") || line.starts_with("#$ \"$CICC_PATH/cicc\" ");
        let (_, rest) =
            std::str::from_utf8(&self.own).ok()?.lines().rfind(is_cicc)?.split_once("--stub_file_name \"")?;
        let (name, _) = rest.split_once('"')?;
        Some(name.rfind('/').map_or("", |slash| &name[..=slash]))
    }
}

#[cfg(test)]
mod tests {
    use super::*;
    use crate::error::ErrorKind;
    use crate::nvcc_line::NvccLine;

    const COMMANDS: &str = "#$ cicc \"k.ii\" -o \"k.ptx\"\n";
    const OTHERS: &str = "#$ cicc \"k.ii\" -o \"other.ptx\"\n";
    /// What an nvcc before 13 says with `--threads`.
    const THREADS: &str = "Could not open input file /t/x_stdout\n";

    /// An nvcc that prints these texts, one for each of its calls, and succeeds or not.
    struct Fake<'a> {
        says: std::slice::Iter<'a, (bool, &'a str)>,
        asked: Vec<String>,
    }

    impl Nvcc for Fake<'_> {
        type Stop = Error;

        fn run(&mut self, runs: &[Run]) -> Result<Vec<Ran>, Error> {
            self.asked.extend(runs.iter().map(|run| run.words().join(" ")));
            let said = self.says.by_ref().take(runs.len());
            Ok(said.map(|&(succeeded, text)| Ran { succeeded, errors: text.into() }).collect())
        }
    }

    fn outline(keep_dir: Option<&str>) -> Outline {
        let words = ["-c", "k.cu", "-o", "k.o"].map(String::from).to_vec();
        let line = NvccLine { cwd: "/w".into(), nvcc: "nvcc".into(), words, variables: Vec::new() };
        Outline { keep_dir: keep_dir.map(String::from), ..line.read("/t").unwrap() }
    }

    const OWN: &str = "nvcc --dryrun -c k.cu -o k.o";
    const FIRST: &str = "nvcc -x cu -o k.o -c k.cu --dryrun --keep";
    const SECOND: &str = "nvcc -x cu -o k.o -c k.cu --keep-dir /t --dryrun --keep";

    /// What comes of a line whose nvcc prints these texts, and the words of nvcc's calls.
    fn made(says: &[(bool, &str)], keep_dir: Option<&str>) -> (Result<DryRuns, Error>, String) {
        let mut nvcc = Fake { says: says.iter(), asked: Vec::new() };
        let outline = outline(keep_dir);
        let made = DryRuns::make(&mut nvcc, &Places { cwd: "/w", tmp: "/t", outline: &outline });
        (made, nvcc.asked.join("; "))
    }

    fn reason(made: Result<DryRuns, Error>) -> String {
        Reason::from(made.unwrap_err()).to_string()
    }

    #[test]
    fn the_first_is_what_the_second_says_without_the_folder() {
        let [line, plan] = ["", "/t/"].map(|folder| format!("#$ cicc \"{folder}k.ii\" -o \"k.ptx\"\n"));
        let own = format!("nvcc warning : x\n{line}");
        let (runs, asked) = made(&[(true, &own), (true, &plan)], None);
        let runs = runs.unwrap();
        assert_eq!(
            (runs.first(), runs.second(), asked),
            (line.as_bytes(), plan.as_bytes(), format!("{OWN}; {SECOND}"))
        );
        assert_eq!(
            (runs.messages().unwrap(), runs.own(), runs.has_threads()),
            (b"nvcc warning : x\n".to_vec(), own.as_bytes(), false)
        );
    }

    #[test]
    fn nvcc_makes_the_first_if_that_has_other_commands() {
        let all = format!("{OWN}; {SECOND}; {FIRST}");
        let (runs, asked) = made(&[(true, COMMANDS), (true, OTHERS), (true, COMMANDS)], None);
        let runs = runs.unwrap();
        assert_eq!(
            (runs.first(), runs.second(), asked.as_str()),
            (COMMANDS.as_bytes(), OTHERS.as_bytes(), all.as_str())
        );
        let (refused, asked) = made(&[(true, COMMANDS), (true, OTHERS), (true, OTHERS)], None);
        assert_eq!(
            (reason(refused).as_str(), asked.as_str()),
            ("nvcc reads the line otherwise", all.as_str())
        );
        let (refused, asked) = made(&[(true, COMMANDS), (true, OTHERS), (false, COMMANDS)], None);
        assert_eq!((reason(refused).as_str(), asked.as_str()), ("a dry run fails", all.as_str()));
    }

    #[test]
    fn a_call_that_keeps_files_has_three() {
        let of = |first: (bool, &str)| made(&[(true, COMMANDS), (true, COMMANDS), first], Some("/w/kept"));
        let (runs, asked) = of((true, COMMANDS));
        assert_eq!(
            (runs.unwrap().first(), asked),
            (COMMANDS.as_bytes(), format!("{OWN}; {SECOND}; {FIRST}"))
        );
        assert_eq!(reason(of((true, OTHERS)).0), "nvcc reads the line otherwise");
        assert_eq!(reason(of((false, COMMANDS)).0), "a dry run fails");
    }

    #[test]
    fn a_dry_run_that_fails_by_threads_is_made_again() {
        let threads = format!("{THREADS}nvcc warning : x\n");
        let (runs, asked) = made(&[(false, &threads), (true, COMMANDS), (true, COMMANDS)], None);
        let runs = runs.unwrap();
        assert_eq!((runs.messages().unwrap(), runs.has_threads()), (b"nvcc warning : x\n".to_vec(), true));
        assert_eq!(asked, format!("{OWN}; {SECOND}; {OWN} --threads 1"));
        assert_eq!(
            reason(made(&[(false, &threads), (true, COMMANDS), (false, COMMANDS)], None).0),
            "a dry run fails"
        );
    }

    #[test]
    fn a_dry_run_that_fails_says_why() {
        for says in [[(false, "error\n"), (true, COMMANDS)], [(true, COMMANDS), (false, "error\n")]] {
            let error = made(&says, None).0.unwrap_err();
            assert_eq!((error.kind(), error.to_string().as_str()), (ErrorKind::Nvcc, "error"), "{says:?}");
        }
        assert_eq!(reason(made(&[(true, COMMANDS)], None).0), "no process for a dry run");
    }

    #[test]
    fn the_stub_file_is_named_where_it_is_written() {
        let of = |name: &str| {
            format!(
                "#$ cudafe++ --stub_file_name \"k.cudafe1.stub.c\" x\n#$ cicc --stub_file_name \"{name}\" \"k.cpp1.ii\"\n"
            )
        };
        let folder =
            |own: &str| DryRuns::new(own.into(), Vec::new(), Vec::new()).stub_folder().map(String::from);
        for (name, wanted) in
            [("k.stub.c", ""), ("./a b/k.stub.c", "./a b/"), ("/t/k.stub.c", "/t/"), ("/k.stub.c", "/")]
        {
            let lines = of(name);
            assert_eq!(folder(&lines).as_deref(), Some(wanted), "{name}");
            // (an older nvcc runs cicc first)
            let turned: Vec<&str> = lines.lines().rev().collect();
            assert_eq!(folder(&turned.join("\n")).as_deref(), Some(wanted), "{name}");
            assert_eq!(
                folder(&lines.replace("#$ cicc", "#$ \"$CICC_PATH/cicc\"")).as_deref(),
                Some(wanted),
                "{name}"
            );
        }
        assert_eq!(folder("#$ gcc -c k.cpp\n"), None);
    }

    #[test]
    fn commands_that_run_side_by_side_print_to_files() {
        let cases = [
            (
                "#$ _CUDART_=cudart\n#$ gcc -E \"k.cu\"  > /t/tmpxft_1-9_1f_stdout 2>/t/tmpxft_1-9_1f_stderr\n#$ x\n",
                true,
            ),
            ("#$ gcc -E \"k.cu\" -o \"a_stdout 2>b_stderr\"\n", false),
            ("gcc > /t/a_stdout 2>/t/a_stderr\n", false),
            ("#$ gcc > /t/a_stdout\n#$ gcc 2>/t/a_stderr\n", false),
            ("", false),
        ];
        for (run, wanted) in cases {
            assert_eq!(DryRuns::new(run.into(), Vec::new(), Vec::new()).has_threads(), wanted, "{run}");
        }
    }
}
