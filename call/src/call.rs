//! A call of nvcc: from its words to its plan.
use crate::dry_runs::{DryRuns, Nvcc, Places, Ran};
use crate::error::reason::Reason;
use crate::error::{Error, Input};
use crate::fitness::check_plan;
use crate::memory::{OutOfMemory, listed};
use crate::nvcc_line::{NvccCall, NvccLine, text_in};
use crate::outline::{Outline, Run};
use crate::plan::{Plan, PlanCall, plan};
use crate::programs::{Disk, Programs};
use crate::variable::Variable;
use std::ffi::OsStr;
use std::io;
use std::num::NonZeroUsize;
use std::path::Path;
use std::process::{Child, Stdio};

/// The limit on the bytes that a dry run's lines are expanded to, if nvcc has just printed it. It is far
/// above what a line can make.
pub const MOST_BYTES: NonZeroUsize = NonZeroUsize::new(1 << 28).unwrap();

/// How dry runs are planned.
#[derive(Clone, Copy)]
pub struct Planning<'a> {
    /// The environment that commands run in.
    pub variables: &'a [(String, String)],
    /// Whether generated files have the names that nvcc gives those that it keeps.
    pub keeps_names: bool,
    /// Where the programs are that the dry runs name.
    pub programs: &'a dyn Programs,
    /// How many bytes of text reading each dry run may make.
    pub limit: Option<NonZeroUsize>,
}

/// A call of nvcc, whose line was read.
#[derive(Clone, Debug, PartialEq, Eq)]
pub struct Call {
    line: NvccLine,
    tmp: String,
    outline: Outline,
}

/// Runs nvcc's dry runs as processes of this one, by default those of the standard library.
#[derive(Clone, Copy, Debug)]
pub struct Processes<P = Child> {
    /// Starts one.
    pub start: fn(&Run) -> io::Result<P>,
    /// Waits for its end.
    pub end: fn(P) -> io::Result<Ran>,
}

impl Default for Processes {
    fn default() -> Processes {
        let start = |run: &Run| {
            run.command().stdin(Stdio::null()).stdout(Stdio::null()).stderr(Stdio::piped()).spawn()
        };
        let end = |child: Child| {
            let output = child.wait_with_output()?;
            Ok(Ran { succeeded: output.status.success(), errors: output.stderr })
        };
        Processes { start, end }
    }
}

impl<P> Nvcc for Processes<P> {
    type Stop = Error;

    fn run(&mut self, runs: &[Run]) -> Result<Vec<Ran>, Error> {
        // (all are waited for before the error of one counts)
        let started: Vec<io::Result<P>> =
            listed(runs.iter().map(|run| Ok::<_, OutOfMemory>((self.start)(run))))?;
        let ended: Vec<io::Result<Ran>> =
            listed(started.into_iter().map(|it| Ok::<_, OutOfMemory>(it.and_then(self.end))))?;
        listed(ended.into_iter().map(|ran| ran.map_err(|error| Error::io("run nvcc's dry run", error))))
    }
}

impl Call {
    /// Reads the line of a call. It reads the options files that the line names.
    ///
    /// # Errors
    ///
    /// [`ErrorKind::ToNvcc`](crate::ErrorKind), with the reason, if nvcc has to make the call itself.
    /// `OddDirectory` for a directory that can't be in dry runs, `NotUtf8`, `OutOfMemory`.
    pub fn new<S: AsRef<OsStr>>(of: &NvccCall<'_, S>) -> Result<Call, Error> {
        let tmp = text_in(of.tmp.as_os_str(), Input::Tmp)?;
        if tmp.contains(['"', '$', '`', '\\', '\n']) {
            return Err(Error::expanded_directory());
        }
        Call::read(NvccLine::of(of)?, tmp)
    }

    /// Reads a line whose files go to the directory `tmp`.
    ///
    /// # Errors
    ///
    /// Those of [`NvccLine::read`].
    pub fn read(line: NvccLine, tmp: String) -> Result<Call, Error> {
        let outline = line.read(&tmp)?;
        Ok(Call { line, tmp, outline })
    }

    /// The line.
    #[must_use]
    pub fn line(&self) -> &NvccLine {
        &self.line
    }

    /// What the line says.
    #[must_use]
    pub fn outline(&self) -> &Outline {
        &self.outline
    }

    /// The directory for temporary files.
    #[must_use]
    pub fn tmp(&self) -> &str {
        &self.tmp
    }

    /// The dry runs: of the line as it is, and the two that are planned. [`plan`](Call::plan) runs what it
    /// needs of them; to run them elsewhere, pass what they print to standard error to
    /// [`plan_of`](Call::plan_of).
    #[must_use]
    pub fn dry_runs(&self) -> [&Run; 3] {
        [&self.outline.own_dry_run, &self.outline.first_dry_run, &self.outline.second_dry_run]
    }

    /// What writes the dependency file, if the line asks for one. It's no command of the plan.
    #[must_use]
    pub fn dependencies(&self) -> Option<&Run> {
        self.outline.dependencies.as_ref()
    }

    /// The option that says what nvcc makes, as `-c`.
    #[must_use]
    pub fn flag(&self) -> &str {
        &self.outline.flag
    }

    /// How many commands may run at once, if the line or the environment says so.
    #[must_use]
    pub fn jobs(&self) -> Option<usize> {
        self.outline.jobs
    }

    /// The directory that keeps generated files, if the line names one.
    #[must_use]
    pub fn keep_dir(&self) -> Option<&str> {
        self.outline.keep_dir.as_deref()
    }

    /// The source's path, as the dry runs have it.
    #[must_use]
    pub fn input(&self) -> &str {
        self.outline.input()
    }

    /// The paths of what the call makes: the product, and the dependency file if there is one.
    pub fn outputs(&self) -> impl Iterator<Item = &str> {
        self.outline.outputs()
    }

    fn places(&self) -> Places<'_> {
        Places { cwd: &self.line.cwd, tmp: &self.tmp, outline: &self.outline }
    }

    /// Makes the dry runs of the call, as far as the plan needs them.
    ///
    /// # Errors
    ///
    /// [`ErrorKind::Nvcc`](crate::ErrorKind) with what nvcc printed if it refuses one,
    /// [`ErrorKind::ToNvcc`](crate::ErrorKind) if the line's own has other commands than that of its normal
    /// form, `OutOfMemory`, and why one couldn't be run.
    pub fn make_dry_runs<N: Nvcc>(&self, nvcc: &mut N) -> Result<DryRuns, N::Stop> {
        DryRuns::make(nvcc, &self.places())
    }

    /// Plans the dry runs that [`make_dry_runs`](Call::make_dry_runs) of this call has made.
    ///
    /// # Errors
    ///
    /// Those of [`plan()`](crate::plan()). [`ErrorKind::NoDryRun`](crate::ErrorKind) and `ToNvcc` if the plan
    /// isn't the call's, or can't be run.
    pub fn plan_made(&self, dry_runs: &DryRuns, planning: &Planning<'_>) -> Result<Plan, Error> {
        let variables = planning
            .variables
            .iter()
            .map(|(name, value)| Ok::<_, Error>(Variable::new(name.as_str(), value.as_str())));
        let variables: Vec<Variable<'_>> = listed(variables)?;
        let plan = plan(&PlanCall {
            cwd: Path::new(&self.line.cwd),
            tmp: Path::new(&self.tmp),
            flag: &self.outline.flag,
            keeps_names: planning.keeps_names,
            variables: &variables,
            limit: planning.limit,
            ..PlanCall::new(dry_runs.first(), dry_runs.second(), planning.programs)
        })?;
        check_plan(&plan, &self.outline, dry_runs.second())?;
        Ok(plan)
    }

    /// Makes the dry runs, finds the programs that they name on this machine, and plans.
    ///
    /// # Errors
    ///
    /// Those of [`make_dry_runs`](Call::make_dry_runs), [`ErrorKind::Io`](crate::ErrorKind) if one can't be
    /// started, and those of [`plan_made`](Call::plan_made).
    pub fn plan(&self) -> Result<Plan, Error> {
        self.plan_by(&mut Processes::default())
    }

    /// The same, given what runs nvcc.
    ///
    /// # Errors
    ///
    /// Those of [`make_dry_runs`](Call::make_dry_runs) and [`plan_made`](Call::plan_made).
    pub fn plan_by<N: Nvcc>(&self, nvcc: &mut N) -> Result<Plan, N::Stop> {
        let dry_runs = self.make_dry_runs(nvcc)?;
        Ok(self.plan_made(&dry_runs, &self.planning(&Disk::default(), Some(MOST_BYTES)))?)
    }

    fn planning<'a>(&'a self, programs: &'a dyn Programs, limit: Option<NonZeroUsize>) -> Planning<'a> {
        Planning {
            variables: &self.line.variables,
            keeps_names: self.outline.keep_dir.is_some(),
            programs,
            limit,
        }
    }

    /// Plans what the dry runs printed before, here or elsewhere. If someone else wrote them, give a
    /// [limit](PlanCall::limit).
    ///
    /// # Errors
    ///
    /// Those of [`plan_made`](Call::plan_made). [`ErrorKind::NoDryRun`](crate::ErrorKind), with the place, if
    /// the two that are planned aren't one call's, and `ToNvcc` if the line's own has other commands.
    pub fn plan_of(
        &self,
        dry_runs: &DryRuns,
        programs: &dyn Programs,
        limit: Option<NonZeroUsize>,
    ) -> Result<Plan, Error> {
        dry_runs.check_pair(&self.tmp)?;
        let plan = self.plan_made(dry_runs, &self.planning(programs, limit))?;
        if dry_runs.are_of_line(&self.places())? {
            Ok(plan)
        } else {
            Err(Error::to_nvcc(Reason::ReadOtherwise).at(Input::Own))
        }
    }
}

#[cfg(test)]
mod tests {
    use super::*;

    fn is_shared<T: Send + Sync>() {}

    #[test]
    fn threads_may_share_calls_and_plans() {
        is_shared::<Call>();
        is_shared::<Plan>();
    }
}
