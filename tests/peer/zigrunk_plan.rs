//! The commands of an nvcc call, planned by the crate zigrunk, in the groups that sccache runs.

use super::nvcc::{NvccGeneratedSubcommand, NvccHostCompiler};
use super::Cacheable;
use crate::errors::*;
use crate::mock_command::{CommandCreatorSync, RunCommand};
use crate::util::run_input_output;
use std::ffi::{OsStr, OsString};
use std::path::{Path, PathBuf};
use zigrunk::{find_programs, plan, HostCompiler, Plan, PlanCall};

/// The front group, the device groups, which may run side by side, and the final group.
type Groups = Vec<Vec<NvccGeneratedSubcommand>>;

/// An nvcc call, as sccache has it.
pub struct NvccCall<'a> {
    pub executable: &'a Path,
    pub arguments: &'a [OsString],
    pub compilation_flag: &'a OsStr,
    pub cwd: &'a Path,
    pub tmp: &'a Path,
    pub keep_dir: Option<PathBuf>,
    pub env_vars: &'a [(OsString, OsString)],
    pub host_compiler: &'a NvccHostCompiler,
}

impl NvccCall<'_> {
    /// Makes the two dry runs, and plans. A call that can't be planned is one command: nvcc makes it.
    pub async fn groups<T: CommandCreatorSync>(&self, creator: &T) -> Result<Groups> {
        let keep_dir = ["--keep-dir".into(), self.tmp.into()];
        let runs = futures::future::try_join(self.dry_run(creator, &[]), self.dry_run(creator, &keep_dir));
        let (dry1, dry2) = runs.await?;
        self.planned(&dry1, &dry2).or_else(|error| {
            debug!("nvcc makes the call itself: {error:#}");
            self.whole()
        })
    }

    /// What nvcc prints on standard error for a dry run.
    async fn dry_run<T: CommandCreatorSync>(&self, creator: &T, more: &[OsString]) -> Result<Vec<u8>> {
        let mut command = creator.clone().new_command_sync(self.executable);
        command.args(self.arguments).args(more).args(&["--dryrun", "--keep"]);
        command.env_clear().envs(self.env_vars.to_vec()).current_dir(self.cwd);
        Ok(run_input_output(command, None).await?.stderr)
    }

    /// The plan of the two dry runs. It gets no environment, so that its commands have only what they add to the call's.
    fn planned(&self, dry1: &[u8], dry2: &[u8]) -> Result<Groups> {
        let (cwd, tmp, flag) = (text(self.cwd)?, text(self.tmp)?, text(self.compilation_flag)?);
        let keep_dir = self.keep_dir.as_deref().map(text).transpose()?;
        let host_compiler = match self.host_compiler {
            NvccHostCompiler::Gcc => HostCompiler::Gcc,
            NvccHostCompiler::Msvc => HostCompiler::Msvc,
            NvccHostCompiler::Nvhpc => HostCompiler::Nvhpc,
        };
        let programs = &find_programs(dry1, dry2, cwd)?;
        let call = PlanCall { dry1, dry2, cwd, tmp, flag, keep_dir, programs, host_compiler, ..PlanCall::new(&[]) };
        let plan = plan(&call)?;
        anyhow::ensure!(plan.dropped().len() == 0, "the plan drops {:?}", plan.dropped());
        let mut groups: Groups = plan.groups().map(|group| group.commands().map(|it| self.subcommand(it)).collect()).collect();
        if need_each_other(&plan) {
            let chain = groups.drain(1..plan.groups().len() - 1).flatten().collect();
            groups.insert(1, chain);
        }
        Ok(groups)
    }

    fn subcommand(&self, command: zigrunk::Command<'_>) -> NvccGeneratedSubcommand {
        let own = self.env_vars.iter().filter(|(name, _)| !command.variables().any(|(added, _)| name == added)).cloned();
        NvccGeneratedSubcommand {
            exe: command.program().into(),
            args: command.arguments().map(String::from).collect(),
            cwd: command.cwd().into(),
            env_vars: own.chain(command.variables().map(|(name, value)| (name.into(), value.into()))).collect(),
            cacheable: if command.is_cacheable() { Cacheable::Yes } else { Cacheable::No },
        }
    }

    /// The call as one command. Its words are UTF-8: a path in a folder whose name isn't becomes relative to the folder.
    fn whole(&self) -> Result<Groups> {
        let word = |word: OsString| text(&word).or_else(|_| text(Path::new(&word).strip_prefix(self.cwd)?)).map(String::from);
        let keep = self.keep_dir.iter().flat_map(|_| ["--keep".into(), "--keep-dir".into(), self.tmp.into()]);
        let args = self.arguments.iter().cloned().chain(keep).map(word).collect::<Result<_>>()?;
        let (exe, cwd, env_vars) = (self.executable.into(), self.cwd.into(), self.env_vars.to_vec());
        Ok(vec![vec![NvccGeneratedSubcommand { exe, args, cwd, env_vars, cacheable: Cacheable::No }]])
    }
}

/// Whether a device group needs another one, as in a fatbin, where the first cicc writes what the others read.
fn need_each_other(plan: &Plan) -> bool {
    let groups: Vec<usize> = plan.commands().filter_map(|command| command.group()).collect();
    let devices = 1..plan.groups().len().saturating_sub(1);
    let crosses = |own: usize, need: usize| own != need && devices.contains(&own) && devices.contains(&need);
    plan.commands().zip(&groups).any(|(command, &own)| command.needs().iter().any(|&need| crosses(own, groups[need])))
}

fn text<S: AsRef<OsStr> + ?Sized>(value: &S) -> Result<&str> {
    value.as_ref().to_str().with_context(|| format!("not UTF-8: {:?}", value.as_ref()))
}
