//! Plans: the commands that one nvcc call runs, in groups, with the files of each and what it waits for.
use crate::error::{Error, Input, Unfit};
use crate::lines::Tool;
use crate::memory::{OutOfMemory, copied, joined, listed, pairs, texts};
use crate::nvcc_line::{plain, text_in};
use crate::programs::{Programs, Proved, within};
use crate::variable::Variable;
use crate::words::TextsIter;
use ::texts::fault::Fault;
use canonical_names::{Suffixes, all_suffixes};
use command_files::{CommandFiles, FilesAndNeeds, files_and_needs, preprocesses};
use command_groups::{CallToPlan, plan_with_origins, plan_with_origins_within};
use compilers::command::Cacheable;
use compilers::compiler::NvccHostCompiler;
use compilers::plans::{
    Dropped, NvccGeneratedSubcommand, Origin, PlanWithOrigins, Program, Reason as WhyDropped,
};
use dry_runs::{LimitedFault, is_dry_run, parse_dry_run};
use rattle_std::alloc::Global;
use rattle_std::string::String as Text;
use std::fmt;
use std::iter::{self, FusedIterator};
use std::num::NonZeroUsize;
use std::path::Path;
use std::slice;

/// The options that say what nvcc makes of one source, and none.
const FLAGS: [&str; 15] = [
    "",
    "-c",
    "--compile",
    "-dc",
    "--device-c",
    "-dw",
    "--device-w",
    "-ptx",
    "--ptx",
    "-cubin",
    "--cubin",
    "-fatbin",
    "--fatbin",
    "-optix-ir",
    "--optix-ir",
];

/// The compiler of host code.
#[derive(Clone, Copy, Debug, Default, PartialEq, Eq, Hash)]
#[non_exhaustive]
pub enum HostCompiler {
    /// gcc, and clang too.
    #[default]
    Gcc,
    /// cl of Microsoft.
    Msvc,
    /// nvc and nvc++.
    Nvhpc,
}

impl HostCompiler {
    /// All of them, by their numbers in other languages.
    pub const ALL: [HostCompiler; 3] = [HostCompiler::Gcc, HostCompiler::Msvc, HostCompiler::Nvhpc];
}

/// Two dry runs to plan.
#[derive(Clone, Copy)]
pub struct PlanCall<'a> {
    /// What the call prints with `--dryrun --keep`. Any bytes: a line that isn't UTF-8 is
    /// [`ErrorKind::BadDryRun`](crate::ErrorKind).
    pub dry1: &'a [u8],
    /// What it prints with `--keep-dir TMP --dryrun --keep`.
    pub dry2: &'a [u8],
    /// The working directory: an absolute path without an empty part, `.` or `..`.
    pub cwd: &'a Path,
    /// TMP, the temporary directory: such a path too.
    pub tmp: &'a Path,
    /// The option that says what nvcc makes, as `-c`, or empty if it links.
    pub flag: &'a str,
    /// Whether generated files have the names that nvcc gives those that it keeps. Otherwise they get
    /// canonical names.
    pub keeps_names: bool,
    /// The call's environment: [`variables`](crate::variables()) of [`std::env::vars_os`]. Commands run in
    /// it, so an empty one makes other products than nvcc does.
    pub variables: &'a [Variable<'a>],
    /// Suffixes of generated files, behind the standard ones.
    pub suffixes: &'a [&'a str],
    /// Where the programs are that the dry runs name.
    pub programs: &'a dyn Programs,
    /// The compiler of host code.
    pub host_compiler: HostCompiler,
    /// How many bytes of text reading each dry run may make. Without a limit, 350 bytes of variables that
    /// refer to each other can turn into gigabytes: give one if someone else wrote the dry runs.
    pub limit: Option<NonZeroUsize>,
}

impl<'a> PlanCall<'a> {
    /// The same with a working directory and one for temporary files.
    #[must_use]
    pub fn at<C: AsRef<Path> + ?Sized, T: AsRef<Path> + ?Sized>(self, cwd: &'a C, tmp: &'a T) -> Self {
        PlanCall { cwd: cwd.as_ref(), tmp: tmp.as_ref(), ..self }
    }

    /// Two dry runs in the directory `/`, with files in `/tmp`, and without a flag or an environment.
    /// `programs` finds what they name.
    #[must_use]
    pub fn new(dry1: &'a [u8], dry2: &'a [u8], programs: &'a dyn Programs) -> Self {
        PlanCall {
            dry1,
            dry2,
            cwd: Path::new("/"),
            tmp: Path::new("/tmp"),
            flag: "",
            keeps_names: false,
            variables: &[],
            suffixes: &[],
            programs,
            host_compiler: HostCompiler::Gcc,
            limit: None,
        }
    }
}

/// Refuses texts that can't be dry runs. One text can be both: nvcc generates no file for a C or C++ source,
/// so it prints the same twice.
fn check_texts(call: &PlanCall<'_>) -> Result<(), Error> {
    if let Some((run, _)) = [(1, call.dry1), (2, call.dry2)].into_iter().find(|(_, text)| !is_dry_run(text)) {
        return Err(Error::no_dry_run(Unfit::NoDryRun(run)).at_line(run, 0));
    }
    if FLAGS.contains(&call.flag) { Ok(()) } else { Err(Error::no_dry_run(Unfit::Flag).at(Input::Flag)) }
}

/// Plans the commands of one nvcc call.
///
/// # Errors
///
/// [`ErrorKind::NotUtf8`](crate::ErrorKind) for a directory or a variable. `OddDirectory` for a directory
/// that isn't absolute and plain. `NoDryRun` for texts that aren't the dry runs of a call, a flag that is
/// none of nvcc's, and a plan without a command. `BadSuffixes`, `BadDryRun`, `NotFound` and `OverLimit` for
/// the first bad line of the first run or of the second, `OutOfMemory`. [`Error::place`] says where.
pub fn plan(call: &PlanCall<'_>) -> Result<Plan, Error> {
    let (cwd, tmp) = (text_in(call.cwd.as_os_str(), Input::Cwd)?, text_in(call.tmp.as_os_str(), Input::Tmp)?);
    plain(&cwd, Input::Cwd)?;
    plain(&tmp, Input::Tmp)?;
    let variables: Vec<(&str, &str)> = listed(call.variables.iter().map(Variable::texts))?;
    check_texts(call)?;
    let planned = planned(call, &cwd, &tmp, &variables)?;
    Plan::of(planned, cwd, tmp, copied(call.flag)?)
}

/// Plans by the proved crates.
fn planned(
    call: &PlanCall<'_>,
    cwd: &str,
    tmp: &str,
    variables: &[(&str, &str)],
) -> Result<PlanWithOrigins, Error> {
    // Renaming is faster with the standard suffixes as they are written.
    let suffixes = if call.suffixes.is_empty() {
        Suffixes::standard()
    } else {
        all_suffixes(Global, &texts(call.suffixes)?)?
    };
    let env_vars = pairs(variables)?;
    let host_compiler = match call.host_compiler {
        HostCompiler::Gcc => NvccHostCompiler::Gcc,
        HostCompiler::Msvc => NvccHostCompiler::Msvc,
        HostCompiler::Nvhpc => NvccHostCompiler::Nvhpc,
    };
    let keep_dir = call.keeps_names.then_some(tmp);
    let to_plan = CallToPlan {
        cwd,
        tmp,
        compilation_flag: call.flag,
        keep_dir,
        env_vars: &env_vars,
        host_compiler,
        suffixes: &suffixes,
    };
    let which = Proved(call.programs);
    let planned = match call.limit {
        Some(limit) => plan_with_origins_within(Global, call.dry1, call.dry2, &to_plan, &which, limit.get()),
        None => {
            plan_with_origins(Global, call.dry1, call.dry2, &to_plan, &which).map_err(LimitedFault::Fault)
        }
    };
    planned.map_err(|fault| placed(call, cwd, fault))
}

/// The error of a fault, with its line. The planner doesn't say which line names a program that isn't there.
fn placed(call: &PlanCall<'_>, cwd: &str, fault: LimitedFault) -> Error {
    let is_lack = matches!(fault, LimitedFault::Fault(Fault::NotFound { .. }));
    let error = within(fault, call.limit.map_or(0, NonZeroUsize::get));
    let line = if is_lack { bad_line(call, cwd) } else { Ok(None) };
    match line {
        Ok(Some((run, line, path))) => error.in_line(run, line, path),
        Ok(None) => error,
        Err(lack) => lack.into(),
    }
}

/// The first bad line of the first dry run, or of the second if the first has none, and the value of `PATH`
/// there.
fn bad_line(call: &PlanCall<'_>, cwd: &str) -> Result<Option<(usize, usize, String)>, OutOfMemory> {
    for (run, text) in [(1, call.dry1), (2, call.dry2)] {
        let parsed = parse_dry_run(Global, text, run)?;
        if let Some(line) = parsed.bad_line(Global, cwd, &Proved(call.programs))? {
            return Ok(Some((run, line + 1, copied(parsed.path())?)));
        }
    }
    Ok(None)
}

/// What a group of a plan is.
#[derive(Clone, Copy, Debug, PartialEq, Eq, Hash)]
#[non_exhaustive]
pub enum Stage {
    /// The first: the preprocessor for the host, and cudafe++.
    Front,
    /// One for each architecture: its preprocessor, cicc and ptxas.
    Device,
    /// The last: fatbinary, and the host compiler.
    Final,
}

/// Why a plan dropped a command.
#[derive(Clone, Copy, Debug, PartialEq, Eq, Hash)]
#[non_exhaustive]
pub enum DropReason {
    /// None of nvcc's tools, and without a CUDA macro.
    NotCuda,
    /// A cicc command whose input no preprocess step before it makes.
    NoCiccGroup,
    /// A ptxas command whose input no cicc command of a device group makes.
    NoPtxasGroup,
    /// Of a device group that a later preprocess step opened again.
    Superseded,
}

/// The tool that a command runs. In other languages the three that lines are of, too, have the numbers of
/// [`Tool`].
#[derive(Clone, Copy, Debug, PartialEq, Eq, Hash)]
#[non_exhaustive]
pub enum CommandTool {
    /// cicc, which compiles device code to PTX.
    Cicc,
    /// ptxas, the assembler.
    Ptxas,
    /// cudafe++, the front end for host code.
    CudaFe,
    /// fatbinary, which packs device code.
    Fatbinary = Tool::Nvcxx as isize + 1,
    /// nvlink, which links device code.
    NvLink,
    /// A host compiler, or any other program.
    Host,
}

impl CommandTool {
    /// All of them, by their numbers in other languages.
    pub const ALL: [CommandTool; 6] = [
        CommandTool::Cicc,
        CommandTool::Ptxas,
        CommandTool::CudaFe,
        CommandTool::Fatbinary,
        CommandTool::NvLink,
        CommandTool::Host,
    ];

    fn of(program: Program) -> Self {
        match program {
            Program::Cicc => CommandTool::Cicc,
            Program::Ptxas => CommandTool::Ptxas,
            Program::Cudafe => CommandTool::CudaFe,
            Program::Fatbinary => CommandTool::Fatbinary,
            Program::Nvlink => CommandTool::NvLink,
            Program::Other => CommandTool::Host,
        }
    }

    /// The tool for [`line_records`](crate::line_records), if it reads lines of this one.
    #[must_use]
    pub fn for_lines(self) -> Option<Tool> {
        match self {
            CommandTool::Cicc => Some(Tool::Cicc),
            CommandTool::Ptxas => Some(Tool::Ptxas),
            CommandTool::CudaFe => Some(Tool::CudaFe),
            _ => None,
        }
    }

    pub(crate) fn program(self) -> Program {
        match self {
            CommandTool::Cicc => Program::Cicc,
            CommandTool::Ptxas => Program::Ptxas,
            CommandTool::CudaFe => Program::Cudafe,
            CommandTool::Fatbinary => Program::Fatbinary,
            CommandTool::NvLink => Program::Nvlink,
            CommandTool::Host => Program::Other,
        }
    }
}

/// Which files a command touches that its words don't name.
#[derive(Clone, Copy, Debug, PartialEq, Eq, Hash)]
#[non_exhaustive]
pub enum Missing {
    /// Its line can't be read, so nothing is known.
    Unread,
    /// It preprocesses, so it also reads headers.
    Headers,
    /// It also reads what its input includes, and libraries.
    Inputs,
}

/// Where a command of a group is: the group, and its number in that. Also the tool that it runs, which is
/// asked for again and again.
struct Place {
    group: usize,
    number: usize,
    tool: CommandTool,
}

/// What one nvcc call runs: groups of commands, and the commands that were dropped.
pub struct Plan {
    planned: PlanWithOrigins,
    facts: FilesAndNeeds,
    /// Where each command is.
    places: Vec<Place>,
    cwd: String,
    tmp: String,
    flag: String,
}

impl Plan {
    fn of(planned: PlanWithOrigins, cwd: String, tmp: String, flag: String) -> Result<Plan, Error> {
        let facts = files_and_needs(Global, &planned.plan)?;
        let mut places = Vec::new();
        for (group, commands) in planned.plan.groups.as_slice().iter().enumerate() {
            places.try_reserve(commands.len()).map_err(OutOfMemory::from)?;
            let tools =
                commands.as_slice().iter().map(|command| CommandTool::of(Program::at(command.exe.as_str())));
            places.extend(tools.enumerate().map(|(number, tool)| Place { group, number, tool }));
        }
        if places.is_empty() {
            return Err(Error::no_dry_run(Unfit::NoCommand));
        }
        Ok(Plan { planned, facts, places, cwd, tmp, flag })
    }

    /// The plan as the proved crates have it.
    #[doc(hidden)]
    #[must_use]
    pub fn proved(&self) -> &PlanWithOrigins {
        &self.planned
    }

    /// The groups, in plan order: the front group, the device groups, the final group. To run commands side
    /// by side, go by [`Command::needs`]: device groups may need each other.
    #[must_use]
    pub fn groups(&self) -> Groups<'_> {
        Groups { numbers: 0..self.planned.plan.groups.as_slice().len(), plan: self }
    }

    /// The commands of all groups, in plan order.
    #[must_use]
    pub fn commands(&self) -> Commands<'_> {
        Commands { numbers: 0..self.places.len(), plan: self }
    }

    /// The commands that the plan dropped: [`Command::reason`] says why.
    #[must_use]
    pub fn dropped(&self) -> Commands<'_> {
        let first = self.places.len();
        Commands { numbers: first..first + self.planned.plan.dropped.as_slice().len(), plan: self }
    }

    /// The files of its commands, in plan order.
    pub(crate) fn records(&self) -> &[CommandFiles] {
        self.facts.files.as_slice()
    }

    /// The working directory that it is for.
    #[must_use]
    pub fn cwd(&self) -> &str {
        &self.cwd
    }

    /// The directory for temporary files that it is for.
    #[must_use]
    pub fn tmp(&self) -> &str {
        &self.tmp
    }

    /// The option that says what nvcc makes.
    #[must_use]
    pub fn flag(&self) -> &str {
        &self.flag
    }
}

impl PartialEq for Plan {
    /// Whether they say the same.
    fn eq(&self, other: &Self) -> bool {
        self.groups().eq(other.groups()) && self.dropped().eq(other.dropped())
    }
}

impl Eq for Plan {}

impl fmt::Debug for Plan {
    fn fmt(&self, f: &mut fmt::Formatter<'_>) -> fmt::Result {
        f.debug_struct("Plan").field("groups", &self.groups()).field("dropped", &self.dropped()).finish()
    }
}

/// A group of a plan.
#[derive(Clone, Copy)]
pub struct Group<'a> {
    number: usize,
    plan: &'a Plan,
}

impl PartialEq for Group<'_> {
    /// Whether they say the same, also of different plans.
    fn eq(&self, other: &Self) -> bool {
        self.stage() == other.stage() && self.commands().eq(other.commands())
    }
}

impl Eq for Group<'_> {}

impl<'a> Group<'a> {
    fn of(number: usize, plan: &'a Plan) -> Self {
        Group { number, plan }
    }

    /// What the group is.
    #[must_use]
    pub fn stage(&self) -> Stage {
        if self.number == 0 {
            Stage::Front
        } else if self.number + 1 == self.plan.groups().len() {
            Stage::Final
        } else {
            Stage::Device
        }
    }

    /// Its commands, which have to run one after the other.
    #[must_use]
    pub fn commands(&self) -> Commands<'a> {
        let places = &self.plan.places;
        let from = places.partition_point(|it| it.group < self.number);
        let to = places.partition_point(|it| it.group <= self.number);
        Commands { numbers: from..to, plan: self.plan }
    }
}

impl fmt::Debug for Group<'_> {
    fn fmt(&self, f: &mut fmt::Formatter<'_>) -> fmt::Result {
        f.debug_struct("Group").field("stage", &self.stage()).field("commands", &self.commands()).finish()
    }
}

/// A command of a group, or one that was dropped.
#[derive(Clone, Copy)]
enum Item<'a> {
    Listed(&'a NvccGeneratedSubcommand),
    Dropped(&'a Dropped),
}

/// A command of a plan, or one that the plan dropped.
#[derive(Clone, Copy)]
pub struct Command<'a> {
    number: usize,
    item: Item<'a>,
    plan: &'a Plan,
}

impl PartialEq for Command<'_> {
    /// Whether they say the same, also of different plans.
    fn eq(&self, other: &Self) -> bool {
        let facts = |it: &Self| {
            (it.group(), it.reason(), it.is_cacheable(), it.run(), it.line(), it.tool(), it.missing())
        };
        self.program() == other.program()
            && self.cwd() == other.cwd()
            && self.arguments().eq(other.arguments())
            && self.variables().eq(other.variables())
            && facts(self) == facts(other)
            && self.needs() == other.needs()
            && self.reads().eq(other.reads())
            && self.writes().eq(other.writes())
            && self.may_write().eq(other.may_write())
    }
}

impl Eq for Command<'_> {}

impl<'a> Command<'a> {
    fn of(number: usize, plan: &'a Plan) -> Self {
        let all = &plan.planned.plan;
        let item = match plan.places.get(number) {
            Some(at) => Item::Listed(&all.groups.as_slice()[at.group].as_slice()[at.number]),
            None => Item::Dropped(&all.dropped.as_slice()[number - plan.places.len()]),
        };
        Command { number, item, plan }
    }

    /// The command as the proved crates have it, unless it was dropped.
    #[doc(hidden)]
    #[must_use]
    pub fn proved(&self) -> Option<&'a NvccGeneratedSubcommand> {
        match self.item {
            Item::Listed(command) => Some(command),
            Item::Dropped(_) => None,
        }
    }

    /// Its files; none if it was dropped.
    fn files(&self) -> Option<&'a CommandFiles> {
        self.plan.facts.files.as_slice().get(self.number)
    }

    fn origin(&self) -> Origin {
        match self.item {
            Item::Listed(_) => self
                .plan
                .planned
                .origins
                .as_slice()
                .get(self.number)
                .copied()
                .unwrap_or(Origin { line: 0, run: 0 }),
            Item::Dropped(dropped) => Origin { line: dropped.line, run: dropped.run },
        }
    }

    /// Its place in [`Plan::commands`], or behind them if it was dropped.
    #[must_use]
    pub fn number(&self) -> usize {
        self.number
    }

    /// The commands that have to end before it starts: their places in [`Plan::commands`], in ascending
    /// order. None if it was dropped.
    #[must_use]
    pub fn needs(&self) -> &'a [usize] {
        self.plan.facts.needs.as_slice().get(self.number).map_or(&[], |needs| needs.as_slice())
    }

    /// The paths of the files that it reads by its words: see [`missing`](Command::missing). None if it was
    /// dropped.
    #[must_use]
    pub fn reads(&self) -> TextsIter<'a> {
        TextsIter::of(self.files().map_or(&[], |files| files.reads.as_slice()))
    }

    /// The paths of the files that it writes. None if it was dropped.
    #[must_use]
    pub fn writes(&self) -> TextsIter<'a> {
        TextsIter::of(self.files().map_or(&[], |files| files.writes.as_slice()))
    }

    /// The paths of the files that it may write or leave out. None if it was dropped.
    #[must_use]
    pub fn may_write(&self) -> TextsIter<'a> {
        TextsIter::of(self.files().map_or(&[], |files| files.may_write.as_slice()))
    }

    /// The tool that it runs, or `None` if it was dropped.
    #[must_use]
    pub fn tool(&self) -> Option<CommandTool> {
        self.plan.places.get(self.number).map(|at| at.tool)
    }

    /// Which files it touches that aren't among these, or `None` if they are all (or if it was dropped).
    /// Among them may be files that commands which it needs write.
    #[must_use]
    pub fn missing(&self) -> Option<Missing> {
        if self.files()?.complete {
            return None;
        }
        match self.tool()? {
            CommandTool::Cicc | CommandTool::Ptxas | CommandTool::CudaFe => Some(Missing::Unread),
            _ if preprocesses(self.words_after()) => Some(Missing::Headers),
            _ => Some(Missing::Inputs),
        }
    }

    /// The program's path.
    #[must_use]
    pub fn program(&self) -> &'a str {
        match self.item {
            Item::Listed(command) => command.exe.as_str(),
            Item::Dropped(dropped) => dropped.exe.as_str(),
        }
    }

    fn words_after(&self) -> &'a [Text] {
        match self.item {
            Item::Listed(command) => command.args.as_slice(),
            Item::Dropped(dropped) => dropped.args.as_slice(),
        }
    }

    /// The words after the program's name.
    #[must_use]
    pub fn arguments(&self) -> TextsIter<'a> {
        TextsIter::of(self.words_after())
    }

    /// The program, and its words.
    pub fn words(&self) -> impl Iterator<Item = &'a str> + use<'a> {
        iter::once(self.program()).chain(self.arguments())
    }

    /// Whether it only preprocesses.
    #[must_use]
    pub fn preprocesses(&self) -> bool {
        self.tool() == Some(CommandTool::Host) && preprocesses(self.words_after())
    }

    /// The target that a command of a device is for, such as `compute_80` or `sm_80`, and the targets of what
    /// a fatbinary has. Those of a preprocessor are those of the cicc commands that read what it writes.
    ///
    /// # Errors
    ///
    /// [`OutOfMemory`].
    pub fn targets(&self) -> Result<Vec<String>, OutOfMemory> {
        listed(self.targets_in_parts()?.iter().map(|parts| joined(parts)))
    }

    /// The same, each in parts that stand one behind the other.
    #[doc(hidden)]
    pub fn targets_in_parts(&self) -> Result<Vec<[&'a str; 3]>, OutOfMemory> {
        if !self.preprocesses() {
            return self.own_targets();
        }
        let reads = |it: &Command<'_>| {
            it.tool() == Some(CommandTool::Cicc)
                && it.reads().any(|path| self.writes().any(|own| own == path))
        };
        listed(
            self.plan
                .commands()
                .filter(reads)
                .filter_map(|reader| reader.architecture())
                .map(|name| Ok([name, "", ""])),
        )
    }

    /// The targets that its own words name.
    fn own_targets(&self) -> Result<Vec<[&'a str; 3]>, OutOfMemory> {
        match self.tool() {
            Some(CommandTool::Fatbinary) => listed(self.arguments().filter_map(image_target).map(Ok)),
            Some(CommandTool::Cicc | CommandTool::Ptxas) => {
                listed(self.architecture().into_iter().map(|name| Ok([name, "", ""])))
            }
            _ => Ok(Vec::new()),
        }
    }

    /// What the last `-arch` of its words names.
    fn architecture(&self) -> Option<&'a str> {
        let mut next = "";
        for word in self.words_after().iter().rev().map(Text::as_str) {
            if word == "-arch" {
                return Some(next);
            }
            if let Some(name) = word.strip_prefix("-arch=") {
                return Some(name);
            }
            next = word;
        }
        None
    }

    /// The environment: names and values. A name may occur twice: the last one counts. None if the command
    /// was dropped.
    #[must_use]
    pub fn variables(&self) -> Variables<'a> {
        Variables(self.proved().map_or(&[] as &[_], |command| command.env_vars.as_slice()).iter())
    }

    /// The directory that it runs in; empty if it was dropped.
    #[must_use]
    pub fn cwd(&self) -> &'a str {
        self.proved().map_or("", |command| command.cwd.as_str())
    }

    /// The number of its group, from 0, or `None` if it was dropped.
    #[must_use]
    pub fn group(&self) -> Option<usize> {
        self.plan.places.get(self.number).map(|at| at.group)
    }

    /// Why it was dropped, or `None` if it is in a group.
    #[must_use]
    pub fn reason(&self) -> Option<DropReason> {
        let Item::Dropped(dropped) = self.item else { return None };
        Some(match dropped.reason {
            WhyDropped::NotCuda => DropReason::NotCuda,
            WhyDropped::NoCiccGroup => DropReason::NoCiccGroup,
            WhyDropped::NoPtxasGroup => DropReason::NoPtxasGroup,
            WhyDropped::Superseded => DropReason::Superseded,
        })
    }

    /// Whether its outputs may come from a cache.
    #[must_use]
    pub fn is_cacheable(&self) -> bool {
        self.proved().is_some_and(|command| matches!(command.cacheable, Cacheable::Yes))
    }

    /// The dry run that it is of: 1 or 2.
    #[must_use]
    pub fn run(&self) -> usize {
        self.origin().run
    }

    /// Its line in that dry run, from 1.
    #[must_use]
    pub fn line(&self) -> usize {
        self.origin().line + 1
    }
}

/// The target of a word of fatbinary that names an image, in parts.
fn image_target(word: &str) -> Option<[&str; 3]> {
    if let Some(named) = word.strip_prefix("--image=profile=") {
        return named.split_once(',').map(|(target, _)| [target, "", ""]);
    }
    let (kind, rest) = word.strip_prefix("--image3=kind=")?.split_once(",sm=")?;
    let (target, _) = rest.split_once(',')?;
    let kind = match kind {
        "elf" => "sm",
        "ptx" => "compute",
        "nvvm" => "lto",
        other => other,
    };
    Some([kind, "_", target])
}

impl fmt::Debug for Command<'_> {
    fn fmt(&self, f: &mut fmt::Formatter<'_>) -> fmt::Result {
        f.debug_struct("Command")
            .field("program", &self.program())
            .field("arguments", &self.arguments())
            .field("variables", &self.variables())
            .field("cwd", &self.cwd())
            .field("group", &self.group())
            .field("reason", &self.reason())
            .field("is_cacheable", &self.is_cacheable())
            .field("run", &self.run())
            .field("line", &self.line())
            .field("needs", &self.needs())
            .field("reads", &self.reads())
            .field("writes", &self.writes())
            .field("may_write", &self.may_write())
            .field("tool", &self.tool())
            .field("missing", &self.missing())
            .finish()
    }
}

/// The environment of a command: names and values.
#[derive(Clone)]
pub struct Variables<'a>(slice::Iter<'a, (Text, Text)>);

impl<'a> Iterator for Variables<'a> {
    type Item = (&'a str, &'a str);

    fn next(&mut self) -> Option<Self::Item> {
        self.0.next().map(|(name, value)| (name.as_str(), value.as_str()))
    }

    fn size_hint(&self) -> (usize, Option<usize>) {
        self.0.size_hint()
    }
}

impl ExactSizeIterator for Variables<'_> {}
impl FusedIterator for Variables<'_> {}

impl fmt::Debug for Variables<'_> {
    fn fmt(&self, f: &mut fmt::Formatter<'_>) -> fmt::Result {
        f.debug_list().entries(self.clone()).finish()
    }
}

/// An iterator over records of a plan.
macro_rules! records {
    ($(#[$doc:meta])* $name:ident of $item:ident) => {
        $(#[$doc])*
        #[derive(Clone)]
        pub struct $name<'a> {
            numbers: std::ops::Range<usize>,
            plan: &'a Plan,
        }

        impl<'a> Iterator for $name<'a> {
            type Item = $item<'a>;

            fn next(&mut self) -> Option<$item<'a>> {
                Some($item::of(self.numbers.next()?, self.plan))
            }

            fn size_hint(&self) -> (usize, Option<usize>) {
                self.numbers.size_hint()
            }
        }

        impl DoubleEndedIterator for $name<'_> {
            fn next_back(&mut self) -> Option<Self::Item> {
                Some($item::of(self.numbers.next_back()?, self.plan))
            }
        }

        impl ExactSizeIterator for $name<'_> {}
        impl FusedIterator for $name<'_> {}

        impl fmt::Debug for $name<'_> {
            fn fmt(&self, f: &mut fmt::Formatter<'_>) -> fmt::Result {
                f.debug_list().entries(self.clone()).finish()
            }
        }
    };
}

records! {
    /// The groups of a plan.
    Groups of Group
}

records! {
    /// Some commands of a plan.
    Commands of Command
}
