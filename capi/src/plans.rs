//! Plans, as records and as texts.
use crate::given::{Environment, copies, elements, meant, zigrunk_text, zigrunk_texts};
use crate::made::{Room, answer, freed, give, text, texts, zigrunk_answer, zigrunk_error, zigrunk_made};
use call::{
    Command, CommandTool, Disk, Error, ErrorKind, Format, HostCompiler, OutOfMemory, Plan, PlanCall,
    ProgramRow, Programs, Stage, found_in, listed,
};
use std::num::NonZeroUsize;
use std::{iter, ptr};

/// cicc, which compiles device code to PTX.
pub const ZIGRUNK_TOOL_CICC: u32 = 0;
/// ptxas, the assembler.
pub const ZIGRUNK_TOOL_PTXAS: u32 = 1;
/// cudafe++, the front end for host code.
pub const ZIGRUNK_TOOL_CUDAFE: u32 = 2;
/// nvcc. Of a line only.
pub const ZIGRUNK_TOOL_NVCC: u32 = 3;
/// nvc of nvhpc. Of a line only.
pub const ZIGRUNK_TOOL_NVC: u32 = 4;
/// nvc++ of nvhpc. Of a line only.
pub const ZIGRUNK_TOOL_NVCXX: u32 = 5;
/// fatbinary, which packs device code. This and the others: of a command only.
pub const ZIGRUNK_TOOL_FATBINARY: u32 = 6;
/// nvlink, which links device code.
pub const ZIGRUNK_TOOL_NVLINK: u32 = 7;
/// A host compiler, or any other program; also of a command that was dropped.
pub const ZIGRUNK_TOOL_HOST: u32 = 8;

/// The first group: the preprocessor for the host, and cudafe++.
pub const ZIGRUNK_FRONT: u32 = 0;
/// One for each architecture: its preprocessor, cicc and ptxas.
pub const ZIGRUNK_DEVICE: u32 = 1;
/// The last: fatbinary, and the host compiler.
pub const ZIGRUNK_FINAL: u32 = 2;

/// The plan hasn't dropped the command: it is in a group.
pub const ZIGRUNK_IN_GROUP: u32 = 0;
/// None of nvcc's tools, and without a CUDA macro.
pub const ZIGRUNK_NOT_CUDA: u32 = 1;
/// A cicc command whose input no preprocess step before it makes.
pub const ZIGRUNK_NO_CICC_GROUP: u32 = 2;
/// A ptxas command whose input no cicc command of a device group makes.
pub const ZIGRUNK_NO_PTXAS_GROUP: u32 = 3;
/// Of a device group that a later preprocess step opened again.
pub const ZIGRUNK_SUPERSEDED: u32 = 4;

/// The words name all files.
pub const ZIGRUNK_NONE_MISSING: u32 = 0;
/// The line can't be read, so nothing is known.
pub const ZIGRUNK_UNREAD_MISSING: u32 = 1;
/// The command preprocesses, so it also reads headers.
pub const ZIGRUNK_HEADERS_MISSING: u32 = 2;
/// It also reads what its input includes, and libraries.
pub const ZIGRUNK_INPUTS_MISSING: u32 = 3;

/// gcc, and clang too.
pub const ZIGRUNK_GCC: u32 = 0;
/// cl of Microsoft.
pub const ZIGRUNK_MSVC: u32 = 1;
/// nvc and nvc++.
pub const ZIGRUNK_NVHPC: u32 = 2;

/// What you found for a program that a dry run names, and the value of PATH there.
#[repr(C)]
pub struct zigrunk_found_program {
    /// The program, as the dry run names it.
    pub program: zigrunk_text,
    /// The value of PATH.
    pub path: zigrunk_text,
    /// The program's path, or NULL or an empty text if there is no such program.
    pub found: zigrunk_text,
}

/// Two dry runs without a line.
#[repr(C)]
pub struct zigrunk_plan_call {
    /// Standard error of the call with `--dryrun --keep`; any bytes.
    pub dry1: zigrunk_text,
    /// The same with `--keep-dir TMP --dryrun --keep`.
    pub dry2: zigrunk_text,
    /// The working directory: an absolute path without an empty part, "." or "..".
    pub cwd: zigrunk_text,
    /// TMP, the temporary directory: such a path too.
    pub tmp: zigrunk_text,
    /// The option that says what nvcc makes, as "-c"; empty if it links.
    pub flag: zigrunk_text,
    /// The call's environment, as environ.
    pub environment: zigrunk_texts,
    /// Suffixes of generated files, behind the standard ones.
    pub suffixes: zigrunk_texts,
    /// Where the programs are that the dry runs name; the first row of a look-up counts. NULL looks for them
    /// on this machine's disk.
    pub programs: *const zigrunk_found_program,
    /// How many there are.
    pub programs_count: usize,
    /// How many bytes of text reading each dry run may make, or 0: see `zigrunk_dry_runs`.
    pub limit: usize,
    /// `ZIGRUNK_GCC` ..
    pub host_compiler: u32,
    /// 1 if generated files keep nvcc's names, 0 if they get canonical ones.
    pub keeps_names: u32,
}

/// A command of a plan, or one that the plan dropped: of that only its words, its place and the reason say
/// something.
#[repr(C)]
pub struct zigrunk_command {
    /// The program's path, then its words.
    pub words: zigrunk_texts,
    /// Its environment, as `NAME=VALUE`. A name may occur twice: the last one counts.
    pub environment: zigrunk_texts,
    /// The directory that it runs in.
    pub cwd: zigrunk_text,
    /// The paths of the files that it reads by its words: see `missing`.
    pub reads: zigrunk_texts,
    /// Those that it writes.
    pub writes: zigrunk_texts,
    /// Those that it may write or leave out.
    pub may_write: zigrunk_texts,
    /// Such as `compute_80` or `sm_80`; those of a preprocessor are those of the cicc commands that read what
    /// it writes.
    pub targets: zigrunk_texts,
    /// The numbers of the commands that have to end before it starts, ascending.
    pub needs: *const usize,
    /// How many there are.
    pub needs_count: usize,
    /// The number of its group, from 0; `ZIGRUNK_ALL` if it was dropped.
    pub group: usize,
    /// The dry run that it is of: 1 or 2.
    pub dry_run: usize,
    /// Its line there, from 1.
    pub line: usize,
    /// `ZIGRUNK_FRONT` ..
    pub stage: u32,
    /// `ZIGRUNK_TOOL_CICC` ..
    pub tool: u32,
    /// `ZIGRUNK_NONE_MISSING` ..
    pub missing: u32,
    /// `ZIGRUNK_IN_GROUP`, or why the plan dropped it.
    pub reason: u32,
    /// 1 if its outputs may come from a cache, else 0.
    pub is_cacheable: u32,
    /// 1 if it only preprocesses, else 0.
    pub preprocesses: u32,
}

/// The commands of a plan.
#[repr(C)]
pub struct zigrunk_commands {
    /// Those of its groups in order, then those that it dropped.
    pub items: *const zigrunk_command,
    /// How many there are.
    pub count: usize,
    /// How many of them it dropped.
    pub dropped: usize,
    /// How many groups it has.
    pub groups: usize,
}

/// What one nvcc call runs.
#[repr(C)]
pub struct zigrunk_plan {
    made: zigrunk_made,
    commands: zigrunk_commands,
    // What `commands` points to.
    _records: Vec<zigrunk_command>,
    pub(crate) plan: Plan,
}

/// Where programs are: a caller's rows, or this machine's disk.
pub(crate) struct Table<'a> {
    rows: Option<Vec<ProgramRow<'a>>>,
    disk: Disk,
}

impl Table<'_> {
    /// # Safety
    ///
    /// The pointer is NULL or valid for so many elements.
    pub(crate) unsafe fn of(programs: *const zigrunk_found_program, count: usize) -> Result<Self, Error> {
        // SAFETY: the caller ensures it.
        let given = (!programs.is_null()).then(|| unsafe { elements(programs, count) });
        // SAFETY: the caller ensures it.
        let row_of = |row: &zigrunk_found_program| unsafe {
            Ok::<_, Error>((row.program.utf8()?, row.path.utf8()?, Some(row.found.utf8()?)))
        };
        let rows = given.map(|rows| listed(rows.iter().map(row_of))).transpose()?;
        Ok(Table { rows, disk: Disk::default() })
    }
}

impl Programs for Table<'_> {
    fn find(&self, program: &str, path: &str, cwd: &str) -> Result<Option<String>, OutOfMemory> {
        let of_rows = |rows: &Vec<ProgramRow<'_>>| found_in(rows.iter().copied(), program, path);
        self.rows.as_ref().map_or_else(|| self.disk.find(program, path, cwd), of_rows)
    }
}

fn record(
    room: &mut Room,
    command: &Command<'_>,
    stage: u32,
    environment: zigrunk_texts,
) -> Result<zigrunk_command, Error> {
    Ok(zigrunk_command {
        words: room.texts(iter::once(command.program()).chain(command.arguments()))?,
        environment,
        cwd: room.text(command.cwd())?,
        reads: room.texts(command.reads())?,
        writes: room.texts(command.writes())?,
        may_write: room.texts(command.may_write())?,
        targets: room.list(command.targets_in_parts()?.iter().map(|parts| parts.map(str::as_bytes)))?,
        needs: room.numbers(command.needs())?,
        needs_count: command.needs().len(),
        group: command.group().unwrap_or(usize::MAX),
        dry_run: command.run(),
        line: command.line(),
        stage,
        tool: command.tool().unwrap_or(CommandTool::Host) as u32,
        missing: command.missing().map_or(ZIGRUNK_NONE_MISSING, |missing| missing as u32 + 1),
        reason: command.reason().map_or(ZIGRUNK_IN_GROUP, |reason| reason as u32 + 1),
        is_cacheable: command.is_cacheable().into(),
        preprocesses: command.preprocesses().into(),
    })
}

/// A plan with its records. Commands get the variables that aren't UTF-8, too.
pub(crate) fn made_plan(plan: Plan, others: &[Vec<u8>]) -> Result<*mut zigrunk_plan, Error> {
    let (mut room, mut last) = (Room::default(), None::<(Command<'_>, zigrunk_texts)>);
    let grouped =
        plan.groups().flat_map(|group| group.commands().map(move |command| (command, group.stage())));
    let all = grouped.chain(plan.dropped().map(|command| (command, Stage::Front)));
    let mut records = Vec::new();
    records.try_reserve_exact(plan.commands().len() + plan.dropped().len())?;
    for (command, stage) in all {
        // (most commands have the environment of the one before)
        let is_same = |before: &Command<'_>| {
            before.reason() == command.reason() && before.variables().eq(command.variables())
        };
        let environment = match last.filter(|(before, _)| is_same(before)) {
            Some((_, environment)) => environment,
            None => {
                room.environment(command.variables(), if command.reason().is_none() { others } else { &[] })?
            }
        };
        last = Some((command, environment));
        records.push(record(&mut room, &command, stage as u32, environment)?);
    }
    let (items, count) = (records.as_ptr(), records.len());
    let commands =
        zigrunk_commands { items, count, dropped: plan.dropped().len(), groups: plan.groups().len() };
    give(zigrunk_plan { made: freed::<zigrunk_plan>(), commands, _records: records, plan }, room)
}

/// # Safety
///
/// What a caller ensures.
unsafe fn planned(given: &zigrunk_plan_call) -> Result<*mut zigrunk_plan, Error> {
    let host_compiler = meant(&HostCompiler::ALL, given.host_compiler, |compiler| compiler as u32)?;
    // SAFETY: the caller ensures it.
    let (environment, suffixes) = unsafe { (Environment::of(&given.environment)?, given.suffixes.utf8()?) };
    // SAFETY: the caller ensures it.
    let table = unsafe { Table::of(given.programs, given.programs_count)? };
    // SAFETY: the caller ensures it.
    let (runs, cwd, tmp, flag) = unsafe {
        ([given.dry1.bytes(), given.dry2.bytes()], given.cwd.path(), given.tmp.path(), given.flag.os())
    };
    let plan = call::plan(&PlanCall {
        flag: flag.to_str().unwrap_or("\u{fffd}"),
        keeps_names: given.keeps_names != 0,
        variables: &environment.variables,
        suffixes: &suffixes,
        host_compiler,
        limit: NonZeroUsize::new(given.limit),
        ..PlanCall::new(runs[0], runs[1], &table).at(cwd, tmp)
    })?;
    made_plan(plan, &copies(&environment.others)?)
}

/// Plans two dry runs alone.
#[no_mangle]
#[must_use]
pub unsafe extern "C" fn zigrunk_plan_of(
    given: *const zigrunk_plan_call,
    made: *mut *mut zigrunk_plan,
    error: *mut *mut zigrunk_error,
) -> i32 {
    // SAFETY: the caller ensures it.
    unsafe { answer(made, error, || planned(&*given)) }
}

/// The commands of a plan. They are freed with it.
#[no_mangle]
pub unsafe extern "C" fn zigrunk_plan_commands(plan: *const zigrunk_plan) -> *const zigrunk_commands {
    // SAFETY: the caller ensures it.
    unsafe { ptr::addr_of!((*plan).commands) }
}

/// The plan as a text: as "json", "ninja", "shell", "compdb" or "text". `ZIGRUNK_BAD_NUMBER` for another
/// format, `ZIGRUNK_UNWRITABLE` if the format can't represent the plan.
#[no_mangle]
#[must_use]
pub unsafe extern "C" fn zigrunk_plan_text(
    plan: *const zigrunk_plan,
    format: zigrunk_text,
    made: *mut *mut zigrunk_answer,
    error: *mut *mut zigrunk_error,
) -> i32 {
    // SAFETY: the caller ensures it.
    let format = || unsafe { format.os() }.to_str().and_then(Format::named).ok_or(ErrorKind::BadNumber);
    // SAFETY: the caller ensures it.
    unsafe { answer(made, error, || text((*plan).plan.text(format()?)?)) }
}

fn key_of(plan: &zigrunk_plan, command: usize) -> Result<*mut zigrunk_answer, Error> {
    let key =
        plan.plan.commands().nth(command).ok_or(ErrorKind::BadNumber)?.cache_key_by(&unix::real_path)?;
    let files = key.tool.iter().map(|path| path.as_os_str().as_encoded_bytes());
    texts(iter::once(key.text.as_slice()).chain(files))
}

/// What a cache hashes of a command of a plan, by its number: the first text, then the contents of the files
/// that the others name, which tell one version of its tool from another, and of what it reads. Two commands
/// for which all that is equal make files of equal contents, in whatever directories they run; two exceptions
/// are in the manual. `ZIGRUNK_BAD_LINE` if a cache may not serve the command: the message says why. So ask
/// when the commands that it needs have ended.
#[no_mangle]
#[must_use]
pub unsafe extern "C" fn zigrunk_plan_key(
    plan: *const zigrunk_plan,
    command: usize,
    made: *mut *mut zigrunk_answer,
    error: *mut *mut zigrunk_error,
) -> i32 {
    // SAFETY: the caller ensures it.
    unsafe { answer(made, error, || key_of(&*plan, command)) }
}
