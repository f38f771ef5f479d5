//! Calls of nvcc.
use crate::given::{Environment, collected, copies, zigrunk_text, zigrunk_texts};
use crate::made::{Room, answer, freed, give, zigrunk_error, zigrunk_made};
use crate::plans::{Table, made_plan, zigrunk_found_program, zigrunk_plan};
use call::{Call, DryRuns, Error, NvccCall, Processes, Ran, Run, copied_bytes};
use std::io;
use std::num::NonZeroUsize;
use std::ptr;
use unix::Spawned;

/// A call of nvcc.
#[repr(C)]
pub struct zigrunk_nvcc_call {
    /// nvcc's path or name.
    pub nvcc: zigrunk_text,
    /// The words behind it.
    pub words: zigrunk_texts,
    /// All of the environment, as environ: nvcc reads `NVCC_PREPEND_FLAGS` and `NVCC_APPEND_FLAGS` there, and
    /// the commands run in it.
    pub environment: zigrunk_texts,
    /// The working directory, an absolute path.
    pub cwd: zigrunk_text,
    /// The directory for temporary files, an absolute path. It has to be there.
    pub tmp: zigrunk_text,
}

/// What the dry runs of a call printed to standard error: any bytes.
#[repr(C)]
pub struct zigrunk_dry_runs {
    /// Of the line as it is, which says what nvcc does for the line.
    pub own: zigrunk_text,
    /// Of the first that is planned.
    pub first: zigrunk_text,
    /// Of the second.
    pub second: zigrunk_text,
    /// Where the programs are that they name. NULL looks for them on this machine's disk.
    pub programs: *const zigrunk_found_program,
    /// How many there are.
    pub programs_count: usize,
    /// How many bytes of text reading each dry run may make, or 0. Give a limit if someone else wrote them:
    /// 350 bytes of variables that refer to each other can turn into gigabytes.
    pub limit: usize,
}

/// A program to run, without a shell.
#[repr(C)]
#[derive(Clone, Copy)]
pub struct zigrunk_run {
    /// Its name or path, then its words; none if there is nothing to run.
    pub words: zigrunk_texts,
    /// Its whole environment, as `NAME=VALUE`.
    pub environment: zigrunk_texts,
    /// The directory that it runs in.
    pub cwd: zigrunk_text,
}

/// What a line of nvcc says.
#[repr(C)]
pub struct zigrunk_outline {
    /// The dry run of the line as it is.
    pub own_dry_run: zigrunk_run,
    /// The first that is planned.
    pub first_dry_run: zigrunk_run,
    /// The second.
    pub second_dry_run: zigrunk_run,
    /// What writes the dependency file, if the line asks for one. It's no command of the plan.
    pub dependencies: zigrunk_run,
    /// The option that says what nvcc makes, as "-c".
    pub flag: zigrunk_text,
    /// The directory that keeps generated files, or NULL.
    pub keep_dir: zigrunk_text,
    /// The source's path, as the dry runs have it.
    pub input: zigrunk_text,
    /// What the call makes: the product, and the dependency file if there is one.
    pub outputs: zigrunk_texts,
    /// How many commands may run at once, or 0 if nothing says it.
    pub jobs: usize,
}

/// A call whose line was read.
#[repr(C)]
pub struct zigrunk_call {
    made: zigrunk_made,
    outline: zigrunk_outline,
    call: Call,
    others: Vec<Vec<u8>>,
}

fn run_of(room: &mut Room, run: Option<&Run>, others: &[Vec<u8>]) -> Result<zigrunk_run, Error> {
    let (words, variables) = run.map_or((&[][..], &[][..]), |run| (run.words(), run.environment()));
    let variables = variables.iter().map(|(name, value)| (name.as_str(), value.as_str()));
    Ok(zigrunk_run {
        words: room.texts(words.iter().map(String::as_str))?,
        environment: room.environment(variables, others)?,
        cwd: room.text(run.map_or("", Run::cwd))?,
    })
}

fn outline_of(room: &mut Room, call: &Call, others: &[Vec<u8>]) -> Result<zigrunk_outline, Error> {
    let [own, first, second] = call.dry_runs();
    let outputs = collected(call.outputs())?;
    Ok(zigrunk_outline {
        own_dry_run: run_of(room, Some(own), others)?,
        first_dry_run: run_of(room, Some(first), others)?,
        second_dry_run: run_of(room, Some(second), others)?,
        dependencies: run_of(room, call.dependencies(), others)?,
        flag: room.text(call.flag())?,
        keep_dir: room.optional(call.keep_dir())?,
        input: room.text(call.input())?,
        outputs: room.texts(outputs.iter().copied())?,
        jobs: call.jobs().unwrap_or(0),
    })
}

/// # Safety
///
/// What a caller ensures.
unsafe fn read(given: &zigrunk_nvcc_call) -> Result<*mut zigrunk_call, Error> {
    // SAFETY: the caller ensures it.
    let (words, environment) = unsafe { (given.words.listed()?, Environment::of(&given.environment)?) };
    // SAFETY: the caller ensures it.
    let (nvcc, cwd, tmp) = unsafe { (given.nvcc.os(), given.cwd.path(), given.tmp.path()) };
    let call = Call::new(&NvccCall { nvcc, words: &words, variables: &environment.variables, cwd, tmp })?;
    let (mut room, others) = (Room::default(), copies(&environment.others)?);
    let outline = outline_of(&mut room, &call, &others)?;
    give(zigrunk_call { made: freed::<zigrunk_call>(), outline, call, others }, room)
}

/// Reads the line of a call. `ZIGRUNK_TO_NVCC` if nvcc has to make the call itself: the message has the
/// reason.
#[no_mangle]
#[must_use]
pub unsafe extern "C" fn zigrunk_call_of(
    given: *const zigrunk_nvcc_call,
    made: *mut *mut zigrunk_call,
    error: *mut *mut zigrunk_error,
) -> i32 {
    // SAFETY: the caller ensures it.
    unsafe { answer(made, error, || read(&*given)) }
}

/// What the line of a call says. It is freed with the call.
#[no_mangle]
pub unsafe extern "C" fn zigrunk_call_outline(call: *const zigrunk_call) -> *const zigrunk_outline {
    // SAFETY: the caller ensures it.
    unsafe { ptr::addr_of!((*call).outline) }
}

/// A dry run as a process, whose start needs no more memory than can be refused.
fn start(run: &Run) -> io::Result<Spawned> {
    let variables = run.environment().iter().map(|(name, value)| [name.as_str(), "=", value]);
    Spawned::start(run.words().iter().map(String::as_str), variables, run.cwd())
}

fn end(spawned: Spawned) -> io::Result<Ran> {
    spawned.ended().map(|(status, errors)| Ran { succeeded: status.succeeded(), errors })
}

/// Runs nvcc's dry runs, looks on the disk for the programs that they name, and plans.
#[no_mangle]
#[must_use]
pub unsafe extern "C" fn zigrunk_call_plan(
    call: *const zigrunk_call,
    made: *mut *mut zigrunk_plan,
    error: *mut *mut zigrunk_error,
) -> i32 {
    // SAFETY: the caller ensures it.
    unsafe {
        answer(made, error, || {
            made_plan((*call).call.plan_by(&mut Processes { start, end })?, &(*call).others)
        })
    }
}

/// # Safety
///
/// What a caller ensures.
unsafe fn plan_given(call: &zigrunk_call, given: &zigrunk_dry_runs) -> Result<*mut zigrunk_plan, Error> {
    // SAFETY: the caller ensures it.
    let (own, first, second) = unsafe { (given.own.bytes(), given.first.bytes(), given.second.bytes()) };
    let runs = DryRuns::new(copied_bytes(own)?, copied_bytes(first)?, copied_bytes(second)?);
    // SAFETY: the caller ensures it.
    let table = unsafe { Table::of(given.programs, given.programs_count)? };
    made_plan(call.call.plan_of(&runs, &table, NonZeroUsize::new(given.limit))?, &call.others)
}

/// Plans what the dry runs of a call printed, here or elsewhere. `ZIGRUNK_NO_DRY_RUN`, and the input that is
/// at fault, if the texts aren't the dry runs of this call; `ZIGRUNK_TO_NVCC` if nvcc does something else for
/// the line, or a command reads what no command before it writes.
#[no_mangle]
#[must_use]
pub unsafe extern "C" fn zigrunk_call_plan_of(
    call: *const zigrunk_call,
    given: *const zigrunk_dry_runs,
    made: *mut *mut zigrunk_plan,
    error: *mut *mut zigrunk_error,
) -> i32 {
    // SAFETY: the caller ensures it.
    unsafe { answer(made, error, || plan_given(&*call, &*given)) }
}
