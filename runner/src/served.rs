//! A call that the cache has as a whole.
use crate::log::{self, LoggedCommand};
use crate::split::Outcome;
use crate::system::Status;
use cache::counts::{self, Counts};
use cache::miss::Miss;
use cache::{Store, calls, place};
use call::NvccLine;
use call::programs;
use machine::clock::now;
use machine::jobs::Ended;
use machine::settings::{Settings, own_variable};
use machine::streams::Said;
use machine::task::{Done, Task};
use std::path::{Path, PathBuf};

/// Makes what the cache has of a whole call, which has begun at a time, in seconds. Gives what it said and
/// what has come of it, or `None` if the call has to be made.
pub fn serve(settings: &Settings, line: &NvccLine, begun: f64) -> Option<(Said, Outcome)> {
    let (store, nvcc) = looked_up(settings, line).ok()?;
    let said = calls::serve(&store, line, &nvcc, settings.root.as_ref()).ok()?;
    counts::add(store.folder(), Counts { calls: 1, ..Counts::default() });
    let commands = if settings.log.is_some() { logged(begun) } else { Vec::new() };
    Some((said, Outcome { commands, ..Outcome::default() }))
}

/// Why the cache has nothing for a call, unless it has.
pub fn miss(settings: &Settings, line: &NvccLine) -> Option<Miss> {
    let looked_up = looked_up(settings, line);
    looked_up.map_or_else(Some, |(store, nvcc)| calls::miss(&store, line, &nvcc, settings.root.as_ref()))
}

/// Where a call is looked up, and its nvcc.
fn looked_up(settings: &Settings, line: &NvccLine) -> Result<(Store, PathBuf), Miss> {
    let reasons = [
        (calls::is_on(), "ZIGRUNK_CALLS is no"),
        (settings.launcher.is_empty(), "ZIGRUNK_LAUNCHER is set"),
        (settings.records.is_none(), "ZIGRUNK_RECORDS is set"),
        (settings.runs_here(), "its commands run elsewhere"),
    ];
    if let Some((_, why)) = reasons.iter().find(|(holds, _)| !holds) {
        return Err(Miss::NotLookedUp(why));
    }
    let store = place::store_of(settings, &line.cwd).ok_or(Miss::NotLookedUp("ZIGRUNK_CACHE is not set"))?;
    let path = own_variable("PATH").unwrap_or_default();
    let nvcc = programs::find(line.nvcc.as_ref(), &path, Path::new(&line.cwd));
    Ok((store, nvcc.ok_or(Miss::NotLookedUp("nvcc is not found"))?))
}

/// What the log has of such a call.
fn logged(begun: f64) -> Vec<LoggedCommand> {
    let status = Status { code: 0, signal: None, dumped: false };
    let ended = Ended { status, out: Vec::new(), errors: Vec::new(), times: (begun, now()) };
    let task = Task { kind: "nvcc".into(), ..Task::default() };
    log::commands(&[task], &[Done { asked: begun, ended: Some(ended), hit: Some(true), ..Done::default() }])
}
