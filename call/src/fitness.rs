//! Whether a plan is its call's, and can be run.
use crate::error::{Error, Input, Unfit};
use crate::memory::{copied, openable};
use crate::outline::Outline;
use crate::plan::{Command, Plan};
use dry_run_pairs::without_folder;
use plan_fitness::{Directory, Fitness, PlanToRun, fitness};
use rattle_std::alloc::{AllocError, Global};
use rattle_std::string::String as Text;
use std::fs;
use texts::text::join;

/// The options by which a call makes an object.
const MAKE_OBJECTS: [&str; 6] = ["-c", "--compile", "-dc", "--device-c", "-dw", "--device-w"];

/// Refuses a plan that isn't its call's, or drops a command, or has a command without what it needs.
pub(crate) fn check_plan(plan: &Plan, outline: &Outline, second: &[u8]) -> Result<(), Error> {
    let source = path_in(plan.cwd(), outline.input())?;
    let product = outline.product().map(|product| path_in(plan.cwd(), product)).transpose()?;
    let of_call = |why| Error::no_dry_run(why).at_line(2, 0);
    let asked = PlanToRun {
        cwd: plan.cwd(),
        tmp: plan.tmp(),
        records: plan.records(),
        dropped: plan.dropped().len(),
        source: Some(source.as_str()),
        product: product.as_ref().map(Text::as_str),
    };
    match fitness(Global, &asked)? {
        Fitness::Fit => plan.commands().try_for_each(|command| check_names(plan, outline, command)),
        Fitness::OddDirectory(Directory::Working) => Err(Error::odd_directory(Input::Cwd)),
        Fitness::OddDirectory(Directory::Temporary) => Err(Error::odd_directory(Input::Tmp)),
        Fitness::NoCommand => Err(Error::no_dry_run(Unfit::NoCommand)),
        Fitness::Dropped => Err(plan
            .dropped()
            .next()
            .map_or_else(|| of_call(Unfit::Dropped), |command| unfit(Unfit::Dropped, command))),
        Fitness::Unwritten(number, place) => Err(unmade(plan, number, place, second)?),
        Fitness::SourceUnread => Err(of_call(Unfit::Unread(copied(outline.input())?))),
        Fitness::ProductUnwritten => {
            Err(of_call(Unfit::Unwritten(copied(asked.product.unwrap_or_default())?)))
        }
    }
}

/// A path as commands have it, of a word of one that runs in a directory.
fn path_in(cwd: &str, path: &str) -> Result<Text, AllocError> {
    join(Global, cwd, path)
}

/// The error of a command that reads a file in the temporary directory which none before it writes.
fn unmade(plan: &Plan, number: usize, place: usize, second: &[u8]) -> Result<Error, Error> {
    if without_folder(Global, second, plan.tmp())?.as_slice() == second {
        return Ok(Error::no_dry_run(Unfit::OtherDirectory).at_line(2, 0));
    }
    let command = plan.commands().nth(number);
    let path = copied(command.and_then(|command| command.reads().nth(place)).unwrap_or_default())?;
    let error = Error::no_dry_run(Unfit::Unmade(path));
    Ok(command.map_or(error.clone(), |command| error.at_line(command.run(), command.line())))
}

/// The error of a command.
fn unfit(why: Unfit, command: Command<'_>) -> Error {
    Error::no_dry_run(why).at_line(command.run(), command.line())
}

/// Two names in words of nvcc's tools. The source's real path shows where a dry run was made, if the source
/// is there. An object includes the fatbin by the name that cicc got, which no word of the host compiler
/// says.
fn check_names(plan: &Plan, outline: &Outline, command: Command<'_>) -> Result<(), Error> {
    let behind = |option: &str| command.arguments().skip_while(|word| *word != option).nth(1);
    if let Some(told) = behind("--orig_src_path_name").filter(|path| path.starts_with('/')) {
        let source = openable(path_in(plan.cwd(), outline.input())?.as_str()).and_then(fs::canonicalize);
        if source
            .is_ok_and(|source| openable(told).and_then(fs::canonicalize).map_or(true, |path| path != source))
        {
            return Err(unfit(Unfit::OtherSource(copied(told)?), command));
        }
    }
    let Some(fatbin) = behind("--include_file_name").filter(|_| MAKE_OBJECTS.contains(&plan.flag())) else {
        return Ok(());
    };
    let fatbin = path_in(command.cwd(), fatbin)?;
    let is_written = |command: Command<'_>| {
        command.writes().chain(command.may_write()).any(|path| path == fatbin.as_str())
    };
    if plan.commands().any(is_written) {
        Ok(())
    } else {
        Err(unfit(Unfit::Unmade(copied(fatbin.as_str())?), command))
    }
}
