//! The commands of one nvcc call, grouped as a compiler cache needs them: `groups CWD TMP FLAG DRY1 DRY2`. The files hold what
//! nvcc's two dry runs print on standard error.
//!
//! A cache starts a command once those that it needs have ended, looks up the outputs of each cacheable command, and runs the others.
//! A program that isn't on this machine counts as being at the first path that its look-up tries,
//! so that you can plan for another machine.

use std::error::Error;
use std::path::{Path, PathBuf};
use std::{env, fs, process};

use zigrunk::{FoundProgram, Plan, PlanCall, Stage, candidates, find_programs, plan, quote};

/// A command, ready to be run or looked up in a cache.
struct Subcommand {
    program: PathBuf,
    arguments: Vec<String>,
    variables: Vec<(String, String)>,
    cwd: PathBuf,
    cacheable: bool,
    needs: Vec<usize>,
}

/// Commands that run one after the other.
struct Group {
    stage: Stage,
    commands: Vec<Subcommand>,
}

/// The groups of a plan as values that own their texts.
fn owned(plan: &Plan) -> Vec<Group> {
    let subcommand = |command: zigrunk::Command<'_>| Subcommand {
        program: command.program().into(),
        arguments: command.arguments().map(String::from).collect(),
        variables: command.variables().map(|(name, value)| (name.into(), value.into())).collect(),
        cwd: command.cwd().into(),
        cacheable: command.is_cacheable(),
        needs: command.needs().to_vec(),
    };
    plan.groups().map(|group| Group { stage: group.stage(), commands: group.commands().map(subcommand).collect() }).collect()
}

/// The programs on this machine, and the first candidates of those that aren't here.
fn programs(dry1: &[u8], dry2: &[u8], cwd: &Path) -> Result<Vec<FoundProgram>, zigrunk::Error> {
    let mut programs = find_programs(dry1, dry2, cwd, None)?;
    for program in programs.iter_mut().filter(|program| program.found.is_none()) {
        program.found = candidates(&program.lookup, cwd)?.get(0).map(String::from);
    }
    Ok(programs)
}

fn print(groups: &[Group]) -> Result<(), zigrunk::Error> {
    for (number, group) in groups.iter().enumerate() {
        println!("group {number}, {:?}", group.stage);
        for Subcommand { program, arguments, variables, cwd, cacheable, needs } in &group.commands {
            let cached = if *cacheable { "cached" } else { "run" };
            println!(
                "    {cached} in {}: {} {} (variables: {}, needs: {needs:?})",
                cwd.display(),
                program.display(),
                quote(arguments)?,
                variables.len()
            );
        }
    }
    Ok(())
}

fn main() -> Result<(), Box<dyn Error>> {
    let words: Vec<String> = env::args().skip(1).collect();
    let [cwd, tmp, flag, first, second] = words.as_slice() else {
        eprintln!("usage: groups CWD TMP FLAG DRY1 DRY2");
        process::exit(2);
    };
    let (dry1, dry2) = (fs::read(first)?, fs::read(second)?);
    let programs = programs(&dry1, &dry2, cwd.as_ref())?;
    let call = PlanCall { flag, ..PlanCall::new(&dry1, &dry2, &programs).at(cwd, tmp) };
    let plan = plan(&call)?;
    print(&owned(&plan))?;
    for command in plan.dropped() {
        let reason = command.reason().map(|reason| format!("{reason:?}")).unwrap_or_default();
        println!("dropped, {reason}: {} {}", command.program(), quote(command.arguments())?);
    }
    Ok(())
}
