//! Writes which commands dry runs become, and measures how long that takes. The folder PEER_RUNS has NAME.flag, NAME.dry1 and NAME.dry2
//! for each call; its commands go to NAME.PEER_SIDE, and a line on standard output has the name and the median in microseconds.

use super::{group_nvcc_subcommands_by_compilation_stage, Cacheable, NvccGeneratedSubcommand, NvccHostCompiler};
use crate::mock_command::{exit_status, MockChild};
use crate::test::utils::{new_creator, next_command, single_threaded_runtime};
use std::collections::BTreeMap;
use std::path::{Path, PathBuf};
use std::time::{Duration, Instant};
use std::{env, fs};

type Groups = Vec<Vec<NvccGeneratedSubcommand>>;

/// How often each call is planned.
const TIMES: usize = 21;

#[test]
#[ignore = "needs dry runs in PEER_RUNS"]
fn plans() {
    let (runs, side) = (PathBuf::from(env::var_os("PEER_RUNS").unwrap()), env::var("PEER_SIDE").unwrap());
    let paths = fs::read_dir(runs).unwrap().map(|entry| entry.unwrap().path());
    let mut calls: Vec<PathBuf> = paths.filter(|path| path.extension().is_some_and(|end| end == "flag")).collect();
    calls.sort();
    for call in calls {
        let (mut times, groups): (Vec<Duration>, Vec<Groups>) = (0..TIMES).map(|_| planned(&call)).unzip();
        times.sort();
        fs::write(call.with_extension(&side), lines(&groups[0])).unwrap();
        println!("median {} {}", call.file_stem().unwrap().to_str().unwrap(), times[TIMES / 2].as_micros());
    }
}

/// The groups of a call, by two stand-ins for nvcc, and how long they took.
fn planned(call: &Path) -> (Duration, Groups) {
    let creator = new_creator();
    for run in ["dry1", "dry2"] {
        next_command(&creator, Ok(MockChild::new(exit_status(0), "", fs::read(call.with_extension(run)).unwrap())));
    }
    let flag = fs::read_to_string(call.with_extension("flag")).unwrap();
    let environment = [("HOME".into(), "/".into()), ("PATH".into(), "/bin".into())];
    let start = Instant::now();
    let groups = single_threaded_runtime().block_on(group_nvcc_subcommands_by_compilation_stage(
        &creator,
        "nvcc".as_ref(),
        &[],
        flag.trim().as_ref(),
        "/w".as_ref(),
        "/t".as_ref(),
        None,
        &environment,
        &NvccHostCompiler::Gcc,
        "k.o".as_ref(),
    ));
    (start.elapsed(), groups.unwrap())
}

/// A text of all commands. The order of device groups doesn't count, nor that of variables.
fn lines(groups: &Groups) -> String {
    let mut texts: Vec<String> = groups.iter().map(|group| group.iter().map(line).collect()).collect();
    let last = texts.len() - 1;
    texts[1..last].sort();
    texts.join("--\n")
}

fn line(command: &NvccGeneratedSubcommand) -> String {
    let NvccGeneratedSubcommand { exe, args, cwd, env_vars, cacheable } = command;
    let variables: BTreeMap<_, _> = env_vars.iter().cloned().collect();
    let cached = matches!(cacheable, Cacheable::Yes);
    format!("{cached} {cwd:?} {exe:?} {args:?} {variables:?}\n")
}
