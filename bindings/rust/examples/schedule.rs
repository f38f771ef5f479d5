//! Makes what nvcc makes, with up to four commands at once: `schedule CWD TMP NVCC WORD..`.

use std::error::Error;
use std::io::Write;
use std::process::{Command, Output};
use std::sync::mpsc;
use std::{env, io, process, thread};

use zigrunk::schedule::{AfterFailure, Outcome, Schedule};
use zigrunk::{Call, NvccCall, variables};

fn run(command: zigrunk::Command<'_>) -> io::Result<Output> {
    let mut process = Command::new(command.program());
    process.args(command.arguments()).current_dir(command.cwd()).env_clear().envs(command.variables()).output()
}

fn main() -> Result<(), Box<dyn Error>> {
    let words: Vec<String> = env::args().skip(1).collect();
    let [cwd, tmp, nvcc, words @ ..] = words.as_slice() else {
        eprintln!("usage: schedule CWD TMP NVCC WORD..");
        process::exit(2);
    };
    let environment: Vec<_> = env::vars_os().collect();
    let call = Call::new(&NvccCall::new(nvcc, words).at(cwd, tmp).variables(&variables(&environment)))?;
    if let Some(status) = call.dependencies().map(|run| run.command().status()).transpose()?.filter(|status| !status.success()) {
        process::exit(status.code().unwrap_or(1));
    }
    let plan = call.plan()?;
    let commands: Vec<_> = plan.commands().collect();
    let mut schedule = Schedule::of_plans([&plan], 4, AfterFailure::StartEarlier)?;
    let mut ran: Vec<Option<Output>> = vec![None; commands.len()];
    let (mut told, (sender, ended)) = (0, mpsc::channel());
    thread::scope(|scope| -> Result<(), Box<dyn Error>> {
        while !schedule.is_over() {
            for number in schedule.start_ready() {
                let (sender, command) = (sender.clone(), commands[number]);
                scope.spawn(move || sender.send((number, run(command))));
            }
            let (number, output) = ended.recv()?;
            let output = ran[number].insert(output?);
            schedule.ended(number, if output.status.success() { Outcome::Success } else { Outcome::Failure })?;
            let has_failed = told > 0 && ran[told - 1].as_ref().is_some_and(|last| !last.status.success());
            let now = schedule.told(told..if has_failed { told } else { commands.len() });
            for output in ran[now.commands.clone()].iter().flatten() {
                io::stdout().write_all(&output.stdout)?;
                io::stderr().write_all(&output.stderr)?;
            }
            told = now.commands.end;
        }
        Ok(())
    })?;
    let last = told.checked_sub(1).and_then(|number| ran[number].as_ref());
    process::exit(last.map_or(1, |output| output.status.code().unwrap_or(1)));
}
