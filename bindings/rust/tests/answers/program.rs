//! All that the crate says of the rows of `tests/callers/misuses.txt`, as `answers.c` there prints it: `answers ROOM < misuses.txt`.

use std::collections::VecDeque;
use std::error::Error;
use std::ffi::{OsStr, OsString};
use std::num::NonZeroUsize;
use std::os::unix::ffi::OsStrExt;
use std::path::{Path, PathBuf};
use std::{env, fs, io};

use zigrunk::schedule::{AfterFailure, Outcome, Schedule};
use zigrunk::{
    Call, Command, CommandTool, Disk, DropReason, DryRuns, Format, FoundProgram, KeyCall, LineCall, Missing, NvccCall, Plan,
    PlanCall, Run, Stage, Tool, Variable, candidates, command_key, headers, line_records, line_words, lookups, plan, quote,
    remap, split, variables,
};

fn print_text(name: &str, text: impl AsRef<[u8]>) {
    let mut escaped = String::new();
    for &byte in text.as_ref() {
        match byte {
            b'\\' | 0..=32 | 127.. => escaped += &format!("\\{byte:02x}"),
            _ => escaped.push(char::from(byte)),
        }
    }
    println!("{name} {escaped}");
}

fn print_texts<T: AsRef<[u8]>>(name: &str, texts: impl IntoIterator<Item = T>) {
    texts.into_iter().for_each(|text| print_text(name, text));
}

fn print_run(name: &str, run: Option<&Run>) {
    println!("{name}");
    if let Some(run) = run {
        print_texts(" word", run.words());
        print_texts(" variable", run.environment().iter().map(|(name, value)| format!("{name}={value}")));
        print_text(" cwd", run.cwd());
    }
}

fn print_refusal(error: &zigrunk::Error) {
    let (input, line) = error.place().map_or((0, 0), |place| (place.input.number(), place.line.unwrap_or(0)));
    println!("refused {} {input} {line}", error.status());
    print_text("message", error.to_string());
}

fn print_call(call: &Call) {
    for (name, run) in ["own", "first", "second"].iter().zip(call.dry_runs()) {
        print_run(name, Some(run));
    }
    print_run("dependencies", call.dependencies());
    print_text("flag", call.flag());
    print_text(if call.keep_dir().is_some() { "keep_dir" } else { "no keep_dir" }, call.keep_dir().unwrap_or_default());
    print_text("input", call.input());
    print_texts("output", call.outputs());
    println!("jobs {}", call.jobs().unwrap_or(0));
}

/// The numbers of `zigrunk.h`.
fn numbers(of: Command<'_>, stage: Option<Stage>) -> [u32; 4] {
    let stage = match stage {
        None | Some(Stage::Front) => 0,
        Some(Stage::Final) => 2,
        Some(_) => 1,
    };
    let tool = match of.tool() {
        Some(CommandTool::Cicc) => 0,
        Some(CommandTool::Ptxas) => 1,
        Some(CommandTool::CudaFe) => 2,
        Some(CommandTool::Fatbinary) => 6,
        Some(CommandTool::NvLink) => 7,
        _ => 8,
    };
    let missing = match of.missing() {
        None => 0,
        Some(Missing::Headers) => 2,
        Some(Missing::Inputs) => 3,
        Some(_) => 1,
    };
    let reason = match of.reason() {
        None => 0,
        Some(DropReason::NoCiccGroup) => 2,
        Some(DropReason::NoPtxasGroup) => 3,
        Some(DropReason::Superseded) => 4,
        Some(_) => 1,
    };
    [stage, tool, missing, reason]
}

fn print_command(of: Command<'_>, stage: Option<Stage>) {
    let [stage, tool, missing, reason] = numbers(of, stage);
    println!(
        "command of {} group, {}, stage {stage}, tool {tool}, missing {missing}, reason {reason}, run {}, line {}, cacheable {}, preprocesses {}",
        if of.group().is_some() { "a" } else { "no" },
        of.group().unwrap_or(0),
        of.run(),
        of.line(),
        u8::from(of.is_cacheable()),
        u8::from(of.preprocesses())
    );
    print_texts(" word", of.words());
    print_texts(" variable", of.variables().map(|(name, value)| format!("{name}={value}")));
    print_text(" cwd", of.cwd());
    print_texts(" reads", of.reads());
    print_texts(" writes", of.writes());
    print_texts(" may write", of.may_write());
    print_texts(" target", of.targets().unwrap_or_default());
    of.needs().iter().for_each(|need| println!(" needs {need}"));
}

fn print_key(of: Command<'_>) {
    match of.cache_key() {
        Ok(key) => {
            print_text(" key", key.text);
            print_texts(" key", key.tool.iter().map(|path| path.as_os_str().as_encoded_bytes()));
        }
        Err(error) => print_refusal(&error),
    }
}

/// What the line of a cicc command says, how it is written back, and the key of such a command without a plan.
fn print_line(of: Command<'_>) -> Result<(), Box<dyn Error>> {
    let words: Vec<&str> = of.words().collect();
    let call = LineCall { tool: Tool::Cicc, cwd: of.cwd().as_ref(), words: &words[1..], variables: &[] };
    let line = line_records(&call)?;
    print_texts(" line", [line.input(), line.compilation_flag()]);
    print_texts(" line", line.outputs().map(|output| output.key));
    print_texts(" line", line.outputs().map(|output| output.path));
    for texts in [line.dependency_args(), line.preprocessor_args(), line.common_args(), line.arch_args(), line.unhashed_args()] {
        print_texts(" line", texts);
    }
    print_texts(" line", line.extra_dist_files().chain(line.extra_hash_files()));
    let [dashes, optional] =
        [line.double_dash_input(), line.outputs().next().is_some_and(|output| output.is_optional)].map(u32::from);
    println!(" line of {} {} {dashes} {optional}", line.language() as u32, line.color_mode() as u32);
    print_texts(" written", line_words(&call)?.iter());
    let variables: Vec<_> = of.variables().map(|(name, value)| Variable::new(name, value)).collect();
    let key = KeyCall { tool: CommandTool::Cicc, words: &words, variables: &variables, roots: &[of.cwd().as_ref()] };
    print_text(" own key", command_key(&key)?);
    Ok(())
}

/// The look-ups of a call, the paths that each tries, and the plan if each finds the first.
fn print_table(call: &Call, runs: &DryRuns, cwd: &Path) -> Result<(), Box<dyn Error>> {
    let asked = lookups(runs.first(), runs.second(), cwd, None)?;
    print_texts("lookup", asked.iter().flat_map(|it| [&it.program, &it.path]));
    let mut programs = Vec::new();
    for lookup in asked {
        let tried = candidates(&lookup, cwd)?;
        print_texts("candidate", tried.iter());
        programs.push(FoundProgram { found: tried.get(0).map(String::from), lookup });
    }
    let text = |programs: &Vec<_>| call.plan_of(runs, programs, None).and_then(|plan| plan.text(Format::Text));
    let mut planned = text(&programs);
    if let Ok(whole) = planned {
        print_text("text", whole);
        programs[0].found = None;
        planned = text(&programs);
    }
    if let Err(error) = planned {
        print_refusal(&error);
    }
    Ok(())
}

/// Two slots, and the command that began first ends first.
fn print_schedule(plan: &Plan) -> Result<(), Box<dyn Error>> {
    let mut schedule = Schedule::of_plans([plan], 2, AfterFailure::StartEarlier)?;
    let mut running = VecDeque::new();
    while !schedule.is_over() {
        for next in schedule.start_ready() {
            println!("start {next}");
            running.push_back(next);
        }
        schedule.ended(running.pop_front().ok_or("nothing runs")?, Outcome::Success)?;
        println!("told {}", schedule.told(0..schedule.len()).commands.end);
    }
    Ok(())
}

/// One slot, and the third command fails.
fn print_failure(plan: &Plan) -> Result<(), Box<dyn Error>> {
    let mut schedule = Schedule::of_plans([plan], 1, AfterFailure::StartEarlier)?;
    while let Some(next) = schedule.start_next() {
        schedule.ended(next, if next == 2 { Outcome::Failure } else { Outcome::Success })?;
        println!("alone {next}, told {}", schedule.told(0..schedule.len()).commands.end);
    }
    println!("again {}", u8::from(schedule.ended(0, Outcome::Success).is_ok()));
    Ok(())
}

/// What a function gives, or why it refuses.
fn print_answer<T: AsRef<[u8]>>(name: &str, answer: Result<impl IntoIterator<Item = T>, zigrunk::Error>) {
    match answer {
        Ok(texts) => print_texts(name, texts),
        Err(error) => print_refusal(&error),
    }
}

fn print_own_words(words: &[OsString]) -> Result<(), Box<dyn Error>> {
    let Some(words) = words.iter().map(|word| word.to_str()).collect::<Option<Vec<_>>>() else {
        // (the crate takes no other words, so this is what the others say of them)
        print!("{}", "refused 2 0 0\nmessage a\\20text\\20is\\20not\\20UTF-8\n".repeat(2));
        return Ok(());
    };
    let quoted = quote(&words)?;
    print_text("quoted", &quoted);
    print_answer("split", split(&quoted).as_ref().map(|words| words.iter()).map_err(Clone::clone));
    print_answer("other", remap(&words, &[".x.ii"]).as_ref().map(|words| words.iter()).map_err(Clone::clone));
    Ok(())
}

/// Two dry runs without their line, within a limit: the commands, with those that are dropped.
fn print_alone(runs: &DryRuns, cwd: &Path, tmp: &Path, limit: usize) {
    println!("without a line, {limit}");
    let (disk, variables) = (Disk::default(), [Variable::new("ODD", "a b"), Variable::new("EMPTY", "")]);
    let given = PlanCall::new(runs.first(), runs.second(), &disk).at(cwd, tmp);
    match plan(&PlanCall { flag: "-c", variables: &variables, limit: NonZeroUsize::new(limit), ..given }) {
        Ok(plan) => {
            for group in plan.groups() {
                group.commands().for_each(|command| print_command(command, Some(group.stage())));
            }
            plan.dropped().for_each(|command| print_command(command, None));
            print_answer("compdb", plan.text(Format::Compdb).map(|text| [text]));
        }
        Err(error) => print_refusal(&error),
    }
}

fn print_plan(plan: &Plan) -> Result<(), Box<dyn Error>> {
    for group in plan.groups() {
        for command in group.commands() {
            print_command(command, Some(group.stage()));
            if command.tool() == Some(CommandTool::Cicc) {
                print_line(command)?;
            }
            print_key(command);
        }
    }
    plan.dropped().for_each(|command| print_command(command, None));
    for name in ["json", "ninja", "shell", "text"] {
        match plan.text(Format::named(name).ok_or("no such format")?) {
            Ok(text) => print_text(name, text),
            Err(error) => print_refusal(&error),
        }
    }
    // (the crate takes no name of a format, so this is what the others say of one that isn't there)
    print!("refused 3 0 0\nmessage a\\20number\\20has\\20no\\20meaning\n");
    if let Some(last) = plan.commands().next_back() {
        let words: Vec<&str> = last.words().collect();
        remap(&words, &[] as &[&str])?.iter().for_each(|word| print_text("renamed", word));
    }
    let output = b"# 1 \"a.h\"\n# 2 \"k \\\"b\" 2\n# 3 \"a.h\"\n";
    headers(output)?.iter().for_each(|name| print_text("header", name));
    print_schedule(plan)?;
    print_failure(plan)
}

fn print_made(tmp: &str, nvcc: &str, words: &[String]) -> Result<(), Box<dyn Error>> {
    let environment: Vec<_> = env::vars_os().collect();
    let made = Call::new(&NvccCall::new(nvcc, words).at(&env::current_dir()?, tmp).variables(&variables(&environment)));
    let planned = made.and_then(|call| {
        print_call(&call);
        call.plan()
    });
    match planned {
        Ok(plan) => print_plan(&plan)?,
        Err(error) => print_refusal(&error),
    }
    Ok(())
}

fn main() -> Result<(), Box<dyn Error>> {
    let words: Vec<String> = env::args().skip(1).collect();
    if let [mode, tmp, nvcc, words @ ..] = words.as_slice() {
        if mode == "--call" {
            return print_made(tmp, nvcc, words);
        }
    }
    let room = PathBuf::from(env::args_os().nth(1).ok_or("usage: answers ROOM")?);
    let environment: Vec<_> = env::vars_os().collect();
    for row in io::stdin().lines() {
        let row = row?;
        let [name, tmp, first, second, _, _, _, own, line] = row.split_whitespace().collect::<Vec<_>>()[..] else {
            return Err("a short row".into());
        };
        println!("== {name}");
        let read = |name: &str| fs::read(room.join(name));
        let (nvcc, cwd, tmp) = (room.join("bin/nvcc"), room.join("w"), room.join(tmp));
        let runs = DryRuns::new(read(own)?, read(first)?, read(second)?);
        let mut words: Vec<_> = read(line)?.split(|byte| *byte == 0).map(|word| OsStr::from_bytes(word).to_owned()).collect();
        words.pop();
        let given = NvccCall::new(&nvcc, &words).at(&cwd, &tmp);
        print_called(Call::new(&given.variables(&variables(&environment))), &runs, &cwd)?;
        for limit in [1 << 20, 1000] {
            print_alone(&runs, &cwd, &tmp, limit);
        }
        print_own_words(&words)?;
    }
    Ok(())
}

fn print_called(call: Result<Call, zigrunk::Error>, runs: &DryRuns, cwd: &Path) -> Result<(), Box<dyn Error>> {
    let planned = call.and_then(|call| {
        print_call(&call);
        let plan = call.plan_of(runs, &Disk::default(), None)?;
        Ok((call, plan))
    });
    match planned {
        Ok((call, plan)) => {
            print_plan(&plan)?;
            print_table(&call, runs, cwd)?;
        }
        Err(error) => print_refusal(&error),
    }
    Ok(())
}
