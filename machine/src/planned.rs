//! The commands of a call as the driver runs them, which the proved crate `call_tasks` makes of its plan.
use crate::folder::OWN;
use crate::head_start::Wait;
use crate::proved::{held, text};
use crate::rooted::Rooting;
use crate::system::may_write;
use call::{Error, Plan, Run};
use call_tasks::{Asks, Head as ListedHead, Task as ListedTask, head_needs_of, needs_of, tasks_of};
use compilers::command::Cacheable;
use compilers::plans::NvccGeneratedSubcommand as Command;
use early_starts::Split;
use rattle_std::alloc::{AllocError, Global};
use rattle_std::string::String as Text;
use std::path::{Path, PathBuf};
use texts::variables::Variables;
use texts::words::Words;

/// A command of a plan, or what makes the dependency file.
#[allow(clippy::struct_excessive_bools, reason = "each is a fact of its own")]
#[derive(Clone, PartialEq, Eq, Debug, Default)]
pub struct PlannedCommand {
    /// The line of a dry run that it comes from, the first is 1.
    pub line: usize,
    /// The program's path, and the words behind it.
    pub program: String,
    /// The words behind it.
    pub words: Vec<String>,
    /// Where it runs.
    pub folder: String,
    /// The variables that the plan sets for it.
    pub variables: Vec<(String, String)>,
    /// Whether a cache may serve its outputs.
    pub cacheable: bool,
    /// Whether it only preprocesses.
    pub preprocesses: bool,
    /// Whether it makes the dependency file.
    pub is_rule: bool,
    /// The earlier commands that have to end before it starts, or goes on behind its head.
    pub needs: Vec<usize>,
    /// The files of its record: those that it reads, writes, and may write.
    pub reads: Vec<String>,
    /// Those that it writes.
    pub writes: Vec<String>,
    /// Those that it may write.
    pub may_write: Vec<String>,
    /// Whether these are all files that it touches.
    pub complete: bool,
    /// How it begins before a file is there that it reads late, if it may.
    pub head: Option<Head>,
}

/// How a command begins before a file is there that it reads late.
#[derive(Clone, PartialEq, Eq, Debug, Default)]
pub struct Head {
    /// The words behind the program with which it begins.
    pub words: Vec<String>,
    /// The earlier commands that have to end before it begins.
    pub needs: Vec<usize>,
    /// The file.
    pub file: PathBuf,
    /// The name by which it reads the file.
    pub withheld: PathBuf,
    /// How it waits for the file.
    pub wait: Wait,
}

/// What a call asks for when its plan is made into commands.
#[allow(clippy::struct_excessive_bools, reason = "each is a fact of its own")]
#[derive(Clone, Copy, Default)]
pub struct Wishes<'a> {
    /// Whether nvcc's tools run in the call's own directory. There the words of a user mean what they mean to
    /// nvcc.
    pub in_place: bool,
    /// Whether the last host compile may run in two halves.
    pub halves: bool,
    /// Whether its first half may begin before the stub file is there.
    pub pipes: bool,
    /// Whether cicc may begin before the module id is there.
    pub heads: bool,
    /// Whether preprocessors wait for each other only if they share a file.
    pub frees: bool,
    /// What makes the dependency file.
    pub rule: Option<&'a Run>,
    /// How commands name files of a checkout that products don't name.
    pub rooting: Option<&'a Rooting>,
}

/// How many bytes a file's name may have. A plan with a longer one isn't run, since its command would fail
/// late.
const LONGEST_NAME: usize = 255;

/// Options by which a host compiler writes a dependency file, or prints its text.
const RULE_OPTIONS: [&str; 9] = [
    "-M",
    "-MM",
    "-MD",
    "-MMD",
    "-MJ",
    "--dependencies",
    "--user-dependencies",
    "--write-dependencies",
    "--write-user-dependencies",
];

impl PlannedCommand {
    /// Whether it has its host compiler write a dependency file, which no record has, so nothing keeps two of
    /// them in order. A line that says so isn't split; nvcc's profile may say it too.
    pub fn writes_rule(&self) -> bool {
        let is_rule =
            |word: &str| RULE_OPTIONS.contains(&word.split_once('=').map_or(word, |(option, _)| option));
        let is_for_rule = |word: &String| {
            is_rule(word) || word.strip_prefix("-Wp,").is_some_and(|words| words.split(',').any(is_rule))
        };
        !self.is_rule && self.words.iter().any(is_for_rule)
    }

    /// Whether it writes a file whose name no disk takes.
    pub fn writes_long_name(&self) -> bool {
        self.writes.iter().filter_map(|file| file.rsplit('/').next()).any(|name| name.len() > LONGEST_NAME)
    }

    /// Whether it can write its files. A tool that can't names them, or others, as the plan does.
    pub fn can_write(&self) -> bool {
        let is_free = |folder: &Path, file: &Path| {
            folder.is_dir() && !file.is_dir() && may_write(if file.exists() { file } else { folder })
        };
        let mut files = self.writes.iter().map(|file| Path::new(&self.folder).join(file));
        files.all(|file| file.parent().is_some_and(|folder| is_free(folder, &file)))
    }
}

fn string(text: &Text) -> String {
    text.as_str().to_owned()
}

fn strings(words: &Words) -> Vec<String> {
    words.as_slice().iter().map(string).collect()
}

/// What makes the dependency file, as the proved crates have it. Its variables aren't theirs.
fn command_of(run: &Run) -> Result<Command, AllocError> {
    let (exe, mut args) = (held(run.words().first().map_or("", String::as_str))?, Words::new(Global));
    for word in run.words().iter().skip(1) {
        args.push(text(word)?)?;
    }
    Ok(Command {
        exe,
        args,
        cwd: held(run.cwd())?,
        env_vars: Variables::new(Global),
        cacheable: Cacheable::No,
    })
}

fn asks_of(plan: &Plan, wishes: Wishes<'_>) -> Result<Asks, AllocError> {
    let own = held(&format!("{}/{OWN}", plan.tmp()))?;
    let Wishes { in_place, halves, pipes, heads, frees, rule, rooting } = wishes;
    let rule = rule.map(command_of).transpose()?;
    Ok(Asks {
        tmp: held(plan.tmp())?,
        cwd: held(plan.cwd())?,
        own,
        // (a rooted plan says itself where its tools run)
        in_place: in_place && rooting.is_none(),
        halves,
        pipes,
        heads,
        frees,
        rule,
    })
}

fn head_of(head: &ListedHead, needs: &[usize]) -> Head {
    Head {
        words: strings(&head.args),
        needs: needs.to_vec(),
        file: head.file.as_str().into(),
        withheld: head.withheld.as_str().into(),
        wait: head.wait.into(),
    }
}

/// A task of a plan, with what it and its head need, which comes from this line of a dry run.
fn planned(task: &ListedTask, needs: &[usize], of_head: &[usize], line: usize) -> PlannedCommand {
    let (command, files) = (&task.command, &task.step.files);
    PlannedCommand {
        line,
        program: command.exe.as_str().to_owned(),
        words: strings(&command.args),
        folder: command.cwd.as_str().to_owned(),
        variables: command
            .env_vars
            .as_slice()
            .iter()
            .map(|(name, value)| (string(name), string(value)))
            .collect(),
        cacheable: matches!(command.cacheable, Cacheable::Yes),
        preprocesses: task.step.preprocesses,
        is_rule: task.is_rule,
        needs: needs.to_vec(),
        reads: strings(&files.reads),
        writes: strings(&files.writes),
        may_write: strings(&files.may_write),
        complete: files.complete,
        head: task.head.as_ref().map(|head| head_of(head, of_head)),
    }
}

/// What is started of a plan, and the halves of its last host compile, if that runs in two.
/// An error if memory runs out.
pub fn commands_of(plan: &Plan, wishes: Wishes<'_>) -> Result<(Vec<PlannedCommand>, Option<Split>), Error> {
    let own = &plan.proved().plan;
    let rooted = wishes.rooting.map(|rooting| rooting.plan(own)).transpose()?;
    let made = tasks_of(Global, &asks_of(plan, wishes)?, rooted.as_ref().unwrap_or(own))?;
    let tasks: &[ListedTask] = &made.tasks;
    let (needs, of_heads) =
        (needs_of(Global, wishes.frees, tasks)?, head_needs_of(Global, wishes.frees, tasks)?);
    let lines: Vec<usize> = plan.commands().map(|command| command.line()).collect();
    let line = |number: usize| lines.get(number).or(lines.last()).copied().unwrap_or_default();
    let needs = needs.as_slice().iter().zip(of_heads.as_slice());
    let commands = tasks
        .iter()
        .zip(needs)
        .enumerate()
        .map(|(number, (task, (needs, of_head)))| planned(task, needs, of_head, line(number)));
    Ok((commands.collect(), made.split))
}

#[cfg(test)]
mod tests {
    use super::*;
    use crate::test_folder::TestFolder;
    use std::fs;

    #[test]
    fn host_compilers_may_write_rules_of_their_own() {
        let command = |line: &str| PlannedCommand {
            words: line.split(' ').map(String::from).collect(),
            ..PlannedCommand::default()
        };
        for option in RULE_OPTIONS {
            let made = command(&format!("-E {option} -MF x.d k.cu"));
            assert!(
                made.writes_rule() && !PlannedCommand { is_rule: true, ..made }.writes_rule(),
                "{option}"
            );
        }
        let writes = [
            "-c --write-dependencies=x.d k.cpp",
            "-E -Wp,-MD,x.d k.cu",
            "-E -Wp,-DA,-MMD,x.d k.cu",
            "-Xpreprocessor -MD k.cu",
        ];
        assert!(writes.into_iter().all(|line| command(line).writes_rule()));
        let others = [
            "-E -x c++ k.cu -o k.ii",
            "-m64 -MF x.d",
            "-MT a -MP",
            "-Wp,-DMD,-MP k.cu",
            "-I-MD/x -DM=-M",
            "a-MD",
            "-MDx",
            "-W,-MD",
        ];
        assert!(!others.into_iter().any(|line| command(line).writes_rule()));
    }

    #[test]
    fn a_name_may_be_too_long_for_a_disk() {
        let command = |names: &[usize]| PlannedCommand {
            writes: names.iter().map(|&length| format!("/t/{}", "k".repeat(length))).collect(),
            ..PlannedCommand::default()
        };
        let cases: [(&[usize], bool); 4] =
            [(&[255], false), (&[256], true), (&[1, 300, 1], true), (&[], false)];
        for (names, is_long) in cases {
            assert_eq!(command(names).writes_long_name(), is_long, "{names:?}");
        }
    }

    #[test]
    fn a_product_needs_a_folder() {
        let scratch = TestFolder::new();
        fs::create_dir(scratch.join("taken")).unwrap();
        fs::write(scratch.join("k.ptx"), "").unwrap();
        for (file, wanted) in [
            ("k.o", true),
            ("k.ptx", true),
            ("taken", false),
            ("no/k.o", false),
            ("k.ptx/k.o", false),
            ("taken/k.o", true),
        ] {
            let folder = scratch.to_str().unwrap().to_owned();
            let command = PlannedCommand { folder, writes: vec![file.into()], ..PlannedCommand::default() };
            assert_eq!(command.can_write(), wanted, "{file}");
        }
    }
}
