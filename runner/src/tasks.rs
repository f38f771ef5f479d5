//! The commands of a plan as tasks for the machine.
use crate::caches;
use crate::nvcc_jobs;
use crate::system::Status;
use call::Run;
use machine::folder::OWN;
use machine::head_start::HeadStart;
use machine::jobs::{Job, Record};
use machine::planned::{Head, PlannedCommand};
use machine::settings::Settings;
use machine::task::Task;
use schedules::{CommandKind, usual_weight};

/// Where commands run, and what runs them.
pub struct Surroundings<'a> {
    /// What the environment says.
    pub settings: &'a Settings,
    /// The call's directory.
    pub tmp: &'a str,
    /// Where files of a single command go, if not into the call's directory.
    pub scratch: Option<String>,
}

/// A program's name.
pub fn program_of(command: &PlannedCommand) -> &str {
    command.program.rsplit('/').next().unwrap_or_default()
}

/// What a command is: its program's name, what a host compiler does, and for which target.
fn kind_of(command: &PlannedCommand) -> String {
    let does = command
        .words
        .iter()
        .find(|word| matches!(word.as_str(), "-E" | "-S" | "-c"))
        .map(|word| format!(" {word}"));
    let target = target(command).map(|target| format!(" {target}"));
    format!("{}{}{}", program_of(command), does.unwrap_or_default(), target.unwrap_or_default())
}

/// The target that a command's words name, as `sm_80`, or `__CUDA_ARCH__=800` for a preprocessor.
pub fn target(command: &PlannedCommand) -> Option<String> {
    let nexts = command.words.iter().skip(1).map(Some).chain([None]);
    command.words.iter().zip(nexts).find_map(|(word, next)| target_of(word, next))
}

/// The target that a word names, or the next one behind `-arch`.
fn target_of(word: &str, next: Option<&String>) -> Option<String> {
    if let Some(number) = word.strip_prefix("-D__CUDA_ARCH__=") {
        return Some(format!("__CUDA_ARCH__={number}"));
    }
    let is_target = |target: &&str| {
        target.starts_with("sm_") || target.starts_with("compute_") || target.starts_with("lto_")
    };
    let of_next = if word == "-arch" { next.map(String::as_str) } else { None };
    let named = word.strip_prefix("-arch=").or_else(|| word.strip_prefix("--arch=")).or(of_next);
    named.filter(is_target).map(String::from)
}

/// The name by which `ZIGRUNK_LAUNCHED` has a command.
fn launched_as(command: &PlannedCommand) -> &str {
    match program_of(command) {
        tool @ ("cudafe++" | "cicc" | "ptxas" | "fatbinary") => tool,
        _ if command.preprocesses => "-E",
        _ => "-c",
    }
}

/// How long a command usually takes.
fn weight_of(command: &PlannedCommand) -> usize {
    usual_weight(match launched_as(command) {
        "cudafe++" => CommandKind::CudaFe,
        "cicc" => CommandKind::Cicc,
        "ptxas" => CommandKind::Ptxas,
        "-E" => CommandKind::Preprocess,
        _ if command.words.iter().any(|word| word == "assembler") => CommandKind::Other,
        _ if command.words.iter().any(|word| word == "-c" || word == "-S") => CommandKind::HostCompile,
        _ => CommandKind::Other,
    })
}

/// Whether a command goes through the cache.
fn is_launched(command: &PlannedCommand, settings: &Settings) -> bool {
    let named = settings.launched.iter().any(|kind| kind == launched_as(command));
    !settings.launcher.is_empty() && if settings.launched.is_empty() { command.cacheable } else { named }
}

/// A command as a job, behind these words.
fn job_of(command: &PlannedCommand, before: &[&[String]], around: &Surroundings<'_>) -> Job {
    let own = format!("{}/{OWN}", around.tmp);
    let scratch = around.scratch.clone().unwrap_or(own);
    let given = [("TMPDIR".to_owned(), Some(scratch)), ("PWD".to_owned(), Some(command.folder.clone()))];
    let of_plan = command.variables.iter().map(|(name, value)| (name.clone(), Some(value.clone())));
    let is_of_plan = |name: &str| command.variables.iter().any(|(other, _)| other == name);
    let words = [&before.concat()[..], std::slice::from_ref(&command.program), &command.words[..]].concat();
    let variables = given.into_iter().filter(|(name, _)| !is_of_plan(name)).chain(of_plan).collect();
    Job { words, folder: command.folder.clone(), variables, ..Job::default() }
}

fn task_of(number: usize, command: &PlannedCommand, around: &Surroundings<'_>) -> Task {
    let settings = around.settings;
    // (the files that the command touches, if its words name them)
    let record = || Record {
        reads: command.reads.clone(),
        writes: [&command.writes[..], &command.may_write].concat(),
    };
    let bare = Job { record: command.complete.then(record), ..job_of(command, &[&settings.runner], around) };
    let (needs, preprocesses) = (command.needs.clone(), command.preprocesses);
    let (kind, weight) = (kind_of(command), weight_of(command));
    let own_words = command.words.len();
    let head_start = command.head.as_ref().map(|head| head_start(head, &bare, own_words));
    let task =
        Task { command: Some(number), needs, kind, weight, preprocesses, head_start, ..Task::default() };
    if !is_launched(command, settings) {
        return Task { job: bare, ..task };
    }
    let mut job = job_of(command, &[&settings.runner, &settings.launcher], around);
    let statistics = caches::file_of(number, settings, around.tmp);
    job.variables.extend(caches::variables_of(statistics.as_ref()));
    Task { job, without_launcher: Some(bare), statistics, ..task }
}

/// How a task begins early, given its own job, whose last words are so many of its command.
fn head_start(head: &Head, job: &Job, own_words: usize) -> HeadStart {
    let before = job.words.len().saturating_sub(own_words);
    let words = job.words.iter().take(before).chain(&head.words).cloned().collect();
    let Head { needs, file, withheld, wait, .. } = head.clone();
    HeadStart { needs, file, withheld, job: Job { words, ..job.clone() }, wait }
}

/// The commands of a plan as tasks. What makes the dependency file runs as nvcc's own job.
pub fn tasks_of(commands: &[PlannedCommand], rule: Option<&Run>, around: &Surroundings<'_>) -> Vec<Task> {
    let mut number = 0..;
    let mut task = |command: &PlannedCommand| match rule.filter(|_| command.is_rule) {
        Some(run) => Task {
            job: nvcc_jobs::job(run),
            needs: command.needs.clone(),
            is_rule: true,
            kind: "nvcc -M".into(),
            ..Task::default()
        },
        None => task_of(number.next().unwrap_or_default(), command, around),
    };
    commands.iter().map(&mut task).collect()
}

/// A command as a task that needs no other.
pub fn lone_task_of(command: &PlannedCommand, around: &Surroundings<'_>) -> Task {
    Task { needs: Vec::new(), ..task_of(0, command, around) }
}

/// Whether a task preprocesses for the host.
pub fn preprocesses_for_host(task: &Task) -> bool {
    task.preprocesses && !task.kind.contains("__CUDA_ARCH__=")
}

/// Tasks of these commands in the order in which nvcc runs them: that of their lines, but if nvcc makes the
/// dependency file, or has threads, those come first that preprocess. A task stays behind those that it
/// needs.
pub fn in_nvccs_order(tasks: &[Task], commands: &[PlannedCommand], has_threads: bool) -> Vec<Task> {
    let has_rule = tasks.iter().any(|task| task.is_rule);
    let turn = |task: &Task| match task {
        _ if !has_rule && !has_threads => 0,
        task if has_rule && preprocesses_for_host(task) => 1,
        task if task.preprocesses => 0,
        task if task.is_rule => 2,
        _ => 3,
    };
    let line = |task: &Task| task.command.map(|number| commands[number].line);
    reordered(tasks, &order_by(tasks, |task| (turn(task), line(task))))
}

/// The order of tasks by what a function says of them, but that each is behind those that it needs.
fn order_by<Key: Ord>(tasks: &[Task], key: impl Fn(&Task) -> Key) -> Vec<usize> {
    let mut order: Vec<usize> = Vec::with_capacity(tasks.len());
    let mut left: Vec<usize> = (0..tasks.len()).collect();
    while !left.is_empty() {
        let is_ready = |number: usize| tasks[number].needs.iter().all(|need| order.contains(need));
        let ready = (0..left.len()).filter(|&place| is_ready(left[place]));
        // There is always one, because the first of those left needs only earlier ones, which are placed.
        let next = ready.min_by_key(|&place| key(&tasks[left[place]])).unwrap_or(0);
        order.push(left.remove(next));
    }
    order
}

/// Tasks in another order, with new numbers for those that they need.
fn reordered(tasks: &[Task], order: &[usize]) -> Vec<Task> {
    let place = |number: &usize| order.iter().position(|other| other == number);
    let task = |&number: &usize| {
        let mut task = tasks[number].clone();
        task.needs = task.needs.iter().filter_map(place).collect();
        if let Some(start) = &mut task.head_start {
            start.needs = start.needs.iter().filter_map(place).collect();
        }
        task
    };
    order.iter().map(task).collect()
}

/// What a shell says of a command that a signal ended.
pub fn words_of_death(status: Status) -> String {
    let name = match status.signal {
        Some(4) => "Illegal instruction",
        Some(6) => "Aborted",
        Some(7) => "Bus error",
        Some(8) => "Floating point exception",
        Some(9) => "Killed",
        Some(11) => "Segmentation fault",
        Some(15) => "Terminated",
        _ => return String::new(),
    };
    format!("{name}{}\n", if status.dumped { " (core dumped)" } else { "" })
}

#[cfg(test)]
mod tests {
    use super::*;
    use std::cmp::Reverse;

    fn command(line: &str) -> PlannedCommand {
        let mut words = line.split(' ').map(String::from);
        PlannedCommand {
            program: words.next().unwrap(),
            words: words.collect(),
            folder: "/w".into(),
            ..PlannedCommand::default()
        }
    }

    fn preprocessor(line: &str) -> PlannedCommand {
        PlannedCommand { preprocesses: true, ..command(line) }
    }

    fn around(settings: &Settings) -> Surroundings<'_> {
        Surroundings { settings, tmp: "/t", scratch: None }
    }

    fn value<'a>(job: &'a Job, name: &str) -> Vec<Option<&'a str>> {
        job.variables.iter().filter(|(other, _)| other == name).map(|(_, value)| value.as_deref()).collect()
    }

    #[test]
    fn kinds_name_program_phase_and_target() {
        let cases = [
            ("/b/gcc -E -D__CUDA_ARCH__=800 k.cu", "gcc -E __CUDA_ARCH__=800", Some("__CUDA_ARCH__=800")),
            ("g++-12 -c k.cpp -E", "g++-12 -c", None),
            ("gcc -S k.cpp", "gcc -S", None),
            ("/n/cicc -arch compute_80 k.ii", "cicc compute_80", Some("compute_80")),
            ("ptxas -arch=sm_100a k.ptx", "ptxas sm_100a", Some("sm_100a")),
            ("nvlink --arch=lto_90 k.o", "nvlink lto_90", Some("lto_90")),
            ("ptxas -arch=native -arch=sm_75", "ptxas sm_75", Some("sm_75")),
            ("cicc k.ii -arch", "cicc", None),
            ("cicc sm_80 -o -arch", "cicc", None),
            ("fatbinary --image=x", "fatbinary", None),
        ];
        for (line, kind, named) in cases {
            assert_eq!(
                (kind_of(&command(line)).as_str(), target(&command(line)).as_deref()),
                (kind, named),
                "{line}"
            );
        }
    }

    #[test]
    fn commands_weigh_what_their_kind_does() {
        let cases = [
            (command("/b/cudafe++ x"), "cudafe++", CommandKind::CudaFe),
            (command("cicc x"), "cicc", CommandKind::Cicc),
            (command("ptxas x"), "ptxas", CommandKind::Ptxas),
            (command("fatbinary x"), "fatbinary", CommandKind::Other),
            (preprocessor("gcc -E k.cu"), "-E", CommandKind::Preprocess),
            (command("gcc -c -x c++ k.cpp"), "-c", CommandKind::HostCompile),
            (command("gcc -S k.cpp"), "-c", CommandKind::HostCompile),
            (command("gcc -c -x assembler k.s"), "-c", CommandKind::Other),
            (command("nvlink k.o"), "-c", CommandKind::Other),
        ];
        for (command, name, kind) in cases {
            assert_eq!(
                (launched_as(&command), weight_of(&command)),
                (name, usual_weight(kind)),
                "{command:?}"
            );
        }
        let heavier = [CommandKind::Cicc, CommandKind::Other].map(usual_weight);
        assert!(heavier[0] > heavier[1], "kinds differ");
    }

    #[test]
    fn the_cache_gets_what_the_plan_or_the_caller_says() {
        let cacheable = |line: &str| PlannedCommand { cacheable: true, ..command(line) };
        let settings = |launcher: &str, launched: &[&str]| Settings {
            launcher: launcher.split_whitespace().map(String::from).collect(),
            launched: launched.iter().map(|kind| (*kind).to_owned()).collect(),
            ..Settings::default()
        };
        let cases = [
            ("", vec![], cacheable("cicc x"), false),
            ("", vec!["cicc"], cacheable("cicc x"), false),
            ("ccache", vec![], cacheable("cicc x"), true),
            ("ccache", vec![], command("cicc x"), false),
            ("ccache", vec!["ptxas", "cicc"], command("cicc x"), true),
            ("ccache", vec!["ptxas", "-c"], cacheable("cicc x"), false),
            ("ccache", vec!["-E"], preprocessor("gcc -E x"), true),
        ];
        for (launcher, launched, command, wanted) in cases {
            assert_eq!(
                is_launched(&command, &settings(launcher, &launched)),
                wanted,
                "{launcher} {launched:?} {command:?}"
            );
        }
    }

    #[test]
    fn jobs_have_words_folders_and_variables() {
        let settings = Settings {
            runner: vec!["srun".into(), "-n1".into()],
            launcher: vec!["ccache".into(), "-x".into()],
            ..Settings::default()
        };
        let of_plan = vec![("PWD".to_owned(), "/p".to_owned()), ("A".into(), "1".into())];
        let plain = PlannedCommand { variables: of_plan, needs: vec![3], ..command("gcc -c k.cpp") };
        let task = task_of(0, &plain, &around(&settings));
        assert_eq!(task.job.words, ["srun", "-n1", "gcc", "-c", "k.cpp"]);
        assert_eq!(
            (task.job.folder.as_str(), task.job.shares_slot, task.kind.as_str(), task.needs),
            ("/w", false, "gcc -c", vec![3])
        );
        assert_eq!(
            ["TMPDIR", "PWD", "A"].map(|name| value(&task.job, name)),
            [vec![Some("/t/zigrunk.tmp")], vec![Some("/p")], vec![Some("1")]]
        );
        assert_eq!((task.without_launcher, task.statistics), (None, None));

        let task = task_of(
            0,
            &PlannedCommand { cacheable: true, ..command("cicc -arch=sm_80 x") },
            &around(&settings),
        );
        assert_eq!(task.job.words, ["srun", "-n1", "ccache", "-x", "cicc", "-arch=sm_80", "x"]);
        assert_eq!(
            task.without_launcher.map(|job| job.words),
            Some(["srun", "-n1", "cicc", "-arch=sm_80", "x"].map(String::from).to_vec())
        );
        assert_eq!(
            (value(&task.job, "PWD"), task.weight),
            (vec![Some("/w")], usual_weight(CommandKind::Cicc))
        );

        let elsewhere = Surroundings { scratch: Some("/s".into()), ..around(&settings) };
        assert_eq!(value(&task_of(0, &plain, &elsewhere).job, "TMPDIR"), [Some("/s")]);
    }

    #[test]
    fn the_rule_runs_as_nvccs_own_job() {
        let settings = Settings::default();
        let rule = PlannedCommand { is_rule: true, needs: vec![0], ..command("nvcc -M") };
        let commands = [
            preprocessor("gcc -E a"),
            command("cicc b"),
            rule,
            PlannedCommand { needs: vec![1, 2], ..command("gcc -c k.cpp") },
        ];
        let run = Run::new(vec!["nvcc".into(), "-M".into()], "/f".into());
        let tasks = tasks_of(&commands, Some(&run), &around(&settings));
        assert_eq!(
            tasks.iter().map(|task| (task.command, task.is_rule, task.needs.clone())).collect::<Vec<_>>(),
            [
                (Some(0), false, vec![]),
                (Some(1), false, vec![]),
                (None, true, vec![0]),
                (Some(2), false, vec![1, 2])
            ]
        );
        let rule = &tasks[2];
        assert_eq!(
            (rule.job.words.as_slice(), rule.job.folder.as_str(), rule.kind.as_str()),
            (run.words(), "/f", "nvcc -M")
        );
        assert_eq!(
            ["NVCC_PREPEND_FLAGS", "NVCC_APPEND_FLAGS"].map(|name| value(&rule.job, name)),
            [[None], [None]]
        );
        assert!(!rule.job.shares_slot && rule.without_launcher.is_none());
    }

    #[test]
    fn a_head_has_the_tasks_own_job_but_for_its_words() {
        let settings = Settings { runner: vec!["srun".into()], ..Settings::default() };
        let head = Head {
            words: vec!["-x".into(), "other.ii".into()],
            needs: vec![1],
            file: "/t/id".into(),
            ..Head::default()
        };
        let cicc = PlannedCommand { needs: vec![0, 1], head: Some(head), ..command("cicc -x k.ii") };
        let task = task_of(2, &cicc, &around(&settings));
        let start = task.head_start.unwrap();
        assert_eq!(
            (start.job.words, start.needs, start.file.to_str()),
            (["srun", "cicc", "-x", "other.ii"].map(String::from).to_vec(), vec![1], Some("/t/id"))
        );
        assert_eq!(
            (start.job.folder, task.job.words[2..].to_vec()),
            (task.job.folder, ["-x", "k.ii"].map(String::from).to_vec())
        );
    }

    #[test]
    fn a_shell_names_the_signals_that_end_commands() {
        let words = |signal, dumped| words_of_death(Status { code: 128, signal, dumped });
        let named = [
            (4, "Illegal instruction"),
            (6, "Aborted"),
            (7, "Bus error"),
            (8, "Floating point exception"),
            (9, "Killed"),
            (11, "Segmentation fault"),
            (15, "Terminated"),
        ];
        for (signal, name) in named {
            assert_eq!(words(Some(signal), false), format!("{name}\n"));
        }
        assert_eq!(words(Some(11), true), "Segmentation fault (core dumped)\n");
        assert_eq!([words(None, false), words(None, true), words(Some(2), true)], ["", "", ""]);
    }

    fn task(kind: &str, preprocesses: bool, needs: &[usize]) -> Task {
        Task {
            kind: kind.into(),
            preprocesses,
            is_rule: kind == "nvcc -M",
            needs: needs.to_vec(),
            ..Task::default()
        }
    }

    /// Tasks in nvcc's order, each with what it needs.
    fn in_order(tasks: &[Task]) -> Vec<(String, Vec<usize>)> {
        in_nvccs_order(tasks, &[], false).into_iter().map(|task| (task.kind, task.needs)).collect()
    }

    #[test]
    fn tasks_come_in_the_order_of_their_lines() {
        let commands = [0, 1, 8, 2, 3, 4, 9].map(|line| PlannedCommand { line, ..PlannedCommand::default() });
        let kinds = ["gcc -E 90", "cicc 90", "ptxas 90", "gcc -E 75", "cicc 75", "ptxas 75", "fatbinary"];
        let needs: [&[usize]; 7] = [&[], &[0], &[1], &[], &[3], &[4], &[2, 5]];
        let numbered =
            |number: usize| Task { command: Some(number), ..task(kinds[number], false, needs[number]) };
        let tasks: Vec<Task> = (0..7).map(numbered).collect();
        let ordered = in_nvccs_order(&tasks, &commands, false);
        let places: Vec<_> = ordered.iter().map(|task| (task.command.unwrap(), task.needs.clone())).collect();
        let wanted: [(usize, &[usize]); 7] =
            [(0, &[]), (1, &[0]), (3, &[]), (4, &[2]), (5, &[3]), (2, &[1]), (6, &[5, 4])];
        assert_eq!(places, wanted.map(|(number, needs)| (number, needs.to_vec())));
        let late = [4, 1, 2, 3, 0, 5, 6].map(|line| PlannedCommand { line, ..PlannedCommand::default() });
        let order: Vec<_> =
            in_nvccs_order(&tasks, &late, false).iter().map(|task| task.command.unwrap()).collect();
        assert_eq!(order, [3, 4, 0, 1, 2, 5, 6], "each stays behind what it needs");
        let tasks: Vec<Task> = tasks
            .into_iter()
            .map(|task| Task { preprocesses: task.kind.starts_with("gcc"), ..task })
            .collect();
        let order: Vec<_> =
            in_nvccs_order(&tasks, &commands, true).iter().map(|task| task.command.unwrap()).collect();
        assert_eq!(order, [0, 3, 1, 4, 5, 2, 6], "with threads");
    }

    #[test]
    fn with_a_dependency_file_preprocessors_come_first() {
        let [device, other] = ["gcc -E __CUDA_ARCH__=800", "gcc -E __CUDA_ARCH__=900"];
        let tasks = [
            task("gcc -E", true, &[]),
            task("cudafe++", false, &[0]),
            task(device, true, &[]),
            task("cicc", false, &[1, 2]),
            task(other, true, &[]),
            task("nvcc -M", false, &[0, 2, 4]),
            task("gcc -c", false, &[3, 5]),
        ];
        let wanted: [(&str, &[usize]); 7] = [
            (device, &[]),
            (other, &[]),
            ("gcc -E", &[]),
            ("nvcc -M", &[2, 0, 1]),
            ("cudafe++", &[2]),
            ("cicc", &[4, 0]),
            ("gcc -c", &[5, 3]),
        ];
        assert_eq!(in_order(&tasks), wanted.map(|(kind, needs)| (kind.to_owned(), needs.to_vec())));
    }

    #[test]
    fn a_head_start_needs_the_same_tasks() {
        let mut cicc = task("cicc", false, &[0, 1]);
        cicc.head_start = Some(HeadStart { needs: vec![1], ..HeadStart::default() });
        let tasks = vec![
            task("cudafe++", false, &[]),
            task("gcc -E __CUDA_ARCH__=800", true, &[]),
            task("nvcc -M", false, &[1]),
            cicc,
        ];
        let ordered = in_nvccs_order(&tasks, &[], false);
        assert_eq!(
            ordered
                .iter()
                .map(|task| task.head_start.as_ref().map(|start| start.needs.clone()))
                .collect::<Vec<_>>(),
            [None, None, None, Some(vec![0])]
        );
        let without = [&tasks[..2], &tasks[3..]].concat();
        assert_eq!(
            in_nvccs_order(&without, &[], false).iter().map(|task| &task.kind).collect::<Vec<_>>(),
            without.iter().map(|task| &task.kind).collect::<Vec<_>>()
        );
    }

    #[test]
    fn a_task_stays_behind_those_that_it_needs() {
        let tasks = [
            task("gcc -E", true, &[]),
            task("cudafe++", false, &[0]),
            task("gcc -E __CUDA_ARCH__=800", true, &[1]),
        ];
        assert_eq!(order_by(&tasks, |task| Reverse(task.kind.len())), [0, 1, 2]);
    }
}
