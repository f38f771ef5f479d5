//! Plans: of real calls, with all settings, and of bad ones.

mod stored;

use std::num::NonZeroUsize;
use std::path::Path;

use stored::Stored;
use zigrunk::{
    Command, CommandTool, DropReason, Error, ErrorKind, Format, FoundProgram, HostCompiler, Input, LineCall, Missing, Plan,
    PlanCall, Programs, Stage, Tool, Variable, candidates, find_programs, line_words, lookups, plan, variables,
};

const RUN: &[u8] = b"#$ PATH=/b\n#$ gcc -D__NVCC__ -E k.cu -o k.cpp1.ii\n#$ cicc --x k.gpu k.cpp1.ii -o k.ptx\n";

/// A dry run of the same call that isn't the same text.
const RUN2: &[u8] = b"#$ PATH=/b\n#$ gcc -D__NVCC__ -E k.cu -o k.cpp1.ii\n#$ cicc --x k.gpu k.cpp1.ii -o k.ptx\n#$ rm k\n";

/// Answers each look-up with the first path that it tries, as if all programs were there.
fn first_candidates(dry1: &[u8], dry2: &[u8]) -> Vec<FoundProgram> {
    let first = |lookup| FoundProgram { found: Some(candidates(&lookup, "/w".as_ref()).unwrap()[0].to_string()), lookup };
    lookups(dry1, dry2, "/w".as_ref(), None).unwrap().into_iter().map(first).collect()
}

/// The kind and the message of an error.
fn said<T: std::fmt::Debug>(answer: Result<T, Error>) -> (ErrorKind, String) {
    let error = answer.unwrap_err();
    (error.kind(), error.to_string())
}

/// The field and the line of the place of an error.
fn place<T: std::fmt::Debug>(answer: Result<T, Error>) -> Option<(Input, Option<usize>)> {
    answer.unwrap_err().place().map(|place| (place.input, place.line))
}

fn call<'a>(run: &'a [u8], programs: &'a dyn Programs) -> PlanCall<'a> {
    PlanCall { flag: "-c", ..PlanCall::new(run, run, programs).at("/w", "/t") }
}

/// No program at all.
static NONE: Vec<FoundProgram> = Vec::new();

/// The plan of a call in a format.
fn plan_text(call: &PlanCall<'_>, format: Format) -> Result<String, Error> {
    plan(call)?.text(format)
}

/// What each command of a plan waits for.
fn needs(call: &PlanCall<'_>) -> Result<Vec<Vec<usize>>, Error> {
    Ok(plan(call)?.commands().map(|command| command.needs().to_vec()).collect())
}

#[test]
fn real_calls_are_planned_as_cudaplan_does() {
    for Stored { name, dry1, dry2, flag, plan } in stored::calls() {
        let programs = first_candidates(&dry1, &dry2);
        let call = PlanCall { flag: &flag, dry2: &dry2, ..call(&dry1, &programs) };
        assert_eq!(plan_text(&call, Format::Text).unwrap(), plan, "{name}");
        for form in [Format::Json, Format::Ninja, Format::Shell] {
            assert!(plan_text(&call, form).unwrap().contains("gcc"), "{name}");
        }
    }
}

/// A plan as `cudaplan` prints it.
fn printed(plan: &Plan) -> String {
    let words = |command: Command<'_>| {
        let arguments: Vec<&str> = command.arguments().collect();
        [&[command.program()], arguments.as_slice()].concat().join(" ")
    };
    let mut lines = String::new();
    for (number, group) in plan.groups().enumerate() {
        lines += &format!("group {number}\n");
        for command in group.commands() {
            assert_eq!((command.group(), command.reason()), (Some(number), None));
            let cacheable = if command.is_cacheable() { "yes" } else { "no" };
            lines += &format!("{cacheable} cd {} && {}\n", command.cwd(), words(command));
        }
    }
    for command in plan.dropped() {
        assert_eq!((command.group(), command.cwd(), command.variables().len()), (None, "", 0));
        let (line, run, reason) = (command.line() - 1, command.run(), command.reason().unwrap());
        lines += &format!("dropped {line} run {run} {reason:?} {}\n", words(command));
    }
    lines
}

#[test]
fn real_calls_as_records_are_their_texts() {
    for Stored { name, dry1, dry2, flag, plan: text } in stored::calls() {
        let programs = first_candidates(&dry1, &dry2);
        let records = plan(&PlanCall { flag: &flag, dry2: &dry2, ..call(&dry1, &programs) }).unwrap();
        assert_eq!(printed(&records), text, "{name}");
        let stages: Vec<Stage> = records.groups().map(|group| group.stage()).collect();
        let last = stages.len() - 1;
        assert!(stages.iter().enumerate().all(|(at, stage)| match at {
            0 => *stage == Stage::Front,
            _ if at == last => *stage == Stage::Final,
            _ => *stage == Stage::Device,
        }));
        assert_eq!(records.commands().len(), records.groups().map(|group| group.commands().len()).sum::<usize>());
    }
}

#[test]
fn records_of_a_small_call() {
    let run =
        b"#$ PATH=/b\n#$ gcc -D__NVCC__ -E k.cu -o k.cpp1.ii\n#$ cicc k.cpp1.ii -o k.ptx\n#$ cicc none.ii -o n.ptx\n#$ rm k\n";
    let second = b"#$ PATH=/b\n#$ gcc -D__NVCC__ -E k.cu -o /t/k.cpp1.ii\n#$ cicc\n#$ cicc\n#$ rm k\n";
    let programs = first_candidates(run, second);
    let given = [Variable::new("PATH", "/old"), Variable::new("A", "1")];
    let plan = plan(&PlanCall { variables: &given, dry2: second, ..call(run, &programs) }).unwrap();
    let cicc = plan.commands().next_back().unwrap();
    assert_eq!((cicc.program(), cicc.cwd(), cicc.group(), cicc.is_cacheable()), ("/b/cicc", "/t", Some(1), true));
    assert_eq!(cicc.arguments().collect::<Vec<_>>(), ["x_0.cpp1.ii", "-o", "k.ptx"]);
    assert_eq!(cicc.variables().collect::<Vec<_>>(), [("PATH", "/b"), ("A", "1")]);
    assert_eq!((cicc.line(), cicc.run()), (3, 1));
    let again = zigrunk::plan(&PlanCall { variables: &given, dry2: second, ..call(run, &programs) }).unwrap();
    assert!(plan == again && plan.commands().eq(again.commands()) && plan.groups().eq(again.groups()));
    assert!(plan.commands().next() != Some(cicc) && plan.groups().next() != plan.groups().nth(1));
    let shown = concat!(
        r#"Command { program: "/b/cicc", arguments: ["x_0.cpp1.ii", "-o", "k.ptx"], variables: [("PATH", "/b"), ("A", "1")], "#,
        r#"cwd: "/t", group: Some(1), reason: None, is_cacheable: true, run: 1, line: 3, needs: [0], reads: ["/t/x_0.cpp1.ii"], "#,
        r#"writes: ["/t/k.ptx"], may_write: [], tool: Some(Cicc), missing: None }"#,
    );
    assert_eq!(format!("{cicc:?}"), shown);
    let gcc = plan.commands().next().unwrap();
    assert_eq!((gcc.tool(), gcc.missing()), (Some(CommandTool::Host), Some(Missing::Headers)));
    assert!(gcc.reads().eq(["/w/k.cu"]) && gcc.writes().eq(["/t/x_0.cpp1.ii"]) && gcc.may_write().len() == 0);
    let dropped = plan.dropped().find(|command| command.reason() == Some(DropReason::NoCiccGroup)).unwrap();
    assert_eq!((dropped.needs(), dropped.tool(), dropped.missing()), ([].as_slice(), None, None));
    assert_eq!((dropped.reads().len(), dropped.writes().len(), dropped.may_write().len()), (0, 0, 0));
}

#[test]
fn a_command_for_a_cache() {
    let Stored { dry1, dry2, .. } = stored::call("two_targets");
    let programs = first_candidates(&dry1, &dry2);
    let plan = plan(&PlanCall { dry2: &dry2, ..call(&dry1, &programs) }).unwrap();
    let tools: Vec<CommandTool> = plan.commands().filter_map(|command| command.tool()).collect();
    assert_eq!(tools.iter().filter(|tool| tool.for_lines() == Some(Tool::Cicc)).count(), 2);
    assert!(tools.contains(&CommandTool::Fatbinary) && CommandTool::Host.for_lines().is_none());
    for command in plan.commands() {
        let reads_headers = command.missing() == Some(Missing::Headers);
        assert_eq!(reads_headers, command.arguments().any(|word| word == "-E"), "{command:?}");
        let Some(tool) = command.tool().and_then(CommandTool::for_lines) else { continue };
        let words: Vec<&str> = command.arguments().collect();
        let line = zigrunk::line_records(&LineCall { tool, cwd: command.cwd().as_ref(), words: &words, variables: &[] }).unwrap();
        assert!(line.outputs().all(|it| command.writes().chain(command.may_write()).any(|path| path == it.path)));
        assert!(line_words(&LineCall { tool, cwd: command.cwd().as_ref(), words: &words, variables: &[] }).is_ok());
        assert_eq!(command.missing(), None);
    }
}

/// The needs of one of the real calls.
fn needs_of(name: &str, flag: &str) -> Vec<Vec<usize>> {
    let Stored { dry1, dry2, .. } = stored::call(name);
    let programs = first_candidates(&dry1, &dry2);
    needs(&PlanCall { flag, dry2: &dry2, ..call(&dry1, &programs) }).unwrap()
}

/// All numbers below one, which the last commands of a plan need.
fn below(number: usize) -> Vec<usize> {
    (0..number).collect()
}

#[test]
fn each_cicc_of_an_object_needs_cudafe_and_its_preprocessor() {
    let devices = [vec![0], vec![1, 2], vec![3], vec![0], vec![1, 5], vec![6]];
    let expected = [&[vec![], vec![0]], devices.as_slice(), &[below(8), below(9)]].concat();
    assert_eq!(needs_of("two_targets", "-c"), expected);
}

#[test]
fn the_second_cicc_of_a_fatbin_needs_the_first() {
    let expected = [vec![], vec![0], vec![1], vec![], vec![1, 3], vec![4], below(6)];
    assert_eq!(needs_of("only_fatbin", "-fatbin"), expected);
}

#[test]
fn words_that_look_like_needs() {
    let run = |folder| {
        let words = r#"'"needs":[7]' needs '],"needs":[8]' '\"needs\":[9]'"#;
        format!("#$ PATH=/b\n#$ gcc -D__NVCC__ {words} -E k.cu -o {folder}k.cpp1.ii\n#$ cicc {folder}k.cpp1.ii -o k.ptx\n")
    };
    let (dry1, dry2) = (run(""), run("/t/"));
    let programs = first_candidates(dry1.as_bytes(), dry2.as_bytes());
    let given = [Variable::new("needs", "[6]")];
    let call = PlanCall { variables: &given, dry2: dry2.as_bytes(), ..call(dry1.as_bytes(), &programs) };
    let json = plan_text(&call, Format::Json).unwrap();
    assert!(json.contains(r#"\"needs\":[7]"#), "{json}");
    assert_eq!(needs(&call).unwrap(), [vec![], vec![0]]);
}

#[test]
fn needs_of_calls_without_a_plan() {
    let without = PlanCall { dry2: RUN2, ..call(RUN, &NONE) };
    assert_eq!(said(needs(&without)), (ErrorKind::NotFound, "dry run 1, line 2: cannot find gcc in PATH (/b)".to_string()));
}

#[test]
fn errors_of_records() {
    let call = |programs| PlanCall { dry2: RUN2, ..call(RUN, programs) };
    assert_eq!(said(plan(&call(&NONE))), (ErrorKind::NotFound, "dry run 1, line 2: cannot find gcc in PATH (/b)".to_string()));
    assert_eq!(place(plan(&call(&NONE))), Some((Input::First, Some(2))));
    let programs = first_candidates(RUN, RUN2);
    let found: Vec<FoundProgram> = programs.iter().filter(|it| it.lookup.program != "rm").cloned().collect();
    assert_eq!(place(plan(&call(&found))), Some((Input::Second, Some(4))));
    let bad = PlanCall { suffixes: &["gpu"], ..call(&programs) };
    assert_eq!(said(plan(&bad)), (ErrorKind::BadSuffixes, "bad generated suffixes".to_string()));
    assert_eq!(place(plan(&bad)), Some((Input::Suffixes, None)));
    let broken = PlanCall { dry2: b"#$ PATH=/b\n\n#$ cicc '\n", ..call(&programs) };
    let open = "dry run 2, line 3: the command has an open quote or ends in a backslash";
    assert_eq!(said(plan(&broken)), (ErrorKind::BadDryRun, open.to_string()));
    assert_eq!(place(plan(&broken)), Some((Input::Second, Some(3))));
    let name = std::os::unix::ffi::OsStringExt::from_vec(vec![0xFF]);
    let pairs: [(std::ffi::OsString, &str); 1] = [(name, "1")];
    let unreadable = PlanCall { variables: &variables(&pairs), ..call(&programs) };
    assert_eq!(said(plan(&unreadable)), (ErrorKind::NotUtf8, "a text is not UTF-8".to_string()));
    assert_eq!(place(plan(&unreadable)), Some((Input::Variables, None)));
}

#[test]
fn what_is_no_dry_run() {
    let programs = first_candidates(RUN, RUN2);
    let good = PlanCall { dry2: RUN2, ..call(RUN, &programs) };
    assert!(plan(&good).is_ok());
    let refused = |call: PlanCall<'_>| (said(plan(&call)), place(plan(&call)));
    let no_line = |which| (ErrorKind::NoDryRun, format!("the {which} text is no dry run: no line begins with \"#$ \""));
    assert_eq!(refused(PlanCall { dry1: b"", ..good }), (no_line("first"), Some((Input::First, None))));
    assert_eq!(refused(PlanCall { dry1: b"x #$ gcc\n#$gcc\n", ..good }), (no_line("first"), Some((Input::First, None))));
    assert_eq!(refused(PlanCall { dry2: b"\xFF", ..good }), (no_line("second"), Some((Input::Second, None))));
    assert!(plan(&PlanCall { dry2: RUN, ..good }).is_ok(), "as nvcc prints for a C source");
    let flag = (ErrorKind::NoDryRun, "the flag isn't an option that says what nvcc makes".to_string());
    for flag_of_none in ["-C", "c", "-c ", "-E", "--dryrun"] {
        assert_eq!(refused(PlanCall { flag: flag_of_none, ..good }), (flag.clone(), Some((Input::Flag, None))));
    }
    for flag in ["", "-c", "--device-c", "-dw", "-ptx", "--cubin", "-fatbin", "-optix-ir"] {
        assert!(plan(&PlanCall { flag, ..good }).is_ok(), "{flag}");
    }
    let nothing = PlanCall { dry1: b"#$ PATH=/b\n", dry2: b"#$ PATH=/b\n#$ rm k\n", ..good };
    assert_eq!(refused(nothing), ((ErrorKind::NoDryRun, "the plan has no command".to_string()), None));
    assert_eq!(plan(&nothing).unwrap_err().status(), 12);
}

#[test]
fn odd_directories() {
    let programs = first_candidates(RUN, RUN2);
    let good = PlanCall { dry2: RUN2, ..call(RUN, &programs) };
    let refused = |call: PlanCall<'_>| (said(plan(&call)), place(plan(&call)));
    let kind = |which| (ErrorKind::OddDirectory, format!("the {which} has to be absolute, without an empty part, . or .."));
    for odd in ["", "w", "./w", "../w", "//", "//w", "/w/", "/w//x", "/w/.", "/w/./x", "/w/..", "/w/../x"] {
        let odd = Path::new(odd);
        assert_eq!(refused(PlanCall { cwd: odd, ..good }), (kind("working directory"), Some((Input::Cwd, None))), "{odd:?}");
        let tmp = (kind("directory for temporary files"), Some((Input::Tmp, None)));
        assert_eq!(refused(PlanCall { tmp: odd, ..good }), tmp, "{odd:?}");
        assert_eq!(said(plan_text(&PlanCall { cwd: odd, ..good }, Format::Json)), kind("working directory"), "{odd:?}");
        assert_eq!(said(lookups(RUN, RUN2, odd, None)), kind("working directory"), "{odd:?}");
    }
    assert!(plan(&PlanCall { cwd: Path::new("/"), tmp: Path::new("/.t/..u"), ..good }).is_ok());
    assert_eq!(plan(&PlanCall { cwd: Path::new(""), ..good }).unwrap_err().status(), 13);
}

#[test]
fn settings() {
    let programs = first_candidates(RUN, RUN);
    let given = [Variable::new("PATH", "/old"), Variable::new("A", "1")];
    let call = PlanCall { variables: &given, suffixes: &[".gpu"], ..call(RUN, &programs) };
    let json = plan_text(&call, Format::Json).unwrap();
    assert_eq!(json.matches(r#""env":[["PATH","/b"],["A","1"]]"#).count(), 2, "{json}");
    assert!(json.contains(r#"["--x","x_0.gpu","x_0.cpp1.ii","-o","k.ptx"]"#), "{json}");
    let keeps = PlanCall { keeps_names: true, ..call };
    assert!(plan_text(&keeps, Format::Text).unwrap().contains("cicc --x k.gpu k.cpp1.ii"));
    let bad = PlanCall { suffixes: &["gpu"], ..call };
    assert_eq!(said(plan_text(&bad, Format::Text)), (ErrorKind::BadSuffixes, "bad generated suffixes".to_string()));
    let unwritable = PlanCall { variables: &[Variable::new("", "1")], ..call };
    assert_eq!(said(plan_text(&unwritable, Format::Shell)).0, ErrorKind::Unwritable);
}

#[test]
fn host_compilers() {
    let run = b"#$ PATH=/b\n#$ cl -D__NVCC__ -P k.cu\n";
    let programs = first_candidates(run, run);
    let plan = |host_compiler| plan_text(&PlanCall { host_compiler, ..call(run, &programs) }, Format::Text).unwrap();
    assert_eq!(plan(HostCompiler::Gcc), "group 0\ngroup 1\nyes cd /w && /b/cl -D__NVCC__ -P k.cu\n");
    assert_eq!(plan(HostCompiler::Nvhpc), plan(HostCompiler::Gcc));
    assert_eq!(plan(HostCompiler::Msvc), "group 0\nno cd /w && /b/cl -D__NVCC__ -P k.cu\ngroup 1\n");
}

#[test]
fn programs_that_are_not_there() {
    assert_eq!(
        said(plan_text(&call(RUN, &NONE), Format::Json)),
        (ErrorKind::NotFound, "dry run 1, line 2: cannot find gcc in PATH (/b)".to_string())
    );
    let none = find_programs(RUN, RUN, "/w".as_ref(), None).unwrap();
    assert_eq!(none.len(), 2);
    assert!(none.iter().all(|program| program.found.is_none()));
    assert_eq!(
        said(plan_text(&call(RUN, &none), Format::Json)),
        (ErrorKind::NotFound, "dry run 1, line 2: cannot find gcc in PATH (/b)".to_string())
    );
    let real = b"#$ PATH=/nowhere:/bin\n#$ sh -D__NVCC__ k.cpp1.ii\n";
    let found = find_programs(real, real, "/w".as_ref(), None).unwrap();
    assert!(plan_text(&call(real, &found), Format::Text).unwrap().contains("/bin/sh"));
}

#[test]
fn bad_dry_runs() {
    for run in [b"#$ cicc '\n".as_slice(), b"#$ A=\xFF\n"] {
        let error = plan_text(&call(run, &NONE), Format::Json).unwrap_err();
        assert_eq!(error.kind(), ErrorKind::BadDryRun, "{error:?}");
    }
}

#[test]
fn long_runs() {
    let mut run = b"#$ PATH=/b\n".to_vec();
    for number in 0..2000 {
        run.extend(format!("#$ cicc k{number}.cpp1.ii -o k{number}.ptx\n").bytes());
    }
    let second = [run.as_slice(), b"#$ gcc -D__NVCC__ -c k.cpp\n"].concat();
    let programs = first_candidates(&run, &second);
    let pairs = vec![("N".repeat(100), "v".repeat(100)); 4];
    let call = PlanCall { variables: &variables(&pairs), dry2: &second, ..call(&run, &programs) };
    let json = plan_text(&call, Format::Json).unwrap();
    assert!(json.starts_with('{') && json.ends_with("}\n"));
    let records = plan(&call).unwrap();
    assert_eq!(printed(&records), plan_text(&call, Format::Text).unwrap());
}

#[test]
fn threads_may_call() {
    let programs = first_candidates(RUN, RUN);
    let expected = plan_text(&call(RUN, &programs), Format::Json).unwrap();
    std::thread::scope(|scope| {
        for _ in 0..8 {
            scope.spawn(|| (0..50).for_each(|_| assert_eq!(plan_text(&call(RUN, &programs), Format::Json).unwrap(), expected)));
        }
    });
}

/// What is said of a line that exceeds a limit.
fn over_limit(run: usize, line: usize, limit: usize) -> (ErrorKind, String) {
    (ErrorKind::OverLimit, format!("dry run {run}, line {line}: with this line, the dry run makes over {limit} bytes"))
}

#[test]
fn limits_are_exact() {
    let run: &[u8] = b"#$ PATH=/b\n#$ gcc -D__NVCC__ x.i\n";
    let second: &[u8] = b"#$ PATH=/b\n#$ gcc -D__NVCC__ x.j\n";
    let programs = first_candidates(run, second);
    let limited = |limit| PlanCall { dry2: second, limit: NonZeroUsize::new(limit), ..call(run, &programs) };
    assert_eq!(plan(&limited(8222)).unwrap(), plan(&limited(0)).unwrap());
    assert_eq!(said(plan(&limited(8221))), over_limit(1, 2, 8221));
    assert_eq!(place(plan(&limited(8221))), Some((Input::First, Some(2))));
    let short = PlanCall { dry1: b"#$ PATH=/b\n", ..limited(8221) };
    assert_eq!((said(plan(&short)), place(plan(&short))), (over_limit(2, 2, 8221), Some((Input::Second, Some(2)))));
    assert_eq!(plan(&short).unwrap_err().status(), 11);
    let asked = |limit| lookups(run, run, "/w".as_ref(), NonZeroUsize::new(limit));
    assert_eq!(asked(8221), asked(0));
    assert_eq!(said(asked(8220)), over_limit(1, 2, 8220));
    assert_eq!(said(find_programs(run, run, "/w".as_ref(), NonZeroUsize::new(8220))), over_limit(1, 2, 8220));
}

#[test]
fn a_text_that_explodes_is_refused() {
    let mut run = String::from("#$ PATH=/b\n");
    for names in ('A'..='Z').collect::<Vec<_>>().windows(2) {
        run += &format!("#$ {0}=${1}.${1}.\n", names[0], names[1]);
    }
    run += "#$ $A.\n";
    let limited = PlanCall { limit: NonZeroUsize::new(2 << 20), dry2: RUN, ..call(run.as_bytes(), &NONE) };
    assert_eq!(said(plan(&limited)), over_limit(1, 27, 2 << 20));
}
