//! zigrunk batch: makes many calls of nvcc as zigrunk-nvcc does, in one process.
#![forbid(unsafe_code)]

mod asked;
mod calls;
mod databases;
mod graph;
mod lists;
mod marks;
pub mod node;
mod options;
mod products;
mod progress;
mod records;
mod turns;

use asked::{Asked, BatchCall, words_of};
use call::compiler::is_nvcc;
use call::environments::Environment;
use calls::{Context, Made};
use graph::{Calls, Graph, Limits, Outcomes};
use lists::Listed;
use machine::excerpts::plain;
use machine::folder::CallFolder;
use machine::host::{Host, become_program};
use machine::jobserver::Make;
use machine::places::{absolute, working_directory};
use machine::quota;
use machine::settings::{Settings, own_variable};
use machine::streams::{complain, say};
use marks::Missing;
use options::{HELP, Options, Part, USAGE, Wanted};
use progress::{Form, Progress};
use provenance::make_folder;
use records::Records;
use runner::rule::Refusals;
use runner::split::FEWEST_FILES;
use std::collections::HashMap;
use std::ffi::{OsStr, OsString};
use std::fs;
use std::io::{self, IsTerminal, Read};
use std::os::unix::ffi::{OsStrExt, OsStringExt};
use std::path::{Path, PathBuf};
use std::rc::Rc;
use std::sync::Arc;
use turns::Maker;
use unix as system;
#[cfg(test)]
use unix::{forked, test_folder};

/// The calls of a list, and what messages call one of them.
struct List {
    calls: Vec<BatchCall>,
    unit: &'static str,
    /// The folder that holds the list, or the working directory for standard input.
    folder: PathBuf,
}

/// What a command asks for.
fn asked(words: Vec<String>, settings: &Settings) -> Asked {
    let first = words.first().map(String::as_str).unwrap_or_default();
    let name = first.rsplit('/').next().unwrap_or_default();
    let stem = name
        .rsplit_once('-')
        .filter(|(_, version)| version.starts_with(|digit: char| digit.is_ascii_digit()))
        .map_or(name, |(stem, _)| stem);
    if name == "zigrunk-nvcc" {
        Asked::Nvcc(words[1..].to_vec())
    } else if name == "zigrunk" && words.get(1).is_some_and(|word| word == "nvcc") {
        Asked::Nvcc(words[2..].to_vec())
    } else if first.starts_with('-') || is_nvcc(first.as_bytes()) || settings.nvcc == *first {
        Asked::Nvcc(words)
    } else if ["gcc", "++", "clang"].iter().any(|end| stem.ends_with(end)) || name == "cc" {
        Asked::Compiler(words)
    } else {
        Asked::Program(words)
    }
}

/// Bytes as a word of a shell that is UTF-8, whatever they are.
fn encoded(bytes: &[u8]) -> String {
    let octal: Vec<String> = bytes.iter().map(|byte| format!("\\{byte:03o}")).collect();
    format!("\"$(printf '{}')\"", octal.concat())
}

/// What words ask for. A shell runs those that aren't UTF-8.
fn asked_by(words: &[Vec<u8>], settings: &Settings) -> Asked {
    let texts: Option<Vec<String>> = words.iter().map(|word| String::from_utf8(word.clone()).ok()).collect();
    texts.map_or_else(
        || Asked::Shell(words.iter().map(|word| encoded(word)).collect::<Vec<_>>().join(" ")),
        |texts| asked(texts, settings),
    )
}

/// The calls that a text lists.
/// Errors: why the text is no `compile_commands.json`, if it begins as one.
fn calls_of(
    text: &[u8],
    folder: &Path,
    cwd: &Path,
    settings: &Settings,
) -> Result<(Vec<BatchCall>, &'static str), String> {
    let cwd = cwd.to_string_lossy();
    if databases::is_object(text) {
        return Err("it is a JSON object, not an array".into());
    }
    if !databases::is_database(text) {
        let variable = |name: &[u8]| own_variable(OsStr::from_bytes(name)).map(OsString::into_vec);
        let call = |call: lists::ListedCall| {
            let asked = match call.asks {
                Listed::Words(words) => asked_by(&words, settings),
                Listed::Whole => Asked::Shell(
                    String::from_utf8(call.line.clone())
                        .unwrap_or_else(|_| format!("eval {}", encoded(&call.line))),
                ),
            };
            BatchCall {
                number: call.number,
                name: String::from_utf8_lossy(&call.line).trim().to_owned(),
                folder: cwd.to_string(),
                asked,
            }
        };
        return Ok((lists::calls(text, &variable).into_iter().map(call).collect(), "line"));
    }
    let call = |(at, entry): (usize, databases::DatabaseEntry)| BatchCall {
        number: at + 1,
        name: String::from_utf8_lossy(&entry.file).into_owned(),
        folder: absolute(&folder.join(OsStr::from_bytes(&entry.directory)), folder)
            .to_string_lossy()
            .into_owned(),
        asked: asked_by(&entry.words, settings),
    };
    Ok((databases::entries(text)?.into_iter().enumerate().map(call).collect(), "entry"))
}

/// Reads a list.
/// An error if it can't be read, or is no list.
fn list(name: Option<&OsString>, settings: &Settings) -> Result<List, String> {
    let cwd = working_directory().ok_or("there is no working directory")?;
    let mut text = Vec::new();
    let (read, shown) = match name {
        Some(name) => (
            fs::File::open(name).and_then(|mut file| file.read_to_end(&mut text)),
            name.to_string_lossy().into_owned(),
        ),
        None => (io::stdin().read_to_end(&mut text), "standard input".to_owned()),
    };
    read.map_err(|error| format!("cannot read {shown}: {}", plain(&error)))?;
    let folder = name
        .and_then(|name| Path::new(name).parent())
        .map_or_else(|| cwd.clone(), |above| absolute(&cwd.join(above), &cwd));
    let (calls, unit) = calls_of(&text, &folder, &cwd, settings)
        .map_err(|reason| format!("{shown} is no compile_commands.json: {reason}"))?;
    Ok(List { calls, unit, folder })
}

/// Two calls that make one file, which would run at once, in words.
fn made_twice(list: &List) -> Option<String> {
    let mut makers: HashMap<PathBuf, usize> = HashMap::new();
    for call in &list.calls {
        for product in calls::products_of(call) {
            if let Some(first) = makers.insert(product.path.clone(), call.number) {
                let units = if list.unit == "entry" { "entries" } else { "lines" };
                return Some(format!(
                    "{units} {first} and {} make one file: {}",
                    call.number,
                    product.path.display()
                ));
            }
        }
    }
    None
}

/// The calls of a batch, and what is said of them.
struct Told<'a> {
    list: &'a List,
    calls: Vec<Arc<BatchCall>>,
    context: Arc<Context>,
}

impl Calls for Told<'_> {
    fn name(&self, call: usize) -> String {
        self.calls[call].name.clone()
    }

    fn begin(&self, call: usize) -> io::Result<Maker<Made>> {
        let (call, context) = (Arc::clone(&self.calls[call]), Arc::clone(&self.context));
        Maker::begin(move |turns| calls::make(&call, &context, turns))
    }

    fn told(&mut self, call: usize, made: &Made) {
        for (is_error, text) in &made.said {
            // A stream that is closed gets nothing, since nobody would read it.
            let _ = say(if *is_error { 2 } else { 1 }, text);
        }
        if made.status != 0 {
            let call = &self.calls[call];
            complain(&format!(
                "zigrunk batch: {} {}: exit status {}: {}",
                self.list.unit, call.number, made.status, call.name
            ));
        }
    }
}

/// This machine, for a batch with this directory.
fn machine(settings: &Settings, folder: &Rc<CallFolder>) -> Result<Host, String> {
    let environment = Environment::own()
        .with("ZIGRUNK_INSIDE", &settings.inside)
        .with("ZIGRUNK_BATCH", folder.path().as_os_str());
    let host = Host::of_process(settings, Make::of_environment(), environment, Rc::clone(folder));
    host.map_err(|lacks| format!("no {lacks} for the batch"))
}

/// How many commands run at once, and how many calls are planned, on this machine.
fn limits(options: &Options, settings: &Settings) -> Limits {
    let at_once = options.jobs.or(settings.jobs).unwrap_or_else(quota::processors);
    let planned_at_once = if settings.runner.is_empty() { at_once } else { quota::processors() };
    Limits { at_once, planned_at_once, failures: options.failures }
}

/// Leaves of a list the calls of a part.
fn take_part(list: &mut List, part: Option<Part>) {
    let mut place = 0..;
    list.calls.retain(|_| place.next().is_some_and(|place| part.is_none_or(|part| part.has(place))));
}

/// Prints the calls of a list that are missing, each with why. Says the status: that of the first one that
/// failed, or else 1.
/// Errors: why the list can't be read, or its calls can't be made side by side.
fn tell_missing(options: &Options, settings: &Settings) -> Result<Ended, String> {
    let mut list = list(options.list.as_ref(), settings)?;
    take_part(&mut list, options.part);
    if let Some(twice) = made_twice(&list) {
        return Err(twice);
    }
    let records = Records::at(list.folder.join(records::FOLDER));
    let missing: Vec<(&BatchCall, Missing)> =
        list.calls.iter().filter_map(|call| Some((call, records.missing(call, settings)?))).collect();
    let lines: Vec<String> = missing
        .iter()
        .map(|(call, why)| format!("{} {}: {}: {}\n", list.unit, call.number, why.reason(), call.name))
        .collect();
    say(1, lines.concat().as_bytes()).map_err(|error| format!("cannot write to standard output: {error}"))?;
    let failed = missing.iter().find(|(_, why)| matches!(why, Missing::Failed(_)));
    Ok(Ended::Status(failed.or(missing.first()).map_or(0, |(_, why)| why.status())))
}

/// The records beside a list.
/// Errors: that their folder can't be made.
fn records_of(list: &List) -> Result<Records, String> {
    let folder = list.folder.join(records::FOLDER);
    Records::open(folder.clone()).map_err(|_| format!("cannot make {}", folder.display()))
}

/// Makes the calls of a list. Says the status, which a signal may have ended.
/// Errors: what keeps it from making them.
fn make(options: &Options, settings: &Settings) -> Result<Ended, String> {
    let has_few_files = system::spare_files() < FEWEST_FILES;
    let mut list = list(options.list.as_ref(), settings)?;
    take_part(&mut list, options.part);
    if list.calls.is_empty() {
        return Ok(Ended::Status(0));
    }
    if let Some(twice) = made_twice(&list) {
        return Err(twice);
    }
    let records = (options.incremental || options.part.is_some()).then(|| records_of(&list)).transpose()?;
    let temporary = absolute(settings.plans(), &working_directory().unwrap_or_default());
    let folder =
        Rc::new(CallFolder::take(&temporary, "batch").map_err(|error| {
            format!("no temporary directory in {}: {}", temporary.display(), plain(&error))
        })?);
    folder.tell_if_taken(&temporary);
    let scratch = settings.shared.is_none().then(|| folder.path().join("tmp"));
    let made = scratch.as_ref().map_or(Ok(()), fs::create_dir).map_err(|error| error.to_string());
    let limits = limits(options, settings);
    let scratch = scratch.map(|path| path.to_string_lossy().into_owned());
    let outcomes = made.and_then(|()| {
        let context = Context {
            settings: settings.clone(),
            temporary,
            scratch,
            at_once: limits.at_once,
            records,
            is_part: options.part.is_some(),
            refusals: Refusals::default(),
            has_few_files,
        };
        let mut host = machine(settings, &folder)?;
        let outcomes = run(&mut host, list, context, limits, form(options));
        host.leave();
        outcomes
    });
    folder.remove();
    outcomes.map(end_of)
}

fn form(options: &Options) -> Form {
    if options.progress {
        Form::Lines
    } else if io::stderr().is_terminal() {
        Form::Terminal
    } else {
        Form::Silent
    }
}

/// Makes calls on a machine.
fn run(
    host: &mut Host,
    mut list: List,
    context: Context,
    limits: Limits,
    form: Form,
) -> Result<Outcomes, String> {
    let calls: Vec<Arc<BatchCall>> = std::mem::take(&mut list.calls).into_iter().map(Arc::new).collect();
    let count = calls.len();
    let mut told = Told { list: &list, calls, context: Arc::new(context) };
    let graph = Graph::new(host, &mut told, count, limits, Progress::new(form, io::stderr()))
        .ok_or("out of memory")?;
    Ok(graph.run())
}

/// How a batch ends.
#[derive(Clone, Copy, PartialEq, Eq, Debug)]
enum Ended {
    Status(i32),
    /// By a signal.
    Signal(i32),
}

/// The end of a batch. Says how many calls were left.
fn end_of(outcomes: Outcomes) -> Ended {
    if outcomes.lost {
        return Ended::Status(1);
    }
    if let Some(signal) = outcomes.signal {
        return Ended::Signal(signal);
    }
    if outcomes.left > 0 {
        complain(&format!("zigrunk batch: stopped, {} of the calls not made", outcomes.left));
    }
    Ended::Status(outcomes.status)
}

/// Has the compiler make a call, unless a batch with `--incremental` made it in this directory and all its
/// files are as they were. Then this writes the dependency file alone, which a build asks for beyond the
/// words of its `compile_commands.json`.
fn unless_made(words: &[OsString], settings: &Settings) -> i32 {
    let texts: Option<Vec<String>> = words.iter().map(|word| word.to_str().map(String::from)).collect();
    if texts.and_then(|texts| made_before(&texts, settings)).is_some() {
        return 0;
    }
    let words: Vec<&OsStr> = words.iter().map(OsString::as_os_str).collect();
    complain(&format!("zigrunk batch: {}", become_program(&words, &Environment::own())));
    127
}

/// Writes the dependency file of a call that a batch has made, if it asks for one.
fn made_before(words: &[String], settings: &Settings) -> Option<()> {
    let cwd = working_directory()?;
    let records = Records::at(cwd.join(records::FOLDER));
    let call = |words: Vec<String>| BatchCall {
        number: 1,
        name: String::new(),
        folder: cwd.to_string_lossy().into_owned(),
        asked: asked(words, settings),
    };
    let with_rule = call(words.to_vec());
    let products = calls::products_of(&with_rule);
    let target = products::outputs(&words_of(&with_rule.asked)?).into_iter().next()?;
    let rule = records.describe(&with_rule, &products, settings)?.rule;
    [call(records::without_rule(words)), with_rule]
        .iter()
        .find_map(|call| records.describe(call, &products, settings)?.write_rule(rule.as_deref(), &target))
}

/// Makes a batch. Says its status. If a signal ends the batch, it ends this process too.
fn run_batch(options: &Options, settings: &Settings) -> i32 {
    match if options.missing { tell_missing(options, settings) } else { make(options, settings) } {
        Ok(Ended::Status(status)) => status,
        Ok(Ended::Signal(number)) => system::end_by(number),
        Err(complaint) => {
            complain(&format!("zigrunk batch: {complaint}"));
            1
        }
    }
}

/// Runs with the settings of the environment. Says the status: 2 if one of them is bad.
fn with_settings(run: impl FnOnce(Settings) -> i32) -> i32 {
    let settings = Settings::of_environment();
    settings.and_then(|settings| make_folder(&settings).map(|()| settings)).map_or_else(
        |complaint| {
            complain(&format!("zigrunk batch: {complaint}"));
            2
        },
        run,
    )
}

/// The products of the calls of a `compile_commands.json` in a folder: each call's source, and the files that
/// its words name.
/// Errors: why the text isn't one.
pub fn products_of_database(text: &[u8], folder: &Path) -> Result<Vec<(String, Vec<PathBuf>)>, String> {
    if !databases::is_database(text) {
        return Err("it is no compile_commands.json".into());
    }
    let settings = Settings::of_environment()?;
    let (calls, _) = calls_of(text, folder, folder, &settings)?;
    let products =
        |call: &BatchCall| calls::products_of(call).into_iter().map(|product| product.path).collect();
    Ok(calls.iter().map(|call| (call.name.clone(), products(call))).collect())
}

/// Makes the calls of the list that these words name. Says the exit status: that of the first call in the
/// list that failed, 1 if the list can't be made, 2 for wrong usage or a bad setting.
pub fn main(words: &[OsString]) -> i32 {
    let print = |text: String| i32::from(say(1, text.as_bytes()).is_err());
    match options::parse(words) {
        Ok(Wanted::Help) => print(format!("{USAGE}\n{HELP}\n")),
        Ok(Wanted::Version) => print(format!("zigrunk batch {}\n", env!("CARGO_PKG_VERSION"))),
        Ok(Wanted::UnlessMade(words)) => with_settings(|settings| unless_made(&words, &settings)),
        Ok(Wanted::Batch(options)) => with_settings(|settings| run_batch(&options, &settings)),
        Err(complaint) => {
            complain(&format!("zigrunk batch: {complaint}\n{USAGE}"));
            2
        }
    }
}

#[cfg(test)]
mod tests {
    use super::*;

    #[test]
    fn programs_are_told_by_their_names() {
        let settings = Settings { nvcc: "my-compiler".into(), ..Settings::default() };
        let kind = |line: &str| match asked(line.split(' ').map(String::from).collect(), &settings) {
            Asked::Nvcc(words) => format!("nvcc {}", words.len()),
            Asked::Compiler(words) => format!("compiler {}", words.len()),
            Asked::Program(words) => format!("program {}", words.len()),
            Asked::Shell(_) => "shell".into(),
        };
        for (line, wanted) in [
            ("nvcc -c", "nvcc 2"),
            ("/opt/nvcc -c", "nvcc 2"),
            ("zigrunk-nvcc -c", "nvcc 1"),
            ("/a/zigrunk-nvcc /opt/nvcc -c", "nvcc 2"),
            ("/a/zigrunk nvcc -c k.cu", "nvcc 2"),
            ("zigrunk plan", "program 2"),
            ("-c a.cu", "nvcc 2"),
            ("my-compiler -c", "nvcc 2"),
            ("gcc -c", "compiler 2"),
            ("/a/x86-gcc-12 -c", "compiler 2"),
            ("g++ -c", "compiler 2"),
            ("g++-12 -c", "compiler 2"),
            ("clang++-14 -c", "compiler 2"),
            ("clang -c", "compiler 2"),
            ("/a/cc -c", "compiler 2"),
            ("sh -c", "program 2"),
            ("gcc-ar x", "program 2"),
            ("scc x", "program 2"),
        ] {
            assert_eq!(kind(line), wanted, "{line}");
        }
    }

    #[test]
    fn a_list_that_cannot_be_read_is_none() {
        for (name, reason) in [("/", "Is a directory"), ("/missing", "No such file or directory")] {
            assert_eq!(
                list(Some(&name.into()), &Settings::default()).err(),
                Some(format!("cannot read {name}: {reason}"))
            );
        }
    }

    #[test]
    fn a_signal_counts_more_than_a_call_that_failed() {
        let failed = Outcomes { status: 7, ..Outcomes::default() };
        let ended = Outcomes { signal: Some(system::TERM), ..failed };
        assert_eq!(
            [failed, ended, Outcomes { lost: true, ..ended }, Outcomes::default()].map(end_of),
            [Ended::Status(7), Ended::Signal(system::TERM), Ended::Status(1), Ended::Status(0)]
        );
    }

    #[test]
    fn lists_and_databases_give_calls() {
        let settings = Settings { nvcc: "nvcc".into(), ..Settings::default() };
        let (calls, unit) =
            calls_of(b"\n -c a.cu\na; b\n\xff x", Path::new("/far"), Path::new("/usr"), &settings).unwrap();
        assert_eq!(unit, "line");
        let found: Vec<(usize, &str, &Asked)> =
            calls.iter().map(|call| (call.number, call.name.as_str(), &call.asked)).collect();
        let (nvcc, shell) = (Asked::Nvcc(vec!["-c".into(), "a.cu".into()]), Asked::Shell("a; b".into()));
        let odd = Asked::Shell("\"$(printf '\\377')\" \"$(printf '\\170')\"".into());
        assert_eq!(found, [(2, "-c a.cu", &nvcc), (3, "a; b", &shell), (4, "\u{fffd} x", &odd)]);
        let (calls, unit) = calls_of(
            br#"[{"directory": "bin", "file": "a", "command": "x"}, {"directory": "/a/../b", "file": "a", "command": "x"}]"#,
            Path::new("/usr"),
            Path::new("/"),
            &settings,
        )
        .unwrap();
        assert_eq!((unit, calls[0].folder.as_str(), calls[1].folder.as_str()), ("entry", "/usr/bin", "/b"));
        assert_eq!(
            calls_of(b"{}", Path::new("/"), Path::new("/"), &settings),
            Err("it is a JSON object, not an array".into())
        );
    }
}
