//! Records of calls: what each command of a call read and made, and by which tool, words and variables.
//! `zigrunk why` compares two.
//!
//! A record is a file of JSON in the folder that `ZIGRUNK_RECORDS` names, with the texts of what the call
//! read and made beside it, under their digests. The path of the directory of a call's temporary files is
//! `$TMP` in words, names and texts.
use cache::calls::{is_free, is_harmless};
use cache::digest::Digest;
use cache::environment_of;
use cache::observed::Observed;
use cache::tool::{Kind, Run, Tools};
use call::{NvccLine, programs};
use command_keys::tool_variables;
use compilers::plans::Program;
use dependency_rules::file_listed;
use machine::bytes::find;
use machine::clock::now;
use machine::host_compilers::HostCompiler;
use machine::jobs::Job;
use machine::places::absolute;
use machine::planned::PlannedCommand;
use machine::rooted::as_written;
use machine::settings::{Settings, own_variable};
use machine::streams::{called, complain, content_of, replace_file, write_file};
use provenance::Whole;
use rattle_std::alloc::Global;
use serde::{Deserialize, Serialize};
use std::collections::{BTreeMap, BTreeSet};
use std::ffi::{OsStr, OsString};
use std::fs;
use std::io;
use std::os::unix::ffi::OsStrExt;
use std::path::{Path, PathBuf};
use std::process;

/// What stands for the directory of a call's temporary files.
pub const TMP: &str = "$TMP";
/// The folder of texts beside records, and how records' names end.
pub const TEXTS: &str = "texts";
/// How the name of a record ends.
pub const SUFFIX: &str = ".json";
/// Files of the system have their digests in records, but their texts aren't kept, since each call reads
/// hundreds of them, and they hardly ever differ.
const OF_SYSTEM: &str = "/usr/";
/// Which variables aren't a cause by themselves: where tools are found, and where they run, a record has
/// anyway.
const KNOWN_OTHERWISE: [&str; 2] = ["PATH", "PWD"];

/// A path, and the digest of what is in the file. No digest if it couldn't be read.
pub type File = (String, String);

/// A command of a call.
#[derive(Clone, PartialEq, Eq, Debug, Default, Serialize, Deserialize)]
pub struct RecordedCommand {
    /// Its program's path and its words.
    pub words: Vec<String>,
    /// The variables that count.
    pub variables: Vec<(String, String)>,
    /// The program's path, with the digest of all that it consists of.
    pub tools: Vec<File>,
    /// The files that it read, in its order.
    pub inputs: Vec<File>,
    /// Where it ran, and where temporary files were.
    pub folders: Vec<String>,
    /// The files that it made.
    pub outputs: Vec<File>,
}

/// A call.
#[derive(Clone, PartialEq, Debug, Default, Serialize, Deserialize)]
pub struct RecordedCall {
    /// When it ended, in seconds.
    pub time: f64,
    /// Where nvcc was called.
    pub folder: String,
    /// nvcc and its words.
    pub words: Vec<String>,
    /// Its commands: each behind those whose files it read.
    pub commands: Vec<RecordedCommand>,
    /// The files that it was asked for.
    pub products: Vec<File>,
}

/// A text with `$TMP` in place of a directory's path.
fn unnamed(text: &[u8], tmp: &str) -> Vec<u8> {
    let (mut unnamed, mut rest) = (Vec::with_capacity(text.len()), text);
    while let Some(at) = find(rest, tmp.as_bytes()) {
        unnamed.extend_from_slice(&rest[..at]);
        unnamed.extend_from_slice(TMP.as_bytes());
        rest = &rest[at + tmp.len()..];
    }
    unnamed.extend_from_slice(rest);
    unnamed
}

/// A call that has ended.
pub struct Finished<'a> {
    /// Its line.
    pub line: &'a NvccLine,
    /// Its commands.
    pub commands: &'a [PlannedCommand],
    /// The directory of its temporary files.
    pub tmp: &'a str,
}

/// Makes a record.
struct Recorder<'a> {
    call: &'a Finished<'a>,
    folder: PathBuf,
    tools: Tools,
    /// The digests of files that don't change.
    known: BTreeMap<PathBuf, String>,
}

impl Recorder<'_> {
    fn is_temporary(&self, path: &Path) -> bool {
        path.starts_with(self.call.tmp)
    }

    /// A name as the record has it.
    fn name(&self, name: &str) -> String {
        name.replace(self.call.tmp, TMP)
    }

    /// Keeps a text, and says its digest.
    fn keep(&self, path: &Path, text: &[u8]) -> io::Result<String> {
        let digest = Digest::of(text).to_string();
        let place = self.folder.join(TEXTS).join(&digest);
        if !path.starts_with(OF_SYSTEM) && !place.exists() {
            // (another call may keep the same text now, so that it's there already is no error)
            let beside = place.with_extension(process::id().to_string());
            write_file(&beside, text).and_then(|()| fs::rename(&beside, &place))?;
        }
        Ok(digest)
    }

    /// The digest of a file. None if it isn't there.
    fn digest(&mut self, path: &Path) -> io::Result<String> {
        if let Some(known) = self.known.get(path) {
            return Ok(known.clone());
        }
        let Ok(text) = content_of(path) else { return Ok(String::new()) };
        let text = if self.is_temporary(path) { unnamed(&text, self.call.tmp) } else { text };
        let digest = self.keep(path, &text)?;
        self.known.insert(path.to_owned(), digest.clone());
        Ok(digest)
    }

    /// Files of a command by the names that it has for them.
    fn files(&mut self, command: &PlannedCommand, names: &[String]) -> io::Result<Vec<File>> {
        let folder = Path::new(&command.folder);
        names.iter().map(|name| Ok((self.name(name), self.digest(&folder.join(name))?))).collect()
    }

    /// The names of what a command read. A preprocessor's text has them.
    fn read(command: &PlannedCommand) -> Vec<String> {
        let mut names = command.reads.clone();
        let text = command.writes.first().filter(|_| command.preprocesses);
        let text = text.and_then(|text| content_of(&as_written(&Path::new(&command.folder).join(text))).ok());
        let text = text.unwrap_or_default();
        let mut seen: BTreeSet<&[u8]> = BTreeSet::new();
        let listed = text.split(|&byte| byte == b'\n').filter_map(|line| file_listed(true, line));
        names.extend(
            listed.filter(|name| seen.insert(name)).map(|name| String::from_utf8_lossy(name).into_owned()),
        );
        let mut taken = BTreeSet::new();
        names.retain(|name| taken.insert(name.clone()));
        names
    }

    /// The program of a command, with the digest of all that it consists of.
    fn tool(&mut self, job: &Job, environment: &[(OsString, OsString)]) -> File {
        let path = own_variable("PATH").unwrap_or_default();
        let program = job.program(&path).unwrap_or_else(|| job.words[0].clone().into());
        let kind = Kind::of(&job.words[0]).and_then(|kind| Run::of(kind, job, environment));
        let identity = kind.and_then(|run| self.tools.identity(&Run { program: &program, ..run }));
        let digest = identity.or_else(|| self.tools.digest_of(&program));
        (program.to_string_lossy().into_owned(), digest.map(|digest| digest.to_string()).unwrap_or_default())
    }

    fn command(&mut self, command: &PlannedCommand) -> io::Result<RecordedCommand> {
        let words = [std::slice::from_ref(&command.program), &command.words[..]].concat();
        let given = command.variables.iter().map(|(name, value)| (name.clone(), Some(value.clone())));
        let job = Job { words, folder: command.folder.clone(), variables: given.collect(), ..Job::default() };
        let environment = environment_of(&job);
        let tool = self.tool(&job, &environment);
        let temporary = Path::new(self.call.tmp).parent().and_then(Path::parent).unwrap_or(Path::new("/"));
        let made: Vec<String> = command.writes.iter().chain(&command.may_write).cloned().collect();
        let outputs =
            self.files(command, &made)?.into_iter().filter(|(_, digest)| !digest.is_empty()).collect();
        Ok(RecordedCommand {
            variables: variables_of(&tool.0, &environment),
            inputs: self.files(command, &Self::read(command))?,
            words: job.words.iter().map(|word| self.name(word)).collect(),
            tools: vec![tool],
            folders: vec![self.name(&command.folder), temporary.to_string_lossy().into_owned()],
            outputs,
        })
    }

    /// The programs and libraries of a call's processes, nvcc first.
    fn observed_tools(&mut self, observed: &Observed) -> Vec<File> {
        let path = own_variable("PATH").unwrap_or_default();
        let nvcc = programs::find(self.call.line.nvcc.as_ref(), &path, Path::new(&self.call.line.cwd));
        let mut paths: Vec<&PathBuf> = nvcc.iter().collect();
        paths.extend(observed.programs.keys().chain(observed.libraries.keys()));
        let digest = |path: &Path| self.tools.digest_of(path).map(|digest| digest.to_string());
        paths
            .into_iter()
            .map(|path| (path.to_string_lossy().into_owned(), digest(path).unwrap_or_default()))
            .collect()
    }

    /// A call that nvcc has made itself, as one command: by its line, and what was observed of its processes.
    /// Of the files that these read, those come first that the line names.
    fn whole(&mut self, observed: &Observed) -> io::Result<RecordedCommand> {
        let line = self.call.line;
        let cwd = Path::new(&line.cwd);
        let is_named = |path: &&PathBuf| line.words.iter().any(|word| cwd.join(word) == **path);
        let (mut read, others): (Vec<&PathBuf>, Vec<_>) = observed.read.keys().partition(is_named);
        read.extend(others);
        let temporary = own_variable("TMPDIR").unwrap_or_else(|| "/tmp".into());
        // (nvcc removes its temporary files)
        let made: Vec<&PathBuf> = observed.made.iter().filter(|path| path.is_file()).collect();
        let asked = observed.variables.iter().filter(|name| !is_harmless(name) && !is_otherwise(name));
        let asked = asked.filter_map(|name| Some((shown(name), shown(&own_variable(name)?))));
        let variables: BTreeSet<(String, String)> = asked.chain(line.variables.iter().cloned()).collect();
        let mut files = |paths: Vec<&PathBuf>| {
            let file = |path: &PathBuf| Ok((shown(path.as_os_str()), self.digest(path)?));
            paths.into_iter().map(file).collect::<io::Result<Vec<File>>>()
        };
        let (inputs, outputs) = (files(read)?, files(made)?);
        Ok(RecordedCommand {
            words: [std::slice::from_ref(&line.nvcc), &line.words].concat(),
            variables: variables.into_iter().collect(),
            tools: self.observed_tools(observed),
            inputs,
            folders: vec![line.cwd.clone(), shown(&temporary)],
            outputs,
        })
    }

    fn commands(&mut self) -> io::Result<Vec<RecordedCommand>> {
        let commands = self.call.commands.iter().filter(|command| !command.is_rule);
        commands.map(|command| self.command(command)).collect()
    }

    /// A call of these commands.
    fn call(&self, commands: Vec<RecordedCommand>) -> RecordedCall {
        let call = self.call;
        let outputs = commands.iter().flat_map(|command| &command.outputs);
        let products = outputs.filter(|(name, _)| !name.starts_with(TMP)).cloned().collect();
        let words = [std::slice::from_ref(&call.line.nvcc), &call.line.words[..]].concat();
        RecordedCall { time: now(), folder: call.line.cwd.clone(), words, commands, products }
    }

    /// Writes a record under the name of the call's product, and a digest. Says where it is.
    fn write(&self, record: &RecordedCall) -> io::Result<PathBuf> {
        let text = serde_json::to_string_pretty(record)? + "\n";
        let product =
            record.products.first().and_then(|(name, _)| Path::new(name).file_name()).unwrap_or_default();
        let digest = Digest::of(text.as_bytes()).to_string();
        let place = self.folder.join(format!("{}-{digest:.16}{SUFFIX}", product.to_string_lossy()));
        replace_file(&place, text.as_bytes()).map(|()| place)
    }
}

/// A text as a record has it.
fn shown(text: &OsStr) -> String {
    text.to_string_lossy().into_owned()
}

/// Whether a record has a variable's value anyway.
fn is_otherwise(name: &OsStr) -> bool {
    KNOWN_OTHERWISE.iter().any(|known| name == *known)
}

/// The variables of a program's environment that count: those that its tool reads, or all if it's a script.
fn variables_of(program: &str, environment: &[(OsString, OsString)]) -> Vec<(String, String)> {
    let all: Vec<(&[u8], &[u8])> =
        environment.iter().map(|(name, value)| (name.as_bytes(), value.as_bytes())).collect();
    let tool = Program::at(program);
    let is_script =
        matches!(tool, Program::Other) && HostCompiler::of(Path::new(program)) == HostCompiler::Script;
    let chosen = if is_script {
        all.into_iter().filter(|(name, _)| !is_free(OsStr::from_bytes(name))).collect()
    } else {
        tool_variables(Global, tool, &all).map(|chosen| chosen.as_slice().to_vec()).unwrap_or_default()
    };
    let pairs = chosen.into_iter().map(|(name, value)| (OsStr::from_bytes(name), OsStr::from_bytes(value)));
    let pairs = pairs.filter(|(name, _)| !is_otherwise(name));
    let chosen: BTreeSet<(String, String)> = pairs.map(|(name, value)| (shown(name), shown(value))).collect();
    chosen.into_iter().collect()
}

impl<'a> Recorder<'a> {
    /// What writes records of a call into a folder, which is seen from the call's own.
    fn new(folder: &Path, call: &'a Finished<'a>) -> io::Result<Recorder<'a>> {
        let folder = absolute(folder, Path::new(&call.line.cwd));
        fs::create_dir_all(folder.join(TEXTS))?;
        Ok(Recorder { call, folder, tools: Tools::of_user(), known: BTreeMap::new() })
    }
}

/// Writes the record of a call into a folder, and says where it is.
/// Errors: those of the disk.
fn write(folder: &Path, call: &Finished<'_>) -> io::Result<PathBuf> {
    let mut recorder = Recorder::new(folder, call)?;
    let commands = recorder.commands()?;
    recorder.write(&recorder.call(commands))
}

/// The same of a call that nvcc has made itself. Nothing if it made no file.
fn write_whole(folder: &Path, line: &NvccLine, observed: &Observed) -> io::Result<Option<PathBuf>> {
    let call = Finished { line, commands: &[], tmp: TMP };
    let mut recorder = Recorder::new(folder, &call)?;
    let command = recorder.whole(observed)?;
    let made = !command.outputs.is_empty();
    made.then(|| recorder.write(&recorder.call(vec![command]))).transpose()
}

/// What comes of writing a record, if the settings ask for one. Complains if it can't be written.
fn asked<T>(settings: &Settings, write: impl FnOnce(&Path) -> io::Result<T>) -> Option<T> {
    let folder = settings.records.as_ref()?;
    let complaint = |error| format!("{}: cannot write a record to {}: {error}", called(), folder.display());
    write(folder).map_err(|error| complain(&complaint(error))).ok()
}

/// Writes a record of a call, if the settings ask for one, and says where. Complains if it can't.
pub fn of_split(settings: &Settings, call: &Finished<'_>) -> Option<PathBuf> {
    asked(settings, |folder| write(folder, call))
}

/// The same of a call that nvcc has made itself.
pub fn of_whole(settings: &Settings, whole: &Whole) -> Option<PathBuf> {
    asked(settings, |folder| write_whole(folder, whole.line(), &whole.observed())).flatten()
}

#[cfg(test)]
mod tests {
    use super::*;
    use crate::test_folder::TestFolder;
    use cache::Stamp;

    /// A call whose preprocessor has read a header, and whose compiler has read what that made.
    fn recorded(room: &TestFolder, header: &str) -> (RecordedCall, PathBuf) {
        let (tmp, top) = (room.join("t/zigrunk-1/call"), room.join("top"));
        fs::create_dir_all(&tmp).unwrap();
        fs::create_dir_all(&top).unwrap();
        let [text, source, product] = [tmp.join("k.ii"), top.join("k.cu"), top.join("k.o")];
        fs::write(&source, "#include \"a.h\"\n").unwrap();
        fs::write(top.join("a.h"), header).unwrap();
        fs::write(&text, format!("# 0 \"k.cu\"\n# 1 \"a.h\" 1\n{header}# 1 \"{}/k.h\" 1\n", tmp.display()))
            .unwrap();
        fs::write(&product, header).unwrap();
        let texts =
            |paths: &[&Path]| paths.iter().map(|path| path.to_str().unwrap().to_owned()).collect::<Vec<_>>();
        let command = |reads: &[&Path], writes: &[&Path], preprocesses| PlannedCommand {
            program: "/bin/true".into(),
            words: texts(reads),
            folder: top.to_str().unwrap().into(),
            reads: texts(reads),
            writes: texts(writes),
            preprocesses,
            ..PlannedCommand::default()
        };
        let commands = [command(&[&source], &[&text], true), command(&[&text], &[&product], false)];
        let line = NvccLine {
            cwd: top.to_str().unwrap().into(),
            nvcc: "nvcc".into(),
            words: vec!["-c".into(), "k.cu".into()],
            variables: Vec::new(),
        };
        let folder = room.join("records");
        write(
            Path::new("../records"),
            &Finished { line: &line, commands: &commands, tmp: tmp.to_str().unwrap() },
        )
        .unwrap();
        let names = fs::read_dir(&folder).unwrap().flatten().map(|entry| entry.path());
        let newest = names
            .filter(|path| path.extension().is_some())
            .max_by_key(|path| fs::metadata(path).unwrap().modified().unwrap());
        (serde_json::from_slice(&fs::read(newest.unwrap()).unwrap()).unwrap(), folder)
    }

    #[test]
    fn a_record_has_what_commands_read_and_made() {
        let room = TestFolder::new();
        let (call, folder) = recorded(&room, "int a;\n");
        let [first, second] = call.commands.as_slice() else { panic!("two commands") };
        let names = |files: &[File]| files.iter().map(|(name, _)| name.clone()).collect::<Vec<_>>();
        assert_eq!(names(&first.inputs)[1..], ["a.h".to_owned(), "$TMP/k.h".into()]);
        assert_eq!(
            (first.inputs[1].1.as_str(), first.inputs[2].1.as_str()),
            (&*Digest::of(b"int a;\n").to_string(), "")
        );
        assert_eq!((names(&first.outputs), &second.inputs), (vec!["$TMP/k.ii".to_owned()], &first.outputs));
        assert_eq!((call.words.join(" ").as_str(), &call.products), ("nvcc -c k.cu", &second.outputs));
        let text = fs::read_to_string(folder.join(TEXTS).join(&first.outputs[0].1)).unwrap();
        assert!(text.ends_with("# 1 \"$TMP/k.h\" 1\n"), "{text}");
        assert!(folder.join(TEXTS).join(&call.products[0].1).exists());
    }

    #[test]
    fn a_digest_is_of_what_is_there() {
        let room = TestFolder::new();
        let (one, _) = recorded(&room, "int a;\n");
        let (other, _) = recorded(&room, "int b;\n");
        let same = |command: usize, of: fn(&RecordedCommand) -> &Vec<File>| {
            of(&one.commands[command]) == of(&other.commands[command])
        };
        assert!(!same(0, |it| &it.inputs) && !same(0, |it| &it.outputs) && same(0, |it| &it.tools));
        assert_eq!(one.commands[0].words, other.commands[0].words);
    }
    #[test]
    fn a_call_that_nvcc_makes_is_one_command() {
        let room = TestFolder::new();
        let folder = room.join("records");
        let line = NvccLine {
            cwd: room.to_str().unwrap().into(),
            nvcc: "/bin/true".into(),
            words: ["-lib", "z.o", "-o", "k.a"].map(String::from).to_vec(),
            variables: vec![("NVCC_APPEND_FLAGS".into(), "-O2".into())],
        };
        for name in ["a.o", "z.o", "k.a"] {
            fs::write(room.join(name), name).unwrap();
        }
        let stamp = |name: &str| (room.join(name), Stamp::of(&fs::metadata(room.join(name)).unwrap()));
        let mut observed = Observed {
            read: ["a.o", "z.o"].map(stamp).into(),
            variables: ["PATH".into()].into(),
            ..Observed::default()
        };
        assert_eq!(write_whole(&folder, &line, &observed).unwrap(), None, "it makes nothing");
        observed.made = ["k.a", "gone"].map(|name| room.join(name)).into();
        let place = write_whole(&folder, &line, &observed).unwrap().unwrap();
        let record: RecordedCall = serde_json::from_slice(&fs::read(place).unwrap()).unwrap();
        let [command] = record.commands.as_slice() else { panic!("one command") };
        let file = |name: &str| {
            (room.join(name).to_str().unwrap().to_owned(), Digest::of(name.as_bytes()).to_string())
        };
        assert_eq!(command.inputs, ["z.o", "a.o"].map(file));
        assert_eq!((&command.outputs, &record.products), (&vec![file("k.a")], &vec![file("k.a")]));
        assert_eq!(command.words, ["/bin/true", "-lib", "z.o", "-o", "k.a"]);
        assert_eq!(command.variables, [("NVCC_APPEND_FLAGS".to_owned(), "-O2".to_owned())]);
        assert!(command.tools[0].0.ends_with("true") && !command.tools[0].1.is_empty());
    }
}
