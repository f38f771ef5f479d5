//! A command as an action: all that what it makes depends on, with its files under names that no machine's
//! paths show.
use crate::api::v2::command::EnvironmentVariable;
use crate::api::v2::platform::Property;
use crate::api::v2::{self, Digest, Directory, DirectoryNode, FileNode, Platform};
use crate::digest::Blob;
use crate::words::Command;
use command_keys::{action_key, tool_variables};
use compilers::plans::Program;
use rattle_std::alloc::{AllocError, Global};
use sha2::{Digest as _, Sha256};
use std::collections::BTreeMap;
use std::io;
use std::path::Path;

/// The property by which a server finds workers that have the tool: the digest of all that it consists of.
pub const TOOL: &str = "zigrunk-tool";

/// A variable without which a tool doesn't find its parts; their contents count in the tool's digest.
const PLACE_OF_PARTS: &[u8] = b"NVVMIR_LIBRARY_DIR";
/// The working directory, which counts only where names of files reach what a command makes. No such command
/// is an action.
const WORKING_DIRECTORY: &[u8] = b"PWD";

/// A file that a command may write.
#[derive(Clone, PartialEq, Eq, Debug)]
pub struct Output {
    /// Its name in the action.
    pub name: String,
    /// Its path here.
    pub path: String,
    /// Whether a command that succeeds has written it.
    pub is_certain: bool,
}

/// A command as an action.
#[derive(Clone, PartialEq, Eq, Debug)]
pub struct Action {
    pub digest: Digest,
    /// Its messages, and the files that it reads.
    pub blobs: Vec<Blob>,
    /// In the order of their names.
    pub outputs: Vec<Output>,
    /// The words of the command, its program first, with these names. It runs where they are.
    pub words: Vec<String>,
}

/// Why a command is no action.
#[derive(Debug)]
pub enum Unfit {
    /// What it makes may depend on what no action has, or no server could know its files.
    Command(&'static str),
    /// A file that it reads can't be read.
    Input(String, io::Error),
    Memory,
}

impl From<AllocError> for Unfit {
    fn from(_: AllocError) -> Unfit {
        Unfit::Memory
    }
}

/// The tool that a program is, if its commands may be actions.
#[must_use]
pub fn tool_of(program: &str) -> Option<Program> {
    match program.rsplit('/').next() {
        Some("cudafe++") => Some(Program::Cudafe),
        Some("cicc") => Some(Program::Cicc),
        Some("ptxas") => Some(Program::Ptxas),
        Some("fatbinary") => Some(Program::Fatbinary),
        _ => None,
    }
}

/// The name of a file below a root.
fn name_of<'a>(path: &'a str, root: &str) -> Option<&'a str> {
    let name = path.strip_prefix(root)?.strip_prefix('/')?;
    let is_plain =
        !name.is_empty() && name.split('/').all(|part| !part.is_empty() && part != "." && part != "..");
    is_plain.then_some(name)
}

/// A word with names in place of the paths of files below a root. `None` if it has the root in another way.
fn renamed(word: &str, root: &str) -> Option<String> {
    let word = word.replace(&format!("{root}/"), "");
    (!word.contains(root)).then_some(word)
}

/// A variable's name and value.
type Variable<'a> = (&'a [u8], &'a [u8]);

/// The variables that a tool sees, as far as an environment sets them.
fn seen(tool: Program, environment: &[(Vec<u8>, Vec<u8>)]) -> Result<Vec<Variable<'_>>, AllocError> {
    let given: Vec<Variable> =
        environment.iter().map(|(name, value)| (name.as_slice(), value.as_slice())).collect();
    let others: Vec<Variable> =
        given.iter().copied().filter(|(name, _)| *name != WORKING_DIRECTORY).collect();
    let read = tool_variables(Global, tool, &others)?;
    let place =
        given.iter().copied().filter(|(name, _)| matches!(tool, Program::Cicc) && *name == PLACE_OF_PARTS);
    let mut all: Vec<Variable> = read.as_slice().iter().copied().chain(place).collect();
    all.sort_unstable();
    Ok(all)
}

/// A folder of an action's files.
#[derive(Default)]
struct Folder<'a> {
    files: BTreeMap<&'a str, Digest>,
    folders: BTreeMap<&'a str, Folder<'a>>,
}

impl<'a> Folder<'a> {
    fn add(&mut self, name: &'a str, digest: Digest) {
        match name.split_once('/') {
            None => drop(self.files.insert(name, digest)),
            Some((folder, rest)) => self.folders.entry(folder).or_default().add(rest, digest),
        }
    }

    /// Its message; those of the folders in it go to `blobs`, too.
    fn message(&self, blobs: &mut Vec<Blob>) -> Blob {
        let file = |(name, digest): (&&str, &Digest)| FileNode {
            name: (*name).to_owned(),
            digest: Some(digest.clone()),
            is_executable: false,
        };
        let files = self.files.iter().map(file).collect();
        let mut directories = Vec::new();
        for (name, folder) in &self.folders {
            let digest = Some(folder.message(blobs).digest);
            directories.push(DirectoryNode { name: (*name).to_owned(), digest });
        }
        let blob = Blob::of_message(&Directory { files, directories });
        blobs.push(blob.clone());
        blob
    }
}

/// The files that a command reads, by their names below its root, each with its content.
fn inputs_of(command: &Command) -> Result<BTreeMap<&str, Blob>, Unfit> {
    let mut inputs = BTreeMap::new();
    for path in &command.reads {
        let name = name_of(path, &command.root)
            .ok_or(Unfit::Command("it reads a file outside the call's directory"))?;
        inputs
            .insert(name, Blob::of_file(Path::new(path)).map_err(|error| Unfit::Input(path.clone(), error))?);
    }
    Ok(inputs)
}

/// The files that a command may write, in the order of their names.
fn outputs_of(command: &Command) -> Result<Vec<Output>, Unfit> {
    let output = |path: &String, is_certain| {
        let name = name_of(path, &command.root)
            .ok_or(Unfit::Command("it writes a file outside the call's directory"))?;
        Ok((name.to_owned(), Output { name: name.to_owned(), path: path.clone(), is_certain }))
    };
    let possible = command.may_write.iter().map(|path| output(path, false));
    let certain = command.writes.iter().map(|path| output(path, true));
    let outputs: BTreeMap<String, Output> = possible.chain(certain).collect::<Result<_, Unfit>>()?;
    Ok(outputs.into_values().collect())
}

/// The key of an action, which says what it depends on.
fn key_of(
    tool: Program,
    command: &Command,
    variables: &[Variable],
    inputs: &BTreeMap<&str, Blob>,
    outputs: &[Output],
) -> Result<Vec<u8>, Unfit> {
    let words: Vec<&[u8]> = command.words.iter().map(String::as_bytes).collect();
    let paths: Vec<(String, &str)> = inputs
        .iter()
        .map(|(name, blob)| (format!("{}/{name}", command.root), blob.digest.hash.as_str()))
        .collect();
    let inputs: Vec<(&[u8], &[u8])> =
        paths.iter().map(|(path, hash)| (path.as_bytes(), hash.as_bytes())).collect();
    let outputs: Vec<&[u8]> = outputs.iter().map(|output| output.path.as_bytes()).collect();
    let (words, inputs, outputs) = (words.as_slice(), inputs.as_slice(), outputs.as_slice());
    let action = command_keys::Action {
        tool: command.tool.as_bytes(),
        words,
        variables,
        cwd: command.cwd.as_bytes(),
        inputs,
        outputs,
    };
    let key = action_key(Global, tool, &action, &[command.root.as_bytes()])?;
    key.map(|key| key.as_slice().to_vec())
        .ok_or(Unfit::Command("what it makes may depend on more than its words and files"))
}

/// The message of a command.
fn message_of(
    command: &Command,
    variables: &[Variable],
    outputs: &[Output],
    platform: &Platform,
) -> Result<v2::Command, Unfit> {
    let text = |bytes: &[u8]| {
        String::from_utf8(bytes.to_vec()).map_err(|_| Unfit::Command("a variable isn't UTF-8"))
    };
    let variable =
        |(name, value): &Variable| Ok(EnvironmentVariable { name: text(name)?, value: text(value)? });
    let word = |word: &String| {
        renamed(word, &command.root)
            .ok_or(Unfit::Command("a word has the call's directory, not a file in it"))
    };
    let words = command.words.iter().map(word).collect::<Result<Vec<_>, _>>()?;
    let output_paths: Vec<String> = outputs.iter().map(|output| output.name.clone()).collect();
    Ok(v2::Command {
        arguments: [vec![command.program.clone()], words].concat(),
        environment_variables: variables.iter().map(variable).collect::<Result<_, Unfit>>()?,
        // (servers of the API's first version 2.0 know them by the old field)
        output_files: output_paths.clone(),
        output_paths,
        platform: Some(platform.clone()),
    })
}

/// What a worker has to be like, in the order that the API asks for.
fn platform_of(command: &Command, others: &[(String, String)]) -> Platform {
    let mut properties = vec![(TOOL.to_owned(), command.tool.clone())];
    properties.extend_from_slice(others);
    properties.sort();
    Platform { properties: properties.into_iter().map(|(name, value)| Property { name, value }).collect() }
}

/// A command as an action, in this environment, for workers with these properties. Commands that differ only
/// in their roots are one action, and any others are different ones: the digest of the command's key is in
/// it.
/// Errors: why it is none.
pub fn action_of(
    command: &Command,
    environment: &[(Vec<u8>, Vec<u8>)],
    properties: &[(String, String)],
) -> Result<Action, Unfit> {
    let tool = tool_of(&command.program)
        .filter(|_| command.program.starts_with('/'))
        .ok_or(Unfit::Command("its program is none of nvcc's tools, or its path is relative"))?;
    let variables = seen(tool, environment)?;
    let (inputs, outputs) = (inputs_of(command)?, outputs_of(command)?);
    let key = key_of(tool, command, &variables, &inputs, &outputs)?;
    let platform = platform_of(command, properties);
    let message = message_of(command, &variables, &outputs, &platform)?;
    let words = message.arguments.clone();
    let message = Blob::of_message(&message);
    let mut folder = Folder::default();
    for (name, blob) in &inputs {
        folder.add(name, blob.digest.clone());
    }
    let mut blobs = Vec::new();
    let root = folder.message(&mut blobs);
    let action = Blob::of_message(&v2::Action {
        command_digest: Some(message.digest.clone()),
        input_root_digest: Some(root.digest),
        do_not_cache: false,
        salt: Sha256::digest(&key).to_vec(),
        platform: Some(platform),
    });
    let digest = action.digest.clone();
    blobs.extend(inputs.into_values().chain([message, action]));
    Ok(Action { digest, blobs, outputs, words })
}

#[cfg(test)]
mod tests {
    use super::*;
    use prost::Message;
    use std::fs;
    use tempfile::TempDir;

    /// A call's directory, with a command of ptxas in it.
    struct Scratch(TempDir);

    impl Scratch {
        fn new() -> Scratch {
            let scratch = Scratch(tempfile::tempdir().unwrap());
            fs::write(scratch.path("k.ptx"), ".version 8.0").unwrap();
            scratch
        }

        fn path(&self, name: &str) -> String {
            self.0.path().join(name).to_str().unwrap().to_owned()
        }

        fn command(&self) -> Command {
            let words =
                ["-arch=sm_80", "-m64", &self.path("k.ptx"), "-o", &self.path("k.cubin")].map(String::from);
            Command {
                program: "/n/ptxas".into(),
                words: words.to_vec(),
                cwd: "/w".into(),
                root: self.0.path().to_str().unwrap().into(),
                tool: "digest".into(),
                reads: vec![self.path("k.ptx")],
                writes: vec![self.path("k.cubin")],
                ..Command::default()
            }
        }
    }

    fn environment(variables: &[(&str, &str)]) -> Vec<(Vec<u8>, Vec<u8>)> {
        variables.iter().map(|(name, value)| (name.as_bytes().to_vec(), value.as_bytes().to_vec())).collect()
    }

    fn digest(command: &Command, variables: &[(&str, &str)]) -> Digest {
        action_of(command, &environment(variables), &[]).unwrap().digest
    }

    #[test]
    fn an_action_has_names_in_place_of_paths() {
        let scratch = Scratch::new();
        let action = action_of(
            &scratch.command(),
            &environment(&[("HOME", "/h"), ("LD_PRELOAD", "/l.so"), ("PWD", "/w")]),
            &[],
        )
        .unwrap();
        let content = |blob: &Blob| blob.bytes().unwrap();
        let [root, input, command, own] = action.blobs.as_slice() else { panic!("{:?}", action.blobs) };
        let message = v2::Command::decode(content(command).as_slice()).unwrap();
        assert_eq!(message.arguments, ["/n/ptxas", "-arch=sm_80", "-m64", "k.ptx", "-o", "k.cubin"]);
        assert_eq!(
            message.environment_variables,
            [EnvironmentVariable { name: "LD_PRELOAD".into(), value: "/l.so".into() }]
        );
        assert_eq!(
            (message.output_paths, content(input)),
            (vec!["k.cubin".to_owned()], b".version 8.0".to_vec())
        );
        let folder = Directory::decode(content(root).as_slice()).unwrap();
        assert_eq!(
            folder.files,
            [FileNode { name: "k.ptx".into(), digest: Some(input.digest.clone()), is_executable: false }]
        );
        let message = v2::Action::decode(content(own).as_slice()).unwrap();
        assert_eq!(
            (message.command_digest.as_ref(), message.input_root_digest.as_ref()),
            (Some(&command.digest), Some(&root.digest))
        );
        assert_eq!((message.salt.len(), &action.digest), (32, &own.digest));
        let output = Output { name: "k.cubin".into(), path: scratch.path("k.cubin"), is_certain: true };
        assert_eq!(action.outputs, [output]);
    }

    #[test]
    fn commands_that_differ_in_their_roots_are_one_action() {
        let (one, other) = (Scratch::new(), Scratch::new());
        assert_eq!(digest(&one.command(), &[]), digest(&other.command(), &[("HOME", "/h"), ("PWD", "/w")]));
        assert_eq!(
            digest(&one.command(), &[]),
            digest(&Command { cwd: "/other".into(), ..other.command() }, &[])
        );
    }

    #[test]
    fn all_else_makes_another_action() {
        let scratch = Scratch::new();
        let command = scratch.command();
        let one = digest(&command, &[]);
        let mut words = command.words.clone();
        words[0] = "-arch=sm_75".into();
        let relative = [vec!["k.ptx".to_owned()], command.reads.clone()].concat();
        let others = [
            Command { words, ..command.clone() },
            Command { tool: "another".into(), ..command.clone() },
            Command { program: "/m/ptxas".into(), ..command.clone() },
            Command { may_write: vec![scratch.path("more")], ..command.clone() },
        ];
        let mut digests: Vec<Digest> = others.iter().map(|other| digest(other, &[])).collect();
        digests.push(digest(&command, &[("LD_PRELOAD", "/l.so")]));
        digests.push(action_of(&command, &[], &[("OSFamily".into(), "linux".into())]).unwrap().digest);
        fs::write(scratch.path("k.ptx"), ".version 8.1").unwrap();
        digests.push(digest(&command, &[]));
        assert!(digests.iter().all(|other| *other != one), "{digests:?}");
        assert!(matches!(
            action_of(&Command { reads: relative, ..command }, &[], &[]),
            Err(Unfit::Command(_))
        ));
    }

    #[test]
    fn what_may_not_be_shared_is_no_action() {
        let scratch = Scratch::new();
        let command = scratch.command();
        let with_word = |word: &str| Command {
            words: [command.words.clone(), vec![word.to_owned()]].concat(),
            ..command.clone()
        };
        let cases = [
            Command { program: "/n/gcc".into(), ..command.clone() },
            Command { program: "ptxas".into(), ..command.clone() },
            Command { reads: vec!["/etc/passwd".into()], ..command.clone() },
            Command { writes: vec!["/w/k.cubin".into()], ..command.clone() },
            Command { writes: vec![scratch.path("../k.cubin")], ..command.clone() },
            Command { reads: Vec::new(), ..command.clone() },
            with_word("-lineinfo"),
            with_word("--some-new-word"),
        ];
        for case in cases {
            assert!(matches!(action_of(&case, &[], &[]), Err(Unfit::Command(_))), "{case:?}");
        }
        let gone = Command { reads: vec![scratch.path("gone")], ..command.clone() };
        assert!(matches!(action_of(&gone, &[], &[]), Err(Unfit::Input(..))));
    }

    #[test]
    fn folders_of_files_are_folders_of_an_action() {
        let scratch = Scratch::new();
        fs::create_dir(scratch.path("a")).unwrap();
        fs::write(scratch.path("a/b"), "").unwrap();
        let command = Command {
            reads: [scratch.command().reads, vec![scratch.path("a/b")]].concat(),
            ..scratch.command()
        };
        let action = action_of(&command, &[], &[]).unwrap();
        let root = Directory::decode(action.blobs[1].bytes().unwrap().as_slice()).unwrap();
        assert_eq!(
            root.directories,
            [DirectoryNode { name: "a".into(), digest: Some(action.blobs[0].digest.clone()) }]
        );
    }
}
