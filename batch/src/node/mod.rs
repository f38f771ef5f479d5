//! What a machine has that decides which objects it makes, and whether another machine has the same: for
//! tasks of a scheduler.
pub mod program;
mod toolkit;

use serde::{Deserialize, Serialize};
use std::collections::BTreeMap;

/// How many seconds the clocks of two machines may be apart, since make and Ninja compare times of files that
/// several machines have written.
const MOST_APART: f64 = 2.0;
/// How many bytes a folder for temporary files needs at least.
const LEAST_ROOM: u64 = 256 << 20;

/// What a machine has that decides which objects it makes.
#[derive(Clone, PartialEq, Debug, Default, Serialize, Deserialize)]
pub struct Node {
    /// zigrunk's version.
    version: String,
    /// Where `PATH` has nvcc and the host compiler. No path if it has none.
    programs: BTreeMap<String, Option<String>>,
    /// The digests of what is in files of the toolkit and of the host compiler, and in folders of headers, by
    /// their paths. No digest if a file is missing or can't be read.
    contents: BTreeMap<String, Option<String>>,
    /// The variables that compilers read. No value if one isn't set.
    variables: BTreeMap<String, Option<String>>,
    /// By how many seconds its clock is ahead of the times that the shared folder gives to new files.
    ahead: f64,
}

/// What a task finds of its machine beside that.
#[derive(Clone, PartialEq, Debug, Default)]
struct Surroundings {
    /// The shared folder, and why no file can be made there, if none can.
    share: (String, Option<String>),
    /// The folder for temporary files, and how many bytes are free there. None if no file can be made there.
    temporary: (String, u64),
}

/// What differs between the values of one name, in words.
fn differences<'a>(
    wanted: &'a BTreeMap<String, Option<String>>,
    here: &'a BTreeMap<String, Option<String>>,
    say: impl Fn(&str, Option<&str>, Option<&str>) -> String + 'a,
) -> impl Iterator<Item = String> + 'a {
    let of = |name: &str| here.get(name).and_then(Option::as_deref);
    wanted
        .iter()
        .filter(move |(name, value)| of(name) != value.as_deref())
        .map(move |(name, value)| say(name, value.as_deref(), of(name)))
}

/// What to do about programs that are elsewhere.
fn of_program(name: &str, wanted: Option<&str>, here: Option<&str>) -> String {
    match (wanted, here) {
        (Some(wanted), None) => format!("PATH has no {name}: install {wanted}, or export PATH in the job"),
        (wanted, here) => {
            format!(
                "PATH has {}, not {}: export PATH in the job",
                here.unwrap_or("no such program"),
                wanted.unwrap_or("none")
            )
        }
    }
}

/// What to do about other contents.
fn of_contents(path: &str, wanted: Option<&str>, here: Option<&str>) -> String {
    match (wanted, here) {
        (Some(_), None) => format!("no {path}: install the package that has it, or mount it"),
        _ => format!("{path} differs: install the same version"),
    }
}

/// What to do about another value of a variable.
fn of_variable(name: &str, wanted: Option<&str>, here: Option<&str>) -> String {
    match wanted {
        Some(wanted) => {
            format!("{name} is '{}', not '{wanted}': export it in the job", here.unwrap_or_default())
        }
        None => format!("{name} is '{}', and wasn't set: unset it in the job", here.unwrap_or_default()),
    }
}

/// What keeps a machine from making the objects that another one would make: a line for each thing, which
/// says what to do.
fn findings(wanted: &Node, here: &Node, around: &Surroundings) -> Vec<String> {
    let mut found = Vec::new();
    let (share, fault) = &around.share;
    found.extend(fault.as_ref().map(|fault| {
        format!("no file can be made in {share} ({fault}): mount it writable, or make room there")
    }));
    let (temporary, room) = &around.temporary;
    if *room < LEAST_ROOM {
        found.push(format!(
            "{temporary} has room for {} MB: clear it, or set TMPDIR to a folder with {} MB",
            room >> 20,
            LEAST_ROOM >> 20
        ));
    }
    if wanted.version != here.version {
        found.push(format!("zigrunk is {}, not {}: install the same version", here.version, wanted.version));
    }
    found.extend(differences(&wanted.programs, &here.programs, of_program));
    found.extend(differences(&wanted.contents, &here.contents, of_contents));
    found.extend(differences(&wanted.variables, &here.variables, of_variable));
    let apart = here.ahead - wanted.ahead;
    if apart.abs() > MOST_APART {
        let way = if apart > 0.0 { "ahead" } else { "behind" };
        found.push(format!("the clock is {:.0} seconds {way}: have it set, by chrony or ntpd", apart.abs()));
    }
    found
}

#[cfg(test)]
mod tests {
    use super::*;

    fn map(entries: &[(&str, Option<&str>)]) -> BTreeMap<String, Option<String>> {
        entries.iter().map(|(name, value)| ((*name).to_owned(), value.map(String::from))).collect()
    }

    fn node() -> Node {
        Node {
            version: "1".into(),
            programs: map(&[("nvcc", Some("/c/nvcc")), ("g++", Some("/bin/g++"))]),
            contents: map(&[
                ("/c/cicc", Some("12")),
                ("/usr/include", Some("34")),
                ("/usr/local/include", None),
            ]),
            variables: map(&[("CPATH", Some("/x")), ("LD_LIBRARY_PATH", None)]),
            ahead: 0.5,
        }
    }

    fn around() -> Surroundings {
        Surroundings { share: ("/share".into(), None), temporary: ("/tmp".into(), LEAST_ROOM) }
    }

    /// What makes a machine another one.
    type Change = fn(&mut Node, &mut Surroundings);

    #[test]
    fn each_difference_is_a_line_that_says_what_to_do() {
        let cases: [(Change, &str); 15] = [
            (|_, _| {}, ""),
            (|it, _| it.version = "2".into(), "zigrunk is 2, not 1: install the same version"),
            (
                |it, _| it.programs = map(&[("g++", Some("/bin/g++"))]),
                "PATH has no nvcc: install /c/nvcc, or export PATH in the job",
            ),
            (
                |it, _| it.programs = map(&[("nvcc", Some("/d/nvcc")), ("g++", Some("/bin/g++"))]),
                "PATH has /d/nvcc, not /c/nvcc: export PATH in the job",
            ),
            (
                |it, _| drop(it.contents.insert("/c/cicc".into(), None)),
                "no /c/cicc: install the package that has it, or mount it",
            ),
            (
                |it, _| drop(it.contents.insert("/c/cicc".into(), Some("13".into()))),
                "/c/cicc differs: install the same version",
            ),
            (
                |it, _| drop(it.contents.insert("/usr/local/include".into(), Some("1".into()))),
                "/usr/local/include differs: install the same version",
            ),
            (|it, _| it.variables.clear(), "CPATH is '', not '/x': export it in the job"),
            (
                |it, _| drop(it.variables.insert("LD_LIBRARY_PATH".into(), Some("/l".into()))),
                "LD_LIBRARY_PATH is '/l', and wasn't set: unset it in the job",
            ),
            (|it, _| it.ahead = 2.5, ""),
            (|it, _| it.ahead = 3.5, "the clock is 3 seconds ahead: have it set, by chrony or ntpd"),
            (|it, _| it.ahead = -1.5, ""),
            (|it, _| it.ahead = -60.5, "the clock is 61 seconds behind: have it set, by chrony or ntpd"),
            (
                |_, around| around.share.1 = Some("Read-only file system".into()),
                "no file can be made in /share (Read-only file system): mount it writable, or make room there",
            ),
            (
                |_, around| around.temporary.1 -= 1,
                "/tmp has room for 255 MB: clear it, or set TMPDIR to a folder with 256 MB",
            ),
        ];
        for (change, wanted) in cases {
            let (mut here, mut surroundings) = (node(), around());
            change(&mut here, &mut surroundings);
            assert_eq!(findings(&node(), &here, &surroundings).join("\n"), wanted);
        }
        let nothing = findings(&node(), &Node::default(), &Surroundings::default());
        assert_eq!(nothing.len(), 7, "all at once: {nothing:?}");
    }

    #[test]
    fn a_node_is_read_as_it_was_written() {
        let text = serde_json::to_string(&node()).unwrap();
        assert_eq!(serde_json::from_str::<Node>(&text).unwrap(), node());
        for cut in 0..text.len() {
            assert!(serde_json::from_str::<Node>(&text[..cut]).is_err());
        }
    }
}
