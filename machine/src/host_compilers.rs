//! What the host compiler of a call is, by its program's contents.
//!
//! A file named gcc may be anything: a script that adds words, refuses some or writes down what it gets, a
//! compiler cache, or a link to clang. nvcc doesn't care, since it calls each of them with the same words. So
//! may the driver only where it changes no word. It asks here before it calls a host compiler in another way
//! than nvcc does.
use crate::bytes::contains;
use crate::streams::read_on;
use crate::system::{self, Access};
use std::collections::BTreeSet;
use std::fs::File;
use std::io::{self, Read};
use std::path::{Path, PathBuf};

/// What a program begins with that the kernel runs itself.
const PROGRAM: &[u8] = b"\x7fELF";
/// What gcc's own program has in it, of every version, and neither clang nor a program that starts compilers:
/// what it says of a specs file, and how the built-in specs of its languages begin.
const OF_GCC: [&[u8]; 2] = [b"Reading specs from ", b"%{!E:%{!M:%{!MM:"];
/// How many bytes are looked at together, so that a large program isn't in memory as a whole.
const PIECE: usize = 1 << 16;
/// A larger program isn't gcc's, which starts the compiler proper. clang may have a hundred times as many
/// bytes.
const LARGEST: u64 = 1 << 24;

/// What is known of a host compiler.
#[derive(Clone, Copy, PartialEq, Eq, PartialOrd, Ord, Debug)]
pub enum HostCompiler {
    /// No program at all, or a script, which may do anything: its calls have nvcc's words, and come in nvcc's
    /// order.
    Script,
    /// Another program: its calls have nvcc's words.
    Other,
    /// gcc itself: its calls may have other words of the same meaning.
    Gcc,
}

impl HostCompiler {
    /// The compiler that a path leads to.
    pub fn of(program: &Path) -> HostCompiler {
        system::open(program, Access::READ).and_then(HostCompiler::of_file).unwrap_or(HostCompiler::Script)
    }

    fn of_file(mut file: File) -> io::Result<HostCompiler> {
        let size = file.metadata()?.len();
        let mut begin = [0; PROGRAM.len()];
        if read_on(&mut file, &mut begin)? < begin.len() || begin != PROGRAM {
            return Ok(HostCompiler::Script);
        }
        let is_gcc = size <= LARGEST && has_all(&mut file, &OF_GCC)?;
        Ok(if is_gcc { HostCompiler::Gcc } else { HostCompiler::Other })
    }

    /// The host compiler of commands, given by their folders and programs, or the one that is known least if
    /// they have several.
    pub fn of_programs<'a>(commands: impl IntoIterator<Item = (&'a str, &'a str)>) -> HostCompiler {
        let others = commands.into_iter().filter(|(_, program)| !is_nvccs(program));
        let programs: BTreeSet<PathBuf> =
            others.map(|(folder, program)| Path::new(folder).join(program)).collect();
        programs.iter().map(|program| HostCompiler::of(program)).min().unwrap_or(HostCompiler::Other)
    }
}

/// Whether a program is one of nvcc's own tools.
fn is_nvccs(program: &str) -> bool {
    let name = program.rsplit('/').next().unwrap_or_default();
    matches!(name, "cudafe++" | "cicc" | "ptxas" | "fatbinary" | "nvlink")
}

/// Whether a name is gcc's, as `g++-12`. The program may be another all the same.
pub fn is_gccs_name(name: &str) -> bool {
    let version = name.strip_prefix("gcc").or_else(|| name.strip_prefix("g++"));
    version.is_some_and(|version| {
        version.trim_start_matches('-').bytes().all(|byte| byte.is_ascii_digit() || byte == b'.')
    })
}

/// Whether the rest of a file has all of some texts. It is read piece by piece, up to where the last of them
/// is.
fn has_all(file: &mut impl Read, texts: &[&[u8]]) -> io::Result<bool> {
    let overlap = texts.iter().map(|text| text.len()).max().unwrap_or_default();
    let (mut missing, mut piece, mut kept) = (texts.to_vec(), vec![0; PIECE], 0);
    while !missing.is_empty() {
        let end = match read_on(file, &mut piece[kept..])? {
            0 => return Ok(false),
            size => kept + size,
        };
        missing.retain(|text| !contains(&piece[..end], text));
        let begin = end.saturating_sub(overlap);
        piece.copy_within(begin..end, 0);
        kept = end - begin;
    }
    Ok(true)
}

#[cfg(test)]
mod tests {
    use super::*;
    use crate::test_folder::TestFolder;
    use call::programs;
    use std::env;
    use std::fs;
    use std::os::unix::fs::symlink;

    /// gcc, by the path under which it's found.
    fn gcc() -> PathBuf {
        programs::find("gcc".as_ref(), &env::var_os("PATH").unwrap(), Path::new("/")).unwrap()
    }

    fn marked(before: usize, between: usize) -> Vec<u8> {
        [PROGRAM, &vec![b'%'; before], OF_GCC[1], &vec![b'R'; between], OF_GCC[0], b"%s"].concat()
    }

    #[test]
    fn a_compiler_is_known_by_its_contents() {
        let folder = TestFolder::new();
        let cases: [(&str, Vec<u8>, HostCompiler); 8] = [
            (
                "g++",
                b"#!/bin/sh\nexec /usr/bin/g++ \"$@\"\n# Reading specs from %{!E:%{!M:%{!MM:".to_vec(),
                HostCompiler::Script,
            ),
            ("gcc", b"\x7fEL".to_vec(), HostCompiler::Script),
            ("g++-12", b"\x7fELF ccache runs g++".to_vec(), HostCompiler::Other),
            ("g++-11", [PROGRAM, OF_GCC[0]].concat(), HostCompiler::Other),
            ("odd", marked(0, 0), HostCompiler::Gcc),
            ("large", marked(PIECE - 8, PIECE - 8), HostCompiler::Gcc),
            ("larger", marked(3 * PIECE, 2 * PIECE + 1), HostCompiler::Gcc),
            ("cc", marked(1 << 24, 0), HostCompiler::Other),
        ];
        for (name, content, wanted) in &cases {
            fs::write(folder.join(name), content).unwrap();
            assert_eq!(HostCompiler::of(&folder.join(name)), *wanted, "{name}");
            symlink(name, folder.join("gcc-4.8")).unwrap();
            assert_eq!(HostCompiler::of(&folder.join("gcc-4.8")), *wanted, "a link to {name}");
            fs::remove_file(folder.join("gcc-4.8")).unwrap();
        }
        assert_eq!(
            [folder.join("missing"), folder.join(".")].map(|path| HostCompiler::of(&path)),
            [HostCompiler::Script; 2]
        );
    }

    #[test]
    fn this_machines_compilers_are_known() {
        assert_eq!(HostCompiler::of(&gcc()), HostCompiler::Gcc);
        assert_eq!(HostCompiler::of(Path::new("/bin/sh")), HostCompiler::Other);
    }

    #[test]
    fn a_plan_has_the_compiler_that_is_known_least() {
        let folder = TestFolder::new();
        fs::write(folder.join("gcc"), "#!/bin/sh\n").unwrap();
        let place = folder.to_str().unwrap();
        let of =
            |programs: &[&str]| HostCompiler::of_programs(programs.iter().map(|program| (place, *program)));
        let own = gcc();
        let real = own.to_str().unwrap();
        let tools = ["/n/cudafe++", "/n/cicc", "ptxas", "fatbinary"];
        assert_eq!(of(&[&tools[..], &[real, real]].concat()), HostCompiler::Gcc);
        assert_eq!(of(&[&tools[..], &[real, "/bin/sh"]].concat()), HostCompiler::Other);
        assert_eq!(
            of(&[&tools[..], &[real, "/bin/sh", "gcc"]].concat()),
            HostCompiler::Script,
            "beside its own folder"
        );
        assert_eq!((of(&tools), of(&[])), (HostCompiler::Other, HostCompiler::Other));
    }

    #[test]
    fn gccs_names_have_a_version_or_none() {
        for (name, wanted) in [
            ("gcc", true),
            ("g++-12", true),
            ("g++-4.8", true),
            ("clang++", false),
            ("gcc-ar", false),
            ("", false),
        ] {
            assert_eq!(is_gccs_name(name), wanted, "{name}");
        }
    }
}
