//! Planning calls of nvcc, by a stand-in that prints dry runs.
#![cfg(unix)]

use std::fs;
use std::os::unix::fs::PermissionsExt;
use std::path::{Path, PathBuf};
use std::sync::{Mutex, MutexGuard, PoisonError};

use zigrunk::{Call, CommandTool, Error, ErrorKind, NvccCall, Variable};

/// Prints a dry run whose programs are beside it. The second one has the directory for temporary files in its words. It notes its own
/// words, and fails if one is `-Dbad`.
const NVCC: &str = r#"#!/bin/sh
echo "$*" >> "${0%/*}/words"
case $* in *-Dbad*) echo 'nvcc fatal   : bad' >&2; exit 1 ;; esac
tmp=
while [ $# -gt 0 ]; do [ "$1" = --keep-dir ] && tmp=$2/; shift; done
cat >&2 << END
#$ PATH=${0%/*}
#$ gcc -D__NVCC__ -E k.cu -o "${tmp}k.cpp1.ii"
#$ cicc -arch compute_75 "${tmp}k.cpp1.ii" -o "${tmp}k.ptx"
#$ gcc -c -D__NVCC__ k.cu -o "k.o"
END
"#;

/// Whose turn it is. A process that one test starts has what another one is writing open for a moment, and then that can't be run.
static TURN: Mutex<()> = Mutex::new(());

/// A folder with the stand-ins, which goes when it is dropped. A test at a time has one.
struct Room {
    folder: PathBuf,
    _turn: MutexGuard<'static, ()>,
}

impl Room {
    fn new(name: &str) -> Self {
        let turn = TURN.lock().unwrap_or_else(PoisonError::into_inner);
        let folder = std::env::temp_dir().join(format!("zigrunk-{name}-{}", std::process::id()));
        fs::create_dir_all(folder.join("t")).unwrap();
        for (program, text) in [("nvcc", NVCC), ("gcc", ""), ("cicc", "")] {
            let path = folder.join(program);
            fs::write(&path, text).unwrap();
            fs::set_permissions(&path, fs::Permissions::from_mode(0o755)).unwrap();
        }
        Room { folder: folder.canonicalize().unwrap(), _turn: turn }
    }

    fn path(&self, name: &str) -> String {
        self.folder.join(name).to_str().unwrap().to_owned()
    }

    /// Plans words in an environment with the usual `PATH`.
    fn plan(&self, words: &[&str], more: &[Variable<'_>]) -> Result<zigrunk::Plan, Error> {
        let variables = [&[Variable::new("PATH", "/usr/bin:/bin")], more].concat();
        let (cwd, tmp, nvcc) = (self.path(""), self.path("t"), self.path("nvcc"));
        Call::new(&NvccCall::new(&nvcc, words).at(cwd.trim_end_matches('/'), &tmp).variables(&variables))?.plan()
    }
}

impl Drop for Room {
    fn drop(&mut self) {
        // (a folder that stays is no failure of a test)
        let _ = fs::remove_dir_all(&self.folder);
    }
}

#[test]
fn a_call_is_planned() {
    let room = Room::new("planned");
    let plan = room.plan(&["-c", "k.cu"], &[Variable::new("A", "1")]).unwrap();
    let [gcc, cicc, last] = plan.commands().collect::<Vec<_>>().try_into().unwrap();
    assert_eq!((gcc.preprocesses(), last.preprocesses()), (true, false));
    assert_eq!(
        [gcc, cicc, last].map(|command| command.targets().unwrap()),
        [vec!["compute_75".to_owned()], vec!["compute_75".to_owned()], vec![]]
    );
    assert_eq!((gcc.program(), cicc.program()), (room.path("gcc").as_str(), room.path("cicc").as_str()));
    assert_eq!((cicc.needs(), cicc.tool()), ([0].as_slice(), Some(CommandTool::Cicc)));
    assert!(cicc.writes().eq([room.path("k.ptx")]) || cicc.writes().eq([room.path("t/k.ptx")]), "{cicc:?}");
    assert!(cicc.variables().any(|it| it == ("A", "1")));
}

#[test]
fn flags_of_the_environment_are_part_of_the_line() {
    let room = Room::new("flags");
    room.plan(&["-c", "k.cu"], &[Variable::new("NVCC_APPEND_FLAGS", "-DX=1 -G")]).unwrap();
    let words = fs::read_to_string(Path::new(&room.path("words"))).unwrap();
    assert_eq!(words.lines().filter(|line| line.contains("-DX=1 -G")).count(), 2, "{words}");
}

#[test]
fn calls_that_are_not_planned() {
    let room = Room::new("refused");
    let kind = |words: &[&str]| room.plan(words, &[]).unwrap_err().kind();
    assert_eq!(kind(&["-E", "k.cu"]), ErrorKind::ToNvcc);
    let refused = room.plan(&["-c", "k.cu", "-Dbad"], &[]).unwrap_err();
    assert_eq!((refused.kind(), refused.to_string().as_str()), (ErrorKind::Nvcc, "nvcc fatal   : bad"));
    fs::remove_file(room.folder.join("cicc")).unwrap();
    assert_eq!(kind(&["-c", "k.cu"]), ErrorKind::NotFound);
    fs::remove_file(room.folder.join("nvcc")).unwrap();
    let unstarted = room.plan(&["-c", "k.cu"], &[]).unwrap_err();
    assert!(unstarted.kind() == ErrorKind::Io && std::error::Error::source(&unstarted).is_some(), "{unstarted:?}");
}
