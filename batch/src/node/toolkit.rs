//! The toolkit and the host compiler that calls of a machine use, by what nvcc and the compiler say, and the
//! digests of their files.
use cache::digest::{Digest, Hasher};
use call::programs;
use machine::settings::own_variable;
use std::collections::BTreeSet;
use std::ffi::{OsStr, OsString};
use std::fs::{self, File};
use std::io::{self, Read};
use std::os::unix::ffi::OsStrExt;
use std::path::{Path, PathBuf};
use std::process::{Command, Stdio};
use std::sync::atomic::{AtomicUsize, Ordering};
use std::thread;

/// How many bytes of a file are read at once, so that a large library isn't in memory as a whole.
const PART: usize = 1 << 18;
/// How many files are read side by side.
const SIDE_BY_SIDE: usize = 4;
/// How deep folders of headers are looked through, so that a link to a folder above ends.
const DEEPEST: usize = 20;
/// nvcc's programs beside it, and what it reads there.
const BESIDE: [&str; 7] =
    ["nvcc", "nvcc.profile", "cudafe++", "ptxas", "fatbinary", "nvlink", "crt/link.stub"];
/// The programs that gcc runs.
const OF_COMPILER: [&str; 4] = ["cc1plus", "cc1", "as", "collect2"];

/// What a dry run says of the toolkit.
#[derive(Clone, PartialEq, Eq, Debug, Default)]
struct DryRun<'a> {
    nvcc: &'a str,
    cicc: &'a str,
    libraries: &'a str,
    includes: &'a str,
    path: &'a str,
    compiler: &'a str,
}

/// Reads the lines of a dry run that set variables, and the first one that preprocesses.
fn dry_run(text: &str) -> DryRun<'_> {
    let mut said = DryRun::default();
    for line in text.lines().filter_map(|line| line.strip_prefix("#$ ")) {
        match line.split_once('=') {
            Some(("_HERE_", value)) => said.nvcc = value,
            Some(("CICC_PATH", value)) => said.cicc = value,
            Some(("NVVMIR_LIBRARY_DIR", value)) => said.libraries = value,
            Some(("INCLUDES", value)) => said.includes = value,
            Some(("PATH", value)) => said.path = value,
            _ if said.compiler.is_empty() && line.contains(" -E ") => {
                said.compiler = line
                    .strip_prefix('"')
                    .and_then(|rest| rest.split('"').next())
                    .or(line.split(' ').next())
                    .unwrap_or_default();
            }
            _ => {}
        }
    }
    said
}

/// The folders that quoted words `-IFOLDER` name.
fn include_folders(words: &str) -> impl Iterator<Item = PathBuf> + '_ {
    words.split('"').filter_map(|word| word.strip_prefix("-I")).map(PathBuf::from)
}

/// What a program prints to standard output and to standard error, if it can be run.
fn printed(program: &Path, words: &[&str]) -> Option<[Vec<u8>; 2]> {
    let mut command = Command::new(program);
    command.env_remove("NVCC_PREPEND_FLAGS").env_remove("NVCC_APPEND_FLAGS").env("LC_ALL", "C");
    let said = command.args(words).stdin(Stdio::null()).output().ok()?;
    Some([said.stdout, said.stderr])
}

/// The files by which gcc does otherwise than it would by itself, and the folders in which it looks for
/// headers, by what it says.
fn specs_and_folders(said: &[u8]) -> (Vec<PathBuf>, Vec<PathBuf>) {
    let path = |text: &[u8]| PathBuf::from(OsStr::from_bytes(text));
    let lines = || said.split(|&byte| byte == b'\n');
    let specs = lines().filter_map(|line| line.strip_prefix(b"Reading specs from ")).map(path);
    let folders = lines().skip_while(|line| !line.starts_with(b"#include <...> search starts")).skip(1);
    (specs.collect(), folders.map_while(|line| line.strip_prefix(b" ")).map(path).collect())
}

/// A host compiler's program, those that it runs, its specs, and its folders of headers.
fn of_compiler(compiler: &Path, path: &OsStr) -> Vec<PathBuf> {
    let part = |name: &&str| {
        let [said, _] = printed(compiler, &[&format!("-print-prog-name={name}")])?;
        let line = String::from_utf8(said).ok()?;
        programs::find(OsStr::new(line.trim_end()), path, Path::new(""))
    };
    let [_, said] = printed(compiler, &["-E", "-v", "-x", "c++", "/dev/null"]).unwrap_or_default();
    let (specs, folders) = specs_and_folders(&said);
    [compiler.to_owned()]
        .into_iter()
        .chain(OF_COMPILER.iter().filter_map(part))
        .chain(specs)
        .chain(folders)
        .collect()
}

/// nvcc and the host compiler that it finds, and the files and folders of both.
#[derive(Clone, PartialEq, Eq, Debug, Default)]
pub struct Toolkit {
    pub nvcc: Option<PathBuf>,
    /// The host compiler, as nvcc names it, and where that is.
    pub compiler: (String, Option<PathBuf>),
    pub paths: BTreeSet<PathBuf>,
}

impl Toolkit {
    /// The toolkit of an nvcc by its name or path, as its dry run names it.
    pub fn of(nvcc: &OsStr) -> Toolkit {
        let own_path = own_variable("PATH").unwrap_or_default();
        let Some(nvcc) = programs::find(nvcc, &own_path, Path::new("")) else { return Toolkit::default() };
        let [out, errors] = printed(&nvcc, &["--dryrun", "-c", "zigrunk.cu"]).unwrap_or_default();
        let text = String::from_utf8_lossy(&[out, errors].concat()).into_owned();
        let said = dry_run(&text);
        let beside = BESIDE.iter().map(|name| Path::new(said.nvcc).join(name));
        let libraries =
            fs::read_dir(said.libraries).into_iter().flatten().flatten().map(|entry| entry.path());
        let path = if said.path.is_empty() { own_path } else { OsString::from(said.path) };
        let compiler = programs::find(OsStr::new(said.compiler), &path, Path::new(""));
        let parts = compiler.as_ref().map(|compiler| of_compiler(compiler, &path)).unwrap_or_default();
        let files = [nvcc.clone(), Path::new(said.cicc).join("cicc")]
            .into_iter()
            .chain(beside)
            .chain(libraries)
            .chain(parts);
        let paths = files.chain(include_folders(said.includes)).filter(|path| path.exists()).collect();
        Toolkit { nvcc: Some(nvcc), compiler: (said.compiler.to_owned(), compiler), paths }
    }
}

/// The digest of a file's contents.
/// Errors: those of opening and reading.
fn digest_of_file(path: &Path) -> io::Result<Digest> {
    let mut file = File::open(path)?;
    let (mut hasher, mut part) = (Hasher::default(), vec![0; PART]);
    loop {
        match file.read(&mut part)? {
            0 => return Ok(hasher.finish()),
            size => hasher.update(&part[..size]),
        }
    }
}

/// All files in and below a folder, or the file that a path is.
fn files_below(path: &Path, deep: usize, found: &mut Vec<PathBuf>) {
    if !path.is_dir() {
        return found.push(path.to_owned());
    }
    let entries = fs::read_dir(path).into_iter().flatten().flatten();
    for entry in entries.filter(|_| deep < DEEPEST) {
        files_below(&entry.path(), deep + 1, found);
    }
}

/// The digest of a file, or of the names and contents of all files below a folder. `None` if a path leads to
/// nothing, or a file can't be read.
fn digest_below(path: &Path) -> Option<Digest> {
    let mut files = Vec::new();
    files_below(path, 0, &mut files);
    files.sort();
    let mut hasher = Hasher::default();
    for file in &files {
        // Left out, since links that lead nowhere are nobody's headers.
        if *file != path && !file.exists() {
            continue;
        }
        hasher.add(file.strip_prefix(path).ok()?.as_os_str().as_bytes());
        hasher.add(&digest_of_file(file).ok()?.0);
    }
    Some(hasher.finish())
}

/// The digests of paths, some of which are read side by side.
pub fn digests_of(paths: &[PathBuf]) -> Vec<Option<Digest>> {
    let next = AtomicUsize::new(0);
    let read = || {
        let mut found = Vec::new();
        while let Some((at, path)) =
            Some(next.fetch_add(1, Ordering::Relaxed)).and_then(|at| Some((at, paths.get(at)?)))
        {
            found.push((at, digest_below(path)));
        }
        found
    };
    let mut digests = vec![None; paths.len()];
    thread::scope(|scope| {
        let threads: Vec<_> =
            (1..SIDE_BY_SIDE).map(|_| thread::Builder::new().spawn_scoped(scope, read)).collect();
        let others = threads.into_iter().flatten().filter_map(|thread| thread.join().ok());
        for (at, digest) in [read()].into_iter().chain(others).flatten() {
            digests[at] = digest;
        }
    });
    digests
}

/// The paths without those that are below another one of them.
pub fn topmost(paths: BTreeSet<PathBuf>) -> Vec<PathBuf> {
    let mut kept: Vec<PathBuf> = Vec::new();
    for path in paths {
        if !kept.last().is_some_and(|last| path.starts_with(last)) {
            kept.push(path);
        }
    }
    kept
}

#[cfg(test)]
mod tests {
    use super::*;
    use crate::forked::in_own_process;
    use crate::test_folder::TestFolder;
    use std::os::unix::fs::{PermissionsExt, symlink};

    #[test]
    fn a_dry_run_names_the_toolkit() {
        let text = "#$ _HERE_=/c/bin\n#$ CICC_PATH=/c/bin/../nvvm/bin\n#$ NVVMIR_LIBRARY_DIR=/c/libdevice\n#$ INCLUDES=\"-I/c/inc\" \"-I/c/a b\" \n\
                    #$ PATH=/c/bin:/bin\nremark -E x\n#$ gcc-12 -D_X=1 -E -x c++ \"k.cu\"\n#$ other -E x\n";
        let found = dry_run(text);
        assert_eq!(
            [found.nvcc, found.cicc, found.libraries],
            ["/c/bin", "/c/bin/../nvvm/bin", "/c/libdevice"]
        );
        assert_eq!([found.path, found.compiler], ["/c/bin:/bin", "gcc-12"]);
        assert_eq!(
            include_folders(found.includes).collect::<Vec<_>>(),
            [Path::new("/c/inc"), Path::new("/c/a b")]
        );
        assert_eq!(dry_run("#$ \"/a b/g++\" -E x\n").compiler, "/a b/g++");
        assert_eq!(dry_run("nvcc: no\n"), DryRun::default());
    }

    #[test]
    fn gcc_says_what_it_reads() {
        let said =
            b"Reading specs from /s\n#include \"...\" search starts here:\n /quoted\n#include <...> search starts here:\n /a b\n /c\nEnd of\n /d\n";
        let paths = |names: &[&str]| names.iter().map(PathBuf::from).collect::<Vec<_>>();
        assert_eq!(specs_and_folders(said), (paths(&["/s"]), paths(&["/a b", "/c"])));
        assert_eq!(specs_and_folders(b"clang version\n"), (Vec::new(), Vec::new()));
    }

    /// A toolkit in a folder: its nvcc, which says where the others are, and files of which some belong to
    /// it.
    fn make_toolkit(here: &Path) {
        for folder in ["nvvm", "lib", "bin", "inc", "sys"] {
            fs::create_dir_all(here.join(folder)).unwrap();
        }
        for name in [
            "lib/d.bc",
            "nvvm/cicc",
            "ptxas",
            "bin/as",
            "bin/cc1plus",
            "cudafe",
            "bin/ld",
            "specs",
            "inc/h",
            "sys/h",
        ] {
            fs::write(here.join(name), name).unwrap();
        }
        let shown = here.display();
        let says = format!(
            "#$ _HERE_={shown}\n#$ CICC_PATH={shown}/nvvm\n#$ NVVMIR_LIBRARY_DIR={shown}/lib\n#$ INCLUDES=\"-I{shown}/inc\"\n#$ PATH={shown}/bin\n\
             #$ gcc -E k.cu"
        );
        fs::write(
            here.join("nvcc"),
            format!("#!/bin/sh\n[ \"$*\" = '--dryrun -c zigrunk.cu' ] && echo '{says}' >&2\n"),
        )
        .unwrap();
        let gcc = format!(
            "#!/bin/sh\ncase $1 in\n-E) printf '%s\\n' 'Reading specs from {shown}/specs' '#include <...> search starts here:' ' {shown}/sys' End >&2 ;;\n\
             *) echo {shown}/bin/${{1#-print-prog-name=}} ;;\nesac\n"
        );
        fs::write(here.join("bin/gcc"), gcc).unwrap();
        for name in ["nvcc", "bin/gcc", "bin/as", "bin/cc1plus", "bin/ld"] {
            fs::set_permissions(here.join(name), PermissionsExt::from_mode(0o755)).unwrap();
        }
    }

    #[test]
    fn a_toolkit_has_the_files_of_the_nvcc_that_is_found() {
        // In a process of its own no other test keeps a program open that this one writes.
        in_own_process(|| {
            let here = TestFolder::new();
            make_toolkit(&here);
            let found = Toolkit::of(here.join("nvcc").as_os_str());
            assert_eq!(
                (found.nvcc, found.compiler),
                (Some(here.join("nvcc")), ("gcc".into(), Some(here.join("bin/gcc"))))
            );
            let wanted = [
                "nvcc",
                "nvvm/cicc",
                "ptxas",
                "lib/d.bc",
                "bin/gcc",
                "bin/cc1plus",
                "bin/as",
                "specs",
                "inc",
                "sys",
            ];
            assert_eq!(found.paths, wanted.map(|name| here.join(name)).into());
            assert_eq!(Toolkit::of(here.join("missing").as_os_str()), Toolkit::default());
        });
    }

    #[test]
    fn digests_are_of_names_and_contents() {
        let here = TestFolder::new();
        fs::create_dir_all(here.join("a/b")).unwrap();
        fs::write(here.join("a/b/h"), "text").unwrap();
        fs::write(here.join("file"), "text").unwrap();
        symlink("..", here.join("a/b/up")).unwrap();
        let of = |name: &str| digests_of(&[here.join(name)])[0];
        let before = of("a");
        assert!(before.is_some() && of("file").is_some() && of("missing").is_none());
        symlink("nowhere", here.join("a/link")).unwrap();
        assert_eq!(of("a"), before, "a link that leads nowhere");
        fs::write(here.join("a/b/h"), "other").unwrap();
        assert_ne!(of("a"), before);
        fs::write(here.join("a/b/h"), "text").unwrap();
        assert_eq!(of("a"), before);
        fs::rename(here.join("a/b/h"), here.join("a/b/g")).unwrap();
        assert_ne!(of("a"), before);
        let several = digests_of(&[here.join("file"), here.join("missing"), here.join("a")]);
        assert_eq!(several, [of("file"), None, of("a")]);
    }

    #[test]
    fn what_is_below_another_path_is_read_once() {
        let paths = |names: &[&str]| names.iter().map(PathBuf::from).collect::<Vec<_>>();
        let all = ["/a", "/a/b", "/a/b/c", "/ab", "/b/c", "/b/d"];
        assert_eq!(topmost(all.iter().map(PathBuf::from).collect()), paths(&["/a", "/ab", "/b/c", "/b/d"]));
    }
}
