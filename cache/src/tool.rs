//! The tools of commands, and the digests of files, of which large ones aren't read again that the user's
//! folder knows by place and stamp.
use crate::digest::{Digest, Hasher};
use crate::place;
use crate::stamps::Stamp;
use crate::store::{Store, digest_of};
use crate::system;
use machine::host_compilers::is_gccs_name;
use machine::jobs::Job;
use std::ffi::OsString;
use std::fs::{self, File, Metadata};
use std::io::Read;
use std::os::fd::AsFd;
use std::os::unix::ffi::OsStrExt;
use std::path::{Path, PathBuf};
use std::process::{Command, Stdio};
use std::thread;
use std::time::Duration;

/// What programs begin with that the kernel runs itself. A script may run anything.
const PROGRAM: &[u8] = b"\x7fELF";
/// A file of so many bytes is digested by one call at a time: others that want to know it wait.
const LARGE: u64 = 1 << 16;
/// The file that has the lock of whoever digests large files.
const TURN: &str = "turn";
/// How long a call waits for another that digests files, and how long until it looks again.
const PATIENCE: Duration = Duration::from_secs(10);
const PAUSE: Duration = Duration::from_millis(2);

/// By this the loader lists the libraries that it would give a program, and runs nothing.
const LISTS_LIBRARIES: &str = "LD_TRACE_LOADED_OBJECTS";

/// A kind of tools.
#[derive(Clone, Copy, PartialEq, Eq, Debug)]
pub enum Kind {
    /// cudafe++.
    CudaFe,
    /// cicc.
    Cicc,
    /// ptxas.
    Ptxas,
    /// fatbinary.
    Fatbinary,
    /// gcc, when it compiles.
    Host,
}

impl Kind {
    /// The kind of one of nvcc's own tools.
    pub fn of_nvccs(name: &str) -> Option<Kind> {
        match name {
            "cudafe++" => Some(Kind::CudaFe),
            "cicc" => Some(Kind::Cicc),
            "ptxas" => Some(Kind::Ptxas),
            "fatbinary" => Some(Kind::Fatbinary),
            _ => None,
        }
    }

    /// The kind of a program, if the cache knows it.
    pub fn of(program: &str) -> Option<Kind> {
        let name = Path::new(program).file_name()?.to_str()?;
        Kind::of_nvccs(name).or_else(|| is_gccs_name(name).then_some(Kind::Host))
    }
}

/// The key under which the user's folder has the digest of a file with this stamp.
fn key_of(path: &Path, stamp: &Stamp) -> Digest {
    let mut hasher = Hasher::default();
    hasher.add(b"zigrunk tool 2");
    hasher.add(path.as_os_str().as_bytes());
    hasher.update(&stamp.0.concat());
    hasher.finish()
}

/// The digests of files, as a call needs them.
pub struct Tools {
    /// Where they are kept: the user's folder if it can be written, else the cache.
    stores: Vec<Store>,
    /// What nvcc's tools consist of, by how they run.
    identities: Vec<(Runs, Option<Digest>)>,
}

/// How a tool runs: its program, folder and variables.
type Runs = (PathBuf, PathBuf, Vec<(OsString, OsString)>);

/// One of nvcc's tools, and where it runs.
pub struct Run<'a> {
    /// What it is.
    pub kind: Kind,
    /// Its path.
    pub program: &'a Path,
    /// Where it runs.
    pub folder: &'a Path,
    /// Its variables.
    pub environment: &'a [(OsString, OsString)],
}

impl<'a> Run<'a> {
    /// A tool as a job runs it in an environment.
    pub fn of(kind: Kind, job: &'a Job, environment: &'a [(OsString, OsString)]) -> Option<Run<'a>> {
        Some(Run {
            kind,
            program: Path::new(job.words.first()?),
            folder: Path::new(&job.folder),
            environment,
        })
    }

    /// The libraries that the loader gives it, as that says. (A tool that has none says its version.)
    fn libraries(&self) -> Option<Vec<PathBuf>> {
        let mut tool = Command::new(self.program);
        tool.arg("--version").current_dir(self.folder).env_clear().envs(self.environment.iter().cloned());
        let said = tool
            .env(LISTS_LIBRARIES, "1")
            .stdin(Stdio::null())
            .output()
            .ok()
            .filter(|said| said.status.success())?;
        let text = String::from_utf8(said.stdout).ok().filter(|text| !text.contains("not found"))?;
        let paths = text.lines().filter_map(|line| line.rsplit_once(" (0x")?.0.split_whitespace().last());
        Some(paths.filter(|path| path.contains('/')).map(|path| self.folder.join(path)).collect())
    }

    /// The files of libraries for device code that cicc may read.
    fn device_libraries(&self) -> Option<Vec<PathBuf>> {
        let beside = self.program.parent()?.parent()?.join("libdevice");
        let named = self
            .environment
            .iter()
            .rev()
            .find(|(name, _)| name == "NVVMIR_LIBRARY_DIR")
            .map(|(_, folder)| PathBuf::from(folder));
        let mut files: Vec<PathBuf> = Vec::new();
        for folder in [Some(beside), named].into_iter().flatten().filter(|_| self.kind == Kind::Cicc) {
            for file in fs::read_dir(folder).into_iter().flatten() {
                files.push(file.ok()?.path());
            }
        }
        files.sort();
        Some(files)
    }
}

/// The turn of a call to digest large files; when it's dropped, it is the next one's. `None` if there are no
/// turns here, or after a long wait.
fn turn(store: &Store) -> Option<File> {
    fs::create_dir_all(store.folder()).ok()?;
    let file =
        File::options().write(true).create(true).truncate(false).open(store.folder().join(TURN)).ok()?;
    let tries = PATIENCE.as_millis() / PAUSE.as_millis();
    let takes = |_: &u128| {
        let is_mine = system::try_lock(file.as_fd()).unwrap_or(true);
        if !is_mine {
            thread::sleep(PAUSE);
        }
        is_mine
    };
    (0..tries).find(takes).map(|_| file)
}

impl Tools {
    /// Those of a call that uses this store.
    pub fn new(store: &Store) -> Tools {
        Tools {
            stores: place::programs().into_iter().chain([store.clone()]).collect(),
            identities: Vec::new(),
        }
    }

    /// Those that only the user's folder keeps.
    pub fn of_user() -> Tools {
        Tools { stores: place::programs().into_iter().collect(), identities: Vec::new() }
    }

    fn kept(&self, key: Option<&Digest>) -> Option<Digest> {
        self.stores.iter().find_map(|store| Some(Digest(store.read(key?)?.try_into().ok()?)))
    }

    fn large_digest(&self, path: &Path) -> Option<Digest> {
        let mut file = File::open(path).ok()?;
        let status = file.metadata().ok().filter(Metadata::is_file)?;
        let key = Stamp::settled(path, &status).map(|stamp| key_of(path, &stamp));
        let kept = || self.kept(key.as_ref());
        if let Some(kept) = kept() {
            return Some(kept);
        }
        let turn = self.stores.first().filter(|_| key.is_some()).and_then(turn);
        if let Some(kept) = turn.as_ref().and_then(|_| kept()) {
            return Some(kept);
        }
        let digest = digest_of(&mut file).ok()?;
        if let Some(key) = key {
            let _ = self.stores.iter().find(|store| store.write(&key, &digest.0).is_ok());
        }
        Some(digest)
    }

    /// The digest of a file's contents, as it is now.
    pub fn digest_of(&self, path: &Path) -> Option<Digest> {
        let is_large = fs::metadata(path).is_ok_and(|status| status.len() >= LARGE);
        if is_large { self.large_digest(path) } else { digest_of(&mut File::open(path).ok()?).ok() }
    }

    /// The digest of all that one of nvcc's tools consists of: the program, the libraries that the loader
    /// gives it, and for cicc the files of its device libraries. `None` if that isn't known, as for a script.
    pub fn identity(&mut self, run: &Run<'_>) -> Option<Digest> {
        let runs = (run.program.to_owned(), run.folder.to_owned(), run.environment.to_vec());
        if let Some((_, known)) = self.identities.iter().find(|(other, _)| *other == runs) {
            return *known;
        }
        let identity = self.new_identity(run);
        self.identities.push((runs, identity));
        identity
    }

    fn new_identity(&self, run: &Run<'_>) -> Option<Digest> {
        let mut begin = [0; PROGRAM.len()];
        File::open(run.program).ok()?.read_exact(&mut begin).ok().filter(|()| begin == PROGRAM)?;
        let mut hasher = Hasher::default();
        hasher.update(&self.digest_of(run.program)?.0);
        for file in run.libraries()?.into_iter().chain(run.device_libraries()?) {
            hasher.add(file.file_name()?.as_bytes());
            hasher.update(&self.digest_of(&file)?.0);
        }
        Some(hasher.finish())
    }
}

#[cfg(test)]
mod tests {
    use super::*;
    use crate::forked::in_own_process;
    use crate::test_folder::TestFolder;
    use std::os::unix::fs::PermissionsExt;
    use std::time::SystemTime;

    #[test]
    fn calls_take_turns() {
        in_own_process(|| {
            let folder = TestFolder::new();
            let store = Store::new(folder.join("store"), 1 << 20);
            let first = turn(&store).expect("it makes the store's folder");
            let other = store.clone();
            let next = thread::spawn(move || turn(&other).is_some());
            thread::sleep(25 * PAUSE);
            assert!(!next.is_finished());
            drop(first);
            assert!(next.join().unwrap());
        });
    }

    #[test]
    fn tools_are_known_by_their_names() {
        let cases = [
            ("/b/cudafe++", Some(Kind::CudaFe)),
            ("cicc", Some(Kind::Cicc)),
            ("/c/ptxas", Some(Kind::Ptxas)),
            ("gcc", Some(Kind::Host)),
            ("/b/g++-12.2", Some(Kind::Host)),
            ("/b/fatbinary", Some(Kind::Fatbinary)),
            ("fatbinary.sh", None),
            ("clang++", None),
            ("gcc-ar", None),
            ("", None),
        ];
        for (program, wanted) in cases {
            assert_eq!(Kind::of(program), wanted, "{program}");
        }
    }

    fn job(program: &str) -> Job {
        Job { words: vec![program.into()], folder: "/".into(), ..Job::default() }
    }

    /// A folder with tools, for a test, which goes with it.
    struct Scratch(TestFolder);

    impl Scratch {
        fn new() -> Scratch {
            let folder = TestFolder::new();
            fs::create_dir_all(folder.join("bin")).unwrap();
            Scratch(folder)
        }

        fn put(&self, name: &str, text: &str) -> PathBuf {
            let path = self.0.join(name);
            fs::create_dir_all(path.parent().unwrap()).unwrap();
            let _ = fs::remove_file(&path);
            fs::write(&path, text).unwrap();
            fs::set_permissions(&path, PermissionsExt::from_mode(0o755)).unwrap();
            path
        }

        /// A program that is like another but for a text at its end.
        fn program(&self, name: &str, text: &str) -> PathBuf {
            let path = self.put(name, "");
            fs::write(&path, [&fs::read("/bin/true").unwrap()[..], text.as_bytes()].concat()).unwrap();
            path
        }

        /// The identity of cicc there, as a call sees it.
        fn identity(&self) -> Option<Digest> {
            let store = Store::new(self.0.join("store"), 1 << 20);
            let program = self.0.join("bin/cicc");
            let named = |name: &str, folder: &str| (name.into(), self.0.join(folder).into_os_string());
            let environment = [named("NVVMIR_LIBRARY_DIR", "named"), named("LD_LIBRARY_PATH", "loaded")];
            (Tools { stores: vec![store], identities: Vec::new() }).identity(&Run {
                kind: Kind::Cicc,
                program: &program,
                folder: Path::new("/"),
                environment: &environment,
            })
        }
    }

    #[test]
    fn the_contents_of_a_tool_count() {
        let scratch = Scratch::new();
        let cicc = scratch.program("bin/cicc", "one");
        let first = scratch.identity().unwrap();
        assert_eq!(scratch.identity(), Some(first));
        let time = fs::metadata(&cicc).unwrap().modified().unwrap();
        scratch.program("bin/cicc", "two");
        File::options().write(true).open(&cicc).unwrap().set_modified(time).unwrap();
        let second = scratch.identity().unwrap();
        assert_ne!(first, second, "the same size and time");
        scratch.put("libdevice/10.bc", "a");
        let third = scratch.identity().unwrap();
        scratch.put("named/10.bc", "b");
        let fourth = scratch.identity().unwrap();
        let library = Run::of(Kind::Cicc, &job("/bin/true"), &[])
            .unwrap()
            .libraries()
            .unwrap()
            .into_iter()
            .find(|path| path.ends_with("libc.so.6"))
            .unwrap();
        let text = [fs::read(library).unwrap(), b"c".to_vec()].concat();
        scratch.put("loaded/libc.so.6", "");
        fs::write(scratch.0.join("loaded/libc.so.6"), text).unwrap();
        let fifth = scratch.identity().unwrap();
        scratch.put("loaded/libc.so.6", "none");
        assert!(
            third != second && fourth != third && fifth != fourth && scratch.identity().is_none(),
            "its libraries"
        );
    }

    #[test]
    fn a_tool_that_is_settled_is_not_read_again() {
        let scratch = Scratch::new();
        let store = Store::new(scratch.0.join("store"), 1 << 20);
        let settled = Path::new("/bin/sh");
        assert_eq!(store.content().entries, 0);
        let tools = Tools { stores: vec![store.clone()], identities: Vec::new() };
        assert_eq!(tools.large_digest(settled), Some(digest_of(&mut File::open(settled).unwrap()).unwrap()));
        assert_eq!(store.content().entries, 1);
        let stamp = Stamp::settled(settled, &fs::metadata(settled).unwrap()).unwrap();
        store.write(&key_of(settled, &stamp), &[7; 32]).unwrap();
        assert_eq!(tools.large_digest(settled), Some(Digest([7; 32])));
        let new = scratch.put("bin/cicc", "\x7fELF one");
        let mut file = File::options().read(true).write(true).open(&new).unwrap();
        file.set_modified(SystemTime::now() + Duration::from_secs(2000)).unwrap();
        assert_eq!(tools.large_digest(&new), Some(digest_of(&mut file).unwrap()));
        assert_eq!(store.content().entries, 1);
    }

    #[test]
    fn a_script_is_no_known_tool() {
        let scratch = Scratch::new();
        scratch.put("bin/cicc", "#!/bin/sh\n");
        assert_eq!(scratch.identity(), None);
        fs::remove_file(scratch.0.join("bin/cicc")).unwrap();
        assert_eq!(scratch.identity(), None);
    }
}
