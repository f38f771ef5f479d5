//! Folders for tests.
use std::ops::Deref;
use std::path::{Path, PathBuf};
use std::sync::atomic::{AtomicUsize, Ordering};
use std::{env, fs, process};

/// How many this process has made.
static MADE: AtomicUsize = AtomicUsize::new(0);

/// A folder of a test, empty at first, which goes with it.
pub struct TestFolder(PathBuf);

impl TestFolder {
    /// A new one.
    #[allow(clippy::new_without_default)]
    pub fn new() -> TestFolder {
        let name = format!("zigrunk-test-{}-{}", process::id(), MADE.fetch_add(1, Ordering::Relaxed));
        let path = fs::canonicalize(env::temp_dir()).unwrap().join(name);
        let _ = fs::remove_dir_all(&path);
        fs::create_dir(&path).unwrap();
        TestFolder(path)
    }
}

impl Deref for TestFolder {
    type Target = Path;

    fn deref(&self) -> &Path {
        &self.0
    }
}

impl AsRef<Path> for TestFolder {
    fn as_ref(&self) -> &Path {
        &self.0
    }
}

impl Drop for TestFolder {
    fn drop(&mut self) {
        let _ = fs::remove_dir_all(&self.0);
    }
}
