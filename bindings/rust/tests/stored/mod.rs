//! The dry runs of real calls that the repository has, for tests.

use std::path::{Path, PathBuf};
use std::{env, fs};

/// A real call: its dry runs, and its plan as `cudaplan` prints it.
#[derive(Debug)]
pub struct Stored {
    pub name: String,
    pub dry1: Vec<u8>,
    pub dry2: Vec<u8>,
    /// The option that says what nvcc makes.
    pub flag: String,
    pub plan: String,
}

/// The folder with the files: that of `ZIGRUNK_DRY_RUNS`, or else in the repository that this crate's folder is in.
fn folder() -> PathBuf {
    if let Some(folder) = env::var_os("ZIGRUNK_DRY_RUNS") {
        return folder.into();
    }
    let here = PathBuf::from(env!("CARGO_MANIFEST_DIR")).canonicalize().expect("the crate's folder");
    let mut folders = here.ancestors().map(|top| top.join("tests/drivers/test_plans/data/dry_runs"));
    folders.find(|folder| folder.is_dir()).expect("ZIGRUNK_DRY_RUNS, or a repository above")
}

fn read(path: &Path) -> Vec<u8> {
    fs::read(path).unwrap_or_else(|error| panic!("{}: {error}", path.display()))
}

fn text(path: &Path) -> String {
    String::from_utf8(read(path)).expect("a text")
}

/// The call with a name.
pub fn call(name: &str) -> Stored {
    let file = |end| folder().join(format!("{name}.{end}"));
    Stored {
        name: name.to_owned(),
        dry1: read(&file("dry1")),
        dry2: read(&file("dry2")),
        flag: text(&file("flag")).trim().to_owned(),
        plan: text(&file("plan")),
    }
}

/// All calls, in the order of their names.
pub fn calls() -> Vec<Stored> {
    let files = fs::read_dir(folder()).expect("the folder").map(|entry| entry.expect("an entry").file_name());
    let mut names: Vec<String> = files.filter_map(|file| Some(file.to_str()?.strip_suffix(".flag")?.to_owned())).collect();
    names.sort();
    assert!(names.len() > 5, "{names:?}");
    names.iter().map(|name| call(name)).collect()
}
