//! The workspace of plain Rust: the erased crates, and what is written by hand for them.

use crate::crates::{Crate, crates};
use crate::erased::erased;
use crate::error::Error;
use crate::manifest::{Known, manifest, workspace};
use crate::tree::{Tree, names};
use std::fs;
use std::path::{Path, PathBuf};

/// The crates that are written by hand, by their folders in the project. Some projects lack some of them.
const BY_HAND: [&str; 11] = [
    "call",
    "bindings/rust",
    "capi",
    "unix",
    "machine",
    "cache",
    "provenance",
    "runner",
    "batch",
    "report",
    "driver",
];
/// The crate that is a member only on request.
const REMOTE: &str = "remote";

/// Names the files of the record, and says what its columns are.
const RECORD: &str = "# What went from each file of the proved sources: FILE, CLASS, and the bytes from START to END. A rewrite has its name.\n";

/// What makes up the workspace.
#[derive(Debug, Default)]
pub struct Workspace {
    /// All files.
    pub tree: Tree,
    /// The roots of the erased crates: the files that rustfmt begins with.
    pub roots: Vec<PathBuf>,
    members: Vec<PathBuf>,
    record: String,
}

/// The workspace for the project at `root`. Test drivers are in it if `drivers` says so, and the crate remote if `remote` does.
pub fn workspace_of(root: &Path, drivers: bool, remote: bool) -> Result<Workspace, Error> {
    let all = crates(root, drivers)?;
    let stand = root.join("rust/stand");
    let known = Known {
        crates: all.iter().map(|it| it.name.clone()).collect(),
        stand_ins: names(&stand)?.into_iter().collect(),
    };
    let mut found = Workspace::default();
    found.record.push_str(RECORD);
    for one in &all {
        found.add_crate(root, one, &known)?;
    }
    for name in names(&stand)? {
        found.add_copy(&stand.join(&name), &Path::new("stand").join(&name))?;
    }
    for one in BY_HAND {
        found.add_copy(&root.join(one), &place(one))?;
    }
    let by_default = found.members.len();
    if remote {
        found.add_copy(&root.join(REMOTE), &place(REMOTE))?;
    }
    let version = root.join("VERSION");
    let version = fs::read_to_string(&version).map_err(|it| Error::io(&version, it))?;
    let manifest = workspace(version.trim(), &found.members, by_default);
    found.tree.add("Cargo.toml", manifest);
    found.tree.add("erased.txt", found.record.as_str());
    Ok(found)
}

// Where a crate that is written by hand goes in the workspace.
fn place(folder: &str) -> PathBuf {
    PathBuf::from(if folder == "bindings/rust" {
        "zigrunk"
    } else {
        folder
    })
}

impl Workspace {
    // Adds a crate of the proved sources. There is none of theorems alone.
    fn add_crate(&mut self, root: &Path, of: &Crate, known: &Known) -> Result<(), Error> {
        let erased = erased(root, of)?;
        self.record.push_str(&erased.record);
        if erased.is_empty() {
            return Ok(());
        }
        let folder = Path::new("crates").join(&of.name);
        self.tree
            .add(folder.join("Cargo.toml"), manifest(of, &erased, known)?);
        for (path, text) in erased.files {
            let path = folder.join(path);
            if path.ends_with("src/lib.rs") || path.ends_with("src/main.rs") {
                self.roots.push(path.clone());
            }
            self.tree.add(path, text);
        }
        self.members.push(folder);
        Ok(())
    }

    // Adds a crate that is written by hand, if it is there and made for this workspace.
    fn add_copy(&mut self, from: &Path, to: &Path) -> Result<(), Error> {
        if is_member(&from.join("Cargo.toml")) {
            self.tree.copy(from, to)?;
            self.members.push(to.to_path_buf());
        }
        Ok(())
    }
}

// Whether a manifest is of this workspace: it takes its version from it, or it needs crates of it.
fn is_member(manifest: &Path) -> bool {
    let marks = ["version.workspace = true", "\"../crates/"];
    fs::read_to_string(manifest).is_ok_and(|text| marks.iter().any(|it| text.contains(it)))
}
