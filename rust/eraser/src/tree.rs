//! The files of the workspace, and how they get to the disk.

use crate::error::Error;
use std::collections::BTreeMap;
use std::fs;
use std::path::{Path, PathBuf};
use std::process::Command;

/// What a workspace has of its own: cargo's, and crates of others.
const KEPT: [&str; 4] = ["target", "Cargo.lock", ".cargo", "vendor"];
/// What isn't copied from a folder that is written by hand.
const LEFT: [&str; 2] = ["target", "Cargo.lock"];

/// Files by their paths from the root of the workspace.
#[derive(Debug, Default)]
pub struct Tree {
    files: BTreeMap<PathBuf, Vec<u8>>,
}

impl Tree {
    /// Adds a file.
    pub fn add(&mut self, path: impl Into<PathBuf>, text: impl Into<Vec<u8>>) {
        self.files.insert(path.into(), text.into());
    }

    /// Adds the files of a folder, but for what cargo made there.
    pub fn copy(&mut self, from: &Path, to: &Path) -> Result<(), Error> {
        for name in names(from)? {
            let (source, target) = (from.join(&name), to.join(&name));
            if LEFT.contains(&name.as_str()) {
                continue;
            }
            if source.is_dir() {
                self.copy(&source, &target)?;
            } else {
                self.add(
                    target,
                    fs::read(&source).map_err(|it| Error::io(&source, it))?,
                );
            }
        }
        Ok(())
    }

    /// Makes `folder` hold these files and no others. A file that is right already isn't written, so that cargo doesn't compile it again.
    pub fn write(&self, folder: &Path) -> Result<(), Error> {
        for (path, text) in &self.files {
            let path = folder.join(path);
            if fs::read(&path).is_ok_and(|it| it == *text) {
                continue;
            }
            if let Some(parent) = path.parent() {
                fs::create_dir_all(parent).map_err(|it| Error::io(parent, it))?;
            }
            fs::write(&path, text).map_err(|it| Error::io(&path, it))?;
        }
        self.remove_others(folder, Path::new(""))
    }

    // Removes what a folder of the workspace has and the tree hasn't.
    fn remove_others(&self, root: &Path, folder: &Path) -> Result<(), Error> {
        for name in names(&root.join(folder))? {
            let path = folder.join(&name);
            let whole = root.join(&path);
            let is_known = self.files.keys().any(|it| it.starts_with(&path));
            if folder == Path::new("") && KEPT.contains(&name.as_str()) {
                continue;
            }
            let removed = match (is_known, whole.is_dir()) {
                (true, true) => {
                    self.remove_others(root, &path)?;
                    Ok(())
                }
                (true, false) => Ok(()),
                (false, true) => fs::remove_dir_all(&whole),
                (false, false) => fs::remove_file(&whole),
            };
            removed.map_err(|it| Error::io(&whole, it))?;
        }
        Ok(())
    }

    /// Lays out the Rust of `roots` and of their modules by rustfmt, if there is one. Whether there is.
    pub fn format(&mut self, roots: &[PathBuf], scratch: &Path) -> Result<bool, Error> {
        let has_rustfmt = Command::new("rustfmt").arg("--version").output();
        if !has_rustfmt.is_ok_and(|it| it.status.success()) {
            return Ok(false);
        }
        self.write(scratch)?;
        let answer = self.format_in(roots, scratch);
        fs::remove_dir_all(scratch).map_err(|it| Error::io(scratch, it))?;
        answer.map(|()| true)
    }

    fn format_in(&mut self, roots: &[PathBuf], scratch: &Path) -> Result<(), Error> {
        let paths = roots.iter().map(|it| scratch.join(it));
        let output = Command::new("rustfmt")
            .args(["--edition", "2024"])
            .args(paths)
            .output();
        let output = output.map_err(|it| Error::io(Path::new("rustfmt"), it))?;
        if !output.status.success() {
            return Err(Error::Format(
                String::from_utf8_lossy(&output.stderr).into_owned(),
            ));
        }
        for (path, text) in &mut self.files {
            let path = scratch.join(path);
            *text = fs::read(&path).map_err(|it| Error::io(&path, it))?;
        }
        Ok(())
    }
}

/// The names in a folder, in order. Those that aren't UTF-8 aren't ours.
pub fn names(folder: &Path) -> Result<Vec<String>, Error> {
    let entries = fs::read_dir(folder).map_err(|it| Error::io(folder, it))?;
    let mut names: Vec<String> = entries
        .filter_map(|it| it.ok()?.file_name().into_string().ok())
        .collect();
    names.sort();
    Ok(names)
}
