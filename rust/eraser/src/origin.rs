//! Where cargo takes the crates from that the workspace has from others.

use crate::error::Error;
use std::ffi::OsString;
use std::fs;
use std::path::{Path, PathBuf};
use std::process::Command;

/// Where Debian's packages have crates.
const DEBIAN: &str = "/usr/share/cargo/registry";
/// The crates that the project has of its own, from its root.
const VENDOR: &str = "vendor";
/// The versions for cargo's registry, from the project's root.
const LOCK: &str = "packaging/Cargo.lock";

/// Has cargo take crates for `workspace` from `folder`, or else from the first of these that has what it needs: the folder vendor of
/// the project at `root`, Debian's packages, cargo's registry. A relative `folder` is one of the workspace.
/// An error if a folder is given, or vendor is there, and lacks what the workspace needs.
pub fn settle(root: &Path, workspace: &Path, folder: Option<&Path>) -> Result<(), Error> {
    let vendor = root.join(VENDOR);
    if let Some(folder) = folder {
        return by_folder(workspace, folder);
    }
    if vendor.is_dir() {
        return by_folder(workspace, &absolute(&vendor)?);
    }
    if Path::new(DEBIAN).is_dir() && by_folder(workspace, Path::new(DEBIAN)).is_ok() {
        return Ok(());
    }
    by_registry(root, workspace)
}

fn absolute(path: &Path) -> Result<PathBuf, Error> {
    fs::canonicalize(path).map_err(|it| Error::io(path, it))
}

// Cargo finds versions anew each time, since a folder has only one or two of each crate.
fn by_folder(workspace: &Path, folder: &Path) -> Result<(), Error> {
    let text = format!(
        "# Written by `make rust`.\n[source.crates-io]\nreplace-with = \"folder\"\n\n[source.folder]\ndirectory = \"{}\"\n",
        folder.display()
    );
    configure(workspace, &text)?;
    let lock = workspace.join("Cargo.lock");
    if lock.exists() {
        fs::remove_file(&lock).map_err(|it| Error::io(&lock, it))?;
    }
    let cargo = std::env::var_os("CARGO").unwrap_or_else(|| OsString::from("cargo"));
    let output = Command::new(cargo)
        .args(["generate-lockfile", "--quiet", "--offline"])
        .current_dir(workspace)
        .output()
        .map_err(|it| Error::io(Path::new("cargo"), it))?;
    if output.status.success() {
        return Ok(());
    }
    Err(Error::LacksCrates {
        folder: folder.to_path_buf(),
        said: String::from_utf8_lossy(&output.stderr).trim().to_string(),
    })
}

// The first time, or after a folder, cargo begins with the versions of the project's lock.
fn by_registry(root: &Path, workspace: &Path) -> Result<(), Error> {
    if !configure(
        workspace,
        "# Written by `make rust`: crates are those of cargo's registry.\n",
    )? {
        return Ok(());
    }
    let (from, to) = (root.join(LOCK), workspace.join("Cargo.lock"));
    if from.exists() {
        fs::copy(&from, &to).map_err(|it| Error::io(&from, it))?;
    }
    Ok(())
}

// Writes cargo's configuration of the workspace. Whether it was another.
fn configure(workspace: &Path, text: &str) -> Result<bool, Error> {
    let path = workspace.join(".cargo/config.toml");
    if fs::read(&path).is_ok_and(|it| it == text.as_bytes()) {
        return Ok(false);
    }
    let folder = workspace.join(".cargo");
    fs::create_dir_all(&folder).map_err(|it| Error::io(&folder, it))?;
    fs::write(&path, text).map_err(|it| Error::io(&path, it))?;
    Ok(true)
}
