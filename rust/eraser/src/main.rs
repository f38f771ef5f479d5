//! Writes the proved sources as crates of plain Rust, with all that they need, as a cargo workspace.
//!
//! The sources are Rust with contracts, in Rattle. What only the prover reads goes; `rewrites` has the few places that plain Rust says
//! in another way. docs/proof/PLAIN_RUST.md has more.

#[cfg(test)]
mod cases;
mod crates;
mod documentation;
mod erased;
mod error;
mod ghost;
mod imports;
mod layout;
mod manifest;
mod origin;
mod rewrites;
mod signature;
mod source;
mod tokens;
mod tree;
mod workspace;

use error::Error;
use std::path::{Path, PathBuf};
use std::process::ExitCode;

const USAGE: &str =
    "usage: eraser [--drivers] [--unformatted] [--remote] [--crates=FOLDER] PROJECT WORKSPACE";

/// What the words of the call ask for.
struct Call {
    project: PathBuf,
    workspace: PathBuf,
    /// Whether test drivers are made too.
    drivers: bool,
    /// Whether rustfmt may lay out the result.
    formats: bool,
    /// Whether the crate remote is a member, which needs more crates than the rest.
    remote: bool,
    /// The folder to take crates from, if one is given.
    crates: Option<PathBuf>,
}

fn call(words: impl Iterator<Item = String>) -> Option<Call> {
    let (options, paths): (Vec<String>, Vec<String>) = words.partition(|it| it.starts_with("--"));
    let [project, workspace] = paths.as_slice() else {
        return None;
    };
    let mut call = Call {
        project: PathBuf::from(project),
        workspace: PathBuf::from(workspace),
        drivers: false,
        formats: true,
        remote: false,
        crates: None,
    };
    for option in options {
        match option.as_str() {
            "--drivers" => call.drivers = true,
            "--unformatted" => call.formats = false,
            "--remote" => call.remote = true,
            _ => call.crates = Some(PathBuf::from(option.strip_prefix("--crates=")?)),
        }
    }
    Some(call)
}

fn run(call: &Call) -> Result<(), Error> {
    let mut found = workspace::workspace_of(&call.project, call.drivers, call.remote)?;
    let scratch = scratch(&call.workspace);
    if call.formats && !found.tree.format(&found.roots, &scratch)? {
        eprintln!("eraser: there is no rustfmt, so some lines are longer than they should be");
    }
    std::fs::create_dir_all(&call.workspace).map_err(|it| Error::io(&call.workspace, it))?;
    found.tree.write(&call.workspace)?;
    origin::settle(&call.project, &call.workspace, call.crates.as_deref())
}

// A folder beside the workspace.
fn scratch(workspace: &Path) -> PathBuf {
    let mut name = workspace.file_name().unwrap_or_default().to_os_string();
    name.push(".unformatted");
    workspace.with_file_name(name)
}

fn main() -> ExitCode {
    let Some(call) = call(std::env::args().skip(1)) else {
        eprintln!("{USAGE}");
        return ExitCode::from(2);
    };
    match run(&call) {
        Ok(()) => ExitCode::SUCCESS,
        Err(error) => {
            eprintln!("eraser: {error}");
            ExitCode::FAILURE
        }
    }
}
