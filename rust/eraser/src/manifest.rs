//! The Cargo.toml of each erased crate, and that of the workspace.

use crate::crates::Crate;
use crate::erased::ErasedCrate;
use crate::error::Error;
use std::collections::BTreeSet;
use std::path::{Path, PathBuf};

/// What erased crates can depend on.
pub struct Known {
    /// The proved crates.
    pub crates: BTreeSet<String>,
    /// The stand-ins for libraries of the kit.
    pub stand_ins: BTreeSet<String>,
}

/// The manifest of a crate.
pub fn manifest(of: &Crate, erased: &ErasedCrate, known: &Known) -> Result<String, Error> {
    let package = &of.name;
    let mut text = format!(
        "[package]\nname = \"{package}\"\ndescription = \"{}\"\nversion.workspace = true\nedition.workspace = true\n\
         rust-version.workspace = true\nlicense.workspace = true\npublish = false\n\n",
        description(erased)
    );
    text.push_str(&target(of, erased));
    text.push_str(
        "[dependencies]\nstd = { package = \"rattle_std\", path = \"../../stand/std\" }\n",
    );
    for name in &of.dependencies {
        text.push_str(&dependency(of, name, erased, known)?);
    }
    text.push_str("\n[lints]\nworkspace = true\n");
    Ok(text)
}

// The line of a dependency, or nothing for one that only contracts name.
fn dependency(
    of: &Crate,
    name: &str,
    erased: &ErasedCrate,
    known: &Known,
) -> Result<String, Error> {
    if !erased.words.contains(name) {
        return Ok(String::new());
    }
    if known.crates.contains(name) {
        return Ok(format!("{name} = {{ path = \"../{name}\" }}\n"));
    }
    if known.stand_ins.contains(name) {
        return Ok(format!("{name} = {{ path = \"../../stand/{name}\" }}\n"));
    }
    Err(Error::NoDependency {
        of: of.name.clone(),
        name: name.to_string(),
    })
}

// What cargo builds of a crate. A program starts without Rust's `main`, and so it can't be a test of itself.
fn target(of: &Crate, erased: &ErasedCrate) -> String {
    if !erased.files.contains_key(Path::new("src/main.rs")) {
        return String::new();
    }
    format!(
        "[[bin]]\nname = \"{}\"\npath = \"src/main.rs\"\ntest = false\n\n",
        of.name
    )
}

// The first sentence of the crate's documentation, without its end.
fn description(erased: &ErasedCrate) -> String {
    let root = ["src/lib.rs", "src/main.rs"];
    let text = root.iter().find_map(|it| erased.files.get(Path::new(it)));
    let lines = text.into_iter().flat_map(|it| it.lines());
    let comment: Vec<&str> = lines.map_while(|it| it.strip_prefix("//! ")).collect();
    let comment = comment.join(" ");
    let sentence = comment.split_once(". ").map_or(comment.as_str(), |it| it.0);
    sentence
        .trim_end_matches('.')
        .replace('"', "'")
        .replace('`', "")
}

/// The manifest of the workspace. Cargo builds the first `by_default` members unless it is told otherwise.
pub fn workspace(version: &str, members: &[PathBuf], by_default: usize) -> String {
    let lines = |members: &[PathBuf]| -> String {
        let lines = members
            .iter()
            .map(|it| format!("    \"{}\",\n", it.display()));
        lines.collect()
    };
    include_str!("../templates/workspace.toml")
        .replace("@MEMBERS@", &lines(members))
        .replace("@DEFAULT@", &lines(&members[..by_default]))
        .replace("@VERSION@", version)
}
