//! Which crates there are, and what they depend on.

use crate::error::Error;
use std::path::{Path, PathBuf};

/// A crate of the proved sources.
#[derive(Debug, PartialEq, Eq)]
pub struct Crate {
    /// Its name in crates.txt, and of its folder.
    pub name: String,
    /// Its folder, from the root of the project.
    pub folder: PathBuf,
    /// The crates that it may name.
    pub dependencies: Vec<String>,
}

/// Lists of crates, each with the folder that has theirs.
const LISTS: [(&str, &str); 2] = [
    ("crates.txt", "crates"),
    ("tests/drivers/drivers.txt", "tests/drivers"),
];

/// The crates of the project at `root`. Test drivers are among them if `drivers` says so.
pub fn crates(root: &Path, drivers: bool) -> Result<Vec<Crate>, Error> {
    let mut found = Vec::new();
    for (list, folder) in LISTS {
        let path = root.join(list);
        if path.exists() {
            let text = std::fs::read_to_string(&path).map_err(|it| Error::io(&path, it))?;
            found.extend(
                text.lines()
                    .filter_map(|it| crate_of(it, Path::new(folder))),
            );
        }
    }
    found.retain(|it| match kind(&it.name) {
        Kind::Product => true,
        Kind::Driver => drivers,
        Kind::KitAlone => false,
    });
    Ok(found)
}

/// What a crate is for.
enum Kind {
    Product,
    /// It runs cases of a table.
    Driver,
    /// It needs what only the kit has: its test harness, or its clock.
    KitAlone,
}

fn kind(name: &str) -> Kind {
    match name {
        "test_failures" | "cudabench" => Kind::KitAlone,
        _ if name.starts_with("test_") => Kind::Driver,
        _ => Kind::Product,
    }
}

// The crate of a line: `NAME: DEPENDENCY..`, or `NAME staticlib: DEPENDENCY..`.
fn crate_of(line: &str, folder: &Path) -> Option<Crate> {
    let (head, dependencies) = line.split_once(':')?;
    if head.starts_with('#') {
        return None;
    }
    let name = head.split_whitespace().next()?;
    Some(Crate {
        name: name.to_string(),
        folder: folder.join(name),
        dependencies: dependencies
            .split_whitespace()
            .map(str::to_string)
            .collect(),
    })
}

#[cfg(test)]
mod tests {
    use super::{Crate, crate_of};
    use std::path::{Path, PathBuf};

    #[test]
    fn lines_of_a_list() {
        let read = |line| crate_of(line, Path::new("crates"));
        assert_eq!(read("# Libraries: each below those that name it."), None);
        assert_eq!(read(""), None);
        let found = Crate {
            name: String::from("planner"),
            folder: PathBuf::from("crates/planner"),
            dependencies: vec![String::from("texts"), String::from("plans")],
        };
        assert_eq!(read("planner staticlib: texts plans"), Some(found));
    }
}
