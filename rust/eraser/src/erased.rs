//! One crate without what only the prover reads.

use crate::crates::Crate;
use crate::error::Error;
use crate::ghost::{delete_calls, delete_module, erase, has_laws_alone, laws_of_values};
use crate::layout;
use crate::rewrites::rewritten;
use crate::source::Source;
use std::collections::{BTreeMap, BTreeSet};
use std::fmt::Write;
use std::fs;
use std::path::{Path, PathBuf};

/// A crate's files, by their paths from its folder.
#[derive(Debug, Default)]
pub struct ErasedCrate {
    /// The text of each file.
    pub files: BTreeMap<PathBuf, String>,
    /// The words of its code.
    pub words: BTreeSet<String>,
    /// What went: a line for each span of bytes, and for each rewrite.
    pub record: String,
}

/// Erases the crate `of` of the project at `root`.
pub fn erased(root: &Path, of: &Crate) -> Result<ErasedCrate, Error> {
    let folder = root.join(&of.folder);
    let texts = sources(&folder)?;
    let mut files = BTreeMap::new();
    for (path, text) in &texts {
        let at = |fault| Error::Source(of.folder.join(path), fault);
        let mut source = Source::new(text).map_err(at)?;
        erase(&mut source).map_err(at)?;
        files.insert(path.as_path(), source);
    }
    let of_values: BTreeSet<&str> = files.values().flat_map(laws_of_values).collect();
    for source in files.values_mut() {
        delete_calls(source, &of_values);
    }
    let mut found = ErasedCrate::default();
    for path in drop_laws(&mut files).map_err(|it| Error::NoModule(of.folder.join(it)))? {
        let shown = of.folder.join(path);
        let _ = writeln!(
            found.record,
            "{}\tlaw\t0\t{}",
            shown.display(),
            texts[path].len()
        );
    }
    for (path, source) in files {
        found.add(&of.folder, path, &source);
    }
    Ok(found)
}

impl ErasedCrate {
    /// Whether no code is left of it: it had theorems alone.
    pub fn is_empty(&self) -> bool {
        self.words.is_empty()
    }

    // Adds a file that erasing left.
    fn add(&mut self, folder: &Path, path: &Path, source: &Source<'_>) {
        let shown = folder.join(path);
        for (class, span) in source.deletions() {
            let _ = writeln!(
                self.record,
                "{}\t{}\t{}\t{}",
                shown.display(),
                class.name(),
                span.start,
                span.end
            );
        }
        let (text, rewrites) = rewritten(layout::text(source));
        for name in rewrites {
            let _ = writeln!(self.record, "{}\trewrite\t{name}", shown.display());
        }
        self.words
            .extend(source.kept_words().into_iter().map(str::to_string));
        self.files.insert(path.with_extension("rs"), text);
    }
}

// Takes out the files that have theorems alone, and the lines that declare them. Gives the first that nothing declares as an error.
fn drop_laws<'a>(files: &mut BTreeMap<&'a Path, Source<'_>>) -> Result<Vec<&'a Path>, &'a Path> {
    let laws: Vec<&Path> = files
        .iter()
        .filter(|it| has_laws_alone(it.1))
        .map(|it| *it.0)
        .collect();
    for path in &laws {
        files.remove(path);
        let name = path
            .file_stem()
            .and_then(|it| it.to_str())
            .unwrap_or_default();
        let declared = parents(path).iter().any(|it| {
            files
                .get_mut(it.as_path())
                .is_some_and(|it| delete_module(it, name))
        });
        if !declared {
            return Err(path);
        }
    }
    Ok(laws)
}

// The files that may declare the module of a file.
fn parents(path: &Path) -> Vec<PathBuf> {
    let folder = path.parent().unwrap_or(Path::new(""));
    let stems = match folder == Path::new("src") {
        true => [folder.join("lib"), folder.join("main")],
        false => [folder.to_path_buf(), folder.join("mod")],
    };
    let extension = path.extension().unwrap_or_default();
    stems.map(|it| it.with_extension(extension)).to_vec()
}

// The files below `src`, by their paths from the crate's folder.
fn sources(folder: &Path) -> Result<BTreeMap<PathBuf, String>, Error> {
    let mut found = BTreeMap::new();
    let mut folders = vec![PathBuf::from("src")];
    while let Some(next) = folders.pop() {
        let at = folder.join(&next);
        let entries = fs::read_dir(&at).map_err(|it| Error::io(&at, it))?;
        for entry in entries {
            let name = entry.map_err(|it| Error::io(&at, it))?.file_name();
            let path = next.join(name);
            let whole = folder.join(&path);
            if whole.is_dir() {
                folders.push(path);
            } else if path
                .extension()
                .is_some_and(|it| it == "rt" || it == "rattle")
            {
                let text = fs::read_to_string(&whole).map_err(|it| Error::io(&whole, it))?;
                found.insert(path, text);
            }
        }
    }
    Ok(found)
}
