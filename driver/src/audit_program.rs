//! zigrunk audit: checks statements of `ZIGRUNK_PROVENANCE` against the disk.
use lexopt::prelude::{Long, Short, Value};
use lexopt::{Error, Parser};
use machine::clock::nanoseconds;
use machine::excerpts::plain;
use machine::nearest::{unexpected, value};
use machine::places::working_directory;
use machine::settings::Settings;
use machine::streams::{called, complain, say};
use provenance::audit::{self, Finding};
use provenance::statement::Statement;
use provenance::{Sums, place_of, trace};
use std::ffi::OsString;
use std::fs;
use std::path::{Path, PathBuf};

const USAGE: &str = "usage: zigrunk audit [--trace] FILE..
       zigrunk audit --compile-commands FILE FOLDER";
const HELP: &str = "
Says what of statements of ZIGRUNK_PROVENANCE isn't on this disk as it was: products, tools and files.

--trace                   run their commands again under strace, and say what these read beside that
--compile-commands FILE   say for which products of FILE's calls the folder FOLDER has no statement
-h, --help                print this text
";

/// What is asked for.
#[derive(Clone, PartialEq, Eq, Debug, Default)]
struct Asked {
    /// Statements, or the folder that has them.
    files: Vec<PathBuf>,
    traces: bool,
    database: Option<PathBuf>,
}

/// Parses the words of a call. `Ok(None)` asks for help.
/// Errors: what is wrong with the words.
fn asked(words: &[OsString]) -> Result<Option<Asked>, Error> {
    let mut asked = Asked::default();
    let mut words = Parser::from_args(words);
    while let Some(word) = words.next()? {
        match word {
            Short('h') | Long("help") => return Ok(None),
            Long("trace") => asked.traces = true,
            Long("compile-commands") => {
                asked.database = Some(value(&mut words, "--compile-commands needs a file")?.into());
            }
            Value(file) => asked.files.push(file.into()),
            option => return Err(unexpected(&option, HELP)),
        }
    }
    match (&asked.database, &asked.files[..]) {
        (None, []) => Err("a statement is missing".into()),
        (Some(_), []) => Err("a folder of statements is missing".into()),
        (Some(_), [_, other, ..]) => Err(format!("one folder, not {} too", other.display()).into()),
        (Some(_), _) if asked.traces => Err("--trace goes with statements".into()),
        _ => Ok(Some(asked)),
    }
}

/// The statement of a file.
/// Errors: why there is none.
fn statement(file: &Path) -> Result<Statement, String> {
    let text =
        fs::read(file).map_err(|error| format!("cannot read {}: {}", file.display(), plain(&error)))?;
    Statement::of_text(&text).map_err(|why| format!("{} is no statement: {why}", file.display()))
}

/// What a call's commands read beside its statement. Their files are gone afterwards.
/// Errors: those of the disk.
fn traced(statement: &Statement) -> Result<Vec<Finding>, String> {
    let temporary = Settings::of_environment()?.temporary;
    let room = temporary.join(format!("zigrunk-audit-{}-{}", std::process::id(), nanoseconds()));
    let cannot = |error: std::io::Error| format!("cannot use {}: {}", room.display(), plain(&error));
    fs::create_dir(&room).map_err(cannot)?;
    let found = fs::canonicalize(&room).map(|room| trace::findings(statement, &room));
    let removed = fs::remove_dir_all(&room);
    let found = found.map_err(cannot)?;
    removed.map(|()| found).map_err(cannot)
}

/// What isn't as a statement says.
/// Errors: why it can't be checked.
fn audited(file: &Path, traces: bool, sums: &mut Sums) -> Result<Vec<Finding>, String> {
    let statement = statement(file)?;
    let mut found = audit::findings(&statement, &mut |path| sums.of(path));
    if traces {
        found.extend(traced(&statement)?);
    }
    Ok(found)
}

/// What isn't stated of the products of a database's calls, each with the call's name.
/// Errors: why that isn't known.
fn unstated(database: &Path, folder: &Path) -> Result<Vec<(String, Vec<Finding>)>, String> {
    let text = fs::read(database)
        .map_err(|error| format!("cannot read {}: {}", database.display(), plain(&error)))?;
    let above = database.parent().unwrap_or(Path::new(""));
    let above = working_directory().unwrap_or_default().join(above);
    let calls = batch::products_of_database(&text, &above)
        .map_err(|why| format!("{} is no list of calls: {why}", database.display()))?;
    let mut sums = Sums::default();
    let mut is_stated = |product: &Path| {
        let stated = statement(&place_of(folder, product)).ok();
        let subjects = stated.iter().flat_map(|stated| &stated.subject);
        sums.of(product).is_some_and(|sum| subjects.into_iter().any(|subject| subject.sum() == Some(&sum)))
    };
    let mut found = Vec::new();
    for (name, products) in calls {
        let products = products.iter().filter(|product| !is_stated(product));
        let missing = products.map(|product| Finding::NoStatement(product.display().to_string())).collect();
        found.push((name, missing));
    }
    Ok(found)
}

/// Makes what is asked for. Says what was checked, and what was found.
/// Errors: why that can't be checked.
fn checked(asked: &Asked) -> Result<Vec<(String, Vec<Finding>)>, String> {
    if let (Some(database), [folder]) = (&asked.database, &asked.files[..]) {
        return unstated(database, folder);
    }
    let mut sums = Sums::default();
    let audit = |file: &PathBuf| Ok((file.display().to_string(), audited(file, asked.traces, &mut sums)?));
    asked.files.iter().map(audit).collect()
}

/// Audits what these words name. Says the exit status: 1 if something isn't as stated or can't be checked, 2
/// for wrong usage.
pub fn run(words: &[OsString]) -> i32 {
    let asked = match asked(words) {
        Ok(Some(asked)) => asked,
        Ok(None) => return i32::from(say(1, format!("{USAGE}\n{HELP}").as_bytes()).is_err()),
        Err(complaint) => {
            complain(&format!("{}: {complaint}\n{USAGE}", called()));
            return 2;
        }
    };
    let checked = match checked(&asked) {
        Ok(checked) => checked,
        Err(complaint) => {
            complain(&format!("{}: {complaint}", called()));
            return 1;
        }
    };
    let lines =
        checked.iter().flat_map(|(name, found)| found.iter().map(move |one| format!("{name}: {one}\n")));
    let count: usize = checked.iter().map(|(_, found)| found.len()).sum();
    let text = format!("{}{} checked, {count} findings\n", lines.collect::<String>(), checked.len());
    i32::from(say(1, text.as_bytes()).is_err() || count > 0)
}

#[cfg(test)]
mod tests {
    use super::*;

    #[test]
    fn words_say_what_is_audited() {
        let parsed = |line: &str| asked(&line.split_whitespace().map(OsString::from).collect::<Vec<_>>());
        let files = |names: &[&str]| names.iter().map(PathBuf::from).collect();
        let of = |names: &[&str], traces| Asked { files: files(names), traces, database: None };
        assert_eq!(parsed("a b").unwrap(), Some(of(&["a", "b"], false)));
        assert_eq!(parsed("a --trace").unwrap(), Some(of(&["a"], true)));
        let wanted = Asked { database: Some("c.json".into()), ..of(&["s"], false) };
        assert_eq!(parsed("--compile-commands c.json s").unwrap(), Some(wanted));
        assert_eq!(parsed("a --help").unwrap(), None);
        for wrong in ["", "--trace", "--compile-commands", "--compile-commands c", "--compile-commands c s t"]
        {
            assert!(parsed(wrong).is_err(), "{wrong}");
        }
        assert!(parsed("--compile-commands c s --trace").is_err() && parsed("--odd a").is_err());
    }
}
