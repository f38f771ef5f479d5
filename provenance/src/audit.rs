//! Whether a disk still has what a statement names.
use crate::resource::Resource;
use crate::statement::Statement;
use std::collections::BTreeSet;
use std::fmt::{self, Display, Formatter};
use std::path::Path;

/// What isn't as a statement says.
#[derive(Clone, PartialEq, Eq, Debug)]
pub enum Finding {
    /// This file is gone, or can't be read.
    Missing(Role, String),
    /// This file has other bytes.
    Changed(Role, String),
    /// The statement doesn't say which bytes this file had.
    NoDigest(Role, String),
    /// The statement names no product.
    NoProduct,
    /// It isn't known of all files whether they were read, and why.
    Unknown(String),
    /// A command opens this file, which isn't in the statement.
    Beside(String),
    /// The commands can't be traced, and why.
    NotTraced(String),
    /// No statement is about this product.
    NoStatement(String),
}

/// What a file is for a call.
#[derive(Clone, Copy, PartialEq, Eq, Debug)]
pub enum Role {
    /// What it has made.
    Product,
    /// The program of one of its commands.
    Tool,
    /// What it has read.
    File,
}

impl Display for Role {
    fn fmt(&self, out: &mut Formatter<'_>) -> fmt::Result {
        out.write_str(match self {
            Role::Product => "the product",
            Role::Tool => "the tool",
            Role::File => "the file",
        })
    }
}

impl Display for Finding {
    fn fmt(&self, out: &mut Formatter<'_>) -> fmt::Result {
        match self {
            Finding::Missing(role, name) => write!(out, "{role} {name} is missing"),
            Finding::Changed(role, name) => write!(out, "{role} {name} has changed"),
            Finding::NoDigest(role, name) => write!(out, "the statement has no SHA-256 of {role} {name}"),
            Finding::NoProduct => out.write_str("the statement names no product"),
            Finding::Unknown(why) => write!(out, "maybe more was read: {why}"),
            Finding::Beside(name) => write!(out, "a command reads {name}, which is not in the statement"),
            Finding::NotTraced(why) => write!(out, "the commands cannot be traced: {why}"),
            Finding::NoStatement(name) => write!(out, "no statement is about the product {name}"),
        }
    }
}

/// What isn't as a statement says: each file once. `sum_of` says the SHA-256 of a file, if it can be read.
pub fn findings(statement: &Statement, sum_of: &mut dyn FnMut(&Path) -> Option<String>) -> Vec<Finding> {
    let definition = &statement.predicate.build_definition;
    let ran = &definition.internal_parameters;
    let products = statement.subject.iter().map(|product| (Role::Product, product));
    let tools = ran.commands.iter().map(|command| (Role::Tool, &command.tool));
    let files = definition.resolved_dependencies.iter().map(|file| (Role::File, file));
    let mut seen = BTreeSet::new();
    let all = products.chain(tools).chain(files).filter(|(_, file)| seen.insert(&file.uri));
    let none = statement.subject.is_empty().then_some(Finding::NoProduct);
    let of_files = all.filter_map(|(role, file)| finding(role, file, sum_of));
    none.into_iter().chain(of_files).chain(ran.unknown.iter().cloned().map(Finding::Unknown)).collect()
}

fn finding(role: Role, file: &Resource, sum_of: &mut dyn FnMut(&Path) -> Option<String>) -> Option<Finding> {
    let path = file.path();
    let name = path.as_ref().map_or_else(|| file.uri.clone(), |path| path.display().to_string());
    match (file.sum().filter(|sum| !sum.is_empty()), path.and_then(|path| sum_of(&path))) {
        (None, _) => Some(Finding::NoDigest(role, name)),
        (_, None) => Some(Finding::Missing(role, name)),
        (Some(then), Some(now)) => (then != now).then_some(Finding::Changed(role, name)),
    }
}

#[cfg(test)]
mod tests {
    use super::*;
    use crate::statement::Command;
    use crate::witness::tests::statement;

    fn resource(path: &str, sum: &str) -> Resource {
        Resource::new(Path::new(path), sum.into())
    }

    #[test]
    fn each_file_that_is_not_as_it_was_is_found_once() {
        let mut stated = statement("/w/k.o", "1");
        let definition = &mut stated.predicate.build_definition;
        let command = |tool: Resource| Command { tool, ..Command::default() };
        definition.internal_parameters.commands = vec![
            command(resource("/b/gcc", "2")),
            command(resource("/b/gcc", "2")),
            command(resource("/b/gone", "3")),
        ];
        definition.resolved_dependencies = vec![
            resource("/b/gcc", "2"),
            resource("/w/a.h", "4"),
            resource("/w/b.h", "5"),
            resource("/w/c.h", ""),
        ];
        let found = |stated: &Statement, changed: &str| {
            let mut sum_of = |path: &Path| {
                let sums =
                    [("/w/k.o", "1"), ("/b/gcc", "2"), ("/w/a.h", "4"), ("/w/b.h", "5"), ("/w/c.h", "6")];
                let sum =
                    sums.iter().find(|(name, _)| Path::new(name) == path).map(|(_, sum)| (*sum).to_owned());
                if path == Path::new(changed) { Some("9".into()) } else { sum }
            };
            findings(stated, &mut sum_of)
        };
        let always =
            [Finding::Missing(Role::Tool, "/b/gone".into()), Finding::NoDigest(Role::File, "/w/c.h".into())];
        assert_eq!(found(&stated, ""), always);
        for (changed, role) in [
            ("/w/k.o", Role::Product),
            ("/b/gcc", Role::Tool),
            ("/w/a.h", Role::File),
            ("/w/b.h", Role::File),
        ] {
            let found = found(&stated, changed);
            assert!(found.contains(&Finding::Changed(role, changed.into())) && found.len() == 3, "{found:?}");
        }
        stated.subject.clear();
        stated.predicate.build_definition.internal_parameters.unknown.push("why".into());
        let found = found(&stated, "");
        assert_eq!((&found[0], &found[3]), (&Finding::NoProduct, &Finding::Unknown("why".into())));
    }

    #[test]
    fn another_uri_is_no_file() {
        let mut stated = statement("/w/k.o", "1");
        stated.subject[0].uri = "https://a/b".into();
        let found = findings(&stated, &mut |_| Some("1".into()));
        assert_eq!(found, [Finding::Missing(Role::Product, "https://a/b".into())]);
    }
}
