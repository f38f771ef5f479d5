//! Which tokens of a file only the prover reads.

use crate::documentation::delete_of_documentation;
use crate::imports::{delete_leaf, imports};
use crate::signature::{Signature, signature};
use crate::source::{Class, Fault, Source};
use crate::tokens::Kind;
use std::collections::BTreeSet;

/// Deletes all that plain Rust doesn't have, and what is left without a reader by that.
pub fn erase(source: &mut Source<'_>) -> Result<(), Fault> {
    for place in 0..source.len() {
        if source.is_kept_code(place) {
            delete_item(source, place)?;
        }
    }
    for place in 0..source.len() {
        if source.is_kept_code(place) {
            delete_bound(source, place);
            delete_where(source, place);
            delete_model(source, place)?;
        }
    }
    delete_model_imports(source);
    delete_labels(source);
    delete_unread_imports(source);
    delete_of_documentation(source);
    Ok(())
}

// Deletes the ghost item that begins at a place, or the ghost part of the item there.
fn delete_item(source: &mut Source<'_>, place: usize) -> Result<(), Fault> {
    match source.word(place) {
        "ghost" => delete_ghost(source, place),
        "fn" => {
            if let Some(found) = signature(source, place) {
                delete_of_function(source, &found);
            }
            Ok(())
        }
        "#" => {
            delete_of_attribute(source, place);
            Ok(())
        }
        "prove" => {
            delete_proof(source, place);
            Ok(())
        }
        _ => Ok(()),
    }
}

// `ghost use ..;`, `ghost NAME = { .. };`, `ghost NAME: { .. };`
fn delete_ghost(source: &mut Source<'_>, place: usize) -> Result<(), Fault> {
    let start = source.token(place).map_or(0, |it| it.start);
    let unknown = Fault::UnknownGhost(start);
    let second = source.next(place);
    if source.word(second) == "use" {
        let end = statement_end(source, second).ok_or(unknown)?;
        source.delete(place..=end, Class::Use);
        return Ok(());
    }
    let mark = source.behind_generics(source.next(second));
    let brace = source.next(mark);
    if !source.is(second, Kind::Word)
        || !matches!(source.word(mark), "=" | ":")
        || source.word(brace) != "{"
    {
        return Err(unknown);
    }
    let end = source.next(source.partner(brace));
    if source.word(end) != ";" {
        return Err(unknown);
    }
    source.delete(source.comments_above(place)..=end, Class::Member);
    Ok(())
}

// The semicolon that ends the statement or item at a place.
fn statement_end(source: &Source<'_>, place: usize) -> Option<usize> {
    let mut at = place;
    while at < source.len() {
        match source.word(at) {
            ";" => return Some(at),
            "(" | "[" | "{" => at = source.partner(at),
            _ => {}
        }
        at = source.next(at);
    }
    None
}

// A theorem, or the clauses of any other function. The writer of `fmt`.
fn delete_of_function(source: &mut Source<'_>, found: &Signature) {
    if found.is_law(source) || found.is_law_of_values(source) {
        let end = source.partner(found.end);
        source.delete(source.item_start(found.keyword)..=end, Class::Law);
        return;
    }
    for clause in &found.clauses {
        source.delete(clause.clone(), Class::Clause);
    }
    let generics = source.next(found.name);
    let writer = ["<", "W", ":", "fmt", ":", ":", "Write", ">"];
    if source.word(found.name) == "fmt" && source.reads(generics, &writer) == Some(found.parameters)
    {
        source.delete(generics..=found.parameters - 1, Class::Writer);
        for at in found.parameters..source.partner(found.parameters) {
            if let Some(behind) = source.reads(at, &["Formatter", "<", "W", ">"]) {
                source.delete(at + 1..=behind - 1, Class::Writer);
            }
        }
    }
}

// `#![tactic(..)]`, and `Drop` among derived traits.
fn delete_of_attribute(source: &mut Source<'_>, place: usize) {
    if source.reads(place, &["#", "!", "[", "tactic"]).is_some() {
        let end = source.partner(place + 2);
        source.delete(place..=end, Class::Tactic);
    }
    let Some(first) = source.reads(place, &["#", "[", "derive", "("]) else {
        return;
    };
    let close = source.partner(first - 1);
    for at in first..close {
        match source.word(at) == "Drop" {
            true if at == first && at + 1 == close => {
                let end = source.partner(place + 1);
                source.delete(place..=end, Class::Derive);
            }
            true if at == first => source.delete(at..=at + 1, Class::Derive),
            true => source.delete(at - 1..=at, Class::Derive),
            false => {}
        }
    }
}

// `prove!(NAME);`, and the statement `let NAME = ..;` if nothing else reads the name.
fn delete_proof(source: &mut Source<'_>, place: usize) {
    let Some(argument) = source.reads(place, &["prove", "!", "("]) else {
        return;
    };
    let close = source.partner(argument - 1);
    let Some(behind) = source.reads(close, &[")", ";"]) else {
        return;
    };
    source.delete(source.comments_above(place)..=behind - 1, Class::Prove);
    let name = source.word(argument);
    let Some(start) = (0..place)
        .rev()
        .find(|it| source.reads(*it, &["let", name, "="]).is_some())
    else {
        return;
    };
    let Some(end) = statement_end(source, start) else {
        return;
    };
    let is_read = |it: usize| source.is_kept_code(it) && source.word(it) == name;
    let block_end = (end..source.len()).find(|it| source.word(*it) == "}");
    if argument == close - 1 && !(end..block_end.unwrap_or(end)).any(is_read) {
        source.delete(source.comments_above(start)..=end, Class::Prove);
    }
}

// `+ Drop`, `Drop +`, or `: Drop` in generics.
fn delete_bound(source: &mut Source<'_>, place: usize) {
    if source.word(place) != "Drop" {
        return;
    }
    let (before, behind) = (source.last(place).unwrap_or(0), source.next(place));
    match (source.word(before), source.word(behind)) {
        ("+", _) => source.delete(before..=place, Class::Bound),
        (":", "+") => source.delete(place..=behind, Class::Bound),
        (":", "," | ">") if !is_predicate(source, before) => {
            source.delete(before..=place, Class::Bound)
        }
        _ => {}
    }
}

// Whether the colon at a place is that of a predicate behind `where`.
fn is_predicate(source: &Source<'_>, colon: usize) -> bool {
    let before = (0..colon).rev();
    let word = before.map(|it| source.word(it)).find(|it| {
        matches!(
            *it,
            "where" | ";" | "{" | "}" | "fn" | "impl" | "struct" | "enum" | "trait"
        )
    });
    word == Some("where")
}

// The predicates `TYPE: Drop` behind `where`, and `where` if it has no others.
fn delete_where(source: &mut Source<'_>, place: usize) {
    if source.word(place) != "where" {
        return;
    }
    let mut start = source.next(place);
    let mut others = false;
    while !matches!(source.word(start), "{" | ";" | "") && source.is_kept_code(start) {
        let mut end = start;
        while !matches!(source.word(end), "," | "{" | ";" | "") && source.is_kept_code(end) {
            end = match source.word(end) {
                "<" => source.behind_generics(end),
                "(" | "[" => source.next(source.partner(end)),
                _ => source.next(end),
            };
        }
        let last = source.last(end).unwrap_or(start);
        let is_drop = source.word(last) == "Drop"
            && source.last(last).is_some_and(|it| source.word(it) == ":");
        if source.word(end) == "," {
            end += 1;
        }
        match is_drop {
            true => source.delete(start..=end - 1, Class::Bound),
            false => others = true,
        }
        start = if source.is(end, Kind::Comment) {
            source.next(end)
        } else {
            end
        };
    }
    if !others {
        source.delete(place..=place, Class::Bound);
    }
}

// `impl Model for TYPE { .. }`, whose members are ghost.
fn delete_model(source: &mut Source<'_>, place: usize) -> Result<(), Fault> {
    if source.word(place) != "impl" {
        return Ok(());
    }
    let name = source.behind_generics(source.next(place));
    if source.reads(name, &["Model", "for"]).is_none() {
        return Ok(());
    }
    let mut brace = name;
    while !matches!(source.word(brace), "{" | "") {
        brace = source.next(brace);
    }
    let start = source.token(place).map_or(0, |it| it.start);
    if brace == source.len() {
        return Err(Fault::ModelWithCode(start));
    }
    let close = source.partner(brace);
    if (brace + 1..close).any(|it| source.is_kept_code(it)) {
        return Err(Fault::ModelWithCode(start));
    }
    source.delete_whole(source.item_start(place)..=close, Class::Model);
    Ok(())
}

fn delete_model_imports(source: &mut Source<'_>) {
    for import in imports(source) {
        for leaf in import.leaves {
            if leaf.name == "Model" {
                delete_leaf(source, import.keyword, &leaf, Class::Model);
            }
        }
    }
}

// Labels that no `break` and no `continue` of the file names.
fn delete_labels(source: &mut Source<'_>) {
    for place in 0..source.len() {
        let is_label = source.is_kept_code(place)
            && source.is(place, Kind::Lifetime)
            && source.word(place + 1) == ":"
            && matches!(source.word(place + 2), "while" | "loop" | "for" | "{");
        if is_label && !is_left(source, source.word(place)) {
            source.delete(place..=place + 1, Class::Label);
        }
    }
}

// Whether some place leaves or goes on with the loop of a label.
fn is_left(source: &Source<'_>, label: &str) -> bool {
    let mut words = source.kept_code();
    words.any(|it| {
        matches!(source.word(it), "break" | "continue") && source.word(source.next(it)) == label
    })
}

// Imports of modules, which have small letters, whose names are nowhere else. A trait's name needn't be.
fn delete_unread_imports(source: &mut Source<'_>) {
    for import in imports(source) {
        if import.is_public {
            continue;
        }
        for leaf in &import.leaves {
            let is_module = leaf.name.starts_with(|c: char| c.is_lowercase());
            let is_read = |it: usize| {
                let is_elsewhere = it < import.keyword || it > import.end;
                is_elsewhere && source.is_kept_code(it) && source.word(it) == leaf.name
            };
            if is_module && !(0..source.len()).any(is_read) {
                delete_leaf(source, import.keyword, leaf, Class::Import);
            }
        }
    }
}

/// The names of the theorems on values of types.
pub fn laws_of_values<'a>(source: &Source<'a>) -> Vec<&'a str> {
    (0..source.len())
        .filter_map(|it| signature(source, it))
        .filter(|it| it.is_law_of_values(source))
        .map(|it| source.word(it.name))
        .collect()
}

/// Deletes the statements `VALUE.NAME();` that call theorems on values.
pub fn delete_calls(source: &mut Source<'_>, names: &BTreeSet<&str>) {
    for value in 0..source.len() {
        if let Some(end) = call_end(source, value, names) {
            source.delete(source.comments_above(value)..=end, Class::Law);
        }
    }
}

// Where a statement `VALUE.NAME();` ends that begins at a place.
fn call_end(source: &Source<'_>, value: usize, names: &BTreeSet<&str>) -> Option<usize> {
    let before = source.word(source.last(value)?);
    let dot = source.next(value);
    let name = source.next(dot);
    let is_call = source.is_kept_code(value)
        && source.is(value, Kind::Word)
        && matches!(before, "{" | "}" | ";")
        && source.word(dot) == "."
        && names.contains(source.word(name));
    let end = source.reads(source.next(name), &["(", ")"])?;
    (is_call && source.word(end) == ";").then_some(end)
}

/// Whether a file had theorems, and has nothing but imports left.
pub fn has_laws_alone(source: &Source<'_>) -> bool {
    let had_laws = (0..source.len()).any(|it| source.class(it) == Some(Class::Law));
    let imports = imports(source);
    let is_import = |it: usize| {
        imports
            .iter()
            .any(|import| (import.start..=import.end).contains(&it))
    };
    had_laws && source.kept_code().all(is_import)
}

/// Deletes `mod NAME;`. Whether there was one.
pub fn delete_module(source: &mut Source<'_>, name: &str) -> bool {
    let found = source
        .kept_code()
        .find(|it| source.reads(*it, &["mod", name, ";"]).is_some());
    if let Some(place) = found {
        source.delete(source.item_start(place)..=place + 2, Class::Law);
    }
    found.is_some()
}
