//! The `use` items of a file.

use crate::source::{Class, Source};
use crate::tokens::Kind;

/// A `use` item. Its fields are places of tokens.
#[derive(Debug)]
pub struct Import {
    /// Where the item begins, with its visibility.
    pub start: usize,
    /// The word `use`.
    pub keyword: usize,
    /// The semicolon.
    pub end: usize,
    /// Whether others see what it imports.
    pub is_public: bool,
    /// What it imports.
    pub leaves: Vec<Leaf>,
}

/// One name that a `use` item imports.
#[derive(Debug)]
pub struct Leaf {
    /// The place of the name.
    pub place: usize,
    /// The name in this file.
    pub name: String,
}

/// The imports that are left, in order.
pub fn imports(source: &Source<'_>) -> Vec<Import> {
    let keywords = source.kept_code().filter(|it| source.word(*it) == "use");
    keywords.filter_map(|it| import(source, it)).collect()
}

fn import(source: &Source<'_>, keyword: usize) -> Option<Import> {
    let end = (keyword..source.len()).find(|it| source.word(*it) == ";")?;
    let is_public = source
        .last(keyword)
        .is_some_and(|it| match source.word(it) {
            "pub" => true,
            ")" => source.word(source.partner(it) - 1) == "pub",
            _ => false,
        });
    let leaves = (keyword + 1..end)
        .filter_map(|it| leaf(source, it))
        .collect();
    let start = match source.last(keyword) {
        Some(last) if is_public && source.word(last) == ")" => source.partner(last) - 1,
        Some(last) if is_public => last,
        _ => keyword,
    };
    Some(Import {
        start,
        keyword,
        end,
        is_public,
        leaves,
    })
}

// The name at a place, if it is the last of its path.
fn leaf(source: &Source<'_>, place: usize) -> Option<Leaf> {
    let ends_path = matches!(source.word(source.next(place)), "," | "}" | ";");
    if !ends_path || !source.is(place, Kind::Word) || !source.is_kept(place) {
        return None;
    }
    let name = match source.word(place) {
        "self" => module_of_self(source, place)?,
        name => name,
    };
    Some(Leaf {
        place,
        name: name.to_string(),
    })
}

// The module that `self` in braces means.
fn module_of_self<'a>(source: &Source<'a>, place: usize) -> Option<&'a str> {
    let brace = (0..place).rev().find(|it| source.word(*it) == "{")?;
    Some(source.word(brace.checked_sub(3)?))
}

/// Deletes one name of the `use` item with its word at `keyword`, and what isn't needed without it.
pub fn delete_leaf(source: &mut Source<'_>, keyword: usize, leaf: &Leaf, class: Class) {
    let end = (keyword..source.len())
        .find(|it| source.word(*it) == ";")
        .unwrap_or(keyword);
    let brace = (keyword..leaf.place)
        .rev()
        .find(|it| source.word(*it) == "{" && source.partner(*it) > leaf.place);
    let Some(brace) = brace else {
        source.delete(keyword..=end, class);
        return;
    };
    let close = source.partner(brace);
    let start = (brace..leaf.place)
        .rev()
        .find(|it| matches!(source.word(*it), "," | "{"))
        .unwrap_or(brace)
        + 1;
    let behind = source.next(leaf.place);
    match source.word(behind) {
        "," => source.delete(start..=behind, class),
        _ => source.delete(start - usize::from(start > brace + 1)..=leaf.place, class),
    }
    let left: Vec<usize> = (brace + 1..close)
        .filter(|it| source.is_kept_code(*it))
        .collect();
    let commas = left.iter().filter(|it| source.word(**it) == ",").count();
    let is_trailing = left.last().is_some_and(|it| source.word(*it) == ",");
    if left.is_empty() {
        source.delete(keyword..=end, class);
    } else if commas == usize::from(is_trailing) && source.word(left[0]) != "self" {
        source.delete(brace..=brace, class);
        source.delete(close..=close, class);
        if is_trailing {
            let last = left[left.len() - 1];
            source.delete(last..=last, class);
        }
    }
}
