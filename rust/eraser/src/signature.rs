//! Signatures of functions: where their parts are, and their clauses.

use crate::source::Source;
use crate::tokens::Kind;
use std::ops::RangeInclusive;

/// A function's signature. All fields are places of tokens.
#[derive(Debug)]
pub struct Signature {
    /// The word `fn`.
    pub keyword: usize,
    /// The function's name.
    pub name: usize,
    /// The bracket in front of the parameters.
    pub parameters: usize,
    /// Whether a type of the result is given.
    pub has_result: bool,
    /// Its clauses, each with the comments above it.
    pub clauses: Vec<RangeInclusive<usize>>,
    /// The brace or the semicolon that ends it.
    pub end: usize,
}

/// The signature with the word `fn` at `keyword`, unless this is the type of a function.
pub fn signature(source: &Source<'_>, keyword: usize) -> Option<Signature> {
    let name = source.next(keyword);
    if source.word(keyword) != "fn" || !source.is(name, Kind::Word) {
        return None;
    }
    let parameters = source.behind_generics(source.next(name));
    if source.word(parameters) != "(" {
        return None;
    }
    let mut found = Signature {
        keyword,
        name,
        parameters,
        has_result: false,
        clauses: Vec::new(),
        end: source.next(source.partner(parameters)),
    };
    while !matches!(source.word(found.end), "{" | ";" | "") {
        found.end = found.step(source, found.end);
    }
    (found.end < source.len()).then_some(found)
}

impl Signature {
    // Reads one part behind the parameters, and gives the place behind it.
    fn step(&mut self, source: &Source<'_>, at: usize) -> usize {
        if let Some(last) = clause_end(source, at) {
            self.clauses.push(source.comments_above(at)..=last);
            return source.next(last);
        }
        match source.word(at) {
            "-" if source.word(at + 1) == ">" => self.has_result = true,
            "(" | "[" => return source.next(source.partner(at)),
            _ => {}
        }
        source.next(at)
    }

    /// Whether it takes nothing and gives nothing, and has clauses: a theorem.
    pub fn is_law(&self, source: &Source<'_>) -> bool {
        let takes_nothing = source.next(self.parameters) == source.partner(self.parameters);
        takes_nothing
            && !self.has_result
            && !self.clauses.is_empty()
            && has_calls_alone(source, self.end)
    }

    /// Whether it takes a value alone, gives nothing, has clauses, and reads one field: a theorem on the values of a type.
    pub fn is_law_of_values(&self, source: &Source<'_>) -> bool {
        let takes_a_value = source.reads(self.parameters, &["(", "&", "self", ")"]);
        let field = source.reads(self.end, &["{", "let", "_", "=", "&", "self", "."]);
        takes_a_value.is_some()
            && !self.has_result
            && !self.clauses.is_empty()
            && field.is_some_and(|it| source.reads(source.next(it), &[";", "}"]).is_some())
    }
}

// The last token of the clause at a place, if one begins there.
fn clause_end(source: &Source<'_>, at: usize) -> Option<usize> {
    if !matches!(source.word(at), "ensures" | "requires") {
        return None;
    }
    let behind = source.next(at);
    let brace = match source.is(behind, Kind::Word) {
        true => source.next(behind),
        false => behind,
    };
    (source.word(brace) == "{").then(|| source.partner(brace))
}

// Whether a body only calls functions, without arguments: other theorems.
fn has_calls_alone(source: &Source<'_>, body: usize) -> bool {
    if source.word(body) != "{" {
        return false;
    }
    let mut at = source.next(body);
    while at != source.partner(body) {
        while source.is(at, Kind::Word) || source.word(at) == ":" {
            at = source.next(at);
        }
        match source.reads(at, &["(", ")", ";"]) {
            Some(behind) => at = behind,
            None => return false,
        }
    }
    true
}
