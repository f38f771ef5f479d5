//! What documentation says of the proofs alone: what contracts see of a value, and which law is about it.

use crate::source::{Class, Source};
use crate::tokens::Kind;

/// What a line of documentation begins with.
const MARKS: [&str; 2] = ["/// ", "//! "];
/// How a sentence begins that goes if a line ends with it.
const SENTENCES: [&str; 7] = [
    "Contracts see ",
    "Clauses see ",
    "`laws::",
    "The laws of ",
    "What they hold isn't known to contracts",
    "What it was started with isn't known to contracts",
    "Its members `reading` and `writing` say",
];
/// How the rest of a sentence begins that goes if the line ends with it.
const RESTS: [&str; 2] = [", seen in contracts as ", "; no clause says so"];
/// How a parenthesis begins that goes.
const PARENTHESES: [&str; 3] = [" (`laws::", " (`specs/", " (the law `"];

/// Deletes what documentation says of contracts and laws.
pub fn delete_of_documentation(source: &mut Source<'_>) {
    for place in 0..source.len() {
        if source.is_kept(place) && is_line(source, place) {
            let text = source.word(place);
            match parenthesis(text).or_else(|| rest(text)) {
                Some((start, end)) => source.cut(place, start..end),
                None => delete_sentence(source, place),
            }
        }
    }
}

// Whether a token is a line of documentation with text.
fn is_line(source: &Source<'_>, place: usize) -> bool {
    let text = source.word(place);
    source.is(place, Kind::Comment) && MARKS.iter().any(|it| text.starts_with(it))
}

// Where a parenthesis on laws or definitions is.
fn parenthesis(text: &str) -> Option<(usize, usize)> {
    let start = PARENTHESES.iter().find_map(|it| text.find(it))?;
    let length = text[start..].find(')')?;
    Some((start, start + length + 1))
}

// Where the rest of a sentence is that goes, without its full stop.
fn rest(text: &str) -> Option<(usize, usize)> {
    let start = RESTS.iter().find_map(|it| text.find(it))?;
    let end = start + text[start..].find('.')?;
    (end + 1 == text.len()).then_some((start, end))
}

// A sentence, and the empty line above it if it is the last paragraph.
fn delete_sentence(source: &mut Source<'_>, place: usize) {
    let text = source.word(place);
    let Some(start) = sentence_start(text) else {
        return;
    };
    let Some(end) = sentence_end(source, place, start) else {
        return;
    };
    if start > MARKS[0].len() {
        source.cut(place, start - 1..text.len());
        source.delete(place + 1..=end, Class::View);
    } else if place > 0 && is_empty(source, place - 1) && !is_line(source, end + 1) {
        source.delete(place - 1..=end, Class::View);
    } else {
        source.delete(place..=end, Class::View);
    }
}

// Whether a token is a line of documentation without text.
fn is_empty(source: &Source<'_>, place: usize) -> bool {
    MARKS.iter().any(|it| it.trim_end() == source.word(place))
}

// Where a sentence begins that may go.
fn sentence_start(text: &str) -> Option<usize> {
    let starts = SENTENCES.iter().filter_map(|it| text.find(it));
    let mut starts = starts.filter(|it| *it == MARKS[0].len() || text[..*it].ends_with(". "));
    starts.next()
}

// The line that a sentence ends in, if it is the last of that line.
fn sentence_end(source: &Source<'_>, place: usize, start: usize) -> Option<usize> {
    let mut at = place;
    let mut text = &source.word(place)[start..];
    loop {
        if let Some(stop) = text.find('.') {
            return (stop + 1 == text.len()).then_some(at);
        }
        at += 1;
        if !is_line(source, at) {
            return None;
        }
        text = source.word(at);
    }
}
