//! The text of what is left. It is laid out as rustfmt does where that needs no more than blanks, so that a build without rustfmt reads well too.

use crate::source::Source;
use crate::tokens::Kind;

/// The tokens that are left, with the blanks between them.
pub fn text(source: &Source<'_>) -> String {
    let mut text = String::new();
    let mut before = None;
    for place in (0..source.len()).filter(|it| source.is_kept(*it)) {
        text.push_str(&blanks(source, before, place));
        text.push_str(&source.kept_text(place));
        before = Some(place);
    }
    if !text.is_empty() {
        text.push('\n');
    }
    text
}

// The blanks between a token that is left and the next one, which is at `place`.
fn blanks(source: &Source<'_>, before: Option<usize>, place: usize) -> String {
    let Some(before) = before else {
        return String::new();
    };
    let gaps: Vec<&str> = (before + 1..=place).map(|it| source.gap(it)).collect();
    match gaps.as_slice() {
        [gap] => String::from(*gap),
        _ => joined(source, before, place, &gaps),
    }
}

// The blanks where something went, given those around each token of it.
fn joined(source: &Source<'_>, before: usize, place: usize, gaps: &[&str]) -> String {
    let is_comment = source.is(before, Kind::Comment);
    let (first, last) = (gaps[0], gaps[gaps.len() - 1]);
    match (source.word(before), source.word(place)) {
        (_, ";" | "," | ")" | "]" | ">") | ("{", "}") if !is_comment => String::new(),
        (word, "{") if !is_comment && !matches!(word, "{" | "}" | ";" | ",") => String::from(" "),
        (opening, closing) => match (first.rfind('\n'), last.rfind('\n')) {
            (None, None) if first.is_empty() || last.is_empty() => String::new(),
            (None, None) => String::from(" "),
            (Some(_), None) => String::from(first),
            (_, Some(newline)) => {
                let is_inner = opening == "{" || closing == "}";
                let has_blank = gaps.iter().any(|it| it.matches('\n').count() > 1);
                let lines = if has_blank && !is_inner { "\n\n" } else { "\n" };
                format!("{lines}{}", &last[newline + 1..])
            }
        },
    }
}
