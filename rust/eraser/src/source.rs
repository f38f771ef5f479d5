//! A file of the proved sources, and which of its tokens go.

use crate::tokens::{Kind, Token, Unended, tokens};
use std::collections::{BTreeMap, BTreeSet};
use std::fmt;
use std::ops::{Range, RangeInclusive};

/// Why a token goes. Each of these is text that only the prover reads, or that nothing reads without such text.
#[derive(Clone, Copy, Debug, PartialEq, Eq, PartialOrd, Ord)]
pub enum Class {
    /// `ghost use ..;`
    Use,
    /// `ghost NAME = { .. };` or `ghost NAME: { .. };`, with the comment right above it.
    Member,
    /// `ensures { .. }` or `requires { .. }` of a signature, named or not, with the comment right above it.
    Clause,
    /// `#![tactic(..)]`
    Tactic,
    /// `prove!(NAME);`, and the `let` of a name that nothing else reads.
    Prove,
    /// `Drop` among derived traits. Rust drops every value.
    Derive,
    /// `Drop` as a bound.
    Bound,
    /// `impl Model for ..`, which has nothing but ghost members, and the import of `Model`.
    Model,
    /// A theorem: a function that takes and gives nothing, or takes a value alone and only reads a field, with its calls. Also a file that
    /// has no other functions, and its `mod`.
    Law,
    /// The parameter of `fmt` for the writer. Rust's formatter has none.
    Writer,
    /// The label of a loop that no `break` and no `continue` names.
    Label,
    /// The import of a module that nothing names any more.
    Import,
    /// In documentation, what contracts see of a value, and which law is about it.
    View,
}

impl Class {
    /// The word for it in the record.
    pub fn name(self) -> &'static str {
        match self {
            Class::Use => "use",
            Class::Member => "member",
            Class::Clause => "clause",
            Class::Tactic => "tactic",
            Class::Prove => "prove",
            Class::Derive => "derive",
            Class::Bound => "bound",
            Class::Model => "model",
            Class::Law => "law",
            Class::Writer => "writer",
            Class::Label => "label",
            Class::Import => "import",
            Class::View => "view",
        }
    }
}

/// Why a file can't be erased.
#[derive(Debug, PartialEq, Eq)]
pub enum Fault {
    /// A comment or a literal has no end.
    Unended(usize),
    /// The bracket at this byte has no partner.
    Unbalanced(usize),
    /// The `impl Model` at this byte has members that aren't ghost.
    ModelWithCode(usize),
    /// The text at this byte begins as ghost text, but isn't any that is known.
    UnknownGhost(usize),
}

impl fmt::Display for Fault {
    fn fmt(&self, f: &mut fmt::Formatter<'_>) -> fmt::Result {
        match self {
            Fault::Unended(at) => write!(f, "byte {at}: a comment or literal without an end"),
            Fault::Unbalanced(at) => write!(f, "byte {at}: a bracket without a partner"),
            Fault::ModelWithCode(at) => {
                write!(f, "byte {at}: a Model whose members aren't all ghost")
            }
            Fault::UnknownGhost(at) => write!(f, "byte {at}: unknown ghost text"),
        }
    }
}

impl From<Unended> for Fault {
    fn from(unended: Unended) -> Fault {
        Fault::Unended(unended.start)
    }
}

/// A file as tokens, each kept or deleted. Places are numbers of tokens.
#[derive(Debug)]
pub struct Source<'a> {
    text: &'a str,
    tokens: Vec<Token<'a>>,
    partners: Vec<usize>,
    classes: Vec<Option<Class>>,
    // Of tokens that stay, the bytes that don't.
    cuts: BTreeMap<usize, Range<usize>>,
}

impl<'a> Source<'a> {
    /// The tokens of a text, all kept.
    pub fn new(text: &'a str) -> Result<Source<'a>, Fault> {
        let tokens = tokens(text)?;
        Ok(Source {
            text,
            partners: partners(&tokens)?,
            classes: vec![None; tokens.len()],
            cuts: BTreeMap::new(),
            tokens,
        })
    }

    /// How many tokens there are.
    pub fn len(&self) -> usize {
        self.tokens.len()
    }

    /// The token at a place.
    pub fn token(&self, place: usize) -> Option<&Token<'a>> {
        self.tokens.get(place)
    }

    /// The text of a token, empty behind the last one.
    pub fn word(&self, place: usize) -> &'a str {
        self.token(place).map_or("", |it| it.text)
    }

    /// What stays of a token that does.
    pub fn kept_text(&self, place: usize) -> String {
        let mut text = self.word(place).to_string();
        if let Some(cut) = self.cuts.get(&place) {
            text.drain(cut.clone());
        }
        text
    }

    /// Whether a token is of a kind.
    pub fn is(&self, place: usize, kind: Kind) -> bool {
        self.token(place).is_some_and(|it| it.kind == kind)
    }

    /// Whether a token is code, no comment, and still there.
    pub fn is_kept_code(&self, place: usize) -> bool {
        self.is_kept(place) && !self.is(place, Kind::Comment)
    }

    /// Whether a token stays.
    pub fn is_kept(&self, place: usize) -> bool {
        self.classes.get(place).is_some_and(|it| it.is_none())
    }

    /// Why a token goes, if it does.
    pub fn class(&self, place: usize) -> Option<Class> {
        self.classes.get(place).copied().flatten()
    }

    /// The blanks in front of a token.
    pub fn gap(&self, place: usize) -> &'a str {
        let start = match place {
            0 => 0,
            _ => self.tokens[place - 1].end(),
        };
        let end = self.token(place).map_or(self.text.len(), |it| it.start);
        &self.text[start..end]
    }

    /// The place of the bracket that closes or opens the one at `place`.
    pub fn partner(&self, place: usize) -> usize {
        self.partners[place]
    }

    /// The next token behind `place` that is no comment.
    pub fn next(&self, place: usize) -> usize {
        let behind = place + 1..self.len();
        behind
            .into_iter()
            .find(|it| !self.is(*it, Kind::Comment))
            .unwrap_or(self.len())
    }

    /// The last token before `place` that is no comment.
    pub fn last(&self, place: usize) -> Option<usize> {
        (0..place).rev().find(|it| !self.is(*it, Kind::Comment))
    }

    /// Whether the code from `place` on reads so. Gives the place behind it.
    pub fn reads(&self, place: usize, words: &[&str]) -> Option<usize> {
        let mut at = place;
        for word in words {
            if self.word(at) != *word {
                return None;
            }
            at = self.next(at);
        }
        Some(at)
    }

    /// Behind the generics that begin at `place`, or `place` if none do.
    pub fn behind_generics(&self, place: usize) -> usize {
        if self.word(place) != "<" {
            return place;
        }
        let mut depth = 0;
        let mut at = place;
        while at < self.len() {
            match self.word(at) {
                "<" => depth += 1,
                ">" if self.word(at - 1) != "-" => depth -= 1,
                "(" | "[" | "{" => at = self.partner(at),
                _ => {}
            }
            at = self.next(at);
            if depth == 0 {
                return at;
            }
        }
        at
    }

    /// Where the comments begin that stand right above the line of a token, or its own place.
    pub fn comments_above(&self, place: usize) -> usize {
        let is_above = |it: usize| {
            let is_comment = self.is(it, Kind::Comment) && !self.tokens[it].is_inner_doc();
            let begins_line = it == 0 || self.gap(it).contains('\n');
            is_comment && begins_line && self.gap(it + 1).matches('\n').count() == 1
        };
        let above = (0..place).rev().take_while(|it| is_above(*it));
        above.last().unwrap_or(place)
    }

    /// Where the item begins that has its keyword at `place`: with its comments, attributes and visibility.
    pub fn item_start(&self, place: usize) -> usize {
        let mut start = place;
        while let Some(last) = self.last(start) {
            start = match self.word(last) {
                "pub" | "const" | "unsafe" | "extern" => last,
                literal if literal.starts_with('"') => last,
                ")" | "]" => match self.partner(last).checked_sub(1) {
                    Some(front) if matches!(self.word(front), "pub" | "#") => front,
                    _ => break,
                },
                _ => break,
            };
        }
        self.comments_above(start)
    }

    /// Deletes tokens that are still there.
    pub fn delete(&mut self, places: RangeInclusive<usize>, class: Class) {
        for place in places {
            self.classes[place].get_or_insert(class);
        }
    }

    /// Deletes some bytes of a line of documentation.
    pub fn cut(&mut self, place: usize, bytes: Range<usize>) {
        self.cuts.insert(place, bytes);
    }

    /// Deletes tokens, also those that go for another reason already.
    pub fn delete_whole(&mut self, places: RangeInclusive<usize>, class: Class) {
        self.classes[places].fill(Some(class));
    }

    /// The code that is left, without comments.
    pub fn kept_code(&self) -> impl Iterator<Item = usize> {
        (0..self.len()).filter(|it| self.is_kept_code(*it))
    }

    /// The words of the code that is left.
    pub fn kept_words(&self) -> BTreeSet<&'a str> {
        let words = self.kept_code().filter(|it| self.is(*it, Kind::Word));
        words.map(|it| self.word(it)).collect()
    }

    /// What goes: spans of bytes, each with its class, in order.
    pub fn deletions(&self) -> Vec<(Class, Range<usize>)> {
        let mut spans: Vec<(Class, Range<usize>)> = Vec::new();
        let mut before = None;
        for (place, class) in self.classes.iter().enumerate() {
            let token = &self.tokens[place];
            match (*class, spans.last_mut(), self.cuts.get(&place)) {
                (Some(class), Some((_, span)), _) if before == Some(class) => {
                    span.end = token.end()
                }
                (Some(class), _, _) => spans.push((class, token.start..token.end())),
                (None, _, Some(cut)) => {
                    spans.push((Class::View, token.start + cut.start..token.start + cut.end))
                }
                (None, _, None) => {}
            }
            before = *class;
        }
        spans
    }
}

// For each bracket, the place of its partner. The other entries mean nothing.
fn partners(tokens: &[Token<'_>]) -> Result<Vec<usize>, Fault> {
    let mut partners = vec![0; tokens.len()];
    let mut open: Vec<(usize, &str)> = Vec::new();
    for (place, token) in tokens.iter().enumerate() {
        let unbalanced = Fault::Unbalanced(token.start);
        match token.text {
            "(" => open.push((place, ")")),
            "[" => open.push((place, "]")),
            "{" => open.push((place, "}")),
            ")" | "]" | "}" => match open.pop() {
                Some((partner, close)) if close == token.text => {
                    partners[partner] = place;
                    partners[place] = partner;
                }
                _ => return Err(unbalanced),
            },
            _ => {}
        }
    }
    match open.pop() {
        Some((place, _)) => Err(Fault::Unbalanced(tokens[place].start)),
        None => Ok(partners),
    }
}
