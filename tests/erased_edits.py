"""Edits of plain Rust and of its sources, drawn by lot: mistakes that an eraser could make, and that tests/erased.py has to find.

An edit of the output puts, takes away or exchanges tokens, statements, arms, functions, documentation or ghost text. An edit of the source
makes ordinary code of ghost text, as if the eraser had left out something that no proof but the program needs.
"""

import random
import re
import subprocess
from collections.abc import Callable, Iterator
from dataclasses import dataclass

from rust_tokens import Token, partners_of, tokens_of

Texts = tuple[str, str]
OPERATORS = {"<": "<=", "<=": "<", ">": "<", "==": "!=", "!=": "==", "+": "-", "-": "+", "*": "/", "&&": "||", "||": "&&", "..": "..=", "..=": "..",
             "+=": "-=", "true": "false", "false": "true", "Some": "Ok", "Ok": "Err", "Err": "Ok"}


@dataclass(frozen=True)
class Span:
    """A part of a text."""

    start: int
    end: int

    def of(self, text: str) -> str:
        return text[self.start:self.end]

    def replaced(self, text: str, new: str) -> str:
        return text[:self.start] + new + text[self.end:]


def spanned(tokens: list[Token], first: int, last: int) -> Span:
    return Span(tokens[first].start, tokens[last].end)


# What an edit is drawn from: the parts of a text of one kind.

def words(text: str) -> list[Span]:
    return [Span(token.start, token.end) for token in tokens_of(text)]


def literals(text: str) -> list[Span]:
    tokens = tokens_of(text)
    return [Span(token.start, token.end) for token in tokens if token.kind in ("number", "text", "raw", "char") or token.text in ("true", "false")]


def operators(text: str) -> list[Span]:
    return [Span(token.start, token.end) for token in tokens_of(text) if token.text in OPERATORS]


def documentation(text: str) -> list[Span]:
    return [Span(token.start, token.end) for token in tokens_of(text) if token.kind == "doc"]


def neighbours(text: str) -> list[Span]:
    tokens = tokens_of(text)
    return [spanned(tokens, at, at + 1) for at in range(len(tokens) - 1)]


def parts(tokens: list[Token], partners: dict[int, int], opening: int, mark: str) -> Iterator[Span]:
    """Yields the parts of a group that end in a mark."""
    first = at = opening + 1
    while at < partners[opening]:
        if tokens[at].text == mark:
            yield spanned(tokens, first, at)
            first = at + 1
        behind = max(at, partners.get(at, at)) + 1
        if behind > at + 1 and tokens[at].text == "{" and (mark == ";" or tokens[at - 1].text == "=>"):
            if mark == "," and tokens[behind].text != ",":
                yield spanned(tokens, first, behind - 1)
            first = behind if tokens[behind].text not in (",", ".", "?") else first
        at = behind


def blocks(text: str, wants_arms: bool) -> Iterator[list[Span]]:
    """Yields the statements of each block, or the arms of each `match`, which end in a semicolon or a comma."""
    tokens = tokens_of(text)
    partners = partners_of(tokens)
    for opening in (at for at, token in enumerate(tokens) if token.kind == "mark" and token.text == "{"):
        at, has_arms = opening + 1, False
        while at < partners[opening]:
            has_arms |= tokens[at].text == "=>"
            at = max(at, partners.get(at, at)) + 1
        if has_arms == wants_arms:
            yield list(parts(tokens, partners, opening, "," if wants_arms else ";"))


def statements(text: str) -> list[Span]:
    return [span for block in blocks(text, False) for span in block]


def arms(text: str) -> list[Span]:
    return [span for block in blocks(text, True) for span in block]


def pairs(text: str, wants_arms: bool) -> list[tuple[Span, Span]]:
    return [pair for block in blocks(text, wants_arms) for pair in zip(block, block[1:])]


def bodies(tokens: list[Token], partners: dict[int, int]) -> Iterator[tuple[int, int]]:
    """Yields the places of `fn` and of the brace where its body begins, for each function with a body."""
    for at, token in enumerate(tokens):
        body = at if token.text == "fn" and tokens[at + 1].kind == "word" else len(tokens)
        while body < len(tokens) and tokens[body].text not in ("{", ";"):
            body = max(body, partners.get(body, body)) + 1
        if body < len(tokens) and tokens[body].text == "{":
            yield at, body


def functions(text: str) -> list[Span]:
    """The functions, with their documentation and attributes."""
    tokens, found = tokens_of(text), []
    partners = partners_of(tokens)
    for at, body in bodies(tokens, partners):
        while at and (tokens[at - 1].kind == "doc" or tokens[at - 1].text in ("pub", "unsafe", "extern", '"C"', ")", "]")):
            at = min(at - 1, partners.get(at - 1, at)) - (tokens[at - 1].text == "]")
        found.append(spanned(tokens, at, partners[body]))
    return found


def first_statements(text: str) -> list[Span]:
    """The first statement of each function, which clauses stood right before."""
    tokens = tokens_of(text)
    partners = partners_of(tokens)
    return [span for _, body in bodies(tokens, partners) for span in list(parts(tokens, partners, body, ";"))[:1]]


# The edits: each takes the texts of a source and of its output, and returns both with a mistake, or None if it can't make it there.

def drawn(lot: random.Random, spans: list[Span]) -> Span | None:
    return lot.choice(spans) if spans else None


def left_out(find: Callable[[str], list[Span]]) -> Callable[[random.Random, str, str], Texts | None]:
    def edit(lot: random.Random, source: str, output: str) -> Texts | None:
        span = drawn(lot, find(output))
        return (source, span.replaced(output, "")) if span else None
    return edit


def twice(lot: random.Random, source: str, output: str) -> Texts | None:
    span = drawn(lot, words(output))
    return (source, span.replaced(output, f"{span.of(output)} {span.of(output)}")) if span else None


def other_word(lot: random.Random, source: str, output: str) -> Texts | None:
    spans = words(output)
    return (source, lot.choice(spans).replaced(output, f" {lot.choice(spans).of(output)} ")) if spans else None


def other_literal(lot: random.Random, source: str, output: str) -> Texts | None:
    span = drawn(lot, literals(output))
    if span is None:
        return None
    text = span.of(output)
    new = {"true": "false", "false": "true"}.get(text) or (f"{int(text) + 1}" if text.isdigit() else f"{text[:-1]}x{text[-1]}")
    return source, span.replaced(output, new)


def other_operator(lot: random.Random, source: str, output: str) -> Texts | None:
    span = drawn(lot, operators(output))
    return (source, span.replaced(output, OPERATORS[span.of(output)])) if span else None


def exchanged(text: str, first: Span, second: Span) -> str:
    return text[:first.start] + second.of(text) + text[first.end:second.start] + first.of(text) + text[second.end:]


def swapped_words(lot: random.Random, source: str, output: str) -> Texts | None:
    tokens = words(output)
    at = lot.randrange(len(tokens) - 1)
    return source, exchanged(output, tokens[at], tokens[at + 1])


def swapped(wants_arms: bool) -> Callable[[random.Random, str, str], Texts | None]:
    def edit(lot: random.Random, source: str, output: str) -> Texts | None:
        found = pairs(output, wants_arms)
        return (source, exchanged(output, *lot.choice(found))) if found else None
    return edit


GHOST_TEXT = re.compile(r"(?m)^ *(?:ensures|requires)[^\n]*|^ *ghost \w+ ?[=:] [^\n]*;$|^ *ghost use [^\n]*|#!\[tactic\(auto\)\]")


def kept_ghost_text(lot: random.Random, source: str, output: str) -> Texts | None:
    """Puts a line of ghost text in the output, behind the line that it stands behind in the source."""
    matches = list(GHOST_TEXT.finditer(source))
    lot.shuffle(matches)
    for match in matches:
        before = source[:match.start()].rstrip("\n").rpartition("\n")[2]
        if before.strip() and output.count(f"{before}\n") == 1:
            return source, output.replace(f"{before}\n", f"{before}\n{match[0]}\n")
    return None


def kept_drop(lot: random.Random, source: str, output: str) -> Texts | None:
    found = list(re.finditer(r"#\[derive\((.*)\)\]", output))
    if not found:
        return None
    match = lot.choice(found)
    return source, output[:match.end(1)] + ", Drop" + output[match.end(1):]


def ordinary(pattern: str, new: str) -> Callable[[random.Random, str, str], Texts | None]:
    """An edit of the source, by which ghost text isn't ghost text any more, though the output lacks it."""
    def edit(lot: random.Random, source: str, output: str) -> Texts | None:
        found = list(re.finditer(pattern, source))
        if not found:
            return None
        match = lot.choice(found)
        return source[:match.start()] + match.expand(new) + source[match.end():], output
    return edit


EDITS: dict[str, Callable[[random.Random, str, str], Texts | None]] = {
    "a token left out": left_out(words),
    "two tokens left out": left_out(neighbours),
    "a token twice": twice,
    "another token": other_word,
    "another literal": other_literal,
    "another operator": other_operator,
    "two tokens exchanged": swapped_words,
    "a statement left out": left_out(statements),
    "the statement behind a clause left out": left_out(first_statements),
    "an arm left out": left_out(arms),
    "a function left out": left_out(functions),
    "documentation left out": left_out(documentation),
    "two statements exchanged": swapped(False),
    "two arms exchanged": swapped(True),
    "ghost text kept": kept_ghost_text,
    "Drop derived": kept_drop,
    "a clause of no such word": ordinary(r"\b(ensures|requires)(?= (\w+ )?\{)", "assures"),
    "code behind a clause": ordinary(r"(?m)^( +)(ensures|requires)( .*\n(?: .*\n)*?)( *)\{\n", r"\1\2\3\4{\n\4    touch();\n"),
    "an export that isn't ghost": ordinary(r"\bghost use Rattle\.", "pub use Rattle::"),
    "a member that isn't ghost": ordinary(r"\bghost (\w+) = ", r"const \1: X = "),
    "a law with a parameter": ordinary(r"(pub fn \w+)\(\)(?=\n    ensures)", r"\1(text: &str)"),
    "a law with code": ordinary(r"(?m)^\{\}$", "{\n    touch();\n}"),
    "a Model with code": ordinary(r"(impl.* Model for .*\{\n)", r"\1    fn view(self) -> Self {\n        self\n    }\n"),
    "another trait than Model": ordinary(r"(impl.*) Model for ", r"\1 Clone for "),
    "another derive than Drop": ordinary(r"\bDrop\)\]", "Eq)]"),
    "another bound than Drop": ordinary(r": (.*\+ )?Drop\b", r": \1Copy"),
    "another macro than prove": ordinary(r"\bprove!", "touch!"),
    "another attribute than tactic": ordinary(r"#!\[tactic\(auto\)\]", "#![no_std]"),
}


def is_the_same(one: str, other: str) -> bool:
    """Whether rustfmt makes one text of both, so that they say the same."""
    made = [subprocess.run(["rustfmt", "--edition", "2024"], input=text, capture_output=True, text=True, check=False) for text in (one, other)]
    return not any(it.returncode for it in made) and made[0].stdout == made[1].stdout


def draw(lot: random.Random, texts: Texts) -> tuple[str, Texts | None]:
    """Draws an edit: its name, and both texts with the mistake, or None if it can't make it there."""
    name = lot.choice(sorted(EDITS))
    return name, EDITS[name](lot, *texts)
