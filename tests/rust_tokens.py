"""The tokens of Rust text, and of Rattle text, which is Rust with contracts."""

import re
from dataclasses import dataclass

TOKEN = re.compile(
    r"""
    (?P<blank> \s+ )
  | (?P<doc> ///(?!/)[^\n]* | //![^\n]* )
  | (?P<comment> //[^\n]* )
  | (?P<raw> [bc]?r(?P<hashes>\#*)" .*? "(?P=hashes) )
  | (?P<text> [bc]?" (?: [^"\\] | \\. )* " )
  | (?P<char> b?' (?: [^'\\\n] | \\x[0-9a-fA-F]{2} | \\u\{[0-9a-fA-F_]+\} | \\[^xu] ) ' )
  | (?P<lifetime> '[^\W\d]\w* )
  | (?P<word> (?:r\#)?[^\W\d]\w* )
  | (?P<number> \d\w*(?:\.\d\w*)? )
  | (?P<mark> \.\.= | \.\.\. | \.\. | :: | -> | => | == | != | <= | && | \|\| | <<= | << | [-+*/%^&|]= | [^\s"] )
    """,
    re.S | re.X,
)
CLOSERS = {"(": ")", "[": "]", "{": "}"}


class Unreadable(Exception):
    """Text that isn't made of tokens, or whose brackets don't match."""


@dataclass(frozen=True)
class Token:
    """One token: its kind (a group of TOKEN), its text, where it begins, and on which line."""

    kind: str
    text: str
    start: int
    line: int

    @property
    def end(self) -> int:
        return self.start + len(self.text)


def tokens_of(text: str, kinds_left_out: tuple[str, ...] = ("blank", "comment")) -> list[Token]:
    """Returns the tokens of a text, without blanks and ordinary comments. A comment of documentation is a token."""
    found, at, line = [], 0, 1
    while at < len(text):
        if text.startswith("/*", at):
            kind, end = "comment", end_of_comment(text, at, line)
        elif match := TOKEN.match(text, at):
            kind, end = str(match.lastgroup), match.end()
        else:
            raise Unreadable(f"line {line}: a text that doesn't end")
        if kind not in kinds_left_out:
            found.append(Token(kind, text[at:end].rstrip() if kind == "doc" else text[at:end], at, line))
        line += text.count("\n", at, end)
        at = end
    return found


def end_of_comment(text: str, at: int, line: int) -> int:
    """Returns where a comment ends that begins here. Such comments nest. None of them may be documentation, which no source has."""
    if re.match(r"/\*(\*[^*/]|!)", text[at:at + 4]):
        raise Unreadable(f"line {line}: documentation in a comment of this kind")
    depth = 0
    for mark in re.finditer(r"/\*|\*/", text[at:]):
        depth += 1 if mark[0] == "/*" else -1
        if depth == 0:
            return at + mark.end()
    raise Unreadable(f"line {line}: a comment that doesn't end")


def partners_of(tokens: list[Token]) -> dict[int, int]:
    """Returns for the place of each opening bracket that of the closing one, and the other way round."""
    partners, open_ones = {}, []
    for place, token in enumerate(tokens):
        if token.kind != "mark":
            continue
        if token.text in CLOSERS:
            open_ones.append(place)
        elif token.text in CLOSERS.values():
            if not open_ones or CLOSERS[tokens[open_ones[-1]].text] != token.text:
                raise Unreadable(f"line {token.line}: a bracket that doesn't match")
            opening = open_ones.pop()
            partners[opening], partners[place] = place, opening
    if open_ones:
        raise Unreadable(f"line {tokens[open_ones[-1]].line}: a bracket that isn't closed")
    return partners
