"""One layout for tokens that rustfmt may lay out in several ways, so that only what matters is compared.

rustfmt adds and takes away commas in front of a closing bracket, but for the one of a tuple with one element. It puts braces around the
body of a match arm or takes them away, and a semicolon with them if the body returns. It sorts imports, which aren't compared in their
order, and changes no other token of these sources.
"""

from collections.abc import Iterator

from rust_tokens import Token, partners_of

# Words in front of a parenthesis that begins an expression, a pattern or a type, not the arguments of a call.
BEFORE_A_TUPLE = {"as", "break", "dyn", "else", "for", "if", "impl", "in", "let", "match", "move", "mut", "ref", "return", "where", "while"}
# Words that an item or a block begins with, whose braces hold no list.
BEFORE_A_BODY = {"fn", "for", "if", "impl", "match", "mod", "trait", "while"}
JUMPS = {"break", "continue", "return"}
COMMA = Token("mark", ",", 0, 0)


def in_one_layout(tokens: list[Token]) -> list[Token]:
    return without_last_commas(without_braces_of_arms(tokens))


def without_braces_of_arms(tokens: list[Token]) -> list[Token]:
    """Takes the braces away that are the body of an arm, if they hold one expression, and puts a comma behind each body in braces."""
    partners, made, at = partners_of(tokens), list[Token](), 0
    while at < len(tokens):
        made.append(tokens[at])
        at += 1
        if tokens[at - 1].text != "=>" or at == len(tokens) or tokens[at].text != "{":
            continue
        close = partners[at]
        inner = without_braces_of_arms(tokens[at + 1:close])
        if inner and inner[0].text in JUMPS and inner[-1].text == ";":
            inner = inner[:-1] if is_one_expression(inner[:-1]) else inner
        made += inner if is_one_expression(inner) else [tokens[at], *inner, tokens[close]]
        made.append(COMMA)
        at = close + 1
        if at < len(tokens) and tokens[at].text == ",":
            at += 1
    return made


def is_one_expression(tokens: list[Token]) -> bool:
    """Whether a block of these is laid out without its braces: it has no statement that ends in a semicolon, and no attribute."""
    partners, at = partners_of(tokens), 0
    if not tokens or tokens[0].text == "#":
        return False
    while at < len(tokens):
        if tokens[at].text == ";":
            return False
        at = max(at, partners.get(at, at)) + 1
    return True


def without_last_commas(tokens: list[Token]) -> list[Token]:
    """Takes the commas away that stand in front of the end of a list, but for one that makes a tuple."""
    partners, made = partners_of(tokens), list[Token]()
    for place, token in enumerate(tokens):
        if token.text != "," or place + 1 == len(tokens) or not ends_list(tokens, partners, place + 1):
            made.append(token)
    return made


def ends_list(tokens: list[Token], partners: dict[int, int], close: int) -> bool:
    """Whether this token is the end of a list in which a comma before it makes no difference."""
    match tokens[close].text:
        case "]" | ">":
            return True
        case ")":
            return not is_tuple_of_one(tokens, partners, partners[close])
        case "}":
            return is_list(tokens, partners, partners[close])
    return False


def is_tuple_of_one(tokens: list[Token], partners: dict[int, int], opening: int) -> bool:
    """Whether the parentheses that open here hold one element and a comma, and aren't those of a call."""
    at, close = opening + 1, partners[opening]
    while at < close - 1:
        if tokens[at].text == ",":
            return False
        at = max(at, partners.get(at, at)) + 1
    before = tokens[opening - 1] if opening else COMMA
    return not (before.kind == "word" and before.text not in BEFORE_A_TUPLE or before.text in (")", "]", ">", "!", "?"))


def is_list(tokens: list[Token], partners: dict[int, int], opening: int) -> bool:
    """Whether these braces hold arms, or the fields of a definition, of a value or of a pattern."""
    at, close = opening + 1, partners[opening]
    while at < close:
        if tokens[at].text == "=>":
            return True
        at = max(at, partners.get(at, at)) + 1
    before = tokens[opening - 1] if opening else COMMA
    if before.text != ">" and (before.kind != "word" or before.text in ("else", "loop", "unsafe")):
        return False
    behind = tokens[close + 1].text if close + 1 < len(tokens) else ""
    return behind in ("=", "|", "in") or not BEFORE_A_BODY & {*words_before(tokens, partners, opening)}


def words_before(tokens: list[Token], partners: dict[int, int], opening: int) -> Iterator[str]:
    """Yields the words of what a brace belongs to, backwards."""
    at = opening - 1
    while at >= 0 and tokens[at].text not in (";", "{", "}", "(", "[", "=>", "=") or at in partners and partners[at] < at:
        if tokens[at].text == "}":
            return
        yield tokens[at].text
        at = min(at, partners.get(at, at)) - 1
