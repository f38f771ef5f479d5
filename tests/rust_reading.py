"""What a file of Rust or Rattle has: its code, its imports, its modules, and the ghost text that only proofs read.

A proof's text has these forms, and no other is taken for ghost text:

    ghost use NAME..;                                             an import of definitions
    ghost NAME = {..};  ghost NAME: {..};                         a member of a trait or of an implementation, with its documentation
    ensures NAME? {..}  requires NAME? {..}                       the clauses of a function, between its signature and its body
    impl Model for TYPE { ghost .. }                              how clauses see a type: an implementation of ghost members alone
    fn NAME() ensures {..} {}                                     a law: no parameters, no answer, no code but calls of other laws
    fn keeps_the_rule(&self) ensures {..} { let _ = &self.NAME; } a law on the values of a type, and calls of it as statements
    #![tactic(NAME)]  prove!(NAME);                               words to the prover, the second with the fact that it takes
    'NAME: while ..                                               the label of a loop that nothing leaves by name: proofs name loops by labels
    Drop                                                          in derives and bounds: the prover's word for a type that owns memory
    Contracts see ..  , seen in contracts as ..                   in documentation, and what names a law or a definition: see VIEWS
"""

import itertools
import re
from collections import Counter
from collections.abc import Iterator
from dataclasses import dataclass, field, replace

from rust_tokens import Token, Unreadable, partners_of, tokens_of

WITH_ITEMS = {"impl", "trait", "mod"}
WITH_BODIES = {"fn", "struct", "enum", "union", "macro_rules", *WITH_ITEMS}
MODIFIERS = {"const", "unsafe", "async", "extern", "default"}
# What documentation says of proofs, in lines joined by newlines. A sentence goes if it ends its line, and if it is the last paragraph, so does
# the empty line above it.
SENTENCE = (r"(?:(?:Contracts|Clauses) see |`laws::|The laws of |What (?:they hold|it was started with) isn't known to contracts|"
            r"Its members `reading` and `writing` say )[^.\n]*(?:\n//[/!] [^.\n]*)*\.$")
VIEWS = re.compile(rf"\n//[/!]\n//[/!] {SENTENCE}(?!\n//[/!] )|^//[/!] {SENTENCE}\n?|(?<=\.) {SENTENCE}|"
                   r", seen in contracts as [^.\n]*(?=\.$)|; no clause says so(?=\.$)| \((?:`laws::|`specs/|the law `)[^)\n]*\)", re.M)
# The method that says what each value of its type guarantees, and does nothing.
ON_VALUES = "keeps_the_rule"
# The places of a bound's end.
AFTER_BOUND = {",", ">", "+", "{", ";", "=", "where", "ensures", "requires"}


@dataclass(frozen=True)
class Import:
    """One name that a `use` brings into a module: `use a::{b, c as d};` has two."""

    module: str
    before: str
    path: str
    line: int

    @property
    def name(self) -> str:
        """The name by which the module knows it."""
        return self.path.rsplit(" as ", 1)[-1].removesuffix("::self").rsplit("::", 1)[-1]

    @property
    def is_public(self) -> bool:
        return "pub" in self.before.split()


@dataclass
class Reading:
    """What was read of a file: its code without imports, these, the modules of files that it declares, and what was left
    out: its tokens, its parts with where they begin and end, and how many there are of each kind."""

    code: list[Token] = field(default_factory=list)
    imports: list[Import] = field(default_factory=list)
    modules: dict[str, list[Token]] = field(default_factory=dict)
    ghost: list[Token] = field(default_factory=list)
    left_out: list[tuple[str, int, int]] = field(default_factory=list)
    counts: Counter[str] = field(default_factory=Counter)
    items: int = 0

    @property
    def is_of_laws(self) -> bool:
        """Whether it has laws, and no other item."""
        return self.counts["law"] > 0 and self.items == 0


def without_views(tokens: list[Token], counts: Counter[str]) -> list[Token]:
    """Returns the tokens without what documentation says of proofs."""
    made = list[Token]()
    for kind, group in itertools.groupby(tokens, lambda token: token.kind):
        run = list(group)
        text, views = VIEWS.subn("", "\n".join(token.text for token in run)) if kind == "doc" else ("", 0)
        counts["view"] += views
        lines = [line for line in text.split("\n") if line]
        made += [replace(run[0], text=line, line=run[0].line + number) for number, line in enumerate(lines)] if views else run
    return made


class Reader:
    """Reads the items of a file one by one. If `erases`, ghost text is left out; else it is code like any other."""

    def __init__(self, text: str, erases: bool) -> None:
        self.reading = Reading()
        self.tokens = without_views(tokens_of(text), self.reading.counts) if erases else tokens_of(text)
        self.partners = partners_of(self.tokens)
        self.erases = erases
        self.module: list[str] = []

    def read(self) -> Reading:
        self.items(0, len(self.tokens))
        return self.reading

    # How tokens are looked at, kept and left out.

    def text(self, at: int) -> str:
        return self.tokens[at].text if 0 <= at < len(self.tokens) else ""

    def has(self, at: int, *texts: str) -> bool:
        return all(self.text(at + number) == text for number, text in enumerate(texts))

    def past(self, at: int) -> int:
        """Returns the place behind a token, or behind its group if it opens one."""
        partner = self.partners.get(at, at)
        return max(at, partner) + 1

    def find(self, at: int, end: int, *texts: str) -> int:
        """Returns the first place, outside of the groups that begin from here, of a token with one of these texts, or the end."""
        while at < end and self.text(at) not in texts:
            at = self.past(at)
        return min(at, end)

    def keep(self, at: int, end: int) -> None:
        self.reading.code += self.tokens[at:end]

    def leave_out(self, kind: str, at: int, end: int) -> None:
        self.reading.counts[kind] += 1
        self.reading.ghost += self.tokens[at:end]
        self.reading.left_out.append((kind, self.tokens[at].start, self.tokens[end - 1].end))

    # Items.

    def items(self, at: int, end: int) -> None:
        while at < end:
            at = self.item(at, end)

    def item(self, start: int, end: int) -> int:
        """Reads one item with its documentation and attributes, and returns the place behind it."""
        if self.text(start).startswith("//!") or self.has(start, "#", "!"):
            behind = self.past_prefix(start, start + 1)
            self.keep_prefix(start, behind)
            return behind
        at = self.past_prefix(start, end)
        ghost = self.past_ghost_item(at) if self.erases else None
        if ghost is not None:
            self.leave_out("ghost item", start, ghost)
            return ghost
        noun = self.past_visibility(at)
        while self.text(noun) in MODIFIERS and self.text(noun + 1) not in (":", "=") and not self.is_constant(noun):
            noun += 2 if self.tokens[noun + 1].kind == "text" else 1
        if self.text(noun) == "use":
            return self.use(start, noun)
        if self.has(noun, "mod") and self.has(noun + 2, ";"):
            return self.module_of_file(start, noun)
        if self.text(noun) in WITH_BODIES:
            return self.item_with_body(start, at, noun, end)
        behind = self.find(noun, end, ";") + 1 if noun < end else end
        self.keep_prefix(start, at)
        self.keep(at, min(behind, end))
        self.reading.items += at < end
        return min(behind, end)

    def is_constant(self, at: int) -> bool:
        return self.has(at, "const") and self.text(at + 1) not in ("fn", "unsafe", "extern")

    def past_prefix(self, at: int, end: int) -> int:
        """Returns the place behind documentation and attributes."""
        while at < end:
            if self.tokens[at].kind == "doc":
                at += 1
            elif self.has(at, "#", "[") or self.has(at, "#", "!", "["):
                at = self.past(at + 1 if self.has(at + 1, "[") else at + 2)
            else:
                break
        return at

    def past_visibility(self, at: int) -> int:
        if not self.has(at, "pub"):
            return at
        return self.past(at + 1) if self.has(at + 1, "(") else at + 1

    def past_ghost_item(self, at: int) -> int | None:
        """Returns the place behind a ghost item that begins here, or None if none does."""
        if self.has(at, "impl"):
            return self.past_model(at)
        if not self.has(at, "ghost"):
            return None
        if self.has(at + 1, "use"):
            return self.find(at, len(self.tokens), ";") + 1
        is_member = self.tokens[at + 1].kind == "word" and self.text(at + 2) in ("=", ":") and self.has(at + 3, "{")
        behind = self.past(at + 3)
        return behind + 1 if is_member and self.has(behind, ";") else None

    def past_model(self, at: int) -> int | None:
        """Returns the place behind an implementation of Model, if it has ghost members alone."""
        body = self.find(at, len(self.tokens), "{")
        head = [token.text for token in self.tokens[at:body]]
        if "for" not in head or head[head.index("for") - 1] != "Model":
            return None
        place, close = body + 1, self.partners[body]
        while place < close:
            behind = self.past_ghost_item(self.past_prefix(place, close)) if not self.has(place, "impl") else None
            if behind is None:
                return None
            place = behind
        return close + 1

    def use(self, start: int, noun: int) -> int:
        """Reads the names of a `use`."""
        behind = self.find(noun, len(self.tokens), ";")
        if behind == len(self.tokens):
            raise Unreadable(f"line {self.tokens[noun].line}: an import that doesn't end")
        before = " ".join(token.text for token in self.tokens[start:noun])
        for path in self.paths(noun + 1, behind):
            if self.erases and path == "std::marker::Model":
                self.leave_out("import of Model", noun, noun + 1)
            else:
                self.reading.imports.append(Import("::".join(self.module), before, path, self.tokens[noun].line))
        return behind + 1

    def paths(self, at: int, end: int) -> Iterator[str]:
        """Yields the paths of a tree of imports."""
        head = ""
        while at < end and not self.has(at, "{"):
            head += f" {self.text(at)} " if self.has(at, "as") else self.text(at)
            at += 1
        if at == end:
            yield head
            return
        at, close = at + 1, self.partners[at]
        while at < close:
            comma = self.find(at, close, ",")
            for path in self.paths(at, comma):
                yield (head + path).replace("::self as", " as").removesuffix("::self") if path.startswith("self") else head + path
            at = comma + 1

    def module_of_file(self, start: int, noun: int) -> int:
        """Reads a declaration of a module that is a file."""
        self.reading.modules["::".join([*self.module, self.text(noun + 1)])] = self.tokens[start:noun + 3]
        return noun + 3

    def item_with_body(self, start: int, at: int, noun: int, end: int) -> int:
        """Reads an item that has a body, or could have one."""
        body = self.find_body(noun, end)
        behind = self.past(body)
        if self.erases and self.is_law(noun, body):
            self.leave_out("law on values" if self.has(noun + 1, ON_VALUES) else "law", start, behind)
            return behind
        self.reading.items += 1
        self.keep_prefix(start, at)
        self.head(at, body, self.has(noun, "fn"))
        self.keep(body, body + 1)
        if self.has(body, "{"):
            self.body(noun, body + 1, behind - 1)
            self.keep(behind - 1, behind)
        return behind

    def find_body(self, noun: int, end: int) -> int:
        """Returns the place of the brace where an item's body begins, or of the semicolon in its place."""
        at = noun
        while at < end and self.text(at) not in ("{", ";"):
            behind = self.past_clause(at) if self.has(noun, "fn") else None
            at = behind or self.past(at)
        return at

    def past_clause(self, at: int) -> int | None:
        """Returns the place behind a clause that begins here, or None if none does."""
        if self.text(at) not in ("ensures", "requires"):
            return None
        at += 1
        if self.tokens[at].kind == "word":
            at += 1
        return self.past(at) if self.has(at, "{") else None

    def is_law(self, noun: int, body: int) -> bool:
        """Whether a function is a law: it has clauses, no parameters, no answer, and its body calls laws alone. Or it's the one on values."""
        if not self.has(noun, "fn") or not self.has(body, "{"):
            return False
        parameters = self.find(noun, body, "(")
        code = "".join(token.text for token in self.tokens[body + 1:self.partners[body]])
        if self.has(noun + 1, ON_VALUES, "(", "&", "self", ")"):
            return self.past_clause(noun + 6) is not None and re.fullmatch(r"let_=&self\.\w+;", code) is not None
        calls_laws = re.fullmatch(r"((\w+::)*laws::\w+\(\);)*", code) is not None
        return self.has(parameters, "(", ")") and self.past_clause(parameters + 2) is not None and calls_laws

    def body(self, noun: int, at: int, end: int) -> None:
        if self.has(noun, "mod"):
            self.module.append(self.text(noun + 1))
            self.items(at, end)
            self.module.pop()
        elif self.text(noun) in WITH_ITEMS:
            self.items(at, end)
        else:
            self.statements(at, end)

    def statements(self, at: int, end: int) -> None:
        """Reads code, in which facts for the prover and labels are ghost text."""
        while at < end:
            begins = self.erases and self.text(at - 1) in ("{", "}", ";")
            fact = self.past_fact(at) if begins else None
            if begins and self.tokens[at].kind == "word" and self.has(at + 1, ".", ON_VALUES, "(", ")", ";"):
                self.leave_out("law on values", at, at + 6)
                fact = at + 6
            elif fact is not None:
                self.leave_out("fact", at, fact)
            elif self.erases and self.is_ghost_label(at):
                self.leave_out("label", at, at + 2)
            else:
                self.keep(at, at + 1)
            at = fact or at + (2 if self.erases and self.is_ghost_label(at) else 1)

    def past_fact(self, at: int) -> int | None:
        """Returns the place behind `let NAME = FACT; prove!(NAME);`, if nothing else uses the name, or None. A fact compares, and
        changes nothing: it is made of names, numbers and lengths."""
        behind = self.find(at, len(self.tokens), ";")
        name = self.text(at + 1)
        fact = "".join(token.text for token in self.tokens[at + 3:behind])
        if not self.has(at, "let", name, "=") or not self.has(behind, ";", "prove", "!", "(", name, ")", ";"):
            return None
        is_plain = re.fullmatch(r"[\w.]+(\.len\(\))?(==|<=|<)[\w.]+(\.len\(\))?", fact)
        uses = sum(token.text == name for token in self.tokens)
        return behind + 7 if is_plain and uses == 2 else None

    def is_ghost_label(self, at: int) -> bool:
        """Whether the label of a loop begins here that no `break` and no `continue` names."""
        if self.tokens[at].kind != "lifetime" or not self.has(at + 1, ":") or self.text(at + 2) not in ("while", "for", "loop"):
            return False
        close = self.partners[self.find(at + 2, len(self.tokens), "{")]
        return all(self.text(place) != self.text(at) for place in range(at + 1, close))

    # What stands before an item's body.

    def keep_prefix(self, at: int, end: int) -> None:
        """Keeps documentation and attributes, without `Drop` in derives and without words to the prover."""
        while at < end:
            behind = self.past_prefix(at, at + 1) if self.tokens[at].kind != "doc" else at + 1
            if self.erases and self.has(at, "#", "!", "[", "tactic", "("):
                self.leave_out("tactic", at, behind)
            elif self.erases and self.has(at, "#", "[", "derive", "("):
                self.derive(at, behind)
            else:
                self.keep(at, behind)
            at = behind

    def derive(self, at: int, end: int) -> None:
        """Keeps a derive without `Drop`."""
        names = [place for place in range(at + 4, end - 2) if not self.has(place, ",")]
        kept = [place for place in names if not self.has(place, "Drop")]
        if kept == names:
            self.keep(at, end)
            return
        self.leave_out("derive", at, end)
        if kept:
            self.keep(at, at + 4)
            for place in kept:
                self.keep(place, place + 1)
                self.keep(place + 1, place + 2) if place != kept[-1] else None
            self.keep(end - 2, end)

    def head(self, at: int, end: int, is_function: bool) -> None:
        """Keeps what stands before a body, without clauses and without bounds by `Drop`."""
        while at < end:
            clause = self.past_clause(at) if is_function and self.erases else None
            bound = self.past_bound(at) if self.erases else None
            if clause is not None:
                self.leave_out("clause", at, clause)
            elif bound is not None:
                self.leave_out("bound", at, bound)
            elif self.erases and self.has(at, "where"):
                at = self.where(at, end)
                continue
            else:
                self.keep(at, self.past(at))
            at = clause or bound or self.past(at)

    def past_bound(self, at: int) -> int | None:
        """Returns the place behind a bound by `Drop` that goes, with the mark that goes along."""
        if not self.has(at + 1, "Drop") or self.text(at + 2) not in AFTER_BOUND:
            return None
        if self.has(at, "+"):
            return at + 2
        if self.has(at, ":"):
            return at + 2 if not self.has(at + 2, "+") else None
        return None

    def where(self, at: int, end: int) -> int:
        """Keeps the conditions of a `where`, but those that a type is `Drop`. Returns the place behind the last."""
        first, kept = at + 1, []
        stop = self.find(first, end, "ensures", "requires")
        while first < stop:
            comma = self.find(first, stop, ",")
            if self.has(comma - 2, ":", "Drop"):
                self.leave_out("bound", first, min(comma + 1, stop))
            else:
                kept.append((first, min(comma + 1, stop)))
            first = comma + 1
        if kept:
            self.keep(at, at + 1)
        for one, behind in kept:
            self.keep(one, behind)
        return stop
