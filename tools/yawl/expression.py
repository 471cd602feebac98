"""Expressions as the server reads them: tokens, grammar, names and sorts, and what to do about a fault.

A fault has its place in the expression, counted in characters from 0. The server looks in this order: for a place where no token
begins, for too many brackets or tokens, for a token that can't stand where it does, for a name out of scope, and for operands of
wrong sorts.
"""

from __future__ import annotations

import re
from dataclasses import dataclass
from typing import Iterator, Mapping

WORDS = ("and", "or", "not", "true", "false", "len", "sum")
LARGEST = 9223372036854775807
DEEPEST = 64
MOST_TOKENS = 1024
LARGEST_TEXT = 4096
_TOKEN = re.compile(r"[ \t\n]*(?:(0|[1-9][0-9]*)|'([^'\n]*)'|([A-Za-z_][A-Za-z0-9_]*)|(!=|<=|>=|[=<>+\-*/%()\[\],]))")
_COMPARISONS = ("=", "!=", "<", "<=", ">", ">=")


@dataclass(frozen=True)
class Token:
    """A token: `number`, `text`, `name`, `sign` (also of a word), or `end`; its text, and its place."""

    kind: str
    text: str
    start: int
    end: int


class Fault(Exception):
    """What is wrong at a part of an expression, and what to do. `unknown` is the name that is out of scope, where that is the fault."""

    def __init__(self, start: int, end: int, what: str, do: str, unknown: str | None = None) -> None:
        super().__init__(what)
        self.start, self.end, self.what, self.do, self.unknown = start, end, what, do, unknown


@dataclass(frozen=True)
class Tree:
    """A form: its operator (or `name`, or the sort of a constant), the token that marks it, and its operands."""

    operator: str
    token: Token
    operands: tuple[Tree, ...] = ()

    def walk(self) -> Iterator[Tree]:
        """All forms, operands first."""
        for it in self.operands:
            yield from it.walk()
        yield self


def sort_of(text: str, scope: Mapping[str, str]) -> str:
    """The sort of an expression whose names have these sorts. Raises its first Fault."""
    tree = _Parser(tokens(text)).whole()
    names = [it for it in tree.walk() if it.operator == "name"]
    for it in sorted(names, key=lambda it: it.token.start):
        if it.token.text not in scope:
            name = it.token.text
            raise Fault(it.token.start, it.token.end, f"`{name}` is out of scope", "name a variable of the net", name)
    return _sort(tree, scope)


def names_of(text: str) -> set[str]:
    """The names in an expression; none where it doesn't parse."""
    try:
        return {it.token.text for it in _Parser(tokens(text)).whole().walk() if it.operator == "name"}
    except Fault:
        return set()


def tokens(text: str) -> list[Token]:
    """All tokens, and one for the end. Raises Fault where no token begins, or there are too many, or brackets too deep."""
    found, at = [], 0
    while text[at:].strip(" \t\n"):
        match = _TOKEN.match(text, at)
        if not match:
            raise _no_token(text, len(text) - len(text[at:].lstrip(" \t\n")))
        number, quoted, name, sign = match.groups()
        kind = "number" if number else "text" if quoted is not None else "sign" if sign or name in WORDS else "name"
        token = Token(kind, quoted if kind == "text" else number or name or sign, match.start(match.lastindex), match.end())
        if kind == "text":
            token = Token(kind, quoted, match.start(2) - 1, match.end())
        _fits(token)
        found.append(token)
        at = match.end()
    _not_deep(found)
    return [*found, Token("end", "", len(text), len(text))]


def _fits(token: Token) -> None:
    """Raises Fault where a token passes its bounds."""
    if token.kind == "number" and int(token.text) > LARGEST:
        raise Fault(token.start, token.end, "the number is too large", f"write one up to {LARGEST}")
    if token.kind == "text" and len(token.text.encode()) > LARGEST_TEXT:
        raise Fault(token.start, token.end, "the text is too long", f"a text has at most {LARGEST_TEXT:,} bytes")


def _not_deep(found: list[Token]) -> None:
    if len(found) > MOST_TOKENS:
        token = found[MOST_TOKENS]
        raise Fault(token.start, token.end, f"the expression has more than {MOST_TOKENS:,} tokens", "part it over several variables")
    depth = 0
    for it in found:
        depth += (it.text in ("(", "[")) - (it.text in (")", "]")) if it.kind == "sign" else 0
        if depth > DEEPEST:
            raise Fault(it.start, it.end, f"more than {DEEPEST} brackets are open", "take some out")


def _no_token(text: str, at: int) -> Fault:
    character = text[at]
    advice = {
        '"': "a text stands in single quotes, `'so'`",
        "'": "close the text with `'` on its line; no `'` can be in it",
        "!": "write `not`, or `!=` for unequal",
        "&": "write `and`", "|": "write `or`", "^": "there is no power: multiply",
        ".": "a number has no point; of another table no value can be had",
        "{": "an expression has the brackets `( )` and `[ ]`", "}": "an expression has the brackets `( )` and `[ ]`",
        "\u201c": "a text stands in straight single quotes", "\u2018": "a text stands in straight single quotes",
        "\u2019": "a text stands in straight single quotes",
    }
    return Fault(at, at + 1, f"`{character}` begins nothing that an expression has", advice.get(character, "take it out"))


class _Parser:
    """Reads the tokens of one expression. Each method takes one line of the grammar."""

    def __init__(self, found: list[Token]) -> None:
        self.tokens = found
        self.at = 0

    @property
    def next(self) -> Token:
        """The next token."""
        return self.tokens[self.at]

    def sign(self, *texts: str) -> Token | None:
        """The next token, taken, where it is one of these."""
        token = self.next
        if token.kind == "sign" and token.text in texts:
            self.at += 1
            return token
        return None

    def want(self, text: str, do: str) -> None:
        """Takes the next token, which has to be this sign."""
        if not self.sign(text):
            raise self.fault(do)

    def fault(self, do: str) -> Fault:
        """The next token can't stand here."""
        token = self.next
        if token.kind == "end":
            return Fault(token.start, token.start + 1, "the expression ends too early", do)
        before = self.tokens[self.at - 1].text if self.at else ""
        if token.text == "=" and before == "=":
            do = "equality is written `=`, once"
        elif before in ("<", ">") and token.text == "=" or before == "=" and token.text in ("<", ">"):
            do = "write `<=` or `>=`, without a blank"
        return Fault(token.start, token.end, f"`{token.text}` can't stand here", do)

    def whole(self) -> Tree:
        """All tokens, as one expression."""
        tree = self.either()
        token = self.next
        if token.kind == "end":
            return tree
        if token.text in _COMPARISONS and token.kind == "sign":
            raise self.fault("comparisons don't chain: write `1 < x and x < 3`")
        if token.text in (")", "]"):
            raise self.fault("no bracket is open that it closes: take it out")
        if token.kind == "name" and token.text.lower() in ("and", "or", "not"):
            raise self.fault(f"words are written small: `{token.text.lower()}`")
        raise self.fault("an operator is missing before it, or it is one thing too many")

    def left(self, operators: tuple[str, ...], part) -> Tree:
        """Operands between such operators, grouped from the left."""
        tree = part()
        while token := self.sign(*operators):
            tree = Tree(token.text, token, (tree, part()))
        return tree

    def either(self) -> Tree:
        """Operands with `or` between them."""
        return self.left(("or",), self.both)

    def both(self) -> Tree:
        """Operands with `and` between them."""
        return self.left(("and",), self.inverse)

    def inverse(self) -> Tree:
        """`not`, any number of times, before a comparison."""
        token = self.sign("not")
        return Tree("not", token, (self.inverse(),)) if token else self.comparison()

    def comparison(self) -> Tree:
        """A sum, or two sums with a comparison between them."""
        tree = self.left(("+", "-"), self.product)
        if token := self.sign(*_COMPARISONS):
            tree = Tree(token.text, token, (tree, self.left(("+", "-"), self.product)))
        return tree

    def product(self) -> Tree:
        """Operands with `*`, `/` or `%` between them."""
        return self.left(("*", "/", "%"), self.unary)

    def unary(self) -> Tree:
        """`-`, any number of times, before an operand."""
        token = self.sign("-")
        return Tree("minus", token, (self.unary(),)) if token else self.indexed()

    def indexed(self) -> Tree:
        """An operand with any number of indexes."""
        tree = self.primary()
        while token := self.sign("["):
            tree = Tree("[", token, (tree, self.either()))
            self.want("]", "close the index with `]`")
        return tree

    def primary(self) -> Tree:
        """A constant, a name, `len`, `sum`, a list, or an expression in brackets."""
        token = self.next
        if token.kind in ("number", "text", "name"):
            self.at += 1
            return Tree({"number": "int", "text": "text", "name": "name"}[token.kind], token)
        if self.sign("true", "false"):
            return Tree("bool", token)
        if self.sign("("):
            tree = self.either()
            self.want(")", "close the bracket with `)`")
            return tree
        if self.sign("len", "sum"):
            self.want("(", f"write `{token.text}(x)`")
            tree = Tree(token.text, token, (self.either(),))
            self.want(")", "close the bracket with `)`")
            return tree
        if self.sign("["):
            return self.constants(token)
        raise self.fault("a value is wanted: a number, a text in single quotes, a name, or something in brackets")

    def constants(self, opening: Token) -> Tree:
        """A list of constants."""
        if self.next.text == "]":
            raise self.fault("`[]` is no expression: a variable without `init` is an empty list")
        elements = [self.constant()]
        while self.sign(","):
            elements.append(self.constant())
        self.want("]", "a `,` or `]` is wanted; elements are constants: numbers or texts")
        return Tree("list", opening, tuple(elements))

    def constant(self) -> Tree:
        """An element of a list."""
        minus = self.sign("-")
        token = self.next
        if token.kind == "number" or token.kind == "text" and not minus:
            self.at += 1
            return Tree("int" if token.kind == "number" else "text", token)
        raise self.fault("the elements of a list are constants: numbers, or texts in single quotes")


def _sort(tree: Tree, scope: Mapping[str, str]) -> str:
    """The sort of a form. Raises Fault at the first operator, operands first, whose operands have other sorts than it takes."""
    if tree.operator == "name":
        return scope[tree.token.text]
    if tree.operator in ("int", "text", "bool"):
        return tree.operator
    sorts = tuple(_sort(it, scope) for it in tree.operands)
    found = _result(tree.operator, sorts)
    if found:
        return found
    said = " and ".join(article(it) for it in sorts)
    raise Fault(tree.token.start, tree.token.end, f"`{tree.token.text}` stands with {said}", _TAKES.get(tree.operator, _INTS))


_INTS = "it takes ints"
_TAKES = {
    "=": "it takes two bools, two ints or two texts; lists aren't compared", "!=": "it takes two bools, two ints or two texts",
    "and": "it takes two bools", "or": "it takes two bools", "not": "it takes a bool; put a comparison after it in brackets",
    "[": "an index is an int, into ints or texts", "len": "it takes ints or texts", "sum": "it takes ints",
    "list": "a list has ints alone, or texts alone", "+": "it takes two ints; texts aren't joined",
}


def _result(operator: str, sorts: tuple[str, ...]) -> str | None:
    """The sort that an operator makes of operands of these sorts; None where it doesn't take them."""
    if operator in ("+", "-", "*", "/", "%", "minus"):
        return "int" if set(sorts) == {"int"} else None
    if operator in ("<", "<=", ">", ">="):
        return "bool" if sorts == ("int", "int") else None
    if operator in ("=", "!="):
        return "bool" if sorts[0] == sorts[1] and sorts[0] in ("bool", "int", "text") else None
    if operator in ("and", "or", "not"):
        return "bool" if set(sorts) == {"bool"} else None
    if operator == "list":
        return {("int",): "ints", ("text",): "texts"}.get(tuple(set(sorts)))
    if operator == "[":
        return {"ints": "int", "texts": "text"}.get(sorts[0]) if sorts[1] == "int" else None
    if operator == "len":
        return "int" if sorts[0] in ("ints", "texts") else None
    return "int" if sorts == ("ints",) else None


def article(sort: str) -> str:
    """A sort in words."""
    return {"int": "an int", "bool": "a bool", "text": "a text", "ints": "a list of ints", "texts": "a list of texts"}[sort]

