"""A text with the place of each of its keys and values, and how a place is shown."""

from __future__ import annotations

from dataclasses import dataclass, field
from typing import Iterator, Union

Scalar = Union[str, int, float, bool, None, "Moment"]
# How many characters of a long line are shown, and how many of these before the marked part.
WIDEST = 160
BEFORE = 60


@dataclass(frozen=True)
class Moment:
    """A date or a time, as it is written. No key of a specification takes one."""

    text: str


@dataclass(frozen=True)
class Span:
    """A part of a text: from its first character up to the one after its last, both counted from 0."""

    start: int
    end: int


@dataclass
class Node:
    """A value: a text, number, boolean or date, a list of nodes, or a table of nodes by their keys.

    `span` is where the value is written, and of a table with a header that header. `key` is where its key is written, if it has
    one. Of a text `starts` has the place of each of its characters, and after them that of the closing quote.
    """

    value: Scalar | list[Node] | dict[str, Node]
    span: Span
    key: Span | None = None
    starts: list[int] = field(default_factory=list)

    @property
    def kind(self) -> str:
        """What it is, in words: `a text`, `a list`, .."""
        names = {str: "a text", bool: "a boolean", int: "an integer", float: "a number with a point", list: "a list", dict: "a table"}
        return names.get(type(self.value), "null" if self.value is None else "a date")

    @property
    def key_or_value(self) -> Span:
        """Where its key is written, or the value where it has no key."""
        return self.key or self.span

    def get(self, key: str) -> Node | None:
        """The value under this key; None where it isn't a table, or hasn't the key."""
        return self.value.get(key) if isinstance(self.value, dict) else None

    def items(self) -> list[Node]:
        """The elements of a list; none where it isn't a list."""
        return self.value if isinstance(self.value, list) else []

    def part(self, start: int, end: int) -> Span:
        """Where these characters of a text are written. An empty part at its end is the closing quote."""
        begin = self.starts[start]
        return Span(begin, max(self.starts[min(end, len(self.starts) - 1)], begin + 1))


@dataclass(frozen=True)
class Source:
    """A text and its name, as faults give it, and the number of its first line."""

    name: str
    text: str
    first: int = 1

    def place(self, at: int) -> tuple[int, int]:
        """Line and column of a character. Columns are counted from 1."""
        before = self.text[:at]
        return before.count("\n") + self.first, at - (before.rfind("\n") + 1) + 1

    def line_at(self, at: int) -> str:
        """The line in which a character stands, without its end."""
        start = self.text.rfind("\n", 0, at) + 1
        end = self.text.find("\n", start)
        return self.text[start : len(self.text) if end < 0 else end].rstrip("\r")

    def marked(self, span: Span) -> str:
        """The line in which a part begins, and below it carets under the part. A part over several lines is marked up to the end of
        the first. Of a long line the part is shown with what stands near it, and `..` stands for the rest."""
        number, column = self.place(span.start)
        line = self.line_at(span.start)
        start = max(0, min(column - 1 - BEFORE, len(line) - WIDEST))
        shown, at = line[start : start + WIDEST], column - 1 - start
        cut, rest = ".." if start else "", ".." if start + WIDEST < len(line) else ""
        width = max(1, min(span.end - span.start, len(shown) - at))
        head = f"{number:5} | "
        gap = "".join("\t" if c == "\t" else " " for c in cut + shown[:at])
        return f"{head}{cut}{shown}{rest}\n{' ' * (len(head) - 2)}| {gap}{'^' * width}"


@dataclass(frozen=True)
class Finding:
    """What is wrong, or seldom meant, at a part of a text, and what to do. `also` has further places, each with what stands there."""

    span: Span
    what: str
    do: str
    also: tuple[tuple[Span, str], ...] = ()

    def shown(self, source: Source) -> str:
        """`FILE:LINE:COLUMN: what is wrong; what to do`, with the line printed and marked, and so the further places."""
        parts = [f"{_at(source, self.span)}: {self.what}; {self.do}", source.marked(self.span)]
        for span, what in self.also:
            parts += [f"{_at(source, span)}: {what}", source.marked(span)]
        return "\n".join(parts)


class TextFault(Exception):
    """A text that a reader refuses: `finding` says where and why."""

    def __init__(self, span: Span, what: str, do: str, also: tuple[tuple[Span, str], ...] = ()) -> None:
        super().__init__(what)
        self.finding = Finding(span, what, do, also)


def _at(source: Source, span: Span) -> str:
    line, column = source.place(span.start)
    return f"{source.name}:{line}:{column}"


def steps(path: str) -> Iterator[str | int]:
    """The keys and numbers of a path like `net[0].task[2].split`. A key may itself have dots or brackets, and is then cut."""
    for word in path.split("."):
        key, *numbers = word.split("[")
        if key:
            yield key
        yield from (int(it[:-1]) for it in numbers if it[:-1].isdigit())
