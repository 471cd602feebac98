"""Reads TOML 1.1 as the server does, and keeps the place of each key and value.

Python's own `tomllib` reads TOML 1.0 and keeps no places. What is read here is tables, lists, texts, numbers, booleans and dates; the
values of dates and of numbers with a point are kept as they are written, since no key of a specification takes them.
"""

from __future__ import annotations

import re

from .document import Moment, Node, Span, TextFault

_BARE = re.compile(r"[A-Za-z0-9_-]+")
_PLAIN = re.compile(r"\d{4}-\d\d-\d\d [0-9:.Z+-]+|[^\s,\]}#=\[{\"']+")
# A line that is a header, or a key with its `=`: it is no element of a list, so a list that goes on before it lacks its end.
_NO_ELEMENT = re.compile(r"(?<=\n)\[\[?[A-Za-z_][\w.-]*\]\]?[ \t]*(#.*)?\r?(\n|\Z)|[A-Za-z_][\w.-]*[ \t]*=")
_INTEGER = re.compile(r"[+-]?(0|[1-9](_?\d)*)|0x[0-9A-Fa-f](_?[0-9A-Fa-f])*|0o[0-7](_?[0-7])*|0b[01](_?[01])*")
_FLOAT = re.compile(r"[+-]?((0|[1-9](_?\d)*)(\.\d(_?\d)*([eE][+-]?\d(_?\d)*)?|[eE][+-]?\d(_?\d)*)|inf|nan)")
_MOMENT = re.compile(r"\d{4}-\d\d-\d\d([Tt ]\d\d:\d\d(:\d\d(\.\d+)?)?([Zz]|[+-]\d\d:\d\d)?)?|\d\d:\d\d(:\d\d(\.\d+)?)?")
_ESCAPES = {"b": "\b", "t": "\t", "n": "\n", "f": "\f", "r": "\r", "e": "\x1b", '"': '"', "\\": "\\"}
_HEX = {"x": 2, "u": 4, "U": 8}
_BASES = {"0x": 16, "0o": 8, "0b": 2}


def read(text: str) -> Node:
    """The table that a text says. Raises TextFault where it isn't TOML 1.1."""
    return _Reader(text).document()


class _Reader:
    """Reads one text from its start to its end. `at` is the place of the next character."""

    def __init__(self, text: str) -> None:
        self.text = text
        self.at = 0
        self.root = Node({}, Span(0, 0))
        # Which tables may not be written to again: by a header, by dots in a key, or at all.
        self.headed: set[int] = set()
        self.dotted: set[int] = set()
        self.closed: set[int] = set()

    # Characters

    def peek(self) -> str:
        """The next character, or nothing at the end."""
        return self.text[self.at : self.at + 1]

    def takes(self, word: str) -> bool:
        """Whether the text goes on with this word, which is then taken."""
        found = self.text.startswith(word, self.at)
        if found:
            self.at += len(word)
        return found

    def blank(self) -> None:
        """Takes spaces and tabs."""
        while self.peek() in (" ", "\t"):
            self.at += 1

    def newline(self) -> bool:
        """Whether a line ends here, whose end is then taken."""
        return self.takes("\n") or self.takes("\r\n")

    def comment(self) -> None:
        """Takes a comment up to the end of its line."""
        if self.peek() == "#":
            while self.peek() and not self.text.startswith(("\n", "\r\n"), self.at):
                if _is_control(self.peek()):
                    raise TextFault(self.here(), "a comment has a control character", "take it out")
                self.at += 1

    def space(self) -> None:
        """Takes spaces, newlines and comments."""
        start = -1
        while start != self.at:
            start = self.at
            self.blank()
            self.comment()
            self.newline()

    def here(self, length: int = 1) -> Span:
        """The next characters, so many."""
        return Span(self.at, self.at + length)

    # Lines

    def document(self) -> Node:
        """All lines: headers, and keys with their values."""
        self.takes("\ufeff")
        table = self.root
        self.space()
        while self.peek():
            if self.peek() == "[":
                table = self.header()
            else:
                self.pair(table)
            self.end_of_line()
            self.space()
        return self.root

    def end_of_line(self) -> None:
        """Takes the rest of a line, in which a comment alone may stand."""
        self.blank()
        self.comment()
        if self.peek() and not self.newline():
            end = self.text.find("\n", self.at)
            what = "something stands after the end of the value"
            do = "take it out, begin a new line before it, or put a text that it belongs to in quotes as a whole"
            raise TextFault(Span(self.at, len(self.text) if end < 0 else end), what, do)

    def header(self) -> Node:
        """`[a.b]` or `[[a.b]]`: the table that the next lines fill."""
        start = self.at
        many = self.takes("[[")
        if not many:
            self.takes("[")
        keys = self.key()
        if not self.takes("]]" if many else "]"):
            close = "]]" if many else "]"
            raise TextFault(self.here(), f"the header isn't closed by `{close}`", f"write `{close}` here")
        span = Span(start, self.at)
        table = self.root
        for name, at in keys[:-1]:
            table = self.below(table, name, at, span)
        return self.new_element(table, keys[-1], span) if many else self.new_table(table, keys[-1], span)

    def below(self, table: Node, name: str, at: Span, span: Span) -> Node:
        """The table under a key of a header that isn't its last: of a list of tables, the last of them."""
        found = table.get(name)
        if found is None:
            found = table.value[name] = Node({}, span, at)
        if isinstance(found.value, list) and id(found) not in self.closed and found.value:
            found = found.value[-1]
        if not isinstance(found.value, dict) or id(found) in self.closed:
            raise TextFault(at, f"`{name}` is no table that a header can add to", "give this table another key", _first(found))
        return found

    def new_table(self, table: Node, key: tuple[str, Span], span: Span) -> Node:
        """The table of a header in single brackets, which stands once."""
        name, at = key
        found = table.get(name)
        if found is None:
            found = table.value[name] = Node({}, span, at)
        elif not isinstance(found.value, dict) or not {id(found)}.isdisjoint(self.headed | self.dotted | self.closed):
            do = f"write `[[{name}]]` for each table of a list, or take one of the two out"
            raise TextFault(span, f"`{name}` stands already", do, _first(found))
        self.headed.add(id(found))
        found.span = span
        return found

    def new_element(self, table: Node, key: tuple[str, Span], span: Span) -> Node:
        """One more table of the list of a header in double brackets."""
        name, at = key
        found = table.get(name)
        if found is None:
            found = table.value[name] = Node([], span, at)
        elif id(found) in self.headed:
            what, also = f"`{name}` is one table here, and a list of tables below", ((span, "here it is a list of tables"),)
            raise TextFault(found.span, what, f"write `[{self.text[found.span.start:found.span.end]}]`, with two brackets", also)
        elif not isinstance(found.value, list) or id(found) in self.closed:
            do = "write it as a list of tables in each place, or as a list in brackets once"
            raise TextFault(span, f"`{name}` stands already, and not as a list of tables under headers", do, _first(found))
        made = Node({}, span)
        found.value.append(made)
        return made

    def pair(self, table: Node) -> None:
        """`a.b = value`, into a table."""
        keys = self.key()
        if not self.takes("="):
            raise TextFault(self.here(), "the key isn't followed by `=`", "write `key = value`")
        self.blank()
        value = self.value()
        for name, at in keys[:-1]:
            found = table.get(name)
            if found is None:
                found = table.value[name] = Node({}, at, at)
                self.dotted.add(id(found))
            elif not isinstance(found.value, dict) or id(found) in self.closed | self.headed:
                raise TextFault(at, f"`{name}` is no table that a key can add to", "give it another key", _first(found))
            table = found
        name, value.key = keys[-1]
        old = table.get(name)
        if old is not None:
            do = "take one of the two out, or begin a new table above it, with its header"
            raise TextFault(value.key, f"the key `{name}` stands twice in one table", do, _first(old))
        table.value[name] = value

    def key(self) -> list[tuple[str, Span]]:
        """The names of a key with dots, each with its place. Blanks around it are taken."""
        names = []
        while True:
            self.blank()
            start = self.at
            bare = _BARE.match(self.text, start)
            if bare:
                self.at = bare.end()
                name = bare.group()
            elif self.peek() in ('"', "'") and self.peek():
                name = self.line_text().value
            else:
                raise TextFault(self.here(), "no key begins here", "a key has letters, digits, `_` and `-`, and is followed by `=`")
            names.append((name, Span(start, self.at)))
            self.blank()
            if not self.takes("."):
                return names

    # Values

    def value(self) -> Node:
        """Any value."""
        character = self.peek()
        if character == "[":
            return self.bracketed()
        if character == "{":
            return self.braced()
        if character and character in "\"'":
            return self.long_text() if self.text.startswith(character * 3, self.at) else self.line_text()
        return self.plain()

    def plain(self) -> Node:
        """A number, a boolean or a date."""
        found = _PLAIN.match(self.text, self.at)
        if not found:
            raise TextFault(self.here(), "a value is missing", "write a text in quotes, a number, `true`, `false` or a list")
        word, span = found.group(), Span(*found.span())
        self.at = found.end()
        if word in ("true", "false"):
            return Node(word == "true", span)
        if _INTEGER.fullmatch(word):
            number = int(word, _BASES.get(word[:2], 10))
            if not -(2**63) <= number < 2**63:
                raise TextFault(span, "the integer has more than 64 bits", "write one from -9223372036854775808 to 9223372036854775807")
            return Node(number, span)
        if _FLOAT.fullmatch(word):
            return Node(float(word), span)
        if _MOMENT.fullmatch(word):
            return Node(Moment(word), span)
        raise TextFault(span, f"`{word}` is no value", _advice(word))

    def bracketed(self) -> Node:
        """A list."""
        start = self.at
        self.takes("[")
        elements: list[Node] = []
        self.space()
        while not self.takes("]"):
            if not self.peek() or self.peek() in "=}" or _NO_ELEMENT.match(self.text, self.at):
                raise self.unclosed(start, "]", elements)
            elements.append(self.value())
            end = self.at
            self.space()
            if not self.takes(",") and self.peek() != "]":
                raise self.unclosed(start, "]", elements, end)
            self.space()
        made = Node(elements, Span(start, self.at))
        self.closed.add(id(made))
        return made

    def braced(self) -> Node:
        """A table in braces."""
        start = self.at
        self.takes("{")
        made = Node({}, Span(start, start + 1))
        self.space()
        while not self.takes("}"):
            if not self.peek() or self.peek() in "[]":
                raise self.unclosed(start, "}", list(made.value.values()))
            self.pair(made)
            end = self.at
            self.space()
            if not self.takes(",") and self.peek() != "}":
                raise self.unclosed(start, "}", list(made.value.values()), end)
            self.space()
        made.span = Span(start, self.at)
        self.close(made)
        return made

    def close(self, table: Node) -> None:
        """Nothing is added any more to a table in braces, nor to those that dots made in it."""
        self.closed.add(id(table))
        for it in table.value.values():
            if isinstance(it.value, dict) and id(it) in self.dotted:
                self.close(it)

    def unclosed(self, start: int, close: str, elements: list[Node], end: int | None = None) -> TextFault:
        """The fault of a list or a table in braces that goes on as none does: after its last element, where there is one."""
        at = end if end is not None else elements[-1].span.end if elements else start
        what = f"a `,` or the closing `{close}` is missing" if elements else f"the closing `{close}` is missing"
        also = () if "\n" not in self.text[start:at] else ((Span(start, start + 1), "it is opened here"),)
        return TextFault(Span(at, at + 1), what, "write it here", also)

    # Texts

    def line_text(self) -> Node:
        """A text in single or double quotes, on one line."""
        start, quote = self.at, self.peek()
        self.at += 1
        made = Node("", Span(start, start))
        while not self.takes(quote):
            if not self.peek() or self.peek() in "\r\n":
                raise TextFault(Span(start, self.at), "the text isn't closed at the end of its line", f"write `{quote}` at its end")
            self.character(made, quote)
        self.finish(made, start, self.at - 1)
        return made

    def long_text(self) -> Node:
        """A text in three quotes, over several lines."""
        start, quote = self.at, self.peek()
        self.at += 3
        self.newline()
        made = Node("", Span(start, start))
        while not self.takes(quote * 3):
            if not self.peek():
                raise TextFault(Span(start, start + 3), "the text isn't closed", f"write `{quote * 3}` at its end")
            if quote == '"' and re.compile(r"\\[ \t]*\r?\n").match(self.text, self.at):
                self.at += 1
                while self.peek() and self.peek() in " \t\r\n":
                    self.at += 1
            else:
                self.character(made, quote)
        close = self.at - 3
        for _ in range(2):
            if self.peek() == quote:
                self.add(made, quote, self.at)
                self.at += 1
        self.finish(made, start, close)
        return made

    def character(self, text: Node, quote: str) -> None:
        """Takes one character of a text, or one escape."""
        start = self.at
        character = self.peek()
        if character == "\\" and quote == '"':
            self.add(text, self.escape(), start)
        elif _is_control(character) and character not in "\r\n":
            raise TextFault(self.here(), "a text has a control character", "take it out, or write it as an escape")
        else:
            self.at += 1
            self.add(text, character, start)

    def escape(self) -> str:
        """The character that an escape stands for."""
        start = self.at
        letter = self.text[start + 1 : start + 2]
        digits = self.text[start + 2 : start + 2 + _HEX.get(letter, 0)]
        self.at += 2 + len(digits)
        if letter in _ESCAPES:
            return _ESCAPES[letter]
        if letter in _HEX and re.fullmatch(r"[0-9A-Fa-f]+", digits) and len(digits) == _HEX[letter]:
            code = int(digits, 16)
            if code < 0xD800 or 0xE000 <= code <= 0x10FFFF:
                return chr(code)
        what = f"`\\{letter}` is no escape"
        raise TextFault(Span(start, start + 2), what, "write `\\\\` for a backslash, or put the text in single quotes")

    @staticmethod
    def add(text: Node, character: str, at: int) -> None:
        """One more character of a text, with its place."""
        text.value += character
        text.starts.append(at)

    def finish(self, text: Node, start: int, close: int) -> None:
        """Gives a text its span, and the place of its closing quote."""
        text.span = Span(start, self.at)
        text.starts.append(close)


def _is_control(character: str) -> bool:
    return character != "\t" and (character < " " or character == "\x7f")


def _first(node: Node) -> tuple[tuple[Span, str], ...]:
    return ((node.key_or_value, "it stands here first"),)


def _advice(word: str) -> str:
    if word in ("True", "False", "TRUE", "FALSE"):
        return f"write `{word.lower()}`"
    if re.fullmatch(r"[+-]?0\d+", word):
        return "a number begins with no 0"
    if word[0] in "\u201c\u201d\u201e\u2018\u2019\u00ab":
        return "write straight quotes, `\"`"
    return f'write a text in quotes, `"{word}"`'
