"""Reads JSON as the server does, and keeps the place of each key and value."""

from __future__ import annotations

import re
from math import isinf

from .document import Node, Span, TextFault

DEEPEST = 127
_NUMBER = re.compile(r"-?(0|[1-9]\d*)(\.\d+)?([eE][+-]?\d+)?")
_WORD = re.compile(r"[^\s,:\[\]{}\"]+")
_ESCAPES = {"b": "\b", "t": "\t", "n": "\n", "f": "\f", "r": "\r", '"': '"', "\\": "\\", "/": "/"}
_SURROGATES = re.compile(r"\\u([dD][89abAB][0-9A-Fa-f]{2})\\u([dD][c-fC-F][0-9A-Fa-f]{2})")


def read(text: str) -> Node:
    """The value that a text says. Raises TextFault where it isn't JSON."""
    reader = _Reader(text)
    reader.space()
    node = reader.value(0)
    reader.space()
    if reader.at < len(text):
        what = "something stands after the end of the value"
        raise TextFault(Span(reader.at, len(text)), what, "a line has one command, and each command a line of its own")
    return node


class _Reader:
    """Reads one text from its start to its end. `at` is the place of the next character."""

    def __init__(self, text: str) -> None:
        self.text = text
        self.at = 0

    def peek(self) -> str:
        """The next character, or nothing at the end."""
        return self.text[self.at : self.at + 1]

    def takes(self, word: str) -> bool:
        """Whether the text goes on with this word, which is then taken."""
        found = self.text.startswith(word, self.at)
        if found:
            self.at += len(word)
        return found

    def space(self) -> None:
        """Takes what JSON counts as blank."""
        while self.peek() and self.peek() in " \t\r\n":
            self.at += 1

    def value(self, depth: int) -> Node:
        """Any value, with so many brackets open around it."""
        start = self.at
        if depth > DEEPEST:
            raise TextFault(Span(start, start + 1), f"more than {DEEPEST} brackets are open", "a command has a few")
        if self.takes("{"):
            return self.table(start, depth)
        if self.takes("["):
            return self.list(start, depth)
        if self.peek() == '"':
            return self.string()
        return self.plain()

    def plain(self) -> Node:
        """A number, `true`, `false` or `null`."""
        found = _WORD.match(self.text, self.at)
        if not found:
            do = "write a text in double quotes, a number, a list or an object"
            raise TextFault(Span(self.at, self.at + 1), "a value is missing", do)
        word, span = found.group(), Span(*found.span())
        self.at = found.end()
        if word in ("true", "false", "null"):
            return Node({"true": True, "false": False, "null": None}[word], span)
        number = _NUMBER.fullmatch(word)
        if number and isinf(float(word)):
            raise TextFault(span, "the number is too large", "write one of at most 64 bits")
        if number:
            return Node(int(word) if number.group(2) is None and number.group(3) is None else float(word), span)
        do = {"'": "a text stands in double quotes"}.get(word[0], f'write a text in double quotes, `"{word}"`')
        if word.lower() in ("true", "false", "none", "nan"):
            do = "write `true` or `false`, or a number"
        raise TextFault(span, f"`{word}` is no value of JSON", do)

    def list(self, start: int, depth: int) -> Node:
        """A list, whose opening bracket is taken."""
        elements: list[Node] = []
        self.space()
        if self.takes("]"):
            return Node(elements, Span(start, self.at))
        while True:
            self.space()
            if self.peek() == "]":
                raise TextFault(Span(self.at, self.at + 1), "an element is missing before the `]`", "take the `,` before it out")
            elements.append(self.value(depth + 1))
            end = self.at
            self.space()
            if self.takes("]"):
                return Node(elements, Span(start, self.at))
            if not self.takes(","):
                raise TextFault(Span(end, end + 1), "a `,` or the closing `]` is missing", "write it here")

    def table(self, start: int, depth: int) -> Node:
        """An object, whose opening bracket is taken."""
        fields: dict[str, Node] = {}
        self.space()
        if self.takes("}"):
            return Node(fields, Span(start, self.at))
        while True:
            self.space()
            if self.peek() != '"':
                what = "a field is missing before the `}`" if self.peek() == "}" else "no field begins here"
                do = "take the `,` before it out" if self.peek() == "}" else 'a field is `"key":value`, its key in double quotes'
                raise TextFault(Span(self.at, self.at + 1), what, do)
            key = self.string()
            self.space()
            if not self.takes(":"):
                raise TextFault(Span(self.at, self.at + 1), f"no `:` follows the key `{key.value}`", "write it here")
            self.space()
            fields[key.value] = self.value(depth + 1)
            fields[key.value].key = key.span
            end = self.at
            self.space()
            if self.takes("}"):
                return Node(fields, Span(start, self.at))
            if not self.takes(","):
                raise TextFault(Span(end, end + 1), "a `,` or the closing `}` is missing", "write it here")

    def string(self) -> Node:
        """A text in double quotes."""
        start = self.at
        made = Node("", Span(start, start))
        self.at += 1
        while not self.takes('"'):
            place = self.at
            character = self.peek()
            if not character or character in "\r\n":
                raise TextFault(Span(start, place), "the text isn't closed", 'write `"` at its end')
            if character < " ":
                raise TextFault(Span(place, place + 1), "a text has a control character", "write it as an escape, as `\\t`")
            if character == "\\":
                character = self.escape()
            else:
                self.at += 1
            made.value += character
            made.starts.append(place)
        made.starts.append(self.at - 1)
        made.span = Span(start, self.at)
        return made

    def escape(self) -> str:
        """The character that an escape stands for."""
        pair = _SURROGATES.match(self.text, self.at)
        if pair:
            self.at = pair.end()
            high, low = (int(it, 16) for it in pair.groups())
            return chr(0x10000 + ((high - 0xD800) << 10) + (low - 0xDC00))
        start, letter = self.at, self.text[self.at + 1 : self.at + 2]
        self.at += 2
        if letter in _ESCAPES:
            return _ESCAPES[letter]
        digits = self.text[self.at : self.at + 4]
        if letter == "u" and re.fullmatch(r"[0-9A-Fa-f]{4}", digits) and not 0xD800 <= int(digits, 16) < 0xE000:
            self.at += 4
            return chr(int(digits, 16))
        raise TextFault(Span(start, start + 2), f"`\\{letter}` is no escape here", "write `\\\\` for a backslash")
