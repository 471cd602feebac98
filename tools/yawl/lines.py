"""Short commands: the words of a line as they are typed, with what is known already left out."""

import json
import shlex
from pathlib import Path
from typing import NoReturn

from yawl.known import Known
from yawl.rules import forms

# What a field may be typed as, beside the forms that docs/LINES.md has: a file's name for its text.
SHOWN = {"TEXT": "FILE", "[NAME,..]": "NAME ..", "{NAME:VALUE,..}": "NAME=VALUE .."}
# Words whose identity has to be typed: `cancel` ends a case for good, `ended` asks for one that isn't known any more, and no case or item is more likely to
# be suspended than another.
TYPED = ("cancel", "ended", "suspend", "continue")
# Words that take the number of a case and no net within it.
OF_CASE = ("advance", "show")


class Unclear(Exception):
    """What was typed isn't enough for a line; the text says what lacks."""


def value_of(word: str) -> object:
    """A value as it is typed: JSON where the word is such, else the word itself as a text."""
    try:
        return json.loads(word)
    except ValueError:
        return word


def usage(word: str) -> str:
    """How a word is typed: `start [ITEM]`. The person isn't typed."""
    shown = [word]
    for name, kind in forms()[word].items():
        if name != "who":
            shown.append(f"[{name.upper()}]" if kind == "ID" and word not in TYPED else SHOWN.get(kind, name.upper()))
    return " ".join(shown)


class Typed:
    """The words after the first, and what stands for those that are left out."""

    def __init__(self, word: str, rest: list[str], known: Known, person: str) -> None:
        self.word = word
        self.rest = rest
        self.known = known
        self.person = person

    def line(self) -> dict:
        """The command that was typed. Raises `Unclear`."""
        line = {"cmd": self.word}
        for name, kind in forms()[self.word].items():
            line[name] = self.field(name, kind)
        if self.rest:
            raise Unclear(f"`{self.rest[0]}` is too much: {usage(self.word)}")
        return line

    def field(self, name: str, kind: str) -> object:
        """The value of one field."""
        if name == "who":
            return self.person or self.lacks("a person: type `as NAME` first")
        if kind == "ID":
            return self.identity(name)
        if kind == "[NAME,..]":
            return self.all()
        if kind.startswith("{"):
            return dict(self.pair(word) for word in self.all())
        typed = self.next(name)
        return self.text(typed) if kind == "TEXT" else value_of(typed) if kind == "VALUE" else typed

    def identity(self, name: str) -> str:
        """An identity: the one that was typed, else the last of its kind, but for the words of `TYPED`."""
        if self.rest and self.rest[0][0].isdigit() and self.rest[0].replace(".", "").isdigit():
            return self.rest.pop(0)
        if self.word in TYPED:
            return self.lacks("a case" if name == "case" else "a case or an item")
        if name == "case":
            net = self.known.nets[-1] if self.known.nets else self.lacks("a case: none is known")
            return net.partition(".")[0] if self.word in OF_CASE else net
        items = list(self.known.working)[::-1] if self.word == "complete" else list(self.known.ready)
        return items[0] if items else self.lacks("an item: none is known")

    def next(self, name: str) -> str:
        """The next word."""
        return self.rest.pop(0) if self.rest else self.lacks(name)

    def all(self) -> list[str]:
        """All words that are left."""
        words, self.rest = self.rest, []
        return words

    def pair(self, word: str) -> tuple[str, object]:
        """A name and its value."""
        name, equals, value = word.partition("=")
        return (name, value_of(value)) if equals else self.lacks(f"`=` in `{word}`")

    def text(self, path: str) -> str:
        """What a file says."""
        try:
            return Path(path).expanduser().read_text()
        except (OSError, UnicodeDecodeError) as cause:
            raise Unclear(f"{path}: {cause}") from None

    def lacks(self, what: str) -> NoReturn:
        """Refuses what was typed."""
        raise Unclear(f"`{self.word}` lacks {what}: {usage(self.word)}")


def split(typed: str) -> list[str]:
    """The words of what was typed, as a shell parts them."""
    try:
        return shlex.split(typed, comments=True)
    except ValueError as cause:
        raise Unclear(str(cause)) from None


def choices(words: list[str], known: Known) -> list[str]:
    """What the next word may be, after these words."""
    if not words:
        return [*forms(), "as", "items", "help", "quit"]
    tasks = [task.name for spec in known.specs.values() for net in spec.nets for task in net.tasks]
    cases = list(map(str, known.cases))
    among = {"as": known.persons, "person": known.persons, "launch": known.specs, "enter": [*known.nets, *tasks],
             "add": [*known.nets, *tasks], "start": known.ready, "complete": known.working, "help": forms(),
             "cancel": cases, "advance": cases, "show": cases}
    return sorted(set(among.get(words[0], ())))
