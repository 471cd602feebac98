"""What is wrong with a line that is no command: where it isn't JSON, or which field it lacks, has too many or has of a wrong kind."""

from __future__ import annotations

import re

from . import json_text, rules
from .document import Finding, Node, Source, Span, TextFault
from .names import did_you_mean

LONGEST = 1_048_576
MOST_ROLES = 64
MOST_NUMBERS = 40
NUMBER_END = 1 << 48
_NAME = re.compile(r"[A-Za-z_][A-Za-z0-9_]{0,63}")
_IDENTITY = re.compile(r"[1-9]\d*(\.[1-9]\d*)*")
# The words that a server of the whole language knows; those that docs/LINES.md has no line for aren't built yet.
WORDS = ("person", "load", "rule", "launch", "enter", "start", "complete", "add", "raise", "suspend", "continue", "cancel", "advance",
         "list", "show", "ended", "specs")


def fault(source: Source) -> tuple[str, Finding] | None:
    """The rule that a line breaks by its form alone, with its place and what to do; None where it is a command."""
    size = len(source.text.encode())
    if size > LONGEST:
        return "LineTooLong", Finding(Span(0, 1), f"the line has {size:,} bytes", f"a line has at most {LONGEST:,}")
    try:
        node = json_text.read(source.text)
    except TextFault as found:
        return "NotJson", found.finding
    finding = _shape(node)
    if finding:
        return "NotCommand", finding
    if node.get("cmd").value not in rules.forms():
        word = node.get("cmd")
        return "NotBuilt", Finding(word.span, f"`{word.value}` isn't built yet", "docs/LINES.md has the words that are")
    return None


def _shape(node: Node) -> Finding | None:
    """What is wrong with a JSON value that is no command."""
    if not isinstance(node.value, dict):
        return Finding(node.span, f"the line is {node.kind}", 'a command is an object, `{"cmd":"start",..}`')
    word = node.get("cmd")
    if word is None:
        do = f"it has one of {', '.join(rules.forms())}"
        return Finding(Span(node.span.start, node.span.start + 1), "the field `cmd` is missing", do)
    if word.value not in WORDS:
        do = did_you_mean(word.value, WORDS) if isinstance(word.value, str) else "write a word in double quotes"
        return Finding(word.span, f"`{word.value}` is no word of a command", do)
    form = rules.forms().get(word.value)
    return None if form is None else _fields(node, word, form)


def _fields(node: Node, word: Node, form: dict[str, str]) -> Finding | None:
    """What is wrong with the fields of a known word."""
    for name, value in node.value.items():
        if name != "cmd" and name not in form:
            missing = [it for it in form if it not in node.value]
            do = did_you_mean(name, missing) if missing else "take it out"
            return Finding(value.key_or_value, f"`{word.value}` has no field `{name}`", do)
    for name, kind in form.items():
        if name not in node.value:
            return Finding(word.span, f"`{word.value}` lacks the field `{name}`", f'add `"{name}":{kind}`')
        found = _value(node.get(name), name, kind)
        if found:
            return found
    return None


def _value(node: Node, name: str, kind: str) -> Finding | None:
    """What is wrong with a field's value, by what docs/LINES.md writes for it."""
    if kind == "[NAME,..]":
        if not isinstance(node.value, list):
            return Finding(node.span, f"`{name}` is {node.kind}", 'write a list of names, `["clerk"]`')
        if len(node.items()) > MOST_ROLES:
            return Finding(node.span, f"`{name}` has {len(node.items())} elements", f"it has at most {MOST_ROLES}")
        twice = [it for number, it in enumerate(node.items()) if it.value in [other.value for other in node.items()[:number]]]
        found = next(filter(None, (_value(it, name, "NAME") for it in node.items())), None)
        return found or (Finding(twice[0].span, f"`{twice[0].value}` stands twice in `{name}`", "take one out") if twice else None)
    if kind.startswith("{"):
        shown = '{"amount":7}' if name == "data" else '{"ok":true}'
        wrong = not isinstance(node.value, dict)
        return Finding(node.span, f"`{name}` is {node.kind}", f"write an object, `{{}}` or `{shown}`") if wrong else None
    if kind in ("NAME", "ID", "TEXT") and not isinstance(node.value, str):
        do = f'write it in double quotes, `"{node.value}"`' if isinstance(node.value, (int, float)) else "write a text in double quotes"
        return Finding(node.span, f"`{name}` is {node.kind}", do)
    if kind == "NAME" and not _NAME.fullmatch(node.value):
        do = "a name has 1 to 64 ASCII letters, digits or `_`, the first no digit"
        return Finding(node.span, f"`{node.value}` is no name", do)
    if kind == "ID" and not _is_identity(node.value):
        do = "an identity is a case's number, and those of items with dots between, as `1.3`"
        return Finding(node.span, f"`{node.value}` is no identity", do)
    return None


def _is_identity(text: str) -> bool:
    numbers = text.split(".")
    return bool(_IDENTITY.fullmatch(text)) and len(numbers) <= MOST_NUMBERS and all(int(it) < NUMBER_END for it in numbers)
