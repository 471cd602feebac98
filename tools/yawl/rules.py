"""What docs/LINES.md says of command lines: their fields, and a sentence for each rule. It is read anew, so it can't differ from there."""

from __future__ import annotations

import re
from functools import cache
from pathlib import Path

LINES = Path(__file__).resolve().parents[2] / "docs" / "LINES.md"
_FORM = re.compile(r"^\| `(\{\"cmd\":.*?\})` \|", re.MULTILINE)
_FIELD = re.compile(r'"(\w+)":("[^"]*"|\[[^\]]*\]|\{[^}]*\}|[^,}]+)')
_ROW = re.compile(r"^\| ([A-Z]\w+(?:, [A-Z]\w+)*) \| (.*?) \|$", re.MULTILINE)
_LINK = re.compile(r"\[([^\]]*)\]\(([^)]*)\)")


@cache
def forms() -> dict[str, dict[str, str]]:
    """The fields of each word that is built, each with what the table writes for its value, as `NAME` or `[NAME,..]`."""
    found = {}
    for form in _FORM.findall(LINES.read_text()):
        fields = dict(_FIELD.findall(form))
        found[fields.pop("cmd").strip('"')] = fields
    return found


@cache
def sentences() -> dict[str, str]:
    """Where a line breaks each rule of the table."""
    return {rule: _LINK.sub(r"docs/\2", said) for rules, said in _ROW.findall(LINES.read_text()) for rule in rules.split(", ")}


def sentence(rule: str) -> str | None:
    """Where a line breaks this rule; None where the table has no such rule."""
    return sentences().get(rule)
