"""The answer of a query as lines for a terminal."""

from __future__ import annotations

import json

# The lists of `show`, in the order in which a person reads them.
LISTS = ("nets", "tokens", "items", "due", "runs", "suspended")
# What stands for the truth in a row of `runs`.
WAITS = {True: "waiting", False: ""}


def lines_of(answer: dict | list | str) -> list[str]:
    """An answer's lines: of `show` each list that has rows, below its name; of `list` the rows as they can be typed; of `specs` the names; of
    `ended` the word. An empty list says so."""
    if isinstance(answer, dict):
        return [line for name in LISTS if answer[name] for line in (name, *(f"  {_row(it)}" for it in answer[name]))]
    if isinstance(answer, list):
        return [_work(it) if isinstance(it, dict) else it for it in answer] or ["nothing"]
    return [answer]


def _work(row: dict) -> str:
    """A row of `list`: `enter 1.3 vote`, or `start 1.3.5  # vote`."""
    if row["what"] == "enter":
        return f"enter {row['case']} {row['task']}"
    return f"{row['what']} {row['item']}  # {row['task']}"


def _row(row: list | str) -> str:
    """A row of `show`; one of `suspended` is an identity alone."""
    return row if isinstance(row, str) else " ".join(filter(None, map(_part, row)))


def _part(part: str | int | bool | dict | list) -> str:
    """A part of a row. Values are written as they are typed, `amount=200`, and primitives with commas between."""
    if isinstance(part, bool):
        return WAITS[part]
    if isinstance(part, dict):
        return " ".join(f"{name}={json.dumps(value, ensure_ascii=False, separators=(',', ':'))}" for name, value in part.items())
    return ", ".join(part) if isinstance(part, list) else str(part)
