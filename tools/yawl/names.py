"""Names as the server takes them, and the near ones of a name that isn't known."""

from __future__ import annotations

import re
from difflib import get_close_matches
from typing import Iterable

from .expression import WORDS

_NAME = re.compile(r"[A-Za-z_][A-Za-z0-9_]{0,63}")


def is_name(text: str) -> bool:
    """Whether it has 1 to 64 ASCII letters, digits or `_`, the first no digit, and is no word of expressions."""
    return _NAME.fullmatch(text) is not None and text not in WORDS


def shown(text: str) -> str:
    """How the server prints it: `?` where it is no name."""
    return text if _NAME.fullmatch(text) else "?"


def no_name(text: str) -> tuple[str, str]:
    """What is wrong with a text that is no name, and what to do."""
    if text in WORDS:
        return f"`{text}` is a word of expressions, and so no name", "choose another name"
    if len(text) > 64:
        return f"the name has {len(text)} characters", "a name has at most 64"
    if not text:
        return "the name is empty", "a name has 1 to 64 letters, digits or `_`"
    better = re.sub(r"[^A-Za-z0-9_]+", "_", text).strip("_")
    if text[0].isdigit():
        return f"`{text}` is no name: it begins with a digit", "put a letter or `_` before it"
    return f"`{text}` is no name", f"write `{better}`: a name has ASCII letters, digits and `_` alone" if better else "write letters"


def did_you_mean(name: str, known: Iterable[str]) -> str:
    """What to do about a name that isn't among these."""
    known = list(dict.fromkeys(known))
    near = get_close_matches(name, known, 1, 0.6) or [it for it in known if it.lower() == name.lower()]
    if near:
        return f"did you mean `{near[0]}`?"
    listed = ", ".join(f"`{it}`" for it in known[:12]) + (", .." if len(known) > 12 else "")
    return f"there {'is' if len(known) == 1 else 'are'} {listed}" if known else "there is none"
