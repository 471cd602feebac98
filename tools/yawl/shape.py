"""Which keys the tables of a specification have, and where a document lacks that shape."""

from __future__ import annotations

from dataclasses import dataclass
from difflib import get_close_matches
from typing import Iterator

from .document import Finding, Node

SORTS = ("bool", "int", "text", "ints", "texts")
LARGEST_TEXT = 4096
LONGEST_LIST = 1000
# What newcomers write for a word of ours.
_MEANT = {
    "string": "text", "str": "text", "integer": "int", "number": "int", "boolean": "bool", "list": "texts", "strings": "texts",
    "integers": "ints", "composite": "sub", "subnet": "sub", "manual": "atomic", "automatic": "empty", "route": "empty",
    "input": "in", "output": "out", "io": "inout",
}


@dataclass(frozen=True)
class Key:
    """A key of a table: the kind of its value, and whether it may be missing.

    The kinds are `text`, `integer`, `boolean`, `texts`, `pairs` (lists of two texts), `value` (of the sort beside it), and the name
    of a table, for a list of such tables. `words` are those that a text may be.
    """

    name: str
    kind: str
    optional: bool = False
    words: tuple[str, ...] = ()


_NAME = Key("name", "text")
_SORT = Key("sort", "text", words=SORTS)
_FORKS = ("and", "xor", "or")
TABLES: dict[str, tuple[Key, ...]] = {
    "document": (_NAME, Key("top", "text"), Key("net", "net")),
    "net": (
        _NAME, Key("input", "text"), Key("output", "text"), Key("conditions", "texts", True), Key("vars", "var", True),
        Key("flows", "pairs"), Key("task", "task", True),
    ),
    "var": (_NAME, _SORT, Key("use", "text", True, ("in", "out", "inout", "local")), Key("init", "value", True)),
    "task": (
        _NAME, Key("kind", "text", True, ("atomic", "empty", "sub")), Key("net", "text", True), Key("role", "text", True),
        Key("join", "text", True, _FORKS), Key("split", "text", True, _FORKS), Key("branch", "branch", True),
        Key("remove", "texts", True), Key("ins", "ins", True), Key("outs", "outs", True), Key("set", "set", True),
        Key("each", "text", True), Key("item", "text", True), Key("min", "integer", True), Key("max", "integer", True),
        Key("threshold", "integer", True), Key("dynamic", "boolean", True),
    ),
    "branch": (Key("to", "text"), Key("when", "text", True)),
    "ins": (_NAME, _SORT, Key("value", "text", True)),
    "outs": (_NAME, _SORT),
    "set": (Key("var", "text"), Key("value", "text")),
}
_KINDS = {
    "text": "a text in quotes", "integer": "an integer", "boolean": "`true` or `false`", "texts": "a list of texts",
    "pairs": 'a list of pairs of texts, `[["i", "a"], ["a", "o"]]`', "value": "a value of the variable's sort",
}
_PLAIN = {"text": str, "integer": int, "boolean": bool}


def fault(root: Node) -> tuple[str, Finding] | None:
    """The path of the first fault of a document, with its place and what to do; None where it has the shape."""
    return next(_table(root, "document", "", root), None)


def _table(node: Node, table: str, path: str, root: Node) -> Iterator[tuple[str, Finding]]:
    """The faults of one table, in the order in which they are looked for."""
    keys = TABLES[table]
    for key in keys:
        value = node.get(key.name)
        at = f"{path}.{key.name}" if path else key.name
        if value is not None:
            yield from _value(value, key, at, node, root)
        elif not key.optional:
            yield at, _missing(node, key, table, root)
    known = {it.name for it in keys}
    for name in sorted(set(node.value) - known, key=lambda it: it.encode()):
        yield f"{path}.{name}" if path else name, _unknown(node.value[name], name, table)


def _value(value: Node, key: Key, path: str, table: Node, root: Node) -> Iterator[tuple[str, Finding]]:
    """The faults of a key's value."""
    if key.kind in TABLES:
        if not isinstance(value.value, list):
            yield path, _wants_tables(value, key)
        for number, element in enumerate(value.items()):
            at = f"{path}[{number}]"
            if isinstance(element.value, dict):
                yield from _table(element, key.kind, at, root)
            else:
                yield at, Finding(element.span, f"{element.kind} stands where a table should", _example(key))
        return
    found = _init(value, table) if key.kind == "value" else _plain(value, key)
    if found:
        yield path, found


def _plain(value: Node, key: Key) -> Finding | None:
    """What is wrong with a value that isn't a list of tables."""
    if key.kind in _PLAIN:
        if type(value.value) is not _PLAIN[key.kind]:
            return Finding(value.span, f"`{key.name}` has {value.kind}", f"give it {_KINDS[key.kind]}")
        if key.words and value.value not in key.words:
            return Finding(value.span, f"`{key.name}` can't be `{value.value}`", _choose(value.value, key.words))
        return None
    if not isinstance(value.value, list):
        return Finding(value.span, f"`{key.name}` has {value.kind}", f"give it {_KINDS[key.kind]}")
    for element in value.items():
        if key.kind == "texts" and not isinstance(element.value, str):
            return Finding(element.span, f"{element.kind} stands among the texts of `{key.name}`", "write a text in quotes")
        if key.kind == "pairs" and not _is_pair(element):
            what = f"{element.kind} of {len(element.items())}" if isinstance(element.value, list) else element.kind
            return Finding(element.span, f"{what} stands where a flow should", 'a flow is a list of two names, `["a", "b"]`')
    return None


def _is_pair(node: Node) -> bool:
    return len(node.items()) == 2 and all(isinstance(it.value, str) for it in node.items())


def _init(value: Node, table: Node) -> Finding | None:
    """What is wrong with a variable's first value."""
    sort = table.get("sort").value
    wanted = {"bool": bool, "int": int, "text": str, "ints": int, "texts": str}[sort]
    many = sort in ("ints", "texts")
    if many != isinstance(value.value, list):
        return Finding(value.span, f"`init` has {value.kind}, and the sort is `{sort}`", _first_value(sort))
    if len(value.items()) > LONGEST_LIST:
        return Finding(value.span, f"`init` has {len(value.items())} elements", f"a list has at most {LONGEST_LIST:,}")
    for element in value.items() if many else [value]:
        if type(element.value) is not wanted:
            return Finding(element.span, f"`init` has {element.kind}, and the sort is `{sort}`", _first_value(sort))
        if wanted is str and len(element.value.encode()) > LARGEST_TEXT:
            return Finding(element.span, f"the text has {len(element.value.encode()):,} bytes", f"a text has at most {LARGEST_TEXT:,}")
    return None


def _first_value(sort: str) -> str:
    example = {"bool": "true", "int": "7", "text": '"some text"', "ints": "[1, 2]", "texts": '["one", "two"]'}[sort]
    return f"write one like `{example}`, or mend the sort"


def _choose(word: str, words: tuple[str, ...]) -> str:
    near = _MEANT.get(word.lower())
    near = near if near in words else next(iter(get_close_matches(word.lower(), words, 1)), None)
    listed = ", ".join(f"`{it}`" for it in words)
    return f"write `{near}`, or another of {listed}" if near else f"write one of {listed}"


def _wants_tables(value: Node, key: Key) -> Finding:
    if isinstance(value.value, dict):
        return Finding(value.span, f"`{key.name}` is a table alone, and should be a list of tables", _example(key))
    return Finding(value.span, f"`{key.name}` has {value.kind}, and should be a list of tables", _example(key))


def _example(key: Key) -> str:
    if key.kind in ("net", "task"):
        return f"write `[[{'net' if key.kind == 'net' else 'net.task'}]]`, with two brackets, above the keys of each"
    examples = {
        "var": '{ name = "amount", sort = "int" }', "branch": '{ to = "pay", when = "yes = 2" }',
        "ins": '{ name = "amount", sort = "int", value = "amount" }', "outs": '{ name = "ok", sort = "bool" }',
        "set": '{ var = "yes", value = "yes + 1" }',
    }
    return f"write tables in braces, `{key.name} = [{examples[key.kind]}]`"


def _missing(node: Node, key: Key, table: str, root: Node) -> Finding:
    """A key that has to be there: marked where it is misspelt, where it stands by mistake in a table below, or else at its table."""
    title = "the document" if table == "document" else f"this `{table}`"
    unknown = [it for it in node.value if it not in {known.name for known in TABLES[table]}]
    near = [it for it in unknown if it.lower() == key.name] or get_close_matches(key.name, unknown, 1, 0.7)
    if near:
        what = f"`{key.name}` is missing in {title}, which has no key `{near[0]}`"
        return Finding(node.get(near[0]).key_or_value, what, f"did you mean `{key.name}`?")
    stray = next(_strays(node, key.name, table), None)
    if stray is not None:
        what = f"`{key.name}` is missing in {title}: it stands below a header of another table, and so belongs to that table"
        where = "above the first header" if table == "document" else "right below the header `[[net]]`, above the next header"
        return Finding(stray.key_or_value, what, f"move the line {where}")
    kind = _KINDS.get(key.kind, "a list of tables")
    also = ", ".join(f"`{it}`" for it in key.words)
    do = f"write `{key.name} = ..` with {kind}" + (f": one of {also}" if also else "")
    if key.kind in ("net", "task"):
        do = _example(key)
    return Finding(node.span, f"the key `{key.name}` is missing in {title}", do)


def _strays(node: Node, name: str, table: str) -> Iterator[Node]:
    """Values under this key in tables below that know no such key."""
    for key in TABLES[table]:
        if key.kind in TABLES:
            value = node.get(key.name)
            for element in value.items() if value else []:
                if name not in {it.name for it in TABLES[key.kind]} and element.get(name) is not None:
                    yield element.get(name)
                yield from _strays(element, name, key.kind)


def _unknown(value: Node, name: str, table: str) -> Finding:
    known = [it.name for it in TABLES[table]]
    near = get_close_matches(name.lower(), known, 1, 0.7)
    owners = [other for other, keys in TABLES.items() if name in {it.name for it in keys}]
    title = "the document" if table == "document" else f"a `{table}`"
    if near:
        do = f"did you mean `{near[0]}`?"
    elif owners:
        do = f"it is one of {' and of '.join('the document' if it == 'document' else f'a `{it}`' for it in owners)}: move it there"
    else:
        do = f"take it out; the keys are {', '.join(f'`{it}`' for it in known)}"
    return Finding(value.key_or_value, f"{title} has no key `{name}`", do)
