"""A specification as dataclasses, each with the node of the document that says it."""

from __future__ import annotations

from dataclasses import dataclass, field
from typing import Iterator

from . import shape
from .document import Finding, Node

UNBOUNDED = 1000


class NoShape(Exception):
    """A document that lacks the shape of a specification; `finding` says where, and `path` as the server does."""

    def __init__(self, path: str, finding: Finding) -> None:
        super().__init__(path)
        self.path = path
        self.finding = finding


@dataclass(frozen=True)
class Variable:
    """A variable of a net. `use` is `in`, `out`, `inout` or `local`."""

    name: str
    sort: str
    use: str
    node: Node = field(compare=False, repr=False)


@dataclass(frozen=True)
class Parameter:
    """One of a task's `ins` or `outs`. `value` is the expression of an `ins`, where it has one."""

    name: str
    sort: str
    value: str | None
    node: Node = field(compare=False, repr=False)


@dataclass(frozen=True)
class Assignment:
    """One of a task's `set`."""

    variable: str
    value: str
    node: Node = field(compare=False, repr=False)


@dataclass(frozen=True)
class Branch:
    """One of a task's `branch`; the default has no `when`."""

    to: str
    when: str | None
    node: Node = field(compare=False, repr=False)


@dataclass(frozen=True)
class Flow:
    """From a node to a node, by their names."""

    source: str
    target: str
    node: Node = field(compare=False, repr=False)


@dataclass(frozen=True)
class Task:
    """A task. `kind` is `atomic`, `empty` or `sub`; `join` and `split` are `and`, `xor` or `or`. `each` is None but for several items."""

    name: str
    kind: str
    net: str | None
    role: str | None
    join: str
    split: str
    branches: tuple[Branch, ...]
    removes: tuple[str, ...]
    ins: tuple[Parameter, ...]
    outs: tuple[Parameter, ...]
    sets: tuple[Assignment, ...]
    each: str | None
    item: str | None
    least: int
    most: int
    threshold: int
    dynamic: bool
    node: Node = field(compare=False, repr=False)


@dataclass(frozen=True)
class Net:
    """A net. `conditions` are the further ones, beside input and output."""

    name: str
    input: str
    output: str
    conditions: tuple[str, ...]
    variables: tuple[Variable, ...]
    flows: tuple[Flow, ...]
    tasks: tuple[Task, ...]
    node: Node = field(compare=False, repr=False)

    def task(self, name: str) -> Task | None:
        """The task of this name."""
        return next((it for it in self.tasks if it.name == name), None)

    def all_conditions(self) -> tuple[str, ...]:
        """Input, output and the further conditions."""
        return (self.input, self.output, *self.conditions)

    def nodes(self) -> Iterator[str]:
        """Names of all conditions and tasks, in the order of the document."""
        yield from self.all_conditions()
        yield from (it.name for it in self.tasks)

    def place(self, flow: Flow) -> str:
        """Where the tokens of a flow stand: its condition, or the implicit one `t->u` between two tasks."""
        conditions = self.all_conditions()
        if flow.source in conditions:
            return flow.source
        return flow.target if flow.target in conditions else f"{flow.source}->{flow.target}"

    def inputs(self, task: str) -> list[str]:
        """The input places of a task, in the order of the flows."""
        return [self.place(it) for it in self.flows if it.target == task]

    def outputs(self, task: str) -> list[str]:
        """The output places of a task, in the order of the flows."""
        return [self.place(it) for it in self.flows if it.source == task]

    def places(self) -> list[str]:
        """All places: the conditions, and the implicit ones in the order of the flows."""
        conditions = list(self.all_conditions())
        return conditions + [it for it in map(self.place, self.flows) if it not in conditions]


@dataclass(frozen=True)
class Spec:
    """A specification."""

    name: str
    top: str
    nets: tuple[Net, ...]
    node: Node = field(compare=False, repr=False)

    def net(self, name: str | None) -> Net | None:
        """The net of this name."""
        return next((it for it in self.nets if it.name == name), None)


def spec_of(root: Node) -> Spec:
    """The specification that a document says, unchecked. Raises NoShape where the document lacks the shape."""
    fault = shape.fault(root)
    if fault:
        raise NoShape(*fault)
    return Spec(_text(root, "name"), _text(root, "top"), tuple(_net(it) for it in root.get("net").items()), root)


def _net(node: Node) -> Net:
    flows = tuple(Flow(it.value[0].value, it.value[1].value, it) for it in _list(node, "flows"))
    variables = tuple(Variable(_text(it, "name"), _text(it, "sort"), _text(it, "use", "local"), it) for it in _list(node, "vars"))
    tasks = tuple(_task(it) for it in _list(node, "task"))
    return Net(_text(node, "name"), _text(node, "input"), _text(node, "output"), _texts(node, "conditions"), variables, flows, tasks, node)


def _task(node: Node) -> Task:
    return Task(
        name=_text(node, "name"),
        kind=_text(node, "kind", "atomic"),
        net=_text(node, "net"),
        role=_text(node, "role"),
        join=_text(node, "join", "and"),
        split=_text(node, "split", "and"),
        branches=tuple(Branch(_text(it, "to"), _text(it, "when"), it) for it in _list(node, "branch")),
        removes=_texts(node, "remove"),
        ins=tuple(Parameter(_text(it, "name"), _text(it, "sort"), _text(it, "value"), it) for it in _list(node, "ins")),
        outs=tuple(Parameter(_text(it, "name"), _text(it, "sort"), None, it) for it in _list(node, "outs")),
        sets=tuple(Assignment(_text(it, "var"), _text(it, "value"), it) for it in _list(node, "set")),
        each=_text(node, "each"),
        item=_text(node, "item"),
        least=_number(node, "min", 1),
        most=_number(node, "max", UNBOUNDED),
        threshold=_number(node, "threshold", UNBOUNDED),
        dynamic=node.get("dynamic") is not None and node.get("dynamic").value is True,
        node=node,
    )


def _list(node: Node, key: str) -> list[Node]:
    found = node.get(key)
    return found.items() if found else []


def _texts(node: Node, key: str) -> tuple[str, ...]:
    return tuple(it.value for it in _list(node, key))


def _text(node: Node, key: str, default: str | None = None) -> str | None:
    found = node.get(key)
    return found.value if found else default


def _number(node: Node, key: str, default: int) -> int:
    found = node.get(key)
    return found.value if found else default
