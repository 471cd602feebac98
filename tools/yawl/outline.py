"""Nets as text, for a terminal: each node in the order of the flows, with what leaves it."""

from __future__ import annotations

from typing import Iterator, Sequence

from .layout import Size, lay_out
from .nets import Net, Task
from .scene import View, branch_labels

_UNIT = Size(1, 1, 1, 1, 0)


def text(views: Sequence[View]) -> str:
    """The nets below one another."""
    return "\n".join("\n".join([view.title, *(f"  {it}" for it in _lines(view)), ""]) for view in views)


def _lines(view: View) -> Iterator[str]:
    net, labels = view.net, branch_labels(view.net)
    order = lay_out(dict.fromkeys(net.nodes(), _UNIT), [(it.source, it.target) for it in net.flows], {}).order
    for name in order:
        task = net.task(name)
        yield _task(net, task) if task else _condition(net, name) + _tokens(view, name)
        if task:
            yield from (f"    * {it.text}" for it in view.work.get(name, []))
        for flow in net.flows:
            if flow.source == name:
                when = labels.get((flow.source, flow.target))
                beside = "" if when is None else f"  ({when})" if when == "else" else f"  (when {when})"
                yield f"    -> {flow.target}{beside}{_tokens(view, net.place(flow)) if '->' in net.place(flow) else ''}"
        if task and task.removes:
            yield f"    removes {', '.join(task.removes)}"


def _condition(net: Net, name: str) -> str:
    kind = "input " if name == net.input else "output " if name == net.output else ""
    return f"{kind}({name})"


def _task(net: Net, task: Task) -> str:
    about = [task.role or "", f"net {task.net}" if task.net else "", "empty" if task.kind == "empty" else ""]
    about += ["several items" if task.each is not None else ""]
    about += [f"{task.join}-join" if sum(it.target == task.name for it in net.flows) > 1 else ""]
    about += [f"{task.split}-split" if sum(it.source == task.name for it in net.flows) > 1 else ""]
    said = ", ".join(it for it in about if it)
    return f"[{task.name}]{f'  {said}' if said else ''}"


def _tokens(view: View, place: str) -> str:
    count = view.tokens.get(place, 0)
    return f"  {'o' * count if count <= 4 else count}" if count else ""
