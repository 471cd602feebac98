"""Nets as a graph in DOT, for Graphviz."""

from __future__ import annotations

import json
from typing import Iterator, Sequence

from .nets import Task
from .scene import View, branch_labels

_MARKS = {"and": "AND", "xor": "XOR", "or": "OR"}


def graph(views: Sequence[View]) -> str:
    """The nets as clusters of one graph."""
    lines = ["digraph nets {", "  rankdir=LR;", "  node [fontname=Helvetica fontsize=11];", "  edge [fontname=Helvetica fontsize=10];"]
    for number, view in enumerate(views):
        lines += [f"  subgraph cluster_{number} {{", f"    label={_q(view.title)};"]
        lines += [f"    {it}" for it in _cluster(view, f"{number}:")]
        lines.append("  }")
    return "\n".join([*lines, "}", ""])


def _cluster(view: View, prefix: str) -> Iterator[str]:
    net, labels = view.net, branch_labels(view.net)
    for name in net.all_conditions():
        tokens = view.tokens.get(name, 0)
        sign = {net.input: "\u25b7", net.output: "\u25a1"}.get(name, "")
        text = "\u25cf" * tokens if tokens <= 4 else str(tokens)
        yield f"{_q(prefix + name)} [shape=circle label={_q(text or sign)} xlabel={_q(name)}];"
    for task in net.tasks:
        yield f"{_q(prefix + task.name)} [{_task(view, task)}];"
    for flow in net.flows:
        tokens = view.tokens.get(f"{flow.source}->{flow.target}", 0)
        label = labels.get((flow.source, flow.target), "") + (f" \u25cf{tokens}" if tokens else "")
        yield f"{_q(prefix + flow.source)} -> {_q(prefix + flow.target)}{f' [label={_q(label)}]' if label else ''};"
    for task in net.tasks:
        for name in task.removes:
            target = name.partition("->")[2] or name
            look = f"style=dashed color=red constraint=false label={_q('removes ' + name)}"
            yield f"{_q(prefix + task.name)} -> {_q(prefix + target)} [{look}];"


def _task(view: View, task: Task) -> str:
    entering = sum(it.target == task.name for it in view.net.flows)
    leaving = sum(it.source == task.name for it in view.net.flows)
    lines = [task.name]
    if entering > 1:
        lines.append(f"{_MARKS[task.join]}-join")
    if leaving > 1:
        lines.append(f"{_MARKS[task.split]}-split")
    lines += [it for it in (task.role, f"net {task.net}" if task.net else None, "several items" if task.each is not None else None) if it]
    lines += [it.text for it in view.work.get(task.name, [])]
    borders = 1 + (task.kind == "sub") + (task.each is not None)
    filled = ' style=filled fillcolor="#fff1c2"' if view.work.get(task.name) else ""
    return f"shape=box peripheries={borders} label={_q(chr(10).join(lines))}{filled}"


def _q(text: str) -> str:
    """A text in quotes, as DOT takes it."""
    return json.dumps(text, ensure_ascii=False)
