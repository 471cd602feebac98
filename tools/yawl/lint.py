"""What the server accepts and an author seldom means. Nothing here is complete: where it finds nothing, something may still be wrong."""

from __future__ import annotations

import json
from typing import Iterable, Iterator

from . import command
from .check_nets import node_of
from .document import Finding, Source, Span
from .expression import names_of
from .nets import Net, Spec, Task
from .play import MOST_TOKENS, Play

Warnings = Iterator[Finding]


class Lint:
    """The warnings of an accepted specification, net by net, and the nets of which only some markings were looked at. `roles` are those
    that persons have, where that is known."""

    def __init__(self, spec: Spec, roles: set[str] | None = None) -> None:
        self.warnings: list[Finding] = []
        self.in_part: list[str] = []
        for net in spec.nets:
            play = Play(net)
            self.in_part += [] if play.whole else [net.name]
            self.warnings += _played(play)
            for task in net.tasks:
                self.warnings += (*_unkept(task), *_always_empty(net, task), *_nobody(task, roles))


def roles_of(lines: Iterable[str]) -> set[str]:
    """The roles in lines of `person` commands. The last line of a person counts, and what is no command doesn't. Raises ValueError at a line
    that isn't JSON."""
    persons = {}
    for line in lines:
        said = json.loads(line)
        if command.fault(Source("", line)) is None and said["cmd"] == "person":
            persons[said["name"]] = said["roles"]
    return {role for roles in persons.values() for role in roles}


# What playing tokens shows


def _played(play: Play) -> Warnings:
    yield from _stuck(play)
    yield from _twice(play)
    yield from _left_over(play)
    yield from _pile(play)
    yield from _never(play)


def _stuck(play: Play) -> Warnings:
    """Tasks that wait for all of their inputs while nothing is to come any more."""
    net = play.net
    for task in net.tasks:
        for marking in play.stuck:
            marked = play.has(marking, task.name)
            if marked:
                missing = [it for it in net.inputs(task.name) if it not in marked]
                what = f"task `{task.name}` waits for ever: a token stands in {_listed(marked)}, and none comes to {_listed(missing)}"
                do = 'write `join = "xor"` where one token is enough, or let the split before it give all'
                yield Finding(_join(task), what, f"{do}; the way there: {play.way(marking)}", tuple(_splits(net, task)))
                break


def _splits(net: Net, task: Task) -> Iterator[tuple[Span, str]]:
    """The nearest XOR- or OR-splits before a task."""
    before = {task.name}
    for _ in net.flows:
        found = [it for it in net.tasks if it.name in before and it.split != "and" and it.name != task.name]
        if found:
            yield found[0].node.get("split").span, f"task `{found[0].name}` gives tokens to some of its outputs alone"
            return
        before |= {it.source for it in net.flows if it.target in before}


def _twice(play: Play) -> Warnings:
    """Tasks with an XOR-join of which two inputs have tokens at once."""
    for task in play.net.tasks:
        if task.join == "xor":
            found = next((it for it in play.came if not play.is_end(it) and len(play.has(it, task.name)) > 1), None)
            if found:
                marked = _listed(play.has(found, task.name))
                what = f"task `{task.name}` has an XOR-join, and tokens in {marked} at once: its work comes twice"
                yield Finding(_join(task), what, f"leave `join` out where all are to meet; the way there: {play.way(found)}")


def _left_over(play: Play) -> Warnings:
    """Places whose tokens, and tasks whose work, an end takes away."""
    net, seen = play.net, set()
    for marking in filter(play.is_end, play.came):
        for name in (*play.left(marking), *sorted(marking.active)):
            if name not in seen:
                seen.add(name)
                yield Finding(_where(net, name), _lost(net, name), f"{_before_end(net, name)}; the way there: {play.way(marking)}")
    over = next((it for it in play.came if it.tokens[play.number[net.output]] > 1), None)
    if over:
        yield Finding(node_of(net, net.output), f"two tokens reach the output `{net.output}` at once", f"the way there: {play.way(over)}")


def _lost(net: Net, name: str) -> str:
    if net.task(name):
        return f"net `{net.name}` can end while task `{name}` is at work, which is then cut off"
    return f"net `{net.name}` can end with a token left in `{name}`, which is then lost"


def _before_end(net: Net, name: str) -> str:
    what = "work" if net.task(name) else "token"
    return f"let the ways meet before `{net.output}`, or take the {what} away by `remove`"


def _pile(play: Play) -> Warnings:
    """Places in which tokens pile up."""
    full = (it for it in play.came if max(it.tokens) > MOST_TOKENS)
    for marking in full:
        place = play.places[marking.tokens.index(max(marking.tokens))]
        do = f"a way round gives more tokens than it takes; the way there: {play.way(marking)}"
        yield Finding(_where(play.net, place), f"tokens pile up in `{place}`", do)
        return


def _never(play: Play) -> Warnings:
    """Tasks that no play comes to; where it was cut short, or a task waits for ever, nothing is said."""
    if not play.whole or play.stuck:
        return
    begun = {name for marking in play.came for name in marking.active}
    for task in play.net.tasks:
        if task.name not in begun:
            yield Finding(task.node.get("name").span, f"task `{task.name}` is never begun", "look at the joins on the way to it")


# What the text shows


def _unkept(task: Task) -> Warnings:
    kept = {name for it in task.sets for name in names_of(it.value)}
    for out in task.outs:
        if out.name not in kept:
            do = f'add `{{ var = "..", value = "{out.name}" }}` to `set`, or take the out away'
            yield Finding(out.node.get("name").span, f"nobody keeps the out `{out.name}` of task `{task.name}`", do)


def _always_empty(net: Net, task: Task) -> Warnings:
    """A list over which items are made, and which nothing fills."""
    lists = [it for it in net.variables if it.name == task.each and it.use in ("local", "out")]
    for it in lists:
        init = it.node.get("init")
        filled = init is not None and init.items() or any(kept.variable == it.name for other in net.tasks for kept in other.sets)
        if not filled:
            what = f"task `{task.name}` is never entered: its `each` is `{it.name}`, which nothing fills"
            do = "let the list come `in`, give it an `init`, or `set` it in a task before"
            yield Finding(task.node.get("each").span, what, do, ((it.node.get("name").span, "it is an empty list from the beginning"),))


def _nobody(task: Task, roles: set[str] | None) -> Warnings:
    if roles is not None and task.role is not None and task.role not in roles:
        what = f"nobody has the role `{task.role}` of task `{task.name}`"
        yield Finding(task.node.get("role").span, what, "give it to a person, or mend it")


# Places


def _join(task: Task) -> Span:
    return (task.node.get("join") or task.node.get("name")).span


def _where(net: Net, name: str) -> Span:
    """Where a place or a task is said: an implicit condition by its flow."""
    source, arrow, target = name.partition("->")
    if arrow:
        return next(it.node.span for it in net.flows if (it.source, it.target) == (source, target))
    return node_of(net, name)


def _listed(names: Iterable[str]) -> str:
    return ", ".join(f"`{it}`" for it in names)

