"""Plays the tokens of one net without data: each way that a split could take is taken.

A task is entered, which takes tokens, and left, which empties its removal set and gives tokens. Several items count as one, and a net as
the work of a task is over when it is left. What the server does by itself comes before what persons do: it enters empty and composite
tasks, and leaves empty ones. A marking with a token in the output is an end, since a case or a net ends there at once.
"""

from __future__ import annotations

from collections import deque
from dataclasses import dataclass
from itertools import combinations
from typing import Iterator

from .check_nets import reached
from .nets import Net, Task

MOST_MARKINGS = 10_000
MOST_TOKENS = 3
WIDEST_OR = 6


@dataclass(frozen=True)
class Marking:
    """Tokens by the number of their place, and the tasks at work."""

    tokens: tuple[int, ...]
    active: frozenset[str]


class Play:
    """The markings that a net comes to, each with the step that first led there: at most so many, and none is followed in which tokens pile
    up. `whole` says whether all of them were come to."""

    def __init__(self, net: Net, most: int = MOST_MARKINGS) -> None:
        self.net = net
        self.places = net.places()
        self.number = {it: k for k, it in enumerate(self.places)}
        self.inputs = {it.name: [self.number[place] for place in net.inputs(it.name)] for it in net.tasks}
        self.outputs = {it.name: [self.number[place] for place in net.outputs(it.name)] for it in net.tasks}
        self.upstream = self._upstream() if any(it.join == "or" for it in net.tasks) else {}
        start = Marking(tuple(int(it == net.input) for it in self.places), frozenset())
        self.came: dict[Marking, tuple[Marking, str] | None] = {start: None}
        self.stuck: list[Marking] = []
        # Of a wide OR-split some choices alone are played.
        self.whole = not any(it.split == "or" and len(self.outputs[it.name]) > WIDEST_OR for it in net.tasks)
        self._walk(start, most)

    def _walk(self, start: Marking, most: int) -> None:
        left = deque([start])
        while left:
            marking = left.popleft()
            if self.is_end(marking) or max(marking.tokens) > MOST_TOKENS:
                continue
            steps = list(self._steps(marking))
            if not steps:
                self.stuck.append(marking)
            for step, after in steps:
                if after not in self.came:
                    if len(self.came) >= most:
                        self.whole = False
                        return
                    self.came[after] = marking, step
                    left.append(after)

    # What a marking is

    def is_end(self, marking: Marking) -> bool:
        """Whether the output has a token."""
        return marking.tokens[self.number[self.net.output]] > 0

    def has(self, marking: Marking, task: str) -> list[str]:
        """The input places of a task that have tokens."""
        return [self.places[it] for it in self.inputs[task] if marking.tokens[it]]

    def left(self, marking: Marking) -> list[str]:
        """Places but the output that have tokens."""
        return [place for place, count in zip(self.places, marking.tokens) if count and place != self.net.output]

    def way(self, marking: Marking) -> str:
        """How it was come to: the tasks that were left, each with where its split went."""
        steps = []
        came = self.came[marking]
        while came:
            marking, step = came
            steps.append(step)
            came = self.came[marking]
        return ", ".join(it for it in reversed(steps) if it) or "the beginning"

    # Steps

    def _steps(self, marking: Marking) -> Iterator[tuple[str, Marking]]:
        """Each step that is possible, and what it leads to: those that the server takes by itself, or where there is none all others."""
        by_itself = [it for it in self.net.tasks if it.kind == "empty" or it.kind == "sub" and it.name not in marking.active]
        steps = list(self._steps_of(marking, by_itself))
        others = [it for it in self.net.tasks if it not in by_itself]
        yield from steps or self._steps_of(marking, others)

    def _steps_of(self, marking: Marking, tasks: list[Task]) -> Iterator[tuple[str, Marking]]:
        """The steps of these tasks. Entering has no text."""
        for task in tasks:
            if task.name in marking.active:
                yield from self._exits(marking, task)
            else:
                yield from (("", it) for it in self._enters(marking, task))

    def _enters(self, marking: Marking, task: Task) -> Iterator[Marking]:
        inputs = self.inputs[task.name]
        marked = [it for it in inputs if marking.tokens[it]]
        active = marking.active | {task.name}
        if task.join == "xor":
            yield from (Marking(_with(marking.tokens, [it], -1), active) for it in marked)
        elif len(marked) == len(inputs) or task.join == "or" and marked and not self._waits(marking, task):
            yield Marking(_with(marking.tokens, marked, -1), active)

    def _waits(self, marking: Marking, task: Task) -> bool:
        """Whether a token may still come to an empty input."""
        busy = {place for place, count in zip(self.places, marking.tokens) if count} | marking.active
        empty = [self.places[it] for it in self.inputs[task.name] if not marking.tokens[it]]
        return any(busy & self.upstream[it] for it in empty)

    def _upstream(self) -> dict[str, set[str]]:
        """The places and tasks from which a way leads to each place."""
        edges = [(place, it.name) for it in self.net.tasks for place in self.net.inputs(it.name)]
        edges += [(it.name, place) for it in self.net.tasks for place in self.net.outputs(it.name)]
        turned = [(target, source) for source, target in edges]
        return {it: set(reached(turned, it)[1:]) for it in self.places}

    def _exits(self, marking: Marking, task: Task) -> Iterator[tuple[str, Marking]]:
        tokens = list(marking.tokens)
        for name in task.removes:
            if name in self.number:
                tokens[self.number[name]] = 0
        active = marking.active - {task.name, *task.removes}
        outputs = self.outputs[task.name]
        for chosen in self._choices(task, outputs):
            names = [self.places[it].rpartition("->")[2] for it in chosen]
            step = task.name if len(outputs) == 1 or task.split == "and" else f"{task.name} to {' and '.join(names)}"
            yield step, Marking(_with(tuple(tokens), chosen, 1), active)

    @staticmethod
    def _choices(task: Task, outputs: list[int]) -> Iterator[list[int]]:
        """Where tokens can go. Of an OR-split with many outputs only the choices of one, of two, and of all are played."""
        if task.split == "and":
            yield outputs
            return
        yield from ([it] for it in outputs)
        if task.split == "or":
            counts = range(2, len(outputs) + 1) if len(outputs) <= WIDEST_OR else (2, len(outputs))
            for count in counts:
                yield from (list(it) for it in combinations(outputs, count))


def _with(tokens: tuple[int, ...], places: list[int], change: int) -> tuple[int, ...]:
    """The tokens with one more or less in each of these places."""
    made = list(tokens)
    for it in places:
        made[it] += change
    return tuple(made)
