"""Nets as SVG, in YAWL's signs.

A condition is a circle; the input has a triangle in it, the output a square. A task is a box, a composite one with a double border, one of
several items with a second box behind it, an empty one with its name aslant. A strip at its left is its join, at its right its split: a
triangle with its point at the task is AND, with its point away from it XOR, and a rhombus is OR. What a task removes has a dashed border,
and a dashed line leads there. Tokens are dots; a flow from task to task shows its condition where that has tokens.
"""

from __future__ import annotations

from typing import Iterator, Sequence
from xml.sax.saxutils import escape

from .layout import Flow, Layout, Point, Size, lay_out
from .nets import Task
from .scene import View, branch_labels

LETTER = 6.6
SMALL = 5.6
RADIUS = 15.0
BOX = 40.0
STRIP = 13.0
MARGIN = 18.0
TITLE = 30.0
BETWEEN = 26.0
MOST_LINES = 6
LONGEST_LABEL = 34
INK, GREY, BUSY, ALARM = "#1f2933", "#616e7c", "#fff1c2", "#b42318"
STYLE = (
    f"text{{font-family:Helvetica,Arial,sans-serif;font-size:12px;fill:{INK}}}"
    f".s{{font-size:10px;fill:{GREY}}}.t{{font-size:13px;font-weight:bold}}.n{{text-anchor:middle}}"
    f".b{{fill:#fff;stroke:{INK};stroke-width:1.4}}.w{{fill:{BUSY}}}.m{{fill:{INK}}}.l{{fill:none;stroke:{INK};stroke-width:1.2}}"
    f".r{{fill:none;stroke:{ALARM};stroke-width:1.2;stroke-dasharray:4 3}}.h{{paint-order:stroke;stroke:#fff;stroke-width:2px}}"
)


def picture(views: Sequence[View]) -> str:
    """The nets below one another, as an SVG document."""
    parts, top, width = [], MARGIN, 0.0
    for view in views:
        drawing = Drawing(view)
        parts.append(f'<g transform="translate({_n(MARGIN)} {_n(top)})">\n' + "\n".join(drawing.parts()) + "\n</g>")
        width = max(width, drawing.width)
        top += drawing.height + BETWEEN
    size = f"{_n(width + 2 * MARGIN)} {_n(top - BETWEEN + MARGIN)}"
    w, h = size.split()
    head = f'<svg xmlns="http://www.w3.org/2000/svg" width="{w}" height="{h}" viewBox="0 0 {size}">'
    return "\n".join([head, f"<style>{STYLE}</style>", f'<rect width="{w}" height="{h}" fill="#fff"/>', *parts, "</svg>", ""])


class Drawing:
    """One net: its layout, and the parts of its picture."""

    def __init__(self, view: View) -> None:
        self.view = view
        self.net = view.net
        flows = [(it.source, it.target) for it in self.net.flows]
        self.labels = {flow: _short(text) for flow, text in branch_labels(self.net).items() if flow in flows}
        sizes = {it: self.size(it) for it in self.net.nodes()}
        self.sizes = sizes
        self.layout: Layout = lay_out(sizes, flows, {flow: len(text) * SMALL + 6 for flow, text in self.labels.items()})
        self.width = max(self.layout.width, len(view.title) * 7.2)
        self.height = TITLE + self.layout.height

    def size(self, name: str) -> Size:
        """The room that a node takes."""
        task = self.net.task(name)
        if task is None:
            return Size(2 * RADIUS, max(2 * RADIUS, len(name) * SMALL), RADIUS, RADIUS + 14, 12.0)
        left, right = self.strips(task)
        width = max(64.0, len(name) * LETTER + 16) + left + right
        lines = [len(it) * SMALL for it in self.lines_below(task)]
        below = BOX / 2 + 12 * len(lines) + (6 if lines else 2)
        stack = 5.0 if task.each is not None else 0.0
        return Size(width, max([width + 2 * stack, *lines]), BOX / 2 + 2 + stack, below, BOX - 10)

    def strips(self, task: Task) -> tuple[float, float]:
        """The widths of the marks of a task's join and split; none where one flow enters, or one leaves."""
        entering = sum(it.target == task.name for it in self.net.flows)
        leaving = sum(it.source == task.name for it in self.net.flows)
        return (STRIP if entering > 1 else 0.0), (STRIP if leaving > 1 else 0.0)

    def lines_below(self, task: Task) -> list[str]:
        """What stands below a task: its role or net, and its items."""
        about = [task.role] if task.role else [f"net {task.net}"] if task.net else []
        work = self.view.work.get(task.name, [])
        lines = [it.text for it in work[:MOST_LINES]]
        more = len(work) - MOST_LINES
        return about + lines + ([f"and {more} more"] if more > 0 else [])

    def parts(self) -> Iterator[str]:
        """All parts, those behind first."""
        yield f'<text class="t" x="0" y="11">{escape(self.view.title)}</text>'
        yield f'<g transform="translate(0 {_n(TITLE)})">'
        for flow, line in self.layout.lines.items():
            yield from self.flow(flow, line)
        for task in self.net.tasks:
            for name in task.removes:
                yield from self.removal(task, name)
        for flow in self.labels:
            yield from self.label(flow)
        for name in self.net.nodes():
            task = self.net.task(name)
            yield from self.task(task) if task else self.condition(name)
        yield from self.tokens_between()
        yield "</g>"

    # Flows

    def flow(self, flow: Flow, line: Sequence[Point]) -> Iterator[str]:
        """A flow as a line with a point at its end."""
        points = " ".join(f"{_n(x)},{_n(y)}" for x, y in line)
        x, y = line[-1]
        yield f'<g class="flow" data-from="{escape(flow[0])}" data-to="{escape(flow[1])}"><polyline class="l" points="{points}"/>'
        yield f'<path class="m" d="M{_n(x)} {_n(y)}l-8 -3.5v7z"/></g>'

    def label(self, flow: Flow) -> Iterator[str]:
        """The label of a flow: after its first slant, where it is level again. Of several that end at one node the lowest has its label
        below it."""
        line = self.layout.lines[flow]
        slants = (end for start, end in zip(line, line[1:]) if start[0] != end[0] and start[1] != end[1])
        x, y = next(slants, (line[0][0] + 6, line[0][1]))
        beside = [it[-1][1] for other, it in self.layout.lines.items() if other[1] == flow[1]]
        y += 10 if len(beside) > 1 and line[-1][1] == max(beside) else -4
        yield f'<text class="s h" x="{_n(x)}" y="{_n(y)}">{escape(self.labels[flow])}</text>'

    def middle(self, place: str) -> Point:
        """Where an implicit condition is drawn: on its flow's first slant, or in the middle of its longest part."""
        source, _, target = place.partition("->")
        line = self.layout.lines[source, target]
        parts = list(zip(line, line[1:]))
        longest = max(parts, key=lambda it: abs(it[0][0] - it[1][0]) + abs(it[0][1] - it[1][1]))
        (ax, ay), (bx, by) = next((it for it in parts if it[0][0] != it[1][0] and it[0][1] != it[1][1]), longest)
        if ay == by and (source, target) in self.labels:
            return bx - 22, by
        return (ax + bx) / 2, (ay + by) / 2

    def tokens_between(self) -> Iterator[str]:
        """Implicit conditions that have tokens."""
        for place, count in self.view.tokens.items():
            if "->" in place and count:
                x, y = self.middle(place)
                yield f'<g class="between"><title>{escape(place)}</title><circle class="b w" cx="{_n(x)}" cy="{_n(y)}" r="10"/>'
                yield from _dots(x, y, count)
                yield "</g>"

    # Nodes

    def condition(self, name: str) -> Iterator[str]:
        """A condition with its tokens and its name."""
        x, y = self.layout.centres[name]
        count = self.view.tokens.get(name, 0)
        yield f'<g class="condition"><circle class="b{" w" if count else ""}" cx="{_n(x)}" cy="{_n(y)}" r="{_n(RADIUS)}"/>'
        faint = ' opacity="0.25"' if count else ""
        if name == self.net.input:
            yield f'<path class="b"{faint} d="M{_n(x - 5)} {_n(y - 7)}v14l12 -7z"/>'
        if name == self.net.output:
            yield f'<rect class="b"{faint} x="{_n(x - 6)}" y="{_n(y - 6)}" width="12" height="12"/>'
        yield from _dots(x, y, count)
        yield f'<text class="s n" x="{_n(x)}" y="{_n(y + RADIUS + 11)}">{escape(name)}</text></g>'

    def task(self, task: Task) -> Iterator[str]:
        """A task with its marks, its name, and what stands below it."""
        x, y = self.layout.centres[task.name]
        size = self.sizes[task.name]
        left, top, width = x - size.shape / 2, y - BOX / 2, size.shape
        busy = " w" if self.view.work.get(task.name) else ""
        yield f'<g class="task" data-name="{escape(task.name)}">'
        if task.each is not None:
            yield _box(left + 5, top - 5, width, BOX, "b")
        yield _box(left, top, width, BOX, "b" + busy)
        joins, splits = self.strips(task)
        inner = left + joins, width - joins - splits
        if task.kind == "sub":
            yield _box(inner[0] + 3, top + 3, inner[1] - 6, BOX - 6, "l")
        if joins:
            yield from _mark(left, top, task.join, True)
        if splits:
            yield from _mark(left + width - STRIP, top, task.split, False)
        centre = inner[0] + inner[1] / 2
        slant = ' font-style="italic"' if task.kind == "empty" else ""
        yield f'<text class="n"{slant} x="{_n(centre)}" y="{_n(y + 4)}">{escape(task.name)}</text>'
        for number, text in enumerate(self.lines_below(task)):
            yield f'<text class="s n" x="{_n(x)}" y="{_n(y + BOX / 2 + 12 + 12 * number)}">{escape(text)}</text>'
        yield "</g>"

    # Removal sets

    def removal(self, task: Task, name: str) -> Iterator[str]:
        """A dashed border around what a task removes, and a dashed line to it."""
        if "->" in name:
            (x, y), half, above, below = self.middle(name), 9.0, 9.0, 9.0
        else:
            size = self.sizes[name]
            (x, y), half, above, below = self.layout.centres[name], size.column / 2 + 4, size.above + 3, size.below + 3
        yield f'<g class="removal"><title>{escape(task.name)} removes {escape(name)}</title>'
        yield f'<rect class="r" x="{_n(x - half)}" y="{_n(y - above)}" width="{_n(2 * half)}" height="{_n(above + below)}" rx="9"/>'
        tx, ty = self.layout.centres[task.name]
        tx += self.sizes[task.name].shape * (0.3 if x > tx else -0.3)
        down = ty <= y
        start = ty + (BOX / 2 if down else -BOX / 2)
        end = y + (-above if down else below)
        if name != task.name:
            middle = (start + end) / 2
            yield f'<path class="r" d="M{_n(tx)} {_n(start)}C{_n(tx)} {_n(middle)} {_n(x)} {_n(middle)} {_n(x)} {_n(end)}"/>'
        yield "</g>"


def _mark(left: float, top: float, kind: str, join: bool) -> Iterator[str]:
    """The strip of a join or a split with its sign."""
    yield _box(left, top, STRIP, BOX, "l")
    right, middle, bottom = left + STRIP, top + BOX / 2, top + BOX
    if kind == "or":
        half = STRIP / 2
        points = [(left, middle), (left + half, middle - 11), (right, middle), (left + half, middle + 11)]
    elif (kind == "and") == join:
        points = [(left, top), (right, middle), (left, bottom)]
    else:
        points = [(right, top), (left, middle), (right, bottom)]
    yield f'<polygon class="l" points="{" ".join(f"{_n(x)},{_n(y)}" for x, y in points)}"/>'


def _box(x: float, y: float, width: float, height: float, classes: str) -> str:
    return f'<rect class="{classes}" x="{_n(x)}" y="{_n(y)}" width="{_n(width)}" height="{_n(height)}"/>'


def _dots(x: float, y: float, count: int) -> Iterator[str]:
    """Up to four tokens as dots; more as a number."""
    places = {1: [(0, 0)], 2: [(-4, 0), (4, 0)], 3: [(-4, 3), (4, 3), (0, -4)], 4: [(-4, -4), (4, -4), (-4, 4), (4, 4)]}.get(count)
    if places is None and count:
        yield f'<text class="n" x="{_n(x)}" y="{_n(y + 4)}">{count}</text>'
    radius = 5 if count == 1 else 3
    for dx, dy in places or []:
        yield f'<circle class="m" cx="{_n(x + dx)}" cy="{_n(y + dy)}" r="{radius}"/>'


def _short(text: str) -> str:
    return text if len(text) <= LONGEST_LABEL else text[: LONGEST_LABEL - 2] + ".."


def _n(number: float) -> str:
    """A number with at most one digit after the point."""
    return f"{round(number, 1):g}" if abs(number) < 100000 else f"{number:.1f}"
