"""Weights by which a net completes properly, as docs/SPECIFICATIONS.md asks for them: found by a linear program, over exact fractions."""

from __future__ import annotations

import math
from fractions import Fraction
from typing import Iterator

from .nets import Net

MOST = 2**32 - 1
Row = list[Fraction]


def demands(net: Net) -> Iterator[tuple[list[str], list[str]]]:
    """Each demand as names whose weights together are at most those of other names together."""
    for task in net.tasks:
        before, after = net.inputs(task.name), net.outputs(task.name)
        yield from [([task.name], before)] if task.join == "and" else [([task.name], [place]) for place in before]
        yield from [([place], [task.name]) for place in after] if task.split == "xor" else [(after, [task.name])]
    yield [net.input], [net.output]


def weights_of(net: Net) -> dict[str, int] | None:
    """The least whole number that is found for each place and task; None where there are no weights. Each is 1 and a number from 0 on."""
    names = [*net.places(), *(task.name for task in net.tasks)]
    number = {name: place for place, name in enumerate(names)}
    bounds = []
    for light, heavy in demands(net):
        factors = [0] * len(names)
        for name in light:
            factors[number[name]] += 1
        for name in heavy:
            factors[number[name]] -= 1
        bounds.append((factors, len(heavy) - len(light)))
    found = _least(len(names), bounds)
    if found is None:
        return None
    scale = math.lcm(*(value.denominator for value in found))
    weights = {name: int((value + 1) * scale) for name, value in zip(names, found)}
    return weights if max(weights.values()) <= MOST else None


def _least(count: int, bounds: list[tuple[list[int], int]]) -> Row | None:
    """The least sum of so many numbers from 0 on, where each row's sum is at most its bound; None where there are no such numbers.

    The dual simplex method, by the rule of Bland, so that it ends.
    """
    rows = []
    for i, (factors, bound) in enumerate(bounds):
        slack = [Fraction(int(i == j)) for j in range(len(bounds))]
        rows.append([Fraction(factor) for factor in factors] + slack + [Fraction(bound)])
    costs = [Fraction(1)] * count + [Fraction(0)] * (len(bounds) + 1)
    basis = list(range(count, count + len(bounds)))
    while short := [(basis[i], i) for i, row in enumerate(rows) if row[-1] < 0]:
        leaving = min(short)[1]
        ratios = [(costs[j] / -rows[leaving][j], j) for j in range(len(costs) - 1) if rows[leaving][j] < 0]
        if not ratios:
            return None
        basis[leaving] = min(ratios)[1]
        _pivot(rows, costs, leaving, basis[leaving])
    found = [Fraction(0)] * count
    for i, column in enumerate(basis):
        if column < count:
            found[column] = rows[i][-1]
    return found


def _pivot(rows: list[Row], costs: Row, row: int, column: int) -> None:
    """The chosen column enters the basis in place of the row's own column."""
    scale = rows[row][column]
    rows[row] = [value / scale for value in rows[row]]
    for other in rows[:row] + rows[row + 1 :] + [costs]:
        factor = other[column]
        if factor:
            other[:] = [value - factor * entered for value, entered in zip(other, rows[row])]
