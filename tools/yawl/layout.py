"""Places for the nodes and flows of a net: in layers from left to right, so that no flow runs behind a node.

Each node stands in the layer that its longest way from the input gives it. A flow over several layers has a slot of its own in each
layer between. Within the layers nodes and slots are sorted so that few flows cross, and then moved towards their neighbours. A flow that
leads back runs below all, in a lane of its own. Everything is decided by the order of the document, so a net has one picture.
"""

from __future__ import annotations

from dataclasses import dataclass
from typing import Mapping, Sequence, Union

Point = tuple[float, float]
Flow = tuple[str, str]
# A node, or the slot of a flow in a layer.
Key = Union[str, tuple[str, str, int]]

FAN = 44.0
STUB = 14.0
ROW_GAP = 22.0
SLOT = 9.0
LANE = 16.0
SWEEPS = 16
MOVES = 25


@dataclass(frozen=True)
class Size:
    """What a node takes: its shape's width, the width of its column, and the room above and below its centre. Flows end at the shape's
    sides, spread over `side`; 0 is for a circle, where all end towards the centre."""

    shape: float
    column: float
    above: float
    below: float
    side: float


@dataclass(frozen=True)
class Layout:
    """Centres of nodes, corners of flows from their beginning to their end, and the size of the whole."""

    centres: dict[str, Point]
    lines: dict[Flow, tuple[Point, ...]]
    width: float
    height: float
    order: tuple[str, ...]


def lay_out(sizes: Mapping[str, Size], flows: Sequence[Flow], labels: Mapping[Flow, float]) -> Layout:
    """Places nodes, in the order of `sizes`, and the flows between them. A flow has room for a label of the given width."""
    back = _backward(list(sizes), flows)
    ahead = [it for it in flows if it not in back]
    depth = _depths(list(sizes), ahead)
    chains = {(u, v): [u, *((u, v, layer) for layer in range(depth[u] + 1, depth[v])), v] for u, v in ahead}
    layers = _sorted(_layers(depth, chains), chains)
    heights = _heights(layers, chains, sizes)
    columns = _columns(layers, depth, sizes, labels, flows, back)
    centres = {it: (sum(columns[depth[it]]) / 2, heights[it]) for it in sizes}
    bottom = max(centres[it][1] + sizes[it].below for it in sizes)
    ports = _ports(chains, back, sizes, heights)
    lines = {flow: _line(flow, chain, heights, columns, centres, sizes, ports) for flow, chain in chains.items()}
    for number, flow in enumerate(back):
        lines[flow] = _loop(flow, number, bottom + LANE * (number + 1), columns, depth, centres, sizes, ports)
    order = tuple(key for layer in layers for key in layer if isinstance(key, str))
    height = bottom + (LANE * (len(back) + 1) if back else 0)
    return Layout(centres, {it: lines[it] for it in flows}, columns[-1][1], height, order)


# Layers


def _backward(nodes: list[str], flows: Sequence[Flow]) -> list[Flow]:
    """The flows that lead back to a node on the way to them, as a walk from the first node meets them."""
    after = {it: [v for u, v in flows if u == it] for it in nodes}
    state: dict[str, int] = {}
    found: set[Flow] = set()
    for start in nodes:
        way = [(start, iter(after[start]))] if start not in state else []
        state.setdefault(start, 1)
        while way:
            node, rest = way[-1]
            step = next(rest, None)
            if step is None:
                state[node] = 2
                way.pop()
            elif step not in state:
                state[step] = 1
                way.append((step, iter(after[step])))
            elif state[step] == 1:
                found.add((node, step))
    return [it for it in flows if it in found]


def _depths(nodes: list[str], flows: Sequence[Flow]) -> dict[str, int]:
    """The length of the longest way to each node. The flows have no cycle."""
    depth = {it: 0 for it in nodes}
    for _ in nodes:
        for u, v in flows:
            depth[v] = max(depth[v], depth[u] + 1)
    return depth


def _layers(depth: dict[str, int], chains: Mapping[Flow, list[Key]]) -> list[list[Key]]:
    """Nodes and slots of each layer, nodes first."""
    layers: list[list[Key]] = [[] for _ in range(max(depth.values()) + 1)]
    for node, layer in depth.items():
        layers[layer].append(node)
    for chain in chains.values():
        for key in chain[1:-1]:
            layers[key[2]].append(key)
    return layers


def _links(chains: Mapping[Flow, list[Key]]) -> tuple[dict[Key, list[Key]], dict[Key, list[Key]]]:
    """The neighbours of each key in the layer before, and in the layer behind it."""
    before: dict[Key, list[Key]] = {}
    behind: dict[Key, list[Key]] = {}
    for chain in chains.values():
        for u, v in zip(chain, chain[1:]):
            behind.setdefault(u, []).append(v)
            before.setdefault(v, []).append(u)
    return before, behind


# Order within the layers


def _sorted(layers: list[list[Key]], chains: Mapping[Flow, list[Key]]) -> list[list[Key]]:
    """The layers, each sorted by the middle of its neighbours, forth and back, as the pass with the fewest crossings leaves them."""
    before, behind = _links(chains)
    best, fewest = [list(it) for it in layers], _crossings(layers, behind)
    for sweep in range(SWEEPS):
        forth = sweep % 2 == 0
        links = before if forth else behind
        numbers = range(1, len(layers)) if forth else range(len(layers) - 2, -1, -1)
        for number in numbers:
            beside = layers[number - 1 if forth else number + 1]
            _sort(layers[number], {key: place for place, key in enumerate(beside)}, links)
        crossings = _crossings(layers, behind)
        if crossings < fewest:
            best, fewest = [list(it) for it in layers], crossings
    return best


def _sort(layer: list[Key], places: dict[Key, int], links: dict[Key, list[Key]]) -> None:
    middle = {}
    for place, key in enumerate(layer):
        beside = [places[it] for it in links.get(key, ())]
        middle[key] = sum(beside) / len(beside) if beside else place
    layer.sort(key=lambda key: middle[key])


def _crossings(layers: list[list[Key]], behind: dict[Key, list[Key]]) -> int:
    """How many pairs of flows cross between neighbouring layers."""
    count = 0
    for layer, other in zip(layers, layers[1:]):
        places = {key: place for place, key in enumerate(other)}
        ends = [places[it] for key in layer for it in sorted(behind.get(key, ()), key=lambda it: places[it])]
        count += sum(ends[k] > later for k in range(len(ends)) for later in ends[k + 1 :])
    return count


# Heights


def _heights(layers: list[list[Key]], chains: Mapping[Flow, list[Key]], sizes: Mapping[str, Size]) -> dict[Key, float]:
    """The height of each key's centre. Keys are drawn to the middle of their neighbours, as far as their order and sizes allow: forth and
    back, then to both sides, and at last forth once more, so that a way without splits and joins is straight."""
    before, behind = _links(chains)
    heights: dict[Key, float] = {}
    for layer in layers:
        heights.update(zip(layer, _apart([0.0] * len(layer), [1.0] * len(layer), _gaps(layer, sizes))))
    for move in range(MOVES):
        links = (before, behind)[move % 2] if move < MOVES // 2 or move == MOVES - 1 else None
        for layer in layers if move % 2 == 0 else reversed(layers):
            wanted, weights = [], []
            for key in layer:
                beside = links.get(key, []) if links is not None else before.get(key, []) + behind.get(key, [])
                wanted.append(sum(heights[it] for it in beside) / len(beside) if beside else heights[key])
                weights.append(1.0 if isinstance(key, str) else 4.0)
            heights.update(zip(layer, _apart(wanted, weights, _gaps(layer, sizes))))
    top = min(heights[key] - (sizes[key].above if isinstance(key, str) else SLOT) for key in heights)
    return {key: round(height - top, 1) for key, height in heights.items()}


def _gaps(layer: list[Key], sizes: Mapping[str, Size]) -> list[float]:
    """How far each key's centre has to stand below that of the key above it."""
    above = [sizes[it].above if isinstance(it, str) else SLOT for it in layer]
    below = [sizes[it].below if isinstance(it, str) else SLOT for it in layer]
    return [0.0, *(upper + ROW_GAP / (1 if isinstance(key, str) else 2) + lower for upper, lower, key in zip(below, above[1:], layer[1:]))]


def _apart(wanted: list[float], weights: list[float], gaps: list[float]) -> list[float]:
    """Places nearest to the wanted ones, in least squares, that keep their order and these gaps."""
    shift = [sum(gaps[: k + 1]) for k in range(len(gaps))]
    blocks: list[tuple[float, float, int]] = []
    for want, weight, by in zip(wanted, weights, shift):
        place, sum_of_weights, count = want - by, weight, 1
        while blocks and blocks[-1][0] > place:
            other, heavy, more = blocks.pop()
            place = (place * sum_of_weights + other * heavy) / (sum_of_weights + heavy)
            sum_of_weights, count = sum_of_weights + heavy, count + more
        blocks.append((place, sum_of_weights, count))
    places = [place for place, _, count in blocks for _ in range(count)]
    return [place + by for place, by in zip(places, shift)]


# Columns and lines


def _columns(
    layers: list[list[Key]], depth: dict[str, int], sizes: Mapping[str, Size], labels: Mapping[Flow, float], flows: Sequence[Flow],
    back: list[Flow],
) -> list[tuple[float, float]]:
    """Where the column of each layer begins and ends. Between two columns there is room for flows, labels, and flows that lead back."""
    columns = []
    at = 0.0
    for number, layer in enumerate(layers):
        width = max((sizes[it].column for it in layer if isinstance(it, str)), default=SLOT)
        columns.append((at, at + width))
        label = max((labels.get(it, 0.0) for it in flows if depth[it[0]] == number), default=0.0)
        loops = sum(depth[u] == number or depth[v] == number + 1 for u, v in back)
        at += width + FAN + label + STUB + loops * SLOT
    return columns


def _ports(
    chains: Mapping[Flow, list[Key]], back: list[Flow], sizes: Mapping[str, Size], heights: dict[Key, float]
) -> dict[tuple[Flow, bool], float]:
    """How far from its node's centre each flow begins (True) and ends (False), so that flows of one side don't lie on one another."""
    ports = {}
    for leaving in (True, False):
        for node, size in sizes.items():
            mine = [(heights[chain[1 if leaving else -2]], flow) for flow, chain in chains.items() if flow[0 if leaving else 1] == node]
            order = [flow for _, flow in sorted(mine, key=lambda it: it[0])]
            order += [flow for flow in back if flow[0 if leaving else 1] == node]
            step = min(SLOT, size.side / max(1, len(order) - 1)) if size.side else 0.0
            for place, flow in enumerate(order):
                ports[flow, leaving] = (place - (len(order) - 1) / 2) * step
    return ports


def _ends(
    flow: Flow, centres: Mapping[str, Point], sizes: Mapping[str, Size], ports: Mapping[tuple[Flow, bool], float]
) -> tuple[Point, Point]:
    """Where a flow begins and ends, at the right side of a node and the left side of another."""
    (ux, uy), (vx, vy) = (centres[it] for it in flow)
    return (ux + sizes[flow[0]].shape / 2, uy + ports[flow, True]), (vx - sizes[flow[1]].shape / 2, vy + ports[flow, False])


def _line(
    flow: Flow, chain: list[Key], heights: dict[Key, float], columns: list[tuple[float, float]], centres: Mapping[str, Point],
    sizes: Mapping[str, Size], ports: Mapping[tuple[Flow, bool], float],
) -> tuple[Point, ...]:
    """A flow that leads ahead: level along its node, aslant behind the column, and level again up to the next."""
    start, end = _ends(flow, centres, sizes, ports)
    points = [start]
    layer = next(k for k, (left, right) in enumerate(columns) if left <= centres[flow[0]][0] <= right)
    height = start[1]
    for number, key in enumerate(chain[1:], layer):
        right = columns[number][1]
        target = end[1] if key == flow[1] else heights[key]
        if abs(target - height) > 0.5:
            points += [(right, height), (right + FAN, target)]
        height = target
    return _without_repeats([*points, end])


def _loop(
    flow: Flow, number: int, lane: float, columns: list[tuple[float, float]], depth: dict[str, int], centres: Mapping[str, Point],
    sizes: Mapping[str, Size], ports: Mapping[tuple[Flow, bool], float],
) -> tuple[Point, ...]:
    """A flow that leads back: down behind its node, along a lane below all, and up before the other."""
    start, end = _ends(flow, centres, sizes, ports)
    right = columns[depth[flow[0]]][1] + FAN / 2 + SLOT * number
    left = columns[depth[flow[1]]][0] - STUB - SLOT * number
    return (start, (right, start[1]), (right, lane), (left, lane), (left, end[1]), end)


def _without_repeats(points: list[Point]) -> tuple[Point, ...]:
    return tuple(it for number, it in enumerate(points) if number == 0 or it != points[number - 1])
