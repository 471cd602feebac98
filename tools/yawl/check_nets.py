"""What is at fault where a check of names, flows, paths or nets fails: V1, V2, V3, V6, V7, V8 and V12.

Each function gives all that its check finds, in the server's order: the net and the offender as the server prints them, and a finding.
"""

from __future__ import annotations

from typing import Iterable, Iterator

from .document import Finding, Node, Span
from .names import did_you_mean, is_name, no_name, shown
from .nets import Flow, Net, Spec, Task

Found = Iterator[tuple[str, str, Finding]]
DEEPEST = 8


def names(spec: Spec) -> Found:
    """V1: names are names, and none stands twice where it has to be alone."""
    name, top = spec.node.get("name"), spec.node.get("top")
    if not is_name(spec.name):
        yield "-", shown(spec.name), Finding(name.span, *no_name(spec.name))
    if spec.net(spec.top) is None:
        do = did_you_mean(spec.top, (it.name for it in spec.nets))
        yield "-", shown(spec.top), Finding(top.span, f"`top` names `{spec.top}`, which is no net", do)
    for number, net in enumerate(spec.nets):
        before = [it.node.get("name") for it in spec.nets[:number]]
        for offender, finding in _alone([net.node.get("name")], "the nets", before):
            yield shown(net.name), offender, finding
        for offender, finding in _names_of(net):
            yield shown(net.name), offender, finding


def _names_of(net: Net) -> Iterator[tuple[str, Finding]]:
    """The nodes, with what a task names right after its name, and then the variables."""
    conditions = net.node.get("conditions")
    nodes = [net.node.get("input"), net.node.get("output"), *(conditions.items() if conditions else [])]
    yield from _alone(nodes, "the nodes of the net", [])
    for task in net.tasks:
        yield from _alone([task.node.get("name")], "the nodes of the net", nodes)
        nodes.append(task.node.get("name"))
        if task.role is not None and not is_name(task.role):
            yield shown(task.role), Finding(task.node.get("role").span, *no_name(task.role))
        for title, parts, key in (("`ins`", task.ins, "name"), ("`outs`", task.outs, "name"), ("`set`", task.sets, "var")):
            yield from _alone([it.node.get(key) for it in parts], f"{title} of the task", [])
    yield from _alone([it.node.get("name") for it in net.variables], "the variables of the net", [])


def _alone(nodes: Iterable[Node], among: str, before: Iterable[Node]) -> Iterator[tuple[str, Finding]]:
    """Those that are no names, or stood before."""
    first = {it.value: it for it in before}
    for node in nodes:
        if not is_name(node.value):
            yield shown(node.value), Finding(node.span, *no_name(node.value))
        elif node.value in first:
            also = ((first[node.value].span, "it stands here first"),)
            what = f"the name `{node.value}` stands twice among {among}"
            yield node.value, Finding(node.span, what, "give one of them another name", also)
        first.setdefault(node.value, node)


def flows(spec: Spec) -> Found:
    """V2: a flow leads from a node to a node, as flows do, and stands once."""
    for net in spec.nets:
        first: dict[tuple[str, str], Flow] = {}
        for flow in net.flows:
            found = _flow(net, flow)
            old = first.setdefault((flow.source, flow.target), flow)
            if found is None and old is not flow:
                also = ((old.node.span, "it stands here first"),)
                found = Finding(flow.node.span, f"the flow from `{flow.source}` to `{flow.target}` stands twice", "take one out", also)
            if found:
                yield net.name, shown(flow.source), found


def _flow(net: Net, flow: Flow) -> Finding | None:
    """What is wrong with a flow alone, marked at the end that is wrong."""
    conditions, nodes = net.all_conditions(), list(net.nodes())
    source, target = (it.span for it in flow.node.items())
    for span, name, end in ((source, flow.source, "begins"), (target, flow.target, "ends")):
        if name not in nodes:
            what = f"the flow {end} at `{name}`, which is no condition and no task of net `{net.name}`"
            return Finding(span, what, did_you_mean(name, nodes))
    if flow.source == net.output:
        return Finding(source, f"a flow leaves the output `{flow.source}`", "turn the flow round, or let it begin at another node")
    if flow.target == net.input:
        do = "let it end at a condition of its own, or at a task with an `xor` join"
        return Finding(target, f"a flow enters the input `{flow.target}`", do)
    if flow.source in conditions and flow.target in conditions:
        what = f"the flow goes from a condition, `{flow.source}`, to a condition, `{flow.target}`"
        return Finding(flow.node.span, what, 'put a task between them, which may be one of `kind = "empty"`')
    return None


def node_of(net: Net, name: str) -> Span:
    """Where a condition or a task gets its name."""
    conditions = net.node.get("conditions")
    nodes = [net.node.get("input"), net.node.get("output"), *(conditions.items() if conditions else [])]
    nodes += [it.node.get("name") for it in net.tasks]
    return next((it.span for it in nodes if it.value == name), net.node.get("name").span)


def reached(edges: Iterable[tuple[str, str]], start: str) -> list[str]:
    """What a walk along the edges comes to, itself first."""
    edges = list(edges)
    found = [start]
    for it in found:
        found += dict.fromkeys(target for source, target in edges if source == it and target not in found)
    return found


def paths(spec: Spec) -> Found:
    """V3: each node is on a way from the input to the output."""
    for net in spec.nets:
        edges = [(it.source, it.target) for it in net.flows]
        ahead = reached(edges, net.input)
        behind = reached([(target, source) for source, target in edges], net.output)
        for name in net.nodes():
            if name not in ahead or name not in behind:
                yield net.name, name, _off_the_way(net, name, ahead, behind)


def _off_the_way(net: Net, name: str, ahead: list[str], behind: list[str]) -> Finding:
    kind = "the input" if name == net.input else "the output" if name == net.output else "task" if net.task(name) else "condition"
    title = f"{kind} `{name}`" if name not in (net.input, net.output) else f"{kind}, `{name}`,"
    span = node_of(net, name)
    touching = [it for it in net.flows if name in (it.source, it.target)]
    if not touching:
        return Finding(span, f"no flow leads to {title} and none from it", "add flows for it, or take it out")
    if name not in ahead:
        entering = [it.source for it in touching if it.target == name]
        where = f"only from {_listed(entering)}, where the way from the input doesn't come" if entering else "no flow leads to it"
        return Finding(span, f"no way leads from the input `{net.input}` to {title}: {where}", "add the flow that is missing")
    ends = [it for it in reached([(it.source, it.target) for it in net.flows], name) if it not in behind]
    last = [it for it in ends if not any(flow.source == it for flow in net.flows)]
    also = tuple((node_of(net, it), f"the way ends here: no flow leaves `{it}`") for it in last[:3])
    what = f"no way leads from {title} to the output `{net.output}`"
    if not last and len(ends) > 1:
        what += f": only {_listed(it for it in ends if it != name)} are reached"
    return Finding(span, what, "add the flow that is missing", also if last != [name] else ())


def _listed(names_: Iterable[str]) -> str:
    return ", ".join(f"`{it}`" for it in names_)


def nested(spec: Spec) -> Found:
    """V6: tasks of kind `sub` name nets, and each net is reached from the top."""
    edges = [(net.name, task.net) for net in spec.nets for task in net.tasks if task.net]
    for net in spec.nets:
        for task in net.tasks:
            found = _sub(spec, net, task, edges)
            if found:
                yield net.name, task.name, found
    ahead = reached(edges, spec.top)
    for net in spec.nets:
        users = [task for other in spec.nets for task in other.tasks if task.net == net.name]
        if net.name not in ahead:
            what = f"no task has net `{net.name}` as its work" if not users else f"net `{net.name}` isn't reached from the top `{spec.top}`"
            do = f'write `kind = "sub"` and `net = "{net.name}"` at a task, or take the net out'
            yield net.name, net.name, Finding(net.node.get("name").span, what, do)


def _sub(spec: Spec, net: Net, task: Task, edges: list[tuple[str, str]]) -> Finding | None:
    name, kind, named = task.node.get("name").span, task.node.get("kind"), task.node.get("net")
    if task.kind == "sub" and task.net is None:
        return Finding(kind.span, f"task `{task.name}` is of kind `sub` and names no net", "add `net = ..` with the net that is its work")
    if task.kind != "sub" and task.net is not None:
        do = 'add `kind = "sub"`, or take `net` out'
        return Finding(named.key_or_value, f"task `{task.name}` has `net`, and isn't of kind `sub`", do)
    if task.net is None:
        return None
    if spec.net(task.net) is None:
        do = did_you_mean(task.net, (it.name for it in spec.nets if it.name != spec.top))
        return Finding(named.span, f"task `{task.name}` names net `{task.net}`, which isn't there", do)
    if task.net == spec.top:
        what = f"task `{task.name}` has the top net `{spec.top}` as its work"
        return Finding(named.span, what, "name another net: the top is the case's own")
    if net.name in reached(edges, task.net):
        do = f"take a task out of the way round from `{task.net}` to `{net.name}`"
        return Finding(named.span, f"net `{task.net}` leads back to net `{net.name}`, in which the task stands", do)
    return None


def depth(spec: Spec) -> Found:
    """V7: at most eight nets stand on a way down from the top."""
    ways: dict[str, list[str]] = {spec.top: [spec.top]}
    for _ in spec.nets:
        for net in spec.nets:
            for task in net.tasks if net.name in ways else ():
                way = [*ways[net.name], task.net]
                if task.net and spec.net(task.net) and task.net not in ways[net.name] and len(way) > len(ways.get(task.net, ())):
                    ways[task.net] = way
    for net in spec.nets:
        way = ways.get(net.name, [])
        if len(way) > DEEPEST:
            what = f"net `{net.name}` is number {len(way)} on the way down {' > '.join(way)}"
            yield net.name, net.name, Finding(net.node.get("name").span, what, f"at most {DEEPEST} nets stand on a way: join some")


def cycles(spec: Spec) -> Found:
    """V8: a net with an OR-join has no cycle."""
    for net in spec.nets:
        edges = [(it.source, it.target) for it in net.flows]
        round_ = [it for it in net.nodes() if any(it in reached(edges, target) for source, target in edges if source == it)]
        for task in net.tasks:
            if task.join == "or" and round_:
                flows_ = (it for it in net.flows if it.source in round_ and it.target in round_)
                also = tuple((it.node.span, "it is on the cycle") for it in flows_)
                what = f"task `{task.name}` has an `or` join, and its net has a cycle over {_listed(round_)}"
                do = "use another join, or put what is repeated into a net of its own"
                yield net.name, task.name, Finding(task.node.get("join").span, what, do, also[:1])


def bounds(spec: Spec) -> Found:
    """V12: how many there may be of each."""
    if len(spec.nets) > 64:
        net = spec.nets[64]
        yield net.name, net.name, Finding(net.node.span, f"there are {len(spec.nets)} nets", "a specification has at most 64")
    for net in spec.nets:
        nodes = [net.node.get("conditions"), net.node.get("task")]
        last = next((it.items()[-1] for it in reversed(nodes) if it and it.items()), net.node)
        for count, most, what, node in (
            (len(list(net.nodes())), 256, "conditions and tasks", last), (len(net.flows), 1024, "flows", net.node.get("flows")),
            (len(net.variables), 64, "variables", net.node.get("vars")),
        ):
            if count > most:
                said = f"net `{net.name}` has {count:,} {what}"
                yield net.name, net.name, Finding(node.key_or_value, said, f"a net has at most {most:,}")
        for task in net.tasks:
            for key, most in (("ins", 32), ("outs", 32), ("remove", 256)):
                node = task.node.get(key)
                if node and len(node.items()) > most:
                    what = f"task `{task.name}` has {len(node.items())} in `{key}`"
                    yield net.name, task.name, Finding(node.key_or_value, what, f"it has at most {most}")
