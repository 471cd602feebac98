"""What is at fault where a check of tasks fails: V4, V5, V9, V10 and V11.

Each function gives all that its check finds, in the server's order: the net and the offender as the server prints them, and a finding.
"""

from __future__ import annotations

from dataclasses import dataclass
from typing import Iterator

from .check_nets import Found
from .document import Finding, Node
from .expression import Fault, article, sort_of
from .names import did_you_mean
from .nets import UNBOUNDED, Net, Parameter, Spec, Task

LISTS = {"int": "ints", "text": "texts"}


def _each(spec: Spec, of) -> Found:
    """What a function finds for each task."""
    for net in spec.nets:
        for task in net.tasks:
            for finding in of(spec, net, task):
                yield net.name, task.name, finding


def removals(spec: Spec) -> Found:
    """V4: a removal set names conditions, implicit ones and tasks."""
    return _each(spec, _removals)


def _removals(_: Spec, net: Net, task: Task) -> Iterator[Finding]:
    known = [*net.conditions, *(it.name for it in net.tasks), *(it for it in net.places() if "->" in it)]
    node = task.node.get("remove")
    for entry in node.items() if node else []:
        if entry.value in (net.input, net.output):
            which = "input" if entry.value == net.input else "output"
            yield Finding(entry.span, f"`remove` names the {which} `{entry.value}`", "take it out: the input and the output aren't emptied")
        elif entry.value not in known:
            what = f"`remove` names `{entry.value}`, which is no condition, no implicit condition and no task of net `{net.name}`"
            if "->" in entry.value:
                what = f"`remove` names `{entry.value}`, and no flow leads so from a task to a task of net `{net.name}`"
            yield Finding(entry.span, what, did_you_mean(entry.value, known))


def several(spec: Spec) -> Found:
    """V5: several items are of an atomic or composite task, with bounds that fit and an item; other tasks have none of it."""
    return _each(spec, _several)


def _several(_: Spec, __: Net, task: Task) -> Iterator[Finding]:
    node = task.node
    if task.each is None:
        for key in ("item", "min", "max", "threshold", "dynamic"):
            if node.get(key):
                do = "add `each = ..` with the list of the elements, or take the key out"
                yield Finding(node.get(key).key_or_value, f"task `{task.name}` has `{key}`, and no `each`", do)
        return
    if task.kind == "empty":
        yield Finding(node.get("each").key_or_value, f"task `{task.name}` is empty and has `each`", "take one of the two out")
    for key, number in (("min", task.least), ("max", task.most), ("threshold", task.threshold)):
        if not 1 <= number <= UNBOUNDED:
            yield Finding(node.get(key).span, f"`{key}` is {number}", f"write 1 to {UNBOUNDED:,}")
    if task.least > task.most:
        span = (node.get("min") or node.get("max")).span
        yield Finding(span, f"`min` is {task.least} and `max` is {task.most}", "let `min` be `max` at most")
    if task.item is None:
        do = "add `item = ..` with the name of the one of `ins` that is given the element"
        yield Finding(node.get("each").key_or_value, f"task `{task.name}` has `each`, and no `item`", do)
    elif task.item not in [it.name for it in task.ins]:
        do = "add it to `ins`, without a `value`"
        if task.ins:
            do = f"{did_you_mean(task.item, (it.name for it in task.ins))} Or {do}"
        yield Finding(node.get("item").span, f"`item` names `{task.item}`, which is none of the task's `ins`", do)


def branches(spec: Spec) -> Found:
    """V10: an XOR- or OR-split has a branch for each output, one of them the default; an AND-split has none."""
    return _each(spec, _branches)


def _branches(_: Spec, net: Net, task: Task) -> Iterator[Finding]:
    node = task.node.get("branch")
    ends = list(dict.fromkeys(it.target for it in net.flows if it.source == task.name))
    split = task.node.get("split")
    if task.split == "and":
        if task.branches:
            do = "write `split = \"xor\"` (one is taken) or `split = \"or\"` (all that hold), or take `branch` out"
            yield Finding(node.key_or_value, f"task `{task.name}` has branches, and its split is `and`", do)
        return
    if not task.branches:
        do = "add a branch for each of " + ", ".join(f"`{it}`" for it in ends) + ", one of them without `when`"
        yield Finding(split.span, f"task `{task.name}` has an `{task.split}` split without branches", do)
        return
    seen: dict[str, Node] = {}
    for it in task.branches:
        to = it.node.get("to")
        if it.to not in ends:
            do = did_you_mean(it.to, ends) if it.to not in net.nodes() else f'add the flow `["{task.name}", "{it.to}"]`, or mend `to`'
            yield Finding(to.span, f"a branch goes to `{it.to}`, and no flow leads there from `{task.name}`", do)
        elif it.to in seen:
            also = ((seen[it.to].span, "it stands here first"),)
            yield Finding(to.span, f"two branches go to `{it.to}`", "join the two conditions by `or`, or mend one `to`", also)
        seen.setdefault(it.to, to)
    for missing in (it for it in ends if it not in seen):
        do = f'add `{{ to = "{missing}", when = ".." }}`, or take the flow out'
        yield Finding(node.key_or_value, f"no branch goes to `{missing}`, to which a flow leads from `{task.name}`", do)
    yield from _defaults(task, node)


def _defaults(task: Task, node: Node) -> Iterator[Finding]:
    plain = [it for it in task.branches if it.when is None]
    if not plain:
        do = "take `when` from the last branch: it is the default, for where no other condition holds"
        yield Finding(task.branches[-1].node.get("when").key_or_value, f"no branch of `{task.name}` is without `when`", do)
    if len(plain) > 1:
        also = ((plain[0].node.span, "it is the first without `when`"),)
        do = "give each but one a `when`"
        yield Finding(plain[1].node.span, f"{len(plain)} branches of `{task.name}` are without `when`", do, also)


@dataclass(frozen=True)
class Expression:
    """An expression of a task: its node, what it is, the names that it may speak of, and the sorts wanted (any, where there is none)."""

    node: Node
    title: str
    scope: dict[str, str]
    wanted: tuple[str, ...]


def expressions(net: Net, task: Task) -> Iterator[Expression]:
    """The expressions of a task."""
    variables = {it.name: it.sort for it in net.variables}
    if task.each is not None:
        yield Expression(task.node.get("each"), "`each`", variables, ("ints", "texts"))
    for it in task.branches:
        if it.when is not None:
            yield Expression(it.node.get("when"), f"the `when` of the branch to `{it.to}`", variables, ("bool",))
    for it in task.ins:
        if it.value is not None:
            yield Expression(it.node.get("value"), f"the `value` of `{it.name}` in `ins`", variables, (it.sort,))
    made = {it.name: LISTS.get(it.sort, it.sort) if task.each is not None else it.sort for it in task.outs}
    for it in task.sets:
        wanted = (variables[it.variable],) if it.variable in variables else ()
        yield Expression(it.node.get("value"), f"the `value` for `{it.variable}` in `set`", {**variables, **made}, wanted)


def sorts(spec: Spec) -> Found:
    """V9: expressions parse, speak of what they may, and have the sort that is wanted."""
    return _each(spec, _sorts)


def _sorts(spec: Spec, net: Net, task: Task) -> Iterator[Finding]:
    for it in expressions(net, task):
        try:
            sort = sort_of(it.node.value, it.scope)
        except Fault as fault:
            do = _elsewhere(spec, net, task, it, fault.unknown) if fault.unknown else fault.do
            yield Finding(it.node.part(fault.start, fault.end), f"{it.title}: {fault.what}", do)
            continue
        if it.wanted and sort not in it.wanted:
            wanted = " or ".join(article(sort) for sort in it.wanted)
            what = f"{it.title} is {article(sort)}, and {wanted} is wanted"
            yield Finding(it.node.span, what, _for_sort(task, it, sort))


def _for_sort(task: Task, it: Expression, sort: str) -> str:
    if it.wanted == ("bool",) and sort == "int":
        return "compare it, as in `x = 1`"
    if task.each is not None and sort in ("ints", "texts"):
        return "under `each` an out is the list of what the items made: take `sum(x)`, `len(x)` or `x[0]`"
    return "mend the expression, or the sort of what it is for"


def _elsewhere(spec: Spec, net: Net, task: Task, it: Expression, name: str) -> str:
    """What to do about a name that is out of scope here, by where it is known."""
    if name in [out.name for out in task.outs]:
        return f"`{name}` is an out of the task: keep it by `set` in a variable of the net, and name the variable"
    if name in [given.name for given in task.ins]:
        return f"`{name}` is one of the task's `ins`: name the variable that it is made from"
    others = [other.name for other in spec.nets if name in [variable.name for variable in other.variables]]
    if others:
        return f"it is a variable of net `{others[0]}`: add one to net `{net.name}`, and hand the value over"
    makers = [other.name for other in net.tasks if name in [out.name for out in other.outs]]
    if makers:
        return f"it is an out of task `{makers[0]}`: keep it there by `set` in a variable of the net, and name the variable"
    return f"name one that is known ({did_you_mean(name, it.scope)}), or write a text in quotes, `'{name}'`"


def parameters(spec: Spec) -> Found:
    """V11: what a task is given, makes and keeps fits together, and fits its net."""
    return _each(spec, _parameters)


def _parameters(spec: Spec, net: Net, task: Task) -> Iterator[Finding]:
    yield from _values(net, task)
    sorts_of_ins = {it.name: it for it in task.ins}
    for out in task.outs:
        given = sorts_of_ins.get(out.name)
        if given and given.sort != out.sort:
            also = ((given.node.get("sort").span, "it has this sort in `ins`"),)
            do = "give both one sort, or one of them another name"
            yield Finding(out.node.get("sort").span, f"`{out.name}` has another sort in `outs` than in `ins`", do, also)
        if task.each is not None and out.sort not in LISTS:
            do = "under `each` an out is an int or a text: its values become a list"
            yield Finding(out.node.get("sort").span, f"the out `{out.name}` is of sort `{out.sort}`, under `each`", do)
    if task.kind == "empty":
        for key in ("role", "ins", "outs"):
            node = task.node.get(key)
            if node and (key == "role" or node.items()):
                do = "take it out, or the line `kind = \"empty\"`: nobody works on an empty task"
                yield Finding(node.key_or_value, f"task `{task.name}` is empty and has `{key}`", do)
    if task.kind == "sub" and spec.net(task.net):
        yield from _handed_over(spec.net(task.net), task)
    variables = [it.name for it in net.variables]
    for it in task.sets:
        if it.variable not in variables:
            what = f"`set` names `{it.variable}`, which is no variable of net `{net.name}`"
            yield Finding(it.node.get("var").span, what, did_you_mean(it.variable, variables))


def _values(net: Net, task: Task) -> Iterator[Finding]:
    """What is wrong with who has a `value` among `ins`."""
    for it in task.ins:
        item = task.each is not None and it.name == task.item
        if item and it.value is not None:
            do = "take `value` out: the item is given an element of `each`"
            yield Finding(it.node.get("value").key_or_value, f"`{it.name}` is the task's `item`, and has a `value`", do)
        elif not item and it.value is None:
            do = 'add `value = ".."`, an expression over the variables'
            yield Finding(it.node.get("name").span, f"`{it.name}` in `ins` of task `{task.name}` has no `value`", do)
        elif item:
            yield from _item_sort(net, task, it)


def _item_sort(net: Net, task: Task, item: Parameter) -> Iterator[Finding]:
    try:
        sort = sort_of(task.each, {it.name: it.sort for it in net.variables})
    except Fault:
        return
    if LISTS.get(item.sort) != sort:
        wanted = {"ints": "int", "texts": "text"}.get(sort, "int")
        what = f"`{item.name}` is of sort `{item.sort}`, and the elements of `each` are of sort `{wanted}`"
        yield Finding(item.node.get("sort").span, what, f"write `{wanted}`")


def _handed_over(child: Net, task: Task) -> Iterator[Finding]:
    """A composite task is given what its net takes in, and makes what its net gives out."""
    taken = {it.name: it for it in child.variables if it.use in ("in", "inout")}
    made = {it.name: it for it in child.variables if it.use in ("out", "inout")}
    for key, parts, theirs, uses in (("ins", task.ins, taken, "`in` or `inout`"), ("outs", task.outs, made, "`out` or `inout`")):
        for it in parts:
            span = it.node.get("name").span
            if it.name not in theirs:
                own = next((variable for variable in child.variables if variable.name == it.name), None)
                do = f"give it `use` {uses} there" if own else did_you_mean(it.name, theirs)
                yield Finding(span, f"`{it.name}` in `{key}` is no {uses} variable of net `{child.name}`", do, _there(own))
            elif it.sort != theirs[it.name].sort:
                also = ((theirs[it.name].node.get("sort").span, f"it has this sort in net `{child.name}`"),)
                what = f"`{it.name}` in `{key}` is of sort `{it.sort}`, and in net `{child.name}` of sort `{theirs[it.name].sort}`"
                yield Finding(it.node.get("sort").span, what, "give both one sort", also)
    for name, variable in taken.items():
        if name not in [it.name for it in task.ins]:
            span = (task.node.get("ins") or task.node.get("net")).key_or_value
            do = f'add `{{ name = "{name}", sort = "{variable.sort}", value = ".." }}` to `ins`'
            yield Finding(span, f"net `{child.name}` takes `{name}` in, and task `{task.name}` doesn't hand it over", do, _there(variable))


def _there(variable) -> tuple:
    return ((variable.node.get("name").span, "it stands here"),) if variable else ()
