"""From what the server answers to `check` to the place in the file, what is wrong there, and what to do."""

from __future__ import annotations

from . import check_nets, check_tasks, shape, toml
from .document import Finding, Node, Source, Span, TextFault, steps
from .nets import NoShape, Spec, spec_of

LARGEST = 1_048_576
CHECKS = {
    "V1": check_nets.names, "V2": check_nets.flows, "V3": check_nets.paths, "V4": check_tasks.removals, "V5": check_tasks.several,
    "V6": check_nets.nested, "V7": check_nets.depth, "V8": check_nets.cycles, "V9": check_tasks.sorts, "V10": check_tasks.branches,
    "V11": check_tasks.parameters, "V12": check_nets.bounds,
}
SECTION = "docs/SPECIFICATIONS.md says what is wrong under"


def decoded(name: str, data: bytes) -> tuple[Source, Finding | None]:
    """A file's text, and what is wrong with its bytes. Bytes that aren't UTF-8 show as `\\ufffd`."""
    source = Source(name, data.decode(errors="replace"))
    try:
        data.decode()
    except UnicodeDecodeError as fault:
        before = len(data[: fault.start].decode())
        return source, Finding(Span(before, before + 1), f"the byte {data[fault.start]:#04x} is no UTF-8", "save the file as UTF-8")
    return source, None


def read(name: str, data: bytes) -> tuple[Source, Spec | Finding]:
    """The specification in a file, unchecked; or what is wrong with its bytes, its TOML or its shape."""
    source, finding = decoded(name, data)
    if finding:
        return source, finding
    try:
        return source, spec_of(toml.read(source.text))
    except (TextFault, NoShape) as fault:
        return source, fault.finding


def explain(source: Source, rule: str, at: str) -> Finding:
    """What a refusal by this rule, with this `at`, means in this text."""
    if rule == "LineTooLong":
        what = f"the text has more than {LARGEST:,} bytes"
        return Finding(Span(0, 1), what, "take comments out, or part the process over several specifications")
    try:
        root = toml.read(source.text)
    except TextFault as fault:
        return fault.finding
    if rule == "SpecShape":
        return _shape(root, at)
    if rule == "SpecCheck":
        return _check(spec_of(root), at)
    return Finding(Span(0, 1), "the server reads this text as no TOML", "this tool finds no fault in it: try another reader of TOML 1.1")


def _shape(root: Node, path: str) -> Finding:
    """The fault at a path: the first that this package finds, where it is at the same path."""
    found = shape.fault(root)
    if found and found[0] == path:
        return found[1]
    node = root
    for step in steps(path):
        below = node.get(step) if isinstance(step, str) else next(iter(node.items()[step : step + 1]), None)
        node = below or node
    return Finding(node.key_or_value, f"`{path}` is missing, unknown or of another kind", f"{SECTION} `What a fault says`")


def _check(spec: Spec, at: str) -> Finding:
    """The first of what a failed check finds at this net and offender."""
    check, net, offender = at.split(" ")
    for place, name, finding in CHECKS[check](spec):
        if (place, name) == (net, offender):
            return Finding(finding.span, f"{check}: {finding.what}", finding.do, finding.also)
    owner = spec.net(net)
    span = check_nets.node_of(owner, offender) if owner else spec.node.span
    return Finding(span, f"{check} fails in net `{net}` at `{offender}`", f"{SECTION} {check}")
