"""What a picture shows: nets, and of a running case what stands in them."""

from __future__ import annotations

from dataclasses import dataclass, field

from .nets import Net, Spec


@dataclass(frozen=True)
class Work:
    """An item of a task: its identity, its stage in small letters, and who works or worked at it, or nobody."""

    identity: str
    stage: str
    who: str = ""

    @property
    def text(self) -> str:
        """In a few words: `1.3 executing: ann`."""
        return f"{self.identity} {self.stage}{f': {self.who}' if self.who else ''}"


@dataclass(frozen=True)
class View:
    """A net to be shown: its title, and, where it runs, tokens by place and items by task."""

    title: str
    net: Net
    tokens: dict[str, int] = field(default_factory=dict)
    work: dict[str, list[Work]] = field(default_factory=dict)


def views_of(spec: Spec) -> list[View]:
    """All nets of a specification, each with the tasks whose work it is."""
    views = []
    for net in spec.nets:
        users = [f"{task.name} in {other.name}" for other in spec.nets for task in other.tasks if task.net == net.name]
        title = f"{spec.name}: {net.name}" if net.name == spec.top else f"{net.name}: the work of {' and of '.join(users)}"
        views.append(View(title, net))
    return views


def branch_labels(net: Net) -> dict[tuple[str, str], str]:
    """What is written beside the flows of XOR- and OR-splits: the condition, or `else` at the default."""
    return {(task.name, it.to): it.when if it.when is not None else "else" for task in net.tasks for it in task.branches}
