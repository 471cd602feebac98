"""From the events of a folder to what stands in it: persons, specifications, and in each case its nets, their tokens, and the items of work.

Events are taken as they come, since the server held each only where it was allowed. Values aren't kept.
"""

from __future__ import annotations

from collections import Counter
from dataclasses import dataclass, field
from pathlib import Path

from . import toml
from .document import TextFault
from .journal import Damaged, Event, Journal, Snapshot
from .nets import Net, NoShape, Spec, spec_of
from .scene import View, Work

Identity = tuple[int, ...]


class NotReplayed(Exception):
    """The folder can't be read, or has what this tool doesn't know; the message says why."""


@dataclass
class Item:
    """An item of work: its task, `ready`, `executing` or `completed`, who started it, and the number of the event that started it, or 0."""

    task: str
    stage: str = "ready"
    who: str = ""
    started: int = 0


@dataclass
class Live:
    """A net that stands at an identity, with its tokens by place and its items by identity. `named` is the number of the last event by which
    it began, a task of it was entered, or an item was added."""

    spec: str
    net: Net
    named: int
    tokens: Counter[str] = field(default_factory=Counter)
    items: dict[Identity, Item] = field(default_factory=dict)


@dataclass
class Folder:
    """What stands after the events so far: persons, loaded specifications by name, and by the number of each case its nets by identity.
    `count` is the number of events taken."""

    persons: set[str] = field(default_factory=set)
    specs: dict[str, Spec] = field(default_factory=dict)
    cases: dict[int, dict[Identity, Live]] = field(default_factory=dict)
    count: int = 0

    def take(self, event: Event) -> None:
        """One event more. Raises NotReplayed where it isn't known here, or loads a text that isn't read here."""
        act = _ACTS.get(event.word)
        if act is None:
            raise NotReplayed(f"the folder has an event `{event.word}`, which this tool doesn't know")
        self.count += 1
        act(self, event.fields)

    def net(self, at: Identity) -> Live:
        """The net at an identity."""
        return self.cases[at[0]][at]

    # Each of these takes the fields of one kind of event.

    def nothing(self, _: dict) -> None:
        """An event that changes no net."""

    def person(self, fields: dict) -> None:
        """A person is known."""
        self.persons.add(fields["name"])

    def load(self, fields: dict) -> None:
        """A specification is loaded."""
        try:
            self.specs[fields["name"]] = spec_of(toml.read(fields["toml"]))
        except (TextFault, NoShape):
            raise NotReplayed(f"the folder has a specification `{fields['name']}`, which this tool can't read") from None

    def launch(self, fields: dict) -> None:
        """A case begins with its top net."""
        self.begin((fields["case"],), fields["spec"], None)

    def enter(self, fields: dict) -> None:
        """A task takes tokens, and its items are made."""
        at, task = identity_of(fields["net"]), fields["task"]
        live = self.net(at)
        live.named = self.count
        live.tokens -= Counter(fields["places"])
        for number in range(fields["first"], fields["first"] + fields["count"]):
            live.items[(*at, number)] = Item(task)

    def start(self, fields: dict) -> None:
        """A person starts an item."""
        item = self.item(fields)
        item.stage, item.who, item.started = "executing", fields["who"], self.count

    def complete(self, fields: dict) -> None:
        """An item is completed."""
        self.item(fields).stage = "completed"

    def exit(self, fields: dict) -> None:
        """A task is left: its items and what it removes go, and it gives tokens."""
        at = identity_of(fields["net"])
        live = self.net(at)
        task = live.net.task(fields["task"])
        for name in (task.name, *task.removes):
            live.tokens.pop(name, None)
            self.remove_items(at, name)
        live.tokens += Counter(fields["places"])

    def add(self, fields: dict) -> None:
        """One more item of a task is made."""
        at = identity_of(fields["net"])
        live = self.net(at)
        live.named = self.count
        live.items[(*at, fields["number"])] = Item(fields["task"])

    def end(self, fields: dict) -> None:
        """A case is over."""
        del self.cases[fields["case"]]

    def start_sub(self, fields: dict) -> None:
        """The net of an item begins."""
        at = identity_of(fields["item"])
        item = self.item(fields)
        item.stage = "executing"
        parent = self.net(at[:-1])
        self.begin(at, parent.spec, parent.net.task(item.task).net)

    def substitute(self, fields: dict) -> None:
        """A worklet begins in place of an item."""
        self.item(fields).stage = "executing"
        self.begin(identity_of(fields["item"]), fields["spec"], None)

    def complete_net(self, fields: dict) -> None:
        """The net of an item ends, which completes the item."""
        self.remove(identity_of(fields["item"]))
        self.item(fields).stage = "completed"

    # What they share.

    def item(self, fields: dict) -> Item:
        """The item that an event names."""
        at = identity_of(fields["item"])
        return self.net(at[:-1]).items[at]

    def begin(self, at: Identity, name: str, net: str | None) -> None:
        """A net begins with a token in its input: that of the specification which is named, or its top."""
        spec = self.specs[name]
        found = spec.net(net or spec.top)
        self.cases.setdefault(at[0], {})[at] = Live(name, found, self.count, Counter([found.input]))

    def remove(self, at: Identity) -> None:
        """The nets at an identity and below it go."""
        nets = self.cases[at[0]]
        for it in [it for it in nets if it[: len(at)] == at]:
            del nets[it]

    def remove_items(self, at: Identity, task: str) -> None:
        """The items of a task go, with the nets at them and below."""
        items = self.net(at).items
        for it in [it for it, item in items.items() if item.task == task]:
            del items[it]
            self.remove(it)


_ACTS = {
    "person": Folder.person, "load": Folder.load, "rule": Folder.nothing, "launch": Folder.launch, "enter": Folder.enter,
    "start": Folder.start, "complete": Folder.complete, "exit": Folder.exit, "add": Folder.add, "finish": Folder.end,
    "cancel": Folder.end, "startsub": Folder.start_sub, "completesub": Folder.complete_net, "completeempty": Folder.complete,
    "pass": Folder.nothing, "substitute": Folder.substitute, "completeworklet": Folder.complete_net, "suspend": Folder.nothing,
    "continue": Folder.nothing, "advance": Folder.nothing,
}


def identity_of(text: str) -> Identity:
    """The numbers of an identity."""
    return tuple(map(int, text.split(".")))


def dotted(at: Identity) -> str:
    """An identity as lines have it."""
    return ".".join(map(str, at))


def replay(folder: Path) -> Folder:
    """What stands after all that a folder holds. Raises NotReplayed."""
    state = Folder()
    try:
        for _, events in Journal(folder).entries():
            for event in events:
                state.take(event)
    except (Damaged, Snapshot) as fault:
        raise NotReplayed(str(fault)) from None
    return state


def views_of_case(folder: Path, case: int) -> list[View]:
    """The nets of a case in order of identity; none where no such case stands. Raises NotReplayed."""
    nets = replay(folder).cases.get(case, {})
    return [_view(at, nets) for at in sorted(nets)]


def _view(at: Identity, nets: dict[Identity, Live]) -> View:
    live = nets[at]
    work: dict[str, list[Work]] = {}
    for identity, item in sorted(live.items.items()):
        work.setdefault(item.task, []).append(Work(dotted(identity), item.stage, item.who))
    title = f"{live.spec}, case {at[0]}"
    if len(at) > 1:
        title = f"{live.net.name} at {dotted(at)}: the work of {nets[at[:-1]].items[at].task}"
    return View(title, live.net, dict(live.tokens), work)
