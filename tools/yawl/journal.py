"""The two files of a folder: their headers, their entries, and the events in these with their step texts.

The server holds a state as one file of entries. Each stands after a gate, a byte that is 1 where the entry counts; the first gate that
isn't open ends them. A file is only read here, also while a server writes it: a gate is opened when its entry stands whole.
"""

import os
import re
from collections.abc import Callable, Iterator, Sequence
from dataclasses import dataclass
from pathlib import Path
from typing import NoReturn, TypeVar

T = TypeVar("T")

FILES = {"a": "yawl.a", "b": "yawl.b"}
MAGIC = b"YWJ1"
# A header with its first gate: gate, magic, generation, count, length of the snapshot; and the gate after an empty snapshot.
HEADER = 29
GREATEST = 1 << 62
MOST_EVENTS = 4097
NUMBER_END = 1 << 48
MOST_NUMBERS = 40
PIECE = 1 << 16

NAME = re.compile(r"[A-Za-z_][A-Za-z0-9_]{0,63}\Z")
TREES = ("pre", "post", "select", "external", "timeout", "abort")
PRIMITIVES = ("suspend_item", "continue_item", "restart_item", "complete_item", "remove_item", "suspend_case", "continue_case",
              "remove_case", "compensate")


class Damaged(Exception):
    """The files hold no state: the file `a` or `b` has its first damage at this offset."""

    def __init__(self, file: str, place: int) -> None:
        super().__init__(f"{FILES[file]} is damaged at byte {place}")
        self.file = file
        self.place = place


class Snapshot(Exception):
    """The chosen file begins with a snapshot, which this version doesn't read."""

    def __init__(self, file: str) -> None:
        super().__init__(f"{FILES[file]} begins with a snapshot, which this version doesn't read")
        self.file = file


class NotAnEntry(Exception):
    """The bytes are no entry's."""


class Reader:
    """Takes fields from the front of an entry's bytes. Each method raises `NotAnEntry` where its field doesn't stand there."""

    def __init__(self, entry: bytes) -> None:
        self.entry = entry
        self.at = 0

    def take(self, size: int) -> bytes:
        """The next bytes, so many."""
        end = self.at + size
        if end > len(self.entry):
            raise NotAnEntry
        taken, self.at = self.entry[self.at:end], end
        return taken

    def number(self, size: int) -> int:
        """A number of so many bytes, the most significant first."""
        return int.from_bytes(self.take(size), "big")

    def u32(self) -> int:
        """A number of four bytes."""
        return self.number(4)

    def u64(self) -> int:
        """A number of eight bytes."""
        return self.number(8)

    def i64(self) -> int:
        """A whole number of eight bytes, in two's complement."""
        return int.from_bytes(self.take(8), "big", signed=True)

    def choice(self, names: Sequence[T]) -> T:
        """A byte that picks one of these."""
        picked = self.number(1)
        if picked >= len(names):
            raise NotAnEntry
        return names[picked]

    def flag(self) -> bool:
        """A byte, 0 or 1."""
        return self.choice((False, True))

    def letters(self, size: int) -> str:
        """A text of so many bytes in UTF-8."""
        try:
            return self.take(size).decode()
        except UnicodeDecodeError:
            raise NotAnEntry from None

    def text(self) -> str:
        """A text after its length."""
        return self.letters(self.u32())

    def name_or_none(self) -> str:
        """A name after its length, or the empty text."""
        name = self.letters(self.number(1))
        if name and not NAME.match(name):
            raise NotAnEntry
        return name

    def name(self) -> str:
        """A name after its length."""
        return self.name_or_none() or self.refuse()

    def refuse(self) -> NoReturn:
        """Nothing that is allowed stands here."""
        raise NotAnEntry

    def list_of(self, field: Callable[[], object]) -> list:
        """Such fields after their count."""
        return [field() for _ in range(self.u32())]

    def names(self) -> list[str]:
        """Names after a count of one byte."""
        return [self.name() for _ in range(self.number(1))]

    def identity(self) -> str:
        """Numbers after their count, with dots between them."""
        numbers = [self.u64() for _ in range(self.number(1))]
        if not 1 <= len(numbers) <= MOST_NUMBERS or not all(0 < it < NUMBER_END for it in numbers):
            raise NotAnEntry
        return ".".join(map(str, numbers))

    def place(self) -> str:
        """A condition's name, or `t->u`."""
        return f"{self.name()}->{self.name()}" if self.flag() else self.name()

    def places(self) -> list[str]:
        """Places after their count."""
        return self.list_of(self.place)

    def value(self) -> bool | int | str | list:
        """A value after its sort."""
        return self.choice((self.flag, self.i64, self.text, lambda: self.list_of(self.i64), lambda: self.list_of(self.text)))()

    def values(self) -> list:
        """Values after their count."""
        return self.list_of(self.value)

    def tree(self) -> str:
        """The kind of a rule tree, or a check."""
        return self.choice(TREES)

    def primitive(self) -> str:
        """A primitive; `compensate` has its specification."""
        word = self.choice(PRIMITIVES)
        return f"{word} {self.name()}" if word == "compensate" else word

    def conclusion(self) -> dict:
        """What a rule concludes: a worklet or an exlet."""
        return {"exlet": self.list_of(self.primitive)} if self.flag() else {"worklet": self.name()}


@dataclass(frozen=True)
class Kind:
    """A kind of events: its word, its fields in order with the reader's method for each, and its step text over the fields."""
    word: str
    fields: dict[str, Callable[[Reader], object]]
    text: str


R = Reader
# By tag.
KINDS = {
    1: Kind("person", {"name": R.name, "roles": R.names}, "person {name}"),
    2: Kind("load", {"name": R.name, "toml": R.text}, "load {name}"),
    3: Kind("rule", {"spec": R.name, "net": R.name_or_none, "task": R.name_or_none, "kind": R.tree, "at": R.u32, "side": R.flag,
                     "when": R.text, "then": R.conclusion, "number": R.u32}, "rule {number}"),
    4: Kind("launch", {"case": R.u64, "spec": R.name, "values": R.values}, "launch {case} {spec}"),
    5: Kind("enter", {"net": R.identity, "task": R.name, "places": R.places, "first": R.u64, "count": R.u32},
            "enter {net} {task} from {places} as {items}"),
    6: Kind("start", {"item": R.identity, "who": R.name}, "start {item}"),
    7: Kind("complete", {"item": R.identity, "values": R.values}, "complete {item}"),
    8: Kind("exit", {"net": R.identity, "task": R.name, "places": R.places}, "exit {net} {task} to {places}"),
    9: Kind("add", {"net": R.identity, "task": R.name, "value": R.value, "number": R.u64}, "add {net} {task} as {net}.{number}"),
    10: Kind("finish", {"case": R.u64}, "finish {case}"),
    11: Kind("cancel", {"case": R.u64}, "cancel {case}"),
    12: Kind("startsub", {"item": R.identity}, "startsub {item}"),
    13: Kind("completesub", {"item": R.identity}, "completesub {item}"),
    14: Kind("completeempty", {"item": R.identity}, "completeempty {item}"),
    15: Kind("pass", {"at": R.identity, "check": R.tree}, "pass {at} {check}"),
    16: Kind("except", {"at": R.identity, "check": R.tree, "node": R.u32, "number": R.u64}, "except {at} {check} {node} as {at}.{number}"),
    17: Kind("substitute", {"item": R.identity, "spec": R.name}, "substitute {item} by {spec}"),
    18: Kind("completeworklet", {"item": R.identity}, "completeworklet {item}"),
    19: Kind("raise", {"at": R.identity, "kind": R.tree, "node": R.u32, "number": R.u64}, "raise {at} {kind} {node} as {at}.{number}"),
    20: Kind("prim", {"run": R.identity, "primitive": R.primitive}, "prim {run} {primitive}"),
    21: Kind("compensated", {"run": R.identity}, "compensated {run}"),
    22: Kind("suspend", {"at": R.identity}, "suspend {at}"),
    23: Kind("continue", {"at": R.identity}, "continue {at}"),
    24: Kind("advance", {"case": R.u64}, "advance {case}"),
}


@dataclass(frozen=True)
class Event:
    """An event: the word of its kind, its fields by name, and its step text, as replies have it."""
    word: str
    fields: dict[str, object]
    text: str

    @property
    def items(self) -> list[str]:
        """The identities of the items that an `enter` makes."""
        return items_of(self.fields) if self.word == "enter" else []


def items_of(fields: dict) -> list[str]:
    """The identities of the items that an `enter` with these fields makes."""
    return [f"{fields['net']}.{number}" for number in range(fields["first"], fields["first"] + fields["count"])]


def read_event(reader: Reader) -> Event:
    """The event at the front, or `NotAnEntry`."""
    kind = KINDS.get(reader.number(1)) or reader.refuse()
    fields = {name: field(reader) for name, field in kind.fields.items()}
    shown = dict(fields)
    if "places" in fields:
        shown["places"] = ",".join(fields["places"])
    if kind.word == "enter":
        shown["items"] = ",".join(items_of(fields))
    return Event(kind.word, fields, kind.text.format(**shown))


def read_entry(entry: bytes) -> list[Event]:
    """The events of an entry, or `NotAnEntry` where the bytes aren't exactly one."""
    reader = Reader(entry)
    count = reader.number(2)
    if not 1 <= count <= MOST_EVENTS:
        raise NotAnEntry
    events = [read_event(reader) for _ in range(count)]
    if reader.at != len(entry):
        raise NotAnEntry
    return events


@dataclass(frozen=True)
class Entry:
    """An entry: its number, counted from 1 over all that was ever held, the offsets of its gate and of the next, and its bytes."""
    number: int
    gate: int
    next: int
    bytes: bytes


@dataclass(frozen=True)
class Head:
    """The header of a live file."""
    file: str
    magic: bytes
    generation: int
    count: int
    snapshot: int


class Bytes:
    """The bytes of a file, read a piece at a time, for one pass over it."""

    def __init__(self, path: Path) -> None:
        self.file = os.open(path, os.O_RDONLY)
        self.at = 0
        self.piece = b""

    def __enter__(self) -> "Bytes":
        return self

    def __exit__(self, *_) -> None:
        os.close(self.file)

    def size(self) -> int:
        """The length of the file."""
        return os.fstat(self.file).st_size

    def read(self, at: int, size: int) -> bytes:
        """So many bytes from this offset, or fewer where the file ends before."""
        start = at - self.at
        if start < 0 or start + size > len(self.piece):
            self.at, self.piece, start = at, self.fetch(at, max(size, PIECE)), 0
        return self.piece[start:start + size]

    def fetch(self, at: int, size: int) -> bytes:
        """The same, from the file. A read may give fewer bytes than are there."""
        parts = []
        while size and (part := os.pread(self.file, size, at)):
            parts.append(part)
            at, size = at + len(part), size - len(part)
        return b"".join(parts)


def read_head(folder: Path, file: str) -> Head | None:
    """The header of a file, or None where the file isn't live: it lacks, has fewer than 30 bytes, or its first byte isn't 1."""
    try:
        with open(folder / FILES[file], "rb") as opened:
            found = opened.read(HEADER + 1)
    except FileNotFoundError:
        return None
    if len(found) <= HEADER or found[0] != 1:
        return None
    reader = Reader(found)
    reader.take(1)
    return Head(file, reader.take(len(MAGIC)), reader.u64(), reader.u64(), reader.u64())


def check_head(head: Head) -> None:
    """Raises the first damage that a live file's header shows."""
    if head.magic != MAGIC:
        raise Damaged(head.file, 1)
    if not 1 <= head.generation <= GREATEST:
        raise Damaged(head.file, 5)
    if head.count > GREATEST:
        raise Damaged(head.file, 13)


def choose(folder: Path) -> Head | None:
    """The header of the live file of higher generation, or None where no file is live."""
    heads = [head for file in FILES if (head := read_head(folder, file))]
    for head in heads:
        check_head(head)
    if len(heads) == 2 and heads[0].generation == heads[1].generation:
        raise Damaged("b", 5)
    return max(heads, key=lambda head: head.generation, default=None)


class Journal:
    """The entries of a folder, read one after another, also while a server appends to them.

    `number` is the number of the entries read, together with those that went into the file's beginning, and `gate` the offset of the gate
    at which reading goes on.
    """

    def __init__(self, folder: str | Path) -> None:
        """Looks at the headers. Raises `Damaged` or `Snapshot`, and FileNotFoundError where there is no folder."""
        self.folder = Path(folder)
        os.stat(self.folder)
        self.file = ""
        self.number = 0
        self.gate = HEADER
        self.look()

    def look(self) -> None:
        """Chooses the file. Where none is live, nothing is held so far."""
        head = choose(self.folder)
        if head and head.snapshot:
            with Bytes(self.folder / FILES[head.file]) as found:
                raise Damaged(head.file, 21) if head.snapshot > found.size() - HEADER else Snapshot(head.file)
        if head:
            self.file, self.number = head.file, head.count

    def next(self, found: Bytes) -> Entry | None:
        """The next entry in the file's bytes, or None where its gate is closed. Raises `Damaged` where the gate is missing, or open before a
        record that passes the end."""
        gate = found.read(self.gate, 1)
        if not gate:
            raise Damaged(self.file, self.gate)
        if gate != b"\1":
            return None
        length = found.read(self.gate + 1, 4)
        size = int.from_bytes(length, "big")
        entry = found.read(self.gate + 5, size)
        if len(length) < 4 or len(entry) < size:
            raise Damaged(self.file, self.gate)
        return Entry(self.number + 1, self.gate, self.gate + 5 + size, entry)

    def records(self) -> Iterator[Entry]:
        """The entries from here to the closed gate, as they stand now."""
        if not self.file:
            self.look()
        if not self.file:
            return
        with Bytes(self.folder / FILES[self.file]) as found:
            while entry := self.next(found):
                yield entry
                self.number, self.gate = entry.number, entry.next

    def events(self, entry: Entry) -> list[Event]:
        """The events of an entry. Raises `Damaged` at its gate where its bytes are none."""
        try:
            return read_entry(entry.bytes)
        except NotAnEntry:
            raise Damaged(self.file, entry.gate) from None

    def entries(self) -> Iterator[tuple[Entry, list[Event]]]:
        """The entries from here to the closed gate, with their events. Raises `Damaged` at the first that is none."""
        for entry in self.records():
            yield entry, self.events(entry)

    def to_end(self) -> Entry | None:
        """Goes on to the closed gate, and gives the last entry on the way, whose events aren't looked at."""
        last = None
        for last in self.records():
            pass
        return last
