"""Queries: they answer what the tools take from the files, and tell of a line whose reply was lost."""

import json
import re
import tomllib

from support import NAMES, FolderTest, example
from test_schemas import schema
from yawl.journal import Journal
from yawl.known import Known
from yawl.replay import dotted
from yawl.server import Server

REPLY = schema("reply")
# A task to which items may be added.
MANY = """
name = "many"
top = "main"
[[net]]
name = "main"
input = "i"
output = "o"
vars = [{ name = "who", sort = "texts", use = "in" }]
flows = [["i", "vote"], ["vote", "o"]]
[[net.task]]
name = "vote"
each = "who"
item = "reviewer"
ins = [{ name = "reviewer", sort = "text" }]
dynamic = true
"""
MANY_LINES = [
    {"cmd": "person", "name": "ann", "roles": []},
    {"cmd": "load", "toml": MANY},
    {"cmd": "launch", "spec": "many", "data": {"who": ["kim", "lee"]}},
    {"cmd": "launch", "spec": "many", "data": {"who": ["max"]}},
    {"cmd": "enter", "who": "ann", "case": "1", "task": "vote"},
    {"cmd": "add", "who": "ann", "case": "1", "task": "vote", "value": "max"},
    {"cmd": "enter", "who": "ann", "case": "2", "task": "vote"},
    {"cmd": "add", "who": "ann", "case": "1", "task": "vote", "value": "ned"},
    {"cmd": "start", "who": "ann", "item": "1.5"},
    {"cmd": "complete", "who": "ann", "item": "1.5", "out": {}},
    {"cmd": "cancel", "case": "2"},
    {"cmd": "start", "who": "ann", "item": "1.3"},
]


def lines_of(name: str) -> list[dict]:
    """The lines of an example, or of the case above."""
    return MANY_LINES if name == "many" else list(map(json.loads, example(name, "jsonl").splitlines()))


def stands(known: Known, case: int) -> dict | None:
    """What the files hold of a case, as `show` has it but for values; None where the case doesn't stand."""
    nets = sorted(known.cases.get(case, {}).items())
    items = sorted((at, item) for _, live in nets for at, item in live.items.items())
    return {
        "nets": [[dotted(at), live.spec, live.net.name] for at, live in nets],
        "items": [[dotted(at), item.task, item.stage, item.who] for at, item in items],
        "tokens": [[dotted(at), *it] for at, live in nets for it in sorted(live.tokens.items())],
        "due": [], "runs": [], "suspended": [],
    } if nets else None


class Desk:
    """A server over an empty folder, and what its files hold."""

    def __init__(self, folder):
        folder.mkdir()
        self.server = Server(folder)
        self.journal = Journal(folder)
        self.known = Known()
        self.greatest = 0
        self.ends: dict[int, str] = {}

    def do(self, line: dict) -> bool:
        """Sends a command, and takes in what the files then hold. Gives whether the command was accepted."""
        reply = self.server.ask(line)
        for _, events in self.journal.entries():
            for event in events:
                self.known.take(event)
                if event.word in ("finish", "cancel"):
                    self.ends[event.fields["case"]] = "finished" if event.word == "finish" else "cancelled"
        numbers = [int(it) for step in reply.get("steps", []) for word in re.findall(r"(?<= )[\d.,]+", step) for it in re.split("[.,]", word)]
        self.greatest = max([self.greatest, *numbers])
        return reply["ok"]

    def ask(self, cmd: str, /, **fields):
        """The answer of a query, or None where it is refused as UnknownCase. Each reply is valid by its schema."""
        reply = self.server.ask({"cmd": cmd, **fields})
        if not REPLY.is_valid(reply) or not reply["ok"] and reply["rule"] != "UnknownCase":
            raise AssertionError(reply)
        return reply.get("answer")

    def items(self, identity: str) -> list[list[str]]:
        """The rows of the items that stand in the case of an identity."""
        shown = self.ask("show", case=identity.partition(".")[0])
        return shown["items"] if shown else []

    def has_item(self, item: str, *wanted: str) -> bool:
        """Whether an item stands, with the wanted words in its row."""
        return any(row[0] == item and set(wanted) <= set(row) for row in self.items(item))


def is_held(line: dict, desk: Desk, following: int) -> bool:
    """Whether a line without a reply is held, as docs/OPERATING asks. `following` is the number next to those that replies before it name."""
    match line:
        case {"cmd": "load", "toml": text}:
            return tomllib.loads(text)["name"] in desk.ask("specs")
        case {"cmd": "cancel", "case": number}:
            return desk.ask("ended", case=number) == "cancelled"
        case {"cmd": "enter", "case": net, "task": task}:
            return any(row[0].rpartition(".")[0] == net and row[1] == task for row in desk.items(net))
        case {"cmd": "start", "who": who, "item": item}:
            return desk.has_item(item, "executing", who)
        case {"cmd": "complete", "item": item}:
            return desk.has_item(item, "completed") or not desk.has_item(item)
        case {"cmd": "add", "case": net}:
            return desk.has_item(f"{net}.{following}")
        case {"cmd": "launch"}:
            return any(desk.ask(query, case=str(following)) for query in ("show", "ended"))
    raise AssertionError(line)


class QueriesTest(FolderTest):
    def desk(self, name: str) -> Desk:
        desk = Desk(self.folder / name)
        self.addCleanup(desk.server.end)
        return desk

    def test_the_files_hold_what_is_answered(self):
        for name in (*NAMES, "many"):
            desk = self.desk(name)
            launched = 0
            for line in lines_of(name):
                done = desk.do(line)
                launched = max(launched, desk.greatest) if line["cmd"] == "launch" and done else launched
                self.assertEqual(desk.ask("specs"), sorted(desk.known.specs))
                for case in range(1, launched + 1):
                    with self.subTest(example=name, line=line["cmd"], case=case):
                        shown = desk.ask("show", case=str(case))
                        if shown:
                            shown["nets"] = [row[:3] for row in shown["nets"]]
                        self.assertEqual(shown, stands(desk.known, case))
                        self.assertEqual(desk.ask("ended", case=str(case)), desk.ends.get(case))

    def test_a_line_whose_reply_was_lost_is_asked_about(self):
        tried = set()
        for name in (*NAMES, "many"):
            desk = self.desk(name)
            # Where there is an OR-join, more may come of an entry.
            waits = any('join = "or"' in line.get("toml", "") for line in lines_of(name))
            for line in lines_of(name):
                if line["cmd"] == "person" or waits and line["cmd"] == "enter":
                    desk.do(line)
                    continue
                following = desk.greatest + 1
                before = is_held(line, desk, following)
                if desk.do(line):
                    with self.subTest(example=name, line=line):
                        self.assertEqual((before, is_held(line, desk, following)), (False, True))
                    tried.add(line["cmd"])
        self.assertEqual(tried, {"load", "launch", "enter", "start", "complete", "add", "cancel"})
