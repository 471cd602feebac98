"""The log and the journal: the entries of each example, all kinds of events, damage, and a file that is being written."""

import json
import subprocess
import time
import unittest

from support import NAMES, TOOLS, FolderTest, example, program_path, run, serve
from yawl.journal import Journal, NotAnEntry, read_entry

LOG = TOOLS / "log"
ANN = '{"cmd":"person","name":"ann","roles":["clerk"]}\n'
HEADER = b"\1YWJ1" + (1).to_bytes(8, "big") + bytes(16)


def name(text: str) -> bytes:
    return bytes([len(text)]) + text.encode()


def number(size: int, value: int) -> bytes:
    return value.to_bytes(size, "big")


def identity(*numbers: int) -> bytes:
    return bytes([len(numbers)]) + b"".join(number(8, it) for it in numbers)


def record(*events: bytes) -> bytes:
    """A length and an entry, as they stand after an open gate."""
    entry = number(2, len(events)) + b"".join(events)
    return number(4, len(entry)) + entry


ITEM = identity(1, 2)
PLACES = number(4, 2) + b"\0" + name("i") + b"\1" + name("a") + name("b")
# Each kind of events: its bytes, and its step.
EVENTS = [
    (b"\1" + name("ann") + b"\1" + name("clerk"), "person ann"),
    (b"\2" + name("order") + number(4, 2) + b"x\n", "load order"),
    (b"\3" + name("loan") + name("main") + name("pay") + b"\4" + number(4, 0) + b"\1" + number(4, 4) + b"true" + b"\1" + number(4, 2) + b"\0\x08"
     + name("remind") + number(4, 7), "rule 7"),
    (b"\4" + number(8, 1) + name("order") + number(4, 1) + b"\1" + number(8, 200), "launch 1 order"),
    (b"\5" + identity(1, 9) + name("a") + PLACES + number(8, 10) + number(4, 3), "enter 1.9 a from i,a->b as 1.9.10,1.9.11,1.9.12"),
    (b"\6" + ITEM + name("ann"), "start 1.2"),
    (b"\7" + ITEM + number(4, 5) + b"\0\1" + b"\1" + b"\xff" * 8 + b"\2" + number(4, 2) + "ü".encode() + b"\3" + number(4, 1) + number(8, 5)
     + b"\4" + number(4, 0), "complete 1.2"),
    (b"\x08" + identity(1) + name("a") + PLACES, "exit 1 a to i,a->b"),
    (b"\x09" + identity(1) + name("a") + b"\2" + number(4, 3) + b"kim" + number(8, 6), "add 1 a as 1.6"),
    (b"\x0a" + number(8, 1), "finish 1"),
    (b"\x0b" + number(8, 281474976710655), "cancel 281474976710655"),
    (b"\x0c" + ITEM, "startsub 1.2"),
    (b"\x0d" + ITEM, "completesub 1.2"),
    (b"\x0e" + ITEM, "completeempty 1.2"),
    (b"\x0f" + ITEM + b"\2", "pass 1.2 select"),
    (b"\x10" + ITEM + b"\0" + number(4, 3) + number(8, 9), "except 1.2 pre 3 as 1.2.9"),
    (b"\x11" + ITEM + name("deep"), "substitute 1.2 by deep"),
    (b"\x12" + ITEM, "completeworklet 1.2"),
    (b"\x13" + identity(1) + b"\3" + number(4, 1) + number(8, 9), "raise 1 external 1 as 1.9"),
    (b"\x14" + identity(1, 9) + b"\7", "prim 1.9 remove_case"),
    (b"\x14" + identity(1, 9) + b"\x08" + name("remind"), "prim 1.9 compensate remind"),
    (b"\x15" + identity(1, 9), "compensated 1.9"),
    (b"\x16" + ITEM, "suspend 1.2"),
    (b"\x17" + ITEM, "continue 1.2"),
    (b"\x18" + number(8, 1), "advance 1"),
]
# What is no event, and why.
WRONG = {
    "tag": b"\x19" + number(8, 1),
    "no tag": b"",
    "name with a dash": b"\6" + ITEM + name("a-b"),
    "name that begins with a digit": b"\6" + ITEM + name("1a"),
    "no name": b"\6" + ITEM + b"\0",
    "name of 65 letters": b"\6" + ITEM + name("a" * 65),
    "name that passes the end": b"\6" + ITEM + b"\4ann",
    "identity without numbers": b"\x0c\0",
    "identity of 41 numbers": b"\x0c" + identity(*[1] * 41),
    "number 0": b"\x0c" + identity(1, 0),
    "number 2^48": b"\x0c" + identity(1 << 48),
    "text that isn't UTF-8": b"\2" + name("a") + number(4, 1) + b"\xff",
    "place of a third kind": b"\x08" + identity(1) + name("a") + number(4, 1) + b"\2" + name("i"),
    "value of a sixth sort": b"\7" + ITEM + number(4, 1) + b"\5",
    "truth of 2": b"\7" + ITEM + number(4, 1) + b"\0\2",
    "count that passes the end": b"\7" + ITEM + b"\xff" * 4,
    "bytes after it": b"\x18" + number(8, 1) + b"\0",
}


class EntryTest(unittest.TestCase):
    def test_each_kind_has_its_step(self):
        for event, step in EVENTS:
            [read] = read_entry(number(2, 1) + event)
            self.assertEqual(read.text, step)

    def test_the_fields_are_told(self):
        whole = {read_entry(number(2, 1) + event)[0].word: read_entry(number(2, 1) + event)[0] for event, _ in EVENTS}
        self.assertEqual(whole["complete"].fields, {"item": "1.2", "values": [True, -1, "ü", [5], []]})
        self.assertEqual(whole["person"].fields, {"name": "ann", "roles": ["clerk"]})
        self.assertEqual(whole["rule"].fields["then"], {"exlet": ["suspend_item", "compensate remind"]})
        self.assertEqual(whole["enter"].items, ["1.9.10", "1.9.11", "1.9.12"])

    def test_what_is_no_entry(self):
        for why, event in WRONG.items():
            with self.subTest(why), self.assertRaises(NotAnEntry):
                read_entry(number(2, 1) + event)
        for count in (0, 2, 4098):
            with self.subTest(count=count), self.assertRaises(NotAnEntry):
                read_entry(number(2, count) + EVENTS[-1][0] * min(count, 1))


class ExamplesTest(FolderTest):
    def test_the_steps_are_those_of_the_replies(self):
        for name_of in NAMES:
            folder = self.folder / name_of
            folder.mkdir()
            said = serve(folder, example(name_of, "jsonl"))
            self.assertEqual(said, example(name_of, "replies"))
            steps = [reply["steps"] for reply in map(json.loads, said.splitlines()) if reply["ok"]]
            wanted = "".join(f"{n} {'; '.join(it)}\n" for n, it in enumerate(steps, 1))
            self.assertEqual(run(LOG, folder), (0, wanted))
            told = [json.loads(line) for line in run(LOG, "--json", folder)[1].splitlines()]
            self.assertEqual([it["steps"] for it in told], steps)
            self.assertEqual([it["entry"] for it in told], list(range(1, len(steps) + 1)))

    def test_each_loads_its_file(self):
        for name_of in NAMES:
            loads = [line for line in map(json.loads, example(name_of, "jsonl").splitlines()) if line["cmd"] == "load"]
            self.assertEqual([it["toml"] for it in loads], [example(name_of, "toml")])

    def test_removal_sets_matter(self):
        for name_of in ("claims", "mortgage", "insurance"):
            folder = self.folder / name_of
            folder.mkdir()
            without = [line for line in example(name_of, "toml").splitlines() if not line.startswith("remove = ")]
            lines = example(name_of, "jsonl").splitlines()
            lines[3] = json.dumps({"cmd": "load", "toml": "\n".join(without)})
            replies = map(json.loads, serve(folder, "\n".join(lines)).splitlines())
            wanted = map(json.loads, example(name_of, "replies").splitlines())
            first = next((now, then) for now, then in zip(replies, wanted) if now != then)
            self.assertEqual((first[0]["ok"], first[1].get("rule")), (True, "UnknownItem"))


class DamageTest(FolderTest):
    def log(self) -> tuple[int, str]:
        return run(LOG, self.folder)

    def server(self) -> tuple[int, str]:
        return run(program_path(), self.folder, "run")

    def made(self, content: bytes, file: str = "yawl.a") -> None:
        (self.folder / file).write_bytes(content)

    def damaged(self, content: bytes, place: int, before: str = "") -> None:
        """The file is damaged here, for the log as for the server; the log says the entries before it."""
        self.made(content)
        damage = f'{{"at":{place},"damaged":"a"}}\n'
        self.assertEqual(self.log(), (7, before + damage))
        self.assertEqual(self.server(), (7, damage))

    def test_the_header(self):
        start = HEADER + b"\0"
        self.damaged(start[:4] + b"2" + start[5:], 1)
        self.damaged(start[:5] + bytes(8) + start[13:], 5)
        self.damaged(start[:5] + number(8, (1 << 62) + 1) + start[13:], 5)
        self.damaged(start[:13] + number(8, (1 << 62) + 1) + start[21:], 13)
        self.damaged(start[:21] + number(8, 100) + start[29:], 21)

    def test_gates_and_records(self):
        ann = record(EVENTS[0][0])
        whole = HEADER + b"\1" + ann
        gate = len(whole)
        self.damaged(whole, gate, "1 person ann\n")
        self.damaged(whole + b"\1", gate, "1 person ann\n")
        self.damaged(whole + b"\1\0\0\0\5abcd", gate, "1 person ann\n")
        self.damaged(whole + b"\1" + record(b"\x19") + b"\0", gate, "1 person ann\n")
        self.damaged(whole + b"\1" + number(4, 0) + b"\0", gate, "1 person ann\n")

    def test_what_counts_for_nothing(self):
        ann = record(EVENTS[0][0])
        self.made(HEADER + b"\1" + ann + b"\0" + ann + b"\1 left over")
        self.assertEqual(self.log(), (0, "1 person ann\n"))
        for content in (b"", HEADER, b"\0" + HEADER[1:] + b"\1" + ann + b"\0"):
            self.made(content)
            self.assertEqual(self.log(), (0, ""))

    def test_two_files(self):
        ann, bob = record(EVENTS[0][0]), record(b"\1" + name("bob") + b"\0")
        newer = b"\1YWJ1" + number(8, 2) + number(8, 5) + bytes(8)
        self.made(HEADER + b"\1" + ann + b"\0")
        self.made(newer + b"\1" + bob + b"\0", "yawl.b")
        self.assertEqual(self.log(), (0, "6 person bob\n"))
        self.made(HEADER + b"\1" + bob + b"\0", "yawl.b")
        self.assertEqual(self.log(), (7, '{"at":5,"damaged":"b"}\n'))
        self.made(newer[:21] + number(8, 4) + b"abcd\0", "yawl.b")
        ran = subprocess.run([LOG, self.folder], capture_output=True)
        self.assertEqual((ran.returncode, ran.stdout), (1, b""))
        self.assertIn(b"snapshot", ran.stderr)

    def test_no_folder(self):
        ran = subprocess.run([LOG, self.folder / "none"], capture_output=True)
        self.assertEqual((ran.returncode, ran.stdout), (3, b""))
        self.assertEqual(self.log(), (0, ""))


class FollowTest(FolderTest):
    def test_entries_are_told_as_they_come(self):
        log = subprocess.Popen([LOG, "--follow", self.folder], stdout=subprocess.PIPE)
        server = subprocess.Popen([program_path(), self.folder, "run"], stdin=subprocess.PIPE, stdout=subprocess.PIPE)
        try:
            for n, who in enumerate(("ann", "bob", "cy"), 1):
                server.stdin.write(ANN.replace("ann", who).encode())
                server.stdin.flush()
                server.stdout.readline()
                self.assertEqual(log.stdout.readline(), f"{n} person {who}\n".encode())
        finally:
            for process in (server, log):
                process.kill()
                process.communicate()

    def test_a_journal_is_read_while_it_is_written(self):
        lines = example("order", "jsonl").splitlines()
        load = json.dumps({"cmd": "launch", "spec": "order", "data": {"amount": 1}}) + "\n"
        serve(self.folder, "\n".join(lines[:2]) + "\n")
        journal = Journal(self.folder)
        server = subprocess.Popen([program_path(), self.folder, "run"], stdin=subprocess.PIPE, stdout=subprocess.DEVNULL)
        server.stdin.write(load.encode() * 300)
        server.stdin.close()
        seen = []
        until = time.monotonic() + 30
        while server.poll() is None and time.monotonic() < until:
            seen += [event.text for _, events in journal.entries() for event in events]
        server.wait()
        seen += [event.text for _, events in journal.entries() for event in events]
        self.assertEqual(seen, ["person ann", "load order"] + [f"launch {n} order" for n in range(1, 301)])


if __name__ == "__main__":
    unittest.main()
