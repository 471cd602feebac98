"""Each command in the documents is run, and each output that is shown is compared.

The commands of a document are run in their order, in one folder that has the examples, the tools, `./yw` and `./try`. Blocks are found by their fences:

- `sh` with lines that begin with `$ `: commands, each with its whole output below it;
- `sh` otherwise: commands that end well; what a single command says stands after `  # `;
- `python`: a program that ends well, and says what stands after each `  # `;
- lines of JSON: they stand in what was said so far.

In an output `..` at the end of a line stands for the rest of it. What isn't run is named in LEFT_OUT.
"""

import configparser
import json
import os
import re
import shlex
import shutil
import signal
import subprocess
import textwrap
import time
import unittest
from dataclasses import dataclass
from pathlib import Path

from support import TOP, FolderTest, example, program_path, serve
from yawl.journal import Journal
from yawl.server import STATUSES

DOCUMENTS = ("README.md", "docs/LINES.md", "docs/OPERATING.md", "docs/DESKS.md", "docs/SPECIFICATIONS.md", "tools/README.md")
FENCE = re.compile(r"^( *)```(\w*)\n(.*?)^ *```$", re.MULTILINE | re.DOTALL)
# A line with one of these isn't run.
LEFT_OUT = {
    ".ci/": "the gate, which runs this test",
    "systemctl": "it is the machine's",
    "sudo": "it is the machine's",
    "<process.toml": "the file is the reader's",
}
# Blocks in these languages are no commands.
LANGUAGES_LEFT_OUT = {"toml": "parts of a file", "json": "parts of a line", "js": "parts of a program", "ini": "a file of the machine",
                      "conf": "a file of the machine", "text": "a picture"}


@dataclass(frozen=True)
class Block:
    """What stands between two fences."""
    language: str
    text: str

    def is_output(self) -> bool:
        """Whether all its lines are such as the program says."""
        return all(line.startswith("{") for line in self.text.splitlines())


def blocks(document: str) -> list[Block]:
    """The blocks of a document."""
    return [Block(language, textwrap.dedent(text)) for _, language, text in FENCE.findall((TOP / document).read_text())]


def is_left_out(line: str) -> bool:
    return any(word in line for word in LEFT_OUT)


def sessions(text: str) -> list[tuple[str, str]]:
    """The commands after `$ `, each with the output below it. A command has the lines of what is handed to it by `<<WORD`."""
    found = []
    lines = iter(text.splitlines(keepends=True))
    for line in lines:
        if not line.startswith("$ "):
            found[-1] = (found[-1][0], found[-1][1] + line)
            continue
        command = line[2:]
        if end := re.search(r"<<'?(\w+)'?", command):
            while not command.endswith(f"\n{end[1]}\n"):
                command += next(lines)
        found.append((command, ""))
    return found


def is_shown(shown: str, said: str) -> bool:
    """Whether a line is that which is shown, where `..` at its end stands for the rest."""
    return said.startswith(shown[:-2]) if shown.endswith("..") else said == shown


class Room:
    """A folder in which a document's commands are run, and what they have said so far."""

    def __init__(self, test: unittest.TestCase, folder: Path):
        self.test = test
        self.folder = folder
        self.said = ""
        self.place = 0
        for name in ("examples", "tools", "docs"):
            (folder / name).symlink_to(TOP / name)
        self.script("yw", f'exec {program_path()} "$@"')
        # `.ci/program` runs the real one, which says the same.
        self.script("try", f'mkdir tried && exec {program_path()} tried run <examples/order.jsonl')
        self.furnish()

    def script(self, name: str, text: str) -> None:
        """A script that stands for one of the repository's."""
        (self.folder / name).write_text(f"#!/bin/sh\n{text}\n")
        (self.folder / name).chmod(0o755)

    def furnish(self) -> None:
        """What the documents suppose to be there: lines, a backup, and a copy that is damaged at PLACE, where a gate is open before the end. And
        a load of a specification that isn't accepted has had its reply."""
        (self.folder / "lines").write_text(example("order", "jsonl"))
        for name in ("backup", "refused"):
            (self.folder / name).mkdir()
        self.said += serve(self.folder / "refused", json.dumps({"cmd": "load", "toml": example("wrong", "toml")}))
        serve(self.folder / "backup", example("order", "jsonl"))
        shutil.copytree(self.folder / "backup", self.folder / "copy")
        journal = Journal(self.folder / "copy")
        journal.to_end()
        self.place = journal.gate
        with open(self.folder / "copy/yawl.a", "r+b") as file:
            file.seek(self.place)
            file.write(b"\1")

    def run(self, words: list[str]) -> tuple[int, str]:
        """The status of a command and what it said."""
        given = {**os.environ, "PYTHONPATH": "tools", "YAWL_PROGRAM": program_path()}
        ran = subprocess.run(words, cwd=self.folder, env=given, stdin=subprocess.DEVNULL, capture_output=True, text=True)
        self.said += ran.stdout
        return ran.returncode, ran.stdout

    def shell(self, command: str) -> tuple[int, str]:
        """The same of a command line."""
        return self.run(["bash", "-c", command.replace("PLACE", str(self.place))])

    def session(self, text: str) -> None:
        """Commands with their outputs."""
        for command, wanted in sessions(text):
            said = self.shell(command)[1]
            with self.test.subTest(command=command):
                self.test.assertEqual(len(said.splitlines()), len(wanted.splitlines()), said)
                for shown, line in zip(wanted.splitlines(), said.splitlines()):
                    self.test.assertTrue(is_shown(shown, line), f"shown: {shown}\nsaid:  {line}")

    def program(self, text: str, language: str) -> None:
        """A program that ends well, and says what stands after `  # `."""
        kept = [line for line in text.splitlines() if not is_left_out(line)]
        wanted = [found[1].split() for line in kept if (found := re.search(r"\S  +# (.*)$", line))]
        words = {"sh": ["bash", "-c"], "python": ["python3", "-c"]}[language]
        status, said = self.run([*words, "\n".join(kept).replace("PLACE", str(self.place))])
        with self.test.subTest(program=text):
            self.test.assertEqual(status, 0)
            if language == "python" or len(kept) == 1 and wanted and said:
                self.test.assertEqual([line.split() for line in said.splitlines()], wanted)

    def output(self, text: str) -> None:
        """Lines that were said."""
        for shown in text.splitlines():
            with self.test.subTest(shown=shown):
                self.test.assertTrue(any(is_shown(shown, line) for line in self.said.splitlines()), "it wasn't said")

    def block(self, block: Block) -> None:
        """Runs or compares a block."""
        if block.language in LANGUAGES_LEFT_OUT:
            return
        if block.is_output():
            self.output(block.text)
        elif block.language == "sh" and block.text.startswith("$ "):
            self.session(block.text)
        elif block.language in ("sh", "python"):
            self.program(block.text, block.language)
        else:
            self.test.fail(f"it is neither run nor named in LEFT_OUT:\n{block.text}")


class DocumentsTest(FolderTest):
    def room(self, name: str) -> Room:
        folder = self.folder / name.replace("/", "_")
        folder.mkdir()
        return Room(self, folder)

    def test_each_document(self):
        for document in DOCUMENTS:
            room = self.room(document)
            for block in blocks(document):
                with self.subTest(document=document):
                    room.block(block)

    def test_the_process_that_is_shown_whole_is_an_example(self):
        lines = [line for line in example("loan", "toml").splitlines(keepends=True) if not line.startswith("#")]
        self.assertIn("".join(lines), [block.text for block in blocks("docs/SPECIFICATIONS.md")])

    def test_a_gate_that_is_closed_by_hand_ends_the_damage(self):
        room = self.room("damage")
        status, said = room.shell("./yw copy run </dev/null")
        self.assertEqual((status, json.loads(said)), (7, {"at": room.place, "damaged": "a"}))
        [closing] = [block for block in blocks("docs/OPERATING.md") if "seek=PLACE" in block.text]
        room.block(closing)
        self.assertEqual(room.shell("./yw copy run </dev/null"), (0, ""))


def handed(pipe: Path, line: str) -> bool:
    """Whether a line could be written to a named pipe, which is opened and closed for it: somebody has to read the pipe."""
    try:
        end = os.open(pipe, os.O_WRONLY | os.O_NONBLOCK)
    except OSError:
        return False
    os.write(end, line.encode())
    os.close(end)
    return True


class UnitTest(FolderTest):
    """The unit of docs/OPERATING, over a folder of its own and the built program."""

    def within(self, tried) -> None:
        """Tries again and again, for half a minute at most."""
        until = time.monotonic() + 30
        while not tried():
            self.assertLess(time.monotonic(), until)
            time.sleep(0.01)

    def service(self) -> dict[str, str]:
        """The unit's lines on the service, by key."""
        [unit] = [block.text for block in blocks("docs/OPERATING.md") if block.language == "ini"]
        read = configparser.ConfigParser(interpolation=None)
        read.optionxform = str
        read.read_string(unit.replace("/srv", str(self.folder)).replace("crates/yw_main/out/yw_main", program_path()))
        return dict(read["Service"])

    def test_it_serves_a_pipe_until_it_is_stopped(self):
        service = self.service()
        pipe, replies = self.folder / "shop.lines", self.folder / "shop.replies"
        (self.folder / "shop").mkdir()
        os.mkfifo(pipe)
        replies.touch()
        self.assertEqual(subprocess.run(shlex.split(service["ExecStartPre"])).returncode, 0)
        server = subprocess.Popen(shlex.split(service["ExecStart"]))
        self.addCleanup(server.wait)
        self.addCleanup(server.kill)
        wanted = ""
        for number, name in enumerate(("ann", "bob"), 1):
            self.within(lambda: handed(pipe, f'{{"cmd":"person","name":"{name}","roles":[]}}\n'))
            wanted += f'{{"n":{number},"ok":true,"quiet":true,"steps":["person {name}"]}}\n'
            self.within(lambda: replies.read_text() == wanted)
        server.terminate()
        self.assertEqual(server.wait(), -signal.SIGTERM)

    def test_what_lasts_is_not_tried_again(self):
        lasting = [STATUSES[int(it)] for it in self.service()["RestartPreventExitStatus"].split()]
        self.assertEqual(lasting, ["Usage", "Damaged", "Full"])


class ReadingTest(unittest.TestCase):
    """What the documents' reader does with wrong documents."""

    def test_sessions(self):
        text = "$ a <<END\nb\nEND\nc\nd\n$ e\n"
        self.assertEqual(sessions(text), [("a <<END\nb\nEND\n", "c\nd\n"), ("e\n", "")])

    def test_what_is_shown(self):
        self.assertTrue(is_shown("abc", "abc"))
        self.assertTrue(is_shown("ab..", "abc"))
        self.assertFalse(is_shown("ab", "abc"))
        self.assertFalse(is_shown("b..", "abc"))

    def test_fences(self):
        self.assertEqual(FENCE.findall("x\n```sh\na\n```\n  ```\n  b\n  ```\n"), [("", "sh", "a\n"), ("  ", "", "  b\n")])


if __name__ == "__main__":
    unittest.main()
