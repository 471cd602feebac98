"""What the tests share: the repository's places, folders that go, and runs of the program and the tools."""

import os
import subprocess
import sys
import tempfile
import unittest
from pathlib import Path

TOOLS = Path(__file__).resolve().parents[1]
TOP = TOOLS.parent
EXAMPLES = TOP / "examples"
NAMES = ("order", "loan", "claims", "admissions", "mortgage", "hospital", "insurance", "library")

sys.path.insert(0, str(TOOLS))

from yawl.server import program_path  # noqa: E402


def example(name: str, end: str) -> str:
    """A file of an example, as `order` and `jsonl`."""
    return (EXAMPLES / f"{name}.{end}").read_text()


def run(*words, given: str | bytes = b"") -> tuple[int, str]:
    """The status of a command and what it said on its output."""
    given = given.encode() if isinstance(given, str) else given
    ran = subprocess.run([str(word) for word in words], input=given, stdout=subprocess.PIPE)
    return ran.returncode, ran.stdout.decode()


def serve(folder: Path, lines: str) -> str:
    """What the server says to these lines."""
    status, said = run(program_path(), folder, "run", given=lines)
    if status:
        raise AssertionError(f"the server ended with status {status}")
    return said


class FolderTest(unittest.TestCase):
    """A test with an empty folder of its own."""

    def setUp(self):
        if not os.access(program_path(), os.X_OK):
            self.fail(f"there is no program {program_path()}: build it, or name one in YAWL_PROGRAM")
        held = tempfile.TemporaryDirectory()
        self.addCleanup(held.cleanup)
        self.folder = Path(held.name)
