"""The server's process: it is started over a folder, is handed lines, and gives replies."""

import json
import os
import select
import subprocess
import time
from pathlib import Path

TOP = Path(__file__).resolve().parents[2]
# What the program ends with, by number.
STATUSES = ("Ok", "Findings", "Usage", "Disk", "Memory", "Read", "Write", "Damaged", "Full", "InputLimit")
PIECE = 1 << 16


class Lost(Exception):
    """The server ended before a reply was whole. `status` is what it ended with, or minus the signal's number, and `said` the line that it
    said in place of a reply, as `{"full":120}`, or None."""

    def __init__(self, status: int, said: dict | None) -> None:
        name = STATUSES[status] if 0 <= status < len(STATUSES) else f"signal {-status}" if status < 0 else "none of the server's"
        super().__init__(f"the server ended with status {status} ({name})" + (f" and said {json.dumps(said)}" if said else ""))
        self.status = status
        self.said = said


def program_path() -> str:
    """The built program: that of the environment's YAWL_PROGRAM, or the repository's."""
    return os.environ.get("YAWL_PROGRAM") or str(TOP / "crates/yw_main/out/yw_main")


def check(text: bytes, program: str | None = None) -> tuple[int, dict]:
    """What the words `check` answer to a specification: the status, and what was said. Raises `Lost` where the status is neither 0 nor 1."""
    ran = subprocess.run([program or program_path(), ".", "check"], input=text, stdout=subprocess.PIPE)
    if ran.returncode not in (0, 1):
        raise Lost(ran.returncode, None)
    return ran.returncode, json.loads(ran.stdout)


def line_of(command: dict) -> bytes:
    """A command as a line, with its newline."""
    return json.dumps(command, separators=(",", ":")).encode() + b"\n"


class Server:
    """A server that runs over a folder. It lives until `end` or `kill`, or until it ends by itself."""

    def __init__(self, folder: str | Path, program: str | None = None, words: tuple[str, ...] = ()) -> None:
        """Starts it; `words` stand after `run`. What keeps it from opening the folder is reported by the first `ask`."""
        command = [program or program_path(), str(folder), "run", *words]
        self.process = subprocess.Popen(command, stdin=subprocess.PIPE, stdout=subprocess.PIPE, bufsize=0)
        self.asked = 0
        self.read = b""

    def ask(self, command: dict, timeout: float | None = None) -> dict:
        """Hands the server one command and gives its reply, accepted or refused. Raises `Lost`; where no whole reply came within the
        timeout, in seconds, or that of another line, the server is killed."""
        self.asked += 1
        self.write(line_of(command))
        try:
            reply = json.loads(self.line(timeout))
        except EOFError:
            raise Lost(self.end(), None) from None
        except TimeoutError:
            raise Lost(self.kill(), None) from None
        if "n" not in reply:
            raise Lost(self.end(), reply)
        if reply["n"] != self.asked:
            raise Lost(self.kill(), reply)
        return reply

    def write(self, line: bytes) -> None:
        """Hands the server these bytes. Where it has ended they are lost, and what it said is still to be read."""
        left = memoryview(line)
        try:
            while left:
                left = left[self.process.stdin.write(left):]
        except BrokenPipeError:
            pass

    def line(self, timeout: float | None) -> bytes:
        """The next line that the server says. Raises EOFError or TimeoutError where none comes whole."""
        until = None if timeout is None else time.monotonic() + timeout
        while b"\n" not in self.read:
            left = None if until is None else max(0, until - time.monotonic())
            if not select.select([self.process.stdout], [], [], left)[0]:
                raise TimeoutError
            part = self.process.stdout.read(PIECE)
            if not part:
                raise EOFError
            self.read += part
        line, _, self.read = self.read.partition(b"\n")
        return line

    def end(self) -> int:
        """Ends the input and waits. Gives the status, or minus the number of the signal that ended it."""
        self.process.stdin.close()
        status = self.process.wait()
        self.process.stdout.close()
        return status

    def kill(self) -> int:
        """Ends the server at once, where it hasn't ended by itself, and gives the status as `end` does."""
        self.process.kill()
        return self.end()
