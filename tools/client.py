"""A client of the server that never does a step twice.

    with Client("shop") as client:
        client.command("person", name="ann", roles=["clerk"])
        case = client.command("launch", spec="order", data={"amount": 200}).made[0]

The client runs the server as its own process. Where the server ends before a reply was whole, however it ended, the reply doesn't tell
whether the line is held. The client then counts the entries of the folder's files, since it knows how many were held before the line. Where
there is one entry more, the line is held, and the reply is made of this entry's steps. Where there are as many as before, the line isn't
held, and is sent again.

The folder is this client's alone from its making to `close`. What another server writes while this client starts its own again is found out
(`Foreign`). One command is sent at a time; threads that share a client need a lock of their own.
"""

from dataclasses import dataclass, field
from pathlib import Path

from yawl.journal import MOST_EVENTS, Event, Journal
from yawl.server import STATUSES, Lost, Server

# The server ends with these for a cause that starting it again doesn't take away.
LASTING = {STATUSES.index(name) for name in ("Usage", "Disk", "Memory", "Damaged", "Full")}
# A line that is no command: its refusal says that the server has the folder.
NOTHING: dict = {}
# The fields of lines that stand in the first step of what they do.
IN_STEP = ("name", "spec", "case", "task", "item", "at")


class Refused(Exception):
    """The line breaks a rule and has changed nothing: the rule's name, and what is at fault, or the empty text."""

    def __init__(self, rule: str, at: str) -> None:
        super().__init__(f"{rule} {at}".rstrip())
        self.rule = rule
        self.at = at


class Foreign(Exception):
    """The files hold what this client didn't ask for."""


@dataclass(frozen=True)
class Reply:
    """What an accepted command did.

    `steps` are its own and what came of itself; `quiet` is False where more is to come, by `advance`; `answer` is that of a query. `found`
    says that the reply was lost and is made from the files. Then `quiet` follows from the count of steps. With fewer steps than a reply may
    have, nothing is to come. With as many, it isn't known whether more is to come, and `quiet` is False.
    """
    steps: list[str] = field(default_factory=list)
    quiet: bool = True
    answer: object = None
    found: bool = False

    @property
    def made(self) -> list[str]:
        """The identities that the first step made: of a case by `launch`, of items by `enter` and `add`."""
        word, *rest = self.steps[0].split(" ") if self.steps else [""]
        return rest[:1] if word == "launch" else rest[-1].split(",") if word in ("enter", "add") else []


class Ended(Exception):
    """The server ended for a cause that lasts. `status` is a number of the server's, `said` the line that it said, as `{"full":120}`, or None;
    `reply` is that of the command at work where the files hold it, and None where they don't."""

    def __init__(self, lost: Lost, reply: Reply | None) -> None:
        super().__init__(f"{lost}; the command is {'held' if reply else 'not held'}")
        self.status = lost.status
        self.said = lost.said
        self.reply = reply


class NotHeld(Exception):
    """The server ended again and again over one command, which the files don't hold. It may be sent again."""


class Client:
    """A client over a folder. `held` is the number of entries that the files hold, by what was replied and found so far."""

    def __init__(self, folder: str | Path, program: str | None = None, words: tuple[str, ...] = (), timeout: float | None = None,
                 tries: int = 20) -> None:
        """`words` stand after `run`, as `("--limit", "1000000")`. A reply that doesn't come within the timeout, in seconds, counts as
        lost. A command is sent so many times as long as the files don't hold it. Raises what `yawl.journal.Journal` raises, and `Ended` or
        `NotHeld` where the server can't be started, as where another has the folder."""
        self.folder = folder
        self.program = program
        self.words = words
        self.timeout = timeout
        self.tries = tries
        self.server: Server | None = None
        self.journal = Journal(folder)
        self.held = 0
        self.is_counted = False
        self.deliver(None)

    def __enter__(self) -> "Client":
        return self

    def __exit__(self, *_) -> None:
        self.close()

    def command(self, cmd: str, /, **fields) -> Reply:
        """Sends a command, as `command("start", who="ann", item="1.2")`, and gives what it did.

        Raises `Refused` where it breaks a rule, `Ended` where the server ended for a cause that lasts, `NotHeld` where it ended too often,
        and `Foreign` where another has written in the folder. Where the call is interrupted, as from the keyboard, `held` is one more than
        before exactly where the command is held.
        """
        return self.deliver({"cmd": cmd, **fields})

    def deliver(self, line: dict | None) -> Reply:
        """Sends a line until its reply is whole, or is found in the files. Without a line the server is started alone."""
        for _ in range(self.tries):
            try:
                return self.ask(line)
            except Lost as lost:
                found = self.find(line)
                if lost.status in LASTING:
                    raise Ended(lost, found) from None
                if found:
                    return found
        raise NotHeld(f"{line['cmd'] if line else 'the start'}: the server ended {self.tries} times")

    def ask(self, line: dict | None) -> Reply:
        """What the server replies to a line, once. It is started where none runs."""
        try:
            if self.server is None:
                self.start()
            return self.accept(self.server.ask(line, self.timeout)) if line else Reply()
        except (Lost, Refused):
            raise
        except BaseException:
            self.abandon()
            raise

    def start(self) -> None:
        """Starts the server. When it has the folder, what the files hold is counted."""
        if not self.is_counted:
            self.journal = Journal(self.folder)
        self.server = Server(self.folder, self.program, self.words)
        self.server.ask(NOTHING)
        self.journal.to_end()
        if not self.is_counted:
            self.held, self.is_counted = self.journal.number, True
        if self.journal.number != self.held:
            raise Foreign(f"{self.journal.number} entries, and {self.held} were held")

    def abandon(self) -> None:
        """Ends the server at once, whatever it does, and counts what the files hold."""
        if self.server:
            self.server.kill()
            self.server = None
        self.journal.to_end()
        self.held = self.journal.number

    def accept(self, reply: dict) -> Reply:
        """What a reply says."""
        if not reply["ok"]:
            raise Refused(reply["rule"], reply["at"])
        if "answer" in reply:
            return Reply(answer=reply["answer"])
        self.held += 1
        return Reply(reply["steps"], reply["quiet"])

    def find(self, line: dict | None) -> Reply | None:
        """When the server has ended: what the last line did, where the files hold it."""
        self.server = None
        last = self.journal.to_end()
        if self.journal.number == self.held or not self.is_counted:
            return None
        events = self.journal.events(last) if last else []
        if self.journal.number != self.held + 1 or not (line and is_first_step(events[0].text, line)):
            told = f"; the last is: {events[0].text}" if events else ""
            raise Foreign(f"{self.journal.number} entries, and {self.held} were held before{told}")
        self.held += 1
        return reply_of(events)

    def after(self, number: int) -> list[Reply]:
        """What the files hold after so many entries, as replies. A client that ended over a command leaves its `held` from before the command to
        the next one, which finds here the command's reply, or nothing where the command isn't held."""
        return [reply_of(events) for entry, events in Journal(self.folder).entries() if entry.number > number]

    def close(self) -> int:
        """Ends the server and gives its status, 0 where none ran. The next command starts it again, and counts anew."""
        status = self.server.end() if self.server else 0
        self.server, self.is_counted = None, False
        return status


def is_first_step(step: str, line: dict) -> bool:
    """Whether a step may be the first of what a line does."""
    word, *rest = step.split(" ")
    # The step of a rule has its number alone.
    return word == line["cmd"] and (word == "rule" or all(line[name] in rest for name in IN_STEP if name in line))


def reply_of(events: list[Event]) -> Reply:
    """The reply to the command whose entry has these events."""
    return Reply([event.text for event in events], len(events) < MOST_EVENTS, found=True)
