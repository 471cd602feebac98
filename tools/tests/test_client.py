"""The client: replies and refusals, lost replies found in the files, and hundreds of kills at random moments."""

import json
import os
import random
import shutil
import signal
import subprocess
import threading
import time
import unittest

from support import EXAMPLES, TOOLS, FolderTest, program_path, run, serve
from test_log import EVENTS, number
from client import Client, Ended, Foreign, NotHeld, Refused, is_first_step
from yawl.journal import Damaged, Journal

KILLS = int(os.environ.get("YAWL_KILLS", 300))
ANN = '{"cmd":"person","name":"ann","roles":[]}\n'


def steps_held(folder) -> list[list[str]]:
    """The steps of each entry."""
    return [[event.text for event in events] for _, events in Journal(folder).entries()]


def await_file(path) -> None:
    """Waits until there is such a file, for half a minute at most."""
    until = time.monotonic() + 30
    while not path.exists() and time.monotonic() < until:
        time.sleep(0.01)


class Order:
    """A shop that handles orders through a client. `asked` are the commands' words, `replies` what came of each."""

    def __init__(self, client: Client):
        self.client = client
        self.asked: list[str] = []
        self.replies = []

    def ask(self, cmd: str, /, **fields):
        self.asked.append(cmd)
        self.replies.append(self.client.command(cmd, **fields))
        return self.replies[-1]

    def open(self) -> None:
        self.ask("person", name="ann", roles=["clerk", "packer"])
        self.ask("load", toml=(EXAMPLES / "order.toml").read_text())

    def handle(self) -> None:
        """One order from its launch to its end. Queries see how far it is."""
        [case] = self.ask("launch", spec="order", data={"amount": 200}).made
        for task in ("receive", "pack", "bill", "ship"):
            [item] = self.ask("enter", who="ann", case=case, task=task).made
            self.ask("start", who="ann", item=item)
            self.answered([[item, task, "executing", "ann"]], "show", case)
            self.ask("complete", who="ann", item=item, out={})
        self.answered("finished", "ended", case)

    def answered(self, wanted, query: str, case: str) -> None:
        """Asks `ended`, or `show` for the items."""
        reply = self.client.command(query, case=case)
        found = reply.answer["items"] if query == "show" else reply.answer
        if (found, reply.steps, reply.found) != (wanted, [], False):
            raise AssertionError(reply)


class CommandTest(FolderTest):
    def test_a_case_runs_to_its_end(self):
        with Client(self.folder) as client:
            shop = Order(client)
            shop.open()
            shop.handle()
            self.assertEqual(shop.replies[2].made, ["1"])
            self.assertEqual(shop.replies[-1].steps, ["complete 1.7", "exit 1 ship to o", "finish 1"])
            self.assertTrue(all(it.quiet and not it.found for it in shop.replies))
            self.assertEqual(client.close(), 0)
        self.assertEqual(steps_held(self.folder), [it.steps for it in shop.replies])

    def test_a_refusal_is_raised(self):
        with Client(self.folder) as client:
            Order(client).open()
            with self.assertRaises(Refused) as refused:
                client.command("launch", spec="order", data={"amount": "much"})
            self.assertEqual((refused.exception.rule, refused.exception.at), ("BadData", "amount"))
            self.assertEqual(client.held, 2)

    def test_queries_are_answered_and_are_no_entries(self):
        with Client(self.folder) as client:
            shop = Order(client)
            shop.open()
            shop.handle()
            self.assertEqual(client.command("specs").answer, ["order"])
            with self.assertRaises(Refused) as refused:
                client.command("show", case="1")
            self.assertEqual((refused.exception.rule, client.held), ("UnknownCase", len(shop.replies)))

    def test_it_goes_on_with_what_is_there(self):
        for _ in range(2):
            with Client(self.folder) as client:
                client.command("person", name="ann", roles=[])
        self.assertEqual(client.held, 2)

    def test_what_a_client_left_is_found_by_the_next(self):
        first = Client(self.folder)
        Order(first).open()
        kept = first.held
        first.close()
        serve(self.folder, '{"cmd":"launch","spec":"order","data":{"amount":7}}\n')
        with Client(self.folder) as client:
            self.assertEqual([(it.steps, it.made) for it in client.after(kept)], [(["launch 1 order"], ["1"])])
            self.assertEqual(client.after(3), [])

    def test_another_client_may_come_between(self):
        with Client(self.folder) as first:
            first.command("person", name="ann", roles=[])
            first.close()
            serve(self.folder, ANN)
            first.command("person", name="ann", roles=[])
            self.assertEqual(first.held, 3)


class LostTest(FolderTest):
    """Servers that end in their own ways, as scripts in place of the program. `$1` is the folder."""

    def client(self, script: str, **given) -> Client:
        path = self.folder / "program"
        refusal = '{"at":"","n":1,"ok":false,"rule":"NotCommand"}'
        script = script.replace("PROGRAM", program_path()).replace("OPEN", f"read line; echo '{refusal}'")
        path.write_text(f"#!/bin/sh\n{script}\n")
        path.chmod(0o755)
        client = Client(self.shop(), str(path), **given)
        self.addCleanup(client.close)
        return client

    def shop(self):
        shop = self.folder / "shop"
        shop.mkdir(exist_ok=True)
        return shop

    def test_a_held_line_is_found(self):
        client = self.client('OPEN; head -n 1 | PROGRAM "$1" run >/dev/null; kill -9 $$')
        for name in ("ann", "bob"):
            reply = client.command("person", name=name, roles=[])
            self.assertEqual((reply.steps, reply.quiet, reply.found), ([f"person {name}"], True, True))
        self.assertEqual(steps_held(self.shop()), [["person ann"], ["person bob"]])

    def test_half_a_reply_is_none(self):
        client = self.client('OPEN; head -n 1 | PROGRAM "$1" run | head -c 20')
        self.assertTrue(client.command("person", name="ann", roles=[]).found)
        self.assertEqual(steps_held(self.shop()), [["person ann"]])

    def test_a_line_that_is_not_held_is_sent_again(self):
        client = self.client('[ -e "$1/once" ] && exec PROGRAM "$1" run; touch "$1/once"; OPEN; read line; kill -9 $$')
        reply = client.command("person", name="ann", roles=[])
        self.assertFalse(reply.found)
        client.close()
        self.assertEqual(steps_held(self.shop()), [["person ann"]])

    def test_a_query_without_an_answer_is_asked_again(self):
        client = self.client('[ -e "$1/once" ] && exec PROGRAM "$1" run; touch "$1/once"; OPEN; read line; kill -9 $$')
        self.assertEqual((client.command("specs").answer, client.held), ([], 0))

    def test_it_gives_up_where_nothing_is_held(self):
        with self.assertRaises(NotHeld):
            self.client("kill -9 $$", tries=3)
        with self.assertRaises(NotHeld):
            self.client("OPEN; exec sleep 60", tries=2, timeout=0.1).command("person", name="ann", roles=[])

    def test_an_interrupted_line_is_counted(self):
        # A shell begins what runs in its background with SIGINT ignored.
        self.addCleanup(signal.signal, signal.SIGINT, signal.signal(signal.SIGINT, signal.default_int_handler))
        client = self.client('OPEN; head -n 1 | PROGRAM "$1" run >/dev/null; touch "$1/done"; exec sleep 60')
        main, done = threading.get_ident(), self.shop() / "done"
        for name in ("ann", "bob"):
            done.unlink(missing_ok=True)
            interrupt = threading.Thread(target=lambda: (await_file(done), signal.pthread_kill(main, signal.SIGINT)))
            interrupt.start()
            with self.assertRaises(KeyboardInterrupt):
                client.command("person", name=name, roles=[])
            interrupt.join()
        self.assertEqual(client.held, 2)
        self.assertEqual(steps_held(self.shop()), [["person ann"], ["person bob"]])

    def test_what_another_wrote_is_told(self):
        for lines in (ANN, ANN + ANN.replace("ann", "bob")):
            (self.folder / "lines").write_text(lines)
            client = self.client(f'OPEN; read line; PROGRAM "$1" run <{self.folder}/lines >/dev/null; kill -9 $$')
            with self.assertRaises(Foreign):
                client.command("person", name="bob", roles=[])

    def test_a_cause_that_lasts(self):
        client = Client(self.shop(), words=("--limit", "64"))
        self.addCleanup(client.close)
        client.command("person", name="ann", roles=[])
        with self.assertRaises(Ended) as ended:
            client.command("person", name="ann", roles=["clerk", "packer"])
        # The first entry's record ends at 43. The second has a length of four bytes, 21 bytes and a gate.
        self.assertEqual((ended.exception.status, ended.exception.said, ended.exception.reply), (8, {"full": 69}, None))

    def test_a_second_server_is_told(self):
        first = subprocess.Popen([program_path(), self.shop(), "run"], stdin=subprocess.PIPE, stdout=subprocess.PIPE)
        self.addCleanup(first.communicate)
        first.stdin.write(ANN.encode())
        first.stdin.flush()
        first.stdout.readline()
        with self.assertRaises(Ended) as ended:
            Client(self.shop())
        self.assertEqual((ended.exception.status, ended.exception.reply), (3, None))

    def test_damage_is_told_before_anything(self):
        (self.shop() / "yawl.a").write_bytes(b"\1" + bytes(29))
        with self.assertRaises(Damaged):
            Client(self.shop())


class FirstStepTest(unittest.TestCase):
    def test_a_line_and_its_step(self):
        enter = {"cmd": "enter", "who": "ann", "case": "1.3", "task": "vote"}
        self.assertTrue(is_first_step("enter 1.3 vote from i as 1.3.4", enter))
        self.assertFalse(is_first_step("enter 1.4 vote from i as 1.4.5", enter))
        self.assertFalse(is_first_step("enter 1.3 assess from i as 1.3.4", enter))
        self.assertFalse(is_first_step("add 1.3 vote as 1.3.4", enter))
        self.assertTrue(is_first_step("launch 7 loan", {"cmd": "launch", "spec": "loan", "data": {}}))
        self.assertTrue(is_first_step("rule 1", {"cmd": "rule", "spec": "loan", "net": "main", "task": "pay", "at": 0}))


class Killer(threading.Thread):
    """Kills a client's server so many times, at random moments: every second time within a life, and else after a write to the file."""

    def __init__(self, client: Client, kills: int, life: float, line: float):
        """`life` is how long a server lives at most, and `line` how long one line takes, in seconds."""
        super().__init__()
        self.client = client
        self.left = kills
        self.life = life
        self.line = line
        self.chance = random.Random(2005)

    def run(self) -> None:
        while self.left:
            if self.left % 2:
                time.sleep(self.chance.uniform(0, self.life))
            else:
                self.await_write()
                time.sleep(self.chance.uniform(0, self.line))
            server = self.client.server
            if server and server.process.poll() is None:
                server.process.kill()
                self.left -= 1

    def await_write(self) -> None:
        """Waits until the file has another length, or for a life."""
        file = self.client.folder / "yawl.a"
        size, until = file.stat().st_size, time.monotonic() + self.life
        while file.stat().st_size == size and time.monotonic() < until:
            time.sleep(0.0001)


class KillsTest(FolderTest):
    def test_each_asked_step_stands_once(self):
        began = time.monotonic()
        client = Client(self.folder, tries=1000)
        shop = Order(client)
        shop.open()
        opened = time.monotonic()
        shop.handle()
        line = (time.monotonic() - opened) / 13
        killer = Killer(client, KILLS, 2 * (opened - began) + 3 * line, line)
        killer.start()
        while killer.is_alive():
            shop.handle()
        killer.join()
        shop.handle()
        client.close()
        held = steps_held(self.folder)
        self.assertEqual(held, [it.steps for it in shop.replies])
        self.assertEqual([it[0].split(" ")[0] for it in held], shop.asked)
        found = sum(it.found for it in shop.replies)
        print(f"{KILLS} kills, {len(held)} lines, {found} of them found in the files")


@unittest.skipUnless(shutil.which("node"), "there is no node")
class NodeTest(FolderTest):
    def test_each_asked_step_stands_once(self):
        words = (self.folder, max(1, KILLS // 10), EXAMPLES / "order.toml")
        status, said = run("node", TOOLS / "tests/kills.js", *words)
        self.assertEqual(status, 0)
        replies = json.loads(said)
        held = steps_held(self.folder)
        self.assertEqual(held, [it["steps"] for it in replies])
        self.assertEqual([it[0].split(" ")[0] for it in held], [it["cmd"] for it in replies])

    def test_a_cause_that_lasts(self):
        script = """
            const { Client } = require(process.argv[1]);
            async function main() {
              const client = await Client.open(process.argv[2], { words: ["--limit", "64"] });
              for (const roles of [[], ["clerk", "packer"]]) await client.command("person", { name: "ann", roles });
            }
            main().catch(({ status, said, reply }) => console.log(JSON.stringify([status, said, reply])));
        """
        self.assertEqual(run("node", "-e", script, TOOLS / "client.js", self.folder), (0, '[8,{"full":69},null]\n'))

    def test_each_kind_has_its_step(self):
        entries = [(number(2, 1) + event).hex() for event, _ in EVENTS]
        script = "const { readSteps } = require(process.argv[1]); const read = (it) => readSteps(Buffer.from(it, 'hex'))[0];"
        script += "console.log(JSON.stringify(JSON.parse(process.argv[2]).map(read)))"
        status, said = run("node", "-e", script, TOOLS / "client.js", json.dumps(entries))
        self.assertEqual((status, json.loads(said)), (0, [step for _, step in EVENTS]))


if __name__ == "__main__":
    unittest.main()
