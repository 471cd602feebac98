"""The shell: a case from its launch to its end by short commands, refusals, and what may be left out."""

import json
import subprocess
import unittest
from importlib.machinery import SourceFileLoader
from importlib.util import module_from_spec, spec_from_loader
from unittest.mock import patch

from support import EXAMPLES, TOOLS, FolderTest, example, run, serve
from yawl import answers, lines, rules
from yawl.journal import Event
from yawl.known import Known
from yawl.replay import NotReplayed

SHELL = TOOLS / "shell"
ORDER = f"""
person ann clerk
load {EXAMPLES}/order.toml
person bob packer
launch order amount=200
as ann
enter receive   # in the last case
start
complete
as bob
enter pack
start
complete 1.5
as ann
enter 1 bill
start 1.6
complete
as bob
enter ship
start
complete
"""


def known_after(*events: tuple[str, dict]) -> Known:
    known = Known()
    for word, fields in events:
        known.take(Event(word, fields, ""))
    return known


class SessionTest(FolderTest):
    def test_a_case_runs_to_its_end(self):
        status, said = run(SHELL, self.folder, given=ORDER)
        steps = [step for reply in example("order", "replies").splitlines() for step in json.loads(reply)["steps"]]
        self.assertEqual((status, said.splitlines()), (0, steps))

    def test_the_next_session_knows_what_is_there(self):
        run(SHELL, self.folder, given=ORDER.partition("enter pack")[0])
        status, said = run(SHELL, self.folder, given="as bob\nenter pack\nitems\nstart\nitems\nquit\nperson cy\n")
        self.assertEqual((status, said.splitlines()), (0, [
            "enter 1 pack from prepare->pack as 1.5", "1.5 pack ready", "start 1.5", "1.5 pack executing"]))

    def test_a_refusal_has_its_sentence(self):
        given = ORDER.partition("start")[0] + "complete 1.2\nlaunch order amount=much\nlaunch order\ncancel 7\n"
        said = run(SHELL, self.folder, given=given)[1].splitlines()[5:]
        self.assertEqual([it for it in said if not it.startswith(" ")],
                         ["refused: Stage", "refused: BadData amount", "launch 3 order", "refused: UnknownCase"])
        self.assertIn("isn't executing", said[1])

    def test_queries(self):
        typed = ["specs", ORDER.partition("enter pack")[0], "show", "as ann", "enter pack", "as bob", "enter pack", "start", "show 1", "specs",
                 "cancel 1", "ended 1", "show 1", "ended"]
        said = run(SHELL, self.folder, given="\n".join(typed))[1].splitlines()
        begin = said.index("exit 1 prepare to prepare->pack,prepare->bill")
        self.assertEqual(said[0], "nothing")
        self.assertEqual(said[begin + 1:], [
            "nets", "  1 order main amount=200", "tokens", "  1 prepare->bill 1", "  1 prepare->pack 1",
            "refused: Role", "  the person lacks the task's role",
            "enter 1 pack from prepare->pack as 1.5", "start 1.5",
            "nets", "  1 order main amount=200", "tokens", "  1 prepare->bill 1", "items", "  1.5 pack executing bob",
            "order", "cancel 1", "cancelled",
            "refused: UnknownCase", f"  {rules.sentence('UnknownCase')}", "? `ended` lacks a case: ended CASE"])

    def test_work_lists(self):
        typed = ["list", "as ann", "list", "list 1", "person ann clerk", "list", ORDER.partition("enter pack")[0], "as ann", "list", "as bob", "list",
                 "enter pack", "list", "start", "list"]
        said = run(SHELL, self.folder, given="\n".join(typed))[1].splitlines()
        self.assertEqual(said[:6], ["? `list` lacks a person: type `as NAME` first: list", "refused: UnknownPerson",
                                    f"  {rules.sentence('UnknownPerson')}", "? `1` is too much: list", "person ann", "nothing"])
        self.assertEqual(said[-6:], ["enter 1 bill", "enter 1 pack", "enter 1 pack from prepare->pack as 1.5", "start 1.5  # pack", "start 1.5",
                                     "complete 1.5  # pack"])

    def test_what_is_unclear_is_told(self):
        typed = ["enter receive", "walk", "start", "load none.toml", "complete x", "person 'ann", "help start", "cancel"]
        said = run(SHELL, self.folder, given="\n".join(typed))[1].splitlines()
        self.assertEqual([it[:1] for it in said], ["?"] * 6 + ["s", "?"])
        self.assertEqual(said[6], "start [ITEM]")

    def test_a_damaged_folder_is_told(self):
        (self.folder / "yawl.a").write_bytes(b"\1" + bytes(29))
        ran = subprocess.run([SHELL, self.folder], input=b"", capture_output=True)
        self.assertEqual((ran.returncode, ran.stdout), (7, b""))
        self.assertIn(b"yawl.a is damaged at byte 1", ran.stderr)


class CompletionTest(FolderTest):
    def test_what_was_begun_is_completed(self):
        loader = SourceFileLoader("shell", str(SHELL))
        module = module_from_spec(spec_from_loader("shell", loader))
        loader.exec_module(module)
        serve(self.folder, "\n".join(example("order", "jsonl").splitlines()[:4]))
        shell = module.Shell(str(self.folder))
        self.addCleanup(shell.client.close)
        for typed, wanted in (("sta", ["start "]), ("launch o", ["order "]), ("as ", ["ann ", "bob "]), ("enter re", ["receive "]),
                              (f"load {EXAMPLES}/wron", [f"{EXAMPLES}/wrong.toml"]), ("start 9", []), ("person 'ann c", [])):
            begin = typed.rfind(" ") + 1
            with patch("readline.get_line_buffer", return_value=typed), patch("readline.get_begidx", return_value=begin):
                found = [shell.complete(typed[begin:], number) for number in range(len(wanted) + 1)]
            self.assertEqual(found, [*wanted, None])


class AnswerTest(unittest.TestCase):
    def test_the_rows_of_a_list_can_be_typed(self):
        rows = [{"case": "1.3", "task": "vote", "what": "enter"}, {"item": "1.3.4", "task": "vote", "what": "start"},
                {"item": "1.10", "task": "pay", "what": "complete"}]
        said = answers.lines_of(rows)
        self.assertEqual(said, ["enter 1.3 vote", "start 1.3.4  # vote", "complete 1.10  # pay"])
        typed = [lines.Typed(word, rest, Known(), "ann").line() for word, *rest in map(lines.split, said)]
        self.assertEqual(typed, [{"cmd": "enter", "who": "ann", "case": "1.3", "task": "vote"}, {"cmd": "start", "who": "ann", "item": "1.3.4"},
                                 {"cmd": "complete", "who": "ann", "item": "1.10", "out": {}}])
        self.assertEqual(answers.lines_of([]), ["nothing"])

    def test_all_that_may_stand_in_a_case(self):
        shown = {"due": [["1.2", "select"]], "items": [["1.3", "x", "ready", ""], ["1.4", "y", "executing", "ann"]],
                 "nets": [["1", "a", "main", {"n": -1, "who": ["kim", "Jürg"], "yes": True}]],
                 "runs": [["1.5", True, ["compensate b", "continue_item"]], ["1.6", False, ["remove_case"]]], "suspended": ["1", "1.3"],
                 "tokens": [["1", "c->x", 2]]}
        self.assertEqual(answers.lines_of(shown), [
            "nets", '  1 a main n=-1 who=["kim","Jürg"] yes=true', "tokens", "  1 c->x 2", "items", "  1.3 x ready", "  1.4 y executing ann",
            "due", "  1.2 select", "runs", "  1.5 waiting compensate b, continue_item", "  1.6 remove_case", "suspended", "  1", "  1.3"])


class KnownTest(unittest.TestCase):
    BEGUN = [("load", {"name": "loan", "toml": example("loan", "toml")}),
             ("launch", {"case": 1, "spec": "loan", "values": []}),
             ("enter", {"net": "1", "task": "review", "places": ["apply->review"], "first": 2, "count": 1}),
             ("startsub", {"item": "1.2"}),
             ("enter", {"net": "1.2", "task": "vote", "places": ["assess->vote"], "first": 3, "count": 3})]

    def typed(self, word: str, *rest: str, known: Known) -> dict:
        return lines.Typed(word, list(rest), known, "ann").line()

    def test_what_is_left_out_is_the_last(self):
        known = known_after(*self.BEGUN)
        self.assertEqual(self.typed("start", known=known), {"cmd": "start", "who": "ann", "item": "1.2.3"})
        self.assertEqual(self.typed("enter", "vote", known=known)["case"], "1.2")
        self.assertEqual(self.typed("advance", known=known), {"cmd": "advance", "case": "1"})
        self.assertEqual(self.typed("show", known=known), {"cmd": "show", "case": "1"})
        self.assertEqual(self.typed("specs", known=known), {"cmd": "specs"})
        known.take(Event("start", {"item": "1.2.4", "who": "ann"}, ""))
        self.assertEqual(self.typed("complete", "v=1", "w=a", known=known),
                         {"cmd": "complete", "who": "ann", "item": "1.2.4", "out": {"v": 1, "w": "a"}})
        self.assertEqual(self.typed("add", "1.2", "vote", "kim", known=known)["value"], "kim")

    def test_the_net_named_last_comes_first(self):
        known = known_after(*self.BEGUN, ("launch", {"case": 6, "spec": "loan", "values": []}),
                            ("enter", {"net": "6", "task": "apply", "places": ["i"], "first": 7, "count": 1}))
        self.assertEqual((known.nets, list(known.ready)), (["1", "1.2", "6"], ["6.7", "1.2.3", "1.2.4", "1.2.5"]))
        known.take(Event("add", {"net": "1.2", "task": "vote", "value": "kim", "number": 8}, ""))
        self.assertEqual((known.nets, list(known.ready)[-2:]), (["1", "6", "1.2"], ["1.2.8", "6.7"]))
        for item in ("6.7", "1.2.4"):
            known.take(Event("start", {"item": item, "who": "ann"}, ""))
        self.assertEqual(list(known.working), ["6.7", "1.2.4"])

    def test_what_goes_is_forgotten(self):
        known = known_after(*self.BEGUN, ("exit", {"net": "1.2", "task": "vote", "places": ["o"]}))
        self.assertEqual((known.ready, known.nets), ({}, ["1", "1.2"]))
        known.take(Event("completesub", {"item": "1.2"}, ""))
        self.assertEqual(known.nets, ["1"])
        known.take(Event("cancel", {"case": 1}, ""))
        self.assertEqual(known.nets, [])

    def test_what_a_removal_set_takes_away_is_forgotten(self):
        claim = [("load", {"name": "claim", "toml": example("claims", "toml")}), ("launch", {"case": 1, "spec": "claim", "values": []}),
                 ("enter", {"net": "1", "task": "assess", "places": ["register->assess"], "first": 2, "count": 2}),
                 ("enter", {"net": "1", "task": "withdraw", "places": ["open"], "first": 4, "count": 1}),
                 ("start", {"item": "1.2", "who": "ann"})]
        known = known_after(*claim)
        self.assertEqual((known.ready, known.working), ({"1.3": "assess", "1.4": "withdraw"}, {"1.2": "assess"}))
        known.take(Event("exit", {"net": "1", "task": "withdraw", "places": ["withdraw->confirm"]}, ""))
        self.assertEqual((known.ready, known.working), ({}, {}))

    def test_what_is_not_known_here_is_said(self):
        for word, fields in (("raise", {"at": "1"}), ("load", {"name": "a", "toml": "name = "}), ("load", {"name": "a", "toml": 'name = "a"'})):
            with self.subTest(word), self.assertRaises(NotReplayed):
                known_after(*self.BEGUN, (word, fields))

    def test_what_comes_next_is_offered(self):
        known = known_after(*self.BEGUN, ("person", {"name": "bob", "roles": []}), ("person", {"name": "ann", "roles": []}))
        self.assertEqual(lines.choices(["start"], known), ["1.2.3", "1.2.4", "1.2.5"])
        self.assertEqual(lines.choices(["enter"], known), ["1", "1.2", "apply", "assess", "pay", "refuse", "review", "vote"])
        self.assertEqual(lines.choices(["launch"], known), ["loan"])
        self.assertEqual(lines.choices(["as"], known), ["ann", "bob"])
        self.assertEqual((lines.choices(["show"], known), lines.choices(["list"], known)), (["1"], []))
        self.assertEqual({"list", "show", "ended", "specs"} - set(lines.choices([], known)), set())


if __name__ == "__main__":
    unittest.main()
