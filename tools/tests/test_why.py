"""tools/why leads from a mistake to its line, and from a rule to its sentence."""

from __future__ import annotations

import json
import re
import subprocess
import tempfile
import unittest
from pathlib import Path

from mistakes import COMMON, MISTAKES
from support import TOOLS, TOP, serve
from support import run as run_words
from yawl import check, rules, toml
from yawl.document import Source, Span
from yawl.lint import Lint
from yawl.nets import spec_of

DATA = Path(__file__).resolve().parent / "data"
DESK = (DATA / "desk.toml").read_text()


def run(*words: str, given: str = "") -> tuple[int, str]:
    """The status and the output of the tool."""
    return run_words(TOOLS / "why", *words, given=given)


def replies(lines: list[str]) -> list[dict]:
    """What the server answers to these lines, over a folder of its own."""
    with tempfile.TemporaryDirectory() as folder:
        return [json.loads(it) for it in serve(Path(folder), "".join(f"{it}\n" for it in lines)).splitlines()]


def chain_of(number: int, last: int) -> str:
    """A net of nine lines, whose task has the next net as its work; or the last net, of eight lines, whose task is a person's."""
    head = f'[[net]]\nname = "n{number}"\ninput = "i"\noutput = "o"\nflows = [["i", "t"], ["t", "o"]]\n[[net.task]]\nname = "t"\n'
    return head + (f'kind = "sub"\nnet = "n{number + 1}"\n' if number < last else 'role = "clerk"\n')


class FileTests(unittest.TestCase):
    def test_each_mistake_is_marked_in_its_line(self) -> None:
        self.assertGreaterEqual(len(MISTAKES), 60)
        texts = [DESK.replace(it.old, it.new, 1) for it in MISTAKES]
        # `load` refuses as `check` does, and one server takes them all.
        said = replies([json.dumps({"cmd": "load", "toml": it}) for it in texts])
        for mistake, text, reply in zip(MISTAKES, texts, said):
            with self.subTest(mistake.new or f"without {mistake.old!r}"):
                self.assertIn(mistake.old, DESK)
                self.assertFalse(reply["ok"])
                self.assertEqual(f"{reply['rule']} {reply['at']}".strip(), mistake.says)
                source = Source("desk.toml", text)
                finding = check.explain(source, reply["rule"], reply["at"])
                self.assertEqual(source.place(finding.span.start)[0], mistake.line)
                if mistake.marks:
                    self.assertEqual(source.text[finding.span.start : finding.span.end], mistake.marks)
                self.assertTrue(finding.what and finding.do)

    def test_what_is_too_much_is_marked(self) -> None:
        nine = 'name = "n"\ntop = "n1"\n' + "".join(chain_of(number, 9) for number in range(1, 10))
        many = 'name = "n"\ntop = "n1"\n' + chain_of(1, 1) + "".join(chain_of(number, number) for number in range(2, 66))
        outs = "".join(f'{{ name = "a{number}", sort = "int" }}, ' for number in range(32))
        wide = DESK.replace('outs = [{ name = "asked"', f'outs = [{outs}{{ name = "asked"')
        cases = [
            # The text, the verdict, the line and the mark.
            (nine, "SpecCheck V7 n9 n9", 2 + 8 * 9 + 2, '"n9"'),
            (many, "SpecCheck V6 n2 n2", 2 + 8 + 2, '"n2"'),
            (wide, "SpecCheck V12 main apply", 25, "outs"),
        ]
        for (text, says, line, marks), reply in zip(cases, replies([json.dumps({"cmd": "load", "toml": it[0]}) for it in cases])):
            with self.subTest(says):
                self.assertEqual(f"{reply['rule']} {reply['at']}", says)
                source = Source("n.toml", text)
                finding = check.explain(source, reply["rule"], reply["at"])
                self.assertEqual(source.place(finding.span.start)[0], line)
                self.assertEqual(text[finding.span.start : finding.span.end], marks)

    def test_nets_that_lead_round_are_marked(self) -> None:
        text = 'name = "n"\ntop = "n1"\n' + chain_of(1, 9) + chain_of(2, 9) + chain_of(3, 9).replace('"n4"', '"n2"')
        source = Source("n.toml", text)
        finding = check.explain(source, "SpecCheck", "V6 n2 t")
        # The second net begins in line 12, and the last of its nine lines names the third, which names the second.
        self.assertEqual(source.place(finding.span.start)[0], 20)
        self.assertEqual(finding.what, "V6: net `n3` leads back to net `n2`, in which the task stands")

    def test_a_text_that_is_too_long(self) -> None:
        status, said = run("-", given=DESK + "#" * 1_048_576)
        self.assertEqual((status, said.splitlines()[0].split(": ")[1][:30]), (1, "the text has more than 1,048,5"))

    def test_the_page_of_mistakes_says_what_the_tools_say(self) -> None:
        page = (TOP / "docs" / "MISTAKES.md").read_text()
        blocks = re.findall(r"```text\n(.*?)\n```", page, re.DOTALL)
        texts = [DESK.replace(old, new, 1) for old, new in COMMON]
        said = []
        for text, reply in zip(texts, replies([json.dumps({"cmd": "load", "toml": it}) for it in texts])):
            source = Source("desk.toml", text)
            accepted = Lint(spec_of(toml.read(text))).warnings if reply["ok"] else [check.explain(source, reply["rule"], reply["at"])]
            said.append("\n".join(it.shown(source) for it in accepted))
        self.assertEqual(blocks, said)

    def test_the_desk_and_the_examples_are_accepted(self) -> None:
        for path in (DATA / "desk.toml", *sorted((TOP / "examples").glob("*.toml"))):
            status, said = run(str(path))
            wrong = path.name == "wrong.toml"
            self.assertEqual(status, 1 if wrong else 0, said)
            self.assertEqual(said.endswith(": accepted\n"), not wrong)

    def test_a_long_line_is_shown_in_part(self) -> None:
        source = Source("x", "a" * 300 + "b" + "c" * 300)
        self.assertEqual(source.marked(Span(300, 301)), f"    1 | ..{'a' * 60}b{'c' * 99}..\n      | {' ' * 62}^")
        self.assertEqual(source.marked(Span(600, 601)), f"    1 | ..{'c' * 160}\n      | {' ' * 161}^")

    def test_what_cannot_be_read(self) -> None:
        ran = subprocess.run([TOOLS / "why", "/nowhere/x.toml"], capture_output=True, text=True)
        self.assertEqual((ran.returncode, ran.stdout), (3, ""))
        self.assertIn("/nowhere/x.toml", ran.stderr)

    def test_a_finding_is_a_place_the_line_and_a_mark(self) -> None:
        status, said = run("-", given=DESK.replace("yes = 2", "yes == 2"))
        self.assertEqual(status, 1)
        first, line, mark, rule = said.splitlines()
        self.assertTrue(first.startswith("-:33:38: V9: "), first)
        self.assertEqual(line, '   33 | branch = [{ to = "pay", when = "yes == 2" }, { to = "refuse" }]')
        self.assertEqual(mark.index("^"), line.index("==") + 1)
        self.assertEqual(rule, "(SpecCheck at V9 main review)")

    def test_bytes_that_are_no_utf_8_are_marked(self) -> None:
        source, finding = check.decoded("x", 'name = "a"\ntop = "Käse"\n'.encode("latin-1"))
        self.assertEqual(source.place(finding.span.start), (2, 9))

    def test_a_text_of_toml_1_1_is_read(self) -> None:
        node = toml.read('a.b = { x = 1, # one\n  "y z" = [2, 3,],\n}\nc = "\\x41\\e"\nd = 1979-05-27 07:32\ne = """\n a\\\n   b""""\n')
        self.assertEqual(node.get("a").get("b").get("y z").items()[1].value, 3)
        self.assertEqual(node.get("c").value, "A\x1b")
        self.assertEqual(node.get("e").value, ' ab"')


class LineTests(unittest.TestCase):
    LINES = {
        # A line, the rule, and the column.
        '{"cmd":"start","who":"ann"}': ("NotCommand", 8),
        '{"cmd":"strat","who":"ann","item":"1.2"}': ("NotCommand", 8),
        '{"cmd":"start","who":"ann","item":1.2}': ("NotCommand", 35),
        '{"cmd":"start","who":"ann","item":"1.02"}': ("NotCommand", 35),
        '{"cmd":"start","who":"ann smith","item":"1.2"}': ("NotCommand", 22),
        '{"cmd":"start","who":"ann","item":"1.2","case":"1"}': ("NotCommand", 41),
        '{"cmd":"person","name":"ann","roles":"clerk"}': ("NotCommand", 38),
        '{"cmd":"person","name":"ann","roles":["a","b","a"]}': ("NotCommand", 47),
        '{"cmd":"complete","who":"ann","item":"1.2","out":[]}': ("NotCommand", 50),
        '["cmd"]': ("NotCommand", 1),
        '{"cmd":"rule"}': ("NotBuilt", 8),
        '{"cmd":"person","name":"ann","roles":["clerk",]}': ("NotJson", 47),
        "{'cmd':'advance','case':'1'}": ("NotJson", 2),
        '{"cmd":"advance" "case":"1"}': ("NotJson", 17),
        '{"cmd":"advance","case":01}': ("NotJson", 25),
        '{"cmd":"advance","case":"1"}}': ("NotJson", 29),
        '{"cmd":"advance","case":"1"': ("NotJson", 28),
        "": ("NotJson", 1),
    }

    def test_each_line_is_marked_at_its_column(self) -> None:
        status, said = run("--line", given="".join(f"{it}\n" for it in self.LINES))
        self.assertEqual(status, 1)
        findings = [it.split("\n") for it in re.split(r"(?m)^(?=input:)", said)[1:]]
        self.assertEqual(len(findings), len(self.LINES))
        for number, (line, (rule, column)) in enumerate(self.LINES.items(), 1):
            with self.subTest(line):
                first, shown, mark, last, _ = findings[number - 1]
                self.assertTrue(first.startswith(f"input:{number}:{column}: "), first)
                self.assertEqual((shown[8:], mark.index("^") - 7, last), (line, column, f"({rule})"))

    def test_a_line_that_is_too_long(self) -> None:
        status, said = run("--line", given='{"cmd":"specs"}' + " " * 1_048_562)
        first, *_, last = said.splitlines()
        self.assertEqual((status, first), (1, "input:1:1: the line has 1,048,577 bytes; a line has at most 1,048,576"))
        self.assertEqual((last, len(said) < 1000), ("(LineTooLong)", True))

    def test_the_server_refuses_these_lines_so(self) -> None:
        self.assertEqual([it["rule"] for it in replies(list(self.LINES))], [rule for rule, _ in self.LINES.values()])

    def test_lines_that_are_commands_are_passed_over(self) -> None:
        for path in sorted((TOP / "examples").glob("*.jsonl")):
            self.assertEqual(run("--line", given=path.read_text()), (0, ""))

    def test_each_rule_has_its_sentence(self) -> None:
        table = (TOP / "docs" / "LINES.md").read_text().split("| line | rules in order |")[1].split("\n\n")[0]
        named = set(re.findall(r"[A-Z][a-z]+[A-Z]\w+|Role|Active|Mapping|Count|Numbers|Stage|Output", table))
        self.assertGreater(len(named), 25)
        for rule in named:
            self.assertTrue(rules.sentence(rule), rule)
        self.assertEqual(run("--line", "Role"), (0, "Role: the line breaks it where the person lacks the task's role\n"))
        self.assertEqual(run("--line", "Rule"), (1, "Rule: docs/LINES.md has no such rule\n"))

    def test_a_refused_reply_gets_its_sentence(self) -> None:
        status, said = run("--line", given='{"at":"den","n":2,"ok":false,"rule":"Mapping"}\n{"n":3,"ok":true,"quiet":true,"steps":["x"]}\n')
        self.assertEqual((status, said.splitlines()), (1, [f"Mapping at `den`: the line breaks it where {rules.sentence('Mapping')}"]))

    def test_a_load_is_judged_as_its_file(self) -> None:
        line = json.dumps({"cmd": "load", "toml": DESK.replace("yes = 2", "yes == 2")})
        status, said = run("--line", given=line + "\n")
        self.assertEqual(status, 1)
        self.assertTrue(said.startswith("toml of line 1:33:38: V9: "), said)


if __name__ == "__main__":
    unittest.main()
