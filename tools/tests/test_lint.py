"""tools/lint warns where a net does what is seldom meant, and is silent on the examples."""

from __future__ import annotations

import json
import tempfile
import unittest
from pathlib import Path

from support import EXAMPLES, TOOLS, run
from yawl import toml
from yawl.document import Source
from yawl.lint import Lint, roles_of
from yawl.nets import spec_of
from yawl.play import Play

LINT = TOOLS / "lint"
DATA = Path(__file__).resolve().parent / "data"
HEAD = """name = "n"
top = "main"
[[net]]
name = "main"
input = "i"
output = "o"
"""
XOR = """
[[net.task]]
name = "s"
split = "xor"
branch = [{ to = "a", when = "true" }, { to = "b" }]
"""
AND = """
[[net.task]]
name = "s"
"""
ENDS = """
[[net.task]]
name = "a"
[[net.task]]
name = "b"
[[net.task]]
name = "j"
"""
DIAMOND = 'flows = [["i", "s"], ["s", "a"], ["s", "b"], ["a", "j"], ["b", "j"], ["j", "o"]]'
# Without the last task, both ways lead to the output.
OPEN = 'flows = [["i", "s"], ["s", "a"], ["s", "b"], ["a", "o"], ["b", "o"]]'


def warnings(text: str, roles: set[str] | None = None) -> list[tuple[int, str]]:
    """The line of each warning, and what it says."""
    source = Source("n.toml", text)
    return [(source.place(it.span.start)[0], it.what) for it in Lint(spec_of(toml.read(text)), roles).warnings]


class PlayedTests(unittest.TestCase):
    def one(self, text: str, line: int, says: str) -> None:
        """There is one warning, in this line, with these words."""
        found = warnings(text)
        self.assertEqual(len(found), 1, found)
        self.assertEqual(found[0][0], line)
        self.assertIn(says, found[0][1])

    def test_an_and_join_after_an_xor_split_waits_for_ever(self) -> None:
        self.one(HEAD + DIAMOND + XOR + ENDS, 18, "`j` waits for ever: a token stands in `a->j`, and none comes to `b->j`")

    def test_it_is_silent_where_splits_and_joins_agree(self) -> None:
        self.assertEqual(warnings(HEAD + DIAMOND + AND + ENDS), [])
        self.assertEqual(warnings(HEAD + DIAMOND + XOR + ENDS + 'join = "xor"\n'), [])
        self.assertEqual(warnings(HEAD + DIAMOND + XOR.replace('"xor"', '"or"') + ENDS + 'join = "or"\n'), [])
        self.assertEqual(warnings(HEAD + DIAMOND + AND + ENDS + 'join = "or"\n'), [])
        self.assertEqual(warnings(HEAD + OPEN + XOR + ENDS.rpartition("[[")[0]), [])

    def test_two_tokens_come_to_an_xor_join(self) -> None:
        text = HEAD + DIAMOND + AND + ENDS + 'join = "xor"\n'
        found = warnings(text)
        self.assertIn((17, "task `j` has an XOR-join, and tokens in `a->j`, `b->j` at once: its work comes twice"), found)

    def test_an_or_split_before_an_and_join_waits_for_ever(self) -> None:
        self.one(HEAD + DIAMOND + XOR.replace('"xor"', '"or"') + ENDS, 18, "`j` waits for ever")

    def test_tokens_and_work_are_left_at_the_end(self) -> None:
        found = warnings(HEAD + OPEN + AND + ENDS.rpartition("[[")[0])
        said = {what for _, what in found}
        self.assertEqual({line for line, what in found if "token left" in what}, {7})
        self.assertIn("net `main` can end with a token left in `s->b`, which is then lost", said)
        self.assertIn("net `main` can end while task `b` is at work, which is then cut off", said)

    def test_a_removal_set_takes_away_what_would_be_left(self) -> None:
        text = HEAD + OPEN + AND + ENDS.rpartition("[[")[0].replace('name = "a"', 'name = "a"\nremove = ["s->b", "b"]')
        text = text.replace('name = "b"', 'name = "b"\nremove = ["s->a", "a"]')
        self.assertEqual(warnings(text), [])

    def test_tokens_pile_up_on_a_way_round(self) -> None:
        flows = '["i", "s"], ["s", "c"], ["c", "a"], ["a", "c"], ["a", "b"], ["b", "c"], ["c", "j"], ["j", "o"]'
        found = warnings(f'{HEAD}conditions = ["c"]\nflows = [{flows}]{AND}{ENDS}')
        self.assertTrue(any("pile up" in what for _, what in found), found)

    def test_what_the_server_does_by_itself_comes_first(self) -> None:
        # Both take from `c`; the empty one is entered before a person can enter the other.
        flows = 'conditions = ["c"]\nflows = [["i", "s"], ["s", "c"], ["c", "a"], ["c", "b"], ["a", "o"], ["b", "o"]]'
        tasks = AND + '[[net.task]]\nname = "a"\nkind = "empty"\n[[net.task]]\nname = "b"\n'
        self.assertEqual(warnings(HEAD + flows + tasks), [(15, "task `b` is never begun")])

    def test_a_large_net_is_played_in_part(self) -> None:
        branches = [f"a{k}" for k in range(12)]
        flows = [["i", "s"], *(["s", it] for it in branches), *([it, "j"] for it in branches), ["j", "o"]]
        tasks = "".join(f'[[net.task]]\nname = "{it}"\n' for it in ["s", *branches, "j"])
        net = spec_of(toml.read(f"{HEAD}flows = {json.dumps(flows)}\n{tasks}")).nets[0]
        play = Play(net, 1000)
        self.assertEqual((play.whole, len(play.came)), (False, 1000))


    def test_a_wide_or_split_is_played_in_part(self) -> None:
        outputs = [f"a{k}" for k in range(7)]
        flows = [["i", "s"], *(["s", it] for it in outputs), *([it, "j"] for it in outputs), ["j", "o"]]
        branches = ", ".join(f'{{ to = "{it}", when = "true" }}' for it in outputs[1:])
        tasks = "".join(f'[[net.task]]\nname = "{it}"\n' for it in [*outputs, "j"])
        split = f'[[net.task]]\nname = "s"\nsplit = "or"\nbranch = [{branches}, {{ to = "a0" }}]\n'
        net = spec_of(toml.read(f'{HEAD}flows = {json.dumps(flows)}\n{split}{tasks}join = "or"\n')).nets[0]
        self.assertFalse(Play(net).whole)


class WrittenTests(unittest.TestCase):
    VARIABLES = 'vars = [{ name = "xs", sort = "texts" }, { name = "n", sort = "int" }]\n'
    SEQUENCE = f'{HEAD}{VARIABLES}flows = [["i", "a"], ["a", "o"]]\n[[net.task]]\nname = "a"\n'

    def test_an_out_that_nobody_keeps(self) -> None:
        outs = 'outs = [{ name = "n", sort = "int" }, { name = "m", sort = "int" }]\n'
        text = f'{self.SEQUENCE}{outs}set = [{{ var = "n", value = "n + 1" }}]\n'
        self.assertEqual(warnings(text), [(11, "nobody keeps the out `m` of task `a`")])

    def test_a_list_that_nothing_fills(self) -> None:
        text = self.SEQUENCE + 'each = "xs"\nitem = "x"\nins = [{ name = "x", sort = "text" }]\n'
        self.assertEqual(warnings(text), [(11, "task `a` is never entered: its `each` is `xs`, which nothing fills")])
        self.assertEqual(warnings(text.replace('sort = "texts"', 'sort = "texts", use = "in"')), [])
        self.assertEqual(warnings(text.replace('sort = "texts"', 'sort = "texts", init = ["x"]')), [])

    def test_a_role_that_nobody_has(self) -> None:
        text = self.SEQUENCE + 'role = "clerk"\n'
        self.assertEqual(warnings(text, {"officer"}), [(11, "nobody has the role `clerk` of task `a`")])
        self.assertEqual(warnings(text, {"officer", "clerk"}), [])
        self.assertEqual(warnings(text), [])
        lines = ['{"cmd":"person","name":"ann","roles":["clerk"]}', '{"cmd":"person","name":"ann","roles":["officer"]}',
                 '{"cmd":"person","name":"bob"}', '{"cmd":"specs"}', "[]"]
        self.assertEqual(roles_of(lines), {"officer"})


class ToolTests(unittest.TestCase):
    def test_the_examples_and_the_desk_are_silent(self) -> None:
        for path in [*sorted(EXAMPLES.glob("*.toml")), DATA / "desk.toml"]:
            if path.name != "wrong.toml":
                self.assertEqual(run(LINT, path), (0, ""), path)

    def test_a_refused_file_is_told_as_why_does(self) -> None:
        self.assertEqual(run(LINT, EXAMPLES / "wrong.toml"), run(TOOLS / "why", EXAMPLES / "wrong.toml"))

    def test_persons_are_read_from_lines(self) -> None:
        with tempfile.TemporaryDirectory() as folder:
            persons = Path(folder) / "persons"
            lines = [{"cmd": "person", "name": "ann", "roles": ["clerk", "officer"]}, {"cmd": "person", "name": "bob", "roles": ["teller"]}]
            persons.write_text("".join(json.dumps(it) + "\n" for it in lines))
            self.assertEqual(run(LINT, DATA / "desk.toml", "--persons", persons), (0, ""))
            persons.write_text("".join(json.dumps(it | {"roles": ["clerk", "teller"]}) + "\n" for it in lines))
            status, said = run(LINT, DATA / "desk.toml", "--persons", persons)
            self.assertEqual((status, said.count("nobody has the role `officer`")), (1, 2))
            self.assertIn("desk.toml:67:8: ", said)


if __name__ == "__main__":
    unittest.main()
