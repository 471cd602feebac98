"""tools/draw shows each flow once and hides none; a running case is shown as the server left it."""

from __future__ import annotations

import json
import re
import tomllib
import unittest
from pathlib import Path
from xml.etree import ElementTree

from support import EXAMPLES, TOOLS, TOP, FolderTest, example, run, serve
from yawl import dot, layout, outline, svg, toml
from yawl.nets import spec_of
from yawl.replay import views_of_case
from yawl.scene import views_of

DRAW = TOOLS / "draw"
DATA = Path(__file__).resolve().parent / "data"
FILES = [*sorted(EXAMPLES.glob("*.toml")), *sorted(DATA.glob("*.toml"))]
# A net with a flow that leads back, one from a task to itself, and one over several layers.
ROUND = """
name = "round"
top = "main"
[[net]]
name = "main"
input = "i"
output = "o"
conditions = ["c"]
flows = [["i", "a"], ["a", "c"], ["c", "b"], ["b", "c"], ["b", "b"], ["b", "d"], ["a", "d"], ["d", "o"], ["a", "o"]]
[[net.task]]
name = "a"
[[net.task]]
name = "b"
join = "xor"
[[net.task]]
name = "d"
remove = ["c", "b->b", "a->d"]
"""


def flows_of(text: str) -> list[list[tuple[str, str]]]:
    """The flows of each net, by Python's own reader of TOML."""
    return [[tuple(it) for it in net["flows"]] for net in tomllib.loads(text)["net"]]


def flows_of_outline(said: str) -> list[tuple[str, str]]:
    """The flows in what `--text` says: each stands below its node."""
    found, source = [], ""
    for line in said.splitlines():
        if node := re.match(r"  (?:input |output )?[(\[](\w+)[)\]]", line):
            source = node[1]
        elif flow := re.match(r"      -> (\w+)", line):
            found.append((source, flow[1]))
    return found


def views(text: str) -> list:
    return views_of(spec_of(toml.read(text)))


def loads(text: str) -> str:
    return json.dumps({"cmd": "load", "toml": text}) + "\n"


class PictureTests(FolderTest):
    def test_the_flows_drawn_are_those_of_the_file(self) -> None:
        for text in [ROUND, *(it.read_text() for it in FILES)]:
            root = ElementTree.fromstring(svg.picture(views(text)))
            drawn = [(it.get("data-from"), it.get("data-to")) for it in root.iter() if it.get("class") == "flow"]
            self.assertEqual(drawn, [it for net in flows_of(text) for it in net])
            edges = re.findall(r'^    "(\d+):(\w+)" -> "\d+:(\w+)"(?! \[style=dashed)', dot.graph(views(text)), re.MULTILINE)
            self.assertEqual([it[1:] for it in edges], drawn)
            self.assertEqual(sorted(flows_of_outline(outline.text(views(text)))), sorted(drawn))

    def test_each_node_is_drawn_once_and_each_removal(self) -> None:
        for text in [ROUND, *(it.read_text() for it in FILES)]:
            root = ElementTree.fromstring(svg.picture(views(text)))
            nets = tomllib.loads(text)["net"]
            count = {name: sum(it.get("class") == name for it in root.iter()) for name in ("condition", "task", "removal")}
            self.assertEqual(count["condition"], sum(2 + len(net.get("conditions", [])) for net in nets))
            self.assertEqual(count["task"], sum(len(net.get("task", [])) for net in nets))
            self.assertEqual(count["removal"], sum(len(task.get("remove", [])) for net in nets for task in net.get("task", [])))

    def test_no_flow_runs_behind_a_node_and_no_two_lie_on_one_another(self) -> None:
        for text in [ROUND, *(it.read_text() for it in FILES)]:
            for view in views(text):
                drawing = svg.Drawing(view)
                boxes = {it: box_of(drawing, it) for it in view.net.nodes()}
                for flow, line in drawing.layout.lines.items():
                    parts = list(zip(line, line[1:]))
                    for name, box in boxes.items():
                        self.assertFalse(any(meets(part, box) for part in parts), f"{flow} runs behind {name}")
                    ends = (line[0], line[-1])
                    others = [(it[0], it[-1]) for other, it in drawing.layout.lines.items() if other != flow]
                    self.assertNotIn(ends, others)
                names = list(boxes)
                for number, name in enumerate(names):
                    for other in names[number + 1 :]:
                        self.assertFalse(overlap(boxes[name], boxes[other]), f"{name} lies on {other}")

    def test_layers_follow_the_longest_way(self) -> None:
        flows = flows_of(ROUND)[0]
        sizes = {it: layout.Size(10, 10, 5, 5, 0) for it in ("i", "o", "c", "a", "b", "d")}
        placed = layout.lay_out(sizes, flows, {})
        order = sorted(sizes, key=lambda it: placed.centres[it][0])
        self.assertEqual(order, ["i", "a", "c", "b", "d", "o"])

    def test_signs(self) -> None:
        text = (EXAMPLES / "admissions.toml").read_text()
        marks = [it.get("points") for it in ElementTree.fromstring(svg.picture(views(text))).iter() if it.tag.endswith("polygon")]
        # An OR-split, an OR-join and an XOR-split: two rhombi and a triangle.
        self.assertEqual(sorted(len(it.split()) for it in marks), [3, 4, 4])

    def test_the_tool_says_why_it_draws_nothing(self) -> None:
        status, said = run(DRAW, EXAMPLES / "order.toml", "--text")
        self.assertEqual((status, said.splitlines()[:3]), (0, ["order: main", "  input (i)", "      -> receive"]))
        self.assertEqual(run(DRAW, EXAMPLES / "order.jsonl")[0], 1)
        # A condition that no flow names is drawn; a flow to no node isn't.
        self.assertEqual(run(DRAW, EXAMPLES / "wrong.toml")[0], 0)
        wrong = self.folder / "wrong.toml"
        wrong.write_text((EXAMPLES / "order.toml").read_text().replace('["ship", "o"]', '["ship", "out"]'))
        self.assertEqual(run(DRAW, wrong), (1, ""))
        self.assertEqual(run(DRAW)[0], 2)
        self.assertEqual(run(DRAW, "--folder", "/nowhere", "--case", "1")[0], 3)


def box_of(drawing: svg.Drawing, name: str) -> tuple[float, float, float, float]:
    """The shape of a node, without what is written below it."""
    x, y = drawing.layout.centres[name]
    half = drawing.sizes[name].shape / 2
    high = svg.BOX / 2 if drawing.net.task(name) else svg.RADIUS
    return x - half, y - high, x + half, y + high


def meets(part: tuple, box: tuple) -> bool:
    """Whether a straight part runs through the inside of a box: it is cut at each of the four sides in turn."""
    begin, end = 0.0, 1.0
    for (a, b), (low, high) in zip(zip(*part), ((box[0] + 1, box[2] - 1), (box[1] + 1, box[3] - 1))):
        if a == b:
            if not low < a < high:
                return False
        else:
            cuts = sorted(((low - a) / (b - a), (high - a) / (b - a)))
            begin, end = max(begin, cuts[0]), min(end, cuts[1])
    return begin < end


def overlap(one: tuple, other: tuple) -> bool:
    return one[0] < other[2] and other[0] < one[2] and one[1] < other[3] and other[1] < one[3]


class CaseTests(FolderTest):
    def run_desk(self) -> None:
        lines = (DATA / "running.jsonl").read_text()
        serve(self.folder, loads((DATA / "desk.toml").read_text()) + lines)

    def test_the_picture_in_docs_is_what_the_tool_makes(self) -> None:
        self.run_desk()
        words = (DRAW, DATA / "desk.toml", "--folder", self.folder, "--case", "1")
        self.assertEqual(run(*words, "--svg"), (0, (TOP / "docs" / "running-case.svg").read_text()))

    def test_a_case_is_shown_as_it_stands(self) -> None:
        self.run_desk()
        main, board = views_of_case(self.folder, 1)
        self.assertEqual((main.title, main.tokens), ("desk, case 1", {"open": 1}))
        self.assertEqual({task: [it.text for it in work] for task, work in main.work.items()}, {"review": ["1.3 executing"]})
        self.assertEqual((board.title, board.tokens), ("board at 1.3: the work of review", {}))
        self.assertEqual([it.text for it in board.work["vote"]], ["1.3.5 completed: bob", "1.3.6 executing: cy", "1.3.7 ready"])

    def test_a_removal_set_takes_tokens_and_work_away(self) -> None:
        self.run_desk()
        withdraw = [{"cmd": "enter", "who": "ann", "case": "1", "task": "withdraw"}, {"cmd": "start", "who": "ann", "item": "1.8"}]
        serve(self.folder, "".join(json.dumps(it) + "\n" for it in withdraw))
        self.assertEqual(len(views_of_case(self.folder, 1)), 2)
        serve(self.folder, json.dumps({"cmd": "complete", "who": "ann", "item": "1.8", "out": {}}) + "\n")
        self.assertEqual(views_of_case(self.folder, 1), [])

    def test_after_each_line_of_the_examples_a_case_stands_as_its_replies_say(self) -> None:
        for name in ("order", "loan"):
            lines = example(name, "jsonl").splitlines(keepends=True)
            replies = [json.loads(it) for it in example(name, "replies").splitlines()]
            folder = self.folder / name
            folder.mkdir()
            serve(folder, "".join(lines))
            launched = {it[1] for reply in replies for it in map(str.split, reply.get("steps", [])) if it[0] == "launch"}
            ended = {it[1] for reply in replies for it in map(str.split, reply.get("steps", [])) if it[0] in ("finish", "cancel")}
            standing = {it for it in launched if views_of_case(folder, int(it))}
            self.assertEqual(standing, launched - ended)

    def test_another_net_than_the_file_says_is_an_error(self) -> None:
        self.run_desk()
        self.assertEqual(run(DRAW, EXAMPLES / "order.toml", "--folder", self.folder, "--case", "1")[0], 1)
        self.assertEqual(run(DRAW, "--folder", self.folder, "--case", "2")[0], 1)
        status, said = run(DRAW, "--folder", self.folder, "--case", "1", "--dot")
        self.assertEqual(status, 0)
        self.assertIn("1.3.6 executing: cy", said)
        status, said = run(DRAW, "--folder", self.folder, "--case", "1", "--text")
        self.assertEqual(status, 0)
        for line in ("  (open)  o", "      * 1.3 executing", "      * 1.3.6 executing: cy"):
            self.assertIn(line, said.splitlines())


if __name__ == "__main__":
    unittest.main()
