"""The schemas: what is right is valid, and what is invalid is refused by the server too."""

import json
import tomllib
import unittest

from mistakes import MISTAKES
from support import NAMES, TOOLS, FolderTest, example, serve
from validator import Validator
from yawl import lines, rules, server

# A change of examples/order.toml, or of examples/loan.toml below: the text, and what stands in its place.
ORDER_MISTAKES = [
    ('name = "order"\n', ""),
    ('top = "main"\n', "top = 1\n"),
    ('top = "main"\n', 'top = "main"\ncolour = "red"\n'),
    ('name = "order"', 'name = "an order"'),
    ('name = "order"', 'name = "len"'),
    ('input = "i"\n', ""),
    ('output = "o"\n', 'output = ["o"]\n'),
    ('conditions = ["packed"]', 'conditions = "packed"'),
    ('conditions = ["packed"]', 'conditions = ["packed", "packed"]'),
    ('sort = "int"', 'sort = "float"'),
    ('use = "in"', 'use = "input"'),
    ('use = "in"', 'use = "in", init = "0"'),
    ('use = "in"', 'use = "in", init = 1.5'),
    ('["i", "receive"]', '["i", "receive", "accept"]'),
    ('["ship", "o"],', '["ship", "o"], ["ship", "o"],'),
    ('["i", "receive"]', '"i->receive"'),
    ('role = "clerk"\nsplit', 'role = "head clerk"\nsplit'),
    ('role = "manager"', 'roles = ["manager"]'),
    ('role = "manager"', 'kind = "manual"'),
    ('role = "manager"', 'kind = "sub"'),
    ('role = "manager"', 'net = "main"'),
    ('role = "manager"', "min = 2"),
    ('role = "manager"', "dynamic = true"),
    ('role = "manager"', 'each = "[1]"'),
    ('role = "manager"', 'outs = ["ok"]'),
    ('role = "manager"', 'set = [{ var = "amount" }]'),
    ('role = "manager"', 'remove = "packed"'),
    ('split = "xor"', 'split = "one"'),
    ('split = "xor"\n', ""),
    ('branch = [{ to = "approve", when = "amount > 1000" }, { to = "accept" }]\n', ""),
    ('when = "amount > 1000"', "when = true"),
    ('to = "accept"', 'when = "true"'),
    ('name = "accept"\nkind = "empty"', 'name = "accept"\nkind = "empty"\nrole = "clerk"'),
    ('join = "xor"', 'join = "any"'),
]
LOAN_MISTAKES = [
    ("min = 2", "min = 0"),
    ("max = 5", "max = 1001"),
    ("threshold = 2", "threshold = 0"),
    ("threshold = 2", 'threshold = "2"'),
    ('item = "reviewer"\n', ""),
    ('each = "who"\n', ""),
    ('outs = [{ name = "v", sort = "int" }]', 'outs = [{ name = "v" }]'),
    ('outs = [{ name = "v", sort = "int" }]', 'outs = [{ name = "v", sort = "int", value = "1" }]'),
    ('kind = "sub"\n', ""),
]
RIGHT_LINES = [
    '{"cmd":"person","name":"_a1","roles":[]}',
    '{"task":"vote","value":["a"],"who":"ann","case":"1.3","cmd":"add"}',
    '{"cmd":"launch","spec":"a","data":{"b":true,"c":-9223372036854775808,"d":"","e":[],"f":[1,2],"g":["x"]}}',
    '{"cmd":"advance","case":"281474976710655"}',
    '{"case":"1","cmd":"show"}', '{"cmd":"ended","case":"7"}', '{"cmd":"specs"}', '{"cmd":"list","who":"ann"}',
]
WRONG_LINES = [
    "[]", "7", "{}", '{"cmd":"walk"}', '{"cmd":7}', '{"name":"ann","roles":[]}',
    '{"cmd":"person"}',
    '{"cmd":"person","name":"ann"}',
    '{"cmd":"person","name":"ann","roles":"clerk"}',
    '{"cmd":"person","name":"ann","roles":["clerk","clerk"]}',
    '{"cmd":"person","name":"ann","roles":[],"x":1}',
    '{"cmd":"person","name":"1","roles":[]}',
    '{"cmd":"person","name":"","roles":[]}',
    '{"cmd":"person","name":"ann\\n","roles":[]}',
    '{"cmd":"load","toml":7}',
    '{"cmd":"launch","spec":"order"}',
    '{"cmd":"launch","spec":"order","data":[]}',
    '{"cmd":"launch","spec":"order","data":{"amount":1.5}}',
    '{"cmd":"launch","spec":"order","data":{"amount":null}}',
    '{"cmd":"launch","spec":"order","data":{"amount":9223372036854775808}}',
    '{"cmd":"launch","spec":"order","data":{"amount":[1,"a"]}}',
    '{"cmd":"launch","spec":"order","data":{"amount":{}}}',
    '{"cmd":"enter","who":"ann","case":1,"task":"receive"}',
    '{"cmd":"enter","who":"ann","case":"1."}',
    '{"cmd":"start","who":"ann","item":"01"}',
    '{"cmd":"start","who":"ann","item":"1.0"}',
    '{"cmd":"start","who":"ann","case":"1.2"}',
    '{"cmd":"complete","who":"ann","item":"1.2"}',
    '{"cmd":"add","who":"ann","case":"1","task":"vote","value":null}',
    '{"cmd":"cancel","case":"1","who":"ann"}',
    '{"cmd":"show"}', '{"cmd":"show","case":1}', '{"cmd":"ended","case":"1","who":"ann"}', '{"cmd":"specs","case":"1"}',
    '{"cmd":"list"}', '{"cmd":"list","who":"ann smith"}', '{"cmd":"list","who":"ann","case":"1"}',
]
RIGHT_REPLIES = [
    '{"n":7,"ok":true,"quiet":false,"steps":["add 1.3 vote as 1.3.9"]}',
    '{"n":1,"ok":true,"quiet":true,"steps":["enter 1 a from i,b->c as 1.2,1.3","completeempty 1.2"]}',
    '{"at":"V3 main x","n":1,"ok":false,"rule":"SpecCheck"}',
    '{"answer":{"due":[["1.2","select"]],"items":[["1.3","x","executing","ann"],["1.4","y","ready",""]],"nets":[["1","xj","main",{"v":[1],"w":""}]],'
    '"runs":[["1.5",true,["compensate remind","continue_item"]]],"suspended":["1"],"tokens":[["1","c->x",2]]},"n":1,"ok":true}',
    '{"answer":[{"case":"1.3","task":"vote","what":"enter"},{"item":"1.3.4","task":"vote","what":"start"},'
    '{"item":"1.10","task":"pay","what":"complete"}],"n":2,"ok":true}',
    '{"answer":"finished","n":1,"ok":true}', '{"answer":[],"n":9,"ok":true}', '{"answer":["order","seq"],"n":9,"ok":true}',
    '{"full":120}', '{"at":29,"damaged":"a"}', '{"ok":true,"spec":"order"}', '{"at":"","ok":false,"rule":"SpecText"}',
]
WRONG_REPLIES = [
    "{}", "[]", '{"n":0,"ok":true,"quiet":true,"steps":["start 1.2"]}', '{"n":1,"ok":true,"quiet":true,"steps":[]}',
    '{"n":1,"ok":true,"quiet":true,"steps":["started 1.2"]}', '{"n":1,"ok":true,"steps":["start 1.2"]}',
    '{"n":1,"ok":false,"rule":"Stage"}', '{"at":"","n":1,"ok":false,"rule":"Nope"}', '{"at":"","n":1,"ok":true,"rule":"Stage"}',
    '{"at":"","ok":false,"rule":"Stage"}', '{"at":29,"damaged":"c"}', '{"full":true}',
    '{"answer":"gone","n":1,"ok":true}', '{"answer":["a","a"],"n":1,"ok":true}', '{"answer":{},"n":1,"ok":true}',
    '{"answer":{"due":[],"items":[["1.2","x","Ready",""]],"nets":[],"runs":[],"suspended":[],"tokens":[]},"n":1,"ok":true}',
    '{"answer":{"due":[],"items":[["1","x","ready",""]],"nets":[],"runs":[],"suspended":[],"tokens":[]},"n":1,"ok":true}',
    '{"answer":{"due":[],"items":[],"nets":[["1","a","b",{"v":null}]],"runs":[],"suspended":[],"tokens":[]},"n":1,"ok":true}',
    '{"answer":{"due":[],"items":[],"nets":[],"runs":[["1.5",true,["walk"]]],"suspended":[],"tokens":[]},"n":1,"ok":true}',
    '{"answer":{"due":[],"items":[],"nets":[],"runs":[],"suspended":[],"tokens":[["1","c"]]},"n":1,"ok":true}',
    '{"answer":"finished","n":1,"ok":true,"quiet":true}',
    '{"answer":[{"case":"1","task":"vote","what":"start"}],"n":1,"ok":true}',
    '{"answer":[{"item":"1.2","task":"vote","what":"enter"}],"n":1,"ok":true}',
    '{"answer":[{"item":"1","task":"vote","what":"start"}],"n":1,"ok":true}',
    '{"answer":[{"item":"1.2","what":"start"}],"n":1,"ok":true}',
    '{"answer":[{"item":"1.2","task":"vote","what":"add"}],"n":1,"ok":true}',
    '{"answer":["order",{"case":"1","task":"a","what":"enter"}],"n":1,"ok":true}',
]


def schema(name: str) -> Validator:
    return Validator(json.loads((TOOLS / "schemas" / f"{name}.json").read_text()))


class SpecificationTest(FolderTest):
    def test_what_is_accepted_is_valid(self):
        for name in (*NAMES, "wrong"):
            self.assertTrue(schema("specification").is_valid(tomllib.loads(example(name, "toml"))), name)

    def test_what_is_invalid_is_not_accepted(self):
        for name, mistakes in (("order", ORDER_MISTAKES), ("loan", LOAN_MISTAKES)):
            text = example(name, "toml")
            for old, new in mistakes:
                with self.subTest(old=old, new=new):
                    self.assertIn(old, text)
                    wrong = text.replace(old, new, 1)
                    self.assertFalse(schema("specification").is_valid(tomllib.loads(wrong)))
                    self.assertEqual(server.check(wrong.encode())[0], 1)

    def test_each_mistake_of_shape_is_invalid(self):
        desk = (TOOLS / "tests/data/desk.toml").read_text()
        self.assertTrue(schema("specification").is_valid(tomllib.loads(desk)))
        for mistake in MISTAKES:
            if mistake.says.startswith("SpecShape "):
                with self.subTest(mistake.says):
                    wrong = desk.replace(mistake.old, mistake.new, 1)
                    self.assertFalse(schema("specification").is_valid(tomllib.loads(wrong)))


class LineTest(FolderTest):
    def test_each_word_has_the_fields_of_the_table(self):
        told = {word: {"cmd", *fields} for word, fields in lines.forms().items()}
        known = {}
        for part in schema("command").schema["definitions"].values():
            cmd = part.get("properties", {}).get("cmd", {})
            for word in cmd.get("enum", [cmd.get("const")]) if cmd else []:
                self.assertEqual(set(part["required"]), part["properties"].keys())
                known[word] = set(part["required"])
        self.assertEqual(known, told)

    def test_right_lines(self):
        for line in [line for name in NAMES for line in example(name, "jsonl").splitlines()] + RIGHT_LINES:
            self.assertTrue(schema("command").is_valid(json.loads(line)), line)

    def test_wrong_lines_are_refused(self):
        for line in WRONG_LINES:
            self.assertFalse(schema("command").is_valid(json.loads(line)), line)
        replies = [json.loads(it) for it in serve(self.folder, "\n".join(WRONG_LINES)).splitlines()]
        self.assertEqual([it["ok"] for it in replies], [False] * len(WRONG_LINES))
        self.assertTrue(all(map(schema("reply").is_valid, replies)))


class ReplyTest(unittest.TestCase):
    def test_right_replies(self):
        for line in [line for name in NAMES for line in example(name, "replies").splitlines()] + RIGHT_REPLIES:
            self.assertTrue(schema("reply").is_valid(json.loads(line)), line)

    def test_wrong_replies(self):
        for line in WRONG_REPLIES:
            self.assertFalse(schema("reply").is_valid(json.loads(line)), line)

    def test_each_rule_of_the_table_is_there(self):
        known = schema("reply").schema["definitions"]["rule"]["enum"]
        self.assertEqual(set(rules.sentences()) - set(known), set())
        self.assertTrue(all(map(rules.sentence, known)))


if __name__ == "__main__":
    unittest.main()
