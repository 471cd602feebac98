"""Mistakes in data/desk.toml, each an edit, with the server's verdict, and the line and the part of it that are to be marked.

All of it was written by hand: the verdicts by docs/SPECIFICATIONS.md, the lines by the numbers of data/desk.toml.
"""

from __future__ import annotations

from dataclasses import dataclass


@dataclass(frozen=True)
class Mistake:
    """`old` becomes `new` where it stands first. `says` is the rule and its `at`; `marks` is marked in line `line`."""

    old: str
    new: str
    says: str
    line: int
    marks: str


MISTAKES = [
    # The text is no TOML.
    Mistake('name = "desk"', 'name = "desk', "SpecText", 1, '"desk'),
    Mistake('name = "desk"', "name = desk", "SpecText", 1, "desk"),
    Mistake('top = "main"', 'top "main"', "SpecText", 2, '"'),
    Mistake('top = "main"', 'name = "main"', "SpecText", 2, "name"),
    Mistake("[[net]]\n", "[[net]\n", "SpecText", 4, ""),
    Mistake('    ["i", "apply"],\n', '    ["i", "apply"]\n', "SpecText", 15, ""),
    Mistake('["review", "pay"], ["review"', '["review", "pay"] ["review"', "SpecText", 17, " "),
    Mistake('["withdraw", "o"],\n]\n', '["withdraw", "o"],\n', "SpecText", 19, ","),
    Mistake('sort = "int", init = 0 }', 'sort = "int", init = 0', "SpecText", 12, ","),
    Mistake('sort = "int", use = "in" }', 'sort = "int" use = "in" }', "SpecText", 10, " "),
    Mistake("min = 2", "min = 02", "SpecText", 77, "02"),
    Mistake("threshold = 2", "dynamic = True", "SpecText", 79, "True"),
    Mistake('role = "teller"', "role = \u201cteller\u201d", "SpecText", 43, "\u201cteller\u201d"),
    Mistake('role = "teller"', 'role = "tel\\ler"', "SpecText", 43, "\\l"),
    Mistake('role = "teller"', 'role = "teller" or "clerk"', "SpecText", 43, 'or "clerk"'),
    Mistake('role = "teller"', "role =", "SpecText", 43, ""),
    Mistake('role = "teller"', '// role = "teller"', "SpecText", 43, "/"),
    # It hasn't the shape.
    Mistake('name = "desk"\n', "", "SpecShape name", 1, ""),
    Mistake('top = "main"\n', 'Top = "main"\n', "SpecShape top", 2, "Top"),
    Mistake('top = "main"\n\n[[net]]\n', '[[net]]\ntop = "main"\n', "SpecShape top", 3, "top"),
    Mistake("[[net]]\n", "[net]\n", "SpecText", 4, "[net]"),
    Mistake('output = "o"\n', "", "SpecShape net[0].output", 4, "[[net]]"),
    Mistake('output = "o"\n', "output = true\n", "SpecShape net[0].output", 7, "true"),
    Mistake('conditions = ["open"]', 'conditions = "open"', "SpecShape net[0].conditions", 8, '"open"'),
    Mistake('conditions = ["open"]', 'condition = ["open"]', "SpecShape net[0].condition", 8, "condition"),
    Mistake('sort = "int", init = 0', 'sort = "integer", init = 0', "SpecShape net[0].vars[2].sort", 12, '"integer"'),
    Mistake('sort = "int", init = 0', 'sort = "int", init = "0"', "SpecShape net[0].vars[2].init", 12, '"0"'),
    Mistake('["open", "withdraw"]', '["open", "withdraw", "o"]', "SpecShape net[0].flows", 18, '["open", "withdraw", "o"]'),
    Mistake('split = "xor"', 'split = "XOR"', "SpecShape net[0].task[1].split", 32, '"XOR"'),
    Mistake('branch = [{ to = "pay", when = "yes = 2" }, { to', 'branch = [{ too = "pay", when = "yes = 2" }, { to',
            "SpecShape net[0].task[1].branch[0].to", 33, "too"),
    Mistake('role = "teller"', 'roles = "teller"', "SpecShape net[0].task[2].roles", 43, "roles"),
    Mistake('role = "teller"', 'role = ["teller"]', "SpecShape net[0].task[2].role", 43, '["teller"]'),
    Mistake('kind = "empty"', 'kind = "automatic"', "SpecShape net[0].task[3].kind", 47, '"automatic"'),
    Mistake('set = [{ var = "yes", value = "sum(v)" }]', 'set = [{ name = "yes", value = "sum(v)" }]',
            "SpecShape net[1].task[1].set[0].var", 76, '{ name = "yes", value = "sum(v)" }'),
    Mistake("min = 2", 'min = "2"', "SpecShape net[1].task[1].min", 77, '"2"'),
    # Names.
    Mistake('role = "teller"', 'role = "head teller"', "SpecCheck V1 main ?", 43, '"head teller"'),
    Mistake('top = "main"', 'top = "mian"', "SpecCheck V1 - mian", 2, '"mian"'),
    Mistake('name = "yes", sort = "int", init', 'name = "sum", sort = "int", init', "SpecCheck V1 main sum", 12, '"sum"'),
    Mistake('name = "withdraw"', 'name = "open"', "SpecCheck V1 main open", 50, '"open"'),
    Mistake('name = "board"', 'name = "main"', "SpecCheck V1 main main", 55, '"main"'),
    # Flows.
    Mistake('["open", "withdraw"]', '["open", "withdrawn"]', "SpecCheck V2 main open", 18, '"withdrawn"'),
    Mistake('["review", "pay"]', '["reviews", "pay"]', "SpecCheck V2 main reviews", 17, '"reviews"'),
    Mistake('["pay", "o"]', '["open", "o"]', "SpecCheck V2 main open", 19, '["open", "o"]'),
    Mistake('["pay", "o"]', '["o", "pay"]', "SpecCheck V2 main o", 19, '"o"'),
    Mistake('["refuse", "o"]', '["refuse", "i"]', "SpecCheck V2 main refuse", 19, '"i"'),
    Mistake('["review", "refuse"]', '["review", "pay"]', "SpecCheck V2 main review", 17, '["review", "pay"]'),
    # Ways.
    Mistake('conditions = ["open"]', 'conditions = ["open", "late"]', "SpecCheck V3 main late", 8, '"late"'),
    Mistake(', ["open", "withdraw"]', "", "SpecCheck V3 main withdraw", 50, '"withdraw"'),
    Mistake(', ["withdraw", "o"]', "", "SpecCheck V3 main withdraw", 50, '"withdraw"'),
    Mistake('["vote", "o"]', '["vote", "assess"]', "SpecCheck V3 board i", 56, '"i"'),
    # Removal sets, several items.
    Mistake('"apply->review", "review"', '"apply->reviews", "review"', "SpecCheck V4 main withdraw", 52, '"apply->reviews"'),
    Mistake('"apply->review", "review"', '"apply->review", "o"', "SpecCheck V4 main withdraw", 52, '"o"'),
    Mistake("min = 2", "min = 6", "SpecCheck V5 board vote", 77, "6"),
    Mistake("threshold = 2", "threshold = 0", "SpecCheck V5 board vote", 79, "0"),
    Mistake('item = "reviewer"', 'item = "reviwer"', "SpecCheck V5 board vote", 73, '"reviwer"'),
    Mistake('each = "who"\n', "", "SpecCheck V5 board vote", 72, "item"),
    # Nets in nets.
    Mistake('net = "board"', 'net = "bord"', "SpecCheck V6 main review", 31, '"bord"'),
    Mistake('kind = "sub"\n', "", "SpecCheck V6 main review", 30, "net"),
    Mistake('net = "board"\n', "", "SpecCheck V6 main review", 30, '"sub"'),
    Mistake('kind = "sub"\nnet = "board"\n', "", "SpecCheck V6 board board", 53, '"board"'),
    # OR-joins in cycles.
    Mistake('["vote", "o"]]\n\n[[net.task]]\nname = "assess"\n',
            '["vote", "o"], ["vote", "assess"]]\n\n[[net.task]]\nname = "assess"\njoin = "or"\n',
            "SpecCheck V8 board assess", 67, '"or"'),
    # Expressions.
    Mistake("yes = 2", "yes == 2", "SpecCheck V9 main review", 33, "="),
    Mistake("yes = 2", "asked = 2", "SpecCheck V9 main review", 33, "asked"),
    Mistake("yes = 2", "1 < yes < 3", "SpecCheck V9 main review", 33, "<"),
    Mistake("yes = 2", "yes = 'two'", "SpecCheck V9 main review", 33, "="),
    Mistake("yes = 2", "yes", "SpecCheck V9 main review", 33, '"yes"'),
    Mistake("yes = 2", "yes > 1 &&", "SpecCheck V9 main review", 33, "&"),
    Mistake('value = "sum(v)"', 'value = "v"', "SpecCheck V9 board vote", 76, '"v"'),
    Mistake('value = "sum(v)"', 'value = "sum(v"', "SpecCheck V9 board vote", 76, '"'),
    Mistake('each = "who"', 'each = "amount"', "SpecCheck V9 board vote", 72, '"amount"'),
    Mistake('when = "yes = 2"', "when = 'yes = \"2\"'", "SpecCheck V9 main review", 33, '"'),
    # Splits.
    Mistake('split = "xor"\n', "", "SpecCheck V10 main review", 32, "branch"),
    Mistake('{ to = "refuse" }', '{ to = "refuse", when = "yes < 2" }', "SpecCheck V10 main review", 33, "when"),
    Mistake('{ to = "refuse" }', '{ to = "withdraw" }', "SpecCheck V10 main review", 33, '"withdraw"'),
    Mistake(', { to = "refuse" }', "", "SpecCheck V10 main review", 33, "branch"),
    # What tasks are given and make.
    Mistake('{ name = "reviewer", sort = "text" }', '{ name = "reviewer", sort = "int" }', "SpecCheck V11 board vote", 74, '"int"'),
    Mistake('sort = "int", value = "amount" }', 'sort = "int" }', "SpecCheck V11 main review", 35, '"amount"'),
    Mistake('    { name = "who", sort = "texts", value = "who" },\n', "", "SpecCheck V11 main review", 34, "ins"),
    Mistake('kind = "empty"', 'kind = "empty"\nrole = "clerk"', "SpecCheck V11 main refuse", 48, "role"),
    Mistake('{ var = "amount", value', '{ var = "asked", value', "SpecCheck V11 main apply", 26, '"asked"'),
    Mistake('outs = [{ name = "yes", sort = "int" }]', 'outs = [{ name = "no", sort = "int" }]', "SpecCheck V11 main review", 38, '"no"'),
]

# Those of docs/MISTAKES.md, in its order: what becomes what. The last is accepted.
COMMON = [
    ("[[net]]\n", "[net]\n"),
    ('top = "main"\n\n[[net]]\n', '[[net]]\ntop = "main"\n'),
    ('role = "teller"', 'role = "head teller"'),
    ('["open", "withdraw"]', '["open", "withdrawal"]'),
    (', ["withdraw", "o"]', ""),
    ("yes = 2", "yes == 2"),
    ("yes = 2", "asked = 2"),
    ('"sum(v)"', '"v"'),
    ('{ to = "refuse" }', '{ to = "refuse", when = "yes < 2" }'),
    ('["pay", "o"], ["refuse", "o"], ["withdraw", "o"],\n]\n',
     '["pay", "file"], ["refuse", "file"], ["file", "o"], ["withdraw", "o"],\n]\n\n[[net.task]]\nname = "file"\nkind = "empty"\n'),
]
