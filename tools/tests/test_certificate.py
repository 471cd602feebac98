"""Certificates: those of the examples are found again, and each line that `prove` says comes once."""

import json
import subprocess
import sys
import unittest

from support import EXAMPLES, TOOLS, TOP, FolderTest, example, program_path, run

CERTIFICATE = TOOLS / "certificate.py"
# The specification of the smallest net with two tasks, and a certificate of it.
TWO = """name = "seq"
top = "main"
[[net]]
name = "main"
input = "i"
output = "o"
flows = [["i","a"],["a","b"],["b","o"]]
[[net.task]]
name = "a"
[[net.task]]
name = "b"
"""
ONES = {"i": 1, "o": 1, "a->b": 1, "a": 1, "b": 1}
MOST = 2**32 - 1


def proof(net: str = "main", toml: str = TWO, **weights) -> dict:
    """A text that `prove` reads, with the weights of TWO but for these; None takes one out."""
    given = {**ONES, **{name.replace("_", "->"): weight for name, weight in weights.items()}}
    return {"net": net, "toml": toml, "weights": {name: weight for name, weight in given.items() if weight is not None}}


def many(count: int) -> str:
    """A specification of so many nets: `main` has a task for each other one, and each of these, `n2` on, has one task."""
    subs = [f"t{k}" for k in range(2, count + 1)]
    flows = [list(it) for it in zip(["i", *subs], [*subs, "o"])]
    nets = [f'[[net]]\nname = "main"\ninput = "i"\noutput = "o"\nflows = {json.dumps(flows)}\n']
    nets += [f'[[net.task]]\nname = "{it}"\nkind = "sub"\nnet = "n{it[1:]}"\n' for it in subs]
    nets += [
        f'[[net]]\nname = "n{it[1:]}"\ninput = "i"\noutput = "o"\nflows = [["i","a"],["a","o"]]\n[[net.task]]\nname = "a"\n' for it in subs
    ]
    return 'name = "many"\ntop = "main"\n' + "".join(nets)


def no(rule: str, at: str = "") -> dict:
    return {"at": at, "ok": False, "rule": rule}


# What is given, as JSON or as bytes, and what is found.
FOUND = [
    (proof(), {"bound": 1, "net": "main", "ok": True, "spec": "seq"}),
    (proof(i=MOST, o=MOST, a_b=MOST, a=MOST, b=MOST), {"bound": MOST, "net": "main", "ok": True, "spec": "seq"}),
    (proof("n64", many(64), a_b=None, b=None), {"bound": 1, "net": "n64", "ok": True, "spec": "many"}),
    (proof("n64", many(64), a_b=None, b=None, i=2), no("Rises", "ends")),
    (proof("n65", many(64), a_b=None, b=None), no("UnknownNet")),
    (b"x" * 2_097_153, no("LineTooLong")),
    (b"\xff", no("NotJson")),
    (b"", no("NotJson")),
    ([], no("NotProof")),
    ({**proof(), "more": 1}, no("NotProof")),
    ({**proof(), "net": "1"}, no("NotProof")),
    ({**proof(), "toml": 1}, no("NotProof")),
    ({**proof(), "weights": []}, no("NotProof")),
    (proof(toml="]["), no("SpecText")),
    (proof(toml="name = 1"), no("SpecShape", "name")),
    (proof(toml=TWO.replace('"o"\n', '"o"\nconditions = ["x"]\n', 1)), no("SpecCheck", "V3 main x")),
    (proof(net="other", i=0), no("UnknownNet")),
    (proof(i=0, o=0), no("Weight", "i")),
    (proof(o=MOST + 1, a=0), no("Weight", "o")),
    (proof(a_b=1.0), no("Weight", "a->b")),
    (proof(b="1", z=1), no("Weight", "b")),
    (proof(a=None, c=1), no("Weight", "a")),
    (proof(z=1, c=1, i=2), no("Weight", "c")),
    (proof(a=2), no("Rises", "join a")),
    (proof(a_b=2), no("Rises", "split a")),
    (proof(a_b=2, a=2), no("Rises", "join a")),
    (proof(i=2), no("Rises", "ends")),
]


class CertificateTest(FolderTest):
    def prove(self, given: bytes) -> tuple[int, str]:
        return run(program_path(), self.folder, "prove", given=given)

    def test_each_line(self):
        for given, found in FOUND:
            text = given if isinstance(given, bytes) else json.dumps(given).encode()
            said = json.dumps(found, sort_keys=True, separators=(",", ":")) + "\n"
            self.assertEqual(self.prove(text), (0 if found["ok"] else 1, said), text[:200])
        self.assertEqual(list(self.folder.iterdir()), [], "a file was made")

    def test_examples(self):
        for name, bound in (("order", 2), ("loan", 1)):
            made = subprocess.run([sys.executable, CERTIFICATE, EXAMPLES / f"{name}.toml"], stdout=subprocess.PIPE, check=True).stdout
            self.assertEqual(made.decode(), example(name, "proof.json"), name)
            said = '{"bound":%d,"net":"main","ok":true,"spec":"%s"}\n' % (bound, name)
            self.assertEqual(self.prove(made), (0, said))

    def test_none_is_found(self):
        ran = subprocess.run([sys.executable, CERTIFICATE, EXAMPLES / "claims.toml"], cwd=TOP, capture_output=True, text=True)
        self.assertEqual((ran.returncode, ran.stdout, ran.stderr), (1, "", "the net has no certificate\n"))

    def test_what_is_no_specification(self):
        wrong, none = self.folder / "wrong.toml", self.folder / "none.toml"
        wrong.write_text(TWO.replace('name = "seq"', "name = seq"))
        for words, status, begin in (((wrong,), 1, f"{wrong}:1:8: "), ((none,), 3, "certificate.py: "),
                                     ((EXAMPLES / "order.toml", "none"), 1, "no net has the name none\n")):
            ran = subprocess.run([sys.executable, CERTIFICATE, *words], capture_output=True, text=True)
            self.assertEqual((ran.returncode, ran.stdout, ran.stderr[:len(begin)]), (status, "", begin))

    def test_at_the_limit(self):
        text = json.dumps(proof()).encode()
        self.assertEqual(self.prove(text + b" " * (2_097_152 - len(text)))[0], 0)
        self.assertEqual(self.prove(text + b" " * (2_097_153 - len(text)))[1], json.dumps(no("LineTooLong"), separators=(",", ":")) + "\n")


if __name__ == "__main__":
    unittest.main()
