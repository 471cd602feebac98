#!/usr/bin/env python3
"""A thousand parses and a thousand evaluations of conditions of 128 to 1,024 tokens: processor time a token.

    python3 bench/expressions.py [PROGRAM]

Expressions are measured alone, below any command. So this script builds a program of its own: in a temporary folder, from
bench/expressions/main.rt.txt and copies of the crates that it stands on, by `rt run`, which proves it first. With
nothing kept of an earlier check that takes minutes. PROGRAM is one that was built so before; without it, the built
program is left in the folder out/ beside this script's own folder expressions/.

Each run of the program reads one condition, parses it a thousand times and finds its truth value over a thousand rows,
and each is shown, with the load of the machine before it. Nothing is asserted: read the numbers.
"""
import os
import re
import subprocess
import sys

from building import built

TURNS = 1000
RUNS = 3
SIZES = (128, 256, 512, 1024)
TOKEN = re.compile(r"[a-z_][a-z_0-9]*|[0-9]+|<=|>=|!=|[-=<>+*/%()\[\],]")


def comparisons(tokens):
    """Each true, so that each is evaluated."""
    rest = ["n%d < 1000" % (k % 16) for k in range(1, tokens // 4)]
    return " and ".join(["not n0 >= 1000"] + rest)


def addends(tokens):
    """One long sum, compared once."""
    return "-" + " + ".join("n%d" % (k % 16) for k in range(tokens // 2 - 1)) + " < 1000000"


def elements(tokens):
    """The sum of one long list, compared once."""
    return "sum([" + ", ".join(["7"] * (tokens // 2 - 3)) + "]) < 1000000"


def negations(tokens):
    """A tree as deep as it has tokens."""
    return "not " * (tokens - 3) + "n0 >= 1000"


SHAPES = (comparisons, addends, elements, negations)


def main():
    program = os.path.abspath(sys.argv[1]) if len(sys.argv) > 1 else built("expressions", "yw_expr", "yw_base yw_expr anyhow", "true")
    print("%12s %8s %4s %6s %12s %12s %12s %12s" % ("shape", "tokens", "run", "load", "us a parse", "ns a token", "us a truth", "ns a token"))
    for shape in SHAPES:
        for tokens in SIZES:
            condition = shape(tokens)
            if len(TOKEN.findall(condition)) != tokens:
                sys.exit("%s has not %d tokens" % (shape.__name__, tokens))
            for run in range(RUNS):
                load = os.getloadavg()[0]
                ended = subprocess.run([program], input=condition, text=True, capture_output=True)
                if ended.returncode != 0:
                    sys.exit("the program failed: " + ended.stderr)
                parse, truth = (int(n) / TURNS for n in ended.stdout.split())
                print("%12s %8d %4d %6.1f %12.1f %12.1f %12.2f %12.2f"
                      % (shape.__name__, tokens, run + 1, load, parse / 1000, parse / tokens, truth / 1000, truth / tokens))


if __name__ == "__main__":
    main()
