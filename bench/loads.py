#!/usr/bin/env python3
"""Ten thousand small specifications loaded into a fresh folder, and the opening of that folder by a run without a line.

    python3 bench/loads.py [PROGRAM [FOLDER]]

Each line loads a specification of a name of its own: two tasks one after the other, or a net of a split and a join, in
turn. The folder is made in FOLDER (in a temporary one where none is given); the syncs of a load are real, so the time by
the clock says as much of the disk as of us: the time of the processor is what to compare. A thousand lines are measured
beside the ten thousand, to see whether a load takes longer where many are loaded. The opening reads, checks and
builds each text anew. Each run is shown, with the load of the machine before it. Nothing is asserted but that each
specification is loaded: read the numbers. PROGRAM is crates/yw_main/out/yw_main where it isn't given.
"""
import json
import os
import sys
import tempfile

from running import run

TOP = os.path.dirname(os.path.dirname(os.path.abspath(__file__)))
RUNS = 3
SIZES = (1_000, 10_000)

HEAD = """name = "%s"
top = "main"
[[net]]
name = "main"
input = "i"
output = "o"
"""

SEQUENCE = HEAD + """flows = [["i","a"],["a","b"],["b","o"]]
[[net.task]]
name = "a"
role = "clerk"
[[net.task]]
name = "b"
"""

CHOICE = HEAD + """vars = [{name="amount",sort="int",use="in"}]
flows = [["i","a"],["a","b"],["a","c"],["b","d"],["c","d"],["d","o"]]
[[net.task]]
name = "a"
split = "xor"
branch = [{to="b",when="amount > 1000"},{to="c"}]
[[net.task]]
name = "b"
role = "manager"
[[net.task]]
name = "c"
kind = "empty"
[[net.task]]
name = "d"
join = "xor"
"""


def name(k):
    return "p%d" % k


def write_lines(path, count):
    with open(path, "w") as f:
        for k in range(count):
            text = (SEQUENCE, CHOICE)[k % 2] % name(k)
            f.write(json.dumps({"cmd": "load", "toml": text}) + "\n")


def expect_all_loaded(path, count):
    with open(path) as f:
        for k, line in enumerate(f):
            reply = json.loads(line)
            if reply.get("steps") != ["load " + name(k)]:
                sys.exit("line %d isn't loaded: %s" % (k + 1, line))
        if k + 1 != count:
            sys.exit("%d replies to %d lines" % (k + 1, count))


def show(what, count, turn, load, taken, size):
    clock, user, system, peak = taken
    print("%8s %8d %4d %6.1f %9.2f %12.1f %14.1f %9d %11d"
          % (what, count, turn, load, clock, 1e6 * user / count, 1e6 * system / count, peak, size))


def measure(program, place, count):
    """Loads so many, and opens the folder then."""
    lines, replies = os.path.join(place, "lines"), os.path.join(place, "replies")
    write_lines(lines, count)
    for turn in range(1, RUNS + 1):
        with tempfile.TemporaryDirectory(dir=place) as folder:
            load = os.getloadavg()[0]
            taken = run(program, [folder, "run"], lines, replies)
            expect_all_loaded(replies, count)
            size = os.path.getsize(os.path.join(folder, "yawl.a"))
            show("loading", count, turn, load, taken, size)
            load = os.getloadavg()[0]
            taken = run(program, [folder, "run"], os.devnull, replies)
            show("opening", count, turn, load, taken, size)


def main():
    program = os.path.abspath(sys.argv[1] if len(sys.argv) > 1 else os.path.join(TOP, "crates/yw_main/out/yw_main"))
    print("%8s %8s %4s %6s %9s %12s %14s %9s %11s"
          % ("what", "specs", "run", "load", "s clock", "us a spec", "of the system", "peak KiB", "file bytes"))
    with tempfile.TemporaryDirectory(dir=sys.argv[2] if len(sys.argv) > 2 else None) as place:
        for count in SIZES:
            measure(program, place, count)


if __name__ == "__main__":
    main()
