#!/usr/bin/env python3
"""What is upstream of each place of a net, built a hundred times, and a million questions whether a token may still come.

    python3 bench/paths.py [PROGRAM]

Paths are measured alone, below any command. So this script builds a program of its own: in a temporary folder, from bench/paths/main.rt.txt and copies of the
crates that it stands on, by `rt run`, which proves it first. With nothing kept of an earlier check that takes minutes. PROGRAM is one
that was built so before; without it, the built program is left in the folder out/ beside this script's own folder paths/.

The nets are a chain of 254 tasks, which with input and output are the 256 nodes that a net may have, and the widest: 254 tasks, each of which leads to
the next four by places of its own, some 1,010 flows of the 1,024 that a net may have. A question goes over all places in turn, with the
input marked, or nothing: then it looks at all that is upstream. Each run is shown, with the load of the machine before it. The
bytes of one build are counted by the shapes, not measured. Nothing is asserted: read the numbers.
"""
import os
import subprocess
import sys

from building import built

BUILDS = 100
QUESTIONS = 1000000
RUNS = 3
SHAPES = (("chain", 254, 1), ("widest", 254, 4))


def size(tasks, width):
    """The bytes of one `Upstream` without the allocator's own: rows of words, their heads, the numbers of rows, and input places."""
    places = 2 + tasks * width
    rows = tasks + 2
    return rows * (24 + 8 * (tasks // 64 + 1)) + 8 * places + tasks * (24 + 8 * width)


def main():
    program = os.path.abspath(sys.argv[1]) if len(sys.argv) > 1 else built("paths", "yw_path", "yw_base yw_spec yw_state yw_path anyhow", "3 1 1")
    print("%8s %6s %6s %4s %6s %12s %14s %10s %8s" % ("net", "tasks", "marked", "run", "load", "us a build", "ns a question", "yes", "bytes"))
    for name, tasks, width in SHAPES:
        for marked in (1, 0):
            for run in range(RUNS):
                load = os.getloadavg()[0]
                ended = subprocess.run([program], input="%d %d %d" % (tasks, width, marked), text=True, capture_output=True)
                if ended.returncode != 0:
                    sys.exit("the program failed: " + ended.stderr)
                builds, questions, yes = (int(n) for n in ended.stdout.split())
                print("%8s %6d %6d %4d %6.1f %12.1f %14.1f %10d %8d"
                      % (name, tasks, marked, run + 1, load, builds / BUILDS / 1000, questions / QUESTIONS, yes, size(tasks, width)))


if __name__ == "__main__":
    main()
