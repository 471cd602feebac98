#!/usr/bin/env python3
"""The words `check` on texts of about 100 KB and 1 MB: time and peak memory, and how they grow.

    python3 bench/checks.py [PROGRAM]

The shapes are those of bench/specifications.py, in the two sizes, nets that all name each other, a net that many tasks
name, a small net behind a comment, a text of one bracket repeated, and a text past the limit of 1,048,576 bytes, which
isn't read to its end. Nothing of the time is that of a disk: `check` touches no file. Each run is shown, with the load of
the machine before it, and behind each shape the growth of its least time from the small size to the large one, beside
that of its bytes. Nothing is asserted: read the numbers. PROGRAM is crates/yw_main/out/yw_main where it isn't given.
"""
import os
import sys
import tempfile

from running import run
from specifications import HEAD, assignments, branches, conditions, flows, nets, nodes, variables

TOP = os.path.dirname(os.path.dirname(os.path.abspath(__file__)))
RUNS = 3
LIMIT = 1_048_576
SMALL, LARGE = 100_000, 1_000_000


def comment(size):
    """A small net behind a comment."""
    text = nodes(64)
    return "#" + "x" * (size - len(text) - 2) + "\n" + text


def brackets(size):
    """No TOML."""
    return "[" * size


def past(size):
    """So many bytes more than the limit."""
    return comment(LIMIT + size)


def mutual(count):
    """So many nets, each with a task for each other: at fault is the first net's first task, since its net leads back."""
    names = ["n%d" % k for k in range(count)]
    text = HEAD.replace('"n0"', '"top"') + used("top", names[:1])
    return text + "".join(used(name, [other for other in names if other != name]) for name in names)


def shared(count):
    """A net that so many tasks name."""
    return HEAD.replace('"n0"', '"top"') + used("top", ["leaf"] * count) + used("leaf", [])


def used(name, children):
    """A net with a task for each of these nets, and one more, one behind the other."""
    tasks = ["t%d" % k for k in range(len(children) + 1)]
    flows = zip(["i"] + tasks, tasks + ["o"])
    text = '[[net]]\nname = "%s"\ninput = "i"\noutput = "o"\n' % name
    text += "flows = [%s]\n" % ",".join('["%s","%s"]' % flow for flow in flows)
    for task, child in zip(tasks, children):
        text += '[[net.task]]\nname = "%s"\nkind = "sub"\nnet = "%s"\n' % (task, child)
    return text + '[[net.task]]\nname = "%s"\n' % tasks[-1]


# The second size of nets is the most whose text is judged.
SHAPES = [(nets, (6, 57)), (mutual, (16, 64)), (shared, (25, 250))] + [(shape, (SMALL, LARGE)) for shape in (conditions, flows, variables, assignments, branches, comment, brackets, past)]


def measure(program, folder, shape, size):
    """The bytes of the text, and the least processor time."""
    text, path, out = shape(size), os.path.join(folder, "text"), os.path.join(folder, "out")
    with open(path, "w") as f:
        f.write(text)
    least = None
    for turn in range(RUNS):
        load = os.getloadavg()[0]
        clock, user, system, peak = run(program, [folder, "check"], path, out, (0, 1))
        least = user + system if least is None else min(least, user + system)
        with open(out) as f:
            line = f.read().strip()
        print("%12s %8d %9d %4d %6.1f %9.1f %9.1f %9.1f %9d  %s"
              % (shape.__name__, size, len(text), turn + 1, load, 1e3 * clock, 1e3 * user, 1e3 * system, peak, line))
    return len(text), least


def main():
    program = os.path.abspath(sys.argv[1] if len(sys.argv) > 1 else os.path.join(TOP, "crates/yw_main/out/yw_main"))
    print("%12s %8s %9s %4s %6s %9s %9s %9s %9s  %s"
          % ("shape", "size", "bytes", "run", "load", "ms clock", "ms user", "ms system", "peak KiB", "line"))
    with tempfile.TemporaryDirectory() as folder:
        for shape, sizes in SHAPES:
            (small, before), (large, after) = (measure(program, folder, shape, size) for size in sizes)
            print("%12s %.1f times the bytes, %.1f times the time" % ("", large / small, after / max(before, 1e-6)))


if __name__ == "__main__":
    main()
