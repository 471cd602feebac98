#!/usr/bin/env python3
"""Specifications read and checked: processor time a text, by its size and its shape.

    python3 bench/specifications.py [PROGRAM]

The program judges one text a run. This script builds one that judges a text many times: in a temporary folder, from
bench/specifications/main.rt.txt and copies of the crates that it stands on, by `rt run`, which proves it first. With
nothing kept of an earlier check that takes long. PROGRAM is one that was built so before; without it, the built program
is left in the folder out/ beside this script's own folder specifications/.

The shapes: one net of 64 to 256 nodes with four flows a node, 1 to 64 nets of 256 nodes and 1,024 flows, and texts of
125,000 to 1,000,000 bytes that are nearly all of one kind (names of conditions, flows, variables with expressions that
speak of them, tasks with assignments, branches of one split), which pass the bounds of a specification and go through
every check before that is named. Each run is shown, with the load of the machine before it. Nothing is asserted: read
the numbers.
"""
import os
import subprocess
import sys

from building import built

RUNS = 3
HEAD = 'name = "s"\ntop = "n0"\n'


def net(name, nodes, children=()):
    """So many nodes and four flows a node, all on the way; the first tasks' work is these nets."""
    half = (nodes - 2) // 2
    flows = []
    for k in range(half):
        flows += [("i", "t%d" % k), ("t%d" % k, "o")]
        for step in range(3):
            flows += [("t%d" % k, "c%d" % ((k + step) % half)), ("c%d" % k, "t%d" % ((k + step + 1) % half))]
    text = '[[net]]\nname = "%s"\ninput = "i"\noutput = "o"\n' % name
    text += "conditions = [%s]\n" % ",".join('"c%d"' % k for k in range(half))
    text += "flows = [%s]\n" % ",".join('["%s","%s"]' % flow for flow in flows)
    for k in range(half):
        text += '[[net.task]]\nname = "t%d"\n' % k
        if k < len(children):
            text += 'kind = "sub"\nnet = "%s"\n' % children[k]
    return text


def nodes(count):
    """One net."""
    return HEAD + net("n0", count)


def nets(count):
    """So many nets of 256 nodes, the top one over all others."""
    names = ["n%d" % k for k in range(1, count)]
    return HEAD + net("n0", 256, names) + "".join(net(name, 256) for name in names)


def grown(size, first, each, last):
    """A net whose text has about this size."""
    text = HEAD + '[[net]]\nname = "n0"\ninput = "i"\noutput = "o"\n' + first
    parts = []
    have = len(text) + len(last)
    k = 0
    while have < size:
        parts.append(each(k))
        have += len(parts[-1])
        k += 1
    return text + "".join(parts) + last


def conditions(size):
    flows = '"z"]\nflows = [["i","a"],["a","o"]]\n[[net.task]]\nname = "a"\n'
    return grown(size, "conditions = [", lambda k: '"c%d",' % k, flows)


def flows(size):
    """Each task between the input and the output."""
    text = HEAD + '[[net]]\nname = "n0"\ninput = "i"\noutput = "o"\n'
    count = max(1, (size - len(text)) // 55)
    text += "flows = [%s]\n" % ",".join('["i","t%d"],["t%d","o"]' % (k, k) for k in range(count))
    return text + "".join('[[net.task]]\nname="t%d"\n' % k for k in range(count))


def variables(size):
    """Half the text declares them, and half speaks of them in conditions of a split."""
    text = HEAD + '[[net]]\nname = "n0"\ninput = "i"\noutput = "o"\n'
    count = max(2, size // 2 // 28)
    text += "vars = [%s]\n" % ",".join('{name="v%d",sort="bool"}' % k for k in range(count))
    text += 'flows = [["i","a"],["a","o"]]\n[[net.task]]\nname = "a"\nsplit = "xor"\nbranch = [{to="o"}'
    k = 0
    while len(text) < size:
        text += ',{to="o",when="' + " and ".join("v%d" % ((k + j) % count) for j in range(200)) + '"}'
        k += 200
    return text + "]\n"


def assignments(size):
    """Many variables, and many tasks each of which sets one."""
    text = HEAD + '[[net]]\nname = "n0"\ninput = "i"\noutput = "o"\n'
    count = max(2, size // 150)
    text += "vars = [%s]\n" % ",".join('{name="v%d",sort="int"}' % k for k in range(count))
    text += "flows = [%s]\n" % ",".join('["i","t%d"],["t%d","o"]' % (k, k) for k in range(count))
    for k in range(count):
        text += '[[net.task]]\nname="t%d"\nset=[{var="v%d",value="v%d + 1"}]\n' % (k, k, (k * 7) % count)
    return text


def branches(size):
    """One split with as many outputs as the text has room for."""
    text = HEAD + '[[net]]\nname = "n0"\ninput = "i"\noutput = "o"\n'
    count = max(2, size // 95)
    text += 'conditions = [%s]\n' % ",".join('"c%d"' % k for k in range(count))
    text += 'flows = [["i","a"],["b","o"],%s]\n' % ",".join('["a","c%d"],["c%d","b"]' % (k, k) for k in range(count))
    text += '[[net.task]]\nname = "b"\n[[net.task]]\nname = "a"\nsplit = "or"\nbranch = [{to="c0"}'
    text += "".join(',{to="c%d",when="true"}' % k for k in range(1, count))
    return text + "]\n"


SIZES = (125_000, 250_000, 500_000, 1_000_000)
SHAPES = [(nodes, (64, 128, 256)), (nets, (1, 4, 16, 64))]
SHAPES += [(shape, SIZES) for shape in (conditions, flows, variables, assignments, branches)]


def main():
    program = os.path.abspath(sys.argv[1]) if len(sys.argv) > 1 else built("specifications", "yw_check", "yw_base yw_spec yw_read yw_check anyhow", nodes(64))
    print("%12s %8s %9s %4s %6s %10s %10s  %s" % ("shape", "size", "bytes", "run", "load", "ms reading", "ms checks", "answer"))
    for shape, sizes in SHAPES:
        for size in sizes:
            document = shape(size)
            for run in range(RUNS):
                load = os.getloadavg()[0]
                ended = subprocess.run([program], input=document, text=True, capture_output=True)
                if ended.returncode != 0:
                    sys.exit("the program failed: " + ended.stderr)
                reading, checking, answer = ended.stdout.split(None, 2)
                print("%12s %8d %9d %4d %6.1f %10.1f %10.1f  %s" % (shape.__name__, size, len(document), run + 1, load,
                      int(reading) / 1e6, int(checking) / 1e6, answer.strip()))


if __name__ == "__main__":
    main()
