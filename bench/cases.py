#!/usr/bin/env python3
"""Cases in memory: adding them, a million look-ups with a write, and taking them away.

    python3 bench/cases.py [PROGRAM]

The trees of cases are measured alone, below any command. So this script builds a program of its own: in a temporary folder, from bench/cases/main.rt.txt and copies
of the crates that it stands on, by `rt run`, which proves it first. With nothing kept of an earlier check that takes minutes. PROGRAM is
one that was built so before; without it, the built program is left in the folder out/ beside this script's own folder cases/.

The item that is looked up is the last of its case's net, or stands below that one. The bytes of a case are the most memory that the process
held beyond that with no case, over the cases: that counts the case, its items and the identity that the program keeps to look up by.
Each run is shown, with the load of the machine before it. Nothing is asserted: read the numbers.
"""
import os
import subprocess
import sys

from building import built

LOOK_UPS = 1000000
RUNS = 3
# cases, items in the net of each, and how many numbers the identity has that is looked up
SHAPES = ((1000, 1, 2), (10000, 1, 2), (100000, 1, 2), (1000, 1, 40), (10, 1000, 2))


def run(program, cases, items, length):
    """What the program wrote, and the most kilobytes that it held."""
    process = subprocess.Popen([program], stdin=subprocess.PIPE, stdout=subprocess.PIPE, text=True)
    process.stdin.write("%d %d %d" % (cases, items, length))
    process.stdin.close()
    said = process.stdout.read()
    _, status, used = os.wait4(process.pid, 0)
    if status != 0:
        sys.exit("the program failed")
    return [int(n) for n in said.split()], used.ru_maxrss


def main():
    program = os.path.abspath(sys.argv[1]) if len(sys.argv) > 1 else built("cases", "yw_tree", "yw_base yw_state yw_tree anyhow", "3 2 4")
    empty = run(program, 0, 1, 2)[1]
    heads = ("cases", "items", "numbers", "run", "load", "ns added", "ns looked up", "ns taken", "found", "bytes")
    print("%8s %6s %8s %4s %6s %10s %12s %10s %10s %10s" % heads)
    for cases, items, length in SHAPES:
        for number in range(RUNS):
            load = os.getloadavg()[0]
            (adding, look_ups, taking, found), most = run(program, cases, items, length)
            bytes_a_case = (most - empty) * 1024 / cases
            print("%8d %6d %8d %4d %6.1f %10.0f %12.0f %10.0f %10d %10.0f"
                  % (cases, items, length, number + 1, load, adding / cases, look_ups / LOOK_UPS, taking / cases, found, bytes_a_case))


if __name__ == "__main__":
    main()
