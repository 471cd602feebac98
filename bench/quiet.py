#!/usr/bin/env python3
"""What a person line and an opened entry cost while the machine is quiet, where its speed comes and goes.

    python3 bench/quiet.py [PROGRAM ...]

A processor of a shared machine may be half as fast as it was a moment ago, with nothing of ours beside it. So each run of a program stands
between two runs of a fixed loop, which knows nothing of the program, and a run counts as quiet where both took at most 15 in 100 more than the
fastest of all. In each of 200 turns each program gets 50,000 lines of a thousand names, with the roles that they have, from a file to a file, the
folder in memory, and then opens those files without a line. The summary has the quiet runs, and below them all that were made, in µs of the
program's own: the least, the tenth part, the middle, the most, and the mean, with the mean of the system's beside it. Nothing is asserted.
PROGRAM is crates/yw_main/out/yw_main where it isn't given.
"""
import os
import sys
import tempfile
import time

import persons

COUNT = 50_000
TURNS = 200
QUIET = 1.15


def loop():
    """Processor seconds of a fixed loop, some 20 ms."""
    begun = time.process_time()
    kept = 0
    for k in range(250_000):
        kept = kept * 31 + k & 0xFFFFFF
    return time.process_time() - begun


def tell(program, what, which, runs):
    """One line of the summary. A run: µs of the user's and of the system's side, and the slower loop beside it."""
    own = sorted(it[0] for it in runs)
    print("%-24s %-6s %-6s %5d" % (program[-24:], what, which, len(own)), end="")
    if own:
        shown = (own[0], own[len(own) // 10], own[len(own) // 2], own[-1], sum(own) / len(own), sum(it[1] for it in runs) / len(own))
        print((" %8.2f" * 6) % shown, end="")
    print()


def main():
    top = os.path.dirname(os.path.dirname(os.path.abspath(__file__)))
    programs = [os.path.abspath(it) for it in sys.argv[1:]] or [os.path.join(top, "crates/yw_main/out/yw_main")]
    runs = {(program, what): [] for program in programs for what in ("line", "entry")}
    with tempfile.TemporaryDirectory(dir="/dev/shm" if os.path.isdir("/dev/shm") else None) as folder:
        path, empty, out = (os.path.join(folder, it) for it in ("in", "empty", "out"))
        persons.write_lines(path, COUNT)
        open(empty, "w").close()
        before, fastest = loop(), loop()
        for _ in range(TURNS):
            for program in programs:
                for what, given in (("line", path), ("entry", empty)):
                    user, system, _ = persons.measure(program, given, out)
                    after = loop()
                    runs[program, what].append((1e6 * user / COUNT, 1e6 * system / COUNT, max(before, after)))
                    before, fastest = after, min(before, after, fastest)
                os.remove(os.path.join(folder, "yawl.a"))
    print("%-24s %-6s %-6s %5s" % ("program", "µs of", "runs", "count") + (" %8s" * 6) % ("least", "tenth", "middle", "most", "mean", "system's"))
    for (program, what), made in runs.items():
        tell(program, what, "quiet", [it for it in made if it[2] <= QUIET * fastest])
        tell(program, what, "all", made)


if __name__ == "__main__":
    main()
