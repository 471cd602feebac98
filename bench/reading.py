#!/usr/bin/env python3
"""What a person line costs, beside what its reading by serde_json alone costs on the same machine.

    python3 bench/reading.py [PROGRAM [READING]]

The two are run in turn, so that both meet the same machine: a million lines of a thousand names through the program, from a file to a file, the
folder in memory, and one such line read into a value a million times, by a program of its own. That is built in a temporary folder, from
bench/reading/main.rt.txt, by `rt run`, which proves it first. READING is one that was built so before; without it, the built program is left in the
folder out/ beside this script's own folder reading/. Each turn is shown, with the load of the machine before it. Nothing is asserted: read the
ratio, which hangs on the machine less than the times do.
"""
import os
import subprocess
import sys
import tempfile

import persons
from building import built

COUNT = 1000000
TURNS = 7
LINE = '{"cmd":"person","name":"p500","roles":["clerk"]}'


def main():
    top = os.path.dirname(os.path.dirname(os.path.abspath(__file__)))
    program = os.path.abspath(sys.argv[1] if len(sys.argv) > 1 else os.path.join(top, "crates/yw_main/out/yw_main"))
    reading = os.path.abspath(sys.argv[2]) if len(sys.argv) > 2 else built("reading", "yw_documents", "anyhow serde_json", LINE)
    print("%6s %16s %16s %10s %8s" % ("load", "us a line, own", "of it, reading", "system's", "ratio"))
    with tempfile.TemporaryDirectory(dir="/dev/shm" if os.path.isdir("/dev/shm") else None) as folder:
        path, out = os.path.join(folder, "in"), os.path.join(folder, "out")
        persons.write_lines(path, COUNT)
        for _ in range(TURNS):
            load = os.getloadavg()[0]
            user, system, _ = persons.measure(program, path, out)
            os.remove(os.path.join(folder, "yawl.a"))
            ended = subprocess.run([reading], input=LINE, text=True, capture_output=True, check=True)
            alone = int(ended.stdout) / 1000
            own = 1e6 * user
            print("%6.1f %16.2f %16.2f %10.2f %8.2f" % (load, own / COUNT, alone / COUNT, 1e6 * system / COUNT, own / alone), flush=True)


if __name__ == "__main__":
    main()
