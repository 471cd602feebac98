#!/usr/bin/env python3
"""Person lines through the built program: processor time a line and peak memory, for growing inputs.

    python3 bench/persons.py [PROGRAM]

Each input has lines of a thousand names with one role each, which stays the same, or which changes with each line of a name. The output goes
to a file. The folder is in memory where the system has one there, so that a sync costs no disk. Nothing is asserted: read the numbers.
PROGRAM is crates/yw_main/out/yw_main where it isn't given.
"""
import os
import sys
import tempfile

NAMES = 1000
SIZES = (10_000, 100_000, 1_000_000)
ROLES = {"same": ("clerk", "clerk"), "changed": ("clerk", "clerc")}


def write_lines(path, count, roles="same"):
    with open(path, "w") as f:
        for k in range(count):
            f.write('{"cmd":"person","name":"p%d","roles":["%s"]}\n' % (k % NAMES, ROLES[roles][k // NAMES % 2]))


def measure(program, path, out):
    """Processor seconds of the user's and the system's side, and peak memory in KiB."""
    pid = os.fork()
    if pid == 0:
        os.dup2(os.open(path, os.O_RDONLY), 0)
        os.dup2(os.open(out, os.O_WRONLY | os.O_CREAT | os.O_TRUNC, 0o600), 1)
        os.execv(program, [program, os.path.dirname(path), "run"])
    status, usage = os.wait4(pid, 0)[1:]
    if os.waitstatus_to_exitcode(status) != 0:
        sys.exit("the program ended with status %d" % os.waitstatus_to_exitcode(status))
    return usage.ru_utime, usage.ru_stime, usage.ru_maxrss


def main():
    top = os.path.dirname(os.path.dirname(os.path.abspath(__file__)))
    program = os.path.abspath(sys.argv[1] if len(sys.argv) > 1 else os.path.join(top, "crates/yw_main/out/yw_main"))
    print("%-8s %10s %14s %10s %12s" % ("roles", "lines", "us a line, own", "system's", "peak KiB"))
    in_memory = "/dev/shm" if os.path.isdir("/dev/shm") else None
    with tempfile.TemporaryDirectory(dir=in_memory) as folder:
        path, out = os.path.join(folder, "in"), os.path.join(folder, "out")
        for roles in ROLES:
            for count in SIZES:
                write_lines(path, count, roles)
                user, system, peak = measure(program, path, out)
                with open(out) as f:
                    replies = sum(1 for _ in f)
                if replies != count:
                    sys.exit("%d replies to %d lines" % (replies, count))
                os.remove(os.path.join(folder, "yawl.a"))
                print("%-8s %10d %14.2f %10.2f %12d" % (roles, count, 1e6 * user / count, 1e6 * system / count, peak))


if __name__ == "__main__":
    main()
