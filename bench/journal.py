#!/usr/bin/env python3
"""Lines with real syncs beside a bare loop of the same writes and syncs, and the opening of long files.

    python3 bench/journal.py [PROGRAM [FOLDER]]

Both loops run in the same folder (a temporary one where none is given), one after the other, so the ratio is what
counts. The opening reads files of entries that this script writes. Nothing is asserted: read the numbers. PROGRAM is
crates/yw_main/out/yw_main where it isn't given.
"""
import os
import sys
import tempfile
import time

NAMES = 1000
LINES = 2000
SIZES = (10_000, 100_000, 1_000_000)
HEAD = b"\x01YWJ1" + (1).to_bytes(8, "big") + bytes(16)


def name(k):
    return b"p%d" % (k % NAMES)


def entry(k):
    """A person's entry, behind an open gate: its length, a count of one event, and the event."""
    event = b"\x01" + bytes([len(name(k))]) + name(k) + b"\x01\x05clerk"
    return b"\x01" + (2 + len(event)).to_bytes(4, "big") + b"\x00\x01" + event


def run(program, folder, lines):
    """Seconds by the clock, processor seconds of both sides, and peak memory in KiB."""
    path = os.path.join(folder, "lines")
    with open(path, "wb") as f:
        f.writelines(lines)
    start = time.monotonic()
    pid = os.fork()
    if pid == 0:
        os.dup2(os.open(path, os.O_RDONLY), 0)
        os.dup2(os.open(os.devnull, os.O_WRONLY), 1)
        os.execv(program, [program, folder, "run"])
    status, usage = os.wait4(pid, 0)[1:]
    if os.waitstatus_to_exitcode(status) != 0:
        sys.exit("the program ended with status %d" % os.waitstatus_to_exitcode(status))
    return time.monotonic() - start, usage.ru_utime, usage.ru_stime, usage.ru_maxrss


def bare(path, count):
    """The writes and syncs of so many entries: the entry with a closed gate, a sync, the gate before it, a sync."""
    file = os.open(path, os.O_RDWR | os.O_CREAT | os.O_TRUNC, 0o600)
    os.pwrite(file, HEAD + b"\x00", 0)
    os.fsync(file)
    start, at = time.monotonic(), len(HEAD)
    for k in range(count):
        bytes_of = entry(k)[1:] + b"\x00"
        os.pwrite(file, bytes_of, at + 1)
        os.fsync(file)
        os.pwrite(file, b"\x01", at)
        os.fsync(file)
        at += len(bytes_of)
    os.close(file)
    return time.monotonic() - start


def appending(program, folder):
    lines = [b'{"cmd":"person","name":"%s","roles":["clerk"]}\n' % name(k) for k in range(LINES)]
    for turn in range(3):
        loop = bare(os.path.join(folder, "bare"), LINES)
        if os.path.exists(os.path.join(folder, "yawl.a")):
            os.remove(os.path.join(folder, "yawl.a"))
        clock, user, system, _ = run(program, folder, lines)
        print("%d lines: %.0f a second, the bare loop %.0f, ratio %.2f; %.1f us of the processor a line, %.1f in the system"
              % (LINES, LINES / clock, LINES / loop, clock / loop, 1e6 * user / LINES, 1e6 * system / LINES))


def opening(program, folder):
    for count in SIZES:
        with open(os.path.join(folder, "yawl.a"), "wb") as f:
            f.write(HEAD)
            f.writelines(entry(k) for k in range(count))
            f.write(b"\x00")
        clock, user, system, peak = run(program, folder, [])
        print("opening %d entries of %d persons: %.2f s, %.2f us of the processor an entry, %.2f in the system, peak %d KiB"
              % (count, NAMES, clock, 1e6 * user / count, 1e6 * system / count, peak))


def main():
    top = os.path.dirname(os.path.dirname(os.path.abspath(__file__)))
    program = os.path.abspath(sys.argv[1] if len(sys.argv) > 1 else os.path.join(top, "crates/yw_main/out/yw_main"))
    with tempfile.TemporaryDirectory(dir=sys.argv[2] if len(sys.argv) > 2 else None) as folder:
        appending(program, folder)
        opening(program, folder)


if __name__ == "__main__":
    main()
