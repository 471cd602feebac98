#!/usr/bin/env python3
"""Processor minutes of a gate's run, by crate: proofs, tests, seeds of edits, and edits.

    python3 bench/gate.py WORDS..        runs the words, as .ci/run, and prints the table when they have ended
    python3 bench/gate.py --of PID       the same of a run that is under way, from now on

A seed is the whole proof of a crate from which its edits begin. Each half second it is looked which provers are at work below the run, and what each
took so far; so up to half a second of each is missing, and a prover that was begun and ended in between. The last line has what is left:
building, programs and the gate itself. Lines are those of a crate's sources, without proofs and definitions.
"""
import os
import subprocess
import sys
import time
from collections import defaultdict
from pathlib import Path

TOP = Path(__file__).resolve().parent.parent
KINDS = ("proof", "tests", "seed", "edits")
TICKS = os.sysconf("SC_CLK_TCK")
PAUSE = 0.5


def told(pid):
    """The parent of a process, when it was begun, and its own processor seconds; None where it is over."""
    try:
        fields = Path("/proc/%d/stat" % pid).read_text().rpartition(")")[2].split()
    except OSError:
        return None
    return int(fields[1]), fields[19], sum(int(it) for it in fields[11:13]) / TICKS


def work_of(pid):
    """The crate and the kind of what a prover does; None of another process."""
    try:
        words = Path("/proc/%d/cmdline" % pid).read_bytes().decode(errors="replace").split("\0")
        folder = os.readlink("/proc/%d/cwd" % pid)
    except OSError:
        return None
    if os.path.basename(words[0]) != "rattle" or "--crate-name" not in words:
        return None
    crate = words[words.index("--crate-name") + 1]
    if os.path.basename(folder).startswith("rt-edit-"):
        kept = words[words.index("--incremental") + 1] if "--incremental" in words else ""
        return crate, "seed" if os.path.basename(kept) == "seed" else "edits"
    return crate, "tests" if "--test" in words else "proof"


def below(root, parents):
    """Whether each process is below the root, or the root itself."""
    found = {root: True}

    def is_below(pid):
        if pid not in found:
            found[pid] = pid in parents and is_below(parents[pid])
        return found[pid]

    return {pid for pid in parents if is_below(pid)}


def look(root, seen, works):
    """Notes of each prover below the root what it took so far."""
    now = {int(it): told(int(it)) for it in os.listdir("/proc") if it.isdigit()}
    now = {pid: it for pid, it in now.items() if it}
    for pid in below(root, {pid: it[0] for pid, it in now.items()}):
        key = pid, now[pid][1]
        # Until it is a prover it is asked again: it may have been begun as another program. A prover's own forks are provers too.
        works[key] = works.get(key) or work_of(pid)
        if works[key]:
            seen[key] = now[pid][2]


def lines_of(crate):
    return sum(it.read_bytes().count(b"\n") for it in (TOP / "crates" / crate / "src").glob("**/*.rt"))


def show(spent, whole):
    crates = sorted({crate for crate, _ in spent}, key=lambda it: -sum(spent[it, kind] for kind in KINDS))
    print("%-20s" % "crate", *("%7s" % kind for kind in KINDS), "%7s %7s" % ("all", "lines"), "minutes/1,000")
    for crate in crates:
        row, lines = [spent[crate, kind] / 60 for kind in KINDS], lines_of(crate)
        print("%-20s" % crate, *("%7.1f" % it for it in row), "%7.1f %7d" % (sum(row), lines), "%7.1f" % (sum(row) * 1000 / lines) if lines else "")
    row, lines = [sum(spent[crate, kind] for crate in crates) / 60 for kind in KINDS], sum(map(lines_of, crates))
    print("%-20s" % ("all %d" % len(crates)), *("%7.1f" % it for it in row), "%7.1f %7d" % (sum(row), lines), "%7.1f" % (sum(row) * 1000 / max(lines, 1)))
    if whole is not None:
        print("%-20s %39.1f" % ("the rest", whole / 60 - sum(row)))


def main(words):
    if not words:
        sys.exit(__doc__)
    seen, works, before, start = {}, {}, {}, time.monotonic()
    if words[0] == "--of":
        root, whole = int(words[1]), None
        look(root, before, {})
        while told(root):
            look(root, seen, works)
            time.sleep(PAUSE)
    else:
        run = subprocess.Popen(words)
        while run.poll() is None:
            look(run.pid, seen, works)
            time.sleep(PAUSE)
        times = os.times()
        whole = times.children_user + times.children_system
        print("status %d" % run.returncode)
    spent = defaultdict(float)
    for key, seconds in seen.items():
        spent[works[key]] += seconds - before.get(key, 0)
    show(spent, whole)
    print("%.1f minutes by the clock" % ((time.monotonic() - start) / 60))


if __name__ == "__main__":
    main(sys.argv[1:])
