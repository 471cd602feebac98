#!/usr/bin/env python3
"""Builds the program in crates/yw_main/out, and proves on the way each crate that it stands on.

Crates are built side by side, as many as there are processors, each once those that it stands on are built, and first those with the
longest chain of others above them. A build locks its crate and all below it; so each processor has a copy of the sources, its lane, and a
library that is built in one lane is linked into the others. What an earlier build proved and nothing has changed since is taken over. The
last lines that a crate's build said are told where it fails; all that it said is in the crate's out/build.log.
"""

import functools
import os
import shutil
import subprocess
import sys
import tempfile
from concurrent.futures import FIRST_COMPLETED, ThreadPoolExecutor, wait
from pathlib import Path

TOP = Path(__file__).resolve().parent
PROGRAM = "yw_main"


def crates():
    """The crates of this repository, each with the libraries that it uses."""
    lines = [it.partition("#")[0].partition(":") for it in (TOP / "crates.txt").read_text().splitlines()]
    return {name.strip(): used.split() for name, colon, used in lines if colon}


def crates_below(program):
    """The crates of this repository that the program stands on, itself too, each with those of them that it uses."""
    found, left = {}, [program]
    while left:
        name = left.pop()
        if name not in found:
            found[name] = [it for it in CRATES[name] if it in CRATES]
            left += found[name]
    return found


def lines_of(name):
    files = (TOP / "crates" / name).glob("*/**/*")
    return sum(it.read_bytes().count(b"\n") for it in files if it.suffix in (".rt", ".antt") and "out" not in it.parts)


CRATES = crates()


def out_of(top, name):
    return top / "crates" / name / "out"


def link_or_copy(one, other):
    try:
        os.link(one, other)
    except OSError:
        shutil.copyfile(one, other)


def link(rlib, to):
    """Gives a built library a second place. A build removes such files before it makes them anew, and never writes into them."""
    shutil.rmtree(to, ignore_errors=True)
    shutil.copytree(rlib, to, copy_function=link_or_copy)


def open_lane(room, number, below):
    """A copy of the sources, with the libraries that are built."""
    lane = room / str(number)
    lane.mkdir()
    (lane / "crates.txt").write_text("".join(f"{name}: {' '.join(CRATES[name])}\n" for name in below))
    for name in below:
        shutil.copytree(TOP / "crates" / name, lane / "crates" / name, ignore=shutil.ignore_patterns("out"))
        out_of(lane, name).mkdir()
        if (out_of(TOP, name) / "rlib").is_dir():
            link(out_of(TOP, name) / "rlib", out_of(lane, name) / "rlib")
    return lane


def run(words, folder, log):
    with log.open("w") as out:
        return subprocess.run(words, cwd=folder, stdin=subprocess.DEVNULL, stdout=out, stderr=subprocess.STDOUT).returncode == 0


def build(name, lane, jobs):
    """Builds one crate, over what an earlier build of it kept, and answers whether that went well."""
    here, there = out_of(TOP, name), out_of(lane, name)
    here.mkdir(exist_ok=True)
    if name == PROGRAM:
        # The program is run once on no input, since only a run builds it.
        return run(["rt", "run", "--", str(here), "run"], here.parent, here / "build.log")
    if (here / "incremental").is_dir():
        (here / "incremental").rename(there / "incremental")
    built = run(["rt", "lib", "--jobs", str(jobs)], there.parent, here / "build.log")
    if (there / "incremental").is_dir():
        shutil.rmtree(here / "incremental", ignore_errors=True)
        (there / "incremental").rename(here / "incremental")
    return built


def main():
    below = crates_below(PROGRAM)
    above = {name: [it for it in below if name in below[it]] for name in below}

    @functools.lru_cache(maxsize=None)
    def chain(name):
        return lines_of(name) + max(map(chain, above[name]), default=0)

    count = len(os.sched_getaffinity(0))
    left, running, done = sorted(below, key=chain, reverse=True), {}, set()
    out_of(TOP, PROGRAM).mkdir(exist_ok=True)
    with tempfile.TemporaryDirectory(prefix="lanes-", dir=out_of(TOP, PROGRAM)) as room, ThreadPoolExecutor(count) as pool:
        lanes = [open_lane(Path(room), it, below) for it in range(count)]
        free = list(lanes)
        while left or running:
            ready = [it for it in left if done.issuperset(below[it])][: len(free)]
            jobs, more = divmod(count, len(ready) + len(running))
            for number, name in enumerate(ready):
                left.remove(name)
                lane = free.pop()
                running[pool.submit(build, name, lane, jobs + (number < more))] = name, lane
                print(f"yw: crate {len(below) - len(left)} of {len(below)}: {name}", file=sys.stderr, flush=True)
            for it in wait(running, return_when=FIRST_COMPLETED).done:
                name, lane = running.pop(it)
                log = out_of(TOP, name) / "build.log"
                if not it.result():
                    print("\n".join(log.read_text(errors="replace").splitlines()[-20:]), file=sys.stderr)
                    print(f"yw: {name} wasn't built; all that was said is in {log}", file=sys.stderr)
                    return 1
                done.add(name)
                free.append(lane)
                if name != PROGRAM:
                    for other in [TOP, *lanes]:
                        if other != lane:
                            link(out_of(lane, name) / "rlib", out_of(other, name) / "rlib")
    return 0


sys.exit(main())
