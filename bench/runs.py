#!/usr/bin/env python3
"""Cases run by the built program: microseconds of the processor a line, the program's own and the system's, with the folder in memory.

    python3 bench/runs.py [PROGRAM]

First come many cases of examples/order.toml, each a line further than before; then chains of tasks that nobody does, and of AND- and
XOR-splits into such; then loans of examples/loan.toml,
one after another from its launch to its end; then shapes of cases at their limits: nets within nets, many items of one task, an OR-join of many
branches. Of a shape so many cases are open, and lines are said to the last of them; the opening is taken off, and the least of several runs is
shown, as other work on the machine only adds. The memory of a case is the most that an opening held, beyond that of one case, or of an
order beyond that of none.
"""

import json
import os
import resource
import shutil
import subprocess
import sys
import tempfile
from pathlib import Path

import running

TOP = Path(__file__).resolve().parent.parent
PROGRAM = sys.argv[1] if len(sys.argv) > 1 else TOP / "crates/yw_main/out/yw_main"
RUNS = 5
ROUNDS = 300


def line(**fields):
    return json.dumps(fields)


def run(folder, lines, wanted=0):
    """Answers the lines in the folder, of which so many are to be refused, and gives the program's own and the system's microseconds a line."""
    before = resource.getrusage(resource.RUSAGE_CHILDREN)
    done = subprocess.run([PROGRAM, folder, "run"], input="".join(it + "\n" for it in lines).encode(), stdout=subprocess.PIPE, check=True)
    after = resource.getrusage(resource.RUSAGE_CHILDREN)
    refused = [it for it in done.stdout.splitlines() if b'"ok":false' in it]
    if len(refused) != wanted:
        sys.exit(f"{len(refused)} lines are refused and not {wanted}, the first: {refused[:1]}")
    each = 1e6 / max(1, len(lines))
    return (after.ru_utime - before.ru_utime) * each, (after.ru_stime - before.ru_stime) * each


def part(title, rows):
    print(title)
    for name, (own, system) in rows:
        print(f"  {name:32} {own:7.1f} own {system:7.1f} system")


def people():
    roles = ["clerk", "packer", "manager", "officer", "teller"]
    return [line(cmd="person", name="ann", roles=roles)]


def orders(folder, count):
    """Each of so many cases: launched, and its first task entered, started and completed."""
    run(folder, people() + [line(cmd="load", toml=(TOP / "examples/order.toml").read_text())])
    yield "launch", run(folder, [line(cmd="launch", spec="order", data={"amount": 200})] * count)
    cases = range(1, count + 1)
    yield "enter", run(folder, [line(cmd="enter", who="ann", case=str(n), task="receive") for n in cases])
    items = [f"{n}.{count + n}" for n in cases]
    yield "start", run(folder, [line(cmd="start", who="ann", item=it) for it in items])
    yield "complete, and 7 steps behind it", run(folder, [line(cmd="complete", who="ann", item=it, out={}) for it in items])
    yield "opening, a line of the files", tuple(it / (4 * count) for it in run(folder, []))
    with tempfile.TemporaryDirectory(dir="/dev/shm") as empty:
        held = opened(folder, empty + "/said") - opened(empty, empty + "/said")
    print(f"  a case that is open takes {held / count:.2f} KiB")


def chain(count):
    flows = [["i", "t0"], *([f"t{n}", f"t{n + 1}"] for n in range(count - 1)), [f"t{count - 1}", "o"]]
    tasks = "".join(f'[[net.task]]\nname = "t{n}"\nkind = "empty"\n' for n in range(count))
    return f'name = "chain"\ntop = "main"\n[[net]]\nname = "main"\ninput = "i"\noutput = "o"\nflows = {json.dumps(flows)}\n{tasks}'


def links(count, gate):
    """A chain of splits by a gate, each into two tasks that nobody does, and joins of the same gate."""
    flows, tasks, before = [], "", "i"
    branch = '\nbranch = [{{ to = "a{0}", when = "1 = 1" }}, {{ to = "b{0}" }}]' if gate == "xor" else ""
    for n in range(count):
        flows += [[before, f"s{n}"], [f"s{n}", f"a{n}"], [f"s{n}", f"b{n}"], [f"a{n}", f"j{n}"], [f"b{n}", f"j{n}"]]
        before = f"j{n}"
        more = {"s": f'\nsplit = "{gate}"' + branch.format(n), "j": f'\njoin = "{gate}"'}
        tasks += "".join(f'[[net.task]]\nname = "{kind}{n}"\nkind = "empty"{more.get(kind, "")}\n' for kind in "sabj")
    flows += [[before, "o"]]
    return f'name = "chain"\ntop = "main"\n[[net]]\nname = "main"\ninput = "i"\noutput = "o"\nflows = {json.dumps(flows)}\n{tasks}'


def launched(folder, text, steps):
    """The microseconds of a step of cases of this specification, which run from launch to finish by themselves in so many steps."""
    run(folder, people() + [line(cmd="load", toml=text)])
    own, system = run(folder, [line(cmd="launch", spec="chain", data={})] * 200)
    return own / steps, system / steps


def chains(folder, count):
    """Cases launched of tasks that nobody does, one after another or behind splits, at three steps a task that is done."""
    yield f"a step of a chain of {count}", launched(folder, chain(count), 3 * count + 2)
    for gate, done in ("and", 4), ("xor", 3):
        with tempfile.TemporaryDirectory(dir="/dev/shm") as of_gate:
            count_of = max(1, count // 4)
            yield f"a step of {count_of} {gate.upper()} splits", launched(of_gate, links(count_of, gate), 3 * done * count_of + 2)


def loan_lines(count):
    """What comes before loans, and the lines of so many, one after another. A loan draws eight numbers."""
    lines = (TOP / "examples/loan.jsonl").read_text().splitlines()
    replies = (TOP / "examples/loan.replies").read_text().splitlines()
    taken = [text for text, reply in zip(lines[4:21], replies[4:21]) if '"ok":true' in reply]

    def of_case(text, before):
        fields = json.loads(text)
        for key in {"case", "item"} & set(fields):
            fields[key] = ".".join(str(int(n) + before) for n in fields[key].split("."))
        return line(**fields)

    return lines[:4], [of_case(text, 8 * k) for k in range(count) for text in taken]


def loans(folder, count):
    """So many loans, one after another: each is launched, voted on, paid and finished."""
    before, lines = loan_lines(count)
    run(folder, before)
    yield "a line of a loan", run(folder, lines)


def net(name, flows, tasks, more=""):
    return f'[[net]]\nname = "{name}"\ninput = "i"\noutput = "o"\nflows = {json.dumps(flows)}\n{more}' + "".join(
        f'[[net.task]]\nname = "{task}"\n{of}\n' for task, of in tasks)


class Deep:
    """So many nets, each the work of a task of the one above it. In the last one task may be done again and again."""
    lines = "enter, start, complete"

    def __init__(self, size):
        self.size = size
        nets = [net(f"n{k}", [["i", "t"], ["t", "o"]], [("t", f'kind = "sub"\nnet = "n{k + 1}"')]) for k in range(1, size)]
        last = net(f"n{size}", [["i", "s"], ["s", "c"], ["c", "w"], ["w", "c"], ["c", "z"], ["z", "o"]],
                   [("s", 'kind = "empty"'), ("w", ""), ("z", "")], 'conditions = ["c"]\n')
        self.text = 'name = "s"\ntop = "n1"\n' + "".join(nets) + last
        self.data = {}
        self.numbers = size + 1

    def begun(self, case):
        return []

    def work(self, case):
        """Lines said to this case where it is the last, and how many of them are to be refused."""
        place = ".".join(str(case + k) for k in range(self.size))
        said = []
        for k in range(ROUNDS):
            item = f"{place}.{case + self.numbers + k}"
            said += [line(cmd="enter", who="ann", case=place, task="w"), line(cmd="start", who="ann", item=item),
                     line(cmd="complete", who="ann", item=item, out={})]
        return said, 0


class Items:
    """One task with so many items."""
    lines = "start"

    def __init__(self, size):
        self.size = size
        self.text = 'name = "s"\ntop = "n1"\n' + net(
            "n1", [["i", "a"], ["a", "o"]], [("a", 'ins = [{ name = "x", sort = "int" }]\neach = "xs"\nitem = "x"')],
            'vars = [{ name = "xs", sort = "ints", use = "in" }]\n')
        self.data = {"xs": list(range(size))}
        self.numbers = size + 1

    def begun(self, case):
        return [line(cmd="enter", who="ann", case=str(case), task="a")]

    def work(self, case):
        return [line(cmd="start", who="ann", item=f"{case}.{case + 1 + k}") for k in range(self.size)], 0


class Branches:
    """So many branches at work, which an OR-join waits for."""
    lines = "enter, start, complete"

    def __init__(self, size):
        self.size = size
        names = [f"b{k}" for k in range(size)]
        self.text = 'name = "s"\ntop = "n1"\n' + net(
            "n1", [["i", "s"], *(["s", it] for it in names), *([it, "j"] for it in names), ["j", "o"]],
            [("s", 'kind = "empty"'), *((it, "") for it in names), ("j", 'join = "or"')])
        self.data = {}
        self.numbers = 2

    def begun(self, case):
        return []

    def work(self, case):
        said = []
        for k in range(self.size):
            item = f"{case}.{case + 2 + k}"
            said += [line(cmd="enter", who="ann", case=str(case), task=f"b{k}"), line(cmd="start", who="ann", item=item),
                     line(cmd="complete", who="ann", item=item, out={})]
        return said, 0


class Waiting(Branches):
    """The same with one branch done: the join is asked for, and refused since it waits."""
    lines = "enter, refused as OrWaits"

    def begun(self, case):
        item = f"{case}.{case + 2}"
        return [line(cmd="enter", who="ann", case=str(case), task="b0"), line(cmd="start", who="ann", item=item),
                line(cmd="complete", who="ann", item=item, out={})]

    def __init__(self, size):
        super().__init__(size)
        self.numbers = 3

    def work(self, case):
        return [line(cmd="enter", who="ann", case=str(case), task="j")] * ROUNDS, ROUNDS


def opened(folder, scratch):
    """The most KiB that the program held as it opened the folder."""
    return max(running.run(PROGRAM, [folder, "run"], os.devnull, scratch)[3] for _ in range(RUNS))


def shape(of, cases):
    """The program's own microseconds a line where so many cases are open, the least of some runs, and the most KiB that an opening held."""
    folder = tempfile.mkdtemp(dir="/dev/shm")
    try:
        made, tried = folder + "/made", folder + "/tried"
        os.mkdir(made)
        lines = people() + [line(cmd="load", toml=of.text)]
        for k in range(cases):
            case = 1 + k * of.numbers
            lines += [line(cmd="launch", spec="s", data=of.data), *of.begun(case)]
        run(made, lines)
        said, refused = of.work(case)
        least = float("inf")
        for _ in range(RUNS):
            shutil.copytree(made, tried)
            opening = run(tried, [])[0]
            least = min(least, run(tried, said, refused)[0] - opening / len(said))
            shutil.rmtree(tried)
        return least, opened(made, folder + "/said")
    finally:
        shutil.rmtree(folder)


def shapes(of, sizes, counts):
    print(f"{of.__name__.lower()}: {of.__doc__} Lines: {of.lines}.")
    for size in sizes:
        figures = [(cases, *shape(of(size), cases)) for cases in counts]
        a_case = (figures[-1][2] - figures[0][2]) / (counts[-1] - counts[0])
        row = "  ".join(f"{cases:,} open {own:7.1f}" for cases, own, _ in figures)
        print(f"  {size:5,}  {row}   {a_case:7.2f} KiB a case", flush=True)


def main():
    for title, of, sizes in [("orders", orders, (1000, 10000, 100000)), ("chains", chains, (10, 50, 100)), ("loans", loans, (100, 1000, 10000))]:
        for size in sizes:
            folder = tempfile.mkdtemp(dir="/dev/shm")
            try:
                part(f"{title}: {size:,}", of(folder, size))
            finally:
                shutil.rmtree(folder)
    print("load", *os.getloadavg())
    shapes(Deep, (1, 4, 8), (1, 100, 1000))
    shapes(Items, (10, 100, 1000), (1, 10, 100))
    shapes(Branches, (8, 64, 200), (1, 100, 1000))
    shapes(Waiting, (8, 64, 200), (1, 100, 1000))
    print("load", *os.getloadavg())


if __name__ == "__main__":
    main()
