#!/usr/bin/env python3
"""Instructions a line, as valgrind's callgrind counts them, with the program's own reading and writing of the line.

    python3 bench/instructions.py [PROGRAM]

They don't hang on the machine, nor on what else it does. Person lines come first, then loans, then a case of each shape of runs.py: the first
line behind the opening, and each later one: eight of a case of items, twelve of the others. Last come cases of examples/order.toml and of a task
to which items are added, of which 10, 1,000 and 10,000 are open, visited at random; of their lines the 16,384 are taken off by which the reader of JSON
clears its index. valgrind has to be there.
"""

import random
import re
import shutil
import subprocess
import sys
import tempfile
from pathlib import Path

import persons
import runs

# What the reader of JSON takes to clear its index, for each line.
CLEARING = 16_384
# At most so many of the open cases are visited.
VISITED = 200


def counted(folder, lines):
    """The instructions of a run over these lines, in a copy of the folder."""
    with tempfile.TemporaryDirectory(dir="/dev/shm") as top:
        tried = shutil.copytree(folder, top + "/tried")
        words = ["valgrind", "--tool=callgrind", f"--callgrind-out-file={top}/out", runs.PROGRAM, tried, "run"]
        done = subprocess.run(words, input="".join(it + "\n" for it in lines).encode(), capture_output=True, check=True)
        refused = [it for it in done.stdout.splitlines() if b'"ok":false' in it]
        if refused:
            sys.exit(f"refused: {refused[0]}")
        return int(re.search(rb"Collected : (\d+)", done.stderr)[1])


def told(name, size, folder, lines):
    """Says what the first of the lines takes, and what each later one."""
    none, one, all_of = (counted(folder, it) for it in ([], lines[:1], lines))
    print(f"  {name:45} {size:6,} {one - none:12,} {(all_of - one) // (len(lines) - 1):10,}", flush=True)


def of_persons():
    with tempfile.TemporaryDirectory(dir="/dev/shm") as top:
        path = top + "/in"
        persons.write_lines(path, 20000)
        folder = Path(top, "folder")
        folder.mkdir()
        told("person", 1000, folder, Path(path).read_text().splitlines())


def of_loans():
    with tempfile.TemporaryDirectory(dir="/dev/shm") as folder:
        before, lines = runs.loan_lines(200)
        runs.run(folder, before)
        told("a line of a loan", 200, folder, lines)


def of_shape(name, shape, lines, count):
    with tempfile.TemporaryDirectory(dir="/dev/shm") as folder:
        load = runs.line(cmd="load", toml=shape.text)
        runs.run(folder, runs.people() + [load, runs.line(cmd="launch", spec="s", data=shape.data), *shape.begun(1)])
        said = lines(shape)
        told(name, shape.size, folder, said[:count])
        if len(said) > count:
            runs.run(folder, said[:count])
            told(name + ", then completed", shape.size, folder, said[count:])


def items(shape):
    """The lines that start the first nine items, and those that complete them."""
    names = [f"1.{2 + k}" for k in range(9)]
    return [runs.line(cmd="start", who="ann", item=it) for it in names] + [
        runs.line(cmd="complete", who="ann", item=it, out={}) for it in names]


def rounds(shape):
    """Four rounds of what is entered, started and completed, and a line more."""
    return shape.work(1)[0][:13]


def adding():
    """A specification whose cases have a task of two items, to which more are added."""
    return 'name = "s"\ntop = "n"\n' + runs.net("n", [["i", "a"], ["a", "o"]], [
        ("a", 'ins = [{ name = "x", sort = "int" }]\neach = "xs"\nitem = "x"\ndynamic = true')], 'vars = [{ name = "xs", sort = "ints", use = "in" }]\n')


def words_of_orders(cases, visited):
    """The lines of each word, said one word after another to the cases visited."""
    entered = visited[:]
    random.shuffle(entered)
    items = [f"{case}.{cases + 1 + k}" for k, case in enumerate(entered)]
    random.shuffle(items)
    yield "enter", [runs.line(cmd="enter", who="ann", case=str(it), task="receive") for it in entered]
    yield "start", [runs.line(cmd="start", who="ann", item=it) for it in items]
    random.shuffle(items)
    yield "complete, and 7 steps behind it", [runs.line(cmd="complete", who="ann", item=it, out={}) for it in items]
    random.shuffle(entered)
    yield "cancel", [runs.line(cmd="cancel", case=str(it)) for it in entered]
    yield "launch", [runs.line(cmd="launch", spec="order", data={"amount": 200})] * len(visited)


def each_at_random(folder, words):
    """Instructions a line of each word, less the clearing; each word's lines are then held, for the next."""
    for name, lines in words:
        each = (counted(folder, lines) - counted(folder, [])) / len(lines) - CLEARING
        yield name, int(each)
        runs.run(folder, lines)


def of_open_cases(cases):
    """Each word of a case where so many are open: of orders, and of cases of one task that takes more items."""
    random.seed(cases)
    visited = random.sample(range(1, cases + 1), min(cases, VISITED))
    found = {}
    with tempfile.TemporaryDirectory(dir="/dev/shm") as folder:
        load = runs.line(cmd="load", toml=(runs.TOP / "examples/order.toml").read_text())
        runs.run(folder, runs.people() + [load] + [runs.line(cmd="launch", spec="order", data={"amount": 200})] * cases)
        found.update(each_at_random(folder, words_of_orders(cases, visited)))
    with tempfile.TemporaryDirectory(dir="/dev/shm") as folder:
        # A case draws three numbers: its own, and those of the two items that it begins with.
        begun = [it for n in range(cases) for it in (runs.line(cmd="launch", spec="s", data={"xs": [1, 2]}),
                                                      runs.line(cmd="enter", who="ann", case=str(3 * n + 1), task="a"))]
        runs.run(folder, runs.people() + [runs.line(cmd="load", toml=adding())] + begun)
        lines = [runs.line(cmd="add", who="ann", case=str(3 * n - 2), task="a", value=7) for n in visited]
        found.update(each_at_random(folder, [("add", lines)]))
    return found


def of_sizes(sizes):
    """A table of words by the number of open cases."""
    tables = [of_open_cases(it) for it in sizes]
    print(f"  {'open cases, visited at random':45}" + "".join(f"{it:>10,}" for it in sizes))
    for name in tables[0]:
        print(f"  {name:45}" + "".join(f"{it[name]:10,}" for it in tables), flush=True)


def main():
    print(f"  {'line':45} {'size':>6} {'the first':>12} {'each later':>10}")
    of_persons()
    of_loans()
    for size in 10, 100, 1000:
        of_shape("start of items", runs.Items(size), items, 9)
    half = runs.Items(1000)
    half.text = half.text.replace('item = "x"', 'item = "x"\nthreshold = 500')
    of_shape("the same, half of them enough", half, items, 9)
    for size in 8, 64, 200:
        of_shape("enter, start, complete", runs.Branches(size), rounds, 13)
    for size in 1, 4, 8:
        of_shape("the same in nets", runs.Deep(size), rounds, 13)
    of_sizes((10, 1000, 10000))


if __name__ == "__main__":
    main()
