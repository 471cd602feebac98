#!/usr/bin/env python3
"""Instructions a query, as valgrind's callgrind counts them, with the program's own reading and writing of the line.

    python3 bench/lists.py [PROGRAM]

First comes `list`, of a person with ten rows and of one with all the others, where 10, 1,000 and 100,000 cases stand open; then `show` of a case of
10, 100 and 1,000 items. Of each the first line behind the opening is told, and each later one. What the work lists cost a line of case work is seen
where instructions.py is run with this program, and with one that keeps none. valgrind has to be there.
"""

import tempfile

import instructions
import runs

# How many rows the person with few has.
ROWS = 10
# So many lines ask for few rows, and for many.
FEW, MANY = 20, 3


def task_for(name, role):
    """A specification whose cases have one task, which waits for a person of this role."""
    return f'name = "{name}"\ntop = "n"\n' + runs.net("n", [["i", "t"], ["t", "o"]], [("t", f'role = "{role}"')])


def open_cases(folder, count):
    """So many cases that a clerk may go on with, and ten among them that an auditor may."""
    lines = [runs.line(cmd="person", name="ann", roles=["clerk"]), runs.line(cmd="person", name="eve", roles=["auditor"])]
    lines += [runs.line(cmd="load", toml=task_for(name, role)) for name, role in [("common", "clerk"), ("rare", "auditor")]]
    common, rare = (runs.line(cmd="launch", spec=it, data={}) for it in ("common", "rare"))
    runs.run(folder, lines + ([common] * (count // ROWS) + [rare]) * ROWS)


def of_lists(count):
    with tempfile.TemporaryDirectory(dir="/dev/shm") as folder:
        open_cases(folder, count)
        instructions.told(f"list of {ROWS} rows, cases open:", count + ROWS, folder, [runs.line(cmd="list", who="eve")] * FEW)
        instructions.told("list of all other rows", count, folder, [runs.line(cmd="list", who="ann")] * MANY)


def of_shown(size):
    with tempfile.TemporaryDirectory(dir="/dev/shm") as folder:
        shape = runs.Items(size)
        load = runs.line(cmd="load", toml=shape.text)
        runs.run(folder, runs.people() + [load, runs.line(cmd="launch", spec="s", data=shape.data), *shape.begun(1)])
        instructions.told("show of a case of items", size, folder, [runs.line(cmd="show", case="1")] * MANY)


def main():
    print(f"  {'line':45} {'size':>7} {'the first':>12} {'each later':>10}")
    for count in 10, 1000, 100_000:
        of_lists(count)
    for size in 10, 100, 1000:
        of_shown(size)


if __name__ == "__main__":
    main()
