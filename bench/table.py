#!/usr/bin/env python3
"""Makes tables for `linemap`, as JSON.

usage: bench/table.py rows UNITS ROWS      each unit has ROWS rows in one sequence; ten rows a function, with one call in each
       bench/table.py nested DEPTH         one function, with calls nested to this depth
       bench/table.py units COUNT          units with two ranges and a sequence in each, and functions and calls with ranges in both;
                                           some calls share a name, some rows are no statements or have a discriminator
"""
import json
import sys


def row(address, file, line, column, **more):
    return {"address": address, "file": file, "line": line, "column": column, **more}


def call(name, ranges, line, calls=(), file=0, column=None):
    return {"name": name, "ranges": ranges, "file": file, "line": line, "column": column or line % 70 + 1, "calls": list(calls)}


def rows(units, count):
    """Ranges ascend, as producers write them: from 0x10000 on, a row every 16 bytes."""

    def unit(number):
        base = 0x10000 + number * count * 16
        end = base + count * 16
        functions = []
        for first in range(0, count - 9, 10):
            low = base + 16 * first
            calls = [call(f"inlined_{first}", [[low + 16, low + 48]], first + 1, column=3)]
            functions.append({"name": f"function_{number}_{first}", "ranges": [[low, low + 160]], "calls": calls})
        return {
            "directory": f"/build/unit{number}", "name": "main.c", "ranges": [[base, end]],
            "files": [{"directory": "src", "name": f"file{n}.c"} for n in range(3)],
            "functions": functions,
            "sequences": [{"rows": [row(base + 16 * n, n % 3, n + 1, n % 80 + 1) for n in range(count)], "end": end}],
        }

    return {"units": [unit(number) for number in range(units)]}


def nested(depth):
    """Each call is four bytes shorter at both ends than the one around it."""
    calls = []
    for level in reversed(range(depth)):
        calls = [call(f"level_{level}", [[0x1000 + 4 * level + 4, 0x2000 - 4 * level - 4]], level + 1, calls)]
    return {"units": [{
        "directory": "/build", "name": "deep.c", "ranges": [[0x1000, 0x2000]], "files": [{"directory": "src", "name": "deep.c"}],
        "functions": [{"name": "outermost", "ranges": [[0x1000, 0x2000]], "calls": calls}],
        "sequences": [{"rows": [row(0x1000 + 16 * n, 0, n + 1, n % 90 + 1) for n in range(256)], "end": 0x2000}],
    }]}


def units(count):
    """The sequences descend, and the paths of files are relative and absolute."""

    def unit(number):
        low, high = 0x10000 * number, 0x10000 * number + 0x8000
        functions = []
        for f in range(8):
            near, far = low + 0x100 * f, high + 0x100 * f
            inner = call("shared", [[near + 0x20, near + 0x30], [far + 0x28, far + 0x2c]], 3 * f + 1, file=1)
            outer = call(f"outer_{f}", [[near + 0x10, near + 0x40], [far + 0x20, far + 0x40]], 100000 * f + 7, [inner])
            last = call("shared", [[near + 0x80, near + 0x90]], 2 ** 20 + f, file=2)
            ranges = [[near, near + 0x100], [far, far + 0x80]]
            functions.append({"name": f"function_{number}_{f}", "ranges": ranges, "calls": [outer, last]})
        sequences = []
        for begin in (high, low):
            some = [row(begin + 4 * n, n % 3, 1 + n * 1237 % 65537, n * 31 % 400 + 1, statement=n % 5 != 2, discriminator=n % 7)
                    for n in range(256)]
            sequences.append({"rows": some, "end": begin + 0x900})
        return {
            "directory": f"/build/unit{number}", "name": "main.c", "ranges": [[low, low + 0x900], [high, high + 0x900]],
            "files": [{"directory": "src", "name": f"file{number}.c"}, {"directory": "/usr/include", "name": "shared.h"},
                      {"directory": f"/build/unit{number}", "name": "main.c"}],
            "functions": functions, "sequences": sequences,
        }

    return {"units": [unit(number + 1) for number in range(count)]}


KINDS = {"rows": (rows, 2), "nested": (nested, 1), "units": (units, 1)}


def main():
    kind, *numbers = sys.argv[1:] or [None]
    if kind not in KINDS or len(numbers) != KINDS[kind][1]:
        return __doc__
    json.dump(KINDS[kind][0](*map(int, numbers)), sys.stdout)
    return 0


if __name__ == "__main__":
    sys.exit(main())
