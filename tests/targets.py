#!/usr/bin/env python3
"""Tries the program `linemap` in each of the 28 targets, on tables whose answers are written here, and on tables and images that must be refused.

usage: tests/targets.py [PROGRAM]      PROGRAM is ../linemap where none is given
       LARGE=1 tests/targets.py ..     also a table that weighs 2^31, and one that weighs 4 less: 0.4 GB of disk, 1.2 GB of memory

It stops at the first difference, and prints how many runs were as they should be.
"""
import copy
import itertools
import json
import os
import struct
import subprocess
import sys
import tempfile

sys.dont_write_bytecode = True
from images import sections_of

TOP = os.path.dirname(os.path.dirname(os.path.abspath(__file__)))
TARGETS = [
    (version, bits, size, order)
    for version, bits, size, order in itertools.product((2, 3, 4, 5), (32, 64), (4, 8), ("little", "big"))
    if (version, bits) != (2, 64)
]
PROGRAM = os.path.abspath(sys.argv[1] if len(sys.argv) > 1 else f"{TOP}/linemap")
runs = 0


# ---- tables


def example(name):
    with open(f"{TOP}/examples/{name}.json", encoding="utf-8") as file:
        return json.load(file)


def call(ranges, line, column, name="f", calls=(), file=0):
    return {"name": name, "ranges": ranges, "file": file, "line": line, "column": column, "calls": list(calls)}


def unit(name, ranges, functions, rows, end, directory="src"):
    return {
        "directory": "/w", "name": name, "ranges": ranges, "files": [{"directory": directory, "name": name}], "functions": functions,
        "sequences": [{"rows": [{"address": a, "file": 0, "line": line, "column": column} for a, line, column in rows], "end": end}],
    }


def function(name, ranges, calls=()):
    return {"name": name, "ranges": ranges, "calls": list(calls)}


def up_to(end):
    """A table whose greatest address is this one."""
    return {"units": [unit("h.c", [[end - 16, end]], [function("high", [[end - 16, end]])], [(end - 16, 4, 2)], end)]}


def of_block():
    """The second row begins no statement and has a discriminator."""
    table = example("a")
    table["units"][0]["sequences"][0]["rows"][1].update(statement=False, discriminator=3)
    return table


def shared():
    """Three calls of one name, two of them in one function."""
    table = example("c")
    table["units"][0]["functions"][0]["calls"].append(call([[0x1020, 0x1028]], 8, 4))
    g = function("g", [[0x2000, 0x2030]], [call([[0x2004, 0x2014]], 11, 5)])
    table["units"].append(unit("b.c", [[0x2000, 0x2040]], [g], [(0x2000, 9, 6)], 0x2030))
    return table


def rooted():
    """A second unit, with a file elsewhere and no function."""
    table = example("a")
    table["units"].append(unit("x.h", [[0x2000, 0x2010]], [], [(0x2000, 9, 1)], 0x2010, "/usr/include"))
    return table


def of_one_name(count):
    """Calls side by side, all of one name."""
    calls = [call([[0x10000 + 16 * n, 0x10008 + 16 * n]], n + 1, 3, "same") for n in range(count)]
    end = 0x10000 + 16 * count
    return {"units": [unit("a.c", [[0x10000, end]], [function("all", [[0x10000, end]], calls)], [(0x10000, 5, 1)], end)]}


def nested(depth, innermost=()):
    """Calls of [0x1010, 0x1020), each in the one before."""
    calls = list(innermost)
    for _ in range(depth):
        calls = [call([[0x1010, 0x1020]], 6, 3, calls=calls)]
    table = example("a")
    table["units"][0]["functions"][0]["calls"] = calls
    return table


# ---- runs


def run(what, words, out="", err="", status=0):
    """Runs the program, which must print this and end so."""
    global runs
    done = subprocess.run([PROGRAM, *words], stdout=subprocess.PIPE, stderr=subprocess.PIPE, text=True, stdin=subprocess.DEVNULL)
    if (done.stdout, done.stderr, done.returncode) != (out, err, status):
        sys.exit(f"{what}: linemap {' '.join(words)}\nfound  {done.stdout!r} {done.stderr!r} {done.returncode}\nwanted {out!r} {err!r} {status}")
    runs += 1


def write(path, content):
    mode = "wb" if isinstance(content, bytes) else "w"
    with open(path, mode) as file:
        file.write(content)


def emit(table, target, err="", status=0):
    version, bits, size, order = target
    write("table.json", json.dumps(table))
    options = ["--dwarf", str(version), "--bits", str(bits), "--size", str(size)] + ["--big"] * (order == "big")
    if os.path.exists("image"):
        os.remove("image")
    run(target, ["emit", "table.json", "image", *options], err=err, status=status)
    if (status == 0) != os.path.exists("image"):
        sys.exit(f"{target}: an image is written exactly where it isn't refused")


def lookup(target, words, *lines):
    run(target, ["lookup", "-e", "image", *words], out="".join(f"{line}\n" for line in lines))


def refused(target, code):
    run(target, ["lookup", "-e", "image", "0x1000"], err=f"linemap: failed to load debug info: {code}\n", status=1)


# ---- what is answered in each target


def answers(target):
    emit(example("a"), target)
    lookup(target, ["100f", "1030", "fff", "f" * 16], "/w/src/a.c:5", "??:0", "??:0", "??:0")
    emit(example("c"), target)
    frames = "f", "/w/src/a.c:20", "main", "/w/src/a.c:6"
    lookup(target, ["-fi", "1018", "fff", "1018"], *frames, "??", "??:0", *frames)
    lookup(target, ["--all"], "/w/src/a.c:5", "/w/src/a.c:20", "/w/src/a.c:7")
    emit(of_block(), target)
    lookup(target, ["1018"], "/w/src/a.c:20 (discriminator 3)")
    lookup(target, ["--statements", "1018"], "/w/src/a.c:20 (discriminator 3) (not a statement)")
    lookup(target, ["--llvm", "--statements", "1018"], "/w/src/a.c:20:2", "")
    emit(rooted(), target)
    lookup(target, ["-fi", "2004"], "??", "/usr/include/x.h:9")
    emit({"units": []}, target)
    lookup(target, ["-fi", "1000"], "??", "??:0")


def names(target):
    """Each call is named by an entry of its own unit, which is there once."""
    emit(shared(), target)
    lookup(target, ["-fi", "1018"], "f", "/w/src/a.c:20", "main", "/w/src/a.c:6")
    lookup(target, ["-fi", "1024"], "f", "/w/src/a.c:7", "main", "/w/src/a.c:8")
    lookup(target, ["-fi", "2004"], "f", "/w/src/b.c:9", "g", "/w/src/b.c:11")
    emit(of_one_name(10_000), target)
    lookup(target, ["-fi", "10000"], "same", "/w/src/a.c:5", "all", "/w/src/a.c:1")
    lookup(target, ["-fi", "370f0"], "same", "/w/src/a.c:5", "all", "/w/src/a.c:10000")
    lookup(target, ["-fi", "370fc"], "all", "/w/src/a.c:5")


def refusals(target):
    emit(up_to(0xfffffffd), target)
    lookup(target, ["-f", "fffffffc"], "high", "/w/src/h.c:4")
    if target[2] == 4:
        emit(up_to(0xfffffffe), target, "linemap: table does not fit the target\n", 1)
    else:
        emit(up_to(0xfffffffe), target)
        emit(up_to(2**64 - 3), target)
        lookup(target, ["-f", f"{2**64 - 4:x}"], "high", "/w/src/h.c:4")
    emit(example("c"), target)
    with open("image", "rb") as file:
        image = file.read()
    write("image", image[:-1])
    refused(target, "L5")
    write("image", with_flag(image))
    refused(target, "L6")


def with_flag(image):
    """The image, whose section `.debug_info` says that it is compressed."""
    changed = bytearray(image)
    wide, big = image[4] == 2, image[5] == 2
    order = ">" if big else "<"
    (table,) = struct.unpack_from(order + ("Q" if wide else "I"), image, 40 if wide else 32)
    size, count = struct.unpack_from(order + "2H", image, 58 if wide else 46)
    place = sections_of(image)[1]["info"][1]
    for number in range(1, count):
        at = table + size * number
        offset = struct.unpack_from(order + ("Q" if wide else "I"), image, at + (24 if wide else 16))[0]
        if offset == place and struct.unpack_from(order + "I", image, at + 4)[0] == 1:
            struct.pack_into(order + ("Q" if wide else "I"), changed, at + 8, 0x800)
            return bytes(changed)
    sys.exit("no section .debug_info")


# ---- tables that are refused, at each depth of calls


BROKEN_CALLS = {
    "B4": {"ranges": [[0x1010, 0x1010]]},
    "B5": {"ranges": [[0, 0x1020]]},
    "B6": {"ranges": []},
    "B10": {"ranges": [[0x1010, 0x1031]]},
    "B11": {"ranges": [[0x1010, 0x1014], [0x1012, 0x1016]]},
    "B15": {"line": 0},
    "B16": {"file": 1},
    "B17": {"name": ""},
}


def broken_calls():
    for depth in (0, 1, 2, 49):
        for code, change in BROKEN_CALLS.items():
            inner = {**call([[0x1012, 0x1018]], 9, 9), **change}
            write("table.json", json.dumps(nested(depth, [inner])))
            run(f"depth {depth + 1}", ["ask", "table.json", "0x1000"], err=f"linemap: table refused: {code}\n", status=1)
    for depth, wanted in ((50, {"out": "/w/src/a.c:20\n"}), (51, {"err": "linemap: table refused: B19\n", "status": 1})):
        write("table.json", json.dumps(nested(depth)))
        run(f"depth {depth}", ["ask", "table.json", "0x1018"], **wanted)


# ---- the heaviest table


def weighing(weight):
    """Units of one address, without files: 8192, and for each 1024, 64 for the range and four for each byte of its texts."""
    each = 1024 + 64 + 4 * len("/w" + "a")
    count, more = divmod(weight - 8192, each)
    with open("table.json", "w") as file:
        file.write('{"units":[')
        for number in range(count):
            name = "a" * (1 + more // 4) if number == 0 else "a"
            begin = 4096 + number
            file.write("," * (number > 0))
            file.write(f'{{"directory":"/w","name":"{name}","ranges":[[{begin},{begin + 1}]],"files":[],"functions":[],"sequences":[]}}')
        file.write("]}")


def heaviest():
    weighing(2**31)
    run("weight 2^31", ["emit", "table.json", "image"], err="linemap: emit refused: M2\n", status=1)
    run("weight 2^31", ["ask", "table.json", "0x1000"], err="linemap: emit refused: M2\n", status=1)
    weighing(2**31 - 4)
    run("weight 2^31 - 4", ["emit", "table.json", "image"])


def main():
    with tempfile.TemporaryDirectory() as folder:
        os.chdir(folder)
        for target in TARGETS:
            answers(target)
            names(target)
            refusals(target)
        broken_calls()
        if os.environ.get("LARGE"):
            heaviest()
    print(f"{len(TARGETS)} targets, {runs} runs, all as they should be")


main()
