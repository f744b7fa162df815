#!/usr/bin/env python3
"""Shows that other tools read the images that `linemap emit` writes.

It writes an image of each table for each of the 28 targets: of examples/a.json and examples/c.json, and of generated tables with
several units, functions and calls of several ranges, nested calls, names that calls share, rows of several files, hidden statements and
discriminators (table.py). What `readelf` and `llvm-dwarfdump` list and `llvm-symbolizer` and GNU's `addr2line` answer must be what the
table says. It stops at the first difference, and prints a line for each target, and then what was compared.

Usage: bench/generated.py EMIT..    EMIT.. writes an image, as `linemap emit` does
"""
import itertools
import json
import os
import re
import struct
import subprocess
import sys
import tempfile

sys.dont_write_bytecode = True
from table import nested, units

TOP = os.path.dirname(os.path.dirname(os.path.abspath(__file__)))
TARGETS = [
    (version, bits, size, order)
    for version, bits, size, order in itertools.product((2, 3, 4, 5), (32, 64), (4, 8), ("little", "big"))
    if (version, bits) != (2, 64)
]


# ---- tables


def tables():
    made = {name: json.load(open(f"{TOP}/examples/{name}.json")) for name in ("a", "c")}
    made["nested"] = nested(50)
    made["units"] = units(6)
    return made


# ---- what a table says


def holds(ranges, address):
    return any(begin <= address < end for begin, end in ranges)


def path_of(unit, number):
    file = unit["files"][number]
    return os.path.join(unit["directory"], file["directory"], file["name"])


def rows_of(table):
    """The rows in the order of the table, with the end of each sequence: address, file, line, column, discriminator, statement."""
    for unit in table["units"]:
        for sequence in unit["sequences"]:
            for r in sequence["rows"]:
                place = (path_of(unit, r["file"]), r["line"], r["column"])
                yield (r["address"], *place, r.get("discriminator", 0), r.get("statement", True))
            yield (sequence["end"], "end")


def entries_of(table):
    """The functions and calls of each unit, as they are nested: depth, name, ranges, and where the call is."""

    def calls(unit, depth, those):
        for c in those:
            yield (depth, c["name"], c["ranges"], (path_of(unit, c["file"]), c["line"], c["column"]))
            yield from calls(unit, depth + 1, c["calls"])

    for unit in table["units"]:
        yield (0, unit["name"], unit["ranges"], unit["directory"])
        for function in unit["functions"]:
            yield (1, function["name"], function["ranges"], None)
            yield from calls(unit, 2, function["calls"])


def frames_at(table, address):
    """The frames of an address, the innermost first: name, file, line, column."""
    unit = next(u for u in table["units"] if holds(u["ranges"], address))
    sequence = next(s for s in unit["sequences"] if s["rows"][0]["address"] <= address < s["end"])
    last = [r for r in sequence["rows"] if r["address"] <= address][-1]
    place = (path_of(unit, last["file"]), last["line"], last["column"])
    function = next((f for f in unit["functions"] if holds(f["ranges"], address)), None)
    if function is None:
        return [("", *place)]
    frames, below = [], function
    while below is not None:
        inner = next((c for c in below["calls"] if holds(c["ranges"], address)), None)
        site = place if inner is None else (path_of(unit, inner["file"]), inner["line"], inner["column"])
        frames.insert(0, (below["name"], *site))
        below = inner
    return frames


def addresses_of(table):
    """The ends of all rows, functions and calls, and the addresses before and between, where a row is."""
    found = set()

    def add(part):
        for begin, end in part["ranges"]:
            found.update((begin, (begin + end) // 2, end - 1, end, begin - 1))
        for c in part.get("calls", part.get("functions", [])):
            add(c)

    for unit in table["units"]:
        add(unit)
        for sequence in unit["sequences"]:
            found.update(r["address"] for r in sequence["rows"])
    covered = [(s["rows"][0]["address"], s["end"]) for u in table["units"] for s in u["sequences"]]
    return sorted(a for a in found if holds(covered, a))


# ---- what the tools say


def said(*words, text=None):
    """What a tool prints. Its complaints stop the comparison, except that the image is of no machine."""
    run = subprocess.run(words, input=text, stdout=subprocess.PIPE, stderr=subprocess.PIPE, text=True)
    complaints = [line for line in run.stderr.splitlines() if line and "No available targets are compatible" not in line]
    if run.returncode or complaints:
        sys.exit(f"{' '.join(words)}: status {run.returncode}\n{run.stdout[-2000:]}\n" + "\n".join(complaints))
    return run.stdout


def same(what, found, wanted):
    found, wanted = list(found), list(wanted)
    if found != wanted:
        first = next((p for p in itertools.zip_longest(found, wanted) if p[0] != p[1]), None)
        sys.exit(f"{what}: {len(found)} found, {len(wanted)} in the table; found and wanted: {first}")
    return len(wanted)


def check_readelf_rows(image, table):
    found = []
    for line in said("readelf", "--debug-dump=decodedline", image).splitlines():
        m = re.match(r"(\S+)\s+(\d+)\s+(0x[0-9a-f]+)(?:\[\d+\])?(?:\s+\d+)?(\s+x)?", line)
        if m:
            found.append((int(m[3], 16), m[1], int(m[2]), bool(m[4])))
    wanted = [(r[0], os.path.basename(r[1]), r[2], r[5]) for r in rows_of(table) if r[1] != "end"]
    return same("readelf, rows", found, wanted)


def readelf_entries(image):
    entries = []
    for line in said("readelf", "--debug-dump=info", image).splitlines():
        head = re.match(r"\s*<(\d+)><([0-9a-f]+)>: Abbrev Number: \d+ \(DW_TAG_(\w+)\)", line)
        if head:
            entries.append({"depth": int(head[1]), "at": int(head[2], 16), "tag": head[3]})
        value = re.match(r"\s*<[0-9a-f]+>\s+DW_AT_(\w+)\s*:\s*(?:\([^:]*: [^)]*\): )?(.*?)\s*$", line)
        if value:
            entries[-1][value[1]] = value[2]
    return entries


def check_readelf_entries(image, table):
    """Names by their offsets, since a call refers to the entry that names it, and then depth, name, line and column of each."""
    entries = readelf_entries(image)
    names = {e["at"]: e.get("name") for e in entries}
    found = []
    for e in entries:
        if e["tag"] == "inlined_subroutine":
            origin = int(e["abstract_origin"].strip("<>"), 16)
            found.append((e["depth"], names[origin], int(e["call_line"]), int(e["call_column"])))
        elif "ranges" in e:
            found.append((e["depth"], e["name"], None, None))
    wanted = [(d, n, site[1] if d > 1 else None, site[2] if d > 1 else None) for d, n, _, site in entries_of(table)]
    return same("readelf, entries", found, wanted)


def check_readelf_origins(image, table):
    """The entries without code: right after each unit's, one for each name of its calls, by first use; and each call's is in its own unit."""
    found, places = [], []
    for e in readelf_entries(image):
        if e["tag"] == "compile_unit":
            names, places, is_first = [], [], True
            found.append(names)
        elif e["tag"] == "subprogram" and "ranges" not in e:
            names.append((e["name"], is_first))
            places.append(e["at"])
        else:
            is_first = False
        if "abstract_origin" in e and int(e["abstract_origin"].strip("<>"), 16) not in places:
            sys.exit(f"readelf: a call refers to an entry of another unit: {e}")
    wanted = []
    for unit in table["units"]:
        names = [name for depth, name, _, _ in entries_of({"units": [unit]}) if depth > 1]
        wanted.append([(name, True) for name in dict.fromkeys(names)])
    return same("readelf, entries without code", found, wanted)


def check_dwarfdump_rows(image, table):
    """All rows, with their files in full."""
    rows, units = [], iter(table["units"])
    for line in said("llvm-dwarfdump", "--debug-line", image).splitlines():
        if line.startswith("debug_line["):
            unit, files, directories = next(units), {}, {0: None}
        elif m := re.match(r"include_directories\[\s*(\d+)\] = \"(.*)\"", line):
            directories[int(m[1])] = m[2]
        elif m := re.match(r"file_names\[\s*(\d+)\]:", line):
            number = int(m[1])
        elif m := re.match(r"\s+name: \"(.*)\"", line):
            name = m[1]
        elif m := re.match(r"\s+dir_index: (\d+)", line):
            files[number] = os.path.join(unit["directory"], directories[int(m[1])] or "", name)
        elif m := re.match(r"(0x[0-9a-f]+)\s+(\d+)\s+(\d+)\s+(\d+)\s+0\s+(\d+)(.*)", line):
            address = int(m[1], 16)
            place = (files[int(m[4])], int(m[2]), int(m[3]))
            rows.append((address, "end") if "end_sequence" in m[6] else (address, *place, int(m[5]), "is_stmt" in m[6]))
    return same("llvm-dwarfdump, rows", rows, rows_of(table))


def check_dwarfdump_entries(image, table):
    entries = []
    for line in said("llvm-dwarfdump", "--debug-info", image).splitlines():
        if m := re.match(r"0x[0-9a-f]+:( +)DW_TAG_(\w+)", line):
            entries.append({"depth": len(m[1]) // 2, "ranges": []})
        elif m := re.match(r"\s+DW_AT_(\w+)\s+\((.*?)\)?$", line):
            if m[1] != "ranges":
                entries[-1][m[1]] = m[2]
        elif m := re.match(r"\s+\[(0x[0-9a-f]+), (0x[0-9a-f]+)\)", line):
            entries[-1]["ranges"].append([int(m[1], 16), int(m[2], 16)])
    found = []
    for e in entries:
        if not e["ranges"]:
            continue
        text = re.search(r'"(.*)"', e.get("name") or e["abstract_origin"])[1]
        if "call_line" in e:
            site = (e["call_file"].strip('"'), int(e["call_line"]), int(e["call_column"]))
        else:
            site = e["comp_dir"].strip('"') if "comp_dir" in e else None
        found.append((e["depth"], text, e["ranges"], site))
    return same("llvm-dwarfdump, entries", found, entries_of(table))


def check_symbolizer(image, table):
    addresses = addresses_of(table)
    text = "".join(f"{a:#x}\n" for a in addresses)
    found = []
    for line in said("llvm-symbolizer", "--inlines", "--output-style=JSON", f"--obj={image}", text=text).splitlines():
        answer = json.loads(line)
        frames = [(s["FunctionName"], s["FileName"], s["Line"], s["Column"]) for s in answer["Symbol"]]
        found.append((int(answer["Address"], 16), frames))
    return same("llvm-symbolizer, frames", found, ((a, frames_at(table, a)) for a in addresses))


def with_code(image):
    """The same image, for a machine and with a section over all addresses of the tables: GNU's addr2line reads no other."""
    with open(image, "rb") as file:
        made = bytearray(file.read())
    wide, order = made[4] == 2, ">" if made[5] == 2 else "<"
    made += struct.pack(order + ("IIQQQQIIQQ" if wide else "10I"), 0, 8, 6, 0x1000, 0, 0x7f000, 0, 0, 1, 0)
    machine = {("<", True): 62, ("<", False): 3, (">", True): 21, (">", False): 20}[order, wide]
    struct.pack_into(order + "H", made, 18, machine)
    count = 60 if wide else 48
    struct.pack_into(order + "H", made, count, struct.unpack_from(order + "H", made, count)[0] + 1)
    with open(image + ".code", "wb") as file:
        file.write(made)
    return image + ".code"


def check_addr2line(image, table):
    """The frames with their lines, and up to version 4 their files: before 2.42 it begins a program of version 5 with file 0, not 1."""
    is_5 = "Version:       5" in said("readelf", "--debug-dump=info", image)
    addresses = addresses_of(table)
    text = "".join(f"{a:#x}\n" for a in addresses)
    found = []
    lines = iter(said("addr2line", "-a", "-f", "-i", "-e", with_code(image), text=text).splitlines())
    for line in lines:
        if line.startswith("0x"):
            found.append((int(line, 16), []))
        else:
            file, number = re.fullmatch(r"(.*):(\d+)(?: \(discriminator \d+\))?", next(lines)).groups()
            found[-1][1].append((line, "" if is_5 else file, int(number)))
    wanted = []
    for a in addresses:
        wanted.append((a, [(name or "??", "" if is_5 else file, line) for name, file, line, _ in frames_at(table, a)]))
    return same("addr2line, frames", found, wanted)


def check_verify(image, _table):
    if "No errors." not in said("llvm-dwarfdump", "--verify", image):
        sys.exit("llvm-dwarfdump --verify: errors")
    return 1


CHECKS = {
    "rows of readelf": check_readelf_rows,
    "entries of readelf": check_readelf_entries,
    "units whose calls share entries for readelf": check_readelf_origins,
    "images without errors for llvm-dwarfdump": check_verify,
    "rows of llvm-dwarfdump": check_dwarfdump_rows,
    "entries of llvm-dwarfdump": check_dwarfdump_entries,
    "addresses of llvm-symbolizer": check_symbolizer,
    "addresses of GNU's addr2line": check_addr2line,
}


def main():
    emit = sys.argv[1:]
    counts = dict.fromkeys(CHECKS, 0)
    with tempfile.TemporaryDirectory() as folder:
        paths = {}
        for name, table in tables().items():
            paths[name] = f"{folder}/{name}.json"
            json.dump(table, open(paths[name], "w"))
        for version, bits, size, order in TARGETS:
            for name, table in tables().items():
                image = f"{folder}/{name}.elf"
                options = ["--dwarf", str(version), "--bits", str(bits), "--size", str(size)]
                subprocess.run(emit + [paths[name], image] + options + ["--big"] * (order == "big"), check=True)
                for check, function in CHECKS.items():
                    counts[check] += function(image, table)
            print(f"version {version}, {bits}-bit DWARF, addresses of {size} bytes, {order} endian: as the tables say", flush=True)
    print(f"{len(TARGETS)} targets, {len(TARGETS) * len(paths)} images")
    for check, count in counts.items():
        print(f"{count} {check}")


main()
