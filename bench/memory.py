#!/usr/bin/env python3
"""Refuses each allocation of a program in turn, until it ends without a refusal.

usage: bench/memory.py [--every N] [CASE..]      all cases where none is named:
       ask emit emit-5 lookup lookup-lines lookup-all lookup-symbols lookup-split lookup-decompressed lookup-found    of ./linemap
       cases programs reading tables asking    of linemap_cases and gimli_cases
       places places-bytes    of linemap_bench
       warm warm-frames warm-words    of ./linemap

With `--every N` one of N allocations is refused, always the same ones, and another in each input.

The programs that the cases need are proved and built first, as by `tools/build NAME`, unless what is there is current; LINEMAP,
CASES, GIMLI_CASES and BENCH name other programs, which are taken as they are. A C compiler is needed, for refuse.c.

Each run must end as it does with ample memory, or say why not on the error stream: with status 1 and the beginning of that
output, or, where `lookup` goes on, with a line for each address that is refused. With status 1 the program's line names what
memory was refused for, and each of these lines must come. The programs over cases make a call again where memory was refused
for it, on the context, iterator, loader or program that it left, and write `E1, then` before what it answers. So there a run
that ends with status 0 has given all answers, after a refusal as without one.

In `places` and `places-bytes`, through one reader and the other, and in `warm`, `warm-frames` and `warm-words`, each allocation
is refused from the program's first output on: then all lines that are asked for are kept, and finding the places of further
addresses takes no memory; nor does `lookup` for reading addresses and writing their places and frames.
"""
import itertools
import os
import re
import struct
import subprocess
import sys
import tempfile
import zlib

sys.dont_write_bytecode = True
TOP = os.path.dirname(os.path.dirname(os.path.abspath(__file__)))
sys.path.insert(0, f"{TOP}/tests")
import cases
import images


# The crates of the programs, each with the variable that names another program.
CRATES = {"linemap_program": "LINEMAP", "linemap_cases": "CASES", "gimli_cases": "GIMLI_CASES", "linemap_bench": "BENCH"}
PROGRAMS = [os.environ.get(variable) or f"{TOP}/crates/{crate}/out/{crate}" for crate, variable in CRATES.items()]
LINEMAP, CASES, GIMLI_CASES, BENCH = PROGRAMS
DATA = f"{cases.CRATE}/data"
# More bytes than any program hands over in one output.
LONG = 1 << 16
# What comes before an answer to what is asked again.
AGAIN = b"E1, then "
# What the error stream says of a refusal.
SAID = "out of memory", "E1", "B1", "M1", "L1", "W1", "Memory", "memory"
# The lines with which the program's subcommands end where memory is refused, and that of `lookup --all`.
LINES = {
    "ask": ["out of memory", "table refused: B1", "emit refused: M1", "failed to load debug info: E1"],
    "emit": ["out of memory", "table refused: B1", "emit refused: M1"],
    "lookup": ["out of memory", "failed to load debug info: L1"],
}
ALL_LINE = "failed to find all addresses: E1"


def lines_of(name, *beginnings):
    """The questions of a program over cases that begin so, as one input."""
    with open(f"{TOP}/crates/{name}/stdin", encoding="utf-8") as file:
        chosen = [line for line in file if line.startswith(beginnings)]
    for it in beginnings:
        if not any(line.startswith(it) for line in chosen):
            raise SystemExit(f"{name} has no question {it!r}")
    return ["".join(chosen)]


def lines_about_tables(*beginnings):
    """The questions about tables of linemap_cases that begin so, as one input."""
    return [f"tables:\n{it}" for it in lines_of("linemap_cases", *beginnings)]


# What is no case here: where the source of split files answers in turn, or loads that are left are counted, a call that is
# made again is answered otherwise; and two cases take thousands of allocations.
LEFT_OUT = re.compile(r"^(turn |waits |prefixes|frames_of_each )", re.MULTILINE)


def case_inputs():
    """The paragraphs of linemap_cases one by one, each after the files that it is about, but for those that are made."""
    every = cases.paragraphs()
    every = every[:next(place for place, it in enumerate(every) if it.startswith(cases.MADE))]
    for case in every:
        if not re.search("^(context|image|sections|bytes) ", case, re.MULTILINE) or LEFT_OUT.search(case):
            continue
        words, named = set(case.split()), []
        for it in reversed(every):
            for line in it.splitlines():
                if line.startswith("file ") and line.split()[1] in words:
                    words.update(line.split()[2:])
                    named.insert(0, it)
        yield "\n\n".join([*named, case]) + "\n"


# Addresses of one unit, the one with the longest answer first: what `lookup` needs for them it has before its first output.
WARM = [f"{0x1000 + (it + 0x18) % 0x40:x}" for it in range(10_000)]

# What is asked of linemap_cases of tables themselves and of command lines.
ASKED = ("ask a.json 1000 0x1030 zz", 'ask c.json edit="column":2=>"column":0 ', "sections two_units.json 5", "words linemap lookup -e a.out -f",
         "words linemap ask a.json -1", "words linemap emit --help")

# What is asked of linemap_cases: calls on one context, and frames in an image in a file and in two in memory.
TABLES = "replay ", "file c.json 4 32 8 little 0x1018", "units.json 4 32 8 little 0x1010", "units.json 5 64 4 big 0x1010"

# What is run: the program's words, and its input, or several one after the other.
EMIT = [LINEMAP, "emit", f"{TOP}/examples/c.json", "c.elf"]
RUNS = {
    "ask": ([LINEMAP, "ask", f"{TOP}/examples/c.json", "0x100f", "0x1018", "zz"], ""),
    "emit": (EMIT, ""),
    "emit-5": ([*EMIT, "--dwarf", "5", "--bits", "64", "--size", "4", "--big"], ""),
    "lookup": ([LINEMAP, "lookup", "-e", "given.elf", "-a", "-f", "-i", "-C", "0x1018", "0x100f", "0xfff"], ""),
    "lookup-lines": ([LINEMAP, "lookup", "-e", "given.elf", "-a", "-p"], "0x1018\nzz\n0x100f\n"),
    "lookup-all": ([LINEMAP, "lookup", "-e", "given.elf", "--all"], ""),
    "lookup-symbols": ([LINEMAP, "lookup", "-e", f"{DATA}/symbols.elf", "-a", "-f", "0x1004", "0x1008"], ""),
    "lookup-decompressed": ([LINEMAP, "lookup", "-e", "small.elf", "--decompress", "-a", "-f", "-i", "0x1018", "0xfff"], ""),
    "lookup-found": ([LINEMAP, "lookup", "-e", "stripped.elf", "--find-debug", "-a", "-f", "-i", "0x1018", "0xfff"], ""),
    "lookup-split": ([LINEMAP, "lookup", "-e", f"{DATA}/split.elf", "-a", "-f", "-i", "0x1000", "0x1003"], ""),
    "cases": ([CASES], case_inputs),
    "programs": ([GIMLI_CASES], lambda: lines_of("gimli_cases", "line_program ")),
    "reading": ([GIMLI_CASES], lambda: lines_of("gimli_cases", "entries ", "abbreviations ", "line_rows ", "line_sequences ", "line_files ")),
    "tables": ([CASES], lambda: lines_about_tables(*TABLES)),
    "asking": ([CASES], lambda: lines_about_tables(*ASKED)),
    "places": ([BENCH, "image", "given.elf", "slice", "places", "addresses"], ""),
    "places-bytes": ([BENCH, "image", "given.elf", "bytes", "places", "addresses"], ""),
    "warm": ([LINEMAP, "lookup", "-e", "given.elf", "-a"], "\n".join(WARM)),
    "warm-frames": ([LINEMAP, "lookup", "-e", "given.elf", "-a", "-p", "-f", "-i"], "\n".join(WARM)),
    "warm-words": ([LINEMAP, "lookup", "-e", "given.elf", "--llvm", "-s", *WARM], ""),
}


def compressed(image):
    """An image of 64 bits with the debug sections of another, compressed."""
    big, found = images.sections_of(image)
    order = ">" if big else "<"
    parts = {name: struct.pack(f"{order}IIQQ", 1, 0, len(text), 1) + zlib.compress(text) for name, (text, _) in found.items()}
    made = bytearray(images.image_of(parts, True, big))
    table, = struct.unpack_from(f"{order}Q", made, 40)
    for place in range(1, 1 + len(parts)):
        struct.pack_into(f"{order}Q", made, table + 64 * place + 8, 0x800)
    return bytes(made)


def naming(name, debug_file):
    """An image that has nothing but a debug link to a file of a name."""
    text = name.encode() + b"\0"
    link = text + b"\0" * (-len(text) % 4) + struct.pack("<I", zlib.crc32(debug_file))
    return images.image_with([(b".gnu_debuglink", 1, 0, link, 0)], True, False)


def write(path, data):
    with open(path, "wb") as file:
        file.write(data)


def needs_image(names):
    """Whether one of these cases reads what is emitted."""
    return any(it.startswith(("lookup", "places", "warm")) for it in names)


def build(names):
    """Builds the programs of these cases, but for those that a variable names."""
    needed = {RUNS[it][0][0] for it in names} | ({LINEMAP} if needs_image(names) else set())
    for program, (crate, variable) in zip(PROGRAMS, CRATES.items()):
        if program in needed and not os.environ.get(variable):
            subprocess.run([f"{TOP}/tools/build", crate], check=True)


def run(words, given, folder, refused=0):
    """The status, output and errors of a run, and whether an allocation was refused. The number `write` refuses all from the
    first output on."""
    for name in "refused", "run/c.elf":
        if os.path.exists(f"{folder}/{name}"):
            os.remove(f"{folder}/{name}")
    env = {**os.environ, "LD_PRELOAD": f"{folder}/refuse.so", "REFUSE": str(refused), "REFUSED": f"{folder}/refused"} if refused else None
    ended = subprocess.run(words, input=given.encode(), stdout=subprocess.PIPE, stderr=subprocess.PIPE, cwd=f"{folder}/run", env=env)
    image = None
    if os.path.exists(f"{folder}/run/c.elf"):
        with open(f"{folder}/run/c.elf", "rb") as file:
            image = file.read()
    return ended.returncode, (ended.stdout, image), ended.stderr.decode("utf-8", "replace"), os.path.exists(f"{folder}/refused")


def is_refused(found, whole):
    """Whether an answer of `lookup -a` is one for which memory was refused: it has no place, and no name but that of a symbol, which
    comes right before the last place of the whole answer."""
    refused = re.fullmatch(rb"(0x[0-9a-f]{16}(?:\n|: ))(?:(.+)\n)?\?\?:0\n", found)
    return refused and whole.startswith(refused[1]) and refused[2] in (None, b"??", *whole.splitlines()[:-1][-1:])


def is_but_for_refused(ample, out, err):
    """Whether an output of `lookup -a` is that with ample memory, but for as many answers as the error stream refuses."""
    whole, found = (re.split(rb"^(?=0x)", it, flags=re.MULTILINE) for it in (ample, out))
    others = [it for it in zip(found, whole) if it[0] != it[1]]
    return len(found) == len(whole) and len(others) <= err.count("E1\n") and all(is_refused(*it) for it in others)


def fault(ample, ended):
    """What is wrong with a run, beside one with ample memory."""
    status, (out, image), err, _ = ended
    if (status, out.replace(AGAIN, b""), image) == (ample[0], ample[1][0].replace(AGAIN, b""), ample[1][1]) and err == ample[2]:
        return None
    if status not in (0, 1):
        return f"status {status}: {err[:200]}"
    if not any(it in err for it in SAID):
        return f"status {status} without a reason: {out[-200:]} {err[:200]}"
    if status == 1 and not ample[1][0].replace(AGAIN, b"").startswith(out.replace(AGAIN, b"")):
        return f"another output: {out[-200:]}"
    if status == 0 and not is_but_for_refused(ample[1][0], out, err):
        return f"another output, with status 0: {out[-200:]} {err[:200]}"
    if image is not None and image != ample[1][1]:
        return "another file"
    return None


def lines_for(words):
    """The lines with which runs of the program with these words end where memory is refused."""
    return {f"linemap: {it}\n" for it in [*LINES[words[1]], *([ALL_LINE] if "--all" in words else [])]}


class Sweep:
    """Runs, each with one of every so many allocations refused: of how many inputs, how many there are, how many end as with ample
    memory, how many after a call that was made again, the error streams with status 1, and what is wrong."""

    def __init__(self, every):
        self.every, self.inputs = every, 0
        self.count, self.alike, self.again, self.lines, self.faults = 0, 0, 0, set(), []

    def run(self, words, given, folder):
        ample = run(words, given, folder)
        first = 1 + self.inputs % self.every
        self.inputs += 1
        for number in itertools.count(first, self.every):
            ended = run(words, given, folder, number)
            if not ended[3]:
                return
            self.count += 1
            self.alike += ended[:3] == ample[:3]
            self.again += ended[0] == 0 and ended[1][0].count(AGAIN) > ample[1][0].count(AGAIN)
            if ended[0] == 1:
                self.lines.add(ended[2])
            why = fault(ample, ended)
            if why:
                self.faults.append(f"allocation {number} of {given[-60:]!r}: {why}")


def sweep(name, folder, every):
    """How many runs with a refused allocation, one of every so many, there were, and how many ended otherwise than they should."""
    words, given = RUNS[name]
    if name.startswith(("places", "warm")):
        return refuse_all(name, folder)
    found = Sweep(every)
    for it in [given] if isinstance(given, str) else given():
        found.run(words, it, folder)
    wanted = lines_for(words) if words[0] == LINEMAP else found.lines
    if found.lines != wanted if every == 1 else found.lines - wanted:
        found.faults.append(f"other lines than for memory: {sorted(found.lines ^ wanted)}")
    print(f"{name}: {found.count} allocations, each refused once; {found.alike} runs ended as with ample memory, {found.again} after a "
          f"call that was made again, {len(found.faults)} wrongly", flush=True)
    for it in found.faults[:20]:
        print(f"  {it}")
    return found.count, len(found.faults)


def refuse_all(name, folder):
    """Refuses all allocations from the first output on, and counts as `sweep` does."""
    words, given = RUNS[name]
    ample, ended = run(words, given, folder), run(words, given, folder, "write")
    is_same = ended[:2] == ample[:2] and not ended[3]
    print(f"{name}: {ample[1][0].count(10)} lines; with each allocation refused from the first output on they are "
          f"{'the same, and none was asked for' if is_same else 'others'}", flush=True)
    is_long = len(ample[1][0]) > LONG
    if not is_long:
        print("  too few: one output may hold them all")
    return 1, int(not (is_same and is_long))


def main():
    words, every = sys.argv[1:], 1
    if words[:1] == ["--every"] and re.fullmatch("[1-9][0-9]*", "".join(words[1:2])):
        words, every = words[2:], int(words[1])
    names = words or list(RUNS)
    if any(it not in RUNS for it in names):
        return __doc__
    build(names)
    with tempfile.TemporaryDirectory() as folder:
        subprocess.run(["cc", "-O2", "-shared", "-fPIC", "-o", f"{folder}/refuse.so", f"{TOP}/bench/refuse.c"], check=True)
        os.mkdir(f"{folder}/run")
        for name in os.listdir(DATA):
            os.symlink(f"{DATA}/{name}", f"{folder}/run/{name}")
        if needs_image(names):
            subprocess.run([LINEMAP, "emit", f"{TOP}/examples/c.json", f"{folder}/run/given.elf"], check=True)
            with open(f"{folder}/run/given.elf", "rb") as file:
                small = compressed(file.read())
            write(f"{folder}/run/small.elf", small)
            write(f"{folder}/run/stripped.elf", naming("small.elf", small))
        with open(f"{folder}/run/addresses", "w", encoding="utf-8") as file:
            file.writelines(f"{0xff8 + it % 0x40:x}\n" for it in range(20_000))
        ended = [sweep(it, folder, every) for it in names]
    runs, wrong = map(sum, zip(*ended))
    print(f"{runs} runs with refused memory, {wrong} ended wrongly")
    return 1 if wrong else 0


if __name__ == "__main__":
    sys.exit(main())
