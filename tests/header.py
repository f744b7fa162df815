#!/usr/bin/env python3
"""Whether include/addr2line.h agrees with what it declares.

usage: tests/header.py [ARCHIVE]

- The calls and their parameters are those of the exports in crates/addr2line_c/src, and of ARCHIVE where one is named.
- The structs have the fields of the `#[repr(C)]` structs there, in that order, of the same types.
- Sizes and offsets are the same by C's rules, by a C compiler where there is one, and in examples/python/addr2line.py.
- The numbers are those of the constants in crates/addr2line_c/src, and E1 to E33, L1 to L7 and Z1 to Z12 count from 100, 200
  and 400. That of the version is in the name of the shared library, in tools/install and in examples/python/addr2line.py.
"""
import ctypes
import glob
import os
import re
import shutil
import subprocess
import sys
import tempfile

sys.dont_write_bytecode = True
TOP = os.path.dirname(os.path.dirname(os.path.abspath(__file__)))
HEADER = f"{TOP}/include/addr2line.h"
CALLER = f"{TOP}/examples/python/addr2line.py"
SOURCES = sorted(glob.glob(f"{TOP}/crates/addr2line_c/src/**/*.rt", recursive=True))
# The structs of the sources that have another name in C.
STRUCTS = {"Handle": "a2l_loader"}
NUMBERS = {"u8": "uint8_t", "u16": "uint16_t", "u32": "uint32_t", "u64": "uint64_t", "usize": "size_t", "i32": "int32_t"}
SIZES = {"uint8_t": 1, "uint16_t": 2, "uint32_t": 4, "int32_t": 4, "uint64_t": 8, "size_t": 8}
faults = []


def read(path):
    with open(path, encoding="utf-8") as file:
        return file.read()


def compare(what, one, other, of_one="the header", of_other="the sources"):
    if one != other:
        faults.append(f"{what}: {one} in {of_one}, {other} in {of_other}")


# ---- The header


def plain(text):
    """C without comments and directives."""
    return re.sub(r"(?m)^#.*$", "", re.sub(r"(?s)/\*.*?\*/", "", text))


def type_of(declared):
    """The type of a parameter or field, without its name."""
    return re.sub(r"\s+", " ", re.sub(r"\w+\s*$", "", declared.strip())).replace(" *", "*").strip()


def header_calls(text):
    found = re.findall(r"\bint32_t\s+(a2l_\w+)\s*\(([^)]*)\)\s*;", text)
    return {name: [type_of(it) for it in given.split(",")] for name, given in found}


def header_structs(text):
    found = {}
    for body, name in re.findall(r"typedef\s+struct\s*\{([^}]*)\}\s*(a2l_\w+)\s*;", text):
        fields = []
        for line in filter(str.strip, body.split(";")):
            first, *more = line.split(",")
            fields += [(re.search(r"(\w+)\s*$", it)[1], type_of(first)) for it in [first, *more]]
        found[name] = fields
    return found


def header_numbers(text):
    return {name: int(number) for name, number in re.findall(r"\bA2L_(\w+)\s*=\s*(-?\d+)", text)}


# ---- The sources


def c_name(name):
    name = re.sub(r"<.*>$", "", name.strip())
    return STRUCTS.get(name) or "a2l_" + re.sub(r"(?<!^)([A-Z])", r"_\1", name.removeprefix("A2l")).lower()


def c_types(kind):
    """The types in C of a parameter: a slice is a pointer and a length, and an allocator is none."""
    kind = re.sub(r"'\w+\s*", "", kind.strip())
    if kind == "Global":
        return []
    if kind == "&[u8]":
        return ["const uint8_t*", "size_t"]
    if found := re.fullmatch(r"&mut \[(.*)\]", kind):
        return [f"{NUMBERS.get(found[1]) or c_name(found[1])}*", "size_t"]
    if found := re.fullmatch(r"&mut (.*)", kind):
        return [f"{NUMBERS.get(found[1]) or c_name(found[1])}*"]
    return [NUMBERS[kind]]


def source_calls(text):
    found = {}
    exported = r"#\[unsafe\(no_mangle\)\]\s*pub extern \"C\" fn (\w+)(?:<[^>]*>)?\(([^{]*?)\)\s*->\s*i32"
    for name, given in re.findall(exported, text):
        found[name] = [it for one in re.findall(r"\w+:\s*((?:[^,\[\]<>]|\[[^\]]*\]|<[^>]*>)+)", given) for it in c_types(one)]
    return found


def source_structs(text):
    found = {}
    in_c = r"#\[repr\(C\)\](?:\s*#\[[^\]]*\])*\s*pub struct (\w+(?:<[^>]*>)?)\s*\{(.*?)\n\}"
    for name, body in re.findall(in_c, text, re.DOTALL):
        fields = []
        for field, kind in re.findall(r"(?m)^\s*(?:pub(?:\([^)]*\))?\s+)?(\w+):\s*(.+),\s*$", re.sub(r"(?m)^\s*//.*$", "", body)):
            kind = re.sub(r"'\w+\s*", "", kind)
            fields.append((field, {"&[u8]": "a2l_text", "*mut u8": "void*"}.get(kind) or NUMBERS.get(kind) or c_name(kind)))
        found[c_name(name)] = fields
    return found


# ---- Sizes and offsets, by C's rules for a machine of 64 bits


def aligned(offset, by):
    return -(-offset // by) * by


def layout(structs, name):
    """The size and alignment of a struct, and the offsets of its fields."""
    offset, most, offsets = 0, 1, []
    for field, kind in structs[name]:
        size, by = (8, 8) if kind.endswith("*") else layout(structs, kind)[:2] if kind in structs else (SIZES[kind],) * 2
        offset, most = aligned(offset, by), max(most, by)
        offsets.append((field, offset))
        offset += size
    return aligned(offset, most), most, offsets


def compare_compiler(structs):
    """Compares them with those of a C compiler."""
    if not shutil.which("cc"):
        print("no C compiler: sizes and offsets are compared by C's rules alone")
        return
    with tempfile.TemporaryDirectory() as folder:
        with open(f"{folder}/sizes.c", "w", encoding="utf-8") as file:
            print("#include <stdio.h>\n#include <addr2line.h>\nint main(void) {", file=file)
            for name, fields in structs.items():
                print(f'printf("{name} %zu\\n", sizeof({name}));', file=file)
                for field, _ in fields:
                    print(f'printf("{name}.{field} %zu\\n", offsetof({name}, {field}));', file=file)
            print("return 0; }", file=file)
        subprocess.run(["cc", f"-I{TOP}/include", "-o", f"{folder}/sizes", f"{folder}/sizes.c"], check=True)
        found = subprocess.run([f"{folder}/sizes"], stdout=subprocess.PIPE, encoding="utf-8", check=True).stdout
    wanted = ""
    for name in structs:
        size, _, offsets = layout(structs, name)
        wanted += f"{name} {size}\n" + "".join(f"{name}.{field} {offset}\n" for field, offset in offsets)
    for one, other in zip(found.splitlines(), wanted.splitlines()):
        compare("a size or offset", one, other, "the compiler", "C's rules")


def compare_python(structs):
    """Compares them with those of the structs of the Python caller, of which the texts are read, and nothing is loaded."""
    text = read(CALLER)
    names = {"ctypes": ctypes, "Location": None, "Optional": None}
    for made in re.findall(r"(?ms)^class _\w+\(ctypes\.Structure\):.*?(?=^\S|\Z)", text):
        exec(re.sub(r"(?ms)^    def .*?(?=^    \S|\Z)", "", made), names)
    for name in structs:
        made = names.get("_" + "".join(it.capitalize() for it in name.removeprefix("a2l_").split("_")))
        if made is None:
            faults.append(f"{name}: {os.path.relpath(CALLER, TOP)} has no struct for it")
            continue
        size, _, offsets = layout(structs, name)
        theirs = ctypes.sizeof(made), [(it[0], getattr(made, it[0]).offset) for it in made._fields_]
        compare(name, (size, offsets), theirs, "the header", "Python")


def compare_version(header):
    """Compares the number of the version with the names of the shared library."""
    version = re.search(r"(?m)^#define A2L_VERSION (\d+)$", header)[1]
    for path in "tools/install", os.path.relpath(CALLER, TOP):
        for name in set(re.findall(r"libaddr2line\.so\.\w+", read(f"{TOP}/{path}"))):
            compare("the shared library", f"libaddr2line.so.{version}", name, "the header", path)


# ---- All


def exports(archive):
    found = subprocess.run(["nm", "-g", "--defined-only", archive], stdout=subprocess.PIPE, encoding="utf-8", check=True).stdout
    return sorted(line.split()[2] for line in found.splitlines() if len(line.split()) == 3)


def main():
    if len(sys.argv) > 2:
        return __doc__
    text = plain(read(HEADER))
    calls, structs, numbers = header_calls(text), header_structs(text), header_numbers(text)
    if SOURCES:
        sources = "\n".join(map(read, SOURCES))
        theirs, their_structs = source_calls(sources), source_structs(sources)
        compare("calls", sorted(calls), sorted(theirs))
        for name in calls.keys() & theirs.keys():
            compare(name, calls[name], theirs[name])
        for name, fields in structs.items():
            # (a text alone is one slice there)
            wanted = [("text", "a2l_text")] if name == "a2l_text" else fields
            compare(name, wanted, their_structs.get(name))
        for name, number in re.findall(r"\bpub(?:\([^)]*\))? const ([A-Z_]+): (?:i32|u32) = (\d+);", sources):
            compare(name, numbers.get(name), int(number))
    else:
        print("no sources: the header is compared with what there is else")
    for name, number in numbers.items():
        if found := re.fullmatch(r"([ELZ])(\d+)", name):
            wanted = 300 if name == "L8" else {"E": 100, "L": 200, "Z": 400}[found[1]] + int(found[2])
            compare(name, number, wanted, "the header", "the rule")
    compare_compiler(structs)
    compare_python(structs)
    compare_version(read(HEADER))
    if len(sys.argv) > 1:
        compare("exports", sorted(calls), exports(sys.argv[1]), "the header", "the archive")
    print(*faults, sep="\n", end="\n" if faults else "")
    print(f"{len(calls)} calls, {len(structs)} structs, {len(numbers)} numbers, {len(faults)} differences")
    return 1 if faults else 0


if __name__ == "__main__":
    sys.exit(main())
