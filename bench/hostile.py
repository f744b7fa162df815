#!/usr/bin/env python3
"""Debug information made to be slow to read, and tables made to be slow to emit: files by kind, and what they cost.

usage: bench/hostile.py list
       bench/hostile.py make KIND COUNT FILE      and print the addresses that are asked for
       bench/hostile.py measure [KIND[=COUNT]..]

Each kind is made at half its count and at its whole one (COUNT, or that of the list), so that the growth shows: twice the count
should take about twice the time and the memory. What is run on an image is `linemap lookup -e IMAGE -f -i` with addresses,
`--all`, and, where it has many sections, `--section` with the last one (`section`: `get_section_range`); where PEER names a
program with the same words, such as one over Rust's addr2line, it is run too. Then `linemap_bench` asks a context for the
places of the addresses (`places`: `find_location`), for their loads (`loads`: `preload_units`, and `answer_load` for each), for
their units (`unit`: `find_dwarf_and_unit`), and for the lines, the functions and the calls of all units (`lines`: `parse_lines`,
`functions`: `parse_functions`, `calls`: `parse_inlined_functions`). On a table it is `linemap ask` with addresses, and `linemap
emit`.
LINEMAP and BENCH name other words than those of the built programs, ASK names some of what is asked, and READER is the reader
of linemap_bench (`slice`, or `bytes`). SCALE makes all counts larger or smaller, LIMIT bounds the processor seconds of a run
(60), MEMORY its megabytes (4,000), beyond which each allocation is refused.
"""
import json
import os
import random
import resource
import signal
import subprocess
import sys
import tempfile

sys.dont_write_bytecode = True
TOP = os.path.dirname(os.path.dirname(os.path.abspath(__file__)))
sys.path.insert(0, f"{TOP}/tests")
from images import image_of

LOW = 0x1000


# ---- parts, in version 4, 32-bit DWARF, with addresses of four bytes, little endian (7.5, 7.24, 7.25)


def word(number):
    return number.to_bytes(4, "little")


def leb(number):
    text = b""
    while number > 127:
        text += bytes([number & 127 | 128])
        number >>= 7
    return text + bytes([number])


def sleb(number):
    text = b""
    while not -64 <= number < 64:
        text += bytes([number & 127 | 128])
        number >>= 7
    return text + bytes([number & 127])


def unit(entries, abbreviations=0):
    return word(7 + len(entries)) + b"\4\0" + word(abbreviations) + b"\4" + entries


UNIT_HEADER = 11
NAME, STMT_LIST, LOW_PC, HIGH_PC, RANGES, ORIGIN, IMPORT, CALL_LINE = 0x03, 0x10, 0x11, 0x12, 0x55, 0x31, 0x18, 0x59
DWO_ID, DWO_NAME, SIBLING, DIRECTORY = 0x2131, 0x2130, 0x01, 0x1b
ADDR, DATA4, DATA8, DATA1, STRING, STRP, REF4, REF_ADDR, OFFSET, PRESENT = 1, 6, 7, 11, 8, 14, 0x13, 0x10, 0x17, 0x19
COMPILE, PARTIAL, SUBPROGRAM, INLINED, IMPORTED, BLOCK, NAMESPACE = 0x11, 0x3c, 0x2e, 0x1d, 0x3d, 0x0b, 0x39
PLACE = (LOW_PC, ADDR), (HIGH_PC, DATA4)


def declaration(code, tag, *attributes, children=False):
    return leb(code) + leb(tag) + bytes([children]) + b"".join(leb(name) + leb(form) for name, form in attributes) + b"\0\0"


def place(low, size):
    return word(low) + word(size)


def program(instructions, files=(b"a.c",), directories=()):
    """A line number program whose special opcodes move the address by 1 and the line by 0, from 13 on (6.2.4)."""
    tables = b"".join(it + b"\0" for it in directories) + b"\0" + b"".join(it + b"\0\0\0\0" for it in files) + b"\0"
    header = b"\1\1\1\0\4\x0d" + bytes([0, 1, 1, 1, 1, 0, 0, 0, 1, 0, 0, 1]) + tables
    body = b"\4\0" + word(len(header)) + header + instructions
    return word(len(body)) + body


ROW = bytes([13 + 4])


def set_address(address):
    return b"\0\5\2" + word(address)


END = b"\0\1\1"


# ---- kinds: from a count to the sections and the addresses that are asked for


def shared_program(count):
    """Units that share a line number program of as many rows, and have no ranges but its own."""
    abbrev = declaration(1, COMPILE, (STMT_LIST, OFFSET))
    return {"abbrev": abbrev + b"\0", "info": unit(b"\1" + word(0)) * count,
            "line": program(set_address(LOW) + ROW * count + END)}, [LOW + 1]


def shared_files(count):
    """Units that share a line number program of one row and as many files."""
    abbrev = declaration(1, COMPILE, (STMT_LIST, OFFSET), *PLACE)
    return {"abbrev": abbrev + b"\0", "info": unit(b"\1" + word(0) + place(LOW, 9)) * count,
            "line": program(set_address(LOW) + ROW * 8 + END, [b"a"] * count)}, [LOW + 1]


def shared_ranges(count):
    """Units that share a list of as many ranges."""
    abbrev = declaration(1, COMPILE, (RANGES, OFFSET))
    return {"abbrev": abbrev + b"\0", "info": unit(b"\1" + word(0)) * count, "ranges": list_of_ranges(LOW, count)}, [LOW + 1]


def list_of_ranges(low, count):
    """Ranges of one address each, side by side but for one address (2.17.3)."""
    return b"".join(word(low + 2 * it) + word(low + 2 * it + 1) for it in range(count)) + b"\0" * 8


def shared_function_ranges(count):
    """Functions that share a list of as many ranges."""
    abbrev = declaration(1, COMPILE, *PLACE, children=True) + declaration(2, SUBPROGRAM, (RANGES, OFFSET))
    entries = b"\1" + place(LOW, 2 * count) + (b"\2" + word(0)) * count + b"\0"
    return {"abbrev": abbrev + b"\0", "info": unit(entries), "ranges": list_of_ranges(0, count)}, [LOW]


def shared_call_ranges(count):
    """Calls side by side that share a list of as many ranges."""
    abbrev = (declaration(1, COMPILE, *PLACE, children=True) + declaration(2, SUBPROGRAM, *PLACE, children=True)
              + declaration(3, INLINED, (RANGES, OFFSET)))
    entries = b"\1" + place(LOW, 2 * count) + b"\2" + place(LOW, 2 * count) + (b"\3" + word(0)) * count + b"\0\0"
    return {"abbrev": abbrev + b"\0", "info": unit(entries), "ranges": list_of_ranges(0, count)}, [LOW]


def abbreviation_tails(count):
    """Units whose tables of abbreviations are the tails of one list."""
    parts = [declaration(it + 1, COMPILE) for it in range(count)]
    info, offset = b"", 0
    units = []
    for it in range(count):
        units.append(unit(leb(it + 1), offset))
        offset += len(parts[it])
    return {"abbrev": b"".join(parts) + b"\0", "info": b"".join(units)}, [LOW]


def nested_calls(count):
    """Calls in one another."""
    abbrev = (declaration(1, COMPILE, *PLACE, children=True) + declaration(2, SUBPROGRAM, *PLACE, children=True)
              + declaration(3, INLINED, *PLACE, (NAME, STRING), (CALL_LINE, DATA1), children=True))
    entries = b"\1" + place(LOW, 99) + b"\2" + place(LOW, 99) + (b"\3" + place(LOW, 99) + b"f\0\1") * count + b"\0" * (count + 2)
    return {"abbrev": abbrev + b"\0", "info": unit(entries)}, [LOW + 1]


def overlapping_calls(count):
    """Calls side by side, each range in the one before it."""
    abbrev = (declaration(1, COMPILE, *PLACE, children=True) + declaration(2, SUBPROGRAM, *PLACE, children=True)
              + declaration(3, INLINED, *PLACE))
    calls = b"".join(b"\3" + place(LOW + it, 2 * (count - it)) for it in range(count))
    entries = b"\1" + place(LOW, 2 * count) + b"\2" + place(LOW, 2 * count) + calls + b"\0\0"
    return {"abbrev": abbrev + b"\0", "info": unit(entries)}, spread(LOW, 2 * count)


def spread(low, size, count=200):
    return sorted({low + size * it // count for it in range(count)})


def sequences(count):
    """Sequences side by side in one unit."""
    abbrev = declaration(1, COMPILE, (STMT_LIST, OFFSET), *PLACE)
    rows = b"".join(set_address(LOW + 4 * it) + ROW + b"\2\3" + END for it in range(count))
    return {"abbrev": abbrev + b"\0", "info": unit(b"\1" + word(0) + place(LOW, 4 * count)), "line": program(rows)}, spread(LOW, 4 * count)


def falling_sequences(count):
    """The same, each below the one before it."""
    abbrev = declaration(1, COMPILE, (STMT_LIST, OFFSET), *PLACE)
    rows = b"".join(set_address(LOW + 4 * it) + ROW + b"\2\3" + END for it in reversed(range(count)))
    return {"abbrev": abbrev + b"\0", "info": unit(b"\1" + word(0) + place(LOW, 4 * count)), "line": program(rows)}, spread(LOW, 4 * count)


def ranges_and_sequences(count):
    """A unit with ranges, and a sequence for each, as where each function is in a section of its own."""
    sections, asked = sequences(count)
    abbrev = declaration(1, COMPILE, (STMT_LIST, OFFSET), (RANGES, OFFSET))
    ranges = b"".join(word(LOW + 4 * it) + word(LOW + 4 * it + 4) for it in range(count)) + b"\0" * 8
    return {**sections, "abbrev": abbrev + b"\0", "info": unit(b"\1" + word(0) + word(0)), "ranges": ranges}, asked


def equal_sequences(count):
    """Sequences of one range."""
    abbrev = declaration(1, COMPILE, (STMT_LIST, OFFSET), *PLACE)
    rows = (set_address(LOW) + ROW + b"\2\3" + END) * count
    return {"abbrev": abbrev + b"\0", "info": unit(b"\1" + word(0) + place(LOW, 4)), "line": program(rows)}, spread(LOW, 4)


def rows(count):
    """Rows of one sequence."""
    abbrev = declaration(1, COMPILE, (STMT_LIST, OFFSET), *PLACE)
    line = program(set_address(LOW) + ROW * count + END)
    return {"abbrev": abbrev + b"\0", "info": unit(b"\1" + word(0) + place(LOW, count)), "line": line}, spread(LOW, count)


def rows_back(count):
    """Rows of one sequence whose addresses fall: each is set below the one before it, and so hidden."""
    abbrev = declaration(1, COMPILE, (STMT_LIST, OFFSET), *PLACE)
    line = program(set_address(LOW + count) + b"".join(ROW + set_address(LOW + count - it) for it in range(count)) + END)
    return {"abbrev": abbrev + b"\0", "info": unit(b"\1" + word(0) + place(LOW, 2 * count)), "line": line}, spread(LOW, 2 * count)


def aranges(count):
    """Units whose ranges are in .debug_aranges."""
    abbrev = declaration(1, COMPILE, (NAME, STRING))
    one = unit(b"\1a\0")
    sets = b"".join(word(28) + b"\2\0" + word(it * len(one)) + b"\4\0" + b"\0" * 4 + word(LOW + 2 * it) + word(2) + b"\0" * 8
                    for it in range(count))
    return {"abbrev": abbrev + b"\0", "info": one * count, "aranges": sets}, spread(LOW, 2 * count)


def aranges_of_one(count):
    """Sets of address ranges of one unit, beside as many units."""
    sections, asked = aranges(count)
    one = b"".join(word(28) + b"\2\0" + word(0) + b"\4\0" + b"\0" * 4 + word(LOW + 2 * it) + word(2) + b"\0" * 8 for it in range(count))
    return {**sections, "aranges": one}, asked


def linked_units(count):
    """Units with a function each, whose name is asked of the next unit."""
    abbrev = (declaration(1, COMPILE, *PLACE, children=True) + declaration(2, SUBPROGRAM, *PLACE, (ORIGIN, REF_ADDR)))
    size = UNIT_HEADER + 9 + 13 + 1
    units = [unit(b"\1" + place(LOW + it, 1) + b"\2" + place(LOW + it, 1) + word((it + 1) % count * size + UNIT_HEADER + 9) + b"\0")
             for it in range(count)]
    return {"abbrev": abbrev + b"\0", "info": b"".join(units)}, spread(LOW, count)


def names_far_back(count):
    """Calls of one function whose names are in the first of as many units."""
    abbrev = (declaration(1, COMPILE, *PLACE, children=True) + declaration(2, SUBPROGRAM, *PLACE, children=True)
              + declaration(3, INLINED, *PLACE, (ORIGIN, REF_ADDR)) + declaration(4, COMPILE, children=True)
              + declaration(5, SUBPROGRAM, (NAME, STRING)))
    calls = b"".join(b"\3" + place(LOW + it, 1) + word(UNIT_HEADER + 1) for it in range(count))
    last = unit(b"\1" + place(LOW, count) + b"\2" + place(LOW, count) + calls + b"\0\0")
    return {"abbrev": abbrev + b"\0", "info": unit(b"\4\5f\0\0") * count + last}, spread(LOW, count)


def reference_chains(count):
    """Functions of one unit, each of which has the name of the next one."""
    abbrev = declaration(1, COMPILE, *PLACE, children=True) + declaration(2, SUBPROGRAM, *PLACE, (ORIGIN, REF4))
    first = UNIT_HEADER + 9
    functions = b"".join(b"\2" + place(LOW + it, 1) + word(first + 13 * ((it + 1) % count)) for it in range(count))
    return {"abbrev": abbrev + b"\0", "info": unit(b"\1" + place(LOW, count) + functions + b"\0")}, spread(LOW, count)


def functions(count):
    """Functions, and as many sequences."""
    sections, asked = sequences(count)
    abbrev = (declaration(1, COMPILE, (STMT_LIST, OFFSET), *PLACE, children=True) + declaration(2, SUBPROGRAM, *PLACE, (NAME, STRING)))
    entries = b"\1" + word(0) + place(LOW, 4 * count) + b"".join(b"\2" + place(LOW + 4 * it, 4) + b"f\0" for it in range(count)) + b"\0"
    return {**sections, "abbrev": abbrev + b"\0", "info": unit(entries)}, asked


def functions_in_sequences(count):
    """Functions, each with a range of their unit and a sequence of its own, from where its row is."""
    sections, asked = ranges_and_sequences(count)
    abbrev = (declaration(1, COMPILE, (STMT_LIST, OFFSET), (RANGES, OFFSET), children=True)
              + declaration(2, SUBPROGRAM, *PLACE, (NAME, STRING)))
    entries = b"\1" + word(0) + word(0) + b"".join(b"\2" + place(LOW + 4 * it, 4) + b"f\0" for it in range(count)) + b"\0"
    rows = b"".join(set_address(LOW + 4 * it) + bytes([13]) + b"\2\4" + END for it in range(count))
    return {**sections, "abbrev": abbrev + b"\0", "info": unit(entries), "line": program(rows)}, asked


def overlapping_functions(count):
    """Functions of one unit, each range in the one before it."""
    abbrev = declaration(1, COMPILE, *PLACE, children=True) + declaration(2, SUBPROGRAM, *PLACE)
    entries = b"".join(b"\2" + place(LOW + it, 2 * (count - it)) for it in range(count))
    return {"abbrev": abbrev + b"\0", "info": unit(b"\1" + place(LOW, 2 * count) + entries + b"\0")}, spread(LOW, 2 * count)


def nested_functions(count):
    """Functions in one another, each with an address of its own, which are all asked for."""
    abbrev = declaration(1, COMPILE, *PLACE, children=True) + declaration(2, SUBPROGRAM, *PLACE, children=True)
    entries = b"\1" + place(LOW, count) + b"".join(b"\2" + place(LOW + it, 1) for it in range(count)) + b"\0" * (count + 1)
    return {"abbrev": abbrev + b"\0", "info": unit(entries)}, range(LOW, LOW + count)


def partial_units(count):
    """Partial units, and as many units that import them."""
    abbrev = (declaration(1, COMPILE, *PLACE, children=True) + declaration(2, IMPORTED, (IMPORT, REF_ADDR))
              + declaration(3, PARTIAL, children=True) + declaration(4, SUBPROGRAM, (NAME, STRING))
              + declaration(5, SUBPROGRAM, *PLACE, (ORIGIN, REF_ADDR)))
    partial = unit(b"\3\4f\0\0")
    units = [unit(b"\1" + place(LOW + it, 1) + b"\2" + word(len(partial) * it + UNIT_HEADER) + b"\5" + place(LOW + it, 1)
                  + word(len(partial) * it + UNIT_HEADER + 1) + b"\0") for it in range(count)]
    return {"abbrev": abbrev + b"\0", "info": partial * count + b"".join(units)}, spread(LOW, count)


def overlapping_units(count):
    """Units, each range in the one before it, none of which knows anything."""
    abbrev = declaration(1, COMPILE, *PLACE)
    return {"abbrev": abbrev + b"\0", "info": b"".join(unit(b"\1" + place(LOW + it, 2 * (count - it))) for it in range(count))}, [LOW + count]


def abbreviations(count):
    """Abbreviations of one table, their codes ascending."""
    abbrev = b"".join(declaration(it + 1, COMPILE, *PLACE) for it in range(count))
    return {"abbrev": abbrev + b"\0", "info": unit(b"\1" + place(LOW, 9))}, [LOW]


def falling_abbreviations(count):
    """The same, their codes falling."""
    abbrev = b"".join(declaration(count - it, COMPILE, *PLACE) for it in range(count))
    return {"abbrev": abbrev + b"\0", "info": unit(b"\1" + place(LOW, 9))}, [LOW]


def mixed_abbreviations(count):
    """The same, their codes in no order."""
    abbrev = b"".join(declaration(1 + it * 7919 % count, COMPILE, *PLACE) for it in range(count))
    return {"abbrev": abbrev + b"\0", "info": unit(b"\1" + place(LOW, 9))}, [LOW]


def shared_abbreviations(count):
    """Units with one table of as many abbreviations."""
    abbrev = b"".join(declaration(it + 1, COMPILE) for it in range(count))
    return {"abbrev": abbrev + b"\0", "info": unit(b"\1") * count}, [LOW]


def long_directory(count):
    """Files whose texts begin with a directory as long as there are files."""
    abbrev = declaration(1, COMPILE, (DIRECTORY, STRP), (STMT_LIST, OFFSET), *PLACE)
    line = program(set_address(LOW) + ROW * 8 + END, [b"a"] * count)
    return {"abbrev": abbrev + b"\0", "info": unit(b"\1" + word(0) + word(0) + place(LOW, 8)), "line": line,
            "str": b"/" + b"d" * 5 * count + b"\0"}, [LOW]


def long_name(count):
    """Calls of one long name, as long as there are calls."""
    abbrev = (declaration(1, COMPILE, *PLACE, children=True) + declaration(2, SUBPROGRAM, *PLACE, children=True)
              + declaration(3, INLINED, *PLACE, (NAME, STRP)))
    calls = b"".join(b"\3" + place(LOW + it, 1) + word(0) for it in range(count))
    entries = b"\1" + place(LOW, count) + b"\2" + place(LOW, count) + calls + b"\0\0"
    return {"abbrev": abbrev + b"\0", "info": unit(entries), "str": b"n" * 13 * count + b"\0"}, [LOW]


def rust_name(count):
    """A function whose name is a path of as many parts, as Rust mangles it."""
    abbrev = declaration(1, COMPILE, *PLACE, children=True) + declaration(2, SUBPROGRAM, *PLACE, (NAME, STRP))
    return {"abbrev": abbrev + b"\0", "info": unit(b"\1" + place(LOW, 9) + b"\2" + place(LOW, 9) + word(0) + b"\0"),
            "str": b"_ZN" + b"6a$LT$b" * count + b"17h0123456789abcdefE\0"}, [LOW]


def empty_attributes(count):
    """Entries of one byte, whose declaration has as many attributes that take none."""
    abbrev = declaration(1, COMPILE, *PLACE, children=True) + declaration(2, 0x34, *[(0x3f, PRESENT)] * count)
    return {"abbrev": abbrev + b"\0", "info": unit(b"\1" + place(LOW, 9) + b"\2" * 2 * count + b"\0")}, [LOW]


def repeated_ranges(count):
    """A unit that has one range many times, and as many rows."""
    sections, asked = rows(count)
    abbrev = declaration(1, COMPILE, (STMT_LIST, OFFSET), (RANGES, OFFSET))
    ranges = (word(LOW) + word(LOW + count)) * count + b"\0" * 8
    return {**sections, "abbrev": abbrev + b"\0", "info": unit(b"\1" + word(0) + word(0)), "ranges": ranges}, asked


def long_sequence(count):
    """A sequence of as many rows, before as many of one row, and as many ranges of their unit."""
    sections, asked = ranges_and_sequences(count)
    rows = ROW * count + b"\2" + leb(3 * count)
    short = b"".join(set_address(LOW + 4 * it) + ROW + b"\2\3" + END for it in range(count))
    return {**sections, "line": program(set_address(LOW) + rows + END + short)}, asked


def skeletons(count):
    """Units over one address, each with a split file that isn't there."""
    abbrev = declaration(1, COMPILE, *PLACE, (DWO_NAME, STRING), (DWO_ID, DATA8))
    return {"abbrev": abbrev + b"\0", "info": b"".join(unit(b"\1" + place(LOW, 9) + b"no\0" + word(it) * 2) for it in range(count))}, [LOW]


SPLIT = (DWO_NAME, STRING), (DWO_ID, DATA8)


def skeleton(low, size, number, file=b"no"):
    return unit(b"\1" + place(low, size) + file + b"\0" + word(number) * 2)


def skeletons_of_a_file(count):
    """Units over one address, each with the program that reads them as its split file."""
    abbrev = declaration(1, COMPILE, *PLACE, *SPLIT)
    return {"abbrev": abbrev + b"\0", "info": b"".join(skeleton(LOW, 9, it, b"/proc/self/exe") for it in range(count))}, [LOW]


def skeletons_of_no_end(count):
    """Units over one address, each with a split file that has no end."""
    abbrev = declaration(1, COMPILE, *PLACE, *SPLIT)
    return {"abbrev": abbrev + b"\0", "info": b"".join(skeleton(LOW, 9, it, b"/dev/zero") for it in range(count))}, [LOW]


def overlapping_skeletons(count):
    """Units, each range in the one before it, each with a split file that isn't there."""
    abbrev = declaration(1, COMPILE, *PLACE, *SPLIT)
    return {"abbrev": abbrev + b"\0", "info": b"".join(skeleton(LOW + it, 2 * (count - it), it) for it in range(count))}, spread(LOW, 2 * count)


def skeletons_in_a_row(count):
    """The same side by side, below one that is over all of them; all addresses are asked for."""
    abbrev = declaration(1, COMPILE, *PLACE, *SPLIT)
    units = [skeleton(LOW + it, 1, it) for it in range(count)] + [skeleton(LOW, 2 * count, count)]
    return {"abbrev": abbrev + b"\0", "info": b"".join(units)}, range(LOW, LOW + count)


def ranges_of_a_skeleton(count):
    """A unit with a split file that isn't there, and as many ranges over one address, beside as many such units with one range."""
    abbrev = declaration(1, COMPILE, *PLACE, *SPLIT) + declaration(2, COMPILE, (RANGES, OFFSET), *SPLIT)
    units = [skeleton(LOW, 9 + 2 * it, it) for it in range(count)] + [unit(b"\2" + word(0) + b"no\0" + word(count) * 2)]
    ranges = b"".join(word(LOW) + word(LOW + 10 + 2 * it) for it in range(count)) + b"\0" * 8
    return {"abbrev": abbrev + b"\0", "info": b"".join(units), "ranges": ranges}, spread(LOW, 9)


def everything_shared(count):
    """Units that share a table of abbreviations, a line program, a list of one range and their texts, each with a function and a call."""
    abbrev = (declaration(1, COMPILE, (NAME, STRP), (DIRECTORY, STRP), (STMT_LIST, OFFSET), (RANGES, OFFSET), children=True)
              + declaration(2, SUBPROGRAM, (NAME, STRP), (RANGES, OFFSET), children=True)
              + declaration(3, INLINED, (ORIGIN, REF_ADDR), (RANGES, OFFSET)))
    function = UNIT_HEADER + 17
    one = unit(b"\1" + word(0) * 4 + b"\2" + word(0) * 2 + b"\3" + word(function) + word(0) + b"\0\0")
    return {"abbrev": abbrev + b"\0", "info": one * count, "line": program(set_address(LOW) + ROW * 8 + END),
            "ranges": word(LOW) + word(LOW + 9) + b"\0" * 8, "str": b"t\0"}, [LOW + 1]


def units_of_elsewhere(count):
    """Units over the same addresses, whose functions and rows are at others."""
    abbrev = (declaration(1, COMPILE, (STMT_LIST, OFFSET), *PLACE, children=True) + declaration(2, SUBPROGRAM, *PLACE, (NAME, STRING)))
    one = unit(b"\1" + word(0) + place(LOW, 999) + b"\2" + place(LOW + 999, 9) + b"f\0\0")
    return {"abbrev": abbrev + b"\0", "info": one * count, "line": program(set_address(LOW + 999) + ROW * 8 + END)}, spread(LOW, 999)


def shared_directory(count):
    """Units with a file each, in one directory whose text is as long as there are units."""
    abbrev = declaration(1, COMPILE, (DIRECTORY, STRP), (STMT_LIST, OFFSET), *PLACE)
    units = [unit(b"\1" + word(0) + word(0) + place(LOW + it, 1)) for it in range(count)]
    return {"abbrev": abbrev + b"\0", "info": b"".join(units), "line": program(set_address(LOW) + ROW * 8 + END),
            "str": b"/" + b"d" * 5 * count + b"\0"}, spread(LOW, count)


def chained_call_names(count):
    """Calls in one another, whose names lead from each of as many entries to the next one."""
    abbrev = (declaration(1, COMPILE, *PLACE, children=True) + declaration(2, SUBPROGRAM, (ORIGIN, REF4))
              + declaration(3, SUBPROGRAM, *PLACE, children=True) + declaration(4, INLINED, *PLACE, (ORIGIN, REF4), children=True))
    first = UNIT_HEADER + 9
    chain = b"".join(b"\2" + word(first + 5 * ((it + 1) % count)) for it in range(count))
    calls = b"".join(b"\4" + place(LOW, 99) + word(first + 5 * it) for it in range(count))
    entries = b"\1" + place(LOW, 99) + chain + b"\3" + place(LOW, 99) + calls + b"\0" * (count + 2)
    return {"abbrev": abbrev + b"\0", "info": unit(entries)}, [LOW]


def call_names_across_units(count):
    """Calls side by side, whose names lead from each of as many units to the next one."""
    abbrev = (declaration(1, COMPILE, children=True) + declaration(2, SUBPROGRAM, (ORIGIN, REF_ADDR))
              + declaration(3, COMPILE, *PLACE, children=True) + declaration(4, SUBPROGRAM, *PLACE, children=True)
              + declaration(5, INLINED, *PLACE, (ORIGIN, REF_ADDR)))
    size, first = UNIT_HEADER + 7, UNIT_HEADER + 1
    units = [unit(b"\1\2" + word(first + size * ((it + 1) % count)) + b"\0") for it in range(count)]
    calls = b"".join(b"\5" + place(LOW + it, 1) + word(first + size * it) for it in range(count))
    last = unit(b"\3" + place(LOW, count) + b"\4" + place(LOW, count) + calls + b"\0\0")
    return {"abbrev": abbrev + b"\0", "info": b"".join(units) + last}, spread(LOW, count)


def many_references(count):
    """A call of as many references, each of which leads on from entry to entry, and to no name."""
    abbrev = (declaration(1, COMPILE, *PLACE, children=True) + declaration(2, SUBPROGRAM, (ORIGIN, REF4), (ORIGIN, REF4))
              + declaration(3, SUBPROGRAM, *PLACE, children=True) + declaration(4, INLINED, *PLACE, *[(ORIGIN, REF4)] * count))
    first = UNIT_HEADER + 9
    chain = b"".join(b"\2" + word(first + 9 * ((it + 1) % 20)) * 2 for it in range(20))
    entries = b"\1" + place(LOW, 99) + chain + b"\3" + place(LOW, 99) + b"\4" + place(LOW, 99) + word(first) * count + b"\0\0"
    return {"abbrev": abbrev + b"\0", "info": unit(entries)}, [LOW]


def long_entries(count):
    """Calls whose names are 16 references away, over entries of as many attributes each."""
    flags = [(0x3f, PRESENT)] * count
    abbrev = (declaration(1, COMPILE, *PLACE, children=True) + declaration(2, SUBPROGRAM, *flags, (ORIGIN, REF4))
              + declaration(3, SUBPROGRAM, *flags, (NAME, STRING)) + declaration(4, SUBPROGRAM, *PLACE, children=True)
              + declaration(5, INLINED, *PLACE, (ORIGIN, REF4)))
    first = UNIT_HEADER + 9
    chain = b"".join(b"\2" + word(first + 5 * it + 5) for it in range(15)) + b"\3f\0"
    calls = b"".join(b"\5" + place(LOW + it, 1) + word(first) for it in range(count))
    return {"abbrev": abbrev + b"\0", "info": unit(b"\1" + place(LOW, count) + chain + b"\4" + place(LOW, count) + calls + b"\0\0")}, [LOW]


def nested_blocks(count):
    """Namespaces in one another, a function in the innermost, and there blocks in one another, a call in the innermost."""
    abbrev = (declaration(1, COMPILE, *PLACE, children=True) + declaration(2, NAMESPACE, children=True)
              + declaration(3, SUBPROGRAM, *PLACE, children=True) + declaration(4, BLOCK, children=True)
              + declaration(5, INLINED, *PLACE, (NAME, STRING)))
    entries = (b"\1" + place(LOW, 9) + b"\2" * count + b"\3" + place(LOW, 9) + b"\4" * count + b"\5" + place(LOW, 9) + b"f\0"
               + b"\0" * (2 * count + 2))
    return {"abbrev": abbrev + b"\0", "info": unit(entries)}, [LOW]


def siblings(count):
    """Functions with children, the next sibling of each of which is said to be the first of all."""
    abbrev = (declaration(1, COMPILE, *PLACE, children=True) + declaration(2, SUBPROGRAM, (SIBLING, REF4), *PLACE, children=True)
              + declaration(3, INLINED, (SIBLING, REF4), *PLACE, children=True))
    first = word(UNIT_HEADER + 9)
    functions = b"".join(b"\2" + first + place(LOW + it, 1) + b"\3" + first + place(LOW + it, 1) + b"\0\0" for it in range(count))
    return {"abbrev": abbrev + b"\0", "info": unit(b"\1" + place(LOW, count) + functions + b"\0")}, spread(LOW, count)


def indirect_forms(count):
    """Functions that refer to one entry, whose value has a form as long as there are functions."""
    abbrev = (declaration(1, COMPILE, *PLACE, children=True) + declaration(2, SUBPROGRAM, *PLACE, (ORIGIN, REF4))
              + declaration(3, 0x34, (0x3f, 0x16), (NAME, STRING)))
    target = UNIT_HEADER + 9 + 13 * count
    entries = b"".join(b"\2" + place(LOW + it, 1) + word(target) for it in range(count)) + b"\3" + b"\x16" * 13 * count + b"\x0b\0f\0\0"
    return {"abbrev": abbrev + b"\0", "info": unit(b"\1" + place(LOW, count) + entries)}, spread(LOW, count)


def symbols(count):
    """Symbols, each in the one before it."""
    entries = b"\0" * 24 + b"".join(word(1) + b"\2\0\1\0" + (LOW + it).to_bytes(8, "little") + (2 * (count - it)).to_bytes(8, "little")
                                    for it in range(count))
    return {"symbols": (entries, b"\0s\0")}, spread(LOW, 2 * count)


def symbol_names(count):
    """Symbols of one name, as long as there are symbols."""
    entries = b"\0" * 24 + b"".join(word(1) + b"\2\0\1\0" + (LOW + it).to_bytes(8, "little") + b"\1" + b"\0" * 7 for it in range(count))
    return {"symbols": (entries, b"\0" + b"s" * 24 * count + b"\0")}, spread(LOW, count)


def section_names(count):
    """Sections of one name, as long as there are sections, and one of its last letter."""
    return {"names": count}, [LOW]


# The counts are such that each image has about a megabyte, or less where that took long once.
KINDS = {shared_program: 3600, shared_files: 3600, shared_ranges: 15_000, shared_function_ranges: 3600, shared_call_ranges: 3600,
         abbreviation_tails: 17_000, nested_calls: 20_000, overlapping_calls: 20_000,
         sequences: 100_000, falling_sequences: 100_000, ranges_and_sequences: 8_000,
         equal_sequences: 100_000, rows: 1_000_000, rows_back: 100_000, aranges: 20_000, aranges_of_one: 20_000,
         linked_units: 16_000, names_far_back: 20_000, reference_chains: 50_000, functions: 8_000, functions_in_sequences: 8_000,
         overlapping_functions: 50_000, nested_functions: 10_000, partial_units: 10_000,
         overlapping_units: 20_000, abbreviations: 1_000_000, falling_abbreviations: 1_000_000, mixed_abbreviations: 1_000_000,
         shared_abbreviations: 20_000, long_directory: 10_000, long_name: 20_000, rust_name: 200_000, empty_attributes: 20_000, repeated_ranges: 10_000,
         long_sequence: 20_000, skeletons: 10_000, overlapping_skeletons: 20_000, skeletons_in_a_row: 10_000, ranges_of_a_skeleton: 20_000,
         skeletons_of_a_file: 2_000, skeletons_of_no_end: 2,
         everything_shared: 16_000, units_of_elsewhere: 10_000, shared_directory: 10_000, chained_call_names: 50_000,
         call_names_across_units: 20_000, many_references: 100_000, long_entries: 5_000, nested_blocks: 200_000, siblings: 20_000,
         indirect_forms: 20_000, symbols: 50_000, symbol_names: 20_000, section_names: 16_000}
BY_NAME = {it.__name__.replace("_", "-"): it for it in KINDS}


# ---- tables: from a count to the units and the addresses that are asked for


def table_unit(low, high, **parts):
    return {"directory": "/w", "name": "a.c", "ranges": [[low, high]], "files": [{"directory": "src", "name": "a.c"}], "functions": [],
            "sequences": [], **parts}


def table_row(address, line=1):
    return {"address": address, "file": 0, "line": line, "column": 1}


def table_rows(count):
    """Rows of one sequence."""
    rows = [table_row(LOW + it, it + 1) for it in range(count)]
    return [table_unit(LOW, LOW + count, sequences=[{"rows": rows, "end": LOW + count}])], spread(LOW, count)


def shuffled(count, seed=1):
    order = list(range(count))
    random.Random(seed).shuffle(order)
    return order


def table_sequences(count):
    """Sequences of one row each, in no order."""
    sequences = [{"rows": [table_row(LOW + 4 * it)], "end": LOW + 4 * it + 4} for it in shuffled(count)]
    return [table_unit(LOW, LOW + 4 * count, sequences=sequences)], spread(LOW, 4 * count)


def table_units(count):
    """Units, in no order."""
    return [table_unit(LOW + 4 * it, LOW + 4 * it + 4) for it in shuffled(count)], spread(LOW, 4 * count)


def table_ranges(count):
    """A function of as many ranges, in no order."""
    function = {"name": "f", "ranges": [[LOW + 4 * it, LOW + 4 * it + 2] for it in shuffled(count)], "calls": []}
    return [table_unit(LOW, LOW + 4 * count, functions=[function])], spread(LOW, 4 * count)


def table_nested_calls(count):
    """Calls nested fifty deep, as often as makes that many."""
    def call(low, depth):
        return {"name": f"f{depth}", "ranges": [[low, low + 2]], "file": 0, "line": 1, "column": 1, "calls": [call(low, depth - 1)] if depth else []}

    functions = [{"name": "f", "ranges": [[LOW + 4 * it, LOW + 4 * it + 2]], "calls": [call(LOW + 4 * it, 49)]} for it in range(count // 50)]
    return [table_unit(LOW, LOW + 4 * count, functions=functions)], spread(LOW, 4 * (count // 50))


def table_names(count):
    """Calls of names that differ in their ends alone, each as long as a hundredth of their number."""
    calls = [{"name": f"{'n' * (count // 100)}{it}", "ranges": [[LOW + 4 * it, LOW + 4 * it + 2]], "file": 0, "line": 1, "column": 1, "calls": []}
             for it in range(count)]
    function = {"name": "f", "ranges": [[LOW, LOW + 4 * count]], "calls": calls}
    return [table_unit(LOW, LOW + 4 * count, functions=[function])], spread(LOW, 4 * count)


def table_files(count):
    """Files of directories that differ in their ends alone."""
    files = [{"directory": f"{'d' * 60}/{it}", "name": "a.c"} for it in range(count)]
    rows = [{"address": LOW + it, "file": it, "line": 1, "column": 1} for it in range(count)]
    return [table_unit(LOW, LOW + count, files=files, sequences=[{"rows": rows, "end": LOW + count}])], spread(LOW, count)


def table_brackets(count):
    """Brackets in one another, which are no table."""
    return "[" * count + "]" * count, [LOW]


TABLES = {table_rows: 100_000, table_sequences: 20_000, table_units: 20_000, table_ranges: 20_000, table_nested_calls: 50_000,
          table_names: 10_000, table_files: 20_000, table_brackets: 1_000_000}
KINDS.update(TABLES)
BY_NAME.update({it.__name__.replace("_", "-"): it for it in TABLES})


# ---- images


def elf(sections):
    if "symbols" in sections:
        return image_with_symbols(*sections["symbols"])
    if "names" in sections:
        return image_with_names(sections["names"])
    return image_of(sections, True, False)


def header(kind, name, place, size, link=0, entry=0):
    numbers = (name, 4), (kind, 4), (0, 8), (0, 8), (place, 8), (size, 8), (link, 4), (0, 4), (1, 8), (entry, 8)
    return b"".join(number.to_bytes(width, "little") for number, width in numbers)


def file_header(table, count, names):
    fields = (2, 2), (62, 2), (1, 4), (0, 8), (0, 8), (table, 8), (0, 4), (64, 2), (0, 2), (0, 2), (64, 2), (count, 2), (names, 2)
    return b"\x7fELF\2\1\1" + b"\0" * 9 + b"".join(number.to_bytes(width, "little") for number, width in fields)


def image_with_symbols(entries, strings):
    names = b"\0"
    body = entries + strings + names
    headers = [header(0, 0, 0, 0), header(2, 0, 64, len(entries), 2, 24), header(3, 0, 64 + len(entries), len(strings)),
               header(3, 0, 64 + len(entries) + len(strings), len(names))]
    return file_header(64 + len(body), len(headers), 3) + body + b"".join(headers)


# The name of the last of many sections, which is the end of that of the others.
LAST_SECTION = "n"


def image_with_names(count):
    names = b"\0" + LAST_SECTION.encode() * 64 * count + b"\0"
    headers = [header(0, 0, 0, 0)] + [header(1, 1, 64, 0)] * count + [header(3, len(names) - 1 - len(LAST_SECTION), 64, len(names))]
    return file_header(64 + len(names), len(headers), len(headers) - 1) + names + b"".join(headers)


# ---- measuring


def run(words, limits):
    """The processor seconds and the megabytes that a process takes, and its status; none where it takes more seconds than it may."""
    def limit():
        for kind, most in limits.items():
            resource.setrlimit(kind, (most, most))

    with open(os.devnull, "w+b") as nothing:
        child = subprocess.Popen(words, stdin=nothing, stdout=nothing, stderr=nothing, preexec_fn=limit)
        _, status, usage = os.wait4(child.pid, 0)
    child.returncode = os.waitstatus_to_exitcode(status)
    if child.returncode in (-signal.SIGXCPU, -signal.SIGKILL):
        return None
    return usage.ru_utime + usage.ru_stime, usage.ru_maxrss / 1024, child.returncode


def text_of(one, two):
    """What two runs took, the second at twice the count, and the growth; or what the first took, where the second didn't end well."""
    if one is None:
        return f"{'too long':>36}"
    if two is None or two[2] != 0:
        why = "too long" if two is None else f"status {two[2]}"
        half = f"{one[0]:.2f} s {one[1]:.0f} MB" + (f" status {one[2]}" if one[2] else "")
        return f"{f'half: {half}, whole: {why}':>36}"
    return f"{two[0]:8.2f} s {two[1]:7.0f} MB {two[0] / max(one[0], 0.01):5.1f} x         "


def words_for(what, path, asked):
    """What is asked of a file, after the program, and of an image after the subcommand too."""
    if what in OF_UNITS:
        return [path, os.environ.get("READER", "slice"), what, *([f"{path}.asked"] if what in OF_ADDRESSES else [])]
    if what == "ask":
        return ["ask", path, *asked]
    if what == "emit":
        return ["emit", path, os.devnull]
    more = {"frames": ["-fiC", *asked], "all": ["--all"], "section": ["--section", LAST_SECTION, *asked]}
    return ["-e", path, *more[what]]


def questions_about(kind):
    """What is asked of files of a kind."""
    if kind in TABLES:
        return "ask", "emit"
    return "frames", "all", *(["section"] if kind == section_names else []), *OF_UNITS


# What linemap_bench asks of a context: of each address, and of all units.
OF_ADDRESSES = "places", "loads", "unit"
OF_UNITS = *OF_ADDRESSES, "lines", "functions", "calls"


def measure(counts):
    own = os.environ.get("LINEMAP", f"{TOP}/crates/linemap_program/out/linemap_program lookup").split()
    peer = os.environ.get("PEER", "").split()
    scale = float(os.environ.get("SCALE", 1))
    limits = {resource.RLIMIT_CPU: int(os.environ.get("LIMIT", 60)), resource.RLIMIT_AS: int(os.environ.get("MEMORY", 4000)) << 20}
    programs = {"own": own, **({"peer": peer} if peer else {})}
    table_programs = {"own": own[:-1]}
    unit_programs = {"own": os.environ.get("BENCH", f"{TOP}/crates/linemap_bench/out/linemap_bench image").split()}
    wanted = os.environ.get("ASK", "").split()
    print(f"{'kind':24} {'KB':>6} {'asked':9} " + " ".join(f"{it + ': seconds, memory, growth':36}" for it in programs))
    with tempfile.TemporaryDirectory() as folder:
        for name, whole in counts:
            kind, sizes, lists = BY_NAME[name], [], []
            for part in (2, 1):
                path, count = f"{folder}/{part}", max(2, int(whole * scale / part))
                # (by a process of its own, since those that are measured begin with the peak memory of this one)
                made = subprocess.run([sys.executable, __file__, "make", name, str(count), path], check=True, stdout=subprocess.PIPE)
                sizes.append((path, os.path.getsize(path)))
                lists.append(made.stdout.decode().split())
                with open(f"{path}.asked", "w") as file:
                    file.write("\n".join(lists[-1]))
            for what in questions_about(kind):
                if wanted and what not in wanted:
                    continue
                found = []
                for program in (table_programs if kind in TABLES else unit_programs if what in OF_UNITS else programs).values():
                    words = [[*program, *words_for(what, path, asked)] for (path, _), asked in zip(sizes, lists)]
                    one = run(words[0], limits)
                    found.append(text_of(one, one and run(words[1], limits)))
                print(f"{name:24} {sizes[1][1] // 1000:6} {what:9} " + " ".join(f"{it:36}" for it in found), flush=True)


def counts_of(words):
    """The kinds of words, each with a count; all of them where there are no words; none where a word is no kind."""
    found = []
    for word in words or BY_NAME:
        name, _, count = word.partition("=")
        if name not in BY_NAME or not (count or "1").isdecimal():
            return None
        found.append((name, int(count or KINDS[BY_NAME[name]])))
    return found


def main():
    words = sys.argv[1:]
    if words == ["list"]:
        for name, kind in BY_NAME.items():
            print(f"{name:24} {KINDS[kind]:9,}  {kind.__doc__}")
    elif len(words) == 4 and words[0] == "make" and words[1] in BY_NAME:
        made, asked = BY_NAME[words[1]](int(words[2]))
        with open(words[3], "wb") as file:
            if BY_NAME[words[1]] not in TABLES:
                file.write(elf(made))
            else:
                file.write((made if isinstance(made, str) else json.dumps({"units": made}, separators=(",", ":"))).encode())
        print(*[f"{it:x}" for it in asked])
    elif words[:1] == ["measure"] and counts_of(words[1:]):
        measure(counts_of(words[1:]))
    else:
        return __doc__
    return 0


if __name__ == "__main__":
    sys.exit(main())
