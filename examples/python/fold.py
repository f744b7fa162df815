#!/usr/bin/env python3
"""Folds stacks of addresses for a flame graph, with the calls that are inlined.

usage: fold.py FILE [--base ADDRESS] [--outermost-first] [--exact] < STACKS

Each line of STACKS is a stack: addresses in hexadecimal, the innermost first, unless the option says otherwise. Each line that
is printed has the names of a stack's functions, the outermost first, with `;` between them, and how many stacks are the same.
FILE is the ELF file of the program. With `--base`, addresses are those of a running program whose file is mapped from ADDRESS
on. All but the innermost are return addresses, so 1 is subtracted to find the call; with `--exact` they are taken as they are.
Addresses outside of the program's code, such as those of shared libraries, are `[unknown]`. Names of C++ stay as they are:
c++filt demangles them.
"""
import argparse
import collections
import functools
import sys

import addr2line

# The sections of code. Elsewhere a symbol says nothing: one without a size holds all addresses after it.
CODE = ".init", ".plt", ".plt.got", ".plt.sec", ".text", ".fini"


def words():
    parser = argparse.ArgumentParser(description=__doc__.splitlines()[0])
    parser.add_argument("file")
    parser.add_argument("--base", type=lambda text: int(text, 16), default=0)
    parser.add_argument("--outermost-first", action="store_true")
    parser.add_argument("--exact", action="store_true")
    return parser.parse_args()


class Folder:
    """Names of functions by address."""

    def __init__(self, image):
        self.image = image
        self.code = [it for it in map(image.section, CODE) if it]
        self.names = functools.lru_cache(None)(self.find_names)

    def find_names(self, address):
        """The names of an address, the outermost first."""
        try:
            names = [it.function or "??" for it in self.image.frames(address)]
        except addr2line.Refused as refused:
            print(f"0x{address:x}: {refused}", file=sys.stderr)
            names = []
        if not names or names == ["??"]:
            symbol = self.image.symbol(address) if any(address in it for it in self.code) else None
            names = [symbol.name if symbol else "[unknown]"]
        return [it.replace(";", ":") for it in reversed(names)]

    def fold(self, addresses):
        """The names of a stack's addresses, the outermost first."""
        return ";".join(name for it in addresses for name in self.names(it))


def main():
    options = words()
    try:
        fold_lines(options)
    except (OSError, addr2line.Refused) as error:
        sys.exit(f"fold.py: {options.file}: {error}")


def fold_lines(options):
    """Folds the stacks of the standard input."""
    counts = collections.Counter()
    with addr2line.open(options.file) as image:
        folder = Folder(image)
        for number, line in enumerate(sys.stdin, 1):
            try:
                addresses = [int(it, 16) - options.base for it in line.replace(";", " ").split()]
            except ValueError:
                print(f"fold.py: line {number}: no hexadecimal addresses: {line.strip()}", file=sys.stderr)
                continue
            if options.outermost_first:
                addresses.reverse()
            if not options.exact:
                addresses[1:] = [it - 1 for it in addresses[1:]]
            if addresses:
                counts[folder.fold(it % 2**64 for it in reversed(addresses))] += 1
    for stack, count in sorted(counts.items()):
        print(stack, count)


if __name__ == "__main__":
    main()
