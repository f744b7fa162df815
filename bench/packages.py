#!/usr/bin/env python3
"""Looks addresses up in the files of Debian's debug packages, as they are packed, and compares the answers with those for the
files that objcopy decompresses, without options.

usage: bench/packages.py PROGRAM FOLDER [FILES]      FILES of each package at most, 40 where none is named

FOLDER has packages, as `apt-get download libc6 libc6-dbg` leaves them: debug packages, whose names end in -dbg or -dbgsym, and
those with the programs. They are unpacked into FOLDER/root. Of each debug file up to 120 addresses where functions begin are
looked up, and as many within functions, with functions, inlined calls and addresses printed:

    decompressed   lookup -e FILE --decompress [--sup SUPPLEMENT]
    found          lookup -e PROGRAM --find-debug --debug-dir ..; a supplement is found by its identifier, for which the packages
                   have no name, so that a link is made

Then the file and line of each address, without directories, are compared with those of eu-addr2line and GNU's addr2line, for
the decompressed file. A line for each package says how many addresses were equal, of how many.
"""
import os
import random
import re
import subprocess
import sys
import tempfile

ADDRESSES = 120
SEED = 7


def output(*words, data=None):
    return subprocess.run(words, input=data, stdout=subprocess.PIPE, stderr=subprocess.DEVNULL, text=True, errors="replace").stdout


def lookup(*words):
    run = subprocess.run([PROGRAM, "lookup", *words], stdin=subprocess.DEVNULL, capture_output=True)
    return run.returncode, run.stdout, run.stderr


def build_id(path):
    found = re.search(r"Build ID: ([0-9a-f]+)", output("readelf", "-nW", path))
    return found and found[1]


def elf_files(top):
    for folder, _, names in os.walk(top):
        for name in names:
            path = os.path.join(folder, name)
            if os.path.isfile(path) and not os.path.islink(path):
                with open(path, "rb") as file:
                    if file.read(4) == b"\x7fELF":
                        yield path


def unpack(folder):
    """Returns the folders of the packages, each by its name."""
    roots = {}
    for name in sorted(os.listdir(folder)):
        if name.endswith(".deb"):
            root = f"{folder}/root/{name.split('_')[0]}"
            if not os.path.isdir(root):
                os.makedirs(root)
                subprocess.run(["dpkg", "-x", f"{folder}/{name}", root], check=True)
            roots[name.split("_")[0]] = root
    return roots


def supplement_of(debug_file, root, work):
    """Returns the path of a file's supplement, to which its identifier leads then, and its decompressed copy."""
    section = f"{work}/link"
    subprocess.run(["objcopy", "-O", "binary", "--only-section=.gnu_debugaltlink", "--set-section-flags",
                    ".gnu_debugaltlink=alloc", debug_file, section], check=True)
    with open(section, "rb") as file:
        name, _, identifier = file.read().partition(b"\0")
    name, identifier = name.decode(), identifier.hex()
    path = root + name if name.startswith("/") else os.path.join(os.path.dirname(debug_file), name)
    link = f"{root}/usr/lib/debug/.build-id/{identifier[:2]}/{identifier[2:]}.debug"
    if not os.path.lexists(link):
        os.makedirs(os.path.dirname(link), exist_ok=True)
        os.symlink(os.path.abspath(path), link)
    plain = f"{work}/{identifier}"
    if not os.path.exists(plain):
        subprocess.run(["objcopy", "--decompress-debug-sections", path, plain], check=True)
    return path, plain


def addresses_of(path):
    found = {int(line.split()[0], 16) for line in output("nm", path).splitlines() if re.match(r"[0-9a-f]+ [tTwWiu] ", line)}
    begins = random.sample(sorted(found), min(len(found), ADDRESSES))
    return [f"{a:#x}" for a in begins + [a + random.randrange(1, 200) for a in begins]]


def places(text):
    """The file and line of each address; a question mark where there is none."""
    found = []
    for line in text.splitlines():
        name, _, number = re.sub(r" \(discriminator \d+\)$", "", line).partition(":")
        found.append(f"{name}:{number.split(':')[0]}".replace(":0", ":?"))
    return found


class Package:
    def __init__(self):
        self.files = self.compressed = self.supplements = self.addresses = self.decompressed = 0
        self.programs = self.program_addresses = self.found = self.elfutils = self.gnu = 0

    def try_file(self, debug_file, program, root, work):
        sections = output("readelf", "-SW", debug_file)
        if ".debug_info" not in sections:
            return
        plain, more, plain_more = f"{work}/plain", [], []
        subprocess.run(["objcopy", "--decompress-debug-sections", debug_file, plain], check=True)
        self.files += 1
        self.compressed += bool(re.search(r" \.debug_info .* C ", sections))
        if ".gnu_debugaltlink" in sections:
            path, plain_path = supplement_of(debug_file, root, work)
            more, plain_more = ["--sup", path], ["--sup", plain_path]
            self.supplements += 1
        words = addresses_of(plain)
        if not words:
            return
        wanted = lookup("-e", plain, *plain_more, "-afi", *words)
        self.addresses += len(words)
        self.compare("decompressed", len(words), wanted, "-e", debug_file, *more, "--decompress", "-afi", *words)
        if program:
            self.programs += 1
            self.program_addresses += len(words)
            folder = f"{root}/usr/lib/debug"
            self.compare("found", len(words), wanted, "-e", program, "--find-debug", "--debug-dir", folder, "-afi", *words)
        own = places(lookup("-e", plain, *plain_more, "-s", *words)[1].decode(errors="replace"))
        for name, tool in ("elfutils", "eu-addr2line"), ("gnu", "addr2line"):
            others = places(output(tool, "-s", "-e", plain, data="\n".join(words) + "\n"))
            setattr(self, name, getattr(self, name) + sum(a == b for a, b in zip(own, others)))

    def compare(self, name, count, wanted, *words):
        found = lookup(*words)
        if found == wanted:
            setattr(self, name, getattr(self, name) + count)
        else:
            print(f"    {name} differs: {' '.join(words)[:200]}: {found[0]} {found[2][:200]}; {wanted[0]} {wanted[2][:200]}")

    def line(self, name):
        return (f"{name:30} {self.files:4} files, {self.compressed} compressed, {self.supplements} with a supplement; decompressed "
                f"{self.decompressed} of {self.addresses}; found {self.found} of {self.program_addresses} in {self.programs} programs; "
                f"eu-addr2line {self.elfutils}, addr2line {self.gnu}")


if len(sys.argv) not in (3, 4):
    sys.exit(__doc__)
PROGRAM, FOLDER = os.path.abspath(sys.argv[1]), os.path.abspath(sys.argv[2])
MOST = int(sys.argv[3]) if len(sys.argv) > 3 else 40
random.seed(SEED)
ROOTS = unpack(FOLDER)
IS_DEBUG = re.compile(r"-dbg(sym)?$")
PROGRAMS = {build_id(path): path for name, root in ROOTS.items() if not IS_DEBUG.search(name) for path in elf_files(root)}
PROGRAMS.pop(None, None)
total = Package()
with tempfile.TemporaryDirectory(prefix="packages-") as work:
    for name, root in ROOTS.items():
        if IS_DEBUG.search(name):
            package = Package()
            for path in sorted(elf_files(root)):
                if "/.dwz/" not in path and package.files < MOST:
                    package.try_file(path, PROGRAMS.get(build_id(path)), root, work)
            print(package.line(name), flush=True)
            for field in vars(total):
                setattr(total, field, getattr(total, field) + getattr(package, field))
print(total.line("all"))
