#!/usr/bin/env python3
"""Damaged debug information, made at random, through the built programs.

usage: bench/fuzz.py MINUTES [FOLDER]

The seeds are what is emitted of tables, in each of the 28 targets, the files that linemap_cases is asked about, and the
images of FOLDER. They are mutated: bits are flipped, bytes cut out, put in and copied from other seeds, numbers set to
extremes. Six things are done with them, in turn, until the time is up:

- sections: thousands of files go through one process of `linemap_cases`, each through both readers and all three
  constructors; what it answers must be what tests/model.py computes.
- images: the same for images in memory, through a loader. Where the image is whole and its sections alone are damaged,
  the answers must be the model's.
- lookup: `linemap lookup` reads the image of a file, and its answers must be the model's too. `linemap_bench` reads the
  same image, once through each reader, and both must answer alike.
- beside: `linemap lookup` reads an image that is whole, and a split file or a supplement of it that isn't. What a split
  file says may change no place.
- compressed: `linemap lookup --decompress` reads an image whose sections are zlib's streams, in the standard's form or in
  GNU's old one, some of them damaged. Its answers
  must be the model's over the texts that Python's zlib has, or a refusal where that has none.
- linked: `linemap lookup --find-debug` reads a program that names a damaged debug file by `.gnu_debuglink`. Where the sum is that
  file's, the answers must be the model's over it; where it isn't, there are none.

A file may take 10 seconds of a processor, and 30 times its size and 100 MB; its process must end with status 0 or 1. Many files
in one process may take together what one may, the largest of them; if they don't, halves of them run, down to one file.
PROCESSES of this run side by side, one where it isn't set. Each begins with a random seed of its own, SEED-1, SEED-2 and so on,
and writes what doesn't hold to a folder of its own, FINDS/1, FINDS/2 and so on (./finds where FINDS isn't set). The last line says
how many of each all of them ran, and how much they found.
CASES, LINEMAP and BENCH name other programs. Where CASES is empty there are only lookups and files beside; where LINEMAP is
empty there are none, and the seeds come from SECTIONS, a folder of images; where BENCH is empty the readers aren't compared.
"""
import concurrent.futures
import itertools
import json
import math
import os
import random
import resource
import shutil
import signal
import struct
import subprocess
import sys
import tempfile
import time
import zlib
from typing import NamedTuple

sys.dont_write_bytecode = True
TOP = os.path.dirname(os.path.dirname(os.path.abspath(__file__)))
sys.path.insert(0, f"{TOP}/tests")
import cases
from cases import NAMES
from images import image_of, image_with, sections_of
from model import LIMIT, Model, Refused

CASES = os.environ.get("CASES", f"{TOP}/crates/linemap_cases/out/linemap_cases")
LINEMAP = os.environ.get("LINEMAP", f"{TOP}/crates/linemap_program/out/linemap_program")
BENCH = os.environ.get("BENCH", f"{TOP}/crates/linemap_bench/out/linemap_bench")
FINDS = os.environ.get("FINDS", "finds")
# Files in one process.
CHUNK = 500
SECONDS, FACTOR, MEGABYTES = 10, 30, 100
# Larger seeds aren't mutated section by section.
SMALL = 20_000
# The flag of a compressed section, the type of zlib's streams, and the fields before one, in images of 64 and of 32 bits.
COMPRESSED, ZLIB, STREAM_HEADERS = 0x800, 1, {True: "IIQQ", False: "III"}
# The bytes with which a section of GNU's old form begins, before its size.
OLD_MAGIC = b"ZLIB"
EXTREMES = 0, 1, 2, 3, 4, 5, 0x7f, 0x80, 0xff, 0x7fff, 0xffff, 0x7fffffff, 0xfffffff0, 0xffffffff, 1 << 63, (1 << 64) - 2, (1 << 64) - 1


# ---- seeds


def tables(random):
    """The tables of examples/, and one of several units, files, nested calls and sequences."""
    for name in "a", "c":
        with open(f"{TOP}/examples/{name}.json", encoding="utf-8") as file:
            yield json.load(file)

    def call(low, high, depth):
        inner = [call(low + 4, high - 4, depth - 1)] if depth and high - low > 16 else []
        return {"name": random.choice("fgh"), "ranges": [[low, high]], "file": random.randrange(2), "line": random.randrange(1, 99),
                "column": random.randrange(1, 9), "calls": inner}

    units = []
    for number in range(3):
        base = 0x1000 + 0x100 * number
        rows = [{"address": base + 8 * row, "file": row % 2, "line": row + 1, "column": 1 + row % 7, "statement": row % 3 > 0,
                 "discriminator": row % 4} for row in range(24)]
        functions = [{"name": f"function{number}", "ranges": [[base, base + 0x40], [base + 0x80, base + 0x90]],
                      "calls": [call(base + 4, base + 0x3c, 4)]},
                     {"name": "leaf", "ranges": [[base + 0x48, base + 0x60]], "calls": []}]
        units.append({"directory": f"/d{number}", "name": "main.c", "ranges": [[base, base + 0xc8]],
                      "files": [{"directory": "src", "name": "a.c"}, {"directory": f"/d{number}", "name": "b.h"}],
                      "functions": functions,
                      "sequences": [{"rows": rows[:12], "end": base + 0x60}, {"rows": rows[12:], "end": base + 0xc8}]})
    yield {"units": units}


def emitted(random, folder):
    """What is emitted of the tables, in each target."""
    for number, table in enumerate(tables(random)):
        path = f"{folder}/{number}.json"
        with open(path, "w", encoding="utf-8") as file:
            json.dump(table, file)
        for version, bits, size, order in itertools.product("2345", ("32", "64"), "48", ([], ["--big"])):
            if (version, bits) != ("2", "64"):
                words = ["emit", path, f"{folder}/emitted", "--dwarf", version, "--bits", bits, "--size", size, *order]
                subprocess.run([LINEMAP, *words], check=True)
                with open(f"{folder}/emitted", "rb") as image:
                    yield image.read()


def of_cases():
    """The files that linemap_cases is asked about, as images: what no table has, such as references between units."""
    for sections in cases.asked():
        yield image_of(sections, True, False)
    yield from files_below(f"{cases.CRATE}/data")


def files_below(folder):
    for at, _, names in sorted(os.walk(folder)):
        for name in sorted(names):
            with open(f"{at}/{name}", "rb") as file:
                image = file.read()
            if image[:4] == b"\x7fELF":
                yield image


def pairs():
    """Images that name another file: the image, that file's name and bytes, the words of `lookup` for it, and addresses."""
    found = cases.files()
    whole, other = (image_of(found[it], True, False) for it in ("with_supplement", "supplement"))
    yield whole, "other", other, ["--sup", "other"], (0x3f, 0x40, 0x44, 0x5f)
    split = [it for it in files_below(f"{cases.CRATE}/data") if b"split.dwo" in it][0]
    for name in "split.dwo", "cut.dwo", "other.dwo", "indexed.dwo":
        with open(f"{cases.CRATE}/data/{name}", "rb") as file:
            yield split, "split.dwo", file.read(), [], (0xfff, 0x1000, 0x1003, 0x1007)


class Seed:
    """An image, taken apart where it is small."""

    def __init__(self, image):
        self.image, self.wide = image, image[4:5] == b"\2"
        self.big, self.sections = False, {}
        try:
            self.big, found = sections_of(image)
            self.sections = {name: content for name, (content, _) in found.items()}
        except Exception:
            pass
        self.is_small = 0 < sum(map(len, self.sections.values())) < SMALL
        # Addresses in its ranges and beside them.
        self.addresses = [0, 1, 0xfff, 0xfffffffd, LIMIT - 1]
        if self.is_small:
            made = Model(self.sections, self.big).made
            for low, high in [] if isinstance(made, Refused) else {it for unit in made for it in unit.ranges}:
                near = low - 1, low, low + 4, (low + high) // 2, high - 4, high - 1, high
                self.addresses += [it for it in near if 0 <= it < LIMIT]


# ---- mutations


def mutate(random, content, others):
    """A mutation of some bytes."""
    content = bytearray(content)
    for _ in range(random.choice((1, 1, 1, 1, 2, 3, 8))):
        at = random.randrange(len(content) + 1)
        count = random.choice((1, 1, 2, 4, 8, random.randrange(1, 64)))
        what = random.choice((0, 0, 0, 1, 1, 1, 2, 2, 3, 4, 5, 6, 7))
        if what == 0 and at < len(content):
            content[at] ^= 1 << random.randrange(8)
        elif what == 1 and at < len(content):
            content[at] = random.choice((0, 1, 0x7f, 0x80, 0xff, random.randrange(256)))
        elif what == 2:
            width = random.choice((1, 2, 4, 8))
            number = random.choice(EXTREMES) % (1 << 8 * width)
            content[at:at + width] = number.to_bytes(width, random.choice(("little", "big")))
        elif what == 3:
            del content[at:at + count]
        elif what == 4:
            content[at:at] = content[random.randrange(len(content) + 1):][:count]
        elif what == 5:
            other = random.choice(others)
            from_ = random.randrange(len(other) + 1)
            content[at:at + count * random.randrange(2)] = other[from_:from_ + count]
        elif what == 6:
            del content[at:]
        else:
            content[at:at] = bytes([random.choice((0x80, 0xff))] * random.randrange(1, 12)) + b"\1" * random.randrange(2)
    return bytes(content)


def parts(content, big):
    """A section cut into what begins with a length: the lengths' bytes, and what they count."""
    order, found = "big" if big else "little", []
    while len(content) > 12:
        wide = content[:4] == b"\xff" * 4
        first, width = (12, 8) if wide else (4, 4)
        end = first + int.from_bytes(content[first - width:first], order)
        if not first < end <= len(content):
            break
        found.append((content[:first], content[first:end]))
        content = content[end:]
    return found, content


def mutate_part(random, content, others, big):
    """A mutation of one of the parts of a section, whose length is set to what there is, most times."""
    found, rest = parts(content, big)
    if not found or not random.randrange(8):
        return mutate(random, content, others)
    place = random.randrange(len(found))
    length, body = found[place]
    body = mutate(random, body, others)
    if random.randrange(8):
        width = 8 if len(length) == 12 else 4
        length = length[:-width] + len(body).to_bytes(width, "big" if big else "little")
    found[place] = length, body
    return b"".join(length + body for length, body in found) + rest


def aranges(random, seed):
    """Address ranges of a unit."""
    order = "big" if seed.big else "little"
    number = lambda width, value: value.to_bytes(width, order)
    size = random.choice((4, 8))
    pairs = b"".join(number(size, random.choice((0, 0x1000, 0x1010, 0x1018, (1 << 8 * size) - 2, random.randrange(1 << 16))))
                     for _ in range(2 * random.randrange(4)))
    body = number(2, 2) + number(4, random.choice((0, 0, random.randrange(99)))) + bytes([size, 0]) + b"\0" * 4 + pairs
    return number(4, len(body)) + body


def damaged(random, seed, seeds):
    """Sections of a seed, of which some are damaged."""
    sections = dict(seed.sections)
    if not random.randrange(8):
        sections["aranges"] = aranges(random, seed)
    for name in random.sample(sorted(sections), min(len(sections), random.choice((1, 1, 1, 2)))):
        others = [content for other in random.sample(seeds, 2) for content in other.sections.values()] + [b"\0"]
        same = [other.sections[name] for other in random.sample(seeds, 2) if name in other.sections]
        content = random.choice(same) if same and not random.randrange(12) else sections[name]
        is_cut = name in ("info", "line", "aranges", "rnglists")
        sections[name] = mutate_part(random, content, others, seed.big) if is_cut else mutate(random, content, others)
    return sections


def compressed_section(random, text, wide, big, is_old):
    """A section whose text is compressed by zlib, at some level, in the standard's form or in GNU's old one."""
    stream = zlib.compress(text, random.choice((0, 1, 6, 9)))
    if is_old:
        return OLD_MAGIC + len(text).to_bytes(8, "big") + stream
    size = (ZLIB, 0, len(text), 1) if wide else (ZLIB, len(text), 1)
    return struct.pack((">" if big else "<") + STREAM_HEADERS[wide], *size) + stream


def text_of_section(content, wide, big, is_old):
    """The text of a compressed section, as zlib has it: none where it has no stream, or one of another size. What follows a stream
    isn't looked at. One of the old form that doesn't begin as such is taken as it is."""
    if is_old and content[:4] != OLD_MAGIC:
        return content
    header = struct.Struct(">4sQ" if is_old else (">" if big else "<") + STREAM_HEADERS[wide])
    if len(content) < header.size:
        return None
    kind, *fields = header.unpack_from(content)
    size = fields[0] if is_old else fields[-2]
    if not is_old and kind != ZLIB:
        return None
    inflater = zlib.decompressobj()
    try:
        text = inflater.decompress(content[header.size:], min(size + 1, 1 << 30))
    except zlib.error:
        return None
    return text if inflater.eof and len(text) == size else None


def addresses(random, seed):
    return [random.choice(seed.addresses) for _ in range(4)]


# ---- processes


class Process:
    """A process that was run over input: its status, its output, and its greatest memory. It is late after some seconds of a
    processor, or where it waits for much longer."""

    def __init__(self, words, text, seconds, megabytes, folder):
        self.is_late = False
        limit = math.ceil(seconds)
        with open(f"{folder}/out", "w+b") as out, open(f"{folder}/err", "w+b") as err, open(f"{folder}/in", "w+b") as given:
            given.write(text)
            given.seek(0)
            # (by way of `time`: a process begins with the peak memory of the one that starts it, which here is large)
            timed = ["/usr/bin/time", "-q", "-f", "%M", "-o", "memory", *words]
            run = subprocess.Popen(timed, stdin=given, stdout=out, stderr=err, cwd=folder, start_new_session=True,
                                   preexec_fn=lambda: resource.setrlimit(resource.RLIMIT_CPU, (limit, limit + 1)))
            try:
                run.wait(100 * seconds)
            except subprocess.TimeoutExpired:
                self.is_late = True
                os.killpg(run.pid, signal.SIGKILL)
                run.wait()
            out.seek(0)
            err.seek(0)
            self.out, self.err = out.read().decode("utf-8", "replace"), err.read().decode("utf-8", "replace")
        self.status = run.returncode
        self.is_late |= self.status in (128 + signal.SIGXCPU, 128 + signal.SIGKILL)
        with open(f"{folder}/memory", encoding="utf-8") as file:
            self.memory = 0 if self.is_late else int(file.read().split()[-1]) / 1024
        self.is_big = self.memory > megabytes

    def fault(self, statuses=(0,)):
        if self.is_late:
            return "took too long"
        if self.status not in statuses:
            return f"ended with status {self.status}"
        return f"took {self.memory:.0f} MB" if self.is_big else None


class Case(NamedTuple):
    """What is asked of a file in a process with others."""
    lines: str
    # None where it isn't known.
    answer: str | None
    # The bytes of the file.
    size: int
    # The paragraph of the file that it is like, where it is one of sections.
    like: str = ""
    # The file, where it is an image.
    images: tuple = ()


class Fuzzer:
    def __init__(self, minutes, seeds, folder, finds, random):
        """Of several seeds with the same bytes one is taken."""
        self.end = time.monotonic() + 60 * minutes
        self.finds_folder = finds
        self.seeds, self.folder, self.random = [*{it.image: it for it in seeds}.values()], folder, random
        self.small = [it for it in self.seeds if it.is_small]
        self.little = [it for it in self.small if not it.big]
        self.pairs = [*pairs()]
        self.ran = dict.fromkeys(("sections", "images", "lookups", "files beside", "compressed files", "linked files"), 0)
        self.finds = 0

    def find(self, why, text, *files):
        """Keeps what doesn't hold."""
        self.finds += 1
        folder = f"{self.finds_folder}/{self.finds}"
        os.makedirs(folder, exist_ok=True)
        with open(f"{folder}/why", "w", encoding="utf-8") as file:
            print(why, file=file)
        with open(f"{folder}/case", "wb") as file:
            file.write(text)
        for number, content in enumerate(files):
            with open(f"{folder}/image{number}", "wb") as file:
                file.write(content)
        print(f"find {folder}: {why[:400]}", flush=True)

    def run_chunk(self, cases):
        """Runs cases in one process, and finds what doesn't hold."""
        text = text_of(cases)
        run = Process([CASES], text, SECONDS, MEGABYTES + FACTOR * max(it.size for it in cases) / 1e6, self.folder)
        if not run.fault() and run.out == "".join(f"{it.answer}\n\n" for it in cases):
            return
        if run.fault() and len(cases) > 1:
            half = len(cases) // 2
            self.run_chunk(cases[:half])
            self.run_chunk(cases[half:])
        elif run.fault():
            self.find(run.fault(), text, *cases[0].images)
        else:
            self.compare(cases, run.out)

    def compare(self, cases, out):
        """Finds the cases that aren't answered as they should be."""
        for case in cases:
            end = out.find("\n\n") + 2
            if case.answer is not None and not out.startswith(f"{case.answer}\n\n"):
                self.find(f"answered\n{out[:end - 2]}\nand not\n{case.answer}", text_of([case]), *case.images)
            elif case.answer is not None:
                end = len(case.answer) + 2
            out = out[end:]
        if out:
            self.find(f"answered more: {out[:200]}", b"")

    # ---- what is run

    def sections(self):
        """Damaged sections, through contexts."""
        cases, names = [], {}
        for _ in range(CHUNK):
            seed = self.random.choice(self.little)
            name = names.setdefault(id(seed), f"seed{len(names)}")
            like = "\n".join([f"file {name}", *(f"{it} {content.hex()}".rstrip() for it, content in seed.sections.items())])
            sections = damaged(self.random, seed, self.small)
            changed = [it for it in NAMES if sections.get(it) != seed.sections.get(it)]
            lines = [f"context {name}"] + [f"{it} {sections.get(it, b'').hex()}".rstrip() for it in changed]
            asked = questions(Model(sections), addresses(self.random, seed))
            lines, answer = "\n".join(lines + [it for it, _ in asked]), "\n".join(f"{it}: {answer}" for it, answer in asked)
            cases.append(Case(lines, answer, sum(map(len, sections.values())), like))
        self.run_chunk(cases)
        self.ran["sections"] += len(cases)

    def images(self):
        """Damaged images, through loaders."""
        cases = []
        for number in range(CHUNK // 5):
            asked = answers = None
            if self.random.randrange(3):
                seed = self.random.choice(self.small)
                sections = damaged(self.random, seed, self.small)
                image = image_of(sections, seed.wide, seed.big)
                answers = self.loader_answers(image, seed)
                asked = [it for it, _ in answers]
            else:
                seed = self.random.choice(self.seeds)
                image = mutate(self.random, seed.image, [it.image for it in self.random.sample(self.seeds, 2)])
                asked = [f"{word} {address:#x}" for address in addresses(self.random, seed) for word in ("place", "frames", "symbol")]
            with open(f"{self.folder}/image{number}", "wb") as file:
                file.write(image)
            answer = answers and "\n".join(f"{it}: {found}" for it, found in answers)
            cases.append(Case("\n".join([f"bytes image{number}", *asked]), answer, len(image), images=(image,)))
        self.run_chunk(cases)
        self.ran["images"] += len(cases)

    def loader_answers(self, image, seed):
        """What a loader answers over an image's sections, whose places are those in the image."""
        model = model_of(image)
        asked = questions(model, addresses(self.random, seed), is_loader=True)
        if isinstance(model.made, Refused):
            return [(it, f"L8 {model.made.args[0]}") for it, _ in asked]
        return asked

    def lookups(self):
        """Damaged images, each through the program."""
        for _ in range(20):
            is_whole = self.random.randrange(2)
            seed = self.random.choice(self.small if is_whole else self.seeds)
            image = mutate(self.random, seed.image, [it.image for it in self.random.sample(self.seeds, 2)])
            if is_whole:
                image = image_of(damaged(self.random, seed, self.small), seed.wide, seed.big)
            with open(f"{self.folder}/image", "wb") as file:
                file.write(image)
            asked = addresses(self.random, seed)
            words = [LINEMAP, "lookup", "-e", "image", "-a", "-f", "-i", *(f"{it:x}" for it in asked)]
            most = MEGABYTES + FACTOR * len(image) / 1e6
            run = Process(words, b"", SECONDS, most, self.folder)
            all_ = Process([LINEMAP, "lookup", "-e", "image", "--all"], b"", SECONDS, most, self.folder)
            why = run.fault((0, 1)) or all_.fault((0, 1))
            if not why and is_whole:
                wanted = program_answer(model_of(image), asked)
                if (run.status, run.out) != wanted:
                    why = f"answered\n{run.out}\nand not\n{wanted[1]}"
            why = why or (self.fault_of_readers(asked, most) if BENCH else None)
            if why:
                self.find(why, " ".join(words).encode(), image)
            self.ran["lookups"] += 1

    def fault_of_readers(self, asked, most):
        """Whether the image isn't answered as it should be through each of the readers, or not alike."""
        with open(f"{self.folder}/asked", "w", encoding="utf-8") as file:
            file.writelines(f"{it:x}\n" for it in asked)
        runs = [Process([BENCH, "image", "image", reader, "frames", "asked"], b"", SECONDS, most, self.folder) for reader in ("slice", "bytes")]
        faults = [it.fault((0, 1)) for it in runs]
        first, second = ((it.status, it.out) for it in runs)
        return faults[0] or faults[1] or (None if first == second else f"one reader answered\n{first}\nand the other\n{second}")

    def beside(self):
        """Damaged split files and supplements, each beside a whole image, through the program."""
        for _ in range(20):
            image, name, other, more, asked = self.random.choice(self.pairs)
            other = mutate(self.random, other, [it.image for it in self.random.sample(self.seeds, 2)])
            for file_name, content in ("image", image), (name, other):
                with open(f"{self.folder}/{file_name}", "wb") as file:
                    file.write(content)
            words = [LINEMAP, "lookup", "-e", "image", *more, *(f"{it:x}" for it in asked)]
            most = MEGABYTES + FACTOR * (len(image) + len(other)) / 1e6
            frames = Process([*words, "-a", "-f", "-i"], b"", SECONDS, most, self.folder)
            places = Process(words, b"", SECONDS, most, self.folder)
            why = frames.fault((0, 1)) or places.fault((0, 1))
            if not why and not more:
                model = model_of(image)
                wanted = "".join(f"{location_line(model.find_place(it))}\n" for it in asked)
                why = None if places.out == wanted else f"answered\n{places.out}\nand not\n{wanted}"
            if why:
                self.find(why, " ".join(words).encode(), image, other)
            os.remove(f"{self.folder}/{name}")
            self.ran["files beside"] += 1

    def answer(self, image, words, wanted, why, *files):
        """Asks the program about an image, and finds where it doesn't answer with the status and the output that are wanted."""
        with open(f"{self.folder}/image", "wb") as file:
            file.write(image)
        words = [LINEMAP, "lookup", "-e", "image", *words]
        size = len(image) + sum(map(len, files))
        run = Process(words, b"", SECONDS, MEGABYTES + FACTOR * size / 1e6, self.folder)
        fault = run.fault((0, 1))
        if fault or (run.status, run.out) != wanted:
            self.find(fault or f"{why}: answered\n{run.status} {run.out}\nand not\n{wanted}", " ".join(words).encode(), image, *files)

    def compressed(self):
        """Images whose sections are compressed, and some of them damaged then, through the program."""
        for _ in range(20):
            seed = self.random.choice(self.small)
            is_old = not self.random.randrange(3)
            form = seed.wide, seed.big, is_old
            kept = {name: compressed_section(self.random, text, *form) for name, text in seed.sections.items()}
            others = [*kept.values(), b"\0"]
            for name in self.random.sample(sorted(kept), min(len(kept), self.random.choice((0, 1, 1, 2)))):
                kept[name] = mutate(self.random, kept[name], others)
            texts = {name: text_of_section(content, *form) for name, content in kept.items()}
            asked = addresses(self.random, seed)
            wanted = 1, ""
            if None not in texts.values():
                wanted = program_answer(Model(texts, seed.big), asked)
            start, flags = (".zdebug_", 0) if is_old else (".debug_", COMPRESSED)
            image = image_with([(f"{start}{name}".encode(), 1, 0, content, 0, flags) for name, content in kept.items()],
                               seed.wide, seed.big)
            self.answer(image, ["--decompress", "-a", "-f", "-i", *(f"{it:x}" for it in asked)], wanted, "compressed")
            self.ran["compressed files"] += 1

    def linked(self):
        """Damaged debug files that a program names, with their sum or another one, through the program."""
        for _ in range(20):
            seed = self.random.choice(self.small)
            debug_file = image_of(damaged(self.random, seed, self.small), seed.wide, seed.big)
            is_named = self.random.randrange(4) > 0
            number = zlib.crc32(debug_file) ^ (0 if is_named else 1 << self.random.randrange(32))
            link = b"other.debug\0" + number.to_bytes(4, "big" if seed.big else "little")
            with open(f"{self.folder}/other.debug", "wb") as file:
                file.write(debug_file)
            asked = addresses(self.random, seed)
            wanted = program_answer(model_of(debug_file) if is_named else Model({}, seed.big), asked)
            image = image_with([(b".gnu_debuglink", 1, 0, link, 0)], seed.wide, seed.big)
            words = ["--find-debug", "--debug-dir", ".", "-a", "-f", "-i", *(f"{it:x}" for it in asked)]
            self.answer(image, words, wanted, "linked", debug_file)
            self.ran["linked files"] += 1

    def run(self):
        steps = [self.sections, self.images] if CASES else []
        steps += [self.lookups, self.beside, self.compressed, self.linked] if LINEMAP else []
        for step in itertools.cycle(steps):
            step()
            if time.monotonic() > self.end:
                return


def text_of(cases):
    """The input of a process for cases, after the files that they are like."""
    before = dict.fromkeys(it.like for it in cases if it.like)
    return "\n\n".join([*before, *(it.lines for it in cases)]).encode() + b"\n"


# ---- answers


def model_of(image):
    big, found = sections_of(image)
    return Model({name: content for name, (content, _) in found.items()}, big, {name: place for name, (_, place) in found.items()})


def questions(model, asked, is_loader=False):
    found = []
    for address in asked:
        found.append((f"frames {address:#x}", model.frames(address)))
        found.append((f"place {address:#x}", model.place(address)))
    low, high = sorted(asked[-2:])
    found.append((f"stretches {low:#x} {high:#x}", model.stretches(low, high)))
    if not is_loader:
        found.append((f"unit {asked[0]:#x}", model.unit(asked[0])))
        found += [("lines", model.all_lines()), ("functions", model.all_functions()), ("calls", model.all_calls())]
    return found


def program_answer(model, asked):
    """The status and the output of `lookup -a -f -i`, where there are no symbols."""
    if isinstance(model.made, Refused):
        return 1, ""
    text = ""
    for address in asked:
        text += f"0x{address:016x}\n"
        try:
            frames = model.find_frames(address)
        except Refused:
            frames = []
        for name, _, place in frames or [(None, None, None)]:
            text += ("??" if name is None else name.decode("utf-8", "replace")) + "\n" + location_line(place) + "\n"
    return 0, text


def location_line(place):
    if place is None:
        return "??:0"
    file, line, _, _, discriminator = place
    text = f"{'??' if file is None else file.decode()}:{'?' if line is None else line}"
    return text + (f" (discriminator {discriminator})" if discriminator else "")


def fuzz(number, seed, minutes, more):
    """Does it in one process of several; how many of each were run, and how much was found."""
    seed = f"{seed}-{number}"
    chosen = random.Random(seed)
    folder = tempfile.mkdtemp(dir="/dev/shm" if os.path.isdir("/dev/shm") else None)
    try:
        images = [*emitted(chosen, folder)] if LINEMAP else [*files_below(os.environ["SECTIONS"])]
        images += of_cases()
        images += files_below(more) if more else []
        fuzzer = Fuzzer(minutes, [Seed(it) for it in images], folder, f"{FINDS}/{number}", chosen)
        print(f"{len(fuzzer.seeds)} seeds, {len(fuzzer.small)} of them small; SEED={seed}", flush=True)
        fuzzer.run()
    finally:
        shutil.rmtree(folder, ignore_errors=True)
    return {**fuzzer.ran, "finds": fuzzer.finds}


def main():
    if not 2 <= len(sys.argv) <= 3 or not sys.argv[1].replace(".", "").isdigit():
        return __doc__
    seed = os.environ.get("SEED") or str(time.time_ns())
    count = int(os.environ.get("PROCESSES") or 1)
    more = sys.argv[2] if len(sys.argv) > 2 else None
    with concurrent.futures.ProcessPoolExecutor(count) as pool:
        began = [pool.submit(fuzz, number, seed, float(sys.argv[1]), more) for number in range(1, count + 1)]
        ended = [it.result() for it in began]
    total = {what: sum(it[what] for it in ended) for what in ended[0]}
    print(", ".join(f"{found} {what}" for what, found in total.items()) + f"; of {count} processes")
    return 1 if total["finds"] else 0


if __name__ == "__main__":
    sys.exit(main())
