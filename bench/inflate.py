#!/usr/bin/env python3
"""Times the decompression of an image's debug sections, side by side: by linemap_bench, by Python's zlib and by objcopy.

usage: bench/inflate.py PROGRAM IMAGE [ROUNDS]

Each section is decompressed as often as takes about a tenth of a second; of ROUNDS (5) such runs the one with the least processor
time counts, of the user and of the system. Where an image has no compressed sections, objcopy compresses them first. For each
section of 100,000 bytes and more there is a line, and one for all of them: the size of the texts, the megabytes of text a second of
zlib and of ours, and our speed as a multiple of zlib's. All texts must be those of zlib. The last line has also objcopy's time
for the whole image, from file to file.
"""
import os
import struct
import subprocess
import sys
import tempfile
import time
import zlib

ZLIB, COMPRESSED = 1, 0x800
LEAST = 100_000
# About how many bytes of text a run has at least.
RUN = 20_000_000


def streams_of(image):
    """The compressed sections of a 64-bit little-endian image: names, sizes of texts and streams."""
    (table,) = struct.unpack_from("<Q", image, 40)
    size, count, names = struct.unpack_from("<3H", image, 58)
    headers = [struct.unpack_from("<IIQQQQ", image, table + size * place) for place in range(count)]
    strings = headers[names][4]
    for name, _, flags, _, place, length in headers:
        if flags & COMPRESSED:
            kind, _, text, _ = struct.unpack_from("<IIQQ", image, place)
            assert kind == ZLIB, "a section isn't compressed by zlib"
            begin = strings + name
            yield image[begin:image.index(b"\0", begin)].decode(), text, image[place + 24:place + length]


def seconds_of(words, out=subprocess.DEVNULL):
    """The seconds of processor time of a command."""
    run = subprocess.Popen(words, stdout=out, stderr=subprocess.DEVNULL)
    _, status, usage = os.wait4(run.pid, 0)
    run.returncode = os.waitstatus_to_exitcode(status)
    assert run.returncode == 0, words
    return usage.ru_utime + usage.ru_stime


class Section:
    def __init__(self, program, folder, name, size, stream):
        self.name, self.size, self.stream, self.program = name, size, stream, program
        self.times = max(1, min(200, RUN // size))
        self.file = f"{folder}/{name}"
        with open(self.file, "wb") as file:
            file.write(struct.pack("<QQ", size, len(stream)) + stream)
        self.zlib, self.ours = [], []

    def compare(self):
        with tempfile.TemporaryFile() as out:
            seconds_of(self.words(1), out)
            out.seek(0)
            said = out.read()
        assert said == b"text %d\n" % self.size + zlib.decompress(self.stream), f"{self.name}: another text"

    def words(self, times):
        return [self.program, "inflate", str(times), self.file]

    def run(self):
        began = time.process_time()
        for _ in range(self.times):
            zlib.decompress(self.stream, bufsize=self.size)
        self.zlib.append((time.process_time() - began) / self.times)
        once, more = (seconds_of(self.words(times)) for times in (1, self.times + 1))
        self.ours.append((more - once) / self.times)


def show(name, size, zlib_seconds, our_seconds):
    zlib_speed, our_speed = size / zlib_seconds / 1e6, size / our_seconds / 1e6
    print(f"{name:20} {size / 1e6:10.1f} {zlib_speed:12.0f} {our_speed:12.0f} {our_speed / zlib_speed:8.2f}")


def main():
    if len(sys.argv) not in (3, 4):
        return __doc__
    program, path, rounds = *sys.argv[1:3], int((sys.argv[3:] or [5])[0])
    with tempfile.TemporaryDirectory() as folder:
        with open(path, "rb") as file:
            image = file.read()
        if not list(streams_of(image)):
            subprocess.run(["objcopy", "--compress-debug-sections=zlib", path, f"{folder}/image"], check=True)
            path = f"{folder}/image"
            with open(path, "rb") as file:
                image = file.read()
        sections = [Section(program, folder, *it) for it in streams_of(image)]
        for it in sections:
            it.compare()
        sections = [it for it in sections if it.size >= LEAST]
        for _ in range(rounds):
            for it in sections:
                it.run()
        print(f"{'':20} {'MB':>10} {'zlib, MB/s':>12} {'ours, MB/s':>12} {'ratio':>8}")
        for it in sections:
            show(it.name, it.size, min(it.zlib), min(it.ours))
        totals = sum(it.size for it in sections), sum(min(it.zlib) for it in sections), sum(min(it.ours) for it in sections)
        show("all", *totals)
        objcopy = ["objcopy", "--decompress-debug-sections", path, f"{folder}/plain"]
        took = min(seconds_of(objcopy) for _ in range(rounds))
        print(f"objcopy, the whole image: {took:.3f} s; ours, its sections: {totals[2]:.3f} s; zlib: {totals[1]:.3f} s")
    return 0


if __name__ == "__main__":
    sys.exit(main())
