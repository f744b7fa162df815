#!/usr/bin/env python3
"""Runs `linemap lookup --decompress` and `--find-debug` on programs that gcc compiles and objcopy and dwz change, and compares
what they print with the answers for the same program as gcc left it, without options.

usage: tests/debug_files.py [PROGRAM]      PROGRAM is ../linemap where none is given

Streams that are cut or changed are compared with Python's zlib: both refuse one, or both take it. It stops at the first
difference, and prints how many runs were as they should be. It ends with status 77 where gcc, objcopy or strip isn't
there; without dwz, or an objcopy that knows zstd, it leaves those runs out, and says so.
"""
import os
import re
import shutil
import struct
import subprocess
import sys
import tempfile
import zlib

sys.dont_write_bytecode = True
TOP = os.path.dirname(os.path.dirname(os.path.abspath(__file__)))
PROGRAM = os.path.abspath(sys.argv[1] if len(sys.argv) > 1 else f"{TOP}/linemap")
# The status with which a script says that nothing could be tried.
SKIPPED = 77
SECTION_HEADER = "<IIQQQQIIQQ"
COMPRESSION_HEADER = "<IIQQ"
COMPRESSED = 0x800
# Every how many bytes of a stream it is cut, and a bit of it is changed.
STEP = 37
runs = 0


def source(count, name):
    """A program of some functions, each with one that is inlined into it."""
    functions = "".join(
        f"static inline __attribute__((always_inline)) int {name}_in_{i}(int x) {{ return x * {i + 3} ^ (x >> {i % 7}); }}\n"
        f"__attribute__((noinline)) int {name}_{i}(int x)\n{{\n    int y = {name}_in_{i}(x);\n    return y + {i};\n}}\n"
        for i in range(count)
    )
    calls = " + ".join(f"{name}_{i}(n)" for i in range(count))
    return f"{functions}int main(int n, char **words) {{ (void)words; return {calls}; }}\n"


def tool(*words):
    subprocess.run(words, check=True, stdin=subprocess.DEVNULL, stdout=subprocess.DEVNULL, stderr=subprocess.PIPE)


def can(*words):
    return subprocess.run(words, stdin=subprocess.DEVNULL, stdout=subprocess.DEVNULL, stderr=subprocess.DEVNULL).returncode == 0


def lookup(*words, folder="."):
    """Returns the status, the output and the error lines of a lookup."""
    run = subprocess.run([PROGRAM, "lookup", *words], cwd=folder, stdin=subprocess.DEVNULL, capture_output=True, timeout=20)
    return run.returncode, run.stdout.decode(), run.stderr.decode()


def expect(wanted, *words, folder="."):
    global runs
    found = lookup(*words, folder=folder)
    if found != wanted:
        sys.exit(f"lookup {' '.join(words)}: {str(found)[:600]}\nin place of {str(wanted)[:600]}")
    runs += 1


def read(path):
    with open(path, "rb") as file:
        return file.read()


def write(path, data):
    with open(path, "wb") as file:
        file.write(data)


# ---- ELF files of 64 bits, the less significant byte first


def sections(image):
    """Returns the sections, each a name, the offset of its header and the header's fields."""
    table, = struct.unpack_from("<Q", image, 40)
    count, names = struct.unpack_from("<HH", image, 60)
    headers = [(table + 64 * i, struct.unpack_from(SECTION_HEADER, image, table + 64 * i)) for i in range(count)]
    texts = headers[names][1][4]
    return {image[texts + h[0]:image.index(b"\0", texts + h[0])].decode(): (at, h) for at, h in headers}


def compressed_section(image):
    """Returns the name, the offset and the size of the first section that is compressed."""
    for name, (_, header) in sections(image).items():
        if header[2] & COMPRESSED:
            return name, header[4], header[5]
    sys.exit("no section is compressed")


def text_of(stream, size):
    """Returns the text of a stream as zlib has it, if it is one text of this size; what follows the stream is ignored."""
    try:
        inflater = zlib.decompressobj()
        text = inflater.decompress(stream, size + 1)
    except zlib.error:
        return None
    return text if inflater.eof and len(text) == size else None


# ---- ELF files of both classes and orders


def old_form(image, content=lambda text: b"ZLIB" + struct.pack(">Q", len(text)) + zlib.compress(text), spare=""):
    """Returns an image whose sections .debug_* have the names and contents of GNU's old form, but for the one of a name."""
    order = "><"[image[5] == 1]
    table_place, counts, header = ("I", 48, "10I") if image[4] == 1 else ("Q", 60, "IIQQQQIIQQ")
    table, = struct.unpack_from(order + table_place, image, 32 if image[4] == 1 else 40)
    count, names_index = struct.unpack_from(f"{order}HH", image, counts)
    places = [table + struct.calcsize(f"={header}") * i for i in range(count)]
    headers = [list(struct.unpack_from(order + header, image, place)) for place in places]
    names = image[headers[names_index][4]:][:headers[names_index][5]]
    new = bytearray(image)

    def put(fields, data):
        fields[4:6] = len(new), len(data)
        new.extend(data)

    for fields in headers:
        name = names[fields[0]:names.index(b"\0", fields[0])].decode()
        if name.startswith(".debug_") and name != spare:
            fields[0] = len(names)
            names += b".z" + name[1:].encode() + b"\0"
            put(fields, content(image[fields[4]:][:fields[5]]))
    put(headers[names_index], names)
    for place, fields in zip(places, headers):
        struct.pack_into(order + header, new, place, *fields)
    return bytes(new)


# ---- the runs


def try_compression():
    """Compressed sections, in each way, with and without the option."""
    for way in "zlib", "zlib-gabi":
        tool("objcopy", f"--compress-debug-sections={way}", "plain", "small")
        expect(PLAIN, "-e", "small", "--decompress", "--all", "-afi")
        expect((1, "", "linemap: failed to load debug info: L6\n"), "-e", "small", "--all", "-afi")
    expect(PLAIN, "-e", "plain", "--decompress", "--all", "-afi")
    expect((1, "", "linemap: failed to load debug info: L3\n"), "-e", "a.c", "--decompress", "1")
    expect((1, "", "linemap: failed to load debug info: L2\n"), "-e", "missing", "--decompress", "1")
    if not can("objcopy", "--compress-debug-sections=zstd", "plain", "zstd"):
        return print("objcopy doesn't know zstd: not tried")
    status, out, err = lookup("-e", "zstd", "--decompress", "1")
    if status != 1 or out or not re.fullmatch(r"linemap: failed to decompress debug info: .*zstd.*objcopy.*\n", err):
        sys.exit(f"zstd: {status} {out} {err}")


def try_old_names():
    """Sections of GNU's old form, .zdebug_*: as objcopy makes them, and in each class and order."""
    tool("objcopy", "--compress-debug-sections=zlib-gnu", "plain", "old")
    if ".zdebug_info" not in sections(read("old")):
        print("objcopy doesn't know zlib-gnu: made here")
        write("old", old_form(read("plain")))
    expect(PLAIN, "-e", "old", "--decompress", "--all", "-afi")
    expect(PLAIN, "-e", "old", "--find-debug", "--all", "-afi")
    expect(without("", "old"), "-e", "old", "-f", PLACE)
    # A section that isn't compressed, and one that has its new name already
    write("named", old_form(read("plain"), content=lambda text: text))
    expect(PLAIN, "-e", "named", "--decompress", "--all", "-afi")
    write("both", old_form(read("plain"), spare=".debug_line"))
    expect(PLAIN, "-e", "both", "--decompress", "--all", "-afi")
    write("ignored", b"ZLIB" + bytes(8) + b"no stream")
    tool("objcopy", "--add-section", ".zdebug_info=ignored", "plain", "both")
    expect(PLAIN, "-e", "both", "--decompress", "--all", "-afi")
    # Headers and streams that are cut or claim too much
    for claimed in 0, 1, 2 ** 31, 2 ** 63, 2 ** 64 - 1:
        refuse_old(lambda text, size=claimed: b"ZLIB" + struct.pack(">Q", size) + zlib.compress(text))
    for length in 4, 11, 12, 13, 40:
        refuse_old(lambda text, end=length: (b"ZLIB" + struct.pack(">Q", len(text)) + zlib.compress(text))[:end])
    for size in "4", "8":
        for order in [], ["--big"]:
            tool(PROGRAM, "emit", f"{TOP}/examples/c.json", "image", "--size", size, *order)
            answers = lookup("-e", "image", "--all", "-afi")
            if answers[0] or "main" not in answers[1]:
                sys.exit(f"a table's image: {answers}")
            write("old", old_form(read("image")))
            expect(answers, "-e", "old", "--decompress", "--all", "-afi")


def try_headers():
    """Headers of sections that don't fit each other, in files with compressed sections of either form."""
    new, old = read("small"), old_form(read("plain"))
    table, = struct.unpack_from("<Q", new, 40)
    names = struct.unpack_from("<H", new, 62)[0]
    refuse_header(new, ".comment", "overlaps the section headers", place=table, size=64)
    refuse_header(new, ".comment", "goes on after the end of the file", size=len(new))
    packed = [*sections(new)].index(compressed_section(new)[0])
    refuse_header(new, ".symtab", "holds names and is compressed", at=packed, link=packed)
    refuse_header(old, ".symtab", "holds more than the names of sections, which change", at=names, link=names)
    last = max(enumerate(sections(old).values()), key=lambda it: it[1][1][0])[0]
    refuse_header(old, ".shstrtab", "has a name that doesn't end", at=last, size=sections(old)[".shstrtab"][1][5] - 1)
    # The headers of sections begin 16 bytes before the end of the file's header, which the first doesn't use
    count, = struct.unpack_from("<H", new, 60)
    inside = bytearray(new)
    struct.pack_into("<Q", inside, 40, 48)
    inside[64:48 + 64 * count] = bytes(48) + new[table + 64:table + 64 * count]
    write("changed", bytes(inside))
    expect((1, "", "linemap: failed to decompress debug info: the section headers overlap the file's header\n"),
           "-e", "changed", "--decompress", "1")


def refuse_header(image, name, why, at=None, place=None, size=None, link=None):
    """An image is refused whose section of a name has other fields; the refusal names it, or the section at an index."""
    found = sections(image)
    header, fields = found[name]
    changed = [before if it is None else it for it, before in zip((place, size, link), fields[4:7])]
    other = bytearray(image)
    struct.pack_into(SECTION_HEADER, other, header, *fields[:4], *changed, *fields[7:])
    write("changed", bytes(other))
    index = [*found].index(name) if at is None else at
    expect((1, "", f"linemap: failed to decompress debug info: section {index} {why}\n"), "-e", "changed", "--decompress", "1")


def refuse_old(content):
    """A program whose sections have this content in GNU's old form is refused."""
    global runs
    write("changed", old_form(read("plain"), content=content))
    status, out, err = lookup("-e", "changed", "--decompress", "--all", "-afi")
    if status != 1 or out or not re.fullmatch(r"linemap: failed to decompress debug info: section \d+ .*\n", err):
        sys.exit(f"old form: {status} {out[:300]} {err[:300]}")
    runs += 1


def try_stream(image, at, wanted_text, stream, text):
    """A changed stream: refused where zlib refuses it; the same answers where its text is the same."""
    global runs
    write("changed", image)
    status, out, err = lookup("-e", "changed", "--decompress", "--all", "-afi")
    is_well = (status, out, err) == PLAIN if text == wanted_text else status == 1 and not out if text is None else True
    if not is_well:
        sys.exit(f"a stream that is changed at {at}: {status} {out[:300]} {err[:300]}, zlib: {text is not None}")
    runs += 1


def try_damage():
    """A stream that is cut, that has a bit changed, or whose header claims another size."""
    image = read("small")
    name, at, size = compressed_section(image)
    kind, _, text_size, align = struct.unpack_from(COMPRESSION_HEADER, image, at)
    begin, end = at + struct.calcsize(COMPRESSION_HEADER), at + size
    text = text_of(image[begin:end], text_size)
    for place in range(begin, end, STEP):
        bit = 1 << place % 8
        flipped = image[:place] + bytes([image[place] ^ bit]) + image[place + 1:]
        try_stream(flipped, place - begin, text, flipped[begin:end], text_of(flipped[begin:end], text_size))
        header, fields = sections(image)[name]
        cut = bytearray(image)
        struct.pack_into(SECTION_HEADER, cut, header, *fields[:5], place - at, *fields[6:])
        try_stream(bytes(cut), place - begin, text, cut[begin:place], text_of(bytes(cut[begin:place]), text_size))
    for claimed in 0, text_size - 1, text_size + 1, 2 ** 31, 2 ** 63, 2 ** 64 - 1:
        other = bytearray(image)
        struct.pack_into(COMPRESSION_HEADER, other, at, kind, 0, claimed, align)
        try_stream(bytes(other), f"size {claimed}", text, b"", None)
    for cut in range(0, len(image), max(1, len(image) // 60)):
        write("changed", image[:cut])
        status, out, err = lookup("-e", "changed", "--decompress", "--all", "-afi")
        if status != 1 or out or not err:
            sys.exit(f"the file cut at {cut}: {status} {out[:300]} {err[:300]}")


def strip_to(program, debug_file, *options):
    """Splits the plain program: its debug file, and the program that names it."""
    for path in program, debug_file:
        os.makedirs(os.path.dirname(path) or ".", exist_ok=True)
    tool("objcopy", "--only-keep-debug", *options, "plain", debug_file)
    tool("strip", "-o", program, "plain")


def build_id(path):
    notes = subprocess.run(["readelf", "-nW", path], capture_output=True, text=True, check=True).stdout
    return re.search(r"Build ID: ([0-9a-f]+)", notes)[1]


def try_links():
    """Debug files by the debug link: beside the program, in .debug, and under a debug folder."""
    here = os.getcwd()
    find = "--find-debug", "--debug-dir", "debug"
    for at, (program, debug_file) in enumerate([
        ("beside/program", "beside/program.debug"),
        ("hidden/program", "hidden/.debug/program.debug"),
        ("far/program", f"debug{here}/far/program.debug"),
    ]):
        for options in [], ["--compress-debug-sections=zlib"]:
            strip_to(program, debug_file, *options)
            tool("objcopy", "--remove-section=.note.gnu.build-id", f"--add-gnu-debuglink={debug_file}", program)
            expect(PLAIN, "-e", program, *find, "--all", "-afi")
        expect(PLAIN, "-e", "program", "--find-debug", "--debug-dir", f"{here}/none", "--debug-dir", f"{here}/debug", "--all",
               "-afi", folder=os.path.dirname(program))
        os.symlink(program, f"link{at}")
        expect(PLAIN, "-e", f"link{at}", *find, "--all", "-afi")
        expect(without("", program), "-e", program, "-f", PLACE)
        # Another file of that name isn't the one.
        with open(debug_file, "ab") as file:
            file.write(b"\0")
        expect(without(f"linemap: no debug info found for {program}\n", program), "-e", program, *find, "-f", PLACE)
    # A debug link to the program itself.
    shutil.copy("far/program", "self")
    tool("objcopy", "--remove-section=.gnu_debuglink", "--add-gnu-debuglink=self", "self", "self.new")
    os.replace("self.new", "self")
    expect(without("linemap: no debug info found for self\n", "self"), "-e", "self", *find, "-f", PLACE)


def without(error, program):
    """What is printed of the place in a program without debug information."""
    status, out, err = lookup("-e", program, "-f", PLACE)
    if status or err or "??:0" not in out:
        sys.exit(f"{program} without options: {status} {out} {err}")
    return 0, out, error


def try_build_ids():
    """Debug files by the build identifier."""
    strip_to("program", "program.debug")
    folder = f"ids/.build-id/{build_id('plain')[:2]}"
    os.makedirs(folder)
    named = f"{folder}/{build_id('plain')[2:]}.debug"
    find = "--find-debug", "--debug-dir", "none", "--debug-dir", "ids"
    for options in [], ["--compress-debug-sections=zlib"]:
        strip_to("program", named, *options)
        expect(PLAIN, "-e", "program", *find, "--all", "-afi")
    # A file with another identifier, or that can't be read, isn't the one.
    for other in "other.debug", "a.c", "none":
        if os.path.exists(named):
            os.remove(named)
        if other == "other.debug":
            tool("objcopy", "--only-keep-debug", "other", named)
        elif other == "a.c":
            shutil.copy(other, named)
        expect(without("linemap: no debug info found for program\n", "program"), "-e", "program", *find, "-f", PLACE)
    # A program with debug information is its own debug file.
    expect(PLAIN, "-e", "plain", *find, "--all", "-afi")
    expect(PLAIN, "-e", "small", *find, "--all", "-afi")
    # Symbols come from whichever file has them.
    tool("strip", "--strip-debug", "-o", "program", "plain")
    tool("objcopy", "--only-keep-debug", "plain", named)
    tool("strip", "--strip-debug", "--keep-section=.debug*", "-o", "symbols", "plain")
    tool("objcopy", "--strip-all", "--keep-section=.debug*", "--keep-section=.note.gnu.build-id", named, "none.debug")
    if ".symtab" not in sections(read("none.debug")) and ".debug_info" in sections(read("none.debug")):
        os.replace("none.debug", named)
        start = re.search(r"^([0-9a-f]+) T _start$", subprocess.run(
            ["nm", "program"], capture_output=True, text=True, check=True).stdout, re.M)[1]
        expect((0, "_start\n??:0\n", ""), "-e", "program", *find, "-f", start)
        expect(PLAIN, "-e", "program", *find, "--all", "-afi")


def try_supplements():
    """Debug files whose supplement is a file that dwz made."""
    for name in "plain", "other":
        shutil.copy(name, f"{name}.dwz")
    if not can("dwz", "--version") or not can("dwz", "-m", "supplement", "-h", "-M", "supplement", "plain.dwz", "other.dwz"):
        return print("dwz doesn't make a supplement: not tried")
    if ".gnu_debugaltlink" not in sections(read("plain.dwz")):
        return print("dwz found nothing that files share: not tried")
    expect(PLAIN, "-e", "plain.dwz", "--sup", "supplement", "--all", "-afi")
    for folder in "dwz/here", "dwz/there":
        os.makedirs(folder)
        tool("objcopy", "--only-keep-debug", "--compress-debug-sections=zlib", "plain.dwz", f"{folder}/p.debug")
        tool("strip", "-o", f"{folder}/p", "plain.dwz")
        tool("objcopy", "--remove-section=.note.gnu.build-id", f"--add-gnu-debuglink={folder}/p.debug", f"{folder}/p")
    shutil.copy("supplement", "dwz/here/supplement")
    expect(PLAIN, "-e", "dwz/here/p", "--find-debug", "--all", "-afi")
    tool("objcopy", "--compress-debug-sections=zlib", "supplement", "dwz/here/supplement")
    expect(PLAIN, "-e", "dwz/here/p", "--find-debug", "--all", "-afi")
    # By the supplement's identifier
    identifier = build_id("supplement")
    os.makedirs(f"dwz/ids/.build-id/{identifier[:2]}")
    shutil.copy("supplement", f"dwz/ids/.build-id/{identifier[:2]}/{identifier[2:]}.debug")
    expect(PLAIN, "-e", "dwz/there/p", "--find-debug", "--debug-dir", "dwz/ids", "--all", "-afi")
    # One that is given wins; where there is none, or another, texts are missing, as without the option.
    tool("objcopy", "--decompress-debug-sections", "dwz/there/p.debug", "alone")
    alone = lookup("-e", "alone", "--all", "-afi")
    shutil.copy("plain", "dwz/there/supplement")
    expect(alone, "-e", "dwz/there/p", "--find-debug", "--debug-dir", "none", "--all", "-afi")
    expect(PLAIN, "-e", "dwz/there/p", "--find-debug", "--debug-dir", "none", "--sup", "supplement", "--all", "-afi")
    expect(lookup("-e", "alone", "--sup", "plain", "--all", "-afi"), "-e", "dwz/here/p", "--find-debug", "--sup", "plain",
           "--all", "-afi")


def try_split_files():
    """Split files are decompressed too."""
    tool("gcc", "-g", "-O1", "-gsplit-dwarf", "-o", "split", "a.c")
    answers = lookup("-e", "split", "--all", "-afi")
    dwo = next(it for it in os.listdir(".") if it.endswith(".dwo"))
    whole = read(dwo)
    tool("objcopy", "--compress-debug-sections=zlib", dwo)
    if "a_1\n" not in answers[1] or not any(h[2] & COMPRESSED for _, h in sections(read(dwo)).values()):
        return print("gcc made no split file that is compressed: not tried")
    for image in read(dwo), old_form(whole):
        write(dwo, image)
        expect(answers, "-e", "split", "--decompress", "--all", "-afi")
        if lookup("-e", "split", "--all", "-afi") == answers:
            sys.exit("a compressed split file is read without the option")


def try_words():
    """A folder of debug files is for a search alone."""
    status, out, err = lookup("-e", "plain", "--debug-dir", "ids", "1")
    if status != 2 or out or "--find-debug" not in err:
        sys.exit(f"--debug-dir alone: {status} {out} {err}")


for needed in "gcc", "objcopy", "strip", "readelf", "nm":
    if not shutil.which(needed):
        print(f"{needed} isn't installed")
        sys.exit(SKIPPED)
with tempfile.TemporaryDirectory(prefix="debug-files-") as work:
    os.chdir(os.path.realpath(work))
    for letter, count in ("a", 40), ("b", 30):
        with open(f"{letter}.c", "w", encoding="utf-8") as file:
            file.write(source(count, letter))
    tool("gcc", "-g", "-O1", "-Wl,--build-id", "-o", "plain", "a.c")
    tool("gcc", "-g", "-O1", "-Wl,--build-id", "-o", "other", "b.c")
    PLAIN = lookup("-e", "plain", "--all", "-afi")
    if PLAIN[0] or PLAIN[2] or PLAIN[1].count("a_in_3") == 0:
        sys.exit(f"the plain program: {str(PLAIN)[:600]}")
    PLACE = re.search(r"^(0x[0-9a-f]+)\na_3$", PLAIN[1], re.M)[1]
    for attempt in (try_words, try_compression, try_damage, try_links, try_build_ids, try_supplements, try_split_files,
                    try_old_names, try_headers):
        attempt()
print(f"{runs} runs as they should be")
