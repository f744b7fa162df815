"""ELF images of debug information, taken apart and put together."""
import struct
import sys

from cases import CRATE, NAMES


def sections_of(image):
    """Whether an image is big endian, and its debug sections: from their names, as in the cases, to their bytes and places."""
    wide, big = image[4] == 2, image[5] == 2
    order = ">" if big else "<"
    # the places of: the section headers; the size, count and names' index of these
    (table,) = struct.unpack_from(order + ("Q" if wide else "I"), image, 40 if wide else 32)
    size, count, names = struct.unpack_from(order + "3H", image, 58 if wide else 46)
    headers = [struct.unpack_from(order + ("IIQQQQ" if wide else "6I"), image, table + size * place) for place in range(count)]
    strings = image[headers[names][4]:headers[names][4] + headers[names][5]]
    found = {}
    for name, kind, _, _, place, length in headers[1:]:
        text = strings[name:strings.find(b"\0", name)].decode("latin-1").removeprefix(".debug_")
        if text in NAMES and kind != 8:
            found.setdefault(text, (image[place:place + length], place))
    return big, found


def image_of(sections, wide, big):
    """An image of debug sections."""
    return image_with([(f".debug_{name}".encode(), 1, 0, content, 0) for name, content in sections.items()], wide, big)


def image_with(parts, wide, big):
    """An image of sections: of each the name, the type, the address, the bytes, the link, and the flags where it has some; their names
    come after them."""
    order = ">" if big else "<"
    strings = b"\0" + b"".join(name + b"\0" for name, *_ in parts) + b".shstrtab\0"
    size, header = (64, 64) if wide else (52, 40)
    body, headers = b"", [(0,) * 10]
    for name, kind, address, content, link, *flags in [*parts, (b".shstrtab", 3, 0, strings, 0)]:
        headers.append((strings.index(b"\0" + name + b"\0") + 1, kind, sum(flags), address, size + len(body), len(content), link, 0, 1, 0))
        body += content
    body += b"\0" * (-(size + len(body)) % 8)
    table = b"".join(struct.pack(order + ("IIQQQQIIQQ" if wide else "10I"), *it) for it in headers)
    ident = b"\x7fELF" + bytes([2 if wide else 1, 2 if big else 1, 1]) + b"\0" * 9
    fields = 2, 0, 1, 0, 0, size + len(body), 0, size, 0, 0, header, len(headers), len(headers) - 1
    return ident + struct.pack(order + ("HHIQQQIHHHHHH" if wide else "HHIIIIIHHHHHH"), *fields) + body + table


def image_of_symbols(wide, big):
    """An image of two bytes of `.text` at 0x1000 and its symbols: a of 16 bytes and b of 32 there, c of none at 0x1008; and, none of
    which counts, at 0x1006 a section's own one, one that no section defines, one without a name, and one whose name is no text."""
    order = ">" if big else "<"
    kinds = (1, 0x1000, 0x10, 2, 1), (3, 0x1000, 0x20, 1, 1), (5, 0x1008, 0, 0, 1), (1, 0x1006, 0, 3, 1), (1, 0x1006, 0, 2, 0), (0, 0x1006, 0, 2, 1), (7, 0x1006, 0, 2, 1)
    symbols = b"".join(
        struct.pack(order + "IBBHQQ", name, info, 0, section, value, size) if wide
        else struct.pack(order + "IIIBBH", name, value, size, info, 0, section)
        for name, value, size, info, section in kinds)
    parts = [(b".text", 1, 0x1000, b"EL", 0), (b".symtab", 2, 0, symbols, 3), (b".strtab", 3, 0, b"\0a\0b\0c\0\xff\0", 0)]
    return image_with(parts, wide, big)


def split_file_by_index():
    """The split file of linemap_cases, but that its root says where it begins, by an index, in place of its language."""
    with open(f"{CRATE}/data/split.dwo", "rb") as file:
        image = file.read()
    # the declaration of the root: producer, language, name, directory; the unit's header ends with its identifier, the root
    # begins with its code and the producer's index
    language, low_pc = (b"\x01\x11\x01\x25\x1a" + it + b"\x03\x08\x1b\x08\0\0" for it in (b"\x13\x0b", b"\x11\x29"))
    identifier = image[image.index(b"\x05\0\x05\x08\0\0\0\0") + 8:][:8]
    for old, new in (language, low_pc), (identifier + b"\x01\0\x1d", identifier + b"\x01\0\x03"):
        if image.count(old) != 1:
            sys.exit("split.dwo isn't what it was")
        image = image.replace(old, new)
    return image


def main():
    """Writes the images of symbols that are cases of linemap_cases, but for `symbols.elf`, and `indexed.dwo` into a folder."""
    if len(sys.argv) != 2:
        sys.exit("usage: tests/images.py FOLDER")
    with open(f"{sys.argv[1]}/indexed.dwo", "wb") as file:
        file.write(split_file_by_index())
    for wide, big, name in (False, False, "symbols_32"), (False, True, "symbols_32_big"), (True, True, "symbols_64_big"):
        with open(f"{sys.argv[1]}/{name}.elf", "wb") as file:
            file.write(image_of_symbols(wide, big))


if __name__ == "__main__":
    main()
