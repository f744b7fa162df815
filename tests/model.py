"""Lookups over the sections of a file, plainly: a second opinion on what `addr2line` answers.

Written from the DWARF standard (versions 2 to 5; the numbers of sections below are those of DWARF 5) and from the rules
that docs/ state where the standard leaves a choice. Nothing is cached, sorted for search or bisected: each question reads
what it needs from the bytes again, but for what one context may share. Supplements and answers to the loads of split
units aren't modelled: each load is answered by no file.

    model = Model(sections, big_endian=False)      sections: from names such as "info" or "line_str" to bytes (places: from
                                                   the same names to where each begins in a file, from which E2 counts)
    model.place(0x1018), model.frames(0x1018), ..  the lines that the program `linemap_cases` prints
"""
import functools

LIMIT = 1 << 64


class Refused(Exception):
    """A refusal: the letter and number that it is displayed as, and what it names."""

    def __str__(self):
        return f"{self.args[0]} {self.args[1]}"


BAD_UNSIGNED = "E3", "BadUnsignedLeb128"
BAD_SIGNED = "E4", "BadSignedLeb128"
OUT_OF_BOUNDS = "E19", "OffsetOutOfBounds"
NO_UNIT_DIE = "E21", "MissingUnitDie"
OVERFLOW = "E22", "AddressOverflow"
NOT_A_STRING = "E30", "ExpectedStringAttributeValue"
SUM_OVERFLOW = "E32", "OffsetSumOverflow"


class View:
    """Bytes of a section from a place to an end. A read that fails moves nothing."""

    def __init__(self, data, big, at=0, end=None, first=0):
        self.data, self.big, self.at, self.end = data, big, at, len(data) if end is None else end
        # What the places of the section's bytes are counted from.
        self.first = first

    def between(self, at, end):
        return View(self.data, self.big, at, end, self.first)

    def left(self):
        return self.end - self.at

    def cut(self, place):
        return Refused("E2", f"UnexpectedEof(ReaderOffsetId({self.first + place}))")

    def part(self, count):
        """The next bytes, as a view of their own."""
        if count > self.left():
            raise self.cut(self.at)
        part = self.between(self.at, self.at + count)
        self.at += count
        return part

    def bytes(self):
        return self.data[self.at:self.end]

    def number(self, width):
        return int.from_bytes(self.part(width).bytes(), "big" if self.big else "little")

    def string(self):
        """A text up to its zero byte (7.5.5)."""
        end = self.data.find(b"\0", self.at, self.end)
        if end < 0:
            raise self.cut(self.at)
        text, self.at = self.data[self.at:end], end + 1
        return text

    def leb_bytes(self, limit, bad):
        """A LEB128 string of at most `limit` bytes (7.6)."""
        for count in range(1, limit + 1):
            if self.at + count > self.end:
                raise self.cut(self.end)
            if self.data[self.at + count - 1] < 128:
                return self.data[self.at:self.at + count]
        raise Refused(*bad)

    def unsigned(self, limit=10, bound=LIMIT):
        string = self.leb_bytes(limit, BAD_UNSIGNED)
        number = sum((byte & 127) << 7 * place for place, byte in enumerate(string))
        if number >= bound:
            raise Refused(*BAD_UNSIGNED)
        self.at += len(string)
        return number

    def unsigned_16(self):
        return self.unsigned(3, 1 << 16)

    def signed(self):
        string = self.leb_bytes(10, BAD_SIGNED)
        number = sum((byte & 127) << 7 * place for place, byte in enumerate(string))
        if string[-1] & 64:
            number -= 1 << 7 * len(string)
        if not -(1 << 63) <= number < 1 << 63:
            raise Refused(*BAD_SIGNED)
        self.at += len(string)
        return number

    def skip_leb(self):
        while self.number(1) > 127:
            pass

    def address_size(self):
        size = self.number(1)
        if size not in (1, 2, 4, 8):
            raise Refused("E7", f"UnsupportedAddressSize({size})")
        return size

    def initial_length(self):
        """A unit's bytes, and whether it is in the 64-bit format (7.4)."""
        length = self.number(4)
        if length < 0xfffffff0:
            return self.part(length), 4
        if length == 0xffffffff:
            return self.part(self.number(8)), 8
        raise Refused("E5", f"UnknownReservedLength({length})")


def tombstone(size):
    """The least of the addresses that stand for none."""
    return (1 << 8 * size) - 2


# ---- abbreviations (7.5.3)


def declarations(view):
    """From codes to (tag, has children, [(name, form, constant)])."""
    table = {}
    while view.left():
        code = view.unsigned()
        if not code:
            break
        tag = view.unsigned_16()
        if not tag:
            raise Refused("E8", "AbbreviationTagZero")
        children = view.number(1)
        if children > 1:
            raise Refused("E11", f"InvalidAbbreviationChildren({children})")
        attributes = []
        while True:
            name, form = view.unsigned_16(), view.unsigned_16()
            if not name and not form:
                break
            if not name:
                raise Refused("E9", "AttributeNameZero")
            if not form:
                raise Refused("E10", "AttributeFormZero")
            attributes.append((name, form, view.signed() if form == 0x21 else None))
        if code in table:
            raise Refused("E12", f"DuplicateAbbreviationCode({code})")
        table[code] = tag, children == 1, attributes
    return table


# ---- forms (7.5.6)

# Forms of a fixed width, or of one that depends on the unit; of blocks the width of the length; LEB128 forms.
WIDTHS = {0x01: "address", 0x05: 2, 0x06: 4, 0x07: 8, 0x0b: 1, 0x0c: 1, 0x0e: "word", 0x10: "reference", 0x11: 1, 0x12: 2,
          0x13: 4, 0x14: 8, 0x17: "word", 0x19: 0, 0x1c: 4, 0x1d: "word", 0x1e: 16, 0x1f: "word", 0x20: 8, 0x24: 8, 0x25: 1,
          0x26: 2, 0x27: 3, 0x28: 4, 0x29: 1, 0x2a: 2, 0x2b: 3, 0x2c: 4, 0x1f20: "word", 0x1f21: "word"}
BLOCKS = {0x03: 2, 0x04: 4, 0x0a: 1, 0x09: None, 0x18: None}
UNSIGNED = {0x0f, 0x15, 0x1a, 0x1b, 0x22, 0x23, 0x1f01, 0x1f02}
INDIRECT, IMPLICIT, SDATA, STRING = 0x16, 0x21, 0x0d, 0x08

# What a form's number is.
KINDS = {0x01: "address", 0x05: "data", 0x06: "data", 0x07: "data", 0x0b: "data", 0x0f: "data", 0x0e: "strp", 0x1f: "line_strp",
         0x1d: "strp_sup", 0x1f21: "strp_sup", 0x10: "section_reference", 0x11: "reference", 0x12: "reference", 0x13: "reference",
         0x14: "reference", 0x15: "reference", 0x17: "offset", 0x1a: "strx", 0x25: "strx", 0x26: "strx", 0x27: "strx", 0x28: "strx",
         0x1f02: "strx", 0x1b: "addrx", 0x29: "addrx", 0x2a: "addrx", 0x2b: "addrx", 0x2c: "addrx", 0x1f01: "addrx",
         0x23: "rnglistx", 0x1c: "reference_sup", 0x24: "reference_sup", 0x1f20: "reference_sup"}

AT_NAME, AT_STMT_LIST, AT_LOW_PC, AT_HIGH_PC, AT_LANGUAGE, AT_COMP_DIR = 0x03, 0x10, 0x11, 0x12, 0x13, 0x1b
AT_ORIGIN, AT_SPECIFICATION, AT_RANGES, AT_CALL_COLUMN, AT_CALL_FILE, AT_CALL_LINE = 0x31, 0x47, 0x55, 0x57, 0x58, 0x59
AT_LINKAGE_NAME, AT_STR_OFFSETS_BASE, AT_ADDR_BASE, AT_RNGLISTS_BASE, AT_DWO_NAME = 0x6e, 0x72, 0x73, 0x74, 0x76
AT_MIPS_LINKAGE_NAME, AT_GNU_DWO_NAME, AT_GNU_DWO_ID, AT_GNU_RANGES_BASE, AT_GNU_ADDR_BASE = 0x2007, 0x2130, 0x2131, 0x2132, 0x2133
TAG_INLINED, TAG_SUBPROGRAM, TAG_PARTIAL = 0x1d, 0x2e, 0x3c


class Encoding:
    def __init__(self, version, word, size):
        self.version, self.word, self.size = version, word, size

    def width(self, form):
        width = WIDTHS[form]
        if width == "address" or width == "reference" and self.version == 2:
            return self.size
        return width if isinstance(width, int) else self.word


def unknown_form(form):
    return Refused("E14", f"UnknownForm(DwForm({form}))")


def read_value(view, encoding, name, form, constant):
    """The kind of an attribute's value, and the value."""
    while form == INDIRECT:
        form = view.unsigned_16()
    if form in WIDTHS:
        number = view.number(encoding.width(form))
        # (an offset was data before version 4)
        if name in (AT_STMT_LIST, AT_RANGES) and form == {4: 0x06, 8: 0x07}[encoding.word]:
            return "offset", number
        return KINDS.get(form, "other"), number
    if form in BLOCKS:
        return "block", view.part(view.number(BLOCKS[form]) if BLOCKS[form] else view.unsigned()).bytes()
    if form in UNSIGNED:
        return KINDS.get(form, "other"), view.unsigned()
    if form == SDATA:
        return "signed", view.signed()
    if form == STRING:
        return "string", view.string()
    if form == IMPLICIT:
        if constant is None:
            raise Refused("E15", "InvalidImplicitConst")
        return "signed", constant
    raise unknown_form(form)


def skip_values(view, encoding, attributes):
    """Skips the values of attributes. Bytes that no one looks at are skipped together, before the next look or the end."""
    run = 0

    def skip_run():
        if run >= LIMIT:
            raise Refused(*SUM_OVERFLOW)
        view.part(run)

    for _, form, _ in attributes:
        if form in WIDTHS:
            run += encoding.width(form)
            continue
        if form == IMPLICIT:
            continue
        skip_run()
        run = 0
        while form == INDIRECT:
            form = view.unsigned_16()
        if form in WIDTHS:
            run = encoding.width(form)
        elif form in BLOCKS:
            run = view.number(BLOCKS[form]) if BLOCKS[form] else view.unsigned()
        elif form in UNSIGNED or form == SDATA:
            view.skip_leb()
        elif form == STRING:
            view.string()
        elif form != IMPLICIT:
            raise unknown_form(form)
    skip_run()


def unsigned(value):
    """The unsigned number of a value, if it is one."""
    kind, number = value
    return number if kind == "data" or kind == "signed" and number >= 0 else None


def offset(value):
    return value[1] if value[0] == "offset" else None


def last(values, what=lambda value: value):
    """The last of them of which something is made."""
    made = [what(value) for value in values]
    return next((it for it in reversed(made) if it is not None), None)


# ---- units (7.5.1)


class Unit:
    """A unit's header."""

    def __init__(self, section):
        self.offset = section.at
        view, word = section.initial_length()
        version = view.number(2)
        self.kind, self.dwo_id = 1, None
        if version in (2, 3, 4):
            self.abbreviations, size = view.number(word), view.address_size()
        elif version == 5:
            self.kind = view.number(1)
            if not 1 <= self.kind <= 6:
                raise Refused("E17", f"UnsupportedUnitType(DwUt({self.kind}))")
            size, self.abbreviations = view.address_size(), view.number(word)
            if self.kind in (4, 5):
                self.dwo_id = view.number(8)
            elif self.kind in (2, 6):
                view.number(8), view.number(word)
        else:
            raise Refused("E16", f"UnknownVersion({version})")
        self.encoding, self.entries, self.end = Encoding(version, word, size), view.at, view.end
        self.section = view

    def walk(self, start=None):
        """A view of the entries from an offset of the unit on."""
        at = self.entries if start is None else self.offset + start
        if start is not None and not self.holds(start):
            raise Refused(*OUT_OF_BOUNDS)
        return self.section.between(at, self.end)

    def holds(self, start):
        return self.entries <= self.offset + start < self.end


class Entry:
    """An entry: its offset in the unit, its depth, its tag (0 of a null one), and its attributes (name, value)."""

    def __init__(self, offset, depth, tag=0, attributes=()):
        self.offset, self.depth, self.tag, self.attributes = offset, depth, tag, attributes

    def values(self, *names):
        return [value for name, value in self.attributes if name in names]


class Sequence:
    def __init__(self, rows, end):
        self.rows, self.start, self.end = rows, rows[0].address, end


class Row:
    def __init__(self, registers):
        self.__dict__.update(registers)
        self.line, self.column = self.line % (1 << 32), self.column % (1 << 32)


def holder(address, items):
    """Of ((begin, end), item) that which holds an address: of those that begin at or below it the one that begins last, of
    these the one that ends last, of these the last; if it ends above the address."""
    below = [(begin, end, place) for place, ((begin, end), _) in enumerate(items) if begin <= address]
    if not below or max(below)[1] <= address:
        return None
    return items[max(below)[2]][1]


def join(path, text):
    """A path and a text, joined as their bytes say."""
    if text[:1] in (b"/", b"\\") or text[1:3] in (b":/", b":\\"):
        return text
    separator = b"\\" if path[:1] == b"\\" or path[1:3] == b":\\" else b"/"
    return path + text if not path or path.endswith(separator) else path + separator + text


def lossy(text):
    return text.decode("utf-8", "replace").encode()


# ---- contexts


class Model:
    """The answers over the sections of a file: what a context and its lookups give."""

    def __init__(self, sections, big_endian=False, places={}):
        self.sections, self.big, self.places = sections, big_endian, places
        self.tables = {}

    def view(self, name, start=0):
        view = View(self.sections.get(name, b""), self.big, first=self.places.get(name, 0))
        view.part(start)
        return view

    # ---- what attributes refer to

    def indexed(self, section, base, index, width):
        """A view of the place of an index in a table (7.26 to 7.29)."""
        if base + index * width >= LIMIT:
            raise Refused(*SUM_OVERFLOW)
        return self.view(section, base + index * width)

    def text(self, unit, value):
        kind, it = value
        if kind == "string":
            return it
        if kind == "strx":
            it = self.indexed("str_offsets", unit.str_offsets_base, it, unit.encoding.word).number(unit.encoding.word)
            kind = "strp"
        if kind in ("strp", "line_strp"):
            return self.view({"strp": "str", "line_strp": "line_str"}[kind], it).string()
        raise Refused(*NOT_A_STRING)

    def text_if_readable(self, unit, value):
        try:
            return None if value is None else self.text(unit, value)
        except Refused:
            return None

    def address(self, unit, value):
        """The address of a value, none where it is no address."""
        kind, it = value
        if kind == "addrx":
            return self.indexed_address(unit, it)
        return it if kind == "address" else None

    def indexed_address(self, unit, index):
        size = unit.encoding.size
        return self.indexed("addr", unit.addr_base, index, size).number(size)

    # ---- range lists (2.17.3, 7.25)

    def list_offset(self, unit, value):
        kind, it = value
        if kind == "rnglistx":
            word = unit.encoding.word
            found = unit.rnglists_base + self.indexed("rnglists", unit.rnglists_base, it, word).number(word)
            if found >= LIMIT:
                raise Refused(*SUM_OVERFLOW)
            return found
        return it if kind == "offset" else None

    def raw_ranges(self, unit, offset):
        """The kinds of a list's entries, with their fields; a fault ends them."""
        size = unit.encoding.size
        if unit.encoding.version < 5:
            view = self.view("ranges", offset)
            while view.left():
                begin, end = view.number(size), view.number(size)
                if not begin and not end:
                    return
                yield (5, end) if begin == (1 << 8 * size) - 1 else (4, begin, end)
        else:
            view = self.view("rnglists", offset)
            index = number = view.unsigned
            address = lambda: view.number(size)
            fields = {1: [index], 2: [index, index], 3: [index, number], 4: [number, number], 5: [address],
                      6: [address, address], 7: [address, number]}
            while view.left():
                kind = view.number(1)
                if not kind:
                    return
                if kind not in fields:
                    raise Refused("E23", f"UnknownRangeListsEntry(DwRle({kind}))")
                yield kind, *[field() for field in fields[kind]]

    def ranges_of_list(self, unit, offset):
        """The ranges of a list, or the first fault."""
        size, base, found = unit.encoding.size, unit.low_pc, []
        bound = 1 << 8 * size
        for kind, *fields in self.raw_ranges(unit, offset):
            if kind in (1, 2, 3):
                fields[0] = self.indexed_address(unit, fields[0])
            if kind == 2:
                fields[1] = self.indexed_address(unit, fields[1])
            if kind in (1, 5):
                base = fields[0]
                continue
            begin, end = fields
            if kind == 4:
                if base >= tombstone(size):
                    continue
                begin, end = (base + begin) % bound, (base + end) % bound
            elif kind in (3, 7):
                end = (begin + end) % bound
            if begin < end and begin < tombstone(size):
                found.append((begin, end))
        return found

    def ranges_of_entry(self, unit, attributes):
        """The ranges that attributes say: of a list, or of low_pc and high_pc; and whether there is a list."""
        low = high = size = has_list = None
        for name, value in attributes:
            if name == AT_LOW_PC:
                it = self.address(unit, value)
                low = low if it is None else it
            elif name == AT_HIGH_PC:
                it = self.address(unit, value)
                high = high if it is None else it
                size = size if unsigned(value) is None else unsigned(value)
            elif name == AT_RANGES:
                has_list = self.list_offset(unit, value)
        if has_list is not None:
            return self.ranges_of_list(unit, has_list), True
        if high is None and size is not None and low is not None:
            high = (low + size) % LIMIT
        return ([(low, high)] if low is not None and high is not None and low < high else []), False

    # ---- address ranges (6.1.2)

    @functools.cached_property
    def aranges(self):
        """The sets: the offset of each one's unit, and its ranges."""
        section, sets = self.view("aranges"), []
        while section.left():
            begin = section.at
            view, word = section.initial_length()
            version = view.number(2)
            if version != 2:
                raise Refused("E16", f"UnknownVersion({version})")
            offset, size = view.number(word), view.address_size()
            if view.number(1):
                raise Refused("E18", "UnsupportedSegmentSize")
            view.part(-(view.at - begin) % (2 * size))
            found = []
            while view.left() >= 2 * size:
                address, length = view.number(size), view.number(size)
                if length and address < tombstone(size) and address + length < 1 << 8 * size:
                    found.append((address, address + length))
            sets.append((offset, found))
        return sets

    # ---- entries (7.5.2, 7.5.3)

    def table(self, unit):
        """The declarations of a unit, or why there are none."""
        if unit.abbreviations not in self.tables:
            try:
                self.tables[unit.abbreviations] = declarations(self.view("abbrev", unit.abbreviations))
            except Refused as why:
                self.tables[unit.abbreviations] = why
        table = self.tables[unit.abbreviations]
        if isinstance(table, Refused):
            raise table
        return table

    def head(self, unit, view):
        """The declaration of the entry at a place, none of a null one."""
        code = view.unsigned()
        if not code:
            return None
        if code not in self.table(unit):
            raise Refused("E13", f"InvalidAbbreviationCode({code})")
        return self.table(unit)[code]

    def entry(self, unit, view, depth, is_read):
        """The next entry, and the depth after it. Its attributes are read where its tag is to be, else skipped."""
        offset = view.at - unit.offset
        declaration = self.head(unit, view)
        if declaration is None:
            return Entry(offset, depth), depth - 1
        tag, has_children, attributes = declaration
        values = []
        if is_read(tag):
            values = [(name, read_value(view, unit.encoding, name, form, constant)) for name, form, constant in attributes]
        else:
            skip_values(view, unit.encoding, attributes)
        return Entry(offset, depth, tag, values), depth + has_children

    def root(self, unit):
        view = unit.walk()
        if not view.left():
            raise Refused(*NO_UNIT_DIE)
        root, _ = self.entry(unit, view, 0, lambda tag: True)
        if not root.tag:
            raise Refused(*NO_UNIT_DIE)
        return root

    # ---- units

    def read_unit(self, unit):
        """Reads what a unit's root says of it (3.1.1). Its lines' header or its low_pc may refuse it."""
        self.table(unit)
        root = unit.root = self.root(unit)
        unit.str_offsets_base = last(root.values(AT_STR_OFFSETS_BASE), offset) or 0
        unit.addr_base = last(root.values(AT_ADDR_BASE, AT_GNU_ADDR_BASE), offset) or 0
        unit.rnglists_base = last(root.values(AT_RNGLISTS_BASE, AT_GNU_RANGES_BASE), offset) or 0
        unit.name = self.text_if_readable(unit, last(root.values(AT_NAME)))
        unit.directory = self.text_if_readable(unit, last(root.values(AT_COMP_DIR)))
        unit.header = None
        program = last(root.values(AT_STMT_LIST), offset)
        if program is not None:
            unit.header = LineHeader(self.view("line", program), unit.encoding.size)
        low_pc = last(root.values(AT_LOW_PC))
        unit.low_pc = low_pc and self.address(unit, low_pc) or 0
        if unit.dwo_id is None and root.values(AT_GNU_DWO_ID):
            unit.dwo_id = unsigned(root.values(AT_GNU_DWO_ID)[-1])

    def units_and_fault(self):
        """The units of code that can be read, and the fault of a header that ends them."""
        section, units = self.view("info"), []
        try:
            while section.left():
                unit = Unit(section)
                if unit.kind in (2, 6):
                    continue
                try:
                    self.read_unit(unit)
                    units.append(unit)
                except Refused:
                    pass
        except Refused as why:
            return units, why
        return units, None

    @functools.cached_property
    def made(self):
        """The units of the context, or why there is none."""
        try:
            self.aranges
            units, fault = self.units_and_fault()
            for unit in units:
                unit.ranges = self.ranges_of_unit(unit)
        except Refused as why:
            return why
        return fault or units

    @property
    def units(self):
        if isinstance(self.made, Refused):
            raise self.made
        return self.made

    def ranges_of_unit(self, unit):
        if unit.kind == 3 or unit.root.tag == TAG_PARTIAL:
            return []
        ranges, is_list = self.ranges_of_entry(unit, unit.root.attributes)
        if not is_list:
            ranges = [it for of, found in self.aranges if of == unit.offset for it in found] or ranges
        if ranges:
            return ranges
        try:
            return [(it.start, it.end) for it in self.lines(unit)[0]]
        except Refused:
            return []

    # ---- lines (6.2)

    def lines(self, unit):
        """The sequences of a unit, and the texts of its files by their numbers."""
        if not hasattr(unit, "lines"):
            try:
                unit.lines = self.read_lines(unit) if unit.header else ([], [])
            except Refused as why:
                unit.lines = why
        if isinstance(unit.lines, Refused):
            raise unit.lines
        return unit.lines

    def read_lines(self, unit):
        header = unit.header
        rows, defined = header.run()
        files = header.files + defined
        if header.version < 5:
            files = [(("string", unit.name), 0)] * (unit.name is not None) + files
            texts = [] if unit.name is not None else [b""]
        else:
            texts = [] if files else [b""]
        return sequences(rows), texts + [self.file_text(unit, *file) for file in files]

    def file_text(self, unit, path, directory):
        header = unit.header
        place = directory - (header.version < 5)
        directory = self.text(unit, header.directories[place]) if directory and place < len(header.directories) else None
        path = self.text(unit, path)
        text = lossy(unit.directory or b"")
        if directory is not None:
            text = join(text, lossy(directory))
        return join(text, lossy(path))

    # ---- places

    def covering(self, address):
        """The units with a range over an address, a unit for each such range: by its end, then by the unit."""
        pairs = [(end, number) for number, unit in enumerate(self.units) for begin, end in unit.ranges if begin <= address < end]
        return [self.units[number] for _, number in sorted(pairs)]

    def place_in(self, unit, address):
        found, files = self.lines(unit)
        sequence = holder(address, [((it.start, it.end), it) for it in found])
        if sequence is None:
            return None
        row = None
        for it in sequence.rows:
            if it.address > address:
                break
            row = it
        return row and place_of_row(row, files)

    def find_place(self, address):
        for unit in self.covering(address):
            found = self.place_in(unit, address)
            if found:
                return found
        return None

    def stretches_between(self, low, high):
        """Stretches, and the refusal that ends them."""
        pairs = [(end, number, begin) for number, unit in enumerate(self.units) for begin, end in unit.ranges
                 if low < end and high > begin]
        found = []
        for end, number, begin in sorted(pairs, key=lambda it: it[:2]):
            try:
                lines, files = self.lines(self.units[number])
            except Refused as why:
                return found, why
            low_end, high_end = max(low, begin), min(high, end)
            for it in sorted(lines, key=lambda it: (it.start, it.end)):
                if it.start < high_end and it.end > low_end:
                    found += stretches_of(it, low_end, high_end, files)
        return found, None

    # ---- functions (3.3)

    def functions(self, unit):
        """The functions of a unit that have ranges: each range, with the offset of the entry."""
        found, view, depth = [], unit.walk(), 0
        while view.left():
            entry, depth = self.entry(unit, view, depth, lambda tag: tag == TAG_SUBPROGRAM)
            if entry.tag == TAG_SUBPROGRAM:
                found += [(it, entry.offset) for it in self.ranges_of_entry(unit, entry.attributes)[0]]
        return found

    def function(self, unit, start):
        """The name of the function at an offset, and its calls."""
        view = unit.walk(start)
        entry, depth = self.entry(unit, view, 0, lambda tag: True)
        if not entry.tag:
            raise Refused("E20", f"NoEntryAtGivenOffset({start})")
        name = None
        for attribute in entry.attributes:
            name = self.name_with(unit, name, attribute)
        return name and name[1], self.calls(unit, view, depth)

    def calls(self, unit, view, depth):
        """The calls in the entries below a function's, each with how many others enclose it."""
        found, outer = [], []
        while depth > 0:
            while outer and outer[-1].depth >= depth:
                outer.pop()
            is_nested = any(it.tag == TAG_SUBPROGRAM for it in outer)
            entry, depth = self.entry(unit, view, depth, lambda tag: tag == TAG_INLINED and not is_nested)
            if entry.tag == TAG_INLINED and not is_nested:
                found.append(self.call(unit, entry, sum(it.tag == TAG_INLINED for it in outer)))
            outer.append(entry)
        return found

    def call(self, unit, entry, level):
        name, facts = None, []
        for attribute in entry.attributes:
            name = self.name_with(unit, name, attribute)
            # (refused attribute by attribute; the list of ranges comes last)
            if attribute[0] == AT_RANGES:
                self.list_offset(unit, attribute[1])
            elif attribute[0] in (AT_LOW_PC, AT_HIGH_PC):
                self.address(unit, attribute[1])
        file = last(entry.values(AT_CALL_FILE), unsigned)
        if unit.encoding.version < 5 and file == 0:
            file = None
        line, column = ((last(entry.values(it), unsigned) or 0) % (1 << 32) for it in (AT_CALL_LINE, AT_CALL_COLUMN))
        return level, entry.offset, self.ranges_of_entry(unit, entry.attributes)[0], name and name[1], (file, line, column)

    # ---- names (2.15, 2.22)

    def name_with(self, unit, name, attribute):
        """The name of an entry with one more attribute: whether it is a linkage name, and the text."""
        at, value = attribute
        if at in (AT_LINKAGE_NAME, AT_MIPS_LINKAGE_NAME):
            text = self.text_if_readable(unit, value)
            return name if text is None else (True, text)
        if name is not None:
            return name
        text = None
        if at == AT_NAME:
            text = self.text_if_readable(unit, value)
        elif at in (AT_ORIGIN, AT_SPECIFICATION):
            text = self.name_by_reference(unit, value, 16)
        return None if text is None else (False, text)

    def name_by_reference(self, unit, value, most):
        """The name that references lead to, by at most `most` of them."""
        for _ in range(most):
            kind, to = value
            if kind == "section_reference":
                below = [it for it in self.units if it.offset < to]
                if not below or not below[-1].holds(to - below[-1].offset):
                    raise Refused("E20", f"NoEntryAtGivenOffset({to})")
                unit = below[-1]
                to -= unit.offset
            elif kind != "reference":
                return None
            name, value = self.name_or_reference(unit, to)
            if value is None:
                return name
        return None

    def name_or_reference(self, unit, start):
        view = unit.walk(start)
        declaration = self.head(unit, view)
        if declaration is None:
            raise Refused("E20", f"NoEntryAtGivenOffset({start})")
        name = reference = None
        for at, form, constant in declaration[2]:
            value = read_value(view, unit.encoding, at, form, constant)
            if at in (AT_LINKAGE_NAME, AT_MIPS_LINKAGE_NAME) and self.text_if_readable(unit, value) is not None:
                return self.text_if_readable(unit, value), None
            if at == AT_NAME:
                text = self.text_if_readable(unit, value)
                name = name if text is None else text
            elif at in (AT_ORIGIN, AT_SPECIFICATION):
                reference = value
        return (name, None) if name is not None else (None, reference)

    # ---- frames

    def frames_in(self, unit, address):
        """Of each frame the name, the offset of the entry, and the place, in a unit that is answered by no file."""
        self.check_load(unit)
        start = holder(address, self.functions(unit))
        function = None if start is None else self.function(unit, start)
        place = self.place_in(unit, address)
        if function is None:
            return [(None, None, place)] if place else []
        name, calls = function
        frames, level = [(name, start)], 0
        sites = []
        while True:
            ranges = [(it, call) for call in calls if call[0] == level for it in call[2]]
            call = holder(address, ranges)
            if call is None:
                break
            frames.insert(0, (call[3], call[1]))
            sites.insert(0, self.call_site(unit, call[4]))
            level += 1
        return [(*frame, at) for frame, at in zip(frames, [place, *sites])]

    def call_site(self, unit, site):
        file, line, column = site
        files = self.lines(unit)[1]
        text = files[file] if file is not None and file < len(files) else None
        return text, line or None, column or None, True, 0

    def check_load(self, unit):
        """A unit of a split file whose name can't be read is refused."""
        if unit.dwo_id is not None:
            names = unit.root.values(AT_GNU_DWO_NAME if unit.encoding.version < 5 else AT_DWO_NAME)
            if names:
                self.text(unit, names[0])

    def find_frames(self, address):
        for unit in self.covering(address):
            found = self.frames_in(unit, address)
            if found:
                return found
        return []

    # ---- answers as `linemap_cases` prints them

    def place(self, address):
        return answer(lambda: printed_place(self.find_place(address)))

    def frames(self, address):
        return answer(lambda: printed_frames(self.find_frames(address)))

    def stretches(self, low, high):
        return answer(lambda: printed_stretches(*self.stretches_between(low, high)))

    def unit(self, address):
        """The unit of an address: refusals of others are skipped."""
        def found():
            for unit in self.covering(address):
                try:
                    if self.frames_in(unit, address):
                        return f"at {unit.offset}" + (f", with identifier {unit.dwo_id}" if unit.dwo_id is not None else "")
                except Refused:
                    pass
            return "no unit"
        return answer(found)

    def all_lines(self):
        return answer(lambda: done(self.lines(it) for it in self.units))

    def all_functions(self):
        return answer(lambda: done(self.check_load(it) or self.functions(it) for it in self.units))

    def all_calls(self):
        def read(unit):
            self.check_load(unit)
            for start in dict.fromkeys(start for _, start in self.functions(unit)):
                self.function(unit, start)
        return answer(lambda: done(read(it) for it in self.units))


def place_of_row(row, files):
    file = files[row.file] if row.file < len(files) else None
    line, column = (row.line, row.column) if row.line else (None, None)
    return file, line, column, row.is_stmt, row.discriminator


def stretches_of(sequence, low, high, files):
    rows = sequence.rows
    first = max(0, next((place for place, row in enumerate(rows) if row.address > low), len(rows)) - 1)
    found = []
    for place in range(first, len(rows)):
        row = rows[place]
        if row.address >= high:
            break
        end = rows[place + 1].address if place + 1 < len(rows) else sequence.end
        found.append((row.address, max(0, end - row.address), place_of_row(row, files)))
    return found


def sequences(rows):
    """The rows cut after each end; of neighbours at one address the last; those whose first is below the end."""
    found, current = [], []
    for row in rows:
        if row.end_sequence:
            if current and current[0].address < row.address:
                found.append(Sequence(current, row.address))
            current = []
        else:
            if current and current[-1].address == row.address:
                current.pop()
            current.append(row)
    return found


# ---- line number programs


class LineHeader:
    """A header (6.2.4), its files as (path, number of the directory)."""

    FORMS = {0x03, 0x04, 0x05, 0x06, 0x07, 0x08, 0x09, 0x0a, 0x0b, 0x0c, 0x0d, 0x0e, 0x0f, 0x17, 0x1a, 0x1d, 0x1e, 0x1f,
             0x25, 0x26, 0x27, 0x28}

    def __init__(self, section, size):
        view, word = section.initial_length()
        self.version = view.number(2)
        if self.version not in (2, 3, 4, 5):
            raise Refused("E16", f"UnknownVersion({self.version})")
        self.size = size
        if self.version == 5:
            self.size = view.address_size()
            if view.number(1):
                raise Refused("E18", "UnsupportedSegmentSize")
        self.encoding = Encoding(self.version, word, self.size)
        header = view.part(view.number(word))
        self.program = view
        self.least = nonzero(header.number(1), "E25", "MinimumInstructionLengthZero")
        self.most = 1
        if self.version >= 4:
            self.most = nonzero(header.number(1), "E26", "MaximumOperationsPerInstructionZero")
        self.is_stmt = header.number(1) != 0
        self.line_base = (header.number(1) ^ 128) - 128
        self.line_range = nonzero(header.number(1), "E27", "LineRangeZero")
        self.opcode_base = nonzero(header.number(1), "E28", "OpcodeBaseZero")
        self.operands = header.part(self.opcode_base - 1).bytes()
        if self.version < 5:
            self.directories, self.files = [], []
            while text := header.string():
                self.directories.append(("string", text))
            while text := header.string():
                self.files.append((("string", text), header.unsigned()))
                header.unsigned(), header.unsigned()
        else:
            self.directories = [path for path, _ in self.entries(header)]
            self.files = self.entries(header)

    def entries(self, view):
        """Directories or files in version 5 (6.2.4.1)."""
        formats = [(view.unsigned(), view.unsigned_16()) for _ in range(view.number(1))]
        if [content for content, _ in formats].count(1) != 1:
            raise Refused("E29", "MissingFileEntryFormatPath")
        found = []
        for _ in range(view.unsigned()):
            path, directory = None, 0
            for content, form in formats:
                if form not in self.FORMS:
                    raise unknown_form(form)
                value = read_value(view, self.encoding, 0, form, None)
                if content == 1:
                    path = value
                elif content == 2 and unsigned(value) is not None:
                    directory = unsigned(value)
            found.append((path, directory))
        return found

    # ---- the state machine (6.2.2, 6.2.5)

    def start(self):
        return {"address": 0, "op_index": 0, "file": 1, "line": 1, "column": 0, "is_stmt": self.is_stmt, "discriminator": 0,
                "end_sequence": False, "hidden": False}

    def run(self):
        """The rows of the program, and the files that it defines."""
        view = self.program.between(self.program.at, self.program.end)
        rows, files, registers = [], [], self.start()
        while view.left():
            if self.step(view, registers, files):
                if not registers["hidden"]:
                    rows.append(Row(registers))
                if registers["end_sequence"]:
                    registers = self.start()
                registers["discriminator"] = 0
        return rows, files

    def step(self, view, it, files):
        """Executes an instruction, and says whether it gives a row."""
        opcode = view.number(1)
        if opcode == 0:
            return self.extended(view.part(view.unsigned()), it, files)
        if opcode >= self.opcode_base:
            self.move_line(it, self.line_base + (opcode - self.opcode_base) % self.line_range)
            self.move(it, (opcode - self.opcode_base) // self.line_range)
            return True
        if opcode == 1:
            return True
        if opcode == 2:
            self.move(it, view.unsigned())
        elif opcode == 3:
            self.move_line(it, view.signed())
        elif opcode == 4:
            it["file"] = view.unsigned()
        elif opcode == 5:
            it["column"] = view.unsigned()
        elif opcode == 6:
            it["is_stmt"] = not it["is_stmt"]
        elif opcode == 8:
            # (natural numbers: where there is no special opcode, none)
            self.move(it, max(0, 255 - self.opcode_base) // self.line_range)
        elif opcode == 9:
            count = view.number(2)
            if not it["hidden"]:
                it["address"], it["op_index"] = self.within(it["address"] + count), 0
        elif opcode == 12:
            view.unsigned()
        elif opcode not in (7, 10, 11):
            for _ in range(self.operands[opcode - 1]):
                view.unsigned()
        return False

    def extended(self, view, it, files):
        opcode = view.number(1)
        if opcode == 1:
            it["end_sequence"] = True
            return True
        if opcode == 2:
            address = view.number(self.size)
            it["hidden"] = address < it["address"] or address >= tombstone(self.size)
            if not it["hidden"]:
                it["address"], it["op_index"] = address, 0
        elif opcode == 3 and self.version < 5:
            path = view.string()
            directory = view.unsigned()
            view.unsigned(), view.unsigned()
            files.append((("string", path), directory))
        elif opcode == 4:
            it["discriminator"] = view.unsigned()
        return False

    def move_line(self, it, count):
        it["line"] = max(0, it["line"] + count) % LIMIT

    def move(self, it, count):
        if not it["hidden"]:
            operations = (it["op_index"] + count) % LIMIT
            it["address"] = self.within(it["address"] + self.least * (operations // self.most) % LIMIT)
            it["op_index"] = operations % self.most

    def within(self, address):
        if address >= 1 << 8 * self.size:
            raise Refused(*OVERFLOW)
        return address


def nonzero(number, *why):
    if not number:
        raise Refused(*why)
    return number


# ---- printing


def done(steps):
    for _ in steps:
        pass
    return "done"


def answer(found):
    try:
        return found()
    except Refused as why:
        return str(why)


def printed_place(place):
    if place is None:
        return "nowhere"
    file, line, column, is_stmt, discriminator = place
    text = "?" if file is None else file.decode()
    for number in (line, column):
        text += ":?" if number is None else f":{number}"
    if not is_stmt:
        text += " (not a statement)"
    if discriminator:
        text += f" (discriminator {discriminator})"
    return text


def printed_frames(frames):
    text = ""
    for name, offset, place in frames[:10]:
        text += "[" + ("?" if name is None else lossy(name).decode()) + ("" if offset is None else f"@{offset}")
        text += f" {printed_place(place)}]"
    return text or "no frames"


def printed_stretches(found, why):
    text = "".join(f"[{begin:#x}+{length:#x} {printed_place(place)}]" for begin, length, place in found[:10])
    return text + f"{why}, again {why}" if why and len(found) < 10 else text
