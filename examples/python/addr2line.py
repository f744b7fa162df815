"""The files, lines and functions of addresses of an ELF file, by the library addr2line.

    import addr2line

    with addr2line.open("program") as image:
        print(image.location(0x1146))
        for frame in image.frames(0x1146):
            print(frame)

A file is mapped, and nothing of it is copied unless sections of it are compressed: these are decompressed, and those of its split
files too. What is returned is Python's own: texts are strings, and stay when the image is closed. An image that is never closed
keeps its memory. Refused files and addresses raise Refused, which has the refusal's code (`E16`, `L6`); memory that is refused
raises MemoryError. An image is used by the thread that opened it. The shared library is the one that ADDR2LINE_LIBRARY names, or
else that of the system, or of `tools/install` in the user's home.
"""
import builtins
import ctypes
import errno
import mmap
import os
import stat
from typing import Iterator, NamedTuple, Optional

__all__ = ["open", "Frame", "Image", "Location", "Range", "Refused", "Symbol"]

SONAME = "libaddr2line.so.1"
OK, NOT_FOUND, PAST_END, WRONG_FILE, OUT_OF_MEMORY = 0, 1, 2, 7, (101, 201)
# How an image is opened.
IN_PLACE, SUP, DECOMPRESS = 1, 2, 4
LAST_ADDRESS = (1 << 64) - 1
# How many ranges are asked for at a time.
BATCH = 256


# ---- What crosses, as addr2line.h has it


class _Loader(ctypes.Structure):
    _fields_ = [("opened", ctypes.c_uint32), ("at", ctypes.c_void_p)]


class _Text(ctypes.Structure):
    _fields_ = [("ptr", ctypes.c_void_p), ("len", ctypes.c_size_t)]

    def bytes(self):
        return ctypes.string_at(self.ptr, self.len)

    def text(self, is_there=True):
        return self.bytes().decode() if is_there else None


class _Location(ctypes.Structure):
    _fields_ = [
        ("file", _Text), ("discriminator", ctypes.c_uint64), ("line", ctypes.c_uint32), ("column", ctypes.c_uint32),
        *((name, ctypes.c_uint8) for name in ("has_file", "has_line", "has_column", "has_statement", "statement", "has_discriminator")),
    ]

    def value(self):
        def known(name):
            return getattr(self, name) if getattr(self, f"has_{name}") else None
        is_statement = bool(self.statement) if self.has_statement else None
        return Location(self.file.text(self.has_file), known("line"), known("column"), is_statement, known("discriminator"))


class _Frame(ctypes.Structure):
    _fields_ = [
        ("function", _Text), ("location", _Location), ("entry_offset", ctypes.c_uint64), ("language", ctypes.c_uint16),
        *((name, ctypes.c_uint8) for name in ("has_function", "has_location", "has_entry_offset", "has_language")),
    ]


class _Range(ctypes.Structure):
    _fields_ = [("location", _Location), ("address", ctypes.c_uint64), ("length", ctypes.c_uint64)]


class _Symbol(ctypes.Structure):
    _fields_ = [("name", _Text), ("address", ctypes.c_uint64)]


class _Section(ctypes.Structure):
    _fields_ = [("begin", ctypes.c_uint64), ("end", ctypes.c_uint64)]


class _Load(ctypes.Structure):
    _fields_ = [("directory", _Text), ("name", _Text), ("id", ctypes.c_uint64), ("has_directory", ctypes.c_uint8), ("has_name", ctypes.c_uint8)]


_EMPTY = ctypes.create_string_buffer(1)


def _new(kind):
    """A struct of a kind whose texts are empty: none of the library's pointers is NULL."""
    made = kind()
    for name, of, *_ in kind._fields_:
        if of is _Text:
            setattr(made, name, _Text(ctypes.addressof(_EMPTY), 0))
        elif of is _Location:
            setattr(made, name, _new(_Location))
    return made


# The calls, by the types of their parameters after the loader.
_BYTES = ctypes.c_void_p, ctypes.c_size_t
_CALLS = {
    "close": (),
    "find_location": (ctypes.c_uint64, ctypes.POINTER(_Location)),
    "find_ranges": (ctypes.c_uint64, ctypes.c_uint64),
    "next_ranges": (ctypes.POINTER(_Range), ctypes.c_size_t, ctypes.POINTER(ctypes.c_size_t)),
    "find_frames": (ctypes.c_uint64, ctypes.c_uint32, ctypes.POINTER(ctypes.c_size_t)),
    "get_frame": (ctypes.c_size_t, ctypes.POINTER(_Frame)),
    "find_symbol": (ctypes.c_uint64, ctypes.c_uint32, ctypes.POINTER(_Symbol)),
    "find_section": (*_BYTES, ctypes.POINTER(_Section)),
    "find_loads": (ctypes.c_uint64, ctypes.POINTER(ctypes.c_size_t)),
    "get_load": (ctypes.c_size_t, ctypes.POINTER(_Load)),
    "answer_load_in_place": (ctypes.c_size_t, *_BYTES),
    "skip_load": (ctypes.c_size_t,),
}


def _library():
    named = os.environ.get("ADDR2LINE_LIBRARY")
    try:
        found = ctypes.CDLL(named or SONAME)
    except OSError:
        if named:
            raise
        found = ctypes.CDLL(os.path.expanduser(f"~/.local/lib/{SONAME}"))
    for name, parameters in _CALLS.items():
        getattr(found, f"a2l_{name}").argtypes = [ctypes.POINTER(_Loader), *parameters]
    # (there the loader comes last)
    found.a2l_open_with.argtypes = [*_BYTES, *_BYTES, ctypes.c_uint32, ctypes.POINTER(_Loader)]
    found.a2l_error_text.argtypes = [ctypes.c_int32, ctypes.POINTER(_Text), ctypes.POINTER(_Text)]
    return found


_CALLED = _library()


# ---- What is returned


class Location(NamedTuple):
    """A place in the source. What isn't known is None."""
    file: Optional[str]
    line: Optional[int]
    column: Optional[int]
    is_statement: Optional[bool] = None
    discriminator: Optional[int] = None

    def __str__(self):
        return f"{self.file or '??'}:{'?' if self.line is None else self.line}"


class Frame(NamedTuple):
    """A function, or a call that is inlined, and the place in it."""
    function: Optional[str]
    location: Optional[Location]

    def __str__(self):
        return f"{self.function or '??'} at {self.location or '??:0'}"


class Range(NamedTuple):
    """Addresses from `begin` to before `end`, which have one place."""
    begin: int
    end: int
    location: Location


class Symbol(NamedTuple):
    """A symbol, and the address of its first byte."""
    name: str
    address: int


class Refused(Exception):
    """A file or an address that is refused: its number, its code and what it means."""

    def __init__(self, number):
        texts = [_Text(ctypes.addressof(_EMPTY), 0) for _ in range(2)]
        is_known = _CALLED.a2l_error_text(number, *map(ctypes.byref, texts)) == OK
        self.number = number
        self.code, self.sentence = (it.text() if is_known else "?" for it in texts)
        super().__init__(f"{self.code}: {self.sentence}")


def _checked(number, *others):
    """Raises what a number stands for, unless it is A2L_OK or one of others."""
    if number in OUT_OF_MEMORY:
        raise MemoryError("addr2line")
    if number != OK and number not in others:
        raise Refused(number)
    return number == OK


def _open_regular(path, flags):
    """Opens a file for `open`, which doesn't wait where that is a FIFO. Only a regular file is opened."""
    file = os.open(path, flags | os.O_NONBLOCK)
    mode = os.fstat(file).st_mode
    if stat.S_ISREG(mode):
        return file
    os.close(file)
    number = errno.EISDIR if stat.S_ISDIR(mode) else errno.EINVAL
    raise OSError(number, os.strerror(number), path)


class _Map:
    """A file in memory: its pages are read when they are needed."""

    def __init__(self, path):
        with builtins.open(path, "rb", opener=_open_regular) as file:
            self.size = os.fstat(file.fileno()).st_size
            # (ctypes takes the address of a map only where that can be written; no page is copied unless one is)
            self.map = mmap.mmap(file.fileno(), self.size, access=mmap.ACCESS_COPY) if self.size else None
        self.bytes = (ctypes.c_char * self.size).from_buffer(self.map) if self.size else _EMPTY

    def words(self):
        return ctypes.addressof(self.bytes), self.size

    def close(self):
        self.bytes = None
        if self.map is not None:
            self.map.close()


class Image:
    """An ELF file that is open, mapped or copied from bytes."""

    def __init__(self, image, sup=None):
        self._loader, self._maps, self._walk = _Loader(), [], 0
        flags = DECOMPRESS if sup is None else DECOMPRESS | SUP
        is_copied = isinstance(image, (bytes, bytearray))
        if sup is not None and isinstance(sup, (bytes, bytearray)) != is_copied:
            raise TypeError("an image and its supplement are both paths, or both bytes")
        try:
            if is_copied:
                words = *self._copied(image), *self._copied(sup or b"")
            else:
                flags |= IN_PLACE
                words = *self._mapped(image), *(self._copied(b"") if sup is None else self._mapped(sup))
            _checked(_CALLED.a2l_open_with(*words, flags, ctypes.byref(self._loader)))
        except BaseException:
            self._unmap()
            raise

    @staticmethod
    def _copied(image):
        copy = bytes(image)
        return ctypes.cast(ctypes.c_char_p(copy), ctypes.c_void_p), len(copy)

    def _mapped(self, path):
        self._maps.append(_Map(path))
        return self._maps[-1].words()

    def _unmap(self):
        while self._maps:
            self._maps.pop().close()

    def close(self):
        """Closes the image, which may be closed already."""
        if self._loader.opened:
            _checked(_CALLED.a2l_close(ctypes.byref(self._loader)))
        self._unmap()

    def __enter__(self):
        return self

    def __exit__(self, *_):
        self.close()

    def _call(self, name, *words, others=()):
        return _checked(getattr(_CALLED, f"a2l_{name}")(ctypes.byref(self._loader), *words), *others)

    # ---- Places

    def location(self, address) -> Optional[Location]:
        """The place of an address, if it has one."""
        found = _new(_Location)
        return found.value() if self._call("find_location", address, ctypes.byref(found), others=[NOT_FOUND]) else None

    def ranges(self, low=0, high=LAST_ADDRESS) -> Iterator[Range]:
        """The ranges of addresses from `low` to before `high`, each with its place. One walk at a time."""
        batch, count = (_Range * BATCH)(*(_new(_Range) for _ in range(BATCH))), ctypes.c_size_t()
        self._walk += 1
        walk = self._walk
        self._call("find_ranges", low, high)
        while self._call("next_ranges", batch, BATCH, ctypes.byref(count), others=[PAST_END]):
            found = [Range(it.address, it.address + it.length, it.location.value()) for it in batch[:count.value]]
            for it in found:
                yield it
                if self._walk != walk:
                    raise RuntimeError("another walk over ranges has begun")

    def __iter__(self):
        return self.ranges()

    # ---- Frames

    def frames(self, address, demangle=True) -> Iterator[Frame]:
        """The frames of an address, the innermost first. Split files are looked for where the image says, and mapped."""
        self._bring_loads(address)
        count, found, frames = ctypes.c_size_t(), _new(_Frame), []
        self._call("find_frames", address, int(demangle), ctypes.byref(count))
        for number in range(count.value):
            self._call("get_frame", number, ctypes.byref(found))
            location = found.location.value() if found.has_location else None
            frames.append(Frame(found.function.text(found.has_function), location))
        return iter(frames)

    def _bring_loads(self, address):
        count = ctypes.c_size_t()
        self._call("find_loads", address, ctypes.byref(count))
        for number in range(count.value):
            load = _new(_Load)
            self._call("get_load", number, ctypes.byref(load))
            directory, name = load.directory.bytes(), load.name.bytes()
            try:
                split = self._mapped(os.path.join(directory, name))
            except (OSError, ValueError):
                self._call("skip_load", number)
                continue
            # (a split file that is refused is refused again by the frames, unless memory is refused)
            outcome = _CALLED.a2l_answer_load_in_place(ctypes.byref(self._loader), number, *split)
            if outcome == WRONG_FILE:
                self._call("skip_load", number)
            elif outcome in OUT_OF_MEMORY:
                _checked(outcome)

    # ---- Symbols and sections

    def symbol(self, address, demangle=True) -> Optional[Symbol]:
        """The symbol that holds an address, if one does."""
        found = _new(_Symbol)
        if not self._call("find_symbol", address, int(demangle), ctypes.byref(found), others=[NOT_FOUND]):
            return None
        return Symbol(found.name.text(), found.address)

    def section(self, name) -> Optional[range]:
        """The addresses of a section, if there is one of that name."""
        found, text = _Section(), name.encode()
        if not self._call("find_section", ctypes.c_char_p(text), len(text), ctypes.byref(found), others=[NOT_FOUND]):
            return None
        return range(found.begin, found.end)


def open(image, sup=None) -> Image:
    """Opens the ELF file of a path, which is mapped, or of bytes, which are copied. Its supplement, if it has one, is named in
    the same way: both paths, or both bytes."""
    return Image(image, sup)
