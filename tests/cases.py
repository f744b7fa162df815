"""The paragraphs of crates/linemap_cases about the addresses of small files, as its stdin has them."""
import os
import re

TOP = os.path.dirname(os.path.dirname(os.path.abspath(__file__)))
CRATE = f"{TOP}/crates/linemap_cases"
# The sections that lookups read, by the names that the cases have for them.
NAMES = "abbrev", "addr", "aranges", "info", "line", "line_str", "ranges", "rnglists", "str", "str_offsets"
# The line after which the paragraphs come in stdin, and the answers to them in stdout, to the end of both.
BEFORE = "contexts:\n"
# The first line of the cases that damaged.py makes.
MADE = "# Sections cut at every length: the cases and answers from here on are made by tests/damaged.py"


def paragraphs():
    with open(f"{CRATE}/stdin", encoding="utf-8") as file:
        return file.read().partition(BEFORE)[2].split("\n\n")


def bytes_of(words):
    """The bytes of some words: digits in hexadecimal, or a text in quotes, which a zero byte follows."""
    found = b""
    for text, digits in re.findall(r"'([^']*)'|([0-9a-f]+)", words):
        found += bytes.fromhex(digits) if digits else text.encode() + b"\0"
    return found


def sections_in(paragraph, files):
    """The name of the file of a paragraph, none where it is about a file, and its sections, after those of others."""
    name, sections = None, {}
    # (a line that begins with a space goes on with the one before it)
    for line in paragraph.replace("\n ", " ").splitlines():
        word, _, rest = line.partition(" ")
        if word == "file":
            name, _, like = rest.partition(" ")
            sections.update(files.get(like, {}))
        elif word == "context":
            sections.update(files[rest])
        elif word in NAMES:
            sections[word] = bytes_of(rest)
    return name, sections


def files():
    """The sections of all files, by their names."""
    found = {}
    for paragraph in paragraphs():
        if re.search("^file ", paragraph, re.MULTILINE):
            name, sections = sections_in(paragraph, found)
            found[name] = sections
    return found


def asked():
    """The sections of all files, and of all that something is asked of, up to the cases that are made."""
    found = files()
    for paragraph in paragraphs():
        if paragraph.startswith(MADE):
            break
        if re.search("^context ", paragraph, re.MULTILINE):
            yield sections_in(paragraph, found)[1]
    yield from found.values()
