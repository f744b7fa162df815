#!/usr/bin/env python3
"""The sections that are emitted of examples/c.json, in version 4 and in version 5, cut at every length.

Of .debug_info and .debug_line, whose contents begin with their length, there are also the cuts at which that length is
set to what is left, so that the cut is met further on. The cases are the end of crates/linemap_cases/stdin, after the
files c_of_4 and c_of_5, which hold the sections; the answers are the end of its stdout. They are computed by model.py,
and never taken from the program.

    tests/damaged.py            compares both files with the cases and the answers
    tests/damaged.py write      writes them there
    tests/damaged.py others     compares the answers to the cases before them, but for those on supplements and on loads
    tests/damaged.py sections   compares the sections with those that ./linemap emits, or the program that LINEMAP names
"""
import os
import re
import subprocess
import sys
import tempfile

sys.dont_write_bytecode = True
import cases
from cases import CRATE, MADE, TOP
from images import sections_of
from model import Model

FILES = "c_of_4", "c_of_5"
# The files with what is emitted: the table's name, and the version.
EMITTED = "a_of_4", "a_of_5", *FILES
# The beginnings of lines of cases that the model doesn't know, or that have answers of another form.
NOT_MODELLED = re.compile(r"^(supplement|answer|resume\w*|waits|loads|drops|units|name|frames_of_each) ", re.MULTILINE)
# The sections that are one unit, in 32-bit DWARF: a length of four bytes, and as many more.
UNITS = "info", "line"


def files():
    """The files, by name, and their sections."""
    found = cases.files()
    return [(name, found[name]) for name in FILES]


def cuts():
    """For each file, section and length the file's name, the section's, and all sections."""
    for name, sections in files():
        for section, whole in sections.items():
            for length in range(len(whole)):
                yield name, section, {**sections, section: whole[:length]}
            for length in range(4, len(whole)) if section in UNITS else ():
                yield name, section, {**sections, section: (length - 4).to_bytes(4, "little") + whole[4:length]}


def questions(sections):
    """The questions about a file, and their answers."""
    model = Model(sections)
    yield "place 0x1018", model.place(0x1018)
    yield "frames 0x1018", model.frames(0x1018)
    yield "frames 0x100f", model.frames(0x100f)
    yield "stretches 0 0xffffffffffffffff", model.stretches(0, 0xffffffffffffffff)


def case(name, section, sections):
    lines = [f"context {name}", f"{section} {sections[section].hex()}".rstrip()]
    return "\n".join(lines + [question for question, _ in questions(sections)])


def answers(sections):
    return "\n".join(f"{question}: {answer}" for question, answer in questions(sections))


def ends():
    """The end of both files."""
    made = [case(*it) for it in cuts()], [answers(sections) for _, _, sections in cuts()]
    # (the heading is a line of the first of them)
    asked, found = (f"{MADE}\n" + "\n\n".join(it) + "\n" for it in made)
    return {"stdin": asked, "stdout": f"{found}\n"}


def compare(is_written):
    status = 0
    for name, end in ends().items():
        with open(f"{CRATE}/{name}", encoding="utf-8") as file:
            before, _, now = file.read().partition(MADE)
        if is_written:
            with open(f"{CRATE}/{name}", "w", encoding="utf-8") as file:
                file.write(before + end)
        elif MADE + now != end:
            print(f"{CRATE}/{name}: other cases or answers")
            status = 1
    print(f"{sum(1 for _ in cuts())} cuts")
    return status


def other_cases():
    """The sections of each other case, and the answers to it."""
    known = cases.files()
    asked = [it for it in cases.paragraphs() if not re.search("^file ", it, re.MULTILINE)]
    with open(f"{CRATE}/stdout", encoding="utf-8") as file:
        answered = file.read().partition(cases.BEFORE)[2].split("\n\n")
    for case, found in zip(asked, answered):
        if case.startswith(MADE):
            return
        if re.search("^context ", case, re.MULTILINE) and not NOT_MODELLED.search(case):
            yield cases.sections_in(case, known)[1], found


def compare_others():
    compared = differ = 0
    for sections, found in other_cases():
        model = Model(sections)
        calls = {"frames": model.frames, "place": model.place, "unit": model.unit, "stretches": model.stretches,
                 "lines": model.all_lines, "functions": model.all_functions, "calls": model.all_calls}
        for line in found.splitlines():
            question, _, answer = line.partition(": ")
            word, *numbers = question.split(" ")
            if word in calls and not line.startswith("#"):
                wanted = str(calls[word](*(int(it, 0) for it in numbers)))
                compared += 1
                if wanted != answer:
                    differ += 1
                    print(f"{question}: {answer}, but the model computes {wanted}")
    print(f"{compared} answers, {differ} differ")
    return 1 if differ else 0


def compare_sections():
    known, status = cases.files(), 0
    for name in EMITTED:
        with tempfile.TemporaryDirectory() as folder:
            words = ["emit", f"{TOP}/examples/{name[0]}.json", f"{folder}/image", "--dwarf", name[-1]]
            subprocess.run([os.environ.get("LINEMAP") or f"{TOP}/linemap", *words], check=True)
            with open(f"{folder}/image", "rb") as image:
                emitted = {it: content for it, (content, _) in sections_of(image.read())[1].items() if content}
        if emitted != known[name]:
            print(f"{name}: other sections are emitted")
            status = 1
    print(f"{len(EMITTED)} files")
    return status


def main():
    words = sys.argv[1:]
    if words == ["sections"]:
        return compare_sections()
    if words == ["others"]:
        return compare_others()
    if words in ([], ["write"]):
        return compare(bool(words))
    return __doc__


if __name__ == "__main__":
    sys.exit(main())
