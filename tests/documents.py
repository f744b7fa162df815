#!/usr/bin/env python3
"""Whether what the documents name is there: definitions (`Module.name`), edits (`crate/name`), files, kinds of slow files
(`kind` of `bench/hostile.py`), and cases, by how their headings begin: in docs/BUGS.md after the word "case", in
docs/PROVED.md after the program over cases. In these two documents functions (`Type::function`) must be there too. Each
row of docs/BUGS.md must name one of all these, or say that it isn't covered.

usage: tests/documents.py
"""
import glob
import os
import re
import sys

TOP = os.path.dirname(os.path.dirname(os.path.abspath(__file__)))
DOCUMENTS = [f"{TOP}/README.md", *sorted(glob.glob(f"{TOP}/docs/*.md"))]
PROGRAMS = "gimli_cases", "linemap_cases"


def read(path):
    with open(path, encoding="utf-8") as file:
        return file.read()


def modules():
    """The texts of the specifications, by the names of their modules."""
    found = {}
    for path in glob.glob(f"{TOP}/crates/*/specs/*.antt"):
        found[os.path.basename(path).removesuffix(".antt")] = found.get(os.path.basename(path).removesuffix(".antt"), "") + read(path)
    return found


def edits():
    """The edits, each after its crate's name."""
    for path in glob.glob(f"{TOP}/crates/*/*/*.edit"):
        crate, _, name = path.split("/")[-3:]
        yield f"{crate}/{name.removesuffix('.edit')}"


def has_heading(program, beginning):
    """Whether a heading of a program over cases begins so."""
    return f"\n# {beginning}" in "\n" + read(f"{TOP}/crates/{program}/stdin")


def functions():
    """The names of all functions."""
    return {it for path in glob.glob(f"{TOP}/crates/*/src/**/*.rt", recursive=True) for it in re.findall(r"\bfn (\w+)", read(path))}


def names_in(text):
    """What is between backquotes, each name of a list in braces by itself."""
    for quoted in re.findall(r"`([^`\n]+)`", text):
        listed = re.fullmatch(r"(.*)\{(.*)\}", quoted)
        yield from [listed[1] + it.strip() for it in listed[2].split(",")] if listed else [quoted]


def is_edit(name):
    crate, _, rest = name.partition("/")
    return re.fullmatch(r"[\w.]+(-[\w.]+)+", rest) and os.path.isdir(f"{TOP}/crates/{crate}")


def is_definition(name, defined):
    module, *parts = name.split(".")
    return module in defined and parts and all(re.fullmatch(r"\w+", it) for it in parts)


def is_file(name):
    return re.fullmatch(r"(bench|tests|docs|examples|tools)/[\w.]+", name)


def is_function(name):
    return re.fullmatch(r"[A-Z]\w*::[a-z]\w*", name)


def is_known_kind(name, defined):
    return is_edit(name) or is_definition(name, defined) or is_file(name) or is_function(name)


def fault_of(name, defined, known):
    """Whether a name is of a kind that is looked at, and isn't there."""
    if is_edit(name):
        return name not in known
    if is_definition(name, defined):
        module, *parts = name.split(".")
        return not all(re.search(rf"\b{it}\b", defined[module]) for it in parts)
    if is_file(name):
        return not os.path.exists(f"{TOP}/{name}")
    return False


def rows(document):
    """The cells of each row of a document's tables."""
    for line in read(f"{TOP}/docs/{document}").splitlines():
        if line.startswith("| "):
            yield [it.strip() for it in line.strip("| ").split(" | ")]


def faults_of_bugs(defined):
    """The rows of docs/BUGS.md that name nothing that forbids a bug, or a case that isn't there."""
    numbered = [it for it in rows("BUGS.md") if it[0].isdigit()]
    if [int(number) for number, *_ in numbered] != list(range(1, len(numbered) + 1)):
        yield "the rows aren't numbered from 1 on"
    for number, _, said in numbered:
        cases = [name for part in said.split("; ") if re.match("cases? `", part) for name in names_in(part)]
        yield from (f"{number}: no case {it}" for it in cases if not any(has_heading(program, it) for program in PROGRAMS))
        if not cases and not said.startswith("not covered") and not any(is_known_kind(it, defined) for it in names_in(said)):
            yield f"{number}: nothing that forbids it"


def faults_of_refusals():
    """The headings in docs/PROVED.md that no case has."""
    for cells in rows("PROVED.md"):
        for program, listed in re.findall(rf"`({'|'.join(PROGRAMS)})`: ([^|]*)", cells[-1]):
            # (a heading may have a semicolon)
            whole = listed.removesuffix(", and others")
            parts = [] if has_heading(program, whole) else whole.split("; ")
            yield from (f"{program}: no case {it}" for it in parts if not has_heading(program, it))


def faults_of_functions(text):
    """The functions that aren't there."""
    known = functions()
    return [it for it in names_in(text) if is_function(it) and it.split("::")[1] not in known]


def faults_of_kinds(text):
    """The kinds of slow files that bench/hostile.py doesn't make."""
    made = read(f"{TOP}/bench/hostile.py")
    for kind in re.findall(r"`([\w-]+)` of `bench/hostile.py`", text):
        if f"\ndef {kind.replace('-', '_')}(" not in made:
            yield f"{kind} of bench/hostile.py"


def faults():
    defined, known = modules(), set(edits())
    for path in DOCUMENTS:
        text, place = read(path), os.path.relpath(path, TOP)
        yield from (f"{place}: {name}" for name in names_in(text) if fault_of(name, defined, known))
        yield from (f"{place}: {it}" for it in faults_of_kinds(text))
        if path.endswith(("BUGS.md", "PROVED.md")):
            yield from (f"{place}: {it}" for it in faults_of_functions(text))
    yield from (f"docs/BUGS.md: {it}" for it in faults_of_bugs(defined))
    yield from (f"docs/PROVED.md: {it}" for it in faults_of_refusals())


def main():
    wrong = [*faults()]
    print(*wrong, f"{len(DOCUMENTS)} documents, {len(wrong)} faults", sep="\n")
    return 1 if wrong else 0


if __name__ == "__main__":
    sys.exit(main())
