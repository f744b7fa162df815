#!/usr/bin/env python3
"""Whether docs/TABLE.md and docs/table.schema.json agree with `linemap`: the examples of each rule are refused by its
number and accepted, the whole table answers as the document says, and the schema accepts just those tables of the cases
(crates/linemap_cases/stdin) that `linemap` doesn't refuse for their shape.

usage: tests/table.py PROGRAM

The schema is tried where Python's `jsonschema` is installed.
"""
import json
import os
import re
import subprocess
import sys
import tempfile

TOP = os.path.dirname(os.path.dirname(os.path.abspath(__file__)))
# What is refused for its shape, and what isn't JSON.
SHAPE, NO_JSON = "B3", "B2"
# How deep calls may be nested, and a depth at which no program's stack has room for them.
GREATEST_DEPTH, MUCH_TOO_DEEP = 50, 1_000_000
# Texts that the schema can't tell from those with digits alone.
NO_DIGITS = re.compile(r"[:,\[]\s*(-0|-?\d+(\.\d+|[eE]))")


def read(path):
    with open(f"{TOP}/{path}", encoding="utf-8") as file:
        return file.read()


def text_of(path):
    """The text of a file, or None where it is no UTF-8."""
    with open(path, "rb") as file:
        try:
            return file.read().decode()
        except UnicodeDecodeError:
            return None


def refusal_of(program, text):
    """The code by which a table is refused, or None."""
    with tempfile.NamedTemporaryFile("wb", suffix=".json") as file:
        file.write(text)
        file.flush()
        run = subprocess.run([program, "ask", file.name, "0x1000"], capture_output=True, text=True, timeout=60, check=False)
    found = re.fullmatch(r"linemap: (?:table|emit) refused: (\w+)\n", run.stderr)
    return found[1] if found else None


def with_calls(depth):
    """The table of the examples, with calls nested so deep."""
    head = '[{"name":"f","ranges":[[4112,4128]],"file":0,"line":6,"column":3,"calls":'
    calls = f"{head * depth}[]{'}]' * depth}"
    return re.sub(r'"calls":\[\n.*"calls":\[\]\}\]', lambda _: f'"calls":{calls}', read("examples/c.json"), count=1)


def rules():
    """The rows of the document's table of rules."""
    for line in read("docs/TABLE.md").splitlines():
        cells = [it.strip() for it in re.split(r"(?<!\\)\|", line)[1:-1]]
        if len(cells) == 5 and re.fullmatch(r"B\d+", cells[0]):
            yield cells[0], *[it.strip("`") for it in cells[2:]]


def faults_of_rules(program):
    whole = read("examples/c.json")
    for code, old, refused, accepted in rules():
        if not old:
            continue
        if old not in whole:
            yield f"{code}: {old} isn't in examples/c.json"
            continue
        for new, expected in (refused, code), (accepted, None):
            found = refusal_of(program, whole.replace(old, new, 1).encode())
            if found != expected:
                yield f"{code}: {new} in place of {old}: {found}"
    for depth, expected in (GREATEST_DEPTH, None), (GREATEST_DEPTH + 1, "B19"), (MUCH_TOO_DEEP, NO_JSON):
        if (found := refusal_of(program, with_calls(depth).encode())) != expected:
            yield f"calls {depth} deep: {found}"


def faults_of_answers(program):
    """The document's table of answers, and the table that it shows."""
    text = read("docs/TABLE.md")
    shown = json.loads(re.search(r"```json\n(.*?)```", text, re.S)[1])
    if shown != json.loads(read("examples/c.json")):
        yield "the table that docs/TABLE.md shows isn't examples/c.json"
    with tempfile.TemporaryDirectory() as folder:
        subprocess.run([program, "emit", f"{TOP}/examples/c.json", f"{folder}/c.elf"], check=True)
        for address, line, frames in re.findall(r"^\| `(0x\w+)` \| `(.*?)` \| (.*?) \|$", text, re.M):
            for words, expected in (["ask", f"{TOP}/examples/c.json"], [line]), (
                    ["lookup", "-e", f"{folder}/c.elf", "-fip"], re.findall(r"`(.*?)`", frames)):
                found = subprocess.run([program, *words, address], capture_output=True, text=True, check=False).stdout
                if found.splitlines() != expected:
                    yield f"{address}: {found.splitlines()} and not {expected}"


def cases():
    """The tables of the cases: files, and files with a part replaced."""
    data = f"{TOP}/crates/linemap_cases/data"
    for name in sorted(os.listdir(data)):
        if name.endswith(".json") and (text := text_of(f"{data}/{name}")):
            yield name, text
    for line in read("crates/linemap_cases/stdin").splitlines():
        words = line.split()
        if len(words) < 3 or words[0] != "ask" or not os.path.isfile(f"{data}/{words[1]}"):
            continue
        text = text_of(f"{data}/{words[1]}") or ""
        edits = [it.removeprefix("edit=").split("=>", 1) for it in words if it.startswith("edit=")]
        if edits and all(len(it) == 2 and it[0] in text for it in edits):
            for old, new in edits:
                text = text.replace(old, new, 1)
            yield line, text
    yield from ((f"calls {depth} deep", with_calls(depth)) for depth in (0, 1, 3))


def faults_of_schema(program):
    try:
        import jsonschema
    except ImportError:
        print("table: jsonschema isn't installed, so the schema isn't tried")
        return
    schema = json.loads(read("docs/table.schema.json"))
    jsonschema.Draft202012Validator.check_schema(schema)
    validator, tried = jsonschema.Draft202012Validator(schema), 0
    for name, text in cases():
        try:
            value = json.loads(text)
        except ValueError:
            continue
        refusal = refusal_of(program, text.encode())
        if refusal == NO_JSON or (refusal == SHAPE and NO_DIGITS.search(text)):
            continue
        tried += 1
        if validator.is_valid(value) == (refusal == SHAPE):
            yield f"{name}: the schema and linemap disagree ({refusal})"
    print(f"table: the schema was tried on {tried} tables")


def main():
    if len(sys.argv) != 2:
        sys.exit(__doc__.strip())
    program, faults = os.path.abspath(sys.argv[1]), 0
    for of in faults_of_rules, faults_of_answers, faults_of_schema:
        for fault in of(program):
            print(f"table: {fault}")
            faults += 1
    print(f"table: {faults} faults")
    return 1 if faults else 0


if __name__ == "__main__":
    sys.exit(main())
