"""What the scripts of this folder share: crates.txt, the crates' files, and how many checks to run at a time."""
import functools
import os
import re
import shutil

TOP = os.path.dirname(os.path.dirname(os.path.realpath(__file__)))
PARTS = ("src", "specs", "proofs")
# The most memory that a check is planned to take, in bytes.
MEMORY = 3_000_000_000


@functools.lru_cache(None)
def lines():
    """Returns each line of crates.txt by the crate that it is of."""
    with open(f"{TOP}/crates.txt", encoding="utf-8") as file:
        texts = [line.partition("#")[0].strip() for line in file]
    return {re.match(r"\w+", text)[0]: text for text in texts if text}


@functools.lru_cache(None)
def below(name):
    """Returns the crates of this repository that a crate needs, directly or by another."""
    direct = [it for it in lines()[name].partition(":")[2].split() if it in lines()]
    return frozenset(direct).union(*map(below, direct))


def lowest_first(names):
    return sorted(names, key=lambda it: (len(below(it)), it))


def sources(name):
    """Returns the files that a check of the crate reads."""
    found = []
    for part in PARTS:
        for folder, _, names in os.walk(f"{TOP}/crates/{name}/{part}"):
            found += [f"{folder}/{it}" for it in names]
    return sorted(found)


def bytes_of(file):
    """Returns what a file holds, or nothing where there is no such file."""
    try:
        with open(file, "rb") as it:
            return it.read()
    except OSError:
        return b""


def processors():
    return len(os.sched_getaffinity(0))


def at_a_time(wanted):
    """Returns how many checks to run at a time: RT_JOBS, if that is set, else as many as wanted and as memory holds."""
    fixed = os.environ.get("RT_JOBS", "")
    if re.fullmatch("[1-9][0-9]?", fixed):
        return int(fixed)
    free = re.search(rb"MemAvailable:\s+(\d+)", bytes_of("/proc/meminfo"))
    return max(1, min(wanted, 1024 * int(free[1]) // MEMORY if free else 1))


def copy_folder(name, part, to, how):
    """Copies a folder of a crate, where there is one, to the same place in another repository, each file by how."""
    if os.path.isdir(f"{TOP}/crates/{name}/{part}"):
        shutil.copytree(f"{TOP}/crates/{name}/{part}", f"{to}/crates/{name}/{part}", copy_function=how)


def link(file, to):
    """Links a file, or copies it where that can't be done."""
    try:
        os.link(file, to)
    except OSError:
        shutil.copy2(file, to)
