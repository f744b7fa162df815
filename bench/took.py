#!/usr/bin/env python3
"""Measures commands side by side: the processor time and the peak memory of whole processes.

usage: bench/took.py ROUNDS SECONDS [own] < COMMANDS

Each line of COMMANDS is a name, a file to read, a file to write, and the words of a command, with tabs between them. A command runs
once for its peak memory, and then ROUNDS times in turn with the others. A line for each says its name, its least processor time, of the
user and of the system, in microseconds, and the memory in KiB; or its name and why there are none: a run took more than SECONDS of
processor time, or ended with a status other than 0. With `own` there is also the most memory in KiB that was mapped of no file
(RssAnon), of further runs, during which it is looked at again and again.
"""
import os
import re
import resource
import signal
import subprocess
import sys
import tempfile
import time


# How often a command runs for the memory that is its own, and for how many seconds at the least: a short run is soon over.
OWN_RUNS, OWN_SECONDS = 3, 1


def fault(status, seconds):
    """Why a run with this status has no figures."""
    if not status:
        return None
    is_over = status in (-signal.SIGXCPU, -signal.SIGKILL, 128 + signal.SIGXCPU, 128 + signal.SIGKILL)
    return f"over {seconds} s" if is_over else f"status {status}"


def peak(words, reads, writes, seconds):
    """The peak memory of a command in KiB, and why it has none. GNU time starts it, since what Python starts counts Python's too."""
    with open(reads, "rb") as given, open(writes, "wb") as out, tempfile.NamedTemporaryFile("r") as said:
        run = ["/usr/bin/time", "-q", "-f", "%M", "-o", said.name, "prlimit", f"--cpu={seconds}", *words]
        why = fault(subprocess.run(run, stdin=given, stdout=out, stderr=subprocess.DEVNULL).returncode, seconds)
        return None if why else int(said.read()), why


def own_memory(words, reads, writes, seconds):
    """The most memory of a command, in KiB, that was mapped of no file."""
    most, runs, began = 0, 0, time.monotonic()
    while runs < OWN_RUNS or time.monotonic() - began < OWN_SECONDS:
        runs += 1
        with open(reads, "rb") as given, open(writes, "wb") as out:
            run = subprocess.Popen(words, stdin=given, stdout=out, stderr=subprocess.DEVNULL)
            resource.prlimit(run.pid, resource.RLIMIT_CPU, (seconds, seconds))
            with open(f"/proc/{run.pid}/status", encoding="utf-8") as status:
                while run.poll() is None:
                    status.seek(0)
                    found = re.search(r"RssAnon:\s+(\d+)", status.read())
                    most = max(most, int(found[1]) if found else 0)
    return most


def processor_time(words, reads, writes, seconds):
    """The processor time of a run in microseconds, and why it has none."""
    with open(reads, "rb") as given, open(writes, "wb") as out:
        run = subprocess.Popen(words, stdin=given, stdout=out, stderr=subprocess.DEVNULL)
        resource.prlimit(run.pid, resource.RLIMIT_CPU, (seconds, seconds))
        _, status, usage = os.wait4(run.pid, 0)
        run.returncode = os.waitstatus_to_exitcode(status)
    return round((usage.ru_utime + usage.ru_stime) * 1e6), fault(run.returncode, seconds)


def main():
    if len(sys.argv) not in (3, 4) or sys.argv[3:] not in ([], ["own"]):
        return __doc__
    rounds, seconds = int(sys.argv[1]), int(sys.argv[2])
    commands = [line.rstrip("\n").split("\t") for line in sys.stdin]
    memory, least, why = {}, {}, {}
    for name, reads, writes, *words in commands:
        memory[name], why[name] = peak(words, reads, writes, seconds)
    for _ in range(rounds):
        for name, reads, writes, *words in commands:
            if not why[name]:
                took, why[name] = processor_time(words, reads, writes, seconds)
                least[name] = min(took, least.get(name, took))
    for name, reads, writes, *words in commands:
        figures = [why[name]] if why[name] else [least[name], memory[name]]
        if sys.argv[3:] and not why[name]:
            figures.append(own_memory(words, reads, writes, seconds))
        print(name, *figures, sep="\t")
    return 0


if __name__ == "__main__":
    sys.exit(main())
