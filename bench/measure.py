"""Measures an engine at two lengths. What is done once, the start of the process and the load, is in both and so not in the difference;
divided by the difference of what was done, completed statements or operations, it is a figure for one of them."""
import os
import re
import statistics
import subprocess
from collections import namedtuple

# name; command(given) gives the words that do what is measured; by_stdin: what is given is a file for standard input
Engine = namedtuple("Engine", "name command by_stdin")
# what is given to the engine, a file or a number, and how much that makes it do
Run = namedtuple("Run", "given count")


def started(engine, given, words=(), **rest):
    with open(given if engine.by_stdin else os.devnull, "rb") as stdin:
        return subprocess.Popen([*words, *engine.command(given)], stdin=stdin, **rest)


def printed(engine, given):
    process = started(engine, given, stdout=subprocess.PIPE, text=True)
    line = process.communicate()[0].strip()
    if process.returncode != 0:
        raise SystemExit(f"{engine.name} fails on {given}")
    return line


def instructions_of(engine, given):
    words = ["valgrind", "--tool=callgrind", "--callgrind-out-file=/dev/null"]
    process = started(engine, given, words, stdout=subprocess.DEVNULL, stderr=subprocess.PIPE, text=True)
    report = process.communicate()[1]
    collected = re.search(r"Collected : (\d+)", report)
    if not collected:
        raise SystemExit(f"valgrind fails on {engine.name} with {given}:\n{report}")
    return int(collected.group(1))


def seconds_of(engine, given):
    """The processor time of the whole process, which other processes add little to."""
    process = started(engine, given, stdout=subprocess.DEVNULL)
    _, status, usage = os.wait4(process.pid, 0)
    process.returncode = os.waitstatus_to_exitcode(status)
    if process.returncode != 0:
        raise SystemExit(f"{engine.name} fails on {given}")
    return usage.ru_utime + usage.ru_stime


def instructions(engine, short, long):
    """Instructions for one."""
    difference = instructions_of(engine, long.given) - instructions_of(engine, short.given)
    return difference / (long.count - short.count)


def spread(times):
    """About the standard error of the median: by the median of the distances from it, which outliers don't move."""
    middle = statistics.median(times)
    return 1.86 * statistics.median(abs(time - middle) for time in times) / len(times) ** 0.5


def nanoseconds(engine, short, long, repeats):
    """Nanoseconds for one, and how far that may be off: the difference of the medians, short and long runs taken in turn."""
    times = [(seconds_of(engine, short.given), seconds_of(engine, long.given)) for _ in range(repeats)]
    columns = list(zip(*times))
    difference = statistics.median(columns[1]) - statistics.median(columns[0])
    each = 1e9 / (long.count - short.count)
    return difference * each, (spread(columns[0]) + spread(columns[1])) * each
