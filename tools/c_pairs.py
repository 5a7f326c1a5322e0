"""Counts for `tools/bench --c` how many instructions the calls of the library for C take, by callgrind: what other work the machine has doesn't change that.

A figure is the difference of two loops of a call, or of a pair of enter and exit, over the difference of their lengths. So it has the instructions of the loop around
the call, which tests the answer. The pairs of one thread go all by one path, first ones where the thread doesn't hold the object and nested ones where it does.
"""
import pathlib
import re
import subprocess
import tempfile

from c_programs import Wrong, compiled

SHORT, LONG, PAGE = 1000, 5000, 400_000
PAIRS = {
    "a pair by the thread's own bias": ("bias", "bias-again"),
    "a pair by a lock record": ("record", "record-again"),
    "a pair by an inflated monitor": ("monitor", "monitor-again"),
}
CALLS = {"a get": "get", "a put": "put", "a poll": "poll"}
MUTEXES = {"`pthread_mutex_lock` and `unlock`": "mutex-after", "the same before the process has started a thread": "mutex"}


def instructions(program, words, room):
    """How many instructions callgrind counts of this call."""
    counts = room / "callgrind.out"
    tool = ["valgrind", "--tool=callgrind", f"--callgrind-out-file={counts}", program, *map(str, words)]
    ran = subprocess.run(tool, stdin=subprocess.DEVNULL, capture_output=True, text=True)
    if ran.returncode != 0:
        raise Wrong(f"{' '.join(map(str, tool))}: status {ran.returncode}\n{ran.stderr}")
    return int(re.search(r"^(?:totals|summary): (\d+)", counts.read_text(), re.MULTILINE)[1])


def of_one(program, way, page, room):
    """How many instructions one turn of this way's loop takes."""
    long, short = (instructions(program, (way, page, turns), room) for turns in (LONG, SHORT))
    return f"{(long - short) / (LONG - SHORT):.0f}"


def table(program, room):
    """The rows of the table of docs/LIBRARY.md."""

    def count(way, page):
        return of_one(program, way, page, room)

    yield "| Instructions | with a log | nested | without a log | nested |"
    yield "|---|---|---|---|---|"
    for name, (first, again) in PAIRS.items():
        yield f"| {name} | " + " | ".join(count(way, page) for page in (PAGE, 0) for way in (first, again)) + " |"
    for name, way in CALLS.items():
        yield f"| {name} | {count(way, PAGE)} | | {count(way, 0)} | |"
    for name, way in MUTEXES.items():
        yield f"| {name} | | | {count(way, 0)} | |"


def main(library):
    """Prints the table, over this library or over one that is built."""
    with tempfile.TemporaryDirectory(prefix="biasrun-") as room:
        room = pathlib.Path(room)
        try:
            for row in table(compiled("c_pairs.c", library, room), room):
                print(row, flush=True)
        except Wrong as cause:
            print(f"WRONG: {cause}")
            return 1
    return 0
