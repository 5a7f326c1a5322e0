"""Calls the built program for `tools/fuzz`, `tools/faults` and `tools/limits`, which try what nobody asks of it in good faith, and for others outside
of the gate.

`call` gives what the program answers. Whatever it is called with, it has to end by itself within ten seconds, with a status of the table in
docs/OPTIONS.md, and has to leave standard error alone; where it doesn't, Wrong is raised.
"""
import dataclasses
import pathlib
import signal
import subprocess

TOP = pathlib.Path(__file__).resolve().parent.parent
EXAMPLES = TOP / "examples"
BUILT = TOP / "crates" / "biasrun" / "out" / "biasrun"
MARKER = b"%journal\n"
STATUSES = range(9)
MOST_OF_TEXT = 1_048_576  # bytes of a program
MOST_OF_JOURNAL = 67_108_864  # bytes of a program with its journal
SECONDS = 10
SHOWN = 400  # bytes of what is written that a message shows


class Wrong(Exception):
    """The program doesn't do what it has to."""


@dataclasses.dataclass(frozen=True)
class Answer:
    """The status of a call, and what it wrote to standard output."""

    status: int
    written: bytes

    def __str__(self):
        rest = f" and {len(self.written) - SHOWN} bytes more" if len(self.written) > SHOWN else ""
        return f"status {self.status} and {self.written[:SHOWN]!r}{rest}"


def built():
    """The built program. `./biasrun` builds it where it isn't built or is older than a source."""
    build = subprocess.run([TOP / "biasrun", "make", "1"], stdin=subprocess.DEVNULL, capture_output=True)
    if build.returncode != 0 or not BUILT.is_file():
        raise Wrong("./biasrun doesn't build:\n" + build.stderr.decode(errors="replace"))
    return BUILT


def signal_of(status):
    """The name of the signal by which a process with this status of `subprocess` died."""
    return signal.Signals(-status).name if -status in set(signal.Signals) else f"signal {-status}"


def judged(status, written, errors):
    """The answer of a process that ended so."""
    if status < 0:
        raise Wrong(f"it dies by {signal_of(status)}")
    if errors:
        raise Wrong(f"it writes to standard error: {errors[:SHOWN]!r}")
    if status not in STATUSES:
        raise Wrong(f"its status is {status}, which docs/OPTIONS.md doesn't have")
    return Answer(status, written)


def call(program, words, text, seconds=SECONDS, **settings):
    """What the program answers to these arguments and this text, which it reads from a pipe. Settings are those of `subprocess.run`."""
    try:
        done = subprocess.run([program, *words], input=text, capture_output=True, timeout=seconds, **settings)
    except subprocess.TimeoutExpired:
        raise Wrong(f"it doesn't end within {seconds} seconds")
    return judged(done.returncode, done.stdout, done.stderr)


def expect(answer, due, where=""):
    """The answer has to be this one, where that is said."""
    if answer != due:
        raise Wrong(f"{where}{': ' * bool(where)}it answers {answer}, and not {due}")
