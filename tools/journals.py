"""Reads what `biasrun check` reads, a program with a journal of it, and tells who held what, who waited, and who woke whom. For `tools/picture`
and `tools/trace`.

`read` gives a History. First it has the built program check the journal: its answer is raised as Refused where it isn't `legal ...`. Where the
program isn't built, or the caller wants no check, the journal still goes through a plain machine of the monitors here, so that what is told of it
makes sense: a line that is none of any entry, or that the objects' monitors don't allow, is refused in the words of `check`. That machine doesn't
know the program's code, and no slots.
"""
import argparse
import collections
import dataclasses
import pathlib
import re
import subprocess
import sys
from typing import List, Optional

TOP = pathlib.Path(__file__).resolve().parent.parent
BUILT = TOP / "crates" / "biasrun" / "out" / "biasrun"
MARKER = b"%journal\n"
PATHS = ("bias-own", "bias-taken", "stack-first", "stack-again", "monitor-first", "monitor-again")
FAULTS = ("NotInt", "Overflow", "NotRef", "TooDeep", "IllegalMonitorState", "Range", "Unguarded", "TooManyDumps", "TooMany")
ENDS = ("fault", "spent", "done")
MARKS = ("new", "print", "dump", "hash") + ENDS
STAMPS = range(1, 1 << 46)
INTEGERS = range(-(1 << 61), 1 << 61)
HASHES = range(1 << 32)
MADE = range(1024)  # the objects that a thread may make are numbered so

NAME = r"[A-Za-z_][A-Za-z0-9_]*"
NUMBER = r"(?:0|[1-9][0-9]{0,18})"
OBJECT_NAME = rf"{NAME}(?:\[{NUMBER}\]|\.{NUMBER})?"
OBJECT = rf"(?P<object>{OBJECT_NAME})"
VALUE = rf"(?P<value>-?[1-9][0-9]{{0,18}}|0|{OBJECT_NAME})"
LINE = re.compile(rf"@(?P<stamp>{NUMBER}) (?P<thread>{NAME}) (?P<kind>[a-z]+)(?P<rest>(?: \S+)*)")
FORMS = {
    "enter": rf" {OBJECT} (?P<path>{'|'.join(PATHS)})",
    "exit": f" {OBJECT}",
    "wait": f" {OBJECT}",
    "resume": f" {OBJECT}",
    "get": f" {OBJECT} {NUMBER} {VALUE}",
    "put": f" {OBJECT} {NUMBER} {VALUE}",
    "new": rf" {OBJECT} (?P<class>{NAME})",
    "notify": rf" {OBJECT} (?P<woken>{NAME})",
    "notifyall": rf" {OBJECT} (?P<count>{NUMBER})",
    "hash": rf" {OBJECT} (?P<hash>{NUMBER})(?: draw {NUMBER})?",
    "print": f" {VALUE}",
    "dump": rf" (?P<count>{NUMBER})",
    "fault": rf" (?P<fault>{'|'.join(FAULTS)}) at (?P<count>{NUMBER})",
    "spent": "",
    "done": "",
}
FORMS = {kind: re.compile(form) for kind, form in FORMS.items()}


class Refused(Exception):
    """The input is no program with a legal journal; says so as `check` does."""


# What a journal tells


@dataclasses.dataclass(frozen=True)
class Entry:
    number: int  # of its line in the journal, from 1
    stamp: int
    thread: str
    kind: str
    parts: dict  # what its form names: object, path, value, class, woken, count, hash, fault
    line: str

    @property
    def object(self):
        return self.parts.get("object")


@dataclasses.dataclass
class Stretch:
    """A part of a hold in which its depth doesn't change. The path is that of the last enter that hasn't been left."""

    begin: Entry
    depth: int
    path: str
    end: Optional[Entry] = None


@dataclasses.dataclass
class Hold:
    """A thread has an object's monitor, from taking it by an enter or a resume until it lets go of it by an exit or a wait."""

    thread: str
    object: str
    paths: List[str]  # of the enters that haven't been left
    stretches: List[Stretch]

    @property
    def begin(self):
        return self.stretches[0].begin

    @property
    def end(self):
        return self.stretches[-1].end

    def change(self, entry):
        """The entry changed the depth, or let go of the object where no enter is left."""
        self.stretches[-1].end = entry
        if self.paths:
            self.stretches.append(Stretch(entry, len(self.paths), self.paths[-1]))


@dataclasses.dataclass
class Wait:
    thread: str
    object: str
    begin: Entry
    paths: List[str]  # what the resume gives back
    notified: Optional[Entry] = None
    end: Optional[Entry] = None


@dataclasses.dataclass(frozen=True)
class Handover:
    """One thread let go of an object, and another one took it next."""

    last: Hold
    next: Hold


@dataclasses.dataclass(frozen=True)
class Notify:
    entry: Entry
    hold: Hold
    woken: List[Wait]


@dataclasses.dataclass
class History:
    """A list for each kind of thing that a journal tells, in the order of the journal."""

    threads: List[str]  # all of the program, in its order
    entries: List[Entry]
    holds: List[Hold] = dataclasses.field(default_factory=list)
    waits: List[Wait] = dataclasses.field(default_factory=list)
    handovers: List[Handover] = dataclasses.field(default_factory=list)
    notifies: List[Notify] = dataclasses.field(default_factory=list)
    slots: List[tuple] = dataclasses.field(default_factory=list)  # an entry that reads or writes a slot, and its hold
    marks: List[Entry] = dataclasses.field(default_factory=list)


# Reading lines


def halves(data):
    """The program, and the journal after the first line that is the marker."""
    at = 0 if data.startswith(MARKER) else data.find(b"\n" + MARKER) + 1
    if not data.startswith(MARKER, at):
        raise Refused("program: NoJournal")
    return data[:at], data[at + len(MARKER) :]


def is_made(word):
    """Whether it is the name of an object that a thread makes: the thread's name, a dot, and how many the thread has made before."""
    return "." in word


class Objects:
    """Which names of objects there may be: the declared ones, and those that threads make."""

    def __init__(self, threads, declared):
        self.threads, self.declared = set(threads), declared

    def __contains__(self, word):
        thread, _, place = word.partition(".")
        return word in self.declared or (is_made(word) and thread in self.threads and int(place) in MADE)


def declared(program):
    """The names of the threads, of the classes and of the objects of a program, whose lines are taken to be right."""
    threads, classes, objects = [], set(), set()
    for line in program.decode("latin-1").replace("\r\n", "\n").split("\n"):
        words = line.partition("#")[0].split()
        if words[:1] == ["thread"]:
            threads += words[1:2]
        elif words[:1] == ["class"]:
            classes |= set(words[1:2])
        elif words[:1] == ["object"]:
            objects |= set(words[1:2])
        elif words[:1] == ["array"] and words[3:4] and words[3].isdigit():
            objects |= {f"{words[1]}[{element}]" for element in range(min(int(words[3]), 4096))}
    return threads, classes, Objects(threads, objects)


def is_value(word, objects):
    return int(word) in INTEGERS if word.lstrip("-").isdigit() else word == "nil" or word in objects


def entry_of(number, line, threads, classes, objects):
    """The entry that a line tells; nothing where it tells none."""
    head = LINE.fullmatch(line)
    form = FORMS[head["kind"]].fullmatch(head["rest"]) if head and head["kind"] in FORMS else None
    if not form or head["thread"] not in threads or int(head["stamp"]) not in STAMPS:
        return None
    parts = {name: word for name, word in form.groupdict().items() if word is not None}
    fits = (
        "object" not in parts or parts["object"] in objects,
        is_value(parts.get("value", "nil"), objects),
        "class" not in parts or (parts["class"] in classes and is_made(parts["object"])),
        parts.get("woken", "none") in ["none", *threads],
        int(parts.get("hash", 0)) in HASHES,
    )
    return Entry(number, int(head["stamp"]), head["thread"], head["kind"], parts, line) if all(fits) else None


def entries_of(journal, threads, classes, objects):
    *lines, rest = journal.decode("latin-1").split("\n")
    entries = [entry_of(number, line, threads, classes, objects) for number, line in enumerate(lines, 1)]
    if None in entries:
        raise Refused(f"journal {entries.index(None) + 1}: unreadable")
    if rest:
        raise Refused(f"journal {len(lines) + 1}: unreadable")
    return entries


# Going through the entries


class NoStep(Exception):
    """The monitors don't allow an entry."""


class Monitors:
    """The monitors of all objects after some entries, and the history of these."""

    def __init__(self, history):
        self.history = history
        self.order = {thread: place for place, thread in enumerate(history.threads)}
        self.held = {}  # each object that a thread has: its hold
        self.taken = {}  # each object that was taken: the last hold of it
        self.waiting = collections.defaultdict(list)  # each object: the waits that nobody notified, the longest first
        self.asleep = {}  # each thread that waits: its wait
        self.made = collections.Counter()  # how many objects each thread has made
        self.ended = set()
        self.last = (0, -1)

    def step(self, entry):
        place = (entry.stamp, self.order[entry.thread])
        need(place > self.last and entry.thread not in self.ended)
        need((entry.thread in self.asleep) == (entry.kind == "resume"))
        self.last = place
        need(entry.kind == "new" or self.is_there(entry.object or ""))
        need(entry.kind == "get" or self.is_there(entry.parts.get("value", "")))
        if entry.kind == "new":
            self.new(entry)
        elif entry.kind in MARKS:
            self.mark(entry)
        elif entry.kind in ("get", "put"):
            self.history.slots.append((entry, self.own(entry)))
        else:
            getattr(self, entry.kind)(entry)

    def is_there(self, word):
        """Whether no object is named that a thread is still to make."""
        thread, _, place = word.partition(".")
        return not is_made(word) or int(place) < self.made[thread]

    def new(self, entry):
        need(entry.object == f"{entry.thread}.{self.made[entry.thread]}")
        self.made[entry.thread] += 1
        self.history.marks.append(entry)

    def own(self, entry):
        """The hold that the entry's thread has of its object."""
        hold = self.held.get(entry.object)
        need(hold is not None and hold.thread == entry.thread)
        return hold

    def take(self, entry, paths):
        hold = Hold(entry.thread, entry.object, paths, [Stretch(entry, len(paths), paths[-1])])
        before = self.taken.get(entry.object)
        if before is not None and before.thread != entry.thread:
            self.history.handovers.append(Handover(before, hold))
        self.held[entry.object] = self.taken[entry.object] = hold
        self.history.holds.append(hold)

    def enter(self, entry):
        if entry.object not in self.held:
            self.take(entry, [entry.parts["path"]])
        else:
            hold = self.own(entry)
            hold.paths.append(entry.parts["path"])
            hold.change(entry)

    def exit(self, entry):
        hold = self.own(entry)
        hold.paths.pop()
        hold.change(entry)
        if not hold.paths:
            del self.held[entry.object]

    def wait(self, entry):
        hold = self.own(entry)
        wait = Wait(entry.thread, entry.object, entry, hold.paths)
        hold.paths = []
        hold.change(entry)
        del self.held[entry.object]
        self.waiting[entry.object].append(wait)
        self.asleep[entry.thread] = wait
        self.history.waits.append(wait)

    def resume(self, entry):
        wait = self.asleep.pop(entry.thread)
        need(wait.object == entry.object and wait.notified is not None and entry.object not in self.held)
        wait.end = entry
        self.take(entry, list(wait.paths))

    def wake(self, entry, count):
        """The threads that have waited longest for the entry's object, as many as it wakes, are notified."""
        hold, waiting = self.own(entry), self.waiting[entry.object]
        woken, self.waiting[entry.object] = waiting[:count], waiting[count:]
        for wait in woken:
            wait.notified = entry
        self.history.notifies.append(Notify(entry, hold, woken))
        return woken

    def notify(self, entry):
        # A thread may be named `none`: then the word means it where it is the one that has waited longest.
        woken = self.wake(entry, 1)
        need(entry.parts["woken"] == (woken[0].thread if woken else "none"))

    def notifyall(self, entry):
        need(len(self.wake(entry, len(self.waiting[entry.object]))) == int(entry.parts["count"]))

    def mark(self, entry):
        if entry.kind in ENDS:
            need(all(hold.thread != entry.thread for hold in self.held.values()))
            self.ended.add(entry.thread)
        self.history.marks.append(entry)


def need(allowed):
    if not allowed:
        raise NoStep


def history_of(data):
    """The history that a program with a journal tells."""
    program, journal = halves(data)
    threads, classes, objects = declared(program)
    history = History(threads, entries_of(journal, threads, classes, objects))
    monitors = Monitors(history)
    for entry in history.entries:
        try:
            monitors.step(entry)
        except NoStep:
            raise Refused(f"journal {entry.number}: no step") from None
    return history


# The command line that both tools have


def check(data, options):
    """Has the built program check the input, where there is one."""
    if BUILT.is_file():
        answer = subprocess.run([BUILT, "check", *options], input=data, capture_output=True).stdout.decode(errors="replace")
        if not answer.startswith("legal "):
            raise Refused(answer.rstrip("\n"))


def arguments(usage):
    """A parser of the arguments that both tools take."""
    parser = argparse.ArgumentParser(description=usage, formatter_class=argparse.RawDescriptionHelpFormatter, allow_abbrev=False)
    parser.add_argument("journal", metavar="JOURNAL", help="a program, the line %%journal, and a journal of it; - is standard input")
    parser.add_argument("-o", dest="output", metavar="FILE", help="write to this file, and not to standard output")
    parser.add_argument("--fuel", metavar="N", help="the fuel of the run, for `check`")
    parser.add_argument("--hash-start", metavar="N", help="what the run's generators of hashes start from, for `check`")
    parser.add_argument("--unchecked", action="store_true", help="don't ask `biasrun check`, but only whether the monitors allow each entry")
    return parser


def read(given):
    """The history of the journal that the arguments name."""
    data = sys.stdin.buffer.read() if given.journal == "-" else pathlib.Path(given.journal).read_bytes()
    options = [f"--fuel={given.fuel}"] * (given.fuel is not None) + [f"--hash-start={given.hash_start}"] * (given.hash_start is not None)
    if not given.unchecked:
        check(data, options)
    return history_of(data)


def write(given, make):
    """Writes what is made of the journal, and gives the status of the tool."""
    try:
        text = make(read(given)).encode()
        if given.output is None:
            sys.stdout.buffer.write(text)
        else:
            pathlib.Path(given.output).write_bytes(text)
    except (Refused, OSError) as cause:
        print(cause, file=sys.stderr)
        return 1
    return 0
