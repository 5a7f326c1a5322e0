"""Which libraries each crate stands on, by `crates.txt`: for the tools that go by it."""
import functools
import pathlib

TOP = pathlib.Path(__file__).resolve().parent.parent


@functools.cache
def libraries():
    """The libraries on the line of each crate; one without a line of its own is the kit's. A word between the name and the colon says what kind of
    crate it is."""
    lines = [line.split("#")[0] for line in (TOP / "crates.txt").read_text(encoding="utf-8").splitlines()]
    return {said.split()[0]: rest.split() for said, mark, rest in (line.partition(":") for line in lines) if mark}


def cited(name):
    """The crates on the crate's line."""
    return [library for library in libraries()[name] if library in libraries()]


@functools.cache
def below(name):
    """All crates below this one, each after those below it."""
    return list(dict.fromkeys(found for crate in cited(name) for found in [*below(crate), crate]))
