"""Builds a C program of tools/ over the library for C, for `tools/c_fight` and `tools/bench --c`, as `examples/c/build.sh` builds the examples."""
import importlib.machinery
import importlib.util
import os
import pathlib
import shlex

from crates import TOP

HERE = pathlib.Path(__file__).resolve().parent


class Wrong(Exception):
    """Something isn't as it has to be."""


def examples():
    """tools/c_examples, which knows how the library is built and where the kit is."""
    loader = importlib.machinery.SourceFileLoader("c_examples", str(HERE / "c_examples"))
    module = importlib.util.module_from_spec(importlib.util.spec_from_loader("c_examples", loader))
    loader.exec_module(module)
    return module


def compiled(source, library, room):
    """The program of this source, over this library, or over one that is built where there is none, which takes minutes."""
    known, to = examples(), room / source.removesuffix(".c")
    compiler, flags = (shlex.split(os.environ.get(name, usual)) for name, usual in (("CC", "cc"), ("CFLAGS", "-O2")))
    flags += ["-std=c11", "-D_DEFAULT_SOURCE", "-Wall", "-Wextra", "-I", TOP / "include", "-I", TOP / "examples" / "c"]
    if not known.has_compiler():
        raise Wrong("there is no C compiler here")
    try:
        library = library or known.built(room / "liblock_runtime_c.a")
        known.done([*compiler, *flags, HERE / source, library, known.kit() / "c" / "liblibc_c.a", "-lpthread", "-o", to])
    except known.Wrong as cause:
        raise Wrong(cause)
    return to
