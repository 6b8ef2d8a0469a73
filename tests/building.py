"""What the tests build: programs and shared objects of crates, and C programs over the static library. Each crate is built once a run: rt takes some
seconds to see that it has nothing to prove."""

import subprocess
import sys
from functools import lru_cache
from pathlib import Path

REPOSITORY = Path(__file__).resolve().parent.parent
TARGET = REPOSITORY / "target"
SANITIZERS = "-fsanitize=address,undefined"


def run(*command, folder=REPOSITORY):
    """Ends the tests with what the command said where it fails."""
    TARGET.mkdir(exist_ok=True)
    try:
        done = subprocess.run(command, cwd=folder, text=True, stdin=subprocess.DEVNULL, stdout=subprocess.PIPE, stderr=subprocess.STDOUT)
        said, failed = done.stdout, done.returncode != 0
    except OSError as error:
        said, failed = str(error), True
    if failed:
        sys.exit(f"{said}\ntests: '{' '.join(map(str, command))}' failed: the tests need rt, as cc a C compiler with the address and "
                 "undefined-behaviour sanitizers, and as c++ one for C++")


def made(crate, verb, name):
    """What rt makes in a crate's out/. It proves the crates below and the crate first, unless that is done already."""
    folder = REPOSITORY / "crates" / crate
    run("rt", verb, folder=folder)
    return folder / "out" / name


@lru_cache(maxsize=None)
def program(crate):
    """The program of a crate, which rt also runs when it has built it, here on no input."""
    return made(crate, "run", crate)


@lru_cache(maxsize=None)
def archive(crate):
    """A crate's static library."""
    return made(crate, "lib", f"lib{crate}.a")


def shared_object(crate):
    shared = TARGET / f"lib{crate}.so"
    run("cc", "-shared", "-o", shared, "-Wl,--whole-archive", archive(crate), "-Wl,--no-whole-archive", "-Wl,-z,defs")  # defs: nothing left unlinked
    return shared


def c_program(source, to, *flags, compiler="cc", crates=("passign_c",)):
    """A C program over include/passign.h and the static libraries of crates. A flag may be one more source."""
    run(compiler, "-O1", "-g", "-Wall", "-Wextra", "-Werror", "-fno-sanitize-recover=all", *flags, f"-I{REPOSITORY}/include", REPOSITORY / source,
        *map(archive, crates), "-o", to)
    return to
